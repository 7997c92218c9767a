//! Where nodes were last seen: for climbs, for leases by path, and for what a refusal tells.

use crate::name::Name;
use crate::node::{GREATEST_NUMBER, ROOT};
use std::collections::HashMap;

/// The name under which each node was last seen. Of a directory that is its one name, unless another client has moved it.
#[derive(Clone, Debug, Default)]
pub struct Paths {
    /// As a server has shown it.
    shown: HashMap<u32, (u32, Name)>,
    /// As the log has named it since.
    named: HashMap<u32, (u32, Name)>,
}

/// What a climb from a directory to the root met.
#[derive(Clone, Copy, Debug, PartialEq, Eq)]
pub enum Climb {
    /// The node that was asked for.
    Met,
    /// The root, and not that node.
    Passed,
    /// A directory of which no name was ever seen.
    Unplaced(u32),
}

impl Paths {
    /// A server has shown that a name leads to this node.
    pub fn see(&mut self, directory: u32, name: &Name, number: u32) {
        put(&mut self.shown, directory, name, number);
    }

    /// By the log a name leads to this node.
    pub fn name(&mut self, directory: u32, name: &Name, number: u32) {
        put(&mut self.named, directory, name, number);
    }

    /// By the log a name doesn't lead to this node any more.
    pub fn lose(&mut self, directory: u32, name: &Name, number: u32) {
        if leads(&self.named, directory, name, number) {
            self.named.remove(&number);
        }
    }

    /// The log was done, so a server shows what it has named.
    pub fn land(&mut self) {
        self.shown.extend(self.named.drain());
    }

    /// The log is another one.
    pub fn forget_log(&mut self) {
        self.named.clear();
    }

    /// What a server has shown, for another log.
    pub(crate) fn lend(&mut self) -> Paths {
        Paths { shown: std::mem::take(&mut self.shown), named: HashMap::new() }
    }

    /// Takes back what was lent.
    pub(crate) fn take_back(&mut self, lent: Paths) {
        self.shown = lent.shown;
    }

    fn last(&self, number: u32) -> Option<&(u32, Name)> {
        self.named.get(&number).or_else(|| self.shown.get(&number))
    }

    /// The directory in which a node was last seen.
    pub fn parent(&self, number: u32) -> Option<u32> {
        if number == ROOT {
            return Some(ROOT);
        }
        self.last(number).map(|(directory, _)| *directory)
    }

    /// Whether a way up from a directory meets a node.
    pub fn climb(&self, from: u32, node: u32) -> Climb {
        let mut at = from;
        // A way up has no more steps than there are nodes, unless what was seen is out of date.
        for _ in 0..GREATEST_NUMBER {
            if at == node {
                return Climb::Met;
            }
            if at == ROOT {
                return Climb::Passed;
            }
            at = match self.parent(at) {
                Some(above) => above,
                None => return Climb::Unplaced(at),
            };
        }
        Climb::Unplaced(at)
    }

    /// The path to a node.
    pub fn path(&self, number: u32) -> Option<Vec<u8>> {
        path_by(number, |at| self.last(at))
    }

    /// The path by which the server knows a node: that from before the log.
    pub fn path_shown(&self, number: u32) -> Option<Vec<u8>> {
        path_by(number, |at| self.shown.get(&at))
    }
}

fn leads(known: &HashMap<u32, (u32, Name)>, directory: u32, name: &Name, number: u32) -> bool {
    matches!(known.get(&number), Some((at, known)) if *at == directory && known == name)
}

fn put(known: &mut HashMap<u32, (u32, Name)>, directory: u32, name: &Name, number: u32) {
    if !leads(known, directory, name, number) {
        known.insert(number, (directory, name.clone()));
    }
}

/// The path to a node, as the desk's call for a lease has it, where this tells the directory and the name of each.
fn path_by<'a>(number: u32, stands: impl Fn(u32) -> Option<&'a (u32, Name)>) -> Option<Vec<u8>> {
    if number == ROOT {
        return Some(b"/".to_vec());
    }
    let (mut names, mut at) = (Vec::new(), number);
    while at != ROOT {
        let (directory, name) = stands(at)?;
        if names.len() as u32 > GREATEST_NUMBER {
            return None;
        }
        names.push(name);
        at = *directory;
    }
    let mut path = Vec::new();
    for name in names.into_iter().rev() {
        path.push(b'/');
        path.extend_from_slice(name.as_bytes());
    }
    Some(path)
}

#[cfg(test)]
mod tests {
    use super::*;

    #[test]
    fn paths_and_climbs() {
        let name = |bytes: &[u8]| Name::new(bytes).unwrap();
        let mut paths = Paths::default();
        paths.see(1, &name(b"a"), 5);
        paths.see(5, &name(b"b"), 6);
        assert_eq!(paths.path(6).unwrap(), b"/a/b");
        assert_eq!(paths.path(1).unwrap(), b"/");
        assert_eq!(paths.path(7), None);
        assert_eq!(paths.climb(6, 5), Climb::Met);
        assert_eq!(paths.climb(6, 7), Climb::Passed);
        paths.see(8, &name(b"c"), 9);
        assert_eq!(paths.climb(9, 5), Climb::Unplaced(8));
    }

    #[test]
    fn a_server_knows_paths_from_before_the_log() {
        let name = |bytes: &[u8]| Name::new(bytes).unwrap();
        let mut paths = Paths::default();
        paths.see(1, &name(b"a"), 5);
        paths.see(5, &name(b"b"), 6);
        paths.name(1, &name(b"c"), 5);
        assert_eq!((paths.path(6).unwrap(), paths.path_shown(6).unwrap()), (b"/c/b".to_vec(), b"/a/b".to_vec()));
        paths.name(1, &name(b"d"), 6);
        assert_eq!((paths.parent(6), paths.path_shown(6).unwrap()), (Some(1), b"/a/b".to_vec()));
        paths.lose(1, &name(b"d"), 6);
        assert_eq!(paths.path(6).unwrap(), b"/c/b");
        let mut anew = paths.clone();
        anew.forget_log();
        assert_eq!(anew.path(6).unwrap(), b"/a/b");
        paths.land();
        assert_eq!(paths.path_shown(6).unwrap(), b"/c/b");
    }
}

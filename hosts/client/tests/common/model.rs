//! A plain model: the whole tree in two maps, each rule asked of all of it, each file's bytes as they are.

use kfs_client::client::Access;
use kfs_client::entry::Entry;
use kfs_client::judge::Held;
use kfs_client::{Client, Header, Kind, Name, Reason};
use std::collections::{BTreeMap, BTreeSet};

#[derive(Clone, Debug, PartialEq)]
pub struct Node {
    pub kind: Kind,
    pub mode: u16,
    pub uid: u32,
    pub gid: u32,
    pub bytes: Vec<u8>,
}

#[derive(Clone, Debug, PartialEq)]
pub struct Model {
    pub nodes: BTreeMap<u32, Node>,
    pub names: BTreeMap<(u32, Name), u32>,
}

/// The nodes that a client has leases on.
#[derive(Clone, Debug, Default)]
pub struct Leased(pub BTreeSet<u32>);

impl Held for Leased {
    fn holds(&self, number: u32) -> bool {
        self.0.contains(&number)
    }
}

fn check(passes: bool, reason: Reason) -> Result<(), Reason> {
    passes.then_some(()).ok_or(reason)
}

impl Model {
    pub fn fresh() -> Model {
        let root = Node { kind: Kind::Directory, mode: 0o777, uid: 0, gid: 0, bytes: Vec::new() };
        Model { nodes: BTreeMap::from([(1, root)]), names: BTreeMap::new() }
    }

    pub fn header(&self, number: u32) -> Option<Header> {
        let node = self.nodes.get(&number)?;
        let links = match node.kind {
            Kind::File => self.links(number) as u16,
            Kind::Directory => 1,
        };
        Some(Header { kind: node.kind, mode: node.mode, uid: node.uid, gid: node.gid, links, size: node.bytes.len() as u64 })
    }

    pub fn bytes(&self, number: u32) -> &[u8] {
        &self.nodes[&number].bytes
    }

    pub fn listed(&self, directory: u32) -> Vec<(Name, u32)> {
        let in_it = self.names.iter().filter(|((holder, _), _)| *holder == directory);
        in_it.map(|((_, name), number)| (name.clone(), *number)).collect()
    }

    fn links(&self, number: u32) -> usize {
        self.names.values().filter(|target| **target == number).count()
    }

    fn parent(&self, number: u32) -> Option<u32> {
        self.names.iter().find(|(_, target)| **target == number).map(|((holder, _), _)| *holder)
    }

    fn drop_unnamed(&mut self, number: u32) {
        if number != 1 && self.links(number) == 0 {
            self.nodes.remove(&number);
        }
    }
}

/// A client's log, entry by entry, over a model.
pub struct Run<'a> {
    pub before: &'a Model,
    pub model: Model,
    pub created: BTreeSet<u32>,
    pub client: &'a Client,
    pub leased: &'a Leased,
}

impl<'a> Run<'a> {
    pub fn new(before: &'a Model, client: &'a Client, leased: &'a Leased) -> Run<'a> {
        Run { before, model: before.clone(), created: BTreeSet::new(), client, leased }
    }

    fn header(&self, number: u32) -> Result<Header, Reason> {
        self.model.header(number).ok_or(Reason::NoSuchNode)
    }

    fn directory(&self, number: u32) -> Result<(), Reason> {
        check(self.header(number)?.is_directory(), Reason::NotDirectory)
    }

    fn file(&self, number: u32) -> Result<(), Reason> {
        check(!self.header(number)?.is_directory(), Reason::IsDirectory)
    }

    fn may(&self, number: u32, access: Access, reason: Reason) -> Result<(), Reason> {
        check(self.client.may(&self.header(number)?, access), reason)
    }

    fn write(&self, number: u32) -> Result<(), Reason> {
        let is_own = self.created.contains(&number) && !self.header(number)?.is_directory();
        if is_own {
            return Ok(());
        }
        self.may(number, Access::Write, Reason::NoWrite)
    }

    fn lease(&self, number: u32) -> Result<(), Reason> {
        check(self.created.contains(&number) || self.leased.holds(number), Reason::NoLease(number))
    }

    fn sticky(&self, directory: u32, number: u32) -> Result<(), Reason> {
        let (holder, node) = (self.header(directory)?, self.header(number)?);
        let is_free = holder.mode & 0o1000 == 0 || self.client.owns(&holder) || self.client.owns(&node);
        check(is_free, Reason::Sticky)
    }

    fn of_kind(&self, number: u32, kind: Kind) -> Result<(), Reason> {
        match kind {
            Kind::File => self.file(number),
            Kind::Directory => self.directory(number),
        }
    }

    fn goes(&self, directory: u32, number: u32, kind: Kind) -> Result<(), Reason> {
        self.of_kind(number, kind)?;
        self.sticky(directory, number)?;
        self.lease(number)?;
        check(kind == Kind::File || self.model.listed(number).is_empty(), Reason::NotEmpty)
    }

    fn changed_directory(&self, number: u32) -> Result<(), Reason> {
        self.directory(number)?;
        self.may(number, Access::Search, Reason::NoSearch)?;
        self.write(number)?;
        self.lease(number)
    }

    fn changed_file(&self, number: u32) -> Result<(), Reason> {
        self.file(number)?;
        self.write(number)?;
        self.lease(number)
    }

    fn owned(&self, number: u32) -> Result<(), Reason> {
        check(self.client.owns(&self.header(number)?), Reason::NotOwner)
    }

    fn node(&mut self, number: u32) -> &mut Node {
        self.model.nodes.get_mut(&number).unwrap()
    }

    pub fn enter(&mut self, entry: &Entry) -> Result<(), Reason> {
        match entry.clone() {
            Entry::Create { directory, name, number, kind, mode } => self.create(directory, name, number, kind, mode),
            Entry::Write { number, offset, payload } => {
                self.changed_file(number)?;
                let end = offset as u128 + payload.len() as u128;
                check(payload.is_empty() || end <= 1 << 32, Reason::TooBig)?;
                if !payload.is_empty() {
                    let bytes = &mut self.node(number).bytes;
                    bytes.resize(bytes.len().max(end as usize), 0);
                    bytes[offset as usize..end as usize].copy_from_slice(&payload);
                }
                Ok(())
            }
            Entry::Truncate { number, size } => {
                self.changed_file(number)?;
                check(size <= 1 << 32, Reason::TooBig)?;
                self.node(number).bytes.resize(size as usize, 0);
                Ok(())
            }
            Entry::Link { number, directory, name } => {
                self.file(number)?;
                self.changed_directory(directory)?;
                self.lease(number)?;
                check(!self.model.names.contains_key(&(directory, name.clone())), Reason::NameTaken)?;
                check(self.model.links(number) < 1024, Reason::TooManyLinks)?;
                self.model.names.insert((directory, name), number);
                Ok(())
            }
            Entry::Unlink { directory, name, kind } => {
                self.changed_directory(directory)?;
                let key = (directory, name);
                let number = *self.model.names.get(&key).ok_or(Reason::NoSuchName)?;
                self.goes(directory, number, kind)?;
                self.model.names.remove(&key);
                self.model.drop_unnamed(number);
                Ok(())
            }
            Entry::Rename { directory, name, new_directory, new_name } => {
                self.rename((directory, name), (new_directory, new_name))
            }
            Entry::Chmod { number, mode } => {
                self.owned(number)?;
                self.lease(number)?;
                self.node(number).mode = mode;
                Ok(())
            }
            Entry::Regroup { number, group } => {
                self.owned(number)?;
                check(self.client.is_privileged || self.client.is_in(group), Reason::NotInGroup)?;
                self.lease(number)?;
                self.node(number).gid = group;
                Ok(())
            }
        }
    }

    fn create(&mut self, directory: u32, name: Name, number: u32, kind: Kind, mode: u16) -> Result<(), Reason> {
        self.changed_directory(directory)?;
        check(!self.model.names.contains_key(&(directory, name.clone())), Reason::NameTaken)?;
        check(self.client.is_granted(number), Reason::NumberNotGranted)?;
        let is_free = !self.before.nodes.contains_key(&number) && self.created.insert(number);
        check(is_free, Reason::NumberTaken)?;
        let (uid, gid) = (self.client.uid, self.client.gid);
        self.model.nodes.insert(number, Node { kind, mode, uid, gid, bytes: Vec::new() });
        self.model.names.insert((directory, name), number);
        Ok(())
    }

    fn rename(&mut self, old: (u32, Name), new: (u32, Name)) -> Result<(), Reason> {
        let (from, to) = (old.0, new.0);
        self.directory(from)?;
        self.directory(to)?;
        self.may(from, Access::Search, Reason::NoSearch)?;
        self.may(to, Access::Search, Reason::NoSearch)?;
        let moved = *self.model.names.get(&old).ok_or(Reason::NoSuchName)?;
        let there = self.model.names.get(&new).copied();
        if there == Some(moved) {
            return Ok(());
        }
        self.write(from)?;
        self.write(to)?;
        self.sticky(from, moved)?;
        for number in [from, to, moved] {
            self.lease(number)?;
        }
        let kind = self.header(moved)?.kind;
        let mut above = (kind == Kind::Directory).then_some(to);
        while let Some(directory) = above {
            check(directory != moved, Reason::BelowItself)?;
            above = self.model.parent(directory);
        }
        if let Some(there) = there {
            self.goes(to, there, kind)?;
        }
        self.model.names.remove(&old);
        self.model.names.insert(new, moved);
        if let Some(there) = there {
            self.model.drop_unnamed(there);
        }
        Ok(())
    }
}

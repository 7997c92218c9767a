//! Nodes as the kernel has them. A number of the desk may be that of one node behind another, so the kernel gets an id for each
//! of them: what is open leads to no later node.

use nix::errno::Errno;
use std::collections::HashMap;

/// The number of the root, and its id.
pub const ROOT: u64 = 1;

/// The number that a node has, or had: the lower half of its id.
pub fn number_of(id: u64) -> u32 {
    id as u32
}

/// What the kernel was told of a number.
#[derive(Clone, Copy, Debug, Default)]
struct Known {
    /// How many nodes had the number before, as far as this mount knows.
    turn: u32,
    /// When the node was made, where the server tells it; else 0.
    born: u64,
    /// The size that the kernel has of it, where it has one.
    size: Option<u64>,
}

/// All nodes that the kernel was told of, by their numbers.
#[derive(Debug, Default)]
pub struct Nodes {
    of: HashMap<u32, Known>,
}

impl Nodes {
    /// The id of the node that has the number now.
    pub fn id(&mut self, number: u32) -> u64 {
        let turn = self.of.entry(number).or_default().turn;
        u64::from(turn) << 32 | u64::from(number)
    }

    /// The number of a node, where it has it still.
    pub fn number(&self, id: u64) -> Result<u32, Errno> {
        let (turn, number) = ((id >> 32) as u32, number_of(id));
        let now = self.of.get(&number).map_or(0, |known| known.turn);
        if turn == now {
            Ok(number)
        } else {
            Err(Errno::ESTALE)
        }
    }

    /// When the node was made that has the number, where that is known.
    pub fn born(&self, number: u32) -> Option<u64> {
        self.of.get(&number).map(|known| known.born).filter(|born| *born != 0)
    }

    /// A new node has got the number.
    pub fn renew(&mut self, number: u32) {
        let known = self.of.entry(number).or_default();
        *known = Known { turn: known.turn.wrapping_add(1), ..Known::default() };
    }

    /// The server tells when the node was made that has the number. Returns whether it is another one than before.
    pub fn tell_born(&mut self, number: u32, born: u64) -> bool {
        let known = self.of.entry(number).or_default();
        let is_another = known.born != 0 && born != known.born;
        if is_another && u64::from(number) != ROOT {
            self.renew(number);
        }
        self.of.entry(number).or_default().born = born;
        is_another
    }

    /// The kernel is told this size of a file.
    pub fn tell_size(&mut self, number: u32, size: u64) {
        self.of.entry(number).or_default().size = Some(size);
    }

    /// The kernel has written up to a place, and takes the file for so long at least.
    pub fn grow(&mut self, number: u32, end: u64) {
        if let Some(size) = self.of.get_mut(&number).and_then(|known| known.size.as_mut()) {
            *size = end.max(*size);
        }
    }

    /// What size the kernel has of a file isn't known.
    pub fn forget_size(&mut self, number: u32) {
        self.of.entry(number).or_default().size = None;
    }

    /// Whether the kernel has another size of a file than this one, or maybe.
    pub fn has_other_size(&self, number: u32, size: u64) -> bool {
        self.of.get(&number).and_then(|known| known.size) != Some(size)
    }
}

#[cfg(test)]
mod tests {
    use super::*;

    #[test]
    fn an_id_is_of_one_node() {
        let mut nodes = Nodes::default();
        let first = nodes.id(5);
        assert_eq!((first, nodes.number(first)), (5, Ok(5)));
        assert!(!nodes.tell_born(5, 100));
        assert!(!nodes.tell_born(5, 100));
        assert_eq!((nodes.id(5), nodes.born(5)), (5, Some(100)));
        assert!(nodes.tell_born(5, 200));
        let second = nodes.id(5);
        assert_eq!((second, nodes.number(first), nodes.number(second)), (1 << 32 | 5, Err(Errno::ESTALE), Ok(5)));
        nodes.renew(5);
        assert_eq!((nodes.number(second), nodes.born(5)), (Err(Errno::ESTALE), None));
    }

    #[test]
    fn the_root_is_one_node() {
        let mut nodes = Nodes::default();
        nodes.tell_born(1, 100);
        nodes.tell_born(1, 200);
        assert_eq!((nodes.id(1), nodes.number(ROOT)), (ROOT, Ok(1)));
    }

    #[test]
    fn sizes_are_what_the_kernel_has() {
        let mut nodes = Nodes::default();
        assert!(nodes.has_other_size(5, 0));
        nodes.tell_size(5, 10);
        nodes.grow(5, 7);
        assert!(!nodes.has_other_size(5, 10));
        nodes.grow(5, 12);
        assert!(!nodes.has_other_size(5, 12) && nodes.has_other_size(5, 10));
        nodes.forget_size(5);
        assert!(nodes.has_other_size(5, 12));
    }
}

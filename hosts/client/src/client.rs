//! Who a client is, and what permission bits grant it.

use crate::node::Header;
use nix::unistd::{getegid, geteuid, getgroups};

/// What is asked of the bits of a node.
#[derive(Clone, Copy, Debug, PartialEq, Eq)]
pub enum Access {
    /// To read a file, or to list a directory.
    Read = 4,
    /// To write a file, or to change a directory's names.
    Write = 2,
    /// To look names up in a directory.
    Search = 1,
}

/// A client, as the server has it. Where this differs from the server's row, logs are refused.
#[derive(Clone, Debug, PartialEq, Eq)]
pub struct Client {
    /// The number by which the server knows it.
    pub number: u32,
    /// Its user.
    pub uid: u32,
    /// Its group.
    pub gid: u32,
    /// Its other groups.
    pub groups: Vec<u32>,
    /// Whether permission bits don't bind it.
    pub is_privileged: bool,
    /// The first and the last number that it may give to new nodes.
    pub grant: [u32; 2],
}

impl Client {
    /// The client of this process, by its effective user and group, and its groups. It isn't privileged.
    pub fn of_process(number: u32, grant: [u32; 2]) -> nix::Result<Client> {
        let groups = getgroups()?.into_iter().map(|group| group.as_raw()).collect();
        Ok(Client { number, uid: geteuid().as_raw(), gid: getegid().as_raw(), groups, is_privileged: false, grant })
    }

    /// Whether a group is one of its own.
    pub fn is_in(&self, group: u32) -> bool {
        group == self.gid || self.groups.contains(&group)
    }

    /// Whether it counts as the owner.
    pub fn owns(&self, node: &Header) -> bool {
        self.is_privileged || self.uid == node.uid
    }

    /// Whether the bits of the first class that holds grant this.
    pub fn may(&self, node: &Header, access: Access) -> bool {
        let shift = if self.uid == node.uid {
            6
        } else if self.is_in(node.gid) {
            3
        } else {
            0
        };
        self.is_privileged || node.mode >> shift & access as u16 != 0
    }

    /// Whether it may give this number to a new node.
    pub fn is_granted(&self, number: u32) -> bool {
        (self.grant[0]..=self.grant[1]).contains(&number)
    }
}

#[cfg(test)]
mod tests {
    use super::*;
    use crate::entry::Kind;

    #[test]
    fn the_first_class_that_holds_counts() {
        let client = Client { number: 7, uid: 1000, gid: 1000, groups: vec![50], is_privileged: false, grant: [2, 9] };
        let node = |mode, uid, gid| Header { kind: Kind::File, mode, uid, gid, links: 1, size: 0 };
        assert!(!client.may(&node(0o077, 1000, 1000), Access::Read));
        assert!(!client.may(&node(0o707, 1, 50), Access::Write));
        assert!(client.may(&node(0o001, 1, 2), Access::Search));
        let root = Client { is_privileged: true, ..client };
        assert!(root.may(&node(0, 1, 2), Access::Write) && root.owns(&node(0, 1, 2)));
    }
}

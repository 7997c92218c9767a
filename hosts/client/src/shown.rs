//! What a server shows of the tree as it is now.

use crate::name::Name;
use crate::node::Header;
use nix::errno::Errno;
use std::io;
use thiserror::Error;

/// Why a look-up wasn't answered.
#[derive(Debug, Error)]
pub enum Unshown {
    /// The connection has failed, or has ended.
    #[error("the server can't be reached: {0}")]
    Gone(#[from] io::Error),
    /// The client may not see it.
    #[error("no permission")]
    NotAllowed,
    /// The server has no such look-up.
    #[error("the server has no such look-up")]
    NoSuchLookUp,
    /// What came is no answer to the look-up.
    #[error("no answer to the look-up: {0}")]
    Nonsense(String),
}

impl Unshown {
    /// The number that POSIX has for it.
    pub fn errno(&self) -> Errno {
        match self {
            Unshown::Gone(_) | Unshown::Nonsense(_) => Errno::EIO,
            Unshown::NotAllowed => Errno::EACCES,
            Unshown::NoSuchLookUp => Errno::EOPNOTSUPP,
        }
    }
}

/// What a server keeps of a node beside its header.
#[derive(Clone, Copy, Debug, Default, PartialEq, Eq)]
pub struct Stamp {
    /// A mark that the node got when it was made. A later node of the same number has another one. 0 where the server doesn't know.
    pub born: u64,
    /// When bytes of a file or names of a directory were changed, in nanoseconds since 1970; 0 where the server doesn't know.
    pub modified: i64,
    /// When anything of it was changed.
    pub changed: i64,
    /// Whether what is made in the directory gets its group (`S_ISGID`).
    pub gives_group: bool,
}

/// A look-up that is asked for before what it finds is wanted.
#[derive(Clone, Copy, Debug, PartialEq, Eq, Hash)]
pub enum Ahead {
    /// The header of a node.
    Header(u32),
    /// Bytes of a file.
    Bytes {
        /// The file.
        number: u32,
        /// The place of the first one.
        start: u64,
        /// How many at most.
        most: u32,
    },
}

impl Ahead {
    /// The node that it is about.
    pub fn number(self) -> u32 {
        match self {
            Ahead::Header(number) | Ahead::Bytes { number, .. } => number,
        }
    }
}

/// What such a look-up has found.
#[derive(Clone, Debug, PartialEq, Eq)]
pub enum FoundAhead {
    /// The header of a node, if there is one of this number.
    Header(Option<Header>),
    /// Bytes of a file: fewer than were asked for only where it ends.
    Bytes(Vec<u8>),
    /// Nothing is told. Who wants it asks for it as if it hadn't been asked for.
    Nothing,
}

/// Look-ups by number. They tell what is kept by now, and nothing of a log that isn't handed in.
pub trait Shown {
    /// The header of a node, if there is one of this number.
    fn header(&mut self, number: u32) -> Result<Option<Header>, Unshown>;

    /// The headers of some nodes, asked for at once where the server lets one.
    fn headers(&mut self, numbers: &[u32]) -> Result<Vec<Option<Header>>, Unshown> {
        numbers.iter().map(|number| self.header(*number)).collect()
    }

    /// Where a name of a directory leads. None where the directory lacks it, or there is no such directory.
    fn find(&mut self, directory: u32, name: &Name) -> Result<Option<u32>, Unshown>;

    /// The first names of a directory, ascending, behind this one; at most so many, and fewer only where no more follow.
    fn list(&mut self, directory: u32, behind: Option<&Name>, most: usize) -> Result<Vec<(Name, u32)>, Unshown>;

    /// The bytes of a file from a place on, at most so many, and fewer only where the file ends.
    fn read(&mut self, number: u32, start: u64, most: usize) -> Result<Vec<u8>, Unshown>;

    /// What the server keeps of a node, as it was told last with its header or behind its bytes. None where there was no such
    /// node, or the server tells no stamps: then the root has none either.
    fn stamp(&self, _number: u32) -> Option<Stamp> {
        None
    }

    /// Asks for some look-ups without waiting, each under a number of who asks. Returns how many of the first ones were asked
    /// for. Others may be asked for meanwhile: these are told by `told_ahead` alone, each once.
    fn ask_ahead(&mut self, _some: &[(u64, Ahead)]) -> usize {
        0
    }

    /// Tells what was asked for ahead and has come by now. One of these is waited for, if it is named.
    fn told_ahead(&mut self, _wait_for: Option<u64>) -> Vec<(u64, FoundAhead)> {
        Vec::new()
    }
}

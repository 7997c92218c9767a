//! Nodes: what they are, and the limits of their numbers, sizes and links.

use crate::entry::Kind;

/// The number of the root directory.
pub const ROOT: u32 = 1;
/// The greatest number of a node.
pub const GREATEST_NUMBER: u32 = 65_536;
/// The most bytes of a file.
pub const SIZE_LIMIT: u64 = 1 << 32;
/// The most names of a file.
pub const LINK_LIMIT: u16 = 1_024;
/// The bit of a mode by which a directory's names are for their owners to take away (`S_ISVTX`).
pub const STICKY: u16 = 0o1000;

/// What a node is (docs/FORMATS.md, "Digest plan").
#[derive(Clone, Copy, Debug, PartialEq, Eq)]
pub struct Header {
    /// A file or a directory.
    pub kind: Kind,
    /// The bits of permission, and the sticky bit.
    pub mode: u16,
    /// The owner.
    pub uid: u32,
    /// The group.
    pub gid: u32,
    /// How many names a file has; 1 of a directory.
    pub links: u16,
    /// How many bytes a file has; 0 of a directory.
    pub size: u64,
}

impl Header {
    /// Whether it is a directory.
    pub fn is_directory(&self) -> bool {
        self.kind == Kind::Directory
    }
}

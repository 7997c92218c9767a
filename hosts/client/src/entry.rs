//! The entries of a log, and their bytes (docs/FORMATS.md, "Update log").

use crate::name::Name;
use thiserror::Error;

/// The most bytes of a Write.
pub const PAYLOAD_LIMIT: usize = 65_536;
/// The greatest mode that a log may set.
pub const GREATEST_MODE: u16 = 0o1777;
/// How many bytes of a Write stand before its payload.
pub(crate) const WRITE_HEAD: usize = 17;

/// What a node is.
#[derive(Clone, Copy, Debug, PartialEq, Eq, PartialOrd, Ord, Hash)]
pub enum Kind {
    /// A file.
    File = 0,
    /// A directory.
    Directory = 1,
}

/// One change.
#[derive(Clone, Debug, PartialEq, Eq)]
pub enum Entry {
    /// A new node under a new name.
    Create {
        /// Where the name comes to stand.
        directory: u32,
        /// The name.
        name: Name,
        /// The number of the new node, one of the client's grant.
        number: u32,
        /// What it is.
        kind: Kind,
        /// Its mode, at most 0o1777.
        mode: u16,
    },
    /// Bytes of a file.
    Write {
        /// The file.
        number: u32,
        /// Where the first byte goes.
        offset: u64,
        /// At most 65,536 bytes.
        payload: Vec<u8>,
    },
    /// A file's size.
    Truncate {
        /// The file.
        number: u32,
        /// How many bytes it has then.
        size: u64,
    },
    /// One more name of a file.
    Link {
        /// The file.
        number: u32,
        /// Where the name comes to stand.
        directory: u32,
        /// The name.
        name: Name,
    },
    /// A name that goes.
    Unlink {
        /// Where it stands.
        directory: u32,
        /// The name.
        name: Name,
        /// What it leads to.
        kind: Kind,
    },
    /// A name that becomes another one.
    Rename {
        /// Where the name stands.
        directory: u32,
        /// The name.
        name: Name,
        /// Where the new name comes to stand.
        new_directory: u32,
        /// The new name.
        new_name: Name,
    },
    /// A node's mode.
    Chmod {
        /// The node.
        number: u32,
        /// Its mode then, at most 0o1777.
        mode: u16,
    },
    /// A node's group.
    Regroup {
        /// The node.
        number: u32,
        /// Its group then.
        group: u32,
    },
}

/// Why bytes are no entry.
#[derive(Clone, Copy, Debug, PartialEq, Eq, Error)]
#[error("no entry of version 2 stands there")]
pub struct NoEntry;

impl Entry {
    /// How many bytes it has in a log.
    pub fn length(&self) -> usize {
        let name_length = |name: &Name| 1 + name.as_bytes().len();
        match self {
            Entry::Create { name, .. } => 12 + name_length(name),
            Entry::Write { payload, .. } => WRITE_HEAD + payload.len(),
            Entry::Truncate { .. } => 13,
            Entry::Link { name, .. } => 9 + name_length(name),
            Entry::Unlink { name, .. } => 6 + name_length(name),
            Entry::Rename { name, new_name, .. } => 9 + name_length(name) + name_length(new_name),
            Entry::Chmod { .. } => 7,
            Entry::Regroup { .. } => 9,
        }
    }

    /// The node that it is about: the one that it names, or the directory of the name.
    pub fn number(&self) -> u32 {
        match *self {
            Entry::Create { number, .. } | Entry::Write { number, .. } | Entry::Truncate { number, .. } => number,
            Entry::Link { number, .. } | Entry::Chmod { number, .. } | Entry::Regroup { number, .. } => number,
            Entry::Unlink { directory, .. } | Entry::Rename { directory, .. } => directory,
        }
    }

    /// The same entry about nodes of other numbers.
    pub(crate) fn with_numbers(&self, other: impl Fn(u32) -> u32) -> Entry {
        let mut entry = self.clone();
        match &mut entry {
            Entry::Create { directory, number, .. } | Entry::Link { directory, number, .. } => {
                (*directory, *number) = (other(*directory), other(*number));
            }
            Entry::Write { number, .. } | Entry::Truncate { number, .. } => *number = other(*number),
            Entry::Chmod { number, .. } | Entry::Regroup { number, .. } => *number = other(*number),
            Entry::Unlink { directory, .. } => *directory = other(*directory),
            Entry::Rename { directory, new_directory, .. } => {
                (*directory, *new_directory) = (other(*directory), other(*new_directory));
            }
        }
        entry
    }

    /// Puts its bytes behind others. A payload of over 65,536 bytes, or a mode over 0o1777, makes bytes that are no entry.
    pub fn spell(&self, out: &mut Vec<u8>) {
        out.push(self.tag());
        match self {
            Entry::Create { directory, name, number, kind, mode } => {
                word(out, *directory);
                name.spell(out);
                word(out, *number);
                out.push(*kind as u8);
                out.extend_from_slice(&mode.to_be_bytes());
            }
            Entry::Write { number, offset, payload } => spell_write(out, *number, *offset, payload),
            Entry::Truncate { number, size } => {
                word(out, *number);
                out.extend_from_slice(&size.to_be_bytes());
            }
            Entry::Link { number, directory, name } => {
                word(out, *number);
                word(out, *directory);
                name.spell(out);
            }
            Entry::Unlink { directory, name, kind } => {
                word(out, *directory);
                name.spell(out);
                out.push(*kind as u8);
            }
            Entry::Rename { directory, name, new_directory, new_name } => {
                word(out, *directory);
                name.spell(out);
                word(out, *new_directory);
                new_name.spell(out);
            }
            Entry::Chmod { number, mode } => {
                word(out, *number);
                out.extend_from_slice(&mode.to_be_bytes());
            }
            Entry::Regroup { number, group } => {
                word(out, *number);
                word(out, *group);
            }
        }
    }

    fn tag(&self) -> u8 {
        match self {
            Entry::Create { .. } => 1,
            Entry::Write { .. } => 2,
            Entry::Truncate { .. } => 3,
            Entry::Link { .. } => 4,
            Entry::Unlink { .. } => 5,
            Entry::Rename { .. } => 6,
            Entry::Chmod { .. } => 7,
            Entry::Regroup { .. } => 8,
        }
    }

    /// The entry at the front of these bytes, of a log of version 2.
    pub fn read(bytes: &[u8]) -> Result<Entry, NoEntry> {
        let mut fields = Fields(bytes);
        let entry = match fields.byte()? {
            1 => Entry::Create {
                directory: fields.word()?,
                name: fields.name()?,
                number: fields.word()?,
                kind: fields.kind()?,
                mode: fields.mode()?,
            },
            2 => Entry::Write { number: fields.word()?, offset: fields.long()?, payload: fields.payload()? },
            3 => Entry::Truncate { number: fields.word()?, size: fields.long()? },
            4 => Entry::Link { number: fields.word()?, directory: fields.word()?, name: fields.name()? },
            5 => Entry::Unlink { directory: fields.word()?, name: fields.name()?, kind: fields.kind()? },
            6 => Entry::Rename {
                directory: fields.word()?,
                name: fields.name()?,
                new_directory: fields.word()?,
                new_name: fields.name()?,
            },
            7 => Entry::Chmod { number: fields.word()?, mode: fields.mode()? },
            8 => Entry::Regroup { number: fields.word()?, group: fields.word()? },
            _ => return Err(NoEntry),
        };
        Ok(entry)
    }
}

fn word(out: &mut Vec<u8>, number: u32) {
    out.extend_from_slice(&number.to_be_bytes());
}

fn spell_write(out: &mut Vec<u8>, number: u32, offset: u64, payload: &[u8]) {
    word(out, number);
    out.extend_from_slice(&offset.to_be_bytes());
    word(out, payload.len() as u32);
    out.extend_from_slice(payload);
}

/// Fields that are read one after another.
struct Fields<'a>(&'a [u8]);

impl<'a> Fields<'a> {
    fn take(&mut self, count: usize) -> Result<&'a [u8], NoEntry> {
        if self.0.len() < count {
            return Err(NoEntry);
        }
        let (taken, rest) = self.0.split_at(count);
        self.0 = rest;
        Ok(taken)
    }

    fn array<const N: usize>(&mut self) -> Result<[u8; N], NoEntry> {
        self.take(N)?.try_into().map_err(|_| NoEntry)
    }

    fn byte(&mut self) -> Result<u8, NoEntry> {
        Ok(u8::from_be_bytes(self.array()?))
    }

    fn word(&mut self) -> Result<u32, NoEntry> {
        Ok(u32::from_be_bytes(self.array()?))
    }

    fn long(&mut self) -> Result<u64, NoEntry> {
        Ok(u64::from_be_bytes(self.array()?))
    }

    fn mode(&mut self) -> Result<u16, NoEntry> {
        let mode = u16::from_be_bytes(self.array()?);
        if mode > GREATEST_MODE {
            return Err(NoEntry);
        }
        Ok(mode)
    }

    fn kind(&mut self) -> Result<Kind, NoEntry> {
        match self.byte()? {
            0 => Ok(Kind::File),
            1 => Ok(Kind::Directory),
            _ => Err(NoEntry),
        }
    }

    fn name(&mut self) -> Result<Name, NoEntry> {
        let length = self.byte()?;
        Name::new(self.take(length.into())?).map_err(|_| NoEntry)
    }

    fn payload(&mut self) -> Result<Vec<u8>, NoEntry> {
        let length = self.word()? as usize;
        if length > PAYLOAD_LIMIT {
            return Err(NoEntry);
        }
        Ok(self.take(length)?.to_vec())
    }
}

#[cfg(test)]
mod tests {
    use super::*;

    fn name(bytes: &[u8]) -> Name {
        Name::new(bytes).unwrap()
    }

    fn of_each_kind() -> Vec<Entry> {
        vec![
            Entry::Create { directory: 1, name: name(b"a"), number: 5, kind: Kind::File, mode: 0o644 },
            Entry::Write { number: 5, offset: 1 << 31, payload: b"xy".to_vec() },
            Entry::Truncate { number: 5, size: 1 << 32 },
            Entry::Link { number: 5, directory: 1, name: name(b"b") },
            Entry::Unlink { directory: 1, name: name(b"b"), kind: Kind::Directory },
            Entry::Rename { directory: 1, name: name(b"a"), new_directory: 9, new_name: name(b"cc") },
            Entry::Chmod { number: 5, mode: 0o1777 },
            Entry::Regroup { number: 5, group: u32::MAX },
        ]
    }

    #[test]
    fn entries_are_read_as_they_are_spelled() {
        for entry in of_each_kind() {
            let mut bytes = Vec::new();
            entry.spell(&mut bytes);
            assert_eq!(bytes.len(), entry.length(), "{entry:?}");
            assert_eq!(Entry::read(&bytes), Ok(entry.clone()));
            for end in 0..bytes.len() {
                assert_eq!(Entry::read(&bytes[..end]), Err(NoEntry), "{entry:?} cut at {end}");
            }
        }
    }

    #[test]
    fn what_is_out_of_range_is_no_entry() {
        let mut bytes = Vec::new();
        Entry::Chmod { number: 5, mode: 0o2000 }.spell(&mut bytes);
        assert_eq!(Entry::read(&bytes), Err(NoEntry));
        assert_eq!(Entry::read(&[9]), Err(NoEntry));
        let long = Entry::Write { number: 5, offset: 0, payload: vec![0; PAYLOAD_LIMIT + 1] };
        bytes.clear();
        long.spell(&mut bytes);
        assert_eq!(Entry::read(&bytes), Err(NoEntry));
    }
}

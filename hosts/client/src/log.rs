//! A log as bytes that grow, with its limits.

use crate::entry::{Entry, NoEntry, PAYLOAD_LIMIT, WRITE_HEAD};
use thiserror::Error;

/// The most entries of a log.
pub const ENTRY_LIMIT: usize = 4_096;
/// The most bytes that a log of this library has. The format has no such limit, and a server's frame has.
pub const LOG_LIMIT: usize = 1 << 20;
/// The version that it writes.
const VERSION: u8 = 2;
/// How many bytes stand before the first entry, and where among them the count of entries does.
const HEAD: usize = 11;
const COUNT_AT: usize = 9;

/// Why an entry doesn't go into the log. It goes into the next one.
#[derive(Clone, Copy, Debug, PartialEq, Eq, Error)]
pub enum Full {
    /// There are 4,096 entries.
    #[error("the log has as many entries as it may")]
    Entries,
    /// There would be more than 1 MiB.
    #[error("the log would have more bytes than it may")]
    Bytes,
}

/// A client's changes in their order, as bytes.
#[derive(Clone, Debug)]
pub struct Log {
    bytes: Vec<u8>,
    /// Where each entry begins.
    starts: Vec<u32>,
}

impl Log {
    /// The log of a client, without an entry.
    pub fn new(client: u32) -> Log {
        let mut bytes = b"KLOG".to_vec();
        bytes.push(VERSION);
        bytes.extend_from_slice(&client.to_be_bytes());
        bytes.extend_from_slice(&[0, 0]);
        Log { bytes, starts: Vec::new() }
    }

    /// The log that these bytes are, and whose it is; none where they are no log of version 2.
    pub fn read(bytes: &[u8]) -> Option<(u32, Log)> {
        let head: [u8; HEAD] = bytes.get(..HEAD)?.try_into().ok()?;
        let (client, count) = match head {
            [b'K', b'L', b'O', b'G', VERSION, c0, c1, c2, c3, n0, n1] => ([c0, c1, c2, c3], [n0, n1]),
            _ => return None,
        };
        let (client, count) = (u32::from_be_bytes(client), u16::from_be_bytes(count));
        let mut log = Log::new(client);
        for _ in 0..count {
            let entry = Entry::read(&bytes[log.bytes.len()..]).ok()?;
            log.push(&entry).ok()?;
        }
        (log.bytes == bytes).then_some((client, log))
    }

    /// Its bytes, as they are handed in.
    pub fn as_bytes(&self) -> &[u8] {
        &self.bytes
    }

    /// How many entries it has.
    pub fn len(&self) -> usize {
        self.starts.len()
    }

    /// Whether it has none.
    pub fn is_empty(&self) -> bool {
        self.starts.is_empty()
    }

    /// Whether an entry of so many bytes goes into it.
    pub fn room_for(&self, length: usize) -> Result<(), Full> {
        if self.starts.len() == ENTRY_LIMIT {
            return Err(Full::Entries);
        }
        if self.bytes.len() + length > LOG_LIMIT {
            return Err(Full::Bytes);
        }
        Ok(())
    }

    /// Puts an entry behind the others.
    pub fn push(&mut self, entry: &Entry) -> Result<(), Full> {
        self.room_for(entry.length())?;
        // A log has at most 1 MiB, and 4,096 entries.
        self.starts.push(self.bytes.len() as u32);
        entry.spell(&mut self.bytes);
        let count = self.starts.len() as u16;
        self.bytes[COUNT_AT..HEAD].copy_from_slice(&count.to_be_bytes());
        Ok(())
    }

    /// How many bytes more the last entry may take, where it is a Write; else 0.
    pub fn room_in_last(&self) -> usize {
        match self.last_payload() {
            Some(length) => (PAYLOAD_LIMIT - length).min(LOG_LIMIT - self.bytes.len()),
            None => 0,
        }
    }

    /// How many bytes the payload of the last entry has, where that is a Write.
    pub(crate) fn last_payload(&self) -> Option<usize> {
        let start = *self.starts.last()? as usize;
        (self.bytes[start] == 2).then(|| self.bytes.len() - start - WRITE_HEAD)
    }

    /// Puts bytes behind the payload of the last entry, which is a Write with so much room.
    pub(crate) fn extend_last(&mut self, more: &[u8]) {
        let (start, length) = match (self.starts.last(), self.last_payload()) {
            (Some(start), Some(length)) => (*start as usize, length + more.len()),
            _ => return,
        };
        self.bytes[start + WRITE_HEAD - 4..start + WRITE_HEAD].copy_from_slice(&(length as u32).to_be_bytes());
        self.bytes.extend_from_slice(more);
    }

    /// The entry of this index.
    pub fn entry(&self, index: usize) -> Result<Entry, NoEntry> {
        let start = *self.starts.get(index).ok_or(NoEntry)?;
        Entry::read(&self.bytes[start as usize..])
    }

    /// All entries in their order.
    pub fn entries(&self) -> impl Iterator<Item = Entry> + '_ {
        // What was spelled is read.
        (0..self.len()).filter_map(|index| self.entry(index).ok())
    }

    /// So many bytes of the payload of a Write, from this place on.
    pub(crate) fn payload(&self, index: u16, place: u32, length: usize) -> &[u8] {
        let start = self.starts[usize::from(index)] as usize + WRITE_HEAD + place as usize;
        &self.bytes[start..start + length]
    }
}

#[cfg(test)]
mod tests {
    use super::*;
    use crate::entry::Kind;
    use crate::name::Name;

    #[test]
    fn a_log_of_one_create() {
        let mut log = Log::new(7);
        let name = Name::new(b"a").unwrap();
        log.push(&Entry::Create { directory: 1, name, number: 5, kind: Kind::File, mode: 0o644 }).unwrap();
        let expected = b"KLOG\x02\0\0\0\x07\0\x01\x01\0\0\0\x01\x01a\0\0\0\x05\0\x01\xa4";
        assert_eq!(log.as_bytes(), expected);
    }

    #[test]
    fn its_limits_are_known_beforehand() {
        let mut log = Log::new(7);
        let entry = Entry::Chmod { number: 5, mode: 0 };
        (0..ENTRY_LIMIT).for_each(|_| log.push(&entry).unwrap());
        assert_eq!(log.push(&entry), Err(Full::Entries));
        assert_eq!(log.len(), ENTRY_LIMIT);
        let mut log = Log::new(7);
        let long = Entry::Write { number: 5, offset: 0, payload: vec![1; PAYLOAD_LIMIT] };
        (0..15).for_each(|_| log.push(&long).unwrap());
        let before = log.as_bytes().to_vec();
        assert_eq!(log.push(&long), Err(Full::Bytes));
        assert_eq!(log.as_bytes(), before);
        assert_eq!(log.room_in_last(), 0);
        log.push(&Entry::Write { number: 5, offset: 0, payload: vec![2] }).unwrap();
        assert_eq!(log.room_in_last(), LOG_LIMIT - log.as_bytes().len());
    }

    #[test]
    fn a_write_grows() {
        let mut log = Log::new(7);
        log.push(&Entry::Write { number: 5, offset: 3, payload: b"ab".to_vec() }).unwrap();
        log.extend_last(b"cde");
        assert_eq!(log.entry(0), Ok(Entry::Write { number: 5, offset: 3, payload: b"abcde".to_vec() }));
        assert_eq!(log.payload(0, 1, 3), b"bcd");
        assert_eq!(log.len(), 1);
    }
}

//! A group as it stands in etcd: calls that were made, in their order, each with its answer.

use crate::bytes::Bytes;

/// The most bytes of one value in etcd. A transaction may have 1.5 MB there.
pub const PART: usize = 1_000_000;

/// What a row says: that the group stands in it, or in so many parts of its own.
const WHOLE: u8 = 1;
const PARTED: u8 = 2;

/// The calls of a group.
#[derive(Clone, Debug, Default, PartialEq, Eq)]
pub struct Group {
    /// The leader's time, in nanoseconds since 1970: nodes that the group changes have it.
    pub time: i64,
    /// The leader's moment. A later leader goes on from it.
    pub moment: u64,
    /// Each call, and its answer without the position.
    pub calls: Vec<(Vec<u8>, Vec<u8>)>,
}

impl Group {
    /// Its bytes. The calls are as in a group of a journal (docs/FORMATS.md).
    pub fn bytes(&self) -> Vec<u8> {
        let mut bytes = self.time.to_be_bytes().to_vec();
        bytes.extend_from_slice(&self.moment.to_be_bytes());
        for (call, answer) in &self.calls {
            // Bodies have at most 16,777,216 bytes, and answers 16.
            bytes.extend_from_slice(&(call.len() as u32).to_be_bytes());
            bytes.extend_from_slice(call);
            bytes.push(answer.len() as u8);
            bytes.extend_from_slice(answer);
        }
        bytes
    }

    /// How many bytes its calls and answers have.
    pub fn length(&self) -> usize {
        self.calls.iter().map(|(call, answer)| call.len() + answer.len()).sum()
    }

    /// The group that these bytes are; none where they are none.
    pub fn of(bytes: &[u8]) -> Option<Group> {
        let mut bytes = Bytes(bytes);
        let (time, moment) = (bytes.long()? as i64, bytes.long()?);
        let mut calls = Vec::new();
        while !bytes.0.is_empty() {
            let call = bytes.counted()?.to_vec();
            let length = bytes.byte()?;
            calls.push((call, bytes.take(length.into())?.to_vec()));
        }
        Some(Group { time, moment, calls })
    }
}

/// What stands in the row of a group.
#[derive(Clone, Debug, PartialEq, Eq)]
pub enum Held<'a> {
    /// The bytes of the group.
    Here(&'a [u8]),
    /// In so many parts.
    InParts(u32),
}

impl Held<'_> {
    /// The row.
    pub fn row(&self) -> Vec<u8> {
        match self {
            Held::Here(bytes) => [&[WHOLE], *bytes].concat(),
            Held::InParts(count) => [&[PARTED][..], &count.to_be_bytes()].concat(),
        }
    }

    /// What a row holds; none where it is none.
    pub fn of(row: &[u8]) -> Option<Held<'_>> {
        match *row {
            [WHOLE, ref bytes @ ..] => Some(Held::Here(bytes)),
            [PARTED, a, b, c, d] => Some(Held::InParts(u32::from_be_bytes([a, b, c, d]))),
            _ => None,
        }
    }
}

#[cfg(test)]
mod tests {
    use super::*;

    #[test]
    fn a_group_is_read_again() {
        let group =
            Group { time: -5, moment: 9, calls: vec![(vec![1, 2], vec![3]), (vec![], vec![]), (vec![7; 300], vec![8; 16])] };
        let bytes = group.bytes();
        assert_eq!(Group::of(&bytes), Some(group));
        assert_eq!(Group::of(&bytes[..bytes.len() - 1]), None);
        assert_eq!(Group::of(&bytes[..15]), None);
        assert_eq!(Group::of(&bytes[..16]), Some(Group { time: -5, moment: 9, calls: vec![] }));
    }

    #[test]
    fn a_row_is_read_again() {
        for held in [Held::Here(&[5, 6]), Held::InParts(3)] {
            assert_eq!(Held::of(&held.row()), Some(held));
        }
        assert_eq!(Held::of(&[PARTED, 0]), None);
        assert_eq!(Held::of(&[]), None);
    }
}

//! Names in directories.

use std::borrow::Borrow;
use std::fmt;
use thiserror::Error;

/// The most bytes of a name.
pub const NAME_LIMIT: usize = 255;

/// A name: 1 to 255 bytes, none of them zero or `/`, and neither `.` nor `..`.
#[derive(Clone, PartialEq, Eq, PartialOrd, Ord, Hash)]
pub struct Name(Box<[u8]>);

/// Why bytes are no name.
#[derive(Clone, Copy, Debug, PartialEq, Eq, Error)]
pub enum NameFault {
    /// There is no byte.
    #[error("a name has at least one byte")]
    Empty,
    /// There are more than 255.
    #[error("a name has at most 255 bytes")]
    TooLong,
    /// It is `.` or `..`.
    #[error("`.` and `..` are no names")]
    Dots,
    /// A byte is zero or `/`.
    #[error("a name has neither a zero byte nor a slash")]
    BadByte,
}

impl Name {
    /// The name of these bytes.
    pub fn new(bytes: &[u8]) -> Result<Name, NameFault> {
        match bytes {
            [] => Err(NameFault::Empty),
            b"." | b".." => Err(NameFault::Dots),
            _ if bytes.len() > NAME_LIMIT => Err(NameFault::TooLong),
            _ if bytes.iter().any(|byte| matches!(byte, 0 | b'/')) => Err(NameFault::BadByte),
            _ => Ok(Name(bytes.into())),
        }
    }

    /// Its bytes.
    pub fn as_bytes(&self) -> &[u8] {
        &self.0
    }

    /// Puts its length and its bytes behind others.
    pub(crate) fn spell(&self, out: &mut Vec<u8>) {
        // A name has at most 255 bytes.
        out.push(self.0.len() as u8);
        out.extend_from_slice(&self.0);
    }
}

impl Borrow<[u8]> for Name {
    fn borrow(&self) -> &[u8] {
        &self.0
    }
}

impl fmt::Debug for Name {
    fn fmt(&self, out: &mut fmt::Formatter<'_>) -> fmt::Result {
        write!(out, "{self}")
    }
}

impl fmt::Display for Name {
    fn fmt(&self, out: &mut fmt::Formatter<'_>) -> fmt::Result {
        out.write_str(&String::from_utf8_lossy(&self.0))
    }
}

#[cfg(test)]
mod tests {
    use super::*;

    #[test]
    fn names_are_those_of_the_formats() {
        assert_eq!(Name::new(b"").unwrap_err(), NameFault::Empty);
        assert_eq!(Name::new(b"..").unwrap_err(), NameFault::Dots);
        assert_eq!(Name::new(b"a/b").unwrap_err(), NameFault::BadByte);
        assert_eq!(Name::new(b"a\0").unwrap_err(), NameFault::BadByte);
        assert_eq!(Name::new(&[b'x'; 256]).unwrap_err(), NameFault::TooLong);
        assert_eq!(Name::new(&[b'x'; 255]).unwrap().as_bytes().len(), 255);
        assert!(Name::new(b"...").is_ok());
    }

    #[test]
    fn names_ascend_by_their_bytes() {
        let [a, b, c] = [b"a".as_slice(), b"a\x01", b"\xff"].map(|bytes| Name::new(bytes).unwrap());
        assert!(a < b && b < c);
    }
}

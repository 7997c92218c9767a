//! Fields taken from the front of bytes, big-endian.

/// Bytes that are read from the front. What isn't there is none.
#[derive(Clone, Copy, Debug)]
pub struct Bytes<'a>(pub &'a [u8]);

impl<'a> Bytes<'a> {
    /// So many bytes.
    pub fn take(&mut self, count: usize) -> Option<&'a [u8]> {
        if count > self.0.len() {
            return None;
        }
        let (taken, left) = self.0.split_at(count);
        self.0 = left;
        Some(taken)
    }

    fn array<const COUNT: usize>(&mut self) -> Option<[u8; COUNT]> {
        self.take(COUNT)?.try_into().ok()
    }

    pub fn byte(&mut self) -> Option<u8> {
        self.array().map(u8::from_be_bytes)
    }

    pub fn half(&mut self) -> Option<u16> {
        self.array().map(u16::from_be_bytes)
    }

    pub fn word(&mut self) -> Option<u32> {
        self.array().map(u32::from_be_bytes)
    }

    pub fn long(&mut self) -> Option<u64> {
        self.array().map(u64::from_be_bytes)
    }

    /// Bytes behind their length of four bytes.
    pub fn counted(&mut self) -> Option<&'a [u8]> {
        let count = self.word()?;
        self.take(count as usize)
    }
}

#[cfg(test)]
mod tests {
    use super::*;

    #[test]
    fn fields_are_taken_in_order() {
        let mut bytes = Bytes(&[1, 0, 2, 0, 0, 0, 3, 0, 0, 0, 2, 8, 9, 7]);
        assert_eq!((bytes.byte(), bytes.half(), bytes.word()), (Some(1), Some(2), Some(3)));
        assert_eq!(bytes.counted(), Some(&[8, 9][..]));
        assert_eq!((bytes.half(), bytes.byte(), bytes.byte()), (None, Some(7), None));
    }
}

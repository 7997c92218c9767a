//! What a log has made of the bytes of one file: which are zero, which come from a payload, and which are as before.
//!
//! An entry cuts what it covers out of the ranges so far and puts its own in. Each range is cut in two at most once for each
//! entry, so all entries of a log together take n log n.

use std::collections::BTreeMap;
use std::ops::Range;

/// Where bytes come from.
#[derive(Clone, Copy, Debug, PartialEq, Eq)]
pub enum Origin {
    /// They are zero.
    Zero,
    /// They stand in the payload of this entry, the first one at this place.
    Payload {
        /// The index of the entry.
        entry: u16,
        /// The place in its payload.
        place: u32,
    },
}

impl Origin {
    /// Where the byte comes from that stands so many bytes behind.
    fn behind(self, count: u64) -> Origin {
        match self {
            Origin::Zero => Origin::Zero,
            // A payload has at most 65,536 bytes.
            Origin::Payload { entry, place } => Origin::Payload { entry, place: place + count as u32 },
        }
    }
}

/// Bytes that the log has made.
#[derive(Clone, Copy, Debug, PartialEq, Eq)]
struct Made {
    end: u64,
    origin: Origin,
}

/// Bytes of a file that are alike.
#[derive(Clone, Copy, Debug, PartialEq, Eq)]
pub struct Part {
    /// The place of the first one.
    pub start: u64,
    /// The place behind the last one.
    pub end: u64,
    /// Where they come from; none where they are those from before the log.
    pub origin: Option<Origin>,
}

/// The bytes of a file that a log has changed.
#[derive(Clone, Debug, PartialEq, Eq)]
pub struct FileBytes {
    size: u64,
    /// By the place of their first byte. They don't overlap, and none is empty.
    made: BTreeMap<u64, Made>,
}

impl FileBytes {
    /// A file of so many bytes, all from before the log.
    pub fn new(size: u64) -> FileBytes {
        FileBytes { size, made: BTreeMap::new() }
    }

    /// How many bytes the file has.
    pub fn size(&self) -> u64 {
        self.size
    }

    /// The file has so many bytes from now on. New ones are zero.
    pub fn resize(&mut self, size: u64) {
        if size > self.size {
            self.put(self.size..size, Origin::Zero);
        } else {
            self.cut_out(size..self.size);
        }
        self.size = size;
    }

    /// So many bytes of an entry's payload, from this place in it on, stand at an offset. A gap before them is zero.
    pub fn write(&mut self, offset: u64, length: usize, entry: u16, place: u32) {
        if length == 0 {
            return;
        }
        if offset > self.size {
            self.put(self.size..offset, Origin::Zero);
        }
        let end = offset + length as u64;
        self.put(offset..end, Origin::Payload { entry, place });
        self.size = self.size.max(end);
    }

    fn put(&mut self, range: Range<u64>, origin: Origin) {
        self.cut_out(range.clone());
        if let Origin::Payload { .. } = origin {
            if let Some((start, before)) = self.made.range_mut(..range.start).next_back() {
                if before.end == range.start && before.origin.behind(range.start - start) == origin {
                    before.end = range.end;
                    return;
                }
            }
        }
        self.made.insert(range.start, Made { end: range.end, origin });
    }

    /// Nothing was made in this range.
    fn cut_out(&mut self, range: Range<u64>) {
        if range.is_empty() {
            return;
        }
        let mut back = None;
        if let Some((start, before)) = self.made.range_mut(..range.start).next_back() {
            if before.end > range.end {
                back = Some(Made { end: before.end, origin: before.origin.behind(range.end - start) });
            }
            before.end = before.end.min(range.start);
        }
        let inner: Vec<u64> = self.made.range(range.clone()).map(|(start, _)| *start).collect();
        for start in inner {
            if let Some(last) = self.made.remove(&start).filter(|made| made.end > range.end) {
                back = Some(Made { end: last.end, origin: last.origin.behind(range.end - start) });
            }
        }
        if let Some(back) = back {
            self.made.insert(range.end, back);
        }
    }

    /// What the log has made, ascending.
    pub fn made(&self) -> impl Iterator<Item = (Range<u64>, Origin)> + '_ {
        self.made.iter().map(|(start, made)| (*start..made.end, made.origin))
    }

    /// How many blocks of so many bytes the log writes: those with a byte of a payload, and those that it makes zero in part.
    pub fn written_blocks(&self, length: u64) -> u64 {
        let (mut count, mut next) = (0, 0);
        for (range, origin) in self.made() {
            let (first, last) = (range.start / length, (range.end - 1) / length);
            let is_cut = range.end % length != 0 && range.end != self.size;
            let (first, last) = match origin {
                Origin::Payload { .. } => (first, last + 1),
                // A block that is zero as a whole isn't written.
                Origin::Zero if range.start % length == 0 || first < next => (last, last + u64::from(is_cut)),
                Origin::Zero => {
                    count += 1;
                    next = first + 1;
                    (last, last + u64::from(is_cut))
                }
            };
            count += last.saturating_sub(first.max(next));
            next = next.max(last);
        }
        count
    }

    /// The parts that make up these bytes, ascending, as far as the file goes.
    pub fn parts(&self, range: Range<u64>) -> Vec<Part> {
        let end = range.end.min(self.size);
        let mut at = range.start;
        let mut parts = Vec::new();
        let before = self.made.range(..range.start).next_back();
        for (start, made) in before.into_iter().chain(self.made.range(range.start..end.max(range.start))) {
            if made.end <= at {
                continue;
            }
            if *start > at {
                parts.push(Part { start: at, end: *start, origin: None });
                at = *start;
            }
            let until = made.end.min(end);
            if at < until {
                parts.push(Part { start: at, end: until, origin: Some(made.origin.behind(at - start)) });
                at = until;
            }
        }
        if at < end {
            parts.push(Part { start: at, end, origin: None });
        }
        parts
    }
}

#[cfg(test)]
mod tests {
    use super::*;

    fn payload(entry: u16, place: u32) -> Origin {
        Origin::Payload { entry, place }
    }

    #[test]
    fn five_entries_make_four_pieces() {
        let mut file = FileBytes::new(10);
        file.write(2, 2, 0, 0);
        file.write(3, 3, 1, 0);
        file.resize(4);
        file.resize(8);
        file.write(12, 1, 4, 0);
        let made: Vec<_> = file.made().collect();
        let expected = [
            (2..3, payload(0, 0)),
            (3..4, payload(1, 0)),
            (4..8, Origin::Zero),
            (8..12, Origin::Zero),
            (12..13, payload(4, 0)),
        ];
        assert_eq!(made, expected);
        assert_eq!(file.size(), 13);
    }

    #[test]
    fn a_range_in_the_middle_cuts_one_in_two() {
        let mut file = FileBytes::new(0);
        file.write(0, 10, 0, 0);
        file.write(3, 2, 1, 0);
        let made: Vec<_> = file.made().collect();
        assert_eq!(made, [(0..3, payload(0, 0)), (3..5, payload(1, 0)), (5..10, payload(0, 5))]);
        let parts = file.parts(4..6);
        assert_eq!(parts[0], Part { start: 4, end: 5, origin: Some(payload(1, 1)) });
        assert_eq!(parts[1], Part { start: 5, end: 6, origin: Some(payload(0, 5)) });
    }

    #[test]
    fn a_write_that_grows_stays_one_range() {
        let mut file = FileBytes::new(4);
        file.write(4, 2, 0, 0);
        file.write(6, 3, 0, 2);
        assert_eq!(file.made().collect::<Vec<_>>(), [(4..9, payload(0, 0))]);
        let all = file.parts(0..100);
        assert_eq!(all[0], Part { start: 0, end: 4, origin: None });
        assert_eq!(all.len(), 2);
        assert!(file.parts(9..20).is_empty());
    }
}

//! A state that a member keeps, with what kfsd knows beside it: it stands for all groups before a number. With it a start takes as long
//! as the groups since take, and those before may go from etcd.

use crate::bytes::Bytes;
use crate::folder;
use crate::following::Following;
use crate::journal;
use crate::store::Outcome;
use crate::times::{Known, Landed, Stamp};
use std::fs::{self, File, OpenOptions};
use std::io::{self, ErrorKind, Read, Seek, SeekFrom, Write};
use std::os::unix::fs::OpenOptionsExt;
use std::path::{Path, PathBuf};

/// The file, and the one that becomes it.
pub const NAME: &str = "base";
pub const PART: &str = "base.part";

/// The end of the file: the length of what stands before it and behind the state (8), and a word.
const END: u64 = 16;
const WORD: &[u8; 8] = b"KFSDBAS2";

/// The word of an older kfsd, which doesn't know when nodes were made, nor their marks.
const OLDER_WORD: &[u8; 8] = b"KFSDBASE";

/// What kfsd knows beside a state.
#[derive(Clone, Debug, Default, PartialEq, Eq)]
pub struct Base {
    /// Which volume it is of: no other one has this, also none of the same name.
    pub volume: u64,
    /// The number of the first group that isn't part of it.
    pub number: u64,
    /// The leader's moment at the last one before.
    pub moment: u64,
    /// How numbered calls ended, those of a client in their order.
    pub outcomes: Vec<Outcome>,
    pub stamps: Vec<(u32, Stamp)>,
    /// When the last node was made.
    pub born: i64,
}

impl Base {
    /// What is known now, behind the calls of all groups before this number.
    pub fn now(volume: u64, number: u64, moment: u64, following: &Following) -> Base {
        let (outcomes, Known { stamps, landed }) = (following.outcomes.all_done(), following.times().all());
        Base { volume, number, moment, outcomes, stamps, born: landed.born }
    }

    /// Takes over what stands beside the state in a folder of `kfs_serve`, and the leases in that.
    pub fn recall(self, folder: &Path, following: &Following) -> io::Result<()> {
        following.read(folder, |_, _| false)?;
        following.outcomes.begin_with(self.outcomes, vec![]);
        let landed = Landed { born: self.born, ..Landed::default() };
        following.times().begin_with(Known { stamps: self.stamps, landed });
        Ok(())
    }

    fn bytes(&self) -> Vec<u8> {
        let mut bytes = Vec::new();
        for long in [self.volume, self.number, self.moment, self.born as u64, self.outcomes.len() as u64] {
            bytes.extend_from_slice(&long.to_be_bytes());
        }
        for outcome in &self.outcomes {
            bytes.extend_from_slice(&outcome.client.to_be_bytes());
            bytes.extend_from_slice(&outcome.number.to_be_bytes());
            // An answer has 16 bytes at most.
            bytes.push(outcome.answer.len() as u8);
            bytes.extend_from_slice(&outcome.answer);
        }
        for (node, stamp) in &self.stamps {
            bytes.extend_from_slice(&node.to_be_bytes());
            bytes.extend_from_slice(&stamp.modified.to_be_bytes());
            bytes.extend_from_slice(&stamp.changed.to_be_bytes());
            bytes.push(u8::from(stamp.set.is_some()));
            bytes.extend_from_slice(&stamp.set.unwrap_or(0).to_be_bytes());
            bytes.extend_from_slice(&stamp.born.to_be_bytes());
            bytes.push(stamp.marks);
        }
        bytes
    }

    fn of(bytes: &[u8], is_older: bool) -> Option<Base> {
        let mut bytes = Bytes(bytes);
        let (volume, number, moment) = (bytes.long()?, bytes.long()?, bytes.long()?);
        let born = if is_older { 0 } else { bytes.long()? as i64 };
        let mut base = Base { volume, number, moment, born, ..Base::default() };
        for _ in 0..bytes.long()? {
            let (client, number, length) = (bytes.word()?, bytes.long()?, bytes.byte()?);
            base.outcomes.push(Outcome { client, number, answer: bytes.take(length.into())?.to_vec() });
        }
        while !bytes.0.is_empty() {
            let (node, modified, changed) = (bytes.word()?, bytes.long()? as i64, bytes.long()? as i64);
            let (is_set, time) = (bytes.byte()? == 1, bytes.long()? as i64);
            let (born, marks) = if is_older { (0, 0) } else { (bytes.long()? as i64, bytes.byte()?) };
            base.stamps.push((node, Stamp { modified, changed, moved: 0, set: is_set.then_some(time), born, marks }));
        }
        Some(base)
    }
}

/// How many bytes of groups there were since a state was copied, and behind how many the next one is: these calls are made at a start, so
/// they shall take no longer than the state does to be opened.
#[derive(Clone, Copy, Debug)]
pub struct Since {
    bytes: u64,
    due: u64,
    least: u64,
}

impl Since {
    /// Nothing since a state of this length. The next one is behind so many bytes at least.
    pub fn new(least: u64, length: u64) -> Since {
        Since { bytes: 0, due: least.max(length / 2), least }
    }

    pub fn add(&mut self, bytes: usize) {
        self.bytes += bytes as u64;
    }

    /// Whether a state is due.
    pub fn is_long(&self) -> bool {
        self.bytes >= self.due
    }

    /// A state of this length was copied.
    pub fn begin_anew(&mut self, length: u64) {
        *self = Since::new(self.least, length);
    }
}

/// The folder in which a member keeps its state.
#[derive(Clone, Debug)]
pub struct Bases(PathBuf);

impl Bases {
    pub fn new(folder: &Path) -> Bases {
        Bases(folder.to_path_buf())
    }

    /// Copies the state of the file that counts in a folder of `kfs_serve`, which has just begun its journal anew. It is kept by `keep`.
    /// Tells how long it is.
    pub fn copy(&self, replica: &Path) -> io::Result<u64> {
        let (file, length) = journal::counting(replica)?.ok_or(ErrorKind::NotFound)?;
        let mut part = self.part()?;
        match io::copy(&mut file.take(length), &mut part)? {
            copied if copied == length => Ok(length),
            _ => Err(ErrorKind::UnexpectedEof.into()),
        }
    }

    /// A new file for a state that comes.
    pub fn part(&self) -> io::Result<File> {
        OpenOptions::new().create(true).truncate(true).write(true).mode(0o600).open(self.0.join(PART))
    }

    /// Keeps the state that was copied, with this beside it, in place of the one before.
    pub fn keep(&self, base: &Base) -> io::Result<()> {
        let bytes = base.bytes();
        let mut part = OpenOptions::new().append(true).open(self.0.join(PART))?;
        part.write_all(&bytes)?;
        part.write_all(&(bytes.len() as u64).to_be_bytes())?;
        part.write_all(WORD)?;
        drop(part);
        self.keep_whole()
    }

    /// Keeps the file that has come, in place of the one before.
    pub fn keep_whole(&self) -> io::Result<()> {
        let part = self.0.join(PART);
        File::open(&part)?.sync_all()?;
        fs::rename(part, self.0.join(NAME))?;
        File::open(&self.0)?.sync_all()
    }

    /// How long the file is that is kept; 0 where there is none.
    pub fn length(&self) -> u64 {
        fs::metadata(self.0.join(NAME)).map_or(0, |found| found.len())
    }

    /// Whether one is kept.
    pub fn is_there(&self) -> bool {
        self.0.join(NAME).exists()
    }

    /// The file that is kept, whole.
    pub fn open(&self) -> io::Result<File> {
        folder::open(&self.0.join(NAME), OpenOptions::new().read(true))
    }

    /// What stands beside the state that is kept; none where there is no state.
    pub fn read(&self) -> io::Result<Option<Base>> {
        match self.open() {
            Ok(mut file) => Ok(Some(read_end(&mut file)?.1)),
            Err(fault) if fault.kind() == ErrorKind::NotFound => Ok(None),
            Err(fault) => Err(fault),
        }
    }

    /// What stands beside the state that has come.
    pub fn read_part(&self) -> io::Result<Base> {
        Ok(read_end(&mut File::open(self.0.join(PART))?)?.1)
    }

    /// Puts the state that is kept into a folder of `kfs_serve` without files.
    pub fn put(&self, replica: &Path) -> io::Result<()> {
        let mut file = self.open()?;
        let (length, _) = read_end(&mut file)?;
        file.seek(SeekFrom::Start(0))?;
        let [first, second] = crate::folder::FILES;
        let make = |name| OpenOptions::new().create_new(true).write(true).mode(0o600).open(replica.join(name));
        io::copy(&mut file.take(length), &mut make(first)?)?;
        make(second).map(drop)
    }
}

/// The length of the state, and what stands beside it.
fn read_end(file: &mut File) -> io::Result<(u64, Base)> {
    let wrong = || io::Error::new(ErrorKind::InvalidData, "the state that is kept isn't whole");
    let end = file.metadata()?.len().checked_sub(END).ok_or_else(wrong)?;
    file.seek(SeekFrom::Start(end))?;
    let mut last = [0; END as usize];
    file.read_exact(&mut last)?;
    let mut bytes = Bytes(&last);
    let length = bytes.long().filter(|length| *length <= end).ok_or_else(wrong)?;
    let is_older = bytes.0 == OLDER_WORD;
    if !is_older && bytes.0 != WORD {
        return Err(wrong());
    }
    file.seek(SeekFrom::Start(end - length))?;
    let mut beside = vec![0; length as usize];
    file.read_exact(&mut beside)?;
    Ok((end - length, Base::of(&beside, is_older).ok_or_else(wrong)?))
}

#[cfg(test)]
mod tests {
    use super::*;
    use crate::folder::tests::Room;
    use crate::folder::FILES;

    #[test]
    fn a_state_is_kept_and_put() {
        let (room, from, to) = (Room::new("bases"), Room::new("from"), Room::new("to"));
        let bases = Bases::new(&room.0);
        assert_eq!(bases.read().unwrap(), None);
        // two heads of which the second counts, and a record behind it
        let file = |number: u8, state: &[u8]| {
            let head = [b"KDJL\0\0\0\0\0\0\0".as_slice(), &[number, 1, 0, 0, 0, 0, 0, 0, 0, state.len() as u8]].concat();
            [&head, state].concat()
        };
        fs::write(from.0.join(FILES[0]), file(3, b"ab")).unwrap();
        fs::write(from.0.join(FILES[1]), [file(4, b"cde"), vec![1, 0, 0, 0, 1, 9]].concat()).unwrap();
        let outcome = |number| Outcome { client: 7, number, answer: vec![1, 2, 3] };
        let stamp = |set| Stamp { modified: -1, changed: 5, moved: 0, set, born: 77, marks: 3 };
        let base = Base {
            volume: 1,
            number: 2,
            moment: 3,
            outcomes: vec![outcome(9), outcome(u64::MAX)],
            stamps: vec![(5, stamp(None)), (6, stamp(Some(-9)))],
            born: 99,
        };
        bases.copy(&from.0).unwrap();
        assert_eq!(bases.read().unwrap(), None);
        bases.keep(&base).unwrap();
        assert_eq!(bases.read().unwrap(), Some(base));
        bases.put(&to.0).unwrap();
        assert_eq!(fs::read(to.0.join(FILES[0])).unwrap(), file(4, b"cde"));
        assert_eq!(fs::read(to.0.join(FILES[1])).unwrap(), b"");
    }

    #[test]
    fn a_state_of_an_older_kfsd_is_read() {
        let room = Room::new("bases");
        let longs = |longs: &[u64]| longs.iter().flat_map(|long| long.to_be_bytes()).collect::<Vec<_>>();
        let beside = [longs(&[1, 2, 3, 0]), vec![0, 0, 0, 5], longs(&[7, 8]), vec![1], longs(&[9])].concat();
        let file = [&b"state"[..], &beside, &(beside.len() as u64).to_be_bytes(), OLDER_WORD].concat();
        fs::write(room.0.join(NAME), file).unwrap();
        let stamp = Stamp { modified: 7, changed: 8, moved: 0, set: Some(9), born: 0, marks: 0 };
        let base = Base { volume: 1, number: 2, moment: 3, stamps: vec![(5, stamp)], ..Base::default() };
        assert_eq!(Bases::new(&room.0).read().unwrap(), Some(base));
    }

    #[test]
    fn a_state_is_due_behind_half_of_its_bytes() {
        let mut since = Since::new(100, 50);
        since.add(99);
        assert!(!since.is_long());
        since.add(1);
        assert!(since.is_long());
        since.begin_anew(1000);
        since.add(499);
        assert!(!since.is_long());
        since.add(1);
        assert!(since.is_long());
    }

    #[test]
    fn what_is_cut_is_no_state() {
        let room = Room::new("bases");
        let bases = Bases::new(&room.0);
        bases.part().unwrap().write_all(b"state").unwrap();
        bases.keep(&Base { number: 5, ..Base::default() }).unwrap();
        let whole = fs::read(room.0.join(NAME)).unwrap();
        for end in 0..whole.len() {
            fs::write(room.0.join(NAME), &whole[..end]).unwrap();
            assert!(bases.read().is_err(), "{end}");
        }
    }
}

//! The two files of a desk (docs/FORMATS.md), read while no `kfs_serve` has them open.
//!
//! kfsd writes nothing to them. What it reads here `kfs_serve` opens behind it, and refuses where it is wrong.

use crate::bytes::Bytes;
use crate::folder::{self, FILES};
use crate::leases::{Lease, Leases};
use crate::users::{lines_of, User};
use std::fs::{File, OpenOptions};
use std::io::{self, BufReader, ErrorKind, Read, Seek, SeekFrom};
use std::path::{Path, PathBuf};

/// How many bytes stand before the state of a file.
pub const HEAD: usize = 21;
const BUFFER: usize = 1 << 20;

/// The bytes of an image's head, and of a node in it.
const IMAGE_HEAD: usize = 29;
const NODE: usize = 25;

/// What the files tell, in its order.
#[derive(Debug)]
pub enum Part<'a> {
    /// The moment and the leases of the state that the file which counts begins with. Calls before it are part of it.
    State(Leases),
    /// A node of that state, behind it.
    Node { number: u32, owner: u32, size: u64 },
    /// A call that is kept, and its answer without the position.
    Call(&'a [u8], &'a [u8]),
}

/// A file whose head is whole.
struct Whole {
    path: PathBuf,
    number: u64,
    file: BufReader<File>,
    /// Where the file ends.
    end: u64,
    /// Where the first record begins.
    records: u64,
    /// How many bytes of the state aren't read yet.
    left: u64,
}

/// Reads both files. The calls of the file that counted before come first, where they lead to the state of the one that counts.
pub fn read(folder: &Path, mut tell: impl FnMut(Part<'_>)) -> io::Result<()> {
    let mut found = whole_in(folder)?.into_iter();
    let mut counts = match found.next() {
        Some(counts) => counts,
        None => return Ok(()),
    };
    if let Some(mut before) = found.next().filter(|before| before.number.checked_add(1) == Some(counts.number)) {
        before.tell_calls(&mut tell)?;
    }
    tell(Part::State(counts.state()?));
    counts.tell_nodes(&mut tell)?;
    counts.tell_calls(&mut tell)
}

/// The lines of the clients of the state that the file which counts begins with; none where no file counts.
pub fn clients(folder: &Path) -> io::Result<Option<String>> {
    match whole_in(folder)?.first_mut() {
        Some(counts) => {
            let (_moment, clients, _leases) = counts.state_head()?;
            Ok(Some(lines_of(&counts.clients(clients)?)))
        }
        None => Ok(None),
    }
}

/// The files whose heads are whole, the one that counts first.
fn whole_in(folder: &Path) -> io::Result<Vec<Whole>> {
    let mut found = Vec::new();
    for name in FILES {
        found.extend(Whole::open(&folder.join(name))?);
    }
    // Of two with one number the first counts.
    found.sort_by_key(|whole| std::cmp::Reverse(whole.number));
    Ok(found)
}

/// The file that counts, at its front, and how many bytes its head and its state have.
pub fn counting(folder: &Path) -> io::Result<Option<(File, u64)>> {
    let whole = match whole_in(folder)?.into_iter().next() {
        Some(whole) => whole,
        None => return Ok(None),
    };
    let mut file = whole.file.into_inner();
    file.seek(SeekFrom::Start(0))?;
    Ok(Some((file, whole.records)))
}

impl Whole {
    /// Opens a file; none where it isn't there, or its head isn't whole.
    fn open(path: &Path) -> io::Result<Option<Whole>> {
        if !folder::is_there(path)? {
            return Ok(None);
        }
        let file = folder::open(path, OpenOptions::new().read(true))?;
        let end = file.metadata()?.len();
        let mut file = BufReader::with_capacity(BUFFER, file);
        if end < HEAD as u64 {
            return Ok(None);
        }
        let mut head = [0; HEAD];
        file.read_exact(&mut head).map_err(|fault| folder::at(path, fault))?;
        let mut bytes = Bytes(&head);
        let is_whole = bytes.take(4) == Some(b"KDJL");
        let number = bytes.long().unwrap_or(0);
        let is_open = bytes.byte() == Some(1);
        let records = bytes.long().and_then(|length| length.checked_add(HEAD as u64)).filter(|at| *at <= end);
        let whole = |records| {
            let (path, left) = (path.to_path_buf(), records - HEAD as u64);
            Whole { path, number, file, end, records, left }
        };
        Ok(records.filter(|_| is_whole && is_open).map(whole))
    }

    fn take(&mut self, count: usize) -> io::Result<Vec<u8>> {
        let mut bytes = vec![0; count];
        self.file.read_exact(&mut bytes).map_err(|fault| folder::at(&self.path, fault))?;
        Ok(bytes)
    }

    /// So many bytes of the state. Where it has no more of them, a count in it is wrong.
    fn take_state(&mut self, count: usize) -> io::Result<Vec<u8>> {
        match self.left.checked_sub(count as u64) {
            Some(left) => self.left = left,
            None => {
                let fault =
                    io::Error::new(ErrorKind::InvalidData, "its state is damaged: it has more clients or leases than bytes");
                return Err(folder::at(&self.path, fault));
            }
        }
        self.take(count)
    }

    /// The moment of the state, and how many clients and leases it has. The file stands at the state.
    fn state_head(&mut self) -> io::Result<(u64, u32, u32)> {
        let head = self.take_state(HEAD)?;
        let mut bytes = Bytes(&head[5..]);
        Ok((bytes.long().unwrap_or(0), bytes.word().unwrap_or(0), bytes.word().unwrap_or(0)))
    }

    /// So many clients. The file stands at the first of them.
    fn clients(&mut self, count: u32) -> io::Result<Vec<User>> {
        let mut found = Vec::new();
        for _ in 0..count {
            let row = self.take_state(22)?;
            let groups = self.take_state(4 * usize::from(row[21]))?;
            found.extend(client_of(&row, &groups));
        }
        Ok(found)
    }

    /// The moment and the leases of the state. The file stands at the state.
    fn state(&mut self) -> io::Result<Leases> {
        let (moment, clients, leases) = self.state_head()?;
        self.clients(clients)?;
        let mut found = Leases::at(moment);
        for _ in 0..leases {
            let row = self.take_state(17)?;
            let mut bytes = Bytes(&row);
            if let (Some(node), Some(client), Some(kind), Some(end)) = (bytes.word(), bytes.word(), bytes.byte(), bytes.long())
            {
                found.put(node, client, Lease { writes: kind == 1, end });
            }
        }
        Ok(found)
    }

    /// Tells each node of the image, as far as it has them. The file stands at the image, behind the leases.
    fn tell_nodes(&mut self, tell: &mut impl FnMut(Part<'_>)) -> io::Result<()> {
        let room = self.records.saturating_sub(self.file.stream_position()?);
        if room < IMAGE_HEAD as u64 {
            return Ok(());
        }
        let head = self.take(IMAGE_HEAD)?;
        let count = Bytes(&head[17..]).word().unwrap_or(0);
        // Of more than are there `kfs_serve` says what is wrong.
        for _ in 0..u64::from(count).min((room - IMAGE_HEAD as u64) / NODE as u64) {
            let row = self.take(NODE)?;
            let (mut bytes, mut size) = (Bytes(&row), Bytes(&row[17..]));
            if let (Some(number), Some(_), Some(owner), Some(size)) = (bytes.word(), bytes.take(3), bytes.word(), size.long()) {
                tell(Part::Node { number, owner, size });
            }
        }
        Ok(())
    }

    /// Tells each call, up to the first record that isn't whole.
    fn tell_calls(&mut self, tell: &mut impl FnMut(Part<'_>)) -> io::Result<()> {
        let mut at = self.records;
        self.file.seek(SeekFrom::Start(at))?;
        while self.end - at >= 5 {
            let head = self.take(5)?;
            let length = u64::from(Bytes(&head[1..]).word().unwrap_or(0));
            at += 5;
            if head[0] != 1 || length > self.end - at {
                break;
            }
            at += length;
            let group = self.take(length as usize)?;
            tell_group(&group, tell);
        }
        Ok(())
    }
}

/// The client that a row and the groups behind it are.
fn client_of(row: &[u8], groups: &[u8]) -> Option<User> {
    let (mut bytes, mut groups) = (Bytes(row), Bytes(groups));
    let (client, uid, gid, privilege) = (bytes.word()?, bytes.word()?, bytes.word()?, bytes.byte()?);
    let grant = [bytes.word()?, bytes.word()?];
    let groups = std::iter::from_fn(|| groups.word()).collect();
    Some(User { uid, gid, client, groups, privileged: privilege == 1, grant })
}

/// Tells the calls of a group: each behind its length of four bytes, and its answer behind one of one byte.
fn tell_group(group: &[u8], tell: &mut impl FnMut(Part<'_>)) {
    let mut bytes = Bytes(group);
    while let Some(call) = bytes.counted() {
        let answer = bytes.byte().and_then(|length| bytes.take(length.into()));
        match answer {
            Some(answer) => tell(Part::Call(call, answer)),
            None => return,
        }
    }
}

#[cfg(test)]
mod tests {
    use super::*;
    use crate::folder::tests::Room;

    /// A file with this number, a state with a client, a lease and no image, and a group for each of these calls.
    fn file(number: u64, gate: u8, calls: &[&[u8]]) -> Vec<u8> {
        file_with(number, gate, calls, &[99])
    }

    fn file_with(number: u64, gate: u8, calls: &[&[u8]], image: &[u8]) -> Vec<u8> {
        let mut state = b"KDSK\x01".to_vec();
        state.extend_from_slice(&[0, 0, 0, 0, 0, 0, 0, 50, 0, 0, 0, 1, 0, 0, 0, 1]);
        // client 7 with one group
        state.extend_from_slice(&[0, 0, 0, 7, 0, 0, 0, 1, 0, 0, 0, 1, 0, 0, 0, 0, 2, 0, 0, 0, 9, 1, 0, 0, 0, 5]);
        // its lease on node 3 up to 60
        state.extend_from_slice(&[0, 0, 0, 3, 0, 0, 0, 7, 1, 0, 0, 0, 0, 0, 0, 0, 60]);
        state.extend_from_slice(image);
        let mut bytes = b"KDJL".to_vec();
        bytes.extend_from_slice(&number.to_be_bytes());
        bytes.push(gate);
        bytes.extend_from_slice(&(state.len() as u64).to_be_bytes());
        bytes.extend_from_slice(&state);
        for call in calls {
            bytes.push(1);
            bytes.extend_from_slice(&(call.len() as u32 + 7).to_be_bytes());
            bytes.extend_from_slice(&(call.len() as u32).to_be_bytes());
            bytes.extend_from_slice(call);
            bytes.extend_from_slice(&[2, 1, 1]);
        }
        bytes.push(0);
        bytes
    }

    /// The calls that are told, with the moment of the state among them.
    fn told(first: &[u8], second: &[u8]) -> Vec<String> {
        let room = Room::new("journal");
        std::fs::write(room.0.join(FILES[0]), first).unwrap();
        std::fs::write(room.0.join(FILES[1]), second).unwrap();
        let mut found = Vec::new();
        read(&room.0, |part| match part {
            Part::State(leases) => found.push(format!("{} {:?}", leases.moment, leases.all().map(|(key, _)| key).next())),
            Part::Node { number, owner, size } => found.push(format!("{number} of {owner}: {size}")),
            Part::Call(call, answer) => found.push(format!("{}{answer:?}", String::from_utf8_lossy(call))),
        })
        .unwrap();
        found
    }

    #[test]
    fn the_calls_before_come_first() {
        let (old, new) = (file(4, 1, &[b"a", b"b"]), file(5, 1, &[b"c"]));
        let state = "50 Some((3, 7))";
        assert_eq!(told(&new, &old), ["a[1, 1]", "b[1, 1]", state, "c[1, 1]"]);
        assert_eq!(told(&old, &new), ["a[1, 1]", "b[1, 1]", state, "c[1, 1]"]);
        // what isn't the file before tells nothing
        assert_eq!(told(&file(3, 1, &[b"a"]), &new), [state, "c[1, 1]"]);
        assert_eq!(told(&file(6, 0, &[b"a"]), &new), [state, "c[1, 1]"]);
        assert_eq!(told(&old[..30], &new), [state, "c[1, 1]"]);
        assert_eq!(told(&[], &new), [state, "c[1, 1]"]);
        assert_eq!(told(&[], &[]), Vec::<String>::new());
    }

    #[test]
    fn clients_are_those_of_the_file_that_counts() {
        let room = Room::new("rows");
        assert_eq!(clients(&room.0).unwrap(), None);
        std::fs::write(room.0.join(FILES[1]), file(4, 1, &[b"a"])).unwrap();
        let mut other = file(5, 1, &[]);
        other[52] = 1;
        std::fs::write(room.0.join(FILES[0]), &other).unwrap();
        assert_eq!(clients(&room.0).unwrap().unwrap(), "client 7 1 257 0 2 9 5\n");
        other[12] = 0;
        std::fs::write(room.0.join(FILES[0]), &other).unwrap();
        assert_eq!(clients(&room.0).unwrap().unwrap(), "client 7 1 1 0 2 9 5\n");
    }

    #[test]
    fn a_count_that_is_too_great_is_told_with_its_file() {
        let room = Room::new("counts");
        let whole = file(5, 1, &[&[b'a'; 5_000]]);
        // the last bytes of the counts of clients and of leases, and that of a client's groups
        for place in [HEAD + 16, HEAD + 20, HEAD + 42] {
            let mut wrong = whole.clone();
            wrong[place] = 200;
            std::fs::write(room.0.join(FILES[1]), &wrong).unwrap();
            let fault = read(&room.0, |_| {}).unwrap_err().to_string();
            assert!(fault.contains("second.kdjl: its state is damaged"), "{fault}");
        }
    }

    #[test]
    fn nodes_are_told_behind_the_state() {
        let mut image = b"KIMG\x02\0\0\0\x08\0\0\0\x08\0\0\0\x08\0\0\0\x02\0\0\0\0\0\0\0\0".to_vec();
        image.extend_from_slice(&[0, 0, 0, 1, 1, 1, 0xff, 0, 0, 0, 0, 0, 0, 0, 9, 0, 1, 0, 0, 0, 0, 0, 0, 0, 0]);
        image.extend_from_slice(&[0, 0, 1, 0, 0, 1, 0xa4, 0, 0, 3, 0xe8, 0, 0, 0, 9, 0, 2, 0, 0, 0, 1, 0, 0, 0, 5]);
        let nodes = ["50 Some((3, 7))", "1 of 0: 0", "256 of 1000: 4294967301", "a[1, 1]"];
        assert_eq!(told(&file_with(5, 1, &[b"a"], &image), &[]), nodes);
        // what stands behind them isn't read
        let longer = [&image[..], &[7; 90]].concat();
        assert_eq!(told(&file_with(5, 1, &[b"a"], &longer), &file(4, 1, &[b"b"])), [&["b[1, 1]"], &nodes[..]].concat());
        // nor what isn't there
        for cut in 1..=image.len() {
            let found = told(&file_with(5, 1, &[b"a"], &image[..image.len() - cut]), &[]);
            let whole = (image.len() - cut).saturating_sub(IMAGE_HEAD) / NODE;
            assert_eq!(found, [&nodes[..=whole], &nodes[3..]].concat(), "{cut}");
        }
    }

    #[test]
    fn a_record_that_is_cut_ends_the_calls() {
        let whole = file(5, 1, &[b"a", b"b"]);
        for cut in 1..14 {
            assert_eq!(
                told(&whole[..whole.len() - cut], &[]),
                ["50 Some((3, 7))", "a[1, 1]", "b[1, 1]"][..if cut > 1 { 2 } else { 3 }]
            );
        }
    }
}

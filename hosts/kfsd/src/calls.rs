//! Calls of a desk and their answers as bytes (docs/FORMATS.md), as far as kfsd follows what the desk does.

use crate::bytes::Bytes;
use std::collections::HashSet;

const SUBMIT: u8 = 1;
const LEASE: u8 = 2;
const DROP: u8 = 3;
const TICK: u8 = 4;
const MIGRATE: u8 = 5;
const LEASE_BY_NUMBER: u8 = 6;

/// No block has these tiers: they say that a call of moves sets a time, or marks.
const TIME_TIER: u8 = 0xfe;
const MARKS_TIER: u8 = 0xfd;

/// How many bytes of a call's front and of its end its print is made of.
const SAMPLE: usize = 1024;

/// A call for a lease.
#[derive(Clone, Copy, Debug, PartialEq, Eq)]
pub struct Wish {
    pub client: u32,
    pub writes: bool,
    /// The moment at which the lease ends.
    pub end: u64,
    /// None where it is asked for by a path, and nobody has said to which node that leads.
    pub node: Option<u32>,
}

/// What a log does to a node, as its plan says.
#[derive(Clone, Copy, Debug, PartialEq, Eq)]
pub enum Change {
    /// It is made.
    Made,
    /// The bytes of a file, or the names of a directory.
    Bytes,
    /// It is new, or its header is another.
    Header,
    /// It isn't there any more.
    Gone,
    /// Its owner sets when it was modified.
    Time(Setting),
    /// Its owner sets its marks.
    Marks(Marking),
}

/// When a node was modified, as its owner sets it.
#[derive(Clone, Copy, Debug, PartialEq, Eq)]
pub struct Setting {
    /// In nanoseconds since 1970.
    pub time: i64,
    /// No time of the node was known. Else one that isn't known any more is that of a node which is gone.
    pub is_first: bool,
}

/// Marks that an owner sets on a node, and when the node was made that it means: else another one has its number meanwhile.
#[derive(Clone, Copy, Debug, PartialEq, Eq)]
pub struct Marking {
    pub marks: u8,
    pub born: i64,
}

/// A log, as far as it is followed.
#[derive(Clone, Debug, PartialEq, Eq)]
pub struct Log {
    /// Names all that the log changes, where it is right. It is read once the log has landed: until then its rows would take several
    /// times the memory of its bytes.
    plan: Vec<u8>,
    /// The nodes that the log makes, which the plan doesn't tell from those that it changes.
    made: Vec<u32>,
    print: u64,
}

/// What a call has changed.
#[derive(Clone, Debug, PartialEq, Eq)]
pub struct Landing {
    pub changes: Vec<(u32, Change)>,
    /// Tells the call from others.
    pub print: u64,
}

/// What kfsd follows of a call.
#[derive(Clone, Debug, PartialEq, Eq)]
pub enum Note {
    Lease(Wish),
    Drop {
        client: u32,
    },
    Submit(Log),
    /// kfsd's own call that keeps the time which an owner sets on a node.
    Time(u32, Setting),
    /// The same of marks.
    Marks(u32, Marking),
    /// The look-up of a node's header, behind which kfsd tells what it keeps of the node.
    Look(u32),
    /// Nothing is followed, or it is told by the answer.
    Nothing,
}

impl Note {
    /// What these bytes ask for. Where they are no call, it is nothing; `kfs_serve` refuses them.
    pub fn of(body: &[u8]) -> Note {
        Note::read(body).unwrap_or(Note::Nothing)
    }

    /// The wish in a call for a lease; none in another call.
    pub fn of_lease(body: &[u8]) -> Option<Wish> {
        match body.first() {
            Some(&(LEASE | LEASE_BY_NUMBER)) => match Note::of(body) {
                Note::Lease(wish) => Some(wish),
                _ => None,
            },
            _ => None,
        }
    }

    /// What it changes where it is done; none where it changes nothing.
    pub fn landing(&self) -> Option<Landing> {
        let landing = match self {
            Note::Submit(log) => Landing { changes: log.changes(), print: log.print },
            Note::Time(node, set) => {
                Landing { changes: vec![(*node, Change::Time(*set))], print: print_of(&time_call(*node, *set)) }
            }
            Note::Marks(node, set) => {
                Landing { changes: vec![(*node, Change::Marks(*set))], print: print_of(&marks_call(*node, *set)) }
            }
            _ => return None,
        };
        Some(landing).filter(|landing| !landing.changes.is_empty())
    }

    fn read(body: &[u8]) -> Option<Note> {
        let mut bytes = Bytes(body);
        let tag = bytes.byte()?;
        if tag == MIGRATE {
            return set_in(body);
        }
        let client = bytes.word()?;
        match tag {
            SUBMIT => {
                let (log, plan) = (bytes.counted()?, bytes.counted()?);
                Some(Note::Submit(Log { plan: plan.to_vec(), made: made_in(log), print: print_of(body) }))
            }
            LEASE | LEASE_BY_NUMBER => {
                let (writes, end) = (bytes.byte()? == 1, bytes.long()?);
                let node = match tag {
                    LEASE => None,
                    _ => Some(bytes.word()?),
                };
                Some(Note::Lease(Wish { client, writes, end, node }))
            }
            DROP => Some(Note::Drop { client }),
            _ => None,
        }
    }
}

/// A number by which a call is told from others: FNV-1a of its length, its front and its end.
fn print_of(body: &[u8]) -> u64 {
    let (front, end) = (&body[..body.len().min(SAMPLE)], &body[body.len() - body.len().min(SAMPLE)..]);
    let bytes = (body.len() as u64).to_be_bytes();
    let all = bytes.iter().chain(front).chain(end);
    all.fold(0xcbf2_9ce4_8422_2325, |hash, byte| (hash ^ u64::from(*byte)).wrapping_mul(0x0000_0100_0000_01b3))
}

impl Log {
    fn changes(&self) -> Vec<(u32, Change)> {
        let found = match changes_in(&self.plan) {
            Some(found) => found,
            None => return Vec::new(),
        };
        let rows: HashSet<u32> = found.iter().filter(|(_, change)| *change == Change::Header).map(|(node, _)| *node).collect();
        // One without a row is gone again by the end of the log.
        let made = self.made.iter().filter(|node| rows.contains(node)).map(|node| (*node, Change::Made));
        made.chain(found.iter().copied()).collect()
    }
}

/// The numbers of the nodes that a log makes, each once. Of what is no log those before the fault.
fn made_in(log: &[u8]) -> Vec<u32> {
    let mut bytes = Bytes(log);
    let _magic_version_and_client = bytes.take(9);
    let count = bytes.half().unwrap_or(0);
    let mut found: Vec<u32> = (0..count).map_while(|_| entry_in(&mut bytes)).flatten().collect();
    found.sort_unstable();
    found.dedup();
    found
}

/// The node that the next entry makes, where it makes one; none where no entry follows.
fn entry_in(bytes: &mut Bytes<'_>) -> Option<Option<u32>> {
    match bytes.byte()? {
        1 => {
            let (_directory, _name) = (bytes.word()?, named(bytes)?);
            let node = bytes.word()?;
            let _kind_and_mode = bytes.take(3)?;
            return Some(Some(node));
        }
        2 => {
            let _node_and_offset = bytes.take(12)?;
            let _payload = bytes.counted()?;
        }
        3 => drop(bytes.take(12)?),
        4 => drop((bytes.take(8)?, named(bytes)?)),
        5 => drop((bytes.word()?, named(bytes)?, bytes.byte()?)),
        6 => drop((bytes.word()?, named(bytes)?, bytes.word()?, named(bytes)?)),
        7 => drop(bytes.take(6)?),
        8 => drop(bytes.take(8)?),
        _ => return None,
    }
    Some(None)
}

fn named<'a>(bytes: &mut Bytes<'a>) -> Option<&'a [u8]> {
    let length = bytes.byte()?;
    bytes.take(length.into())
}

/// What a plan changes, each node as often as it has rows of different kinds.
fn changes_in(plan: &[u8]) -> Option<Vec<(u32, Change)>> {
    let mut bytes = Bytes(plan);
    let _head = bytes.take(5)?;
    let (names, nodes, pieces) = (bytes.half()?, bytes.half()?, bytes.word()?);
    let (mut found, mut gone) = (Vec::new(), Vec::new());
    for _ in 0..names {
        put(&mut found, bytes.word()?, Change::Bytes);
        let length = bytes.byte()?;
        let _name_and_number = bytes.take(usize::from(length) + 4)?;
    }
    for _ in 0..nodes {
        let (node, state) = (bytes.word()?, bytes.byte()?);
        if state == 0 {
            gone.push((node, Change::Gone));
        } else {
            let _header = bytes.take(20)?;
            put(&mut found, node, Change::Header);
        }
    }
    for _ in 0..pieces {
        put(&mut found, bytes.word()?, Change::Bytes);
        let _start_and_length = bytes.take(16)?;
        let payload = if bytes.byte()? == 1 { 6 } else { 0 };
        let _payload = bytes.take(payload)?;
    }
    found.extend(gone);
    Some(found)
}

/// Adds a change, where the last one isn't the same.
fn put(found: &mut Vec<(u32, Change)>, node: u32, change: Change) {
    if found.last() != Some(&(node, change)) {
        found.push((node, change));
    }
}

/// The call that keeps the time which an owner sets on a node.
pub fn time_call(node: u32, set: Setting) -> Vec<u8> {
    refused_moves(TIME_TIER, node, set.is_first.into(), set.time)
}

/// The call that keeps the marks which an owner sets on a node.
pub fn marks_call(node: u32, set: Marking) -> Vec<u8> {
    refused_moves(MARKS_TIER, node, set.marks.into(), set.born)
}

/// A call of moves that the desk refuses and keeps, since no node has the number 0.
fn refused_moves(tier: u8, node: u32, word: u32, time: i64) -> Vec<u8> {
    let mut body = vec![MIGRATE, 0, 2, 0, 0, 0, 0];
    body.extend_from_slice(&node.to_be_bytes());
    body.push(tier);
    body.extend_from_slice(&word.to_be_bytes());
    body.extend_from_slice(&time.to_be_bytes());
    body.push(tier);
    body.extend_from_slice(&[0; 4]);
    body
}

/// What such a call sets.
fn set_in(body: &[u8]) -> Option<Note> {
    let mut bytes = Bytes(body.get(7..)?);
    let (node, tier, word, time) = (bytes.word()?, bytes.byte()?, bytes.word()?, bytes.long()? as i64);
    let (note, call) = match tier {
        TIME_TIER => {
            let set = Setting { time, is_first: word == 1 };
            (Note::Time(node, set), time_call(node, set))
        }
        MARKS_TIER => {
            let set = Marking { marks: u8::try_from(word).ok()?, born: time };
            (Note::Marks(node, set), marks_call(node, set))
        }
        _ => return None,
    };
    (body == call).then_some(note)
}

/// The call that sets the moment.
pub fn tick(moment: u64) -> Vec<u8> {
    let mut body = vec![TICK];
    body.extend_from_slice(&moment.to_be_bytes());
    body
}

/// The path in a call for a lease by path; none in another call.
pub fn path_in(body: &[u8]) -> Option<&[u8]> {
    let mut bytes = Bytes(body);
    let is_by_path = bytes.byte()? == LEASE;
    let _client_kind_and_end = bytes.take(13)?;
    let length = bytes.half()?;
    let path = bytes.take(length.into())?;
    (is_by_path && bytes.0.is_empty()).then_some(path)
}

/// The call for a lease by path that is like a wish.
pub fn lease_by_path(wish: &Wish, path: &[u8]) -> Vec<u8> {
    let mut body = lease_head(LEASE, wish);
    // It came with a length of two bytes.
    body.extend_from_slice(&(path.len() as u16).to_be_bytes());
    body.extend_from_slice(path);
    body
}

/// The call for a lease by number that is like a wish.
pub fn lease_by_number(wish: &Wish, node: u32) -> Vec<u8> {
    let mut body = lease_head(LEASE_BY_NUMBER, wish);
    body.extend_from_slice(&node.to_be_bytes());
    body
}

fn lease_head(tag: u8, wish: &Wish) -> Vec<u8> {
    let mut body = vec![tag];
    body.extend_from_slice(&wish.client.to_be_bytes());
    body.push(u8::from(wish.writes));
    body.extend_from_slice(&wish.end.to_be_bytes());
    body
}

/// The call by which a client gives a lease up.
pub fn drop_of(client: u32, node: u32) -> Vec<u8> {
    let mut body = vec![DROP];
    body.extend_from_slice(&client.to_be_bytes());
    body.extend_from_slice(&node.to_be_bytes());
    body
}

/// Why the desk refuses a call for a lease, as far as kfsd looks at it.
#[derive(Clone, Copy, Debug, PartialEq, Eq)]
pub enum Why {
    /// The end isn't above the moment. All that is asked of the client and the node before holds.
    Past,
    /// This client has a lease that doesn't go with it.
    Held(u32),
    NoSuchNode,
    /// The client has no permission on the node for such a lease.
    NotAllowed,
    Else,
}

/// What the desk answered, as far as kfsd follows it.
#[derive(Clone, Copy, Debug, PartialEq, Eq)]
pub enum Told {
    /// A log has landed.
    Landed,
    /// Too few places of tier 0 are free.
    NoRoom,
    Leased(u32),
    Dropped(u32),
    Ticked(u64),
    NoLease(Why),
    Else,
}

impl Told {
    /// What an answer says. Its position is not among these bytes.
    pub fn of(answer: &[u8]) -> Told {
        Told::read(answer).unwrap_or(Told::Else)
    }

    fn read(answer: &[u8]) -> Option<Told> {
        let mut bytes = Bytes(answer);
        match bytes.byte()? {
            1 => Some(Told::Landed),
            3 => Some(Told::NoRoom),
            4 => Some(Told::Leased(bytes.word()?)),
            5 => Some(Told::Dropped(bytes.word()?)),
            6 => Some(Told::Ticked(bytes.long()?)),
            8 => {
                let code = bytes.half()?.to_be_bytes()[0];
                let _index = bytes.long()?;
                let client = bytes.word()?;
                Some(Told::NoLease(match code {
                    6 => Why::Past,
                    7 => Why::Held(client),
                    10 => Why::NoSuchNode,
                    11 => Why::NotAllowed,
                    _ => Why::Else,
                }))
            }
            _ => None,
        }
    }
}

/// How many places of tier 0 the log needs that was answered so, where it has landed or had too few.
pub fn need_in(answer: &[u8]) -> u64 {
    let mut bytes = Bytes(answer);
    match (bytes.byte(), bytes.byte()) {
        (Some(1 | 3), Some(_rejudged)) => bytes.long().unwrap_or(0),
        _ => 0,
    }
}

#[cfg(test)]
mod tests {
    use super::*;

    #[test]
    fn calls_for_leases_are_read() {
        let by_path = [2, 0, 0, 0, 7, 1, 0, 0, 0, 0, 0, 0, 0, 100, 0, 1, b'/'];
        let wish = Wish { client: 7, writes: true, end: 100, node: None };
        assert_eq!(Note::of(&by_path), Note::Lease(wish));
        assert_eq!((lease_by_path(&wish, b"/"), path_in(&by_path)), (by_path.to_vec(), Some(&b"/"[..])));
        let by_number = [6, 0, 0, 0, 7, 1, 0, 0, 0, 0, 0, 0, 0, 100, 0, 0, 1, 2];
        assert_eq!(Note::of(&by_number), Note::Lease(Wish { node: Some(258), ..wish }));
        assert_eq!((lease_by_number(&wish, 258), path_in(&by_number)), (by_number.to_vec(), None));
        assert_eq!(Note::of(&drop_of(7, 1)), Note::Drop { client: 7 });
        for cut in 0..by_path.len() {
            assert_eq!(path_in(&by_path[..cut]), None);
        }
        assert_eq!(path_in(&[&by_path[..], &[0]].concat()), None);
        assert_eq!(Note::of(&[]), Note::Nothing);
        assert_eq!(tick(258), [4, 0, 0, 0, 0, 0, 0, 1, 2]);
    }

    #[test]
    fn times_that_owners_set_are_read() {
        for time in [i64::MIN, -1, 0, 258, i64::MAX] {
            let set = Setting { time, is_first: time < 0 };
            let call = time_call(7, set);
            assert_eq!(Note::of(&call), Note::Time(7, set));
            for at in (0..7).chain([11, 15, 24, 28]) {
                let mut other = call.clone();
                other[at] ^= 2;
                assert_eq!(Note::of(&other), Note::Nothing);
            }
            assert_eq!(Note::of(&call[..28]), Note::Nothing);
        }
        assert_eq!(Note::of(&crate::outcomes::Marker::new(7, 9, &[]).bytes()), Note::Nothing);
    }

    #[test]
    fn marks_that_owners_set_are_read() {
        for born in [i64::MIN, 0, 258, i64::MAX] {
            let set = Marking { marks: 1, born };
            let call = marks_call(7, set);
            assert_eq!(Note::of(&call), Note::Marks(7, set));
            assert_eq!(Note::of(&call).landing().unwrap().changes, [(7, Change::Marks(set))]);
            for at in (0..7).chain([11, 12, 13, 14, 24, 28]) {
                let mut other = call.clone();
                other[at] ^= 0x40;
                assert_eq!(Note::of(&other), Note::Nothing, "{at}");
            }
        }
    }

    #[test]
    fn a_log_says_which_nodes_it_makes() {
        let create = |node| [&[1, 0, 0, 0, 1, 2, b'a', b'b'][..], &u32::to_be_bytes(node), &[0, 1, 0xa4]].concat();
        let others = [
            [&[2, 0, 0, 0, 5][..], &[0; 8], &[0, 0, 0, 3, 1, 0, 0]].concat(),
            [&[3][..], &[0; 12]].concat(),
            [&[4][..], &[0; 8], &[1, b'c']].concat(),
            vec![5, 0, 0, 0, 1, 1, b'c', 0],
            [&[6, 0, 0, 0, 1, 1, b'c'][..], &[0, 0, 0, 1, 2, b'd', b'e']].concat(),
            vec![7, 0, 0, 0, 5, 1, 0xa4],
            [&[8][..], &[0; 8]].concat(),
        ];
        let entries = [&[create(9)][..], &others, &[create(5), create(9)]].concat();
        let log = [&b"KLOG\x02\0\0\0\x07"[..], &(entries.len() as u16).to_be_bytes(), &entries.concat()].concat();
        assert_eq!(made_in(&log), [5, 9]);
        assert_eq!(made_in(&log[..log.len() - 1]), [5, 9]);
        assert_eq!(made_in(&log[..log.len() - create(9).len() - 1]), [9]);
        for other in [&log[..9], &log[..13], &[]] {
            assert_eq!(made_in(other), Vec::<u32>::new());
        }
    }

    #[test]
    fn what_is_made_is_told_from_what_changes() {
        let row = |node: u8, state: u8| [vec![0, 0, 0, node, state], vec![7; if state == 0 { 0 } else { 20 }]].concat();
        let plan = [b"KPLN\x01\0\0\0\x03\0\0\0\0".to_vec(), row(4, 0), row(5, 1), row(6, 1)].concat();
        let log = Log { plan, made: vec![5, 7], print: 0 };
        assert_eq!(log.changes(), [(5, Change::Made), (5, Change::Header), (6, Change::Header), (4, Change::Gone)]);
    }

    #[test]
    fn calls_have_prints() {
        let long = [vec![1; SAMPLE], vec![2; 9], vec![3; SAMPLE]].concat();
        let mut prints = vec![print_of(&[]), print_of(&[0]), print_of(&[1; SAMPLE]), print_of(&long)];
        for at in [0, SAMPLE - 1, SAMPLE + 9, long.len() - 1] {
            let mut other = long.clone();
            other[at] ^= 1;
            prints.push(print_of(&other));
        }
        prints.sort_unstable();
        prints.dedup();
        assert_eq!(prints.len(), 8);
    }

    #[test]
    fn a_plan_says_what_changes() {
        let mut plan = b"KPLN\x01\0\x02\0\x02\0\0\0\x03".to_vec();
        for name in [b'a', b'b'] {
            plan.extend_from_slice(&[0, 0, 0, 1, 1, name, 0, 0, 0, 5]);
        }
        plan.extend_from_slice(&[0, 0, 0, 4, 0]);
        plan.extend_from_slice(&[[0, 0, 0, 5, 1].as_slice(), &[7; 20]].concat());
        for source in [0, 0, 1] {
            plan.extend_from_slice(&[[0, 0, 0, 5].as_slice(), &[0; 16], &[source]].concat());
        }
        plan.extend_from_slice(&[9; 6]);
        let mut call = vec![1, 0, 0, 0, 7, 0, 0, 0, 1, 99];
        call.extend_from_slice(&(plan.len() as u32).to_be_bytes());
        call.extend_from_slice(&plan);
        let changes = vec![(1, Change::Bytes), (5, Change::Header), (5, Change::Bytes), (4, Change::Gone)];
        assert_eq!(Note::of(&call), Note::Submit(Log { plan: plan.clone(), made: vec![], print: print_of(&call) }));
        assert_eq!(Note::of(&call).landing(), Some(Landing { changes, print: print_of(&call) }));
        for cut in 1..plan.len() {
            assert_eq!(changes_in(&plan[..cut]), None);
        }
    }

    #[test]
    fn answers_are_read() {
        assert_eq!(Told::of(&[4, 0, 0, 0, 1]), Told::Leased(1));
        assert_eq!(Told::of(&[6, 0, 0, 0, 0, 0, 0, 1, 0]), Told::Ticked(256));
        assert_eq!(Told::of(&[8, 7, 0, 0, 0, 0, 0, 0, 0, 0, 0, 0, 0, 0, 9]), Told::NoLease(Why::Held(9)));
        for (code, why) in [(1, Why::Else), (6, Why::Past), (10, Why::NoSuchNode), (11, Why::NotAllowed)] {
            assert_eq!(Told::of(&[&[8, code][..], &[0; 13]].concat()), Told::NoLease(why));
        }
        assert_eq!(Told::of(&[1, 0]), Told::Landed);
        let landed = [1, 0, 0, 0, 0, 0, 0, 0, 1, 2];
        assert_eq!((need_in(&landed), need_in(&landed[..9]), need_in(&[2, 0, 0, 0, 0, 0, 0, 0, 1, 2])), (258, 0, 0));
        assert_eq!(need_in(&[3, 0, 0, 0, 0, 0, 0, 0, 1, 2, 0, 0, 0, 9]), 258);
        assert_eq!(Told::of(&[2, 0]), Told::Else);
        assert_eq!(Told::of(&[3, 0]), Told::NoRoom);
    }
}

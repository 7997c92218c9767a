//! Tests of the locks: single questions, and random ones beside a model that has each byte by itself.

use super::*;

const END: u64 = u64::MAX;
const NODE: u32 = 5;

/// Locks that are set at once.
fn open() -> (Locks, Instant) {
    let (mut locks, now) = (Locks::default(), Instant::now());
    locks.begin(true, now);
    (locks, now)
}

fn ask(own: u64, kind: Kind, first: u64, last: u64, how: How) -> Ask {
    Ask { node: NODE, own, pid: own as u32, style: Style::Range, kind, range: Range { first, last }, how }
}

fn whole(own: u64, kind: Kind, how: How) -> Ask {
    Ask { style: Style::Whole, ..ask(own, kind, 0, END, how) }
}

fn in_the_way(verdict: Verdict) -> Option<(Kind, u64, u64, u32)> {
    match verdict {
        Verdict::Conflicts(Conflict { kind, range, pid }) => Some((kind, range.first, range.last, pid)),
        _ => None,
    }
}

#[test]
fn a_question_is_read_from_35_bytes() {
    let mut bytes = vec![0, 0, 1, 0];
    bytes.extend([0, 0, 0, 0, 0, 0, 0, 9, 0, 0, 0, 3, 0, 1]);
    bytes.extend(10u64.to_be_bytes());
    bytes.extend(END.to_be_bytes());
    bytes.push(2);
    let due = Ask { node: 256, own: 9, pid: 3, ..ask(9, Kind::Write, 10, END, How::Wait) };
    assert_eq!((bytes.len(), Ask::of(&bytes)), (35, Some(due)));
    let is_one = |at: usize, with: &[u8]| {
        let mut other = bytes.clone();
        other[at..at + with.len()].copy_from_slice(with);
        Ask::of(&other).is_some()
    };
    assert!(is_one(16, &[1]) && is_one(17, &[2]) && is_one(34, &[4]) && is_one(33, &[0]));
    // no such style, kind or way, and an end before the front
    assert!(!is_one(16, &[2]) && !is_one(17, &[3]) && !is_one(34, &[5]) && !is_one(26, &[0; 8]));
    assert_eq!((Ask::of(&bytes[..34]), Ask::of(&[bytes.clone(), vec![0]].concat())), (None, None));
}

#[test]
fn a_lock_takes_the_place_of_the_part_that_it_covers() {
    let (mut locks, now) = open();
    let (mine, other) = (locks.connect(7), locks.connect(8));
    let mut set = |line, kind, first, last| locks.ask(line, &ask(1, kind, first, last, How::Set), now);
    assert_eq!(set(mine, Kind::Write, 0, END), Verdict::Granted);
    assert_eq!(set(mine, Kind::Read, 10, 19), Verdict::Granted);
    assert_eq!(set(other, Kind::Read, 10, 19), Verdict::Granted);
    assert_eq!(in_the_way(set(other, Kind::Read, 19, 20)), Some((Kind::Write, 20, END, 0)));
    assert_eq!(in_the_way(set(mine, Kind::Write, 19, 19)), Some((Kind::Read, 10, 19, 0)));
    assert_eq!(set(mine, Kind::Unlock, 30, 39), Verdict::Granted);
    assert_eq!(set(other, Kind::Write, 30, 39), Verdict::Granted);
    assert_eq!(locks.len(), 6);
    locks.end(mine);
    assert_eq!(locks.len(), 2);
    locks.gone(NODE);
    assert!(locks.is_empty() && locks.nodes.is_empty() && locks.places.is_empty() && locks.counts.is_empty());
}

#[test]
fn a_test_tells_the_process_of_the_same_connection_alone() {
    let (mut locks, now) = open();
    let (mine, other) = (locks.connect(7), locks.connect(7));
    locks.ask(mine, &ask(1, Kind::Write, 5, 9, How::Set), now);
    let test = |line, own| ask(own, Kind::Read, 0, 5, How::Test).lock(line);
    assert_eq!(locks.conflict(NODE, &test(mine, 2)).map(|it| it.pid), Some(1));
    assert_eq!(locks.conflict(NODE, &test(other, 1)).map(|it| it.pid), Some(0));
    assert_eq!(locks.conflict(NODE, &test(mine, 1)), None);
    assert_eq!(locks.ask(other, &ask(1, Kind::Read, 0, 4, How::Test), now), Verdict::Granted);
    assert_eq!(locks.len(), 1);
}

#[test]
fn a_lock_of_flock_is_given_up_for_another_one() {
    let (mut locks, now) = open();
    let (mine, other) = (locks.connect(7), locks.connect(8));
    assert_eq!(locks.ask(mine, &ask(1, Kind::Write, 0, END, How::Set), now), Verdict::Granted);
    for line in [mine, other] {
        assert_eq!(locks.ask(line, &whole(1, Kind::Read, How::Set), now), Verdict::Granted);
    }
    assert!(in_the_way(locks.ask(mine, &whole(1, Kind::Write, How::Wait), now)).is_some());
    assert_eq!(locks.ask(other, &whole(1, Kind::Write, How::Wait), now), Verdict::Granted);
    assert!(in_the_way(locks.ask(mine, &whole(1, Kind::Write, How::Wait), now)).is_some());
}

#[test]
fn who_waits_is_told_when_its_way_is_freed() {
    let (mut locks, now) = open();
    let (mine, other) = (locks.connect(7), locks.connect(8));
    locks.ask(mine, &ask(1, Kind::Write, 0, 9, How::Set), now);
    locks.ask(mine, &ask(1, Kind::Read, 20, 29, How::Set), now);
    let wait = ask(1, Kind::Read, 9, 20, How::Wait);
    assert!(in_the_way(locks.ask(other, &wait, now)).is_some());
    locks.set_serial(100);
    // neither is in its way
    locks.ask(mine, &ask(1, Kind::Unlock, 20, 29, How::Set), now);
    locks.ask(mine, &ask(1, Kind::Unlock, 0, 8, How::Set), now);
    assert!(!locks.take_freed() && locks.told(8, 0).is_empty());
    locks.ask(mine, &ask(1, Kind::Read, 0, END, How::Set), now);
    assert!(locks.take_freed() && !locks.take_freed());
    assert_eq!((locks.told(8, 99), locks.told(8, 100), locks.told(7, 0)), (vec![(NODE, 100)], vec![], vec![]));
    assert_eq!(locks.ask(other, &wait, now), Verdict::Granted);
    assert!(locks.told(8, 0).is_empty() && locks.waiting.is_empty());
    // by the end of the connection that holds it
    let wait = ask(1, Kind::Write, 0, 0, How::Wait);
    assert!(in_the_way(locks.ask(other, &wait, now)).is_some());
    locks.set_serial(101);
    locks.end(mine);
    assert_eq!(locks.told(8, 100), [(NODE, 101)]);
    locks.ask(other, &Ask { how: How::GiveUp, ..wait }, now);
    assert!(locks.told(8, 0).is_empty() && locks.waiting.is_empty());
}

#[test]
fn nobody_waits_for_itself() {
    let (mut locks, now) = open();
    let lines = [7, 8, 9].map(|client| locks.connect(client));
    for (at, line) in (0..).zip(lines) {
        locks.ask(line, &ask(1, Kind::Write, at, at, How::Set), now);
    }
    let wait = |at| ask(1, Kind::Write, at, at, How::Wait);
    assert!(in_the_way(locks.ask(lines[0], &wait(1), now)).is_some());
    assert!(in_the_way(locks.ask(lines[1], &wait(2), now)).is_some());
    assert_eq!(locks.ask(lines[2], &wait(0), now), Verdict::Deadlock);
    // it holds what it held, and waits no more
    assert_eq!((locks.len(), locks.waiting.len()), (3, 2));
    assert!(in_the_way(locks.ask(lines[2], &ask(1, Kind::Write, 0, 0, How::Set), now)).is_some());
    locks.ask(lines[0], &Ask { how: How::GiveUp, ..wait(1) }, now);
    assert!(in_the_way(locks.ask(lines[2], &wait(0), now)).is_some());
    // no deadlock is looked for among locks of the file
    let whole_wait = |node| Ask { node, ..whole(1, Kind::Write, How::Wait) };
    for (line, node) in [(lines[0], 1), (lines[1], 2)] {
        assert_eq!(locks.ask(line, &whole_wait(node), now), Verdict::Granted);
    }
    for (line, node) in [(lines[0], 2), (lines[1], 1)] {
        assert!(in_the_way(locks.ask(line, &whole_wait(node), now)).is_some());
    }
}

#[test]
fn a_client_has_only_so_many() {
    let (mut locks, now) = open();
    let (mine, more, other) = (locks.connect(7), locks.connect(7), locks.connect(8));
    let mut set = |line, kind, first, last| locks.ask(line, &ask(1, kind, first, last, How::Set), now);
    for at in 0..LOCKS as u64 - 1 {
        assert_eq!(set(mine, Kind::Read, 4 * at, 4 * at + 2), Verdict::Granted);
    }
    assert_eq!(set(more, Kind::Read, 0, 0), Verdict::Granted);
    assert_eq!((set(mine, Kind::Read, END, END), set(other, Kind::Read, END, END)), (Verdict::TooMany, Verdict::Granted));
    assert_eq!((set(mine, Kind::Unlock, 1, 1), set(more, Kind::Write, 0, 0)), (Verdict::TooMany, in_use(0, 2)));
    // what joins two is one less
    assert_eq!((set(mine, Kind::Read, 3, 3), set(mine, Kind::Unlock, 1, 1)), (Verdict::Granted, Verdict::Granted));
    assert_eq!(locks.len(), LOCKS + 1);
    for at in 0..2 * WAITS as u64 {
        locks.ask(other, &ask(at, Kind::Write, 4, 4, How::Wait), now);
    }
    assert_eq!((locks.nodes[&NODE].waits.len(), locks.counts[&8]), (WAITS, Count { held: 1, waits: WAITS }));
    [mine, more, other].into_iter().for_each(|line| locks.end(line));
    assert!(locks.nodes.is_empty() && locks.counts.is_empty() && locks.waiting.is_empty() && locks.places.is_empty());
}

fn in_use(first: u64, last: u64) -> Verdict {
    Verdict::Conflicts(Conflict { kind: Kind::Read, range: Range { first, last }, pid: 0 })
}

#[test]
fn behind_a_start_those_come_first_that_had_one() {
    let (mut locks, now) = (Locks::default(), Instant::now());
    let (mine, other) = (locks.connect(7), locks.connect(8));
    let set = |kind, how| ask(1, kind, 0, 9, how);
    assert_eq!(locks.ask(mine, &set(Kind::Write, How::Set), now), Verdict::NotYet);
    locks.begin(false, now);
    let before = now + GRACE - Duration::from_millis(1);
    for how in [How::Set, How::Wait, How::Test] {
        assert_eq!(locks.ask(other, &set(Kind::Read, how), before), Verdict::NotYet);
    }
    assert_eq!(locks.ask(other, &set(Kind::Unlock, How::Set), before), Verdict::Granted);
    assert_eq!(locks.ask(mine, &set(Kind::Write, How::Again), before), Verdict::Granted);
    assert!(in_the_way(locks.ask(other, &set(Kind::Read, How::Again), before)).is_some());
    assert!(in_the_way(locks.ask(other, &set(Kind::Read, How::Test), before)).is_some());
    assert_eq!(locks.ask(other, &set(Kind::Read, How::Set), before), Verdict::NotYet);
    let open = now + GRACE;
    assert!(in_the_way(locks.ask(other, &set(Kind::Read, How::Set), open)).is_some());
    locks.ask(mine, &set(Kind::Unlock, How::Set), open);
    // others may have had it meanwhile
    assert_eq!(in_the_way(locks.ask(mine, &set(Kind::Write, How::Again), open)), Some((Kind::Unlock, 0, 9, 0)));
    assert_eq!(locks.ask(other, &set(Kind::Read, How::Set), open), Verdict::Granted);
}

#[test]
fn nobody_waits_for_who_has_come_back() {
    let (mut locks, now) = (Locks::default(), Instant::now());
    let (mine, other) = (locks.connect(7), locks.connect(8));
    let set = |kind, how| ask(1, kind, 0, 9, how);
    locks.begin(false, now);
    locks.wait_for_clients([7, 8].into());
    assert_eq!(locks.ask(other, &set(Kind::Write, How::Set), now), Verdict::NotYet);
    // The other one may set its own again first.
    assert_eq!(locks.ask(mine, &set(Kind::Write, How::Again), now), Verdict::Granted);
    assert_eq!(locks.ask(other, &set(Kind::Write, How::Set), now), Verdict::NotYet);
    assert_eq!(locks.ask(mine, &ask(1, Kind::Write, 20, 29, How::Set), now), Verdict::Granted);
    assert!(locks.is_open(now) && in_the_way(locks.ask(other, &set(Kind::Write, How::Set), now)).is_some());
    assert_eq!(locks.noted(8, now), Some([8].into()));
    locks.note(8);
    assert!(locks.is_noted(8) && !locks.is_noted(7) && Locks::default().noted(7, now).is_none());
}

/// What each owner has of each byte: nothing, a lock to read, or one to write.
type Model = Vec<[Kind; BYTES]>;

const BYTES: usize = 24;
/// The last byte of the model stands for all up to the end.
const LAST: usize = BYTES - 1;

fn place(at: usize) -> u64 {
    if at == LAST {
        END
    } else {
        at as u64
    }
}

/// Does with the model what is asked of the locks. Whether it may be done.
fn model_may(model: &mut Model, at: usize, kind: Kind, first: usize, last: usize) -> bool {
    let is_in_the_way = |other: &Kind| match (kind, other) {
        (Kind::Unlock, _) | (_, Kind::Unlock) | (Kind::Read, Kind::Read) => false,
        (Kind::Write, _) | (_, Kind::Write) => true,
    };
    let others = model.iter().enumerate().filter(|(other, _)| *other != at);
    let may = !others.flat_map(|(_, bytes)| &bytes[first..=last]).any(is_in_the_way);
    if may {
        model[at][first..=last].fill(kind);
    }
    may
}

/// What the locks have of an owner, byte by byte. They are as few as can be.
fn bytes_of(locks: &Locks, owner: Owner) -> [Kind; BYTES] {
    let mut held: Vec<&Lock> =
        locks.nodes.get(&NODE).iter().flat_map(|on| &on.held).filter(|lock| lock.owner == owner).collect();
    held.sort_by_key(|lock| lock.range.first);
    for two in held.windows(2) {
        let is_apart = two[0].range.last < two[1].range.first;
        assert!(is_apart && !(two[0].writes == two[1].writes && two[0].range.touches(two[1].range)), "{held:?}");
    }
    let mut bytes = [Kind::Unlock; BYTES];
    for (at, byte) in bytes.iter_mut().enumerate() {
        let here = held.iter().find(|lock| (lock.range.first..=lock.range.last).contains(&place(at)));
        *byte = here.map_or(Kind::Unlock, |lock| if lock.writes { Kind::Write } else { Kind::Read });
    }
    bytes
}

/// A generator that is the same each time.
struct Chance(u64);

impl Chance {
    fn below(&mut self, most: usize) -> usize {
        self.0 = self.0.wrapping_mul(6_364_136_223_846_793_005).wrapping_add(1_442_695_040_888_963_407);
        (self.0 >> 33) as usize % most
    }
}

#[test]
fn random_locks_are_those_of_a_model() {
    let mut chance = Chance(1);
    for _ in 0..200 {
        let (mut locks, now) = open();
        let mut lines = [7, 7, 8].map(|client| locks.connect(client));
        let mut model: Model = vec![[Kind::Unlock; BYTES]; 6];
        for _ in 0..60 {
            let (at, one, other) = (chance.below(6), chance.below(BYTES), chance.below(BYTES));
            let (first, last) = (one.min(other), one.max(other));
            let kind = [Kind::Read, Kind::Write, Kind::Unlock][chance.below(3)];
            let how = [How::Set, How::Wait][chance.below(2)];
            let own = (at % 2) as u64;
            let said = locks.ask(lines[at / 2], &ask(own, kind, place(first), place(last), how), now);
            let may = model_may(&mut model, at, kind, first, last);
            assert_eq!(said == Verdict::Granted, may, "{said:?}");
            if chance.below(20) == 0 {
                let line = at / 2;
                locks.end(lines[line]);
                lines[line] = locks.connect(lines[line].client);
                model[2 * line..2 * line + 2].fill([Kind::Unlock; BYTES]);
            }
            for (at, bytes) in model.iter().enumerate() {
                let owner = Owner { line: lines[at / 2], own: (at % 2) as u64 };
                assert_eq!(bytes_of(&locks, owner), *bytes);
            }
        }
        lines.into_iter().for_each(|line| locks.end(line));
        assert!(locks.nodes.is_empty() && locks.counts.is_empty() && locks.waiting.is_empty() && locks.places.is_empty());
    }
}

//! Locks of files, as POSIX.1-2017 has them for fcntl(), and those of flock(). Who asks is answered at once: nothing waits here.
//!
//! An owner is a connection and eight bytes of its own. A lock belongs to its node, and goes with it, since the number may be
//! given again; and it goes with its connection.

use crate::bytes::Bytes;
use std::collections::{BTreeSet, HashMap, HashSet};
use std::time::{Duration, Instant};

/// How many locks a client may have, over all of its connections, and of how many more it is noted that they are waited for.
const LOCKS: usize = 4096;
const WAITS: usize = 1024;

/// For how long behind a start locks are only set that there were before.
const GRACE: Duration = Duration::from_secs(10);

/// How many waits are followed in search of a deadlock.
const STEPS: usize = 64;

/// What keeps what off: locks of one style don't see those of the other.
#[derive(Clone, Copy, Debug, PartialEq, Eq)]
pub enum Style {
    /// A range of bytes, by fcntl().
    Range,
    /// The file, by flock().
    Whole,
}

#[derive(Clone, Copy, Debug, PartialEq, Eq)]
pub enum Kind {
    /// Shared.
    Read = 0,
    /// Exclusive.
    Write = 1,
    Unlock = 2,
}

/// What is asked about a lock.
#[derive(Clone, Copy, Debug, PartialEq, Eq)]
pub enum How {
    /// Whether it would be set.
    Test,
    /// To set it.
    Set,
    /// To set it; where it conflicts, its owner waits for it.
    Wait,
    /// To set it as it was before the connection ended.
    Again,
    /// Its owner waits for it no more.
    GiveUp,
}

/// Bytes of a file, both ends included.
#[derive(Clone, Copy, Debug, PartialEq, Eq)]
pub struct Range {
    pub first: u64,
    pub last: u64,
}

impl Range {
    fn meets(self, other: Range) -> bool {
        self.first <= other.last && other.first <= self.last
    }

    /// Whether the other one begins where this one ends.
    fn touches(self, other: Range) -> bool {
        self.last.checked_add(1) == Some(other.first)
    }
}

/// A frame's question for a lock.
#[derive(Clone, Copy, Debug, PartialEq, Eq)]
pub struct Ask {
    pub node: u32,
    /// What the client calls the owner.
    pub own: u64,
    pub pid: u32,
    pub style: Style,
    pub kind: Kind,
    pub range: Range,
    pub how: How,
}

impl Ask {
    /// The question in what stands behind a frame's tag; none where it is none.
    pub fn of(bytes: &[u8]) -> Option<Ask> {
        let mut bytes = Bytes(bytes);
        let (node, own, pid) = (bytes.word()?, bytes.long()?, bytes.word()?);
        let style = [Style::Range, Style::Whole].get(usize::from(bytes.byte()?)).copied()?;
        let kind = [Kind::Read, Kind::Write, Kind::Unlock].get(usize::from(bytes.byte()?)).copied()?;
        let range = Range { first: bytes.long()?, last: bytes.long()? };
        let hows = [How::Test, How::Set, How::Wait, How::Again, How::GiveUp];
        let how = hows.get(usize::from(bytes.byte()?)).copied()?;
        let is_whole = bytes.0.is_empty() && range.first <= range.last;
        is_whole.then_some(Ask { node, own, pid, style, kind, range, how })
    }

    /// Whether the client needs a right on the node. Who gives something up needs none.
    pub fn needs_right(&self) -> bool {
        self.kind != Kind::Unlock && self.how != How::GiveUp
    }

    fn lock(&self, line: Line) -> Lock {
        let Ask { own, pid, style, kind, range, .. } = *self;
        Lock { owner: Owner { line, own }, pid, style, writes: kind == Kind::Write, range }
    }
}

/// A connection, and whose it is.
#[derive(Clone, Copy, Debug, PartialEq, Eq, PartialOrd, Ord, Hash)]
pub struct Line {
    pub client: u32,
    connection: u64,
}

#[derive(Clone, Copy, Debug, PartialEq, Eq, PartialOrd, Ord, Hash)]
struct Owner {
    line: Line,
    own: u64,
}

/// A lock that is held, or waited for.
#[derive(Clone, Copy, Debug, PartialEq, Eq)]
struct Lock {
    owner: Owner,
    pid: u32,
    style: Style,
    writes: bool,
    range: Range,
}

impl Lock {
    /// Whether the two don't go together.
    fn conflicts(&self, other: &Lock) -> bool {
        self.style == other.style && self.owner != other.owner && (self.writes || other.writes) && self.range.meets(other.range)
    }

    fn is_of(&self, other: &Lock) -> bool {
        self.owner == other.owner && self.style == other.style
    }

    /// What of it lies within a range.
    fn within(mut self, range: Range) -> Option<Lock> {
        self.range = Range { first: self.range.first.max(range.first), last: self.range.last.min(range.last) };
        (self.range.first <= self.range.last).then_some(self)
    }

    /// What of it lies outside a range.
    fn beside(self, range: Range) -> impl Iterator<Item = Lock> {
        let Range { first, last } = self.range;
        let before = range.first.checked_sub(1).filter(|end| first <= *end).map(|end| (first, end.min(last)));
        let behind = range.last.checked_add(1).filter(|begin| *begin <= last).map(|begin| (begin.max(first), last));
        [before, behind].into_iter().flatten().map(move |(first, last)| Lock { range: Range { first, last }, ..self })
    }
}

/// A lock that is in the way.
#[derive(Clone, Copy, Debug, PartialEq, Eq)]
pub struct Conflict {
    pub kind: Kind,
    pub range: Range,
    /// 0 where it is another connection's.
    pub pid: u32,
}

/// What is said to a question.
#[derive(Clone, Copy, Debug, PartialEq, Eq)]
pub enum Verdict {
    Granted,
    Conflicts(Conflict),
    /// Who would wait would wait for itself.
    Deadlock,
    /// The client has as many as it may.
    TooMany,
    /// Others may set theirs again.
    NotYet,
    NoNode,
    NotAllowed,
}

impl Verdict {
    /// What stands behind the tag of a reply.
    pub fn bytes(&self) -> Vec<u8> {
        let code = match self {
            Verdict::Granted => 0,
            Verdict::Conflicts(_) => 1,
            Verdict::Deadlock => 2,
            Verdict::TooMany => 3,
            Verdict::NotYet => 4,
            Verdict::NoNode => 5,
            Verdict::NotAllowed => 6,
        };
        let mut bytes = vec![code];
        if let Verdict::Conflicts(Conflict { kind, range, pid }) = self {
            bytes.push(*kind as u8);
            bytes.extend_from_slice(&range.first.to_be_bytes());
            bytes.extend_from_slice(&range.last.to_be_bytes());
            bytes.extend_from_slice(&pid.to_be_bytes());
        }
        bytes
    }
}

/// A lock that is waited for.
#[derive(Clone, Copy, Debug)]
struct Wait {
    lock: Lock,
    /// Goes up each time when something in its way has gone; 0 where nothing has.
    serial: u64,
}

/// Those of one node.
#[derive(Debug, Default)]
struct OnNode {
    held: Vec<Lock>,
    waits: Vec<Wait>,
}

impl OnNode {
    fn in_the_way<'a>(&'a self, lock: &'a Lock) -> impl Iterator<Item = &'a Lock> + 'a {
        self.held.iter().filter(move |held| held.conflicts(lock))
    }

    fn has(&self, line: Line) -> bool {
        self.held.iter().any(|lock| lock.owner.line == line) || self.waits.iter().any(|wait| wait.lock.owner.line == line)
    }

    /// Gives a serial to the waits in whose way these locks of one style may have been. Whether there is one.
    fn free(&mut self, gone: &[Lock], serial: u64) -> bool {
        let hull = gone.iter().copied().reduce(|one, other| Lock {
            writes: one.writes || other.writes,
            range: Range { first: one.range.first.min(other.range.first), last: one.range.last.max(other.range.last) },
            ..one
        });
        let mut is_one = false;
        for wait in &mut self.waits {
            if hull.map_or(false, |hull| hull.conflicts(&wait.lock)) {
                wait.serial = serial;
                is_one = true;
            }
        }
        is_one
    }
}

/// The locks of an owner of one style, once a range of them is another one, or none.
fn replaced(own: &[Lock], new: &Lock, kind: Kind) -> Vec<Lock> {
    let mut parts: Vec<Lock> = own.iter().flat_map(|lock| lock.beside(new.range)).collect();
    if kind != Kind::Unlock {
        parts.push(*new);
    }
    parts.sort_by_key(|lock| lock.range.first);
    let mut joined: Vec<Lock> = Vec::with_capacity(parts.len());
    for part in parts {
        match joined.last_mut().filter(|last| last.writes == part.writes && last.range.touches(part.range)) {
            Some(last) => last.range.last = part.range.last,
            None => joined.push(part),
        }
    }
    joined
}

/// When locks are set that there weren't before.
#[derive(Clone, Copy, Debug, PartialEq, Eq)]
enum Opening {
    /// Not before something else is said.
    NotYet,
    At(Instant),
}

/// How many locks and waits a client has.
#[derive(Clone, Copy, Debug, Default, PartialEq, Eq)]
struct Count {
    held: usize,
    waits: usize,
}

/// All locks.
#[derive(Debug)]
pub struct Locks {
    nodes: HashMap<u32, OnNode>,
    /// Where each connection has locks or waits, and where each owner has waits.
    places: BTreeSet<(Line, u32)>,
    waiting: BTreeSet<(Owner, u32)>,
    counts: HashMap<u32, Count>,
    connections: u64,
    /// How many nodes have gone.
    gone: u64,
    opening: Opening,
    /// Clients that may have had locks before the start and haven't come back; none where that isn't known.
    awaited: Option<BTreeSet<u32>>,
    /// Clients that have had locks since the start, as the next one is to know.
    noted: BTreeSet<u32>,
    /// What a wait gets whose way is freed next; and whether one was since that was asked last.
    serial: u64,
    is_freed: bool,
}

impl Default for Locks {
    fn default() -> Locks {
        Locks {
            nodes: HashMap::new(),
            places: BTreeSet::new(),
            waiting: BTreeSet::new(),
            counts: HashMap::new(),
            connections: 0,
            gone: 0,
            opening: Opening::NotYet,
            awaited: None,
            noted: BTreeSet::new(),
            serial: 0,
            is_freed: false,
        }
    }
}

impl Locks {
    /// Clients may ask from now on. Where one may have had a lock before, those come first.
    pub fn begin(&mut self, is_new: bool, now: Instant) {
        self.opening = Opening::At(if is_new { now } else { now + GRACE });
    }

    /// These clients may have had locks before the start. Once all of them have come back nobody waits for the others.
    pub fn wait_for_clients(&mut self, awaited: BTreeSet<u32>) {
        self.awaited = Some(awaited);
    }

    /// Whether it is noted of a client that it may have locks.
    pub fn is_noted(&self, client: u32) -> bool {
        self.noted.contains(&client)
    }

    /// The clients that are noted with this one, where no other one is waited for any more.
    pub fn noted(&self, client: u32, now: Instant) -> Option<BTreeSet<u32>> {
        self.is_open(now).then(|| self.noted.iter().copied().chain([client]).collect())
    }

    /// It is noted of a client where a start finds it.
    pub fn note(&mut self, client: u32) {
        self.noted.insert(client);
    }

    /// Whether locks are set that there weren't before the start.
    pub fn is_open(&self, now: Instant) -> bool {
        match self.opening {
            Opening::NotYet => false,
            Opening::At(opens) => opens <= now || matches!(&self.awaited, Some(awaited) if awaited.is_empty()),
        }
    }

    /// A new connection of a client.
    pub fn connect(&mut self, client: u32) -> Line {
        self.connections += 1;
        Line { client, connection: self.connections }
    }

    /// How many there are.
    pub fn len(&self) -> usize {
        self.counts.values().map(|count| count.held).sum()
    }

    /// Whether there is none.
    pub fn is_empty(&self) -> bool {
        self.len() == 0
    }

    /// Waits in whose way something goes from now on get this serial.
    pub fn set_serial(&mut self, serial: u64) {
        self.serial = serial;
    }

    /// Whether a wait has got one since this was asked last.
    pub fn take_freed(&mut self) -> bool {
        std::mem::take(&mut self.is_freed)
    }

    /// The nodes of a client's waits that have got a serial behind this one, each with its last.
    pub fn told(&self, client: u32, behind: u64) -> Vec<(u32, u64)> {
        let line = |connection| Line { client, connection };
        let from = (Owner { line: line(0), own: 0 }, 0);
        let until = (Owner { line: line(u64::MAX), own: u64::MAX }, u32::MAX);
        let nodes: BTreeSet<u32> = self.waiting.range(from..=until).map(|(_, node)| *node).collect();
        let last = |node: &u32| {
            let waits = self.nodes.get(node).map_or(&[][..], |on| &on.waits);
            waits.iter().filter(|wait| wait.lock.owner.line.client == client).map(|wait| wait.serial).max().unwrap_or(0)
        };
        nodes.into_iter().map(|node| (node, last(&node))).filter(|(_, serial)| *serial > behind).collect()
    }

    /// What is said to a question of a connection whose client has the right to ask it.
    pub fn ask(&mut self, line: Line, ask: &Ask, now: Instant) -> Verdict {
        let (node, lock) = (ask.node, ask.lock(line));
        if ask.how == How::GiveUp {
            self.wait_no_more(node, &lock);
            return Verdict::Granted;
        }
        if ask.kind == Kind::Unlock {
            return if ask.how == How::Test { Verdict::Granted } else { self.put(node, &lock, ask.kind) };
        }
        // Who sets a lock anew has set again those that it had.
        if let Some(awaited) = self.awaited.as_mut().filter(|_| matches!(ask.how, How::Set | How::Wait)) {
            awaited.remove(&line.client);
        }
        let is_open = self.is_open(now);
        match (self.conflict(node, &lock), ask.how) {
            // Others may have had it meanwhile.
            (None, How::Again) if is_open => Verdict::Conflicts(Conflict { kind: Kind::Unlock, range: ask.range, pid: 0 }),
            (None, How::Again) => self.put(node, &lock, ask.kind),
            (Some(conflict), How::Test | How::Again) => Verdict::Conflicts(conflict),
            _ if !is_open => Verdict::NotYet,
            (None, How::Test) => Verdict::Granted,
            (None, _) => {
                self.wait_no_more(node, &lock);
                self.put(node, &lock, ask.kind)
            }
            (Some(conflict), how) => self.refuse(node, &lock, how, conflict),
        }
    }

    fn conflict(&self, node: u32, lock: &Lock) -> Option<Conflict> {
        let held = self.nodes.get(&node)?.in_the_way(lock).next()?;
        let kind = if held.writes { Kind::Write } else { Kind::Read };
        let is_near = held.owner.line == lock.owner.line;
        Some(Conflict { kind, range: held.range, pid: if is_near { held.pid } else { 0 } })
    }

    /// A lock can't be set now. One by flock() that was to become another one is given up for it, so that two who share a file
    /// don't wait for each other (flock(2)).
    fn refuse(&mut self, node: u32, lock: &Lock, how: How, conflict: Conflict) -> Verdict {
        if lock.style == Style::Whole {
            let _given_up = self.put(node, lock, Kind::Unlock);
        }
        if how == How::Wait {
            if lock.style == Style::Range && self.would_wait_for_itself(node, lock) {
                self.wait_no_more(node, lock);
                return Verdict::Deadlock;
            }
            self.wait_for(node, lock);
        }
        Verdict::Conflicts(conflict)
    }

    fn count(&mut self, client: u32) -> &mut Count {
        self.counts.entry(client).or_default()
    }

    /// Puts a lock, or what is left without it, in the place of what its owner has there.
    fn put(&mut self, node: u32, lock: &Lock, kind: Kind) -> Verdict {
        let (client, serial) = (lock.owner.line.client, self.serial);
        let on = self.nodes.entry(node).or_default();
        let own: Vec<Lock> = on.held.iter().filter(|held| held.is_of(lock)).copied().collect();
        let new = replaced(&own, lock, kind);
        let count = self.counts.entry(client).or_default();
        let all = count.held + new.len() - own.len();
        if new.len() > own.len() && all > LOCKS {
            self.settle(node, lock.owner.line);
            return Verdict::TooMany;
        }
        count.held = all;
        on.held.retain(|held| !held.is_of(lock));
        on.held.extend(new);
        let is_freed = |gone: &Lock| kind == Kind::Unlock || (kind == Kind::Read && gone.writes);
        let gone: Vec<Lock> = own.into_iter().filter_map(|held| held.within(lock.range)).filter(is_freed).collect();
        self.is_freed |= on.free(&gone, serial);
        self.settle(node, lock.owner.line);
        Verdict::Granted
    }

    /// Keeps in order where a connection has something.
    fn settle(&mut self, node: u32, line: Line) {
        let is_there = self.nodes.get(&node).map_or(false, |on| on.has(line));
        if is_there {
            self.places.insert((line, node));
        } else {
            self.places.remove(&(line, node));
        }
        if self.nodes.get(&node).map_or(false, |on| on.held.is_empty() && on.waits.is_empty()) {
            self.nodes.remove(&node);
        }
        if self.counts.get(&line.client) == Some(&Count::default()) {
            self.counts.remove(&line.client);
        }
    }

    /// Notes that an owner waits for a lock. Of a client that has very many of them no more are noted: it asks again by itself.
    fn wait_for(&mut self, node: u32, lock: &Lock) {
        let room = self.count(lock.owner.line.client).waits < WAITS;
        let on = self.nodes.entry(node).or_default();
        let is_known = on.waits.iter().any(|Wait { lock: known, .. }| known.is_of(lock) && known.range == lock.range);
        if !is_known && room {
            on.waits.push(Wait { lock: *lock, serial: 0 });
            self.waiting.insert((lock.owner, node));
            self.count(lock.owner.line.client).waits += 1;
        }
        self.settle(node, lock.owner.line);
    }

    /// An owner waits no more for a lock of a range.
    fn wait_no_more(&mut self, node: u32, lock: &Lock) {
        let on = match self.nodes.get_mut(&node) {
            Some(on) => on,
            None => return,
        };
        let before = on.waits.len();
        on.waits.retain(|Wait { lock: known, .. }| !(known.is_of(lock) && known.range == lock.range));
        let count = before - on.waits.len();
        if !on.waits.iter().any(|wait| wait.lock.owner == lock.owner) {
            self.waiting.remove(&(lock.owner, node));
        }
        if count > 0 {
            self.count(lock.owner.line.client).waits -= count;
            self.settle(node, lock.owner.line);
        }
    }

    fn blockers(&self, node: u32, lock: &Lock) -> Vec<Owner> {
        let mut found: Vec<_> =
            self.nodes.get(&node).iter().flat_map(|on| on.in_the_way(lock)).map(|held| held.owner).collect();
        // Those of one owner stand together.
        found.dedup();
        found
    }

    /// The ranges for which an owner waits.
    fn waits_of(&self, owner: Owner) -> impl Iterator<Item = (u32, &Lock)> + '_ {
        let nodes =
            self.waiting.range((owner, 0)..=(owner, u32::MAX)).filter_map(|(_, node)| Some((*node, self.nodes.get(node)?)));
        let waits = nodes.flat_map(|(node, on)| on.waits.iter().map(move |wait| (node, &wait.lock)));
        waits.filter(move |(_, lock)| lock.owner == owner && lock.style == Style::Range)
    }

    /// Whether one of those for whom a lock would wait waits for its owner, over others maybe.
    fn would_wait_for_itself(&self, node: u32, lock: &Lock) -> bool {
        let (mut next, mut seen, mut steps) = (self.blockers(node, lock), HashSet::new(), 0);
        while let Some(owner) = next.pop() {
            if owner == lock.owner {
                return true;
            }
            if !seen.insert(owner) {
                continue;
            }
            for (at, wait) in self.waits_of(owner).take(STEPS - steps) {
                steps += 1;
                next.extend(self.blockers(at, wait));
            }
        }
        false
    }

    /// A connection has ended, and all that it had.
    pub fn end(&mut self, line: Line) {
        let nodes: Vec<u32> = self.places.range((line, 0)..=(line, u32::MAX)).map(|(_, node)| *node).collect();
        for node in nodes {
            self.drop_where(node, |lock| lock.owner.line == line);
        }
    }

    /// A node isn't there any more. Who waits there finds out when it asks again.
    pub fn gone(&mut self, node: u32) {
        self.gone += 1;
        self.drop_where(node, |_| true);
    }

    /// Goes up with each node that goes.
    pub fn gone_so_far(&self) -> u64 {
        self.gone
    }

    fn drop_where(&mut self, node: u32, is_dropped: impl Fn(&Lock) -> bool) {
        let on = match self.nodes.get_mut(&node) {
            Some(on) => on,
            None => return,
        };
        let held: Vec<Lock> = on.held.iter().filter(|lock| is_dropped(lock)).copied().collect();
        let waits: Vec<Lock> = on.waits.iter().map(|wait| wait.lock).filter(|lock| is_dropped(lock)).collect();
        on.held.retain(|lock| !is_dropped(lock));
        on.waits.retain(|wait| !is_dropped(&wait.lock));
        for style in [Style::Range, Style::Whole] {
            let gone: Vec<Lock> = held.iter().filter(|lock| lock.style == style).copied().collect();
            self.is_freed |= on.free(&gone, self.serial);
        }
        held.iter().for_each(|lock| self.count(lock.owner.line.client).held -= 1);
        for lock in &waits {
            self.count(lock.owner.line.client).waits -= 1;
            self.waiting.remove(&(lock.owner, node));
        }
        let lines: BTreeSet<Line> = held.iter().chain(&waits).map(|lock| lock.owner.line).collect();
        lines.into_iter().for_each(|line| self.settle(node, line));
    }
}

#[cfg(test)]
mod tests;

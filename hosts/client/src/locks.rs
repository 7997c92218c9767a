//! Locks of files that hold between the clients of a server: what is asked, what is answered, and what this client has.

use nix::errno::Errno;

/// What keeps what off: locks of one style don't see those of the other.
#[derive(Clone, Copy, Debug, PartialEq, Eq)]
pub enum LockStyle {
    /// A range of bytes, by fcntl().
    Range = 0,
    /// The file, by flock().
    Whole = 1,
}

/// What for.
#[derive(Clone, Copy, Debug, PartialEq, Eq)]
pub enum LockKind {
    /// Shared: it keeps off who wants to write.
    Read = 0,
    /// Exclusive: it keeps all others off.
    Write = 1,
    /// None: what is there is given up.
    Unlock = 2,
}

/// What is asked about a lock.
#[derive(Clone, Copy, Debug, PartialEq, Eq)]
pub enum LockHow {
    /// Whether it would be set.
    Test = 0,
    /// To set it.
    Set = 1,
    /// To set it. Where it conflicts, its owner waits for it: `Desk::freed_locks` tells when to ask again.
    Wait = 2,
    /// To set it as it was before the connection ended.
    Again = 3,
    /// Its owner doesn't wait any more.
    GiveUp = 4,
}

/// A lock of a file.
#[derive(Clone, Copy, Debug, PartialEq, Eq)]
pub struct Lock {
    /// The file.
    pub node: u32,
    /// Whose it is, among those of this session.
    pub owner: u64,
    /// The process that asked for it, for people.
    pub pid: u32,
    /// By which call.
    pub style: LockStyle,
    /// What for.
    pub kind: LockKind,
    /// Its first byte.
    pub first: u64,
    /// Its last byte; the greatest number for all up to the end, and behind it.
    pub last: u64,
}

/// A lock that is in the way.
#[derive(Clone, Copy, Debug, PartialEq, Eq)]
pub struct Conflict {
    /// What it is for.
    pub kind: LockKind,
    /// Its first byte.
    pub first: u64,
    /// Its last byte.
    pub last: u64,
    /// Its process; 0 where that is another session's.
    pub pid: u32,
}

/// What is answered.
#[derive(Clone, Copy, Debug, PartialEq, Eq)]
pub enum LockAnswer {
    /// It is set, given up, or would be set.
    Granted,
    /// Another owner has this one.
    Conflicts(Conflict),
    /// Who waits would wait for itself.
    Deadlock,
    /// The client has as many as it may.
    TooMany,
    /// The server has begun a short while ago, and others may set theirs again.
    NotYet,
    /// There is no such file.
    NoSuchNode,
    /// The client neither owns the file nor may read or write it.
    NotAllowed,
    /// The owner had a lock of the file that it couldn't set again, and hasn't given it up.
    Lost,
}

impl LockAnswer {
    /// The number that POSIX has for it; none where the lock is granted.
    pub fn errno(&self) -> Option<Errno> {
        match self {
            LockAnswer::Granted => None,
            LockAnswer::Conflicts(_) | LockAnswer::NotYet => Some(Errno::EAGAIN),
            LockAnswer::Deadlock => Some(Errno::EDEADLK),
            LockAnswer::TooMany => Some(Errno::ENOLCK),
            LockAnswer::NoSuchNode => Some(Errno::ENOENT),
            LockAnswer::NotAllowed => Some(Errno::EACCES),
            LockAnswer::Lost => Some(Errno::EIO),
        }
    }

    /// Whether the same question may be granted a while later.
    pub fn may_pass(&self) -> bool {
        matches!(self, LockAnswer::Conflicts(_) | LockAnswer::NotYet)
    }
}

impl Lock {
    fn is_of(&self, other: &Lock) -> bool {
        (self.node, self.owner, self.style) == (other.node, other.owner, other.style)
    }

    fn meets(&self, other: &Lock) -> bool {
        self.first <= other.last && other.first <= self.last
    }

    /// What of it lies outside another one.
    fn beside(self, other: &Lock) -> impl Iterator<Item = Lock> {
        let before = other.first.checked_sub(1).filter(|end| self.first <= *end);
        let behind = other.last.checked_add(1).filter(|begin| *begin <= self.last);
        let before = before.map(|end| Lock { last: end.min(self.last), ..self });
        let behind = behind.map(|begin| Lock { first: begin.max(self.first), ..self });
        before.into_iter().chain(behind)
    }
}

/// Takes a lock, or what it gives up, into others.
fn put(locks: &mut Vec<Lock>, lock: &Lock) {
    let (own, mut left): (Vec<Lock>, Vec<Lock>) = locks.iter().copied().partition(|held| held.is_of(lock));
    let mut parts: Vec<Lock> = own.into_iter().flat_map(|held| held.beside(lock)).collect();
    if lock.kind != LockKind::Unlock {
        parts.push(*lock);
    }
    parts.sort_by_key(|part| part.first);
    for part in parts {
        let touches =
            |last: &&mut Lock| last.is_of(lock) && last.kind == part.kind && last.last.checked_add(1) == Some(part.first);
        match left.last_mut().filter(touches) {
            Some(last) => last.last = part.last,
            None => left.push(part),
        }
    }
    *locks = left;
}

/// The locks of this client, as it was told.
#[derive(Debug, Default)]
pub struct HeldLocks {
    held: Vec<Lock>,
    /// Those that couldn't be set again. Others may have changed the file since.
    lost: Vec<Lock>,
    /// Files on which one was lost since that was asked last.
    newly_lost: Vec<u32>,
    /// Those on which one for writing was lost, while a log may write to them that isn't handed in.
    unwritten: Vec<u32>,
}

impl HeldLocks {
    /// All, in the order in which they are set again.
    pub fn all(&self) -> &[Lock] {
        &self.held
    }

    /// Whether nothing has to be set again.
    pub fn is_empty(&self) -> bool {
        self.held.is_empty()
    }

    /// Whether one of them is for writing.
    pub fn has_exclusive(&self) -> bool {
        self.held.iter().any(|lock| lock.kind == LockKind::Write)
    }

    /// Whether an owner of this style has a lock that meets this one.
    pub fn meet(&self, lock: &Lock) -> bool {
        self.held.iter().chain(&self.lost).any(|held| held.is_of(lock) && held.meets(lock))
    }

    /// Whether an owner of this style has all of this lock, for writing where it is for that.
    pub fn cover(&self, lock: &Lock) -> bool {
        let is_as_much = |held: &&Lock| held.is_of(lock) && (held.kind == LockKind::Write || lock.kind == LockKind::Read);
        let mut left = vec![*lock];
        for held in self.held.iter().filter(is_as_much) {
            left = left.into_iter().flat_map(|part| part.beside(held)).collect();
        }
        left.is_empty()
    }

    /// Whether one of these that meet this one is for writing.
    pub fn writes(&self, lock: &Lock) -> bool {
        self.held.iter().any(|held| held.is_of(lock) && held.meets(lock) && held.kind == LockKind::Write)
    }

    /// Whether the owner has lost a lock of this file.
    pub fn has_lost(&self, lock: &Lock) -> bool {
        self.lost.iter().any(|lost| (lost.node, lost.owner) == (lock.node, lock.owner))
    }

    /// Whether somebody has lost a lock of this file, and hasn't given it up.
    pub fn is_lost(&self, node: u32) -> bool {
        self.lost.iter().any(|lost| lost.node == node)
    }

    /// The files on which one was lost since this was asked last.
    pub fn take_newly_lost(&mut self) -> Vec<u32> {
        std::mem::take(&mut self.newly_lost)
    }

    /// The files to which nothing may be handed in that was written before.
    pub(crate) fn unwritten(&self) -> &[u32] {
        &self.unwritten
    }

    pub(crate) fn forget_unwritten(&mut self) {
        self.unwritten.clear();
    }

    /// A lock is given up, whatever the server knows of it.
    pub fn give_up(&mut self, lock: &Lock) {
        put(&mut self.held, &Lock { kind: LockKind::Unlock, ..*lock });
        put(&mut self.lost, &Lock { kind: LockKind::Unlock, ..*lock });
    }

    /// Takes over what is answered. A lock by flock() that was to become another one is gone where that conflicts.
    pub fn take_over(&mut self, lock: &Lock, how: LockHow, answer: &LockAnswer) {
        match (answer, how) {
            (LockAnswer::Granted, LockHow::Set | LockHow::Wait) => put(&mut self.held, lock),
            (LockAnswer::Conflicts(_) | LockAnswer::Deadlock, LockHow::Set | LockHow::Wait)
                if lock.style == LockStyle::Whole =>
            {
                put(&mut self.held, &Lock { kind: LockKind::Unlock, ..*lock });
            }
            _ => {}
        }
    }

    /// A lock couldn't be set again.
    pub fn lose(&mut self, lock: &Lock) {
        put(&mut self.held, &Lock { kind: LockKind::Unlock, ..*lock });
        put(&mut self.lost, lock);
        self.newly_lost.push(lock.node);
        if lock.kind == LockKind::Write {
            self.unwritten.push(lock.node);
        }
    }
}

#[cfg(test)]
mod tests {
    use super::*;

    fn lock(kind: LockKind, first: u64, last: u64) -> Lock {
        Lock { node: 5, owner: 1, pid: 1, style: LockStyle::Range, kind, first, last }
    }

    fn taken(locks: &mut HeldLocks, kind: LockKind, first: u64, last: u64) {
        locks.take_over(&lock(kind, first, last), LockHow::Set, &LockAnswer::Granted);
    }

    fn ranges(locks: &[Lock]) -> Vec<(LockKind, u64, u64)> {
        locks.iter().map(|lock| (lock.kind, lock.first, lock.last)).collect()
    }

    #[test]
    fn what_is_held_is_split_and_joined() {
        let mut locks = HeldLocks::default();
        taken(&mut locks, LockKind::Write, 0, u64::MAX);
        taken(&mut locks, LockKind::Read, 10, 19);
        let due = [(LockKind::Write, 0, 9), (LockKind::Read, 10, 19), (LockKind::Write, 20, u64::MAX)];
        assert_eq!(ranges(locks.all()), due);
        assert!(locks.cover(&lock(LockKind::Read, 0, u64::MAX)) && !locks.cover(&lock(LockKind::Write, 9, 10)));
        taken(&mut locks, LockKind::Unlock, 0, 14);
        taken(&mut locks, LockKind::Read, 20, u64::MAX);
        assert_eq!(ranges(locks.all()), [(LockKind::Read, 15, u64::MAX)]);
        assert!(!locks.writes(&lock(LockKind::Read, 0, u64::MAX)) && !locks.meet(&lock(LockKind::Read, 0, 14)));
        // another owner, and one of another style
        let other = Lock { owner: 2, ..lock(LockKind::Write, 0, 5) };
        locks.take_over(&other, LockHow::Wait, &LockAnswer::Granted);
        locks.take_over(&other, LockHow::Test, &LockAnswer::Granted);
        locks.take_over(&Lock { style: LockStyle::Whole, ..other }, LockHow::Set, &LockAnswer::Granted);
        assert_eq!(locks.all().len(), 3);
        locks.give_up(&lock(LockKind::Unlock, 0, u64::MAX));
        assert_eq!(ranges(locks.all()), [(LockKind::Write, 0, 5), (LockKind::Write, 0, 5)]);
    }

    #[test]
    fn a_lock_of_flock_goes_where_another_one_is_refused() {
        let mut locks = HeldLocks::default();
        let whole = |kind| Lock { style: LockStyle::Whole, ..lock(kind, 0, u64::MAX) };
        let conflict = Conflict { kind: LockKind::Read, first: 0, last: u64::MAX, pid: 0 };
        locks.take_over(&whole(LockKind::Read), LockHow::Set, &LockAnswer::Granted);
        locks.take_over(&whole(LockKind::Write), LockHow::Set, &LockAnswer::NotYet);
        assert!(!locks.is_empty());
        locks.take_over(&whole(LockKind::Write), LockHow::Set, &LockAnswer::Conflicts(conflict));
        assert!(locks.is_empty());
    }

    #[test]
    fn what_is_lost_is_so_until_it_is_given_up() {
        let mut locks = HeldLocks::default();
        taken(&mut locks, LockKind::Write, 0, 9);
        locks.lose(&lock(LockKind::Write, 0, 9));
        assert!(locks.is_empty() && locks.is_lost(5) && locks.has_lost(&lock(LockKind::Read, 50, 60)));
        assert_eq!((locks.take_newly_lost(), locks.take_newly_lost()), (vec![5], vec![]));
        locks.give_up(&lock(LockKind::Unlock, 5, 9));
        assert!(locks.is_lost(5) && locks.meet(&lock(LockKind::Read, 0, 0)));
        locks.give_up(&lock(LockKind::Unlock, 0, u64::MAX));
        assert!(!locks.is_lost(5) && !locks.meet(&lock(LockKind::Read, 0, 0)));
    }
}

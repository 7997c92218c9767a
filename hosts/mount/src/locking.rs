//! Locks of the programs on this mount: kfsd arbitrates between them and those of other mounts.
//!
//! A lock is given up once the log is handed in that was written under it, so who gets it next finds all of that. And who gets one
//! is shown the file as it is then.

use crate::nodes::number_of;
use crate::protocol::{Operation, Reply, Request};
use crate::telling::Told;
use crate::volume::{Kept, Volume};
use kfs_client::locks::{Conflict, HeldLocks, Lock, LockAnswer, LockHow, LockKind, LockStyle};
use kfs_client::Desk;
use nix::errno::Errno;
use std::collections::{HashMap, HashSet};
use std::time::{Duration, Instant};

/// After how long a lock that is waited for is asked for again, and a log handed in that keeps one from being given up.
const AGAIN: Duration = Duration::from_secs(1);
/// The kernel's number of the last byte.
const LAST: u64 = i64::MAX as u64;
/// The flag of a lock by flock() (`FUSE_LK_FLOCK`), and of a close that gives one up (`FUSE_RELEASE_FLOCK_UNLOCK`).
const BY_FLOCK: u32 = 1;
const GIVES_UP: u32 = 1 << 1;

/// The end of the name of a file by which processes of sqlite3 share memory, and the owner of a mount's lock of such a file.
const MEMORY: &[u8] = b"-shm";
const MOUNT: u64 = u64::MAX;

/// A request for a lock that isn't answered yet.
#[derive(Clone, Copy, Debug)]
struct Waiting {
    unique: u64,
    id: u64,
    lock: Lock,
    how: LockHow,
    /// When it is asked again at the latest.
    due: Instant,
}

/// What a mount knows of the locks of its programs.
#[derive(Debug, Default)]
pub struct Locking {
    /// The server arbitrates. Else the kernel does, for this mount alone.
    pub is_shared: bool,
    waiting: Vec<Waiting>,
    /// Those that were given up here before the log could be handed in, and when that is tried again.
    late: HeldLocks,
    late_due: Option<Instant>,
    /// Of each handle the file, and the owners that have set locks by it: a lock of the handle itself goes with its close.
    owners: HashMap<u64, (u32, HashSet<u64>)>,
    handles: u64,
    /// Files by which processes share memory, and those of which this mount has the lock.
    memories: HashSet<u64>,
    reserved: HashSet<u64>,
}

impl Locking {
    /// The handle of a file that is opened.
    pub fn next_handle(&mut self) -> u64 {
        self.handles += 1;
        self.handles
    }
}

/// The whole file.
fn whole(node: u32, owner: u64, style: LockStyle) -> Lock {
    Lock { node, owner, pid: 0, style, kind: LockKind::Unlock, first: 0, last: u64::MAX }
}

/// `fuse_lk_out`.
fn lock_reply(conflict: Option<Conflict>) -> Reply {
    let none = Conflict { kind: LockKind::Unlock, first: 0, last: LAST, pid: 0 };
    let Conflict { kind, first, last, pid } = conflict.unwrap_or(none);
    let mut reply = Reply::default();
    reply.long(first.min(LAST)).long(last.min(LAST)).word(kind as u32).word(pid);
    reply
}

impl<D: Desk> Volume<D> {
    /// The kernel begins: whether it is to ask for locks here.
    pub fn begin_locking(&mut self) -> bool {
        self.locking.is_shared = self.session.desk().has_locks();
        self.locking.is_shared
    }

    // ---- Requests

    /// A request for a lock. It has no answer yet where it has to wait.
    pub fn lock(&mut self, request: &mut Request<'_>) -> Option<Told> {
        let unique = request.unique;
        match self.wanted_lock(request) {
            Ok(waiting) => self.answer_lock(waiting),
            Err(errno) => Some(Told::answer(unique, Err(errno))),
        }
    }

    /// `fuse_lk_in`.
    fn wanted_lock(&mut self, request: &mut Request<'_>) -> Result<Waiting, Errno> {
        let (handle, owner, first, last) = (request.long()?, request.long()?, request.long()?, request.long()?);
        let (kind, pid, flags) = (request.word()?, request.word()?, request.word()?);
        let kinds = [LockKind::Read, LockKind::Write, LockKind::Unlock];
        let kind = *kinds.get(kind as usize).ok_or(Errno::EINVAL)?;
        let style = if flags & BY_FLOCK == 0 { LockStyle::Range } else { LockStyle::Whole };
        let how = match request.operation {
            Operation::GetLock => LockHow::Test,
            Operation::SetLock => LockHow::Set,
            _ => LockHow::Wait,
        };
        let last = if last >= LAST { u64::MAX } else { last };
        let node = if kind == LockKind::Unlock { number_of(request.node) } else { self.meant(request.node)? };
        if kind != LockKind::Unlock && how != LockHow::Test && style == LockStyle::Range {
            self.locking.owners.entry(handle).or_insert_with(|| (node, HashSet::new())).1.insert(owner);
        }
        let lock = Lock { node, owner, pid, style, kind, first, last };
        Ok(Waiting { unique: request.unique, id: request.node, lock, how, due: Instant::now() })
    }

    /// The answer to a request for a lock, where it has one now. Else it is put aside.
    fn answer_lock(&mut self, waiting: Waiting) -> Option<Told> {
        let Waiting { unique, id, lock, how, .. } = waiting;
        if lock.kind == LockKind::Unlock && how != LockHow::Test {
            self.unlock(&lock);
            return Some(Told::answer(unique, Ok(Reply::default())));
        }
        let is_had = self.session.desk().held_locks().map_or(false, |held| held.cover(&lock));
        let answer = match self.ask_lock(&lock, how) {
            Ok(answer) => answer,
            Err(errno) => return Some(Told::answer(unique, Err(errno))),
        };
        let reply = match (answer, how) {
            (LockAnswer::NotYet, _) | (LockAnswer::Conflicts(_), LockHow::Wait) => {
                self.locking.waiting.push(Waiting { due: Instant::now() + AGAIN, ..waiting });
                return None;
            }
            (LockAnswer::Granted, LockHow::Test) => Ok(lock_reply(None)),
            (LockAnswer::Conflicts(conflict), LockHow::Test) => Ok(lock_reply(Some(conflict))),
            (answer, _) => answer.errno().map_or_else(|| Ok(Reply::default()), Err),
        };
        let is_new = how != LockHow::Test && reply.is_ok() && !is_had;
        let forgets = Some(id).filter(|_| is_new && self.shows_anew(id, lock.node));
        Some(Told { forgets, reply: Some((unique, reply)) })
    }

    /// Asks the server for a lock. What it doesn't know of the file yet is handed in before.
    fn ask_lock(&mut self, lock: &Lock, how: LockHow) -> Result<LockAnswer, Errno> {
        let gives_up = how != LockHow::Test
            && lock.kind == LockKind::Read
            && self.session.desk().held_locks().map_or(false, |held| held.writes(lock));
        if gives_up || self.session.draft().has_created(lock.node) {
            self.sync()?;
        }
        let mut answer = self.ask_server(lock, how)?;
        if matches!(answer, LockAnswer::NoSuchNode | LockAnswer::NotAllowed) && !self.session.draft().log().is_empty() {
            self.sync()?;
            answer = self.ask_server(lock, how)?;
        }
        if answer == LockAnswer::Granted && how != LockHow::Test {
            self.locking.late.give_up(lock);
        }
        Ok(answer)
    }

    fn ask_server(&mut self, lock: &Lock, how: LockHow) -> Result<LockAnswer, Errno> {
        let answer = self.session.desk().lock(lock, how).map_err(|fault| fault.errno())?;
        answer.ok_or(Errno::ENOLCK)
    }

    /// A file is shown as it is from now on. Whether the kernel has to forget what it has of it: unless a lease has kept others from
    /// changing it.
    fn shows_anew(&mut self, id: u64, number: u32) -> bool {
        self.session.look_anew();
        let since = self.session.held_since(number).unwrap_or(None);
        let keeps = since.is_some() && self.kept.get(&id) == Some(&Kept::Since(since));
        if !keeps {
            self.kept.insert(id, Kept::Since(since));
            self.nodes.forget_size(number);
        }
        !keeps
    }

    /// A lock is given up, once the log is handed in. Where that can't be now, it stays so long, and its program doesn't wait.
    fn unlock(&mut self, lock: &Lock) {
        let (is_held, writes) = match self.session.desk().held_locks() {
            Some(held) => (held.meet(lock), held.writes(lock)),
            None => return,
        };
        if !is_held {
            return;
        }
        if writes {
            if let Err(fault) = self.session.sync() {
                self.owe(format!("a lock of node {} stays for now: {fault}", lock.node), fault.errno());
                let late = Lock { kind: LockKind::Write, ..*lock };
                self.locking.late.take_over(&late, LockHow::Set, &LockAnswer::Granted);
                self.locking.late_due = Some(Instant::now() + AGAIN);
                return;
            }
        }
        self.give_lock_up(lock);
    }

    fn give_lock_up(&mut self, lock: &Lock) {
        let unlock = Lock { kind: LockKind::Unlock, ..*lock };
        if let Err(fault) = self.session.desk().lock(&unlock, LockHow::Set) {
            // It goes with the connection, and isn't set again.
            eprintln!("kfs-mount: the server isn't told of an unlock: {fault}");
        }
    }

    /// A descriptor is closed: by that its process gives up what it has locked of the file by fcntl(). `fuse_flush_in`.
    pub fn flush_locks(&mut self, request: &mut Request<'_>) -> Result<(), Errno> {
        request.skip(16)?;
        let (node, owner) = (number_of(request.node), request.long()?);
        for (_, owners) in self.locking.owners.values_mut().filter(|(of, _)| *of == node) {
            owners.remove(&owner);
        }
        self.unlock(&whole(node, owner, LockStyle::Range));
        Ok(())
    }

    /// The last descriptor of a handle is closed: its own locks go with it. `fuse_release_in`.
    pub fn release_locks(&mut self, request: &mut Request<'_>) -> Result<(), Errno> {
        let (handle, _flags, flags, owner) = (request.long()?, request.word()?, request.word()?, request.long()?);
        let node = number_of(request.node);
        if flags & GIVES_UP != 0 {
            self.unlock(&whole(node, owner, LockStyle::Whole));
        }
        for owner in self.locking.owners.remove(&handle).map_or_else(HashSet::new, |(_, owners)| owners) {
            self.unlock(&whole(node, owner, LockStyle::Range));
        }
        Ok(())
    }

    /// A request is given up that waits. `fuse_interrupt_in`.
    pub fn interrupt(&mut self, request: &mut Request<'_>) -> Option<Told> {
        let unique = request.long().ok()?;
        let at = self.locking.waiting.iter().position(|waiting| waiting.unique == unique)?;
        let Waiting { lock, how, .. } = self.locking.waiting.swap_remove(at);
        if how == LockHow::Wait {
            // Where it isn't told, nothing waits any more either.
            let _told = self.session.desk().lock(&lock, LockHow::GiveUp);
        }
        Some(Told::answer(unique, Err(Errno::EINTR)))
    }

    // ---- Shared memory

    /// A name leads to a node.
    pub fn note_memory(&mut self, id: u64, name: &[u8]) {
        if self.locking.is_shared && name.ends_with(MEMORY) {
            self.locking.memories.insert(id);
        }
    }

    /// Whether a file that is opened may be mapped by processes that share it. What these write by mmap() the processes of another
    /// mount don't see. So of a file by which sqlite3 shares memory one mount at a time lets its own do it.
    pub fn may_map(&mut self, id: u64) -> bool {
        if !self.locking.memories.contains(&id) || self.locking.reserved.contains(&id) {
            return true;
        }
        let lock = Lock { kind: LockKind::Write, ..whole(number_of(id), MOUNT, LockStyle::Whole) };
        let is_free = self.ask_lock(&lock, LockHow::Set) == Ok(LockAnswer::Granted);
        if is_free {
            self.locking.reserved.insert(id);
        }
        is_free
    }

    /// The kernel has forgotten a node.
    pub(crate) fn forget_memory(&mut self, id: u64) {
        self.locking.memories.remove(&id);
    }

    /// No process has a file open any more.
    pub(crate) fn unmap(&mut self, id: u64) {
        if self.locking.reserved.remove(&id) {
            self.unlock(&whole(number_of(id), MOUNT, LockStyle::Whole));
        }
    }

    // ---- What comes by itself

    /// Asks again for the locks that are waited for, where something may have changed, and does what is due. What is to be told by
    /// that.
    pub fn poll_locks(&mut self) -> Vec<Told> {
        if !self.locking.is_shared {
            return Vec::new();
        }
        let mut told = self.told_lost();
        self.give_up_late();
        let (freed, now) = (self.session.desk().freed_locks(), Instant::now());
        for waiting in std::mem::take(&mut self.locking.waiting) {
            if waiting.due <= now || freed.contains(&waiting.lock.node) {
                self.begin_request();
                told.extend(self.answer_lock(waiting));
            } else {
                self.locking.waiting.push(waiting);
            }
        }
        told
    }

    /// Gives up what couldn't be given up before the log was handed in.
    fn give_up_late(&mut self) {
        let is_due = self.locking.late_due.map_or(false, |due| due <= Instant::now());
        if !is_due {
            return;
        }
        self.locking.late_due = Some(Instant::now() + AGAIN);
        if self.session.sync().is_ok() {
            self.locking.late_due = None;
            for lock in std::mem::take(&mut self.locking.late).all() {
                self.give_lock_up(lock);
            }
        }
    }

    /// Tells people of locks that couldn't be set again, and has the kernel forget the bytes of their files.
    fn told_lost(&mut self) -> Vec<Told> {
        let lost = self.session.desk().held_locks().map_or_else(Vec::new, HeldLocks::take_newly_lost);
        let mut told = Vec::new();
        if !lost.is_empty() {
            // What was written under it isn't handed in.
            if let Err(fault) = self.session.sync() {
                let _told_next = self.told(&fault.into());
            }
        }
        for number in lost {
            self.owe(format!("a lock of node {number} is lost: others may have had it meanwhile"), Errno::EIO);
            let id = self.nodes.id(number);
            self.session.look_anew();
            self.kept.insert(id, Kept::Mixed);
            told.push(Told { forgets: Some(id), reply: None });
        }
        told
    }

    /// Nobody reads or writes a file of which a lock was lost, until it is given up.
    pub(crate) fn look_at_locks(&mut self, number: u32) -> Result<(), Errno> {
        match self.session.desk().held_locks() {
            Some(held) if held.is_lost(number) => Err(Errno::EIO),
            _ => Ok(()),
        }
    }
}

#[cfg(test)]
mod tests;

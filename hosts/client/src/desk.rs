//! The calls of a desk, as a client makes them, and what they are answered.

use crate::fault::Reason;
use crate::locks::{HeldLocks, Lock, LockAnswer, LockHow};
use crate::shown::{Shown, Unshown};
use nix::errno::Errno;
use std::os::unix::io::RawFd;
use std::thread::sleep;
use std::time::Duration;
use thiserror::Error;

/// What a lease is for.
#[derive(Clone, Copy, Debug, PartialEq, Eq, PartialOrd, Ord)]
pub enum LeaseKind {
    /// To read: it keeps others from writing.
    Read = 0,
    /// To write: it keeps others off.
    Write = 1,
}

/// A lease that is asked for.
#[derive(Clone, Debug, PartialEq, Eq)]
pub struct Wanted {
    /// The node.
    pub number: u32,
    /// A path to it, where one is known: by path no permission on the node itself is asked.
    pub path: Option<Vec<u8>>,
    /// What for.
    pub kind: LeaseKind,
    /// The moment at which it ends.
    pub end: u64,
}

/// Why a lease wasn't granted.
#[derive(Clone, Copy, Debug, PartialEq, Eq, Error)]
pub enum LeaseRefusal {
    /// The desk doesn't know the client.
    #[error("the server doesn't know this client")]
    UnknownClient,
    /// Nothing is there.
    #[error("no such node")]
    NoSuchNode,
    /// The path leads to this other node by now, on which the client has got the lease.
    #[error("its path leads to node {0}")]
    Elsewhere(u32),
    /// The client has no permission on the node, and may not search its path.
    #[error("no permission")]
    NotAllowed,
    /// The moment is past the end that was asked for.
    #[error("the lease would be over")]
    Past,
    /// Another client has a lease that doesn't go with this one.
    #[error("client {0} has a lease on it")]
    Held(u32),
    /// The end is further away than the server allows.
    #[error("the lease would live too long")]
    TooFar,
    /// Another client has wanted the lease for long, so it isn't renewed.
    #[error("another client wants it")]
    Wanted,
    /// No such lease is held.
    #[error("no lease is held")]
    NoneHeld,
}

impl LeaseRefusal {
    /// Whether the same lease may be granted a while later, though nothing changes but what others hold and the moment.
    pub fn may_pass(self) -> bool {
        matches!(self, LeaseRefusal::Held(_) | LeaseRefusal::Wanted | LeaseRefusal::TooFar | LeaseRefusal::Past)
    }

    /// The number that POSIX has for it.
    pub fn errno(self) -> Errno {
        match self {
            LeaseRefusal::UnknownClient => Errno::EPERM,
            LeaseRefusal::NoSuchNode | LeaseRefusal::Elsewhere(_) => Errno::ENOENT,
            LeaseRefusal::NotAllowed => Errno::EACCES,
            LeaseRefusal::TooFar => Errno::EINVAL,
            LeaseRefusal::Past | LeaseRefusal::Held(_) | LeaseRefusal::Wanted | LeaseRefusal::NoneHeld => Errno::EAGAIN,
        }
    }
}

/// A part of a plan.
#[derive(Clone, Copy, Debug, PartialEq, Eq)]
#[allow(missing_docs)]
pub enum RowPart {
    Names,
    Nodes,
    Pieces,
}

/// What a log that was handed in is answered.
#[derive(Clone, Copy, Debug, PartialEq, Eq)]
pub enum Answer {
    /// All of it is done, and kept.
    Yes,
    /// Nothing is done: the log writes more blocks than are free.
    NoRoom {
        /// How many blocks it writes.
        need: u64,
        /// How many are free.
        free: u32,
    },
    /// Nothing is done: the log would have the files of a user take more than they may.
    NoSpace,
    /// Nothing is done: the rules don't allow this entry.
    Entry(usize, Reason),
    /// Nothing is done: this row of the plan isn't the log's, in the tree as it is now.
    Row(RowPart, usize),
    /// Nothing is done: the bytes aren't a log and a plan of this client, or the desk doesn't know it.
    Wrong(Wrong),
}

/// What is wrong with bytes that were handed in.
#[derive(Clone, Copy, Debug, PartialEq, Eq)]
pub enum Wrong {
    /// The desk doesn't know the client.
    UnknownClient,
    /// The bytes are no log.
    Log,
    /// The log is another client's.
    Client,
    /// The bytes are no plan.
    Plan,
}

/// Why a call wasn't answered.
#[derive(Debug, Error)]
pub enum Unanswered {
    /// The server had no memory for it, or its docket is full. Nothing was done.
    #[error("the server has no room for the call")]
    NoMemory,
    /// The call was made, or not: the server ended before it answered.
    #[error("it isn't known whether the call was made")]
    Unknown,
    /// The server takes no call any more. Nothing was done.
    #[error("the server is stopping")]
    Stopping,
    /// The call is too long for the server. Nothing was done.
    #[error("the call is too long")]
    TooLong,
    /// The server says that the call is another client's.
    #[error("the server takes this client for another one")]
    NotYours,
    /// The connection has failed, or what came is no answer. Whether the call was made isn't known.
    #[error(transparent)]
    Gone(#[from] Unshown),
}

impl Unanswered {
    /// The number that POSIX has for it.
    pub fn errno(&self) -> Errno {
        match self {
            Unanswered::NoMemory => Errno::ENOMEM,
            Unanswered::Unknown | Unanswered::Stopping | Unanswered::TooLong => Errno::EIO,
            Unanswered::NotYours => Errno::EPERM,
            Unanswered::Gone(fault) => fault.errno(),
        }
    }
}

impl From<std::io::Error> for Unanswered {
    fn from(fault: std::io::Error) -> Unanswered {
        Unanswered::Gone(fault.into())
    }
}

/// What another client asked for a lease on.
#[derive(Clone, Debug, PartialEq, Eq)]
pub enum Wish {
    /// This node.
    Node(u32),
    /// What stands at this path.
    Path(Vec<u8>),
}

/// How many blocks of 4,096 bytes there are.
#[derive(Clone, Copy, Debug, PartialEq, Eq)]
pub struct Blocks {
    /// All of them where logs are written to.
    pub all: u32,
    /// Those of them that are free.
    pub free: u32,
    /// All of the slower tiers, to which the server moves some.
    pub slower_all: u32,
    /// Those of them that are free.
    pub slower_free: u32,
}

impl Blocks {
    /// How many bytes a block has.
    pub const LENGTH: u64 = 4096;
}

/// A desk, as one client comes to it.
pub trait Desk: Shown {
    /// Asks for a lease, or for a later end of one.
    fn lease(&mut self, wanted: &Wanted) -> Result<Result<(), LeaseRefusal>, Unanswered>;

    /// Asks for some leases, at once where the server lets one. Each is answered as by `lease`.
    fn leases(&mut self, wanted: &[Wanted]) -> Result<Vec<Result<(), LeaseRefusal>>, Unanswered> {
        wanted.iter().map(|one| self.lease(one)).collect()
    }

    /// Gives a lease up.
    fn drop_lease(&mut self, number: u32) -> Result<Result<(), LeaseRefusal>, Unanswered>;

    /// Gives some leases up, at once where the server lets one. Whether there was one on each isn't told.
    fn drop_leases(&mut self, numbers: &[u32]) -> Result<(), Unanswered> {
        numbers.iter().try_for_each(|number| self.drop_lease(*number).map(|_| ()))
    }

    /// Hands a log in, with its plan.
    fn submit(&mut self, log: &[u8], plan: &[u8]) -> Result<Answer, Unanswered>;

    /// Sets whether a directory gives its group to what is made in it (`S_ISGID`). Returns whether it is so now: a server may not keep
    /// it, and only the owner may change it.
    fn set_gives_group(&mut self, _number: u32, _gives: bool) -> Result<bool, Unanswered> {
        Ok(false)
    }

    /// The number under which a log was handed in last, where the server takes such numbers.
    fn last_call(&self) -> Option<u64> {
        None
    }

    /// Whether the server knows that the log was done that was handed in under this number.
    fn was_done(&mut self, _call: u64) -> Result<bool, Unanswered> {
        Ok(false)
    }

    /// The moment by which leases end, as far as the client knows it.
    fn moment(&mut self) -> Result<u64, Unanswered>;

    /// How many blocks there are, where that is told.
    fn blocks(&mut self) -> Result<Option<Blocks>, Unanswered> {
        Ok(None)
    }

    /// Whether who calls is about to end: then nothing is waited for that others have to do.
    fn is_ending(&self) -> bool {
        false
    }

    /// For how many moments a lease may live at most.
    fn longest_term(&self) -> u64 {
        u64::MAX
    }

    /// Waits for so long at most, and not so long where it is told meanwhile that others want something of this client, or that
    /// something is free for which it waits.
    fn wait_for_news(&mut self, most: Duration) {
        sleep(most);
    }

    /// Where it can be waited for that others want something of this client.
    fn news(&self) -> Option<RawFd> {
        None
    }

    /// What others want of this client's leases, since this was asked last.
    fn wanted_by_others(&mut self) -> Result<Vec<Wish>, Unanswered>;

    /// Whether locks of files hold between all clients of the server.
    fn has_locks(&mut self) -> bool {
        false
    }

    /// Asks for a lock of a file, and remembers it. None where the server knows of none.
    fn lock(&mut self, _lock: &Lock, _how: LockHow) -> Result<Option<LockAnswer>, Unanswered> {
        Ok(None)
    }

    /// The locks that this client has, where the server knows of any.
    fn held_locks(&mut self) -> Option<&mut HeldLocks> {
        None
    }

    /// The files on which a lock in the way of one that is waited for has gone, since this was asked last.
    fn freed_locks(&mut self) -> Vec<u32> {
        Vec::new()
    }
}

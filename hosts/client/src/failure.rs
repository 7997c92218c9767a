//! Why a call of a session failed, and what became of a log that was refused.

use crate::client::Access;
use crate::desk::{Answer, LeaseRefusal, Unanswered, Wrong};
use crate::entry::Entry;
use crate::fault::{name_errno, Fault, Reason};
use crate::name::NameFault;
use crate::shown::Unshown;
use nix::errno::Errno;
use std::ops::RangeInclusive;
use thiserror::Error;

/// A call that was taken into the log, and isn't in it any more.
#[derive(Debug, Error)]
#[error("call {} at {path}: {fault}", calls.start())]
pub struct Lost {
    /// Which calls of the session it were, counted from 1: several where writes were put together.
    pub calls: RangeInclusive<u64>,
    /// What they asked for.
    pub entry: Entry,
    /// Where the node was last seen, for people to read.
    pub path: String,
    /// Why it can't be done.
    pub fault: Fault,
}

/// Why a log wasn't kept when it was handed in.
#[derive(Debug, Error)]
pub enum HandInFault {
    /// The rules don't allow all of it any more. Nothing is done. The calls that can't be done are told; the others stay in the
    /// log, and go with the next one.
    #[error("{} calls can't be done, and {stays} entries stay in the log", lost.len())]
    Refused {
        /// What the server said first.
        said: Answer,
        /// The calls that are lost.
        lost: Vec<Lost>,
        /// How many entries stay in the log.
        stays: usize,
    },
    /// It isn't allowed by now, since a lease has ended and another client has one. Nothing is done, and the log stays as it is.
    #[error("node {0}: {1}")]
    Lease(u32, LeaseRefusal),
    /// The server has too few free blocks. Nothing is done, and the log stays as it is.
    #[error("the log writes {need} blocks, and {free} are free")]
    NoRoom {
        /// How many blocks it writes.
        need: u64,
        /// How many are free.
        free: u32,
    },
    /// The files of a user would take more than they may. Nothing is done, and the log stays as it is.
    #[error("the files of a user would take more than they may")]
    NoSpace,
    /// The server says that the bytes aren't a log and a plan of this client. The log stays as it is.
    #[error("the server doesn't take the bytes: {0:?}")]
    Wrong(Wrong),
    /// It wasn't answered. The log stays as it is; where it may have been done, the next hand-in looks first.
    #[error(transparent)]
    Unanswered(#[from] Unanswered),
}

impl HandInFault {
    /// Whether the same log may be done a while later: nothing is lost, and leases were lacking alone.
    pub fn may_pass(&self) -> bool {
        match self {
            HandInFault::Lease(_, refusal) => refusal.may_pass(),
            HandInFault::Refused { said: Answer::Entry(_, Reason::NoLease(_)), lost, .. } => lost.is_empty(),
            _ => false,
        }
    }

    /// The number that POSIX has for it, for fsync().
    pub fn errno(&self) -> Errno {
        match self {
            HandInFault::NoRoom { .. } => Errno::ENOSPC,
            HandInFault::NoSpace => Errno::EDQUOT,
            HandInFault::Lease(_, refusal) => refusal.errno(),
            HandInFault::Unanswered(fault) => fault.errno(),
            HandInFault::Refused { .. } | HandInFault::Wrong(_) => Errno::EIO,
        }
    }
}

/// Why a call failed. The log has nothing of it.
#[derive(Debug, Error)]
pub enum Failure {
    /// The entry isn't taken.
    #[error("{fault}")]
    Entry {
        /// Why.
        fault: Fault,
        /// The number that POSIX has for it.
        errno: Errno,
    },
    /// Nothing is there.
    #[error("{0}")]
    Missing(Reason),
    /// The bits of the node don't grant it.
    #[error("no permission: {0:?}")]
    NotAllowed(Access),
    /// The bytes are no name.
    #[error(transparent)]
    Name(#[from] NameFault),
    /// A lease isn't to be had.
    #[error("node {0}: {1}")]
    Lease(u32, LeaseRefusal),
    /// The server didn't show it.
    #[error(transparent)]
    Unshown(#[from] Unshown),
    /// The server didn't answer.
    #[error(transparent)]
    Unanswered(#[from] Unanswered),
    /// The log before it had to be handed in, and wasn't kept.
    #[error(transparent)]
    HandIn(#[from] HandInFault),
}

impl Failure {
    pub(crate) fn of(fault: Fault, entry: &Entry) -> Failure {
        let errno = fault.errno_of(entry);
        Failure::Entry { fault, errno }
    }

    /// The number that POSIX has for it.
    pub fn errno(&self) -> Errno {
        match self {
            Failure::Entry { errno, .. } => *errno,
            Failure::Missing(reason) => reason.errno(),
            Failure::NotAllowed(_) => Errno::EACCES,
            Failure::Name(fault) => name_errno(*fault),
            Failure::Lease(_, refusal) => refusal.errno(),
            Failure::Unshown(fault) => fault.errno(),
            Failure::Unanswered(fault) => fault.errno(),
            Failure::HandIn(fault) => fault.errno(),
        }
    }
}

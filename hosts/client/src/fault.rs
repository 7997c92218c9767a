//! Why a call is refused, and the numbers that POSIX has for it.

use crate::entry::Entry;
use crate::log::Full;
use crate::name::NameFault;
use crate::shown::Unshown;
use nix::errno::Errno;
use thiserror::Error;

/// Why the rules don't allow an entry (docs/FORMATS.md, "NAME of an entry"). The text is the name there.
#[derive(Clone, Copy, Debug, PartialEq, Eq, Error)]
#[allow(missing_docs)]
pub enum Reason {
    #[error("NoSuchNode")]
    NoSuchNode,
    #[error("NotDirectory")]
    NotDirectory,
    #[error("IsDirectory")]
    IsDirectory,
    #[error("NoSuchName")]
    NoSuchName,
    #[error("NameTaken")]
    NameTaken,
    #[error("NumberTaken")]
    NumberTaken,
    #[error("NumberNotGranted")]
    NumberNotGranted,
    #[error("NotEmpty")]
    NotEmpty,
    #[error("BelowItself")]
    BelowItself,
    #[error("TooManyLinks")]
    TooManyLinks,
    #[error("TooBig")]
    TooBig,
    #[error("NoSearch")]
    NoSearch,
    #[error("NoWrite")]
    NoWrite,
    #[error("NotOwner")]
    NotOwner,
    #[error("NoLease({0})")]
    NoLease(u32),
    #[error("Sticky")]
    Sticky,
    #[error("NotInGroup")]
    NotInGroup,
}

impl Reason {
    /// The reason of these numbers, as answers of a desk have them.
    pub fn of_code(code: u8, detail: u32) -> Option<Reason> {
        let reason = match code {
            1 => Reason::NoSuchNode,
            2 => Reason::NotDirectory,
            3 => Reason::IsDirectory,
            4 => Reason::NoSuchName,
            5 => Reason::NameTaken,
            6 => Reason::NumberTaken,
            7 => Reason::NumberNotGranted,
            8 => Reason::NotEmpty,
            9 => Reason::BelowItself,
            10 => Reason::TooManyLinks,
            11 => Reason::TooBig,
            12 => Reason::NoSearch,
            13 => Reason::NoWrite,
            14 => Reason::NotOwner,
            15 => Reason::NoLease(detail),
            16 => Reason::Sticky,
            17 => Reason::NotInGroup,
            _ => return None,
        };
        Some(reason)
    }

    /// The number that POSIX has for it (docs/EMBEDDING.md, "Which errno for which reason?").
    pub fn errno(self) -> Errno {
        match self {
            Reason::NoSuchNode | Reason::NoSuchName => Errno::ENOENT,
            Reason::NotDirectory => Errno::ENOTDIR,
            Reason::IsDirectory => Errno::EISDIR,
            Reason::NameTaken | Reason::NumberTaken => Errno::EEXIST,
            Reason::NumberNotGranted | Reason::NotOwner | Reason::Sticky | Reason::NotInGroup => Errno::EPERM,
            Reason::NotEmpty => Errno::ENOTEMPTY,
            Reason::BelowItself => Errno::EINVAL,
            Reason::TooManyLinks => Errno::EMLINK,
            Reason::TooBig => Errno::EFBIG,
            Reason::NoSearch | Reason::NoWrite => Errno::EACCES,
            Reason::NoLease(_) => Errno::EAGAIN,
        }
    }
}

/// Why an entry isn't taken into the log. The log stays as it was.
#[derive(Debug, Error)]
pub enum Fault {
    /// The rules don't allow it.
    #[error("{0}")]
    Refused(Reason),
    /// It belongs into the next log.
    #[error(transparent)]
    Full(#[from] Full),
    /// A payload has more than 65,536 bytes, or a mode is over 0o1777.
    #[error("no log can say this entry")]
    Unspelled,
    /// All numbers of the client's grant are in use.
    #[error("no number is left for a new node")]
    NoNumber,
    /// Where this directory stands was never looked up, so nobody here can say what it lies below.
    #[error("it isn't known where directory {0} stands")]
    Unplaced(u32),
    /// The server didn't show what the call depends on.
    #[error(transparent)]
    Unshown(#[from] Unshown),
}

impl From<Reason> for Fault {
    fn from(reason: Reason) -> Fault {
        Fault::Refused(reason)
    }
}

impl Fault {
    /// The number that POSIX has for it.
    pub fn errno(&self) -> Errno {
        match self {
            Fault::Refused(reason) => reason.errno(),
            Fault::Full(_) => Errno::EAGAIN,
            Fault::Unspelled => Errno::EINVAL,
            Fault::NoNumber => Errno::ENOSPC,
            Fault::Unplaced(_) => Errno::ESTALE,
            Fault::Unshown(fault) => fault.errno(),
        }
    }

    /// The same for the call that the entry stands for: link() of a directory has a number of its own.
    pub fn errno_of(&self, entry: &Entry) -> Errno {
        match (self, entry) {
            (Fault::Refused(Reason::IsDirectory), Entry::Link { .. }) => Errno::EPERM,
            _ => self.errno(),
        }
    }
}

/// The number that POSIX has for bytes that are no name.
pub fn name_errno(fault: NameFault) -> Errno {
    match fault {
        NameFault::Empty => Errno::ENOENT,
        NameFault::TooLong => Errno::ENAMETOOLONG,
        NameFault::Dots | NameFault::BadByte => Errno::EINVAL,
    }
}

//! The rules of an entry, asked before it is taken into the log: the same checks in the same order as a server's
//! (docs/FORMATS.md, "The order at each entry").

use crate::client::Access;
use crate::draft::Draft;
use crate::entry::{Entry, Kind};
use crate::fault::{Fault, Reason};
use crate::name::Name;
use crate::node::{Header, LINK_LIMIT, SIZE_LIMIT, STICKY};
use crate::paths::Climb;
use crate::shown::Shown;

/// Which nodes the client has a live write lease on.
pub trait Held {
    /// Whether it has one on this node.
    fn holds(&self, number: u32) -> bool;

    /// When the node was made that is meant by its number, where that is known. A later node of the number is another one.
    fn meant(&self, _number: u32) -> Option<u64> {
        None
    }
}

/// What an entry does, with what the checks have found: so making the change asks nobody.
#[derive(Clone, Copy, Debug, PartialEq, Eq)]
pub(crate) enum Effect {
    /// Nothing.
    Nothing,
    /// The node of the entry is new.
    Created,
    /// The node of the entry had this header.
    Of(Header),
    /// A name of this node goes.
    Gone(Found),
    /// The name of this node is another one, which was that of the other node.
    Moved(Found, Option<Found>),
}

/// A node, and its header before the entry.
#[derive(Clone, Copy, Debug, PartialEq, Eq)]
pub(crate) struct Found {
    pub number: u32,
    pub header: Header,
}

fn check(passes: bool, reason: Reason) -> Result<(), Fault> {
    if passes {
        Ok(())
    } else {
        Err(Fault::Refused(reason))
    }
}

/// A draft that is asked for its next entry.
pub(crate) struct Judge<'a> {
    pub draft: &'a mut Draft,
    pub shown: &'a mut dyn Shown,
    pub held: &'a dyn Held,
}

impl Judge<'_> {
    /// What the entry does, or the first reason why it isn't allowed.
    pub fn judge(&mut self, entry: &Entry) -> Result<Effect, Fault> {
        match entry {
            Entry::Create { directory, name, number, .. } => self.create(*directory, name, *number),
            Entry::Write { number, offset, payload } => {
                let header = self.changed_file(*number)?;
                // Sums of numbers of 64 bits are compared in 128.
                let end = u128::from(*offset) + payload.len() as u128;
                check(payload.is_empty() || end <= u128::from(SIZE_LIMIT), Reason::TooBig)?;
                Ok(Effect::Of(header))
            }
            Entry::Truncate { number, size } => {
                let header = self.changed_file(*number)?;
                check(*size <= SIZE_LIMIT, Reason::TooBig)?;
                Ok(Effect::Of(header))
            }
            Entry::Link { number, directory, name } => self.link(*number, *directory, name),
            Entry::Unlink { directory, name, kind } => self.unlink(*directory, name, *kind),
            Entry::Rename { directory, name, new_directory, new_name } => {
                self.rename(*directory, name, *new_directory, new_name)
            }
            Entry::Chmod { number, .. } => {
                let header = self.node(*number)?;
                self.owner(&header)?;
                self.lease(*number)?;
                Ok(Effect::Of(header))
            }
            Entry::Regroup { number, group } => {
                let header = self.node(*number)?;
                self.owner(&header)?;
                let client = self.draft.client();
                check(client.is_privileged || client.is_in(*group), Reason::NotInGroup)?;
                self.lease(*number)?;
                Ok(Effect::Of(header))
            }
        }
    }

    fn node(&mut self, number: u32) -> Result<Header, Fault> {
        self.draft.header(self.shown, number)?.ok_or(Fault::Refused(Reason::NoSuchNode))
    }

    fn directory(&mut self, number: u32) -> Result<Header, Fault> {
        let header = self.node(number)?;
        check(header.is_directory(), Reason::NotDirectory)?;
        Ok(header)
    }

    fn file(&mut self, number: u32) -> Result<Header, Fault> {
        let header = self.node(number)?;
        check(!header.is_directory(), Reason::IsDirectory)?;
        Ok(header)
    }

    fn search(&self, header: &Header) -> Result<(), Fault> {
        check(self.draft.client().may(header, Access::Search), Reason::NoSearch)
    }

    fn write(&self, number: u32, header: &Header) -> Result<(), Fault> {
        let is_own = !header.is_directory() && self.draft.has_created(number);
        check(is_own || self.draft.client().may(header, Access::Write), Reason::NoWrite)
    }

    /// There is a lease on the node, and it is the one that is meant: its header was shown under the lease.
    fn lease(&self, number: u32) -> Result<(), Fault> {
        if self.draft.has_created(number) {
            return Ok(());
        }
        check(self.held.holds(number), Reason::NoLease(number))?;
        let is_meant =
            self.held.meant(number).map_or(true, |born| self.shown.stamp(number).map(|stamp| stamp.born) == Some(born));
        check(is_meant, Reason::NoSuchNode)
    }

    fn owner(&self, header: &Header) -> Result<(), Fault> {
        check(self.draft.client().owns(header), Reason::NotOwner)
    }

    fn sticky(&self, directory: &Header, node: &Header) -> Result<(), Fault> {
        let client = self.draft.client();
        let is_free = directory.mode & STICKY == 0 || client.owns(directory) || client.owns(node);
        check(is_free, Reason::Sticky)
    }

    fn empty(&mut self, directory: u32) -> Result<(), Fault> {
        let first = self.draft.list(self.shown, directory, None, 1)?;
        check(first.is_empty(), Reason::NotEmpty)
    }

    /// A file whose bytes or size are to change.
    fn changed_file(&mut self, number: u32) -> Result<Header, Fault> {
        let header = self.file(number)?;
        self.write(number, &header)?;
        self.lease(number)?;
        Ok(header)
    }

    /// A directory whose names are to change.
    fn changed_directory(&mut self, number: u32) -> Result<Header, Fault> {
        let header = self.directory(number)?;
        self.search(&header)?;
        self.write(number, &header)?;
        self.lease(number)?;
        Ok(header)
    }

    fn find(&mut self, directory: u32, name: &Name) -> Result<Option<Found>, Fault> {
        match self.draft.find(self.shown, directory, name)? {
            Some(number) => Ok(Some(Found { number, header: self.node(number)? })),
            None => Ok(None),
        }
    }

    fn target(&mut self, directory: u32, name: &Name) -> Result<Found, Fault> {
        self.find(directory, name)?.ok_or(Fault::Refused(Reason::NoSuchName))
    }

    fn untaken(&mut self, directory: u32, name: &Name) -> Result<(), Fault> {
        let there = self.draft.find(self.shown, directory, name)?;
        check(there.is_none(), Reason::NameTaken)
    }

    fn create(&mut self, directory: u32, name: &Name, number: u32) -> Result<Effect, Fault> {
        self.changed_directory(directory)?;
        self.untaken(directory, name)?;
        check(self.draft.client().is_granted(number), Reason::NumberNotGranted)?;
        check(self.draft.is_free(self.shown, number)?, Reason::NumberTaken)?;
        Ok(Effect::Created)
    }

    fn link(&mut self, number: u32, directory: u32, name: &Name) -> Result<Effect, Fault> {
        let header = self.file(number)?;
        self.changed_directory(directory)?;
        self.lease(number)?;
        self.untaken(directory, name)?;
        check(header.links < LINK_LIMIT, Reason::TooManyLinks)?;
        Ok(Effect::Of(header))
    }

    fn unlink(&mut self, directory: u32, name: &Name, kind: Kind) -> Result<Effect, Fault> {
        let holder = self.changed_directory(directory)?;
        let found = self.target(directory, name)?;
        of_kind(&found, kind)?;
        self.sticky(&holder, &found.header)?;
        self.lease(found.number)?;
        if kind == Kind::Directory {
            self.empty(found.number)?;
        }
        Ok(Effect::Gone(found))
    }

    fn rename(&mut self, from: u32, name: &Name, to: u32, new_name: &Name) -> Result<Effect, Fault> {
        let (old, new) = (self.directory(from)?, self.directory(to)?);
        self.search(&old)?;
        self.search(&new)?;
        let moved = self.target(from, name)?;
        let there = self.find(to, new_name)?;
        if there.map(|found| found.number) == Some(moved.number) {
            return Ok(Effect::Nothing);
        }
        self.write(from, &old)?;
        self.write(to, &new)?;
        self.sticky(&old, &moved.header)?;
        for number in [from, to, moved.number] {
            self.lease(number)?;
        }
        if moved.header.is_directory() {
            self.not_below(to, moved.number)?;
        }
        if let Some(there) = there {
            self.replaced(&new, &there, moved.header.kind)?;
        }
        Ok(Effect::Moved(moved, there))
    }

    /// The directory doesn't lie at or below the node.
    fn not_below(&self, directory: u32, node: u32) -> Result<(), Fault> {
        match self.draft.paths().climb(directory, node) {
            Climb::Met => Err(Fault::Refused(Reason::BelowItself)),
            Climb::Passed => Ok(()),
            Climb::Unplaced(at) => Err(Fault::Unplaced(at)),
        }
    }

    /// A node of this kind may take the place of the one that is there.
    fn replaced(&mut self, holder: &Header, there: &Found, kind: Kind) -> Result<(), Fault> {
        of_kind(there, kind)?;
        self.sticky(holder, &there.header)?;
        self.lease(there.number)?;
        if kind == Kind::Directory {
            self.empty(there.number)?;
        }
        Ok(())
    }
}

fn of_kind(found: &Found, kind: Kind) -> Result<(), Fault> {
    match kind {
        Kind::Directory => check(found.header.is_directory(), Reason::NotDirectory),
        Kind::File => check(!found.header.is_directory(), Reason::IsDirectory),
    }
}

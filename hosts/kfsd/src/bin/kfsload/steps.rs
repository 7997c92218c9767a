//! What a connection does with each of its files, again and again, and which answer each call has to have.

use crate::making::{lease, Header, Making, Owner};

/// The bytes of the file that all connections of a user write to.
const SHARED_SIZE: u32 = 8192;

/// What all connections of a user try to create in their directory, each with a number of its own.
const RACE: &str = "race";

pub const YES: u8 = 1;
const LEASED: u8 = 4;

#[derive(Clone, Copy, Debug, PartialEq, Eq)]
pub enum Step {
    Create,
    Lease,
    Write,
    Unlink,
    // Those that are made in a mixed load alone.
    Chmod,
    Rename,
    Link,
    Cut,
    Grow,
    WriteShared,
    ChmodShared,
    LeaseOthers,
    Race,
    LeaseRace,
    EndRace,
}

pub const PLAIN: &[Step] = &[Step::Create, Step::Lease, Step::Write, Step::Write, Step::Unlink];
pub const MIXED: &[Step] = &[
    Step::Create,
    Step::Lease,
    Step::Write,
    Step::WriteShared,
    Step::Chmod,
    Step::Race,
    Step::LeaseRace,
    Step::EndRace,
    Step::Rename,
    Step::Link,
    Step::ChmodShared,
    Step::Cut,
    Step::WriteShared,
    Step::Grow,
    Step::LeaseOthers,
    Step::Unlink,
];

/// Where the files of a connection lie, and what it shares with others.
#[derive(Clone, Debug)]
pub struct Place {
    pub owner: Owner,
    pub directory: u32,
    /// A file that all connections of the user write to, and one of another user.
    pub shared: u32,
    pub others: u32,
    /// The number with which it tries to create what others try to create, too.
    pub spare: u32,
    pub at: u32,
}

/// A file of a connection.
#[derive(Clone, Copy, Debug)]
pub struct File {
    pub slot: u32,
    pub number: u32,
    /// Which of its steps comes next.
    pub step: usize,
    fill: u8,
    header: Header,
    has_won: bool,
}

impl File {
    pub fn new(slot: u32, number: u32) -> File {
        let header = Header { mode: 0o644, links: 1, size: 100 + 37 * slot };
        File { slot, number, step: 0, fill: 0, header, has_won: false }
    }

    fn size(&self) -> u32 {
        100 + 37 * self.slot
    }

    /// The file behind this step, the call that makes it, and the tag that its answer has to have, where one is due.
    pub fn stepped(&self, step: Step, place: &Place) -> (File, Vec<u8>, Option<u8>) {
        let mut next = *self;
        if matches!(step, Step::Create | Step::Write | Step::Grow | Step::WriteShared | Step::ChmodShared) {
            next.fill = self.fill.wrapping_mul(5).wrapping_add(self.slot as u8 + 1);
        }
        match step {
            Step::Lease => return (next, lease(place.owner.client, self.number, true), Some(LEASED)),
            Step::LeaseRace => return (next, lease(place.owner.client, place.spare, true), Some(LEASED)),
            Step::LeaseOthers => return (next, lease(place.owner.client, place.others, false), None),
            _ => {}
        }
        let making = next.log(step, place);
        // What others do tells whether these are done: their plans are right in some states alone.
        let due = (!matches!(step, Step::Race | Step::ChmodShared)).then_some(YES);
        (next, making.call(), due)
    }

    /// Whether the file is such that the step is made.
    pub fn does(&self, step: Step) -> bool {
        self.has_won || !matches!(step, Step::LeaseRace | Step::EndRace)
    }

    /// Takes over how a step was answered.
    pub fn answered(&mut self, step: Step, tag: u8) {
        match step {
            Step::Race => self.has_won = tag == YES,
            Step::EndRace => self.has_won = false,
            _ => {}
        }
    }

    /// The log of a step. It leaves the file's header as it is behind it.
    fn log(&mut self, step: Step, place: &Place) -> Making {
        let (making, directory, number, size) = (Making::new(place.owner), place.directory, self.number, self.size());
        let name = format!("c{}f{}", place.at, self.slot);
        let other = format!("{name}r");
        let offset = u32::from(self.fill) * 31 % (SHARED_SIZE - size);
        match step {
            Step::Create => {
                self.header = Header { mode: 0o644, links: 1, size };
                making.create(directory, &name, number, self.header).write(number, 0, size, self.fill)
            }
            Step::Chmod => {
                // Another one than that with which it was created: else the plan has no row.
                self.header.mode = 0o600 | u16::from(self.fill & 0o33);
                making.chmod(number, self.header.mode).has(number, self.header)
            }
            Step::Rename => making.rename(number, directory, &name, &other),
            Step::Link => {
                self.header.links = 2;
                making.link(number, directory, &name).has(number, self.header)
            }
            Step::Cut => {
                self.header.size = size / 2;
                making.truncate(number, size / 2).has(number, self.header)
            }
            Step::Grow => {
                self.header.size = size;
                making.write(number, 0, size, self.fill).has(number, self.header)
            }
            Step::WriteShared => making.write(place.shared, offset, size, self.fill),
            Step::ChmodShared => {
                let header = Header { mode: 0o600 | u16::from(self.fill & 0o77), links: 1, size: SHARED_SIZE };
                making.chmod(place.shared, header.mode).has(place.shared, header)
            }
            Step::Race => making.create(directory, RACE, place.spare, Header { mode: 0o600, links: 1, size: 0 }),
            Step::EndRace => making.unlink(directory, RACE).gone(place.spare),
            Step::Unlink if self.header.links == 2 => making.unlink(directory, &name).unlink(directory, &other).gone(number),
            Step::Unlink => making.unlink(directory, &name).gone(number),
            _ => making.write(number, 0, size, self.fill),
        }
    }
}

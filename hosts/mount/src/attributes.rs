//! What a node is, as the kernel has it. Times are this mount's own, since the desk has none.

use crate::nodes::number_of;
use crate::protocol::Reply;
use kfs_client::Header;
use std::collections::HashMap;
use std::time::{Duration, SystemTime, UNIX_EPOCH};

/// How old a header is at most that the kernel is told of, and how many nanoseconds it may keep it: a second together.
pub const AGE: Duration = Duration::from_millis(200);
const KEPT: u32 = 800_000_000;
const DIRECTORY: u32 = 0o040_000;
const FILE: u32 = 0o100_000;
const LINK: u32 = 0o120_000;
const FIFO: u32 = 0o010_000;
const SOCKET: u32 = 0o140_000;
/// The bits of a mode that say what a node is.
const TYPE: u32 = 0o170_000;

/// What a file of the desk is shown as.
#[derive(Clone, Copy, Debug, PartialEq, Eq)]
pub enum Form {
    /// What it is: a file or a directory.
    Plain,
    Link,
    Fifo,
    Socket,
}

impl Form {
    /// The form of a node that is to be made with this mode. A device can't be one.
    pub fn of_mode(mode: u32) -> Option<Form> {
        match mode & TYPE {
            FILE => Some(Form::Plain),
            FIFO => Some(Form::Fifo),
            SOCKET => Some(Form::Socket),
            _ => None,
        }
    }
}

/// A node as it is shown to the kernel. Of a link the size is that of its target.
#[derive(Clone, Copy, Debug, PartialEq, Eq)]
pub struct Shape {
    pub header: Header,
    pub form: Form,
}

/// The times of a node, since the beginning of 1970.
#[derive(Clone, Copy, Debug, PartialEq, Eq)]
pub struct Times {
    pub read: Duration,
    pub written: Duration,
    pub changed: Duration,
}

impl Times {
    fn all(time: Duration) -> Times {
        Times { read: time, written: time, changed: time }
    }
}

/// It is now.
pub fn now() -> Duration {
    SystemTime::now().duration_since(UNIX_EPOCH).unwrap_or_default()
}

/// The times of all nodes that were changed since the mount, and that of the mount for the others.
#[derive(Debug)]
pub struct Clocks {
    of: HashMap<u32, Times>,
    begun: Duration,
}

impl Default for Clocks {
    fn default() -> Clocks {
        Clocks { of: HashMap::new(), begun: now() }
    }
}

impl Clocks {
    pub fn of(&self, number: u32) -> Times {
        self.of.get(&number).copied().unwrap_or_else(|| Times::all(self.begun))
    }

    pub fn set(&mut self, number: u32, times: Times) {
        self.of.insert(number, times);
    }

    /// A node is new.
    pub fn create(&mut self, number: u32) {
        self.set(number, Times::all(now()));
    }

    /// The bytes of a file, or the names of a directory, have changed.
    pub fn write(&mut self, number: u32) {
        let time = now();
        self.set(number, Times { written: time, changed: time, ..self.of(number) });
    }

    /// A header has changed.
    pub fn change(&mut self, number: u32) {
        self.set(number, Times { changed: now(), ..self.of(number) });
    }

    /// The number is another node's now.
    pub fn forget(&mut self, number: u32) {
        self.of.remove(&number);
    }
}

/// The bits of a node's mode that say what it is.
pub fn type_bits(shape: &Shape) -> u32 {
    match shape.form {
        Form::Link => LINK,
        Form::Fifo => FIFO,
        Form::Socket => SOCKET,
        Form::Plain if shape.header.is_directory() => DIRECTORY,
        Form::Plain => FILE,
    }
}

/// The 88 bytes of `fuse_attr`. Programs are shown the number of the desk.
pub fn attributes(number: u32, shape: &Shape, times: Times, reply: &mut Reply) {
    let header = &shape.header;
    let [read, written, changed] = [times.read, times.written, times.changed];
    reply.long(number.into()).long(header.size).long((header.size + 511) / 512);
    for time in [read, written, changed] {
        reply.long(time.as_secs());
    }
    for time in [read, written, changed] {
        reply.word(time.subsec_nanos());
    }
    reply.word(type_bits(shape) | u32::from(header.mode)).word(header.links.into());
    reply.word(header.uid).word(header.gid).word(0).word(4096).word(0);
}

/// `fuse_attr_out`.
pub fn attribute_reply(id: u64, shape: &Shape, clocks: &Clocks) -> Reply {
    let (mut reply, number) = (Reply::default(), number_of(id));
    reply.long(0).word(KEPT).word(0);
    attributes(number, shape, clocks.of(number), &mut reply);
    reply
}

/// `fuse_entry_out`. An id is given to one node alone, so its generation is 0. The kernel keeps the name for a while, or looks it up
/// anew each time.
pub fn entry(id: u64, shape: &Shape, keeps_name: bool, clocks: &Clocks, reply: &mut Reply) {
    let number = number_of(id);
    reply.long(id).long(0).long(0).long(0).word(if keeps_name { KEPT } else { 0 }).word(KEPT);
    attributes(number, shape, clocks.of(number), reply);
}

#[cfg(test)]
mod tests {
    use super::*;
    use kfs_client::Kind;

    #[test]
    fn sizes_are_those_of_the_kernel() {
        let header = Header { kind: Kind::File, mode: 0o644, uid: 1, gid: 2, links: 1, size: 513 };
        let shape = Shape { header, form: Form::Plain };
        let clocks = Clocks::default();
        assert_eq!(attribute_reply(5, &shape, &clocks).0.len(), 16 + 88);
        let mut reply = Reply::default();
        entry(1 << 32 | 5, &shape, true, &clocks, &mut reply);
        assert_eq!(reply.0.len(), 128);
        assert_eq!((&reply.0[..8], &reply.0[40..48]), (&(1u64 << 32 | 5).to_ne_bytes()[..], &5u64.to_ne_bytes()[..]));
    }
}

//! Logs with their plans, and calls for leases, as bytes (docs/FORMATS.md).

use std::collections::BTreeMap;

/// Who makes a call, and owns what it creates.
#[derive(Clone, Copy, Debug)]
pub struct Owner {
    pub client: u32,
    pub uid: u32,
    pub gid: u32,
}

/// What the plan says of a file.
#[derive(Clone, Copy, Debug)]
pub struct Header {
    pub mode: u16,
    pub links: u16,
    pub size: u32,
}

/// A log and its plan, entry by entry. The rows of the plan are those that are right where the log is.
#[derive(Debug)]
pub struct Making {
    owner: Owner,
    entries: Vec<Vec<u8>>,
    names: BTreeMap<(u32, Vec<u8>), u32>,
    nodes: BTreeMap<u32, Option<Header>>,
    pieces: Vec<Vec<u8>>,
}

impl Making {
    pub fn new(owner: Owner) -> Making {
        Making { owner, entries: vec![], names: BTreeMap::new(), nodes: BTreeMap::new(), pieces: vec![] }
    }

    /// A file that is new.
    pub fn create(mut self, directory: u32, name: &str, number: u32, header: Header) -> Making {
        self.entries.push([&[1][..], &word(directory), &name_bytes(name), &word(number), &[0], &half(header.mode)].concat());
        self.names.insert((directory, name.into()), number);
        self.has(number, header)
    }

    /// Bytes of one value from an offset on.
    pub fn write(mut self, number: u32, offset: u32, count: u32, fill: u8) -> Making {
        let payload = vec![fill; count as usize];
        let entry = half(self.entries.len() as u16);
        self.entries.push([&[2][..], &word(number), &long(offset.into()), &word(count), &payload].concat());
        let place = [&word(number)[..], &long(offset.into()), &long(count.into())].concat();
        self.pieces.push([&place[..], &[1], &entry, &word(0)].concat());
        self
    }

    pub fn truncate(mut self, number: u32, size: u32) -> Making {
        self.entries.push([&[3][..], &word(number), &long(size.into())].concat());
        self
    }

    pub fn link(mut self, number: u32, directory: u32, name: &str) -> Making {
        self.entries.push([&[4][..], &word(number), &word(directory), &name_bytes(name)].concat());
        self.names.insert((directory, name.into()), number);
        self
    }

    pub fn unlink(mut self, directory: u32, name: &str) -> Making {
        self.entries.push([&[5][..], &word(directory), &name_bytes(name), &[0]].concat());
        self.names.insert((directory, name.into()), 0);
        self
    }

    /// Another name for a file in the same directory, which nothing had.
    pub fn rename(mut self, number: u32, directory: u32, name: &str, new: &str) -> Making {
        self.entries.push([&[6][..], &word(directory), &name_bytes(name), &word(directory), &name_bytes(new)].concat());
        self.names.insert((directory, name.into()), 0);
        self.names.insert((directory, new.into()), number);
        self
    }

    pub fn chmod(mut self, number: u32, mode: u16) -> Making {
        self.entries.push([&[7][..], &word(number), &half(mode)].concat());
        self
    }

    /// The header that a file has behind the log.
    pub fn has(mut self, number: u32, header: Header) -> Making {
        self.nodes.insert(number, Some(header));
        self
    }

    /// A file that isn't there behind the log.
    pub fn gone(mut self, number: u32) -> Making {
        self.nodes.insert(number, None);
        self
    }

    fn node_row(&self, number: u32, header: Option<Header>) -> Vec<u8> {
        match header {
            None => [&word(number)[..], &[0]].concat(),
            Some(Header { mode, links, size }) => {
                let owner = [word(self.owner.uid), word(self.owner.gid)].concat();
                [&word(number)[..], &[1], &half(mode), &owner, &half(links), &long(size.into())].concat()
            }
        }
    }

    /// The call that hands it in.
    pub fn call(&self) -> Vec<u8> {
        let name_row = |(key, number): (&(u32, Vec<u8>), &u32)| {
            [&word(key.0)[..], &[key.1.len() as u8], key.1.as_slice(), &word(*number)].concat()
        };
        let names: Vec<_> = self.names.iter().map(name_row).collect();
        let nodes: Vec<_> = self.nodes.iter().map(|(number, header)| self.node_row(*number, *header)).collect();
        let count = |rows: &[Vec<u8>]| half(rows.len() as u16);
        let client = word(self.owner.client);
        let log = [b"KLOG\x01", &client[..], &count(&self.entries), &self.entries.concat()].concat();
        let counts = [&count(&names)[..], &count(&nodes), &word(self.pieces.len() as u32)].concat();
        let plan = [b"KPLN\x01", &counts[..], &names.concat(), &nodes.concat(), &self.pieces.concat()].concat();
        [&[1][..], &client, &word(log.len() as u32), &log, &word(plan.len() as u32), &plan].concat()
    }
}

/// The call for a lease on a node, for ever.
pub fn lease(client: u32, number: u32, writes: bool) -> Vec<u8> {
    lease_until(client, number, writes, 1 << 62)
}

/// The call for a lease on a node up to a moment.
pub fn lease_until(client: u32, number: u32, writes: bool, end: u64) -> Vec<u8> {
    [&[6][..], &word(client), &[u8::from(writes)], &long(end), &word(number)].concat()
}

pub fn word(number: u32) -> [u8; 4] {
    number.to_be_bytes()
}

fn half(number: u16) -> [u8; 2] {
    number.to_be_bytes()
}

fn long(number: u64) -> [u8; 8] {
    number.to_be_bytes()
}

fn name_bytes(name: &str) -> Vec<u8> {
    [&[name.len() as u8][..], name.as_bytes()].concat()
}

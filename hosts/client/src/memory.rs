//! A server in memory, of one process and one client, for first trials of what stands over a session. It keeps nothing.
//!
//! It does what a desk does: it judges each log, compares the plan, and makes the change. Nothing of it is proved.

use crate::bytes::Origin;
use crate::client::Client;
use crate::desk::{Answer, Desk, LeaseRefusal, RowPart, Unanswered, Wanted, Wish, Wrong};
use crate::draft::Draft;
use crate::entry::{Entry, Kind};
use crate::fault::Fault;
use crate::judge::Held;
use crate::log::Log;
use crate::name::Name;
use crate::node::{Header, ROOT};
use crate::paths::Paths;
use crate::plan::{Piece, Plan};
use crate::shown::{Shown, Unshown};
use std::collections::{BTreeMap, HashMap};
use std::ops::Bound;

/// How many bytes a block has. One that was never written is zero.
const BLOCK: u64 = 65_536;

/// The tree, and its one client.
#[derive(Debug)]
pub struct Memory {
    client: Client,
    nodes: HashMap<u32, Header>,
    names: HashMap<u32, BTreeMap<Name, u32>>,
    blocks: HashMap<u32, BTreeMap<u64, Vec<u8>>>,
    /// Where each node got its last name.
    paths: Paths,
}

/// All leases are held: there is one client.
struct All;

impl Held for All {
    fn holds(&self, _number: u32) -> bool {
        true
    }
}

impl Memory {
    /// A new tree: the root alone, which each may change.
    pub fn new(client: Client) -> Memory {
        let root = Header { kind: Kind::Directory, mode: 0o777, uid: 0, gid: 0, links: 1, size: 0 };
        let nodes = HashMap::from([(ROOT, root)]);
        Memory { client, nodes, names: HashMap::new(), blocks: HashMap::new(), paths: Paths::default() }
    }

    /// How many nodes it has.
    pub fn node_count(&self) -> usize {
        self.nodes.len()
    }

    /// Judges a log, or tells the first entry that isn't allowed.
    fn judged(&mut self, log: &Log) -> Result<Result<Draft, Answer>, Unshown> {
        let mut draft = Draft::new(self.client.clone());
        // Only a Rename asks where directories stand.
        if log.entries().any(|entry| matches!(entry, Entry::Rename { .. })) {
            draft.set_paths(self.paths.clone());
        }
        for (index, entry) in log.entries().enumerate() {
            match draft.enter(self, &All, &entry) {
                Ok(()) => {}
                Err(Fault::Refused(reason)) => return Ok(Err(Answer::Entry(index, reason))),
                Err(Fault::Unshown(fault)) => return Err(fault),
                Err(_) => return Ok(Err(Answer::Wrong(Wrong::Log))),
            }
        }
        Ok(Ok(draft))
    }

    /// Makes the change that a plan says.
    fn land(&mut self, plan: &Plan, log: &Log) {
        for row in &plan.names {
            let names = self.names.entry(row.directory).or_default();
            match row.number {
                Some(number) => {
                    names.insert(row.name.clone(), number);
                    self.paths.see(row.directory, &row.name, number);
                }
                None => {
                    names.remove(&row.name);
                }
            }
        }
        for row in &plan.nodes {
            match row.now {
                Some(header) => {
                    let before = self.nodes.insert(row.number, header).map_or(0, |before| before.size);
                    self.cut(row.number, header.size.min(before));
                }
                None => {
                    self.nodes.remove(&row.number);
                    self.names.remove(&row.number);
                    self.blocks.remove(&row.number);
                }
            }
        }
        plan.pieces.iter().for_each(|piece| self.put(piece, log));
    }

    /// All bytes from a place on are zero.
    fn cut(&mut self, number: u32, size: u64) {
        if let Some(blocks) = self.blocks.get_mut(&number) {
            drop(blocks.split_off(&((size + BLOCK - 1) / BLOCK)));
            if let Some(block) = blocks.get_mut(&(size / BLOCK)) {
                block[(size % BLOCK) as usize..].fill(0);
            }
        }
    }

    fn put(&mut self, piece: &Piece, log: &Log) {
        let blocks = self.blocks.entry(piece.number).or_default();
        let (mut at, end) = (piece.start, piece.start + piece.length);
        while at < end {
            let (index, from) = (at / BLOCK, (at % BLOCK) as usize);
            let count = (end - at).min(BLOCK - at % BLOCK) as usize;
            match piece.origin {
                Origin::Zero => {
                    if let Some(block) = blocks.get_mut(&index) {
                        block[from..from + count].fill(0);
                    }
                }
                Origin::Payload { entry, place } => {
                    let block = blocks.entry(index).or_insert_with(|| vec![0; BLOCK as usize]);
                    let place = place + (at - piece.start) as u32;
                    block[from..from + count].copy_from_slice(log.payload(entry, place, count));
                }
            }
            at += count as u64;
        }
    }
}

impl Shown for Memory {
    fn header(&mut self, number: u32) -> Result<Option<Header>, Unshown> {
        Ok(self.nodes.get(&number).copied())
    }

    fn find(&mut self, directory: u32, name: &Name) -> Result<Option<u32>, Unshown> {
        Ok(self.names.get(&directory).and_then(|names| names.get(name)).copied())
    }

    fn list(&mut self, directory: u32, behind: Option<&Name>, most: usize) -> Result<Vec<(Name, u32)>, Unshown> {
        let from = behind.map_or(Bound::Unbounded, Bound::Excluded);
        let names = self.names.get(&directory).into_iter();
        let names = names.flat_map(|names| names.range::<Name, _>((from, Bound::Unbounded)));
        Ok(names.take(most).map(|(name, number)| (name.clone(), *number)).collect())
    }

    fn read(&mut self, number: u32, start: u64, most: usize) -> Result<Vec<u8>, Unshown> {
        let size = self.nodes.get(&number).map_or(0, |header| header.size);
        let end = size.min(start.saturating_add(most as u64));
        let (mut at, mut bytes) = (start, Vec::new());
        while at < end {
            let (index, from) = (at / BLOCK, (at % BLOCK) as usize);
            let count = (end - at).min(BLOCK - at % BLOCK) as usize;
            match self.blocks.get(&number).and_then(|blocks| blocks.get(&index)) {
                Some(block) => bytes.extend_from_slice(&block[from..from + count]),
                None => bytes.resize(bytes.len() + count, 0),
            }
            at += count as u64;
        }
        Ok(bytes)
    }
}

impl Desk for Memory {
    fn lease(&mut self, wanted: &Wanted) -> Result<Result<(), LeaseRefusal>, Unanswered> {
        Ok(if self.nodes.contains_key(&wanted.number) { Ok(()) } else { Err(LeaseRefusal::NoSuchNode) })
    }

    fn drop_lease(&mut self, _number: u32) -> Result<Result<(), LeaseRefusal>, Unanswered> {
        Ok(Ok(()))
    }

    fn submit(&mut self, log: &[u8], plan: &[u8]) -> Result<Answer, Unanswered> {
        let log = match Log::read(log) {
            Some((client, log)) if client == self.client.number => log,
            Some(_) => return Ok(Answer::Wrong(Wrong::Client)),
            None => return Ok(Answer::Wrong(Wrong::Log)),
        };
        let due = match self.judged(&log)? {
            Ok(draft) => draft.plan(),
            Err(answer) => return Ok(answer),
        };
        if due.to_bytes() != plan {
            return Ok(Answer::Row(RowPart::Names, 0));
        }
        self.land(&due, &log);
        Ok(Answer::Yes)
    }

    fn moment(&mut self) -> Result<u64, Unanswered> {
        Ok(0)
    }

    fn wanted_by_others(&mut self) -> Result<Vec<Wish>, Unanswered> {
        Ok(Vec::new())
    }
}

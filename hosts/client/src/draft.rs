//! A client's log, and what it has changed so far, laid over what a server shows: so one reads one's own writes.

use crate::bytes::{FileBytes, Origin, Part};
use crate::change::Change;
use crate::client::Client;
use crate::desk::Blocks;
use crate::entry::{Entry, Kind, GREATEST_MODE, PAYLOAD_LIMIT};
use crate::fault::Fault;
use crate::judge::{Effect, Found, Held, Judge};
use crate::leases::Leases;
use crate::log::Log;
use crate::name::Name;
use crate::node::Header;
use crate::paths::Paths;
use crate::plan::{NameRow, NodeRow, Piece, Plan};
use crate::shown::{Shown, Unshown};
use std::collections::{BTreeMap, BTreeSet, HashMap};
use std::ops::Bound;

/// How many names are asked for at a time.
const PAGE: usize = 4096;
/// Of how many numbers at a time it is asked whether they are free, and with how many left those of the next ones are asked for.
const AHEAD: usize = 24;
const LEFT: usize = 12;

/// A log that is under way, with its changes.
#[derive(Clone, Debug)]
pub struct Draft {
    client: Client,
    log: Log,
    nodes: BTreeMap<u32, Change<Option<Header>>>,
    names: BTreeMap<u32, BTreeMap<Name, Change<Option<u32>>>>,
    files: BTreeMap<u32, FileBytes>,
    created: BTreeSet<u32>,
    /// The nodes whose names were moved.
    moved: BTreeSet<u32>,
    paths: Paths,
    /// The number that is tried first for the next new node.
    next: u32,
    /// Numbers that were found to be free. Nobody else gives them to a node.
    free: BTreeSet<u32>,
    /// When the nodes were made that the log changes, as far as that is known, and since when there was a lease.
    meant: BTreeMap<u32, (u64, u64)>,
    /// The file of the last entry and the place behind its payload, where that is a Write.
    last_write: Option<(u32, u64)>,
}

impl Draft {
    /// An empty log of a client.
    pub fn new(client: Client) -> Draft {
        let (log, next) = (Log::new(client.number), client.grant[0]);
        Draft {
            client,
            log,
            nodes: BTreeMap::new(),
            names: BTreeMap::new(),
            files: BTreeMap::new(),
            created: BTreeSet::new(),
            moved: BTreeSet::new(),
            paths: Paths::default(),
            next,
            free: BTreeSet::new(),
            meant: BTreeMap::new(),
            last_write: None,
        }
    }

    /// This log was done: begins the next one. Numbers go on behind those given so far.
    pub fn clear(&mut self) {
        self.paths.land();
        self.begin_anew();
    }

    /// Begins another log in place of this one, which wasn't done.
    pub(crate) fn begin_anew(&mut self) {
        self.paths.forget_log();
        let client = self.client.clone();
        let (paths, free, next) = (std::mem::take(&mut self.paths), std::mem::take(&mut self.free), self.next);
        *self = Draft { paths, free, next, ..Draft::new(client) };
    }

    /// Whose log it is.
    pub fn client(&self) -> &Client {
        &self.client
    }

    /// The log so far.
    pub fn log(&self) -> &Log {
        &self.log
    }

    /// Where nodes were last seen.
    pub fn paths(&self) -> &Paths {
        &self.paths
    }

    /// Where nodes stand is known by these from now on.
    pub(crate) fn set_paths(&mut self, paths: Paths) {
        self.paths = paths;
    }

    /// Whether this log has created the node.
    pub fn has_created(&self, number: u32) -> bool {
        self.created.contains(&number)
    }

    /// The nodes that this log has changed: their header, bytes, or a name in them.
    pub fn changed(&self) -> BTreeSet<u32> {
        self.nodes.keys().chain(self.files.keys()).chain(self.names.keys()).copied().collect()
    }

    /// The nodes on which this log needs leases.
    pub(crate) fn needed(&self) -> BTreeSet<u32> {
        let all = self.changed().into_iter().chain(self.moved.iter().copied());
        all.filter(|number| !self.has_created(*number)).collect()
    }

    /// Of these nodes, each with when it was made, those that the log changes are meant by their numbers.
    pub(crate) fn mean(&mut self, some: &HashMap<u32, u64>, leases: &Leases) {
        for (number, born) in some {
            if let Some(since) = leases.since(*number).filter(|_| self.needs(*number)) {
                self.meant.insert(*number, (*born, since));
            }
        }
    }

    /// The nodes that are meant by their numbers.
    pub(crate) fn meant(&self) -> HashMap<u32, u64> {
        self.meant_by(|_, _| true).into_iter().collect()
    }

    /// Those of them of whose numbers and leases this holds, with when they were made.
    pub(crate) fn meant_by(&self, is_one: impl Fn(u32, u64) -> bool) -> Vec<(u32, u64)> {
        let some = self.meant.iter().filter(|(number, (_, since))| is_one(**number, *since));
        some.map(|(number, (born, _))| (*number, *born)).collect()
    }

    /// Whether this log needs a lease on a node.
    pub(crate) fn needs(&self, number: u32) -> bool {
        let is_changed = self.nodes.contains_key(&number) || self.files.contains_key(&number);
        let is_leant_on = is_changed || self.names.contains_key(&number) || self.moved.contains(&number);
        is_leant_on && !self.has_created(number)
    }

    /// What this log has made of a node's header, where it has changed it; none where the node has gone with it.
    pub(crate) fn header_made(&self, number: u32) -> Option<Option<Header>> {
        self.nodes.get(&number).map(|change| change.now)
    }

    /// Whether this log has made the node, or changed its header or bytes.
    pub fn has_changed(&self, number: u32) -> bool {
        self.nodes.contains_key(&number)
    }

    /// Where the names of a directory lead that this log has changed.
    pub(crate) fn names_made(&self, directory: u32) -> impl Iterator<Item = (&Name, Option<u32>)> {
        let names = self.names.get(&directory).into_iter().flatten();
        names.map(|(name, change)| (name, change.now))
    }

    /// Whether this log has changed bytes of a file.
    pub(crate) fn has_bytes(&self, number: u32) -> bool {
        self.files.contains_key(&number)
    }

    /// The nodes that were there before this log, and have gone with it.
    pub(crate) fn gone(&self) -> Vec<u32> {
        let gone = self.nodes.iter().filter(|(_, change)| change.before.is_some() && change.now.is_none());
        gone.map(|(number, _)| *number).collect()
    }

    // ---- What shows now

    /// The header of a node.
    pub fn header(&self, shown: &mut dyn Shown, number: u32) -> Result<Option<Header>, Unshown> {
        match self.nodes.get(&number) {
            Some(change) => Ok(change.now),
            None => shown.header(number),
        }
    }

    /// Where a name leads.
    pub fn find(&mut self, shown: &mut dyn Shown, directory: u32, name: &Name) -> Result<Option<u32>, Unshown> {
        if let Some(change) = self.names.get(&directory).and_then(|names| names.get(name)) {
            change.now.into_iter().for_each(|number| self.paths.name(directory, name, number));
            return Ok(change.now);
        }
        if self.has_created(directory) {
            return Ok(None);
        }
        let found = shown.find(directory, name)?;
        found.into_iter().for_each(|number| self.paths.see(directory, name, number));
        Ok(found)
    }

    /// The first names of a directory behind this one, at most so many; fewer only where no more follow.
    pub fn list(
        &mut self,
        shown: &mut dyn Shown,
        directory: u32,
        behind: Option<&Name>,
        most: usize,
    ) -> Result<Vec<(Name, u32)>, Unshown> {
        let mut found: Vec<(Name, u32)> = Vec::new();
        let mut behind = behind.cloned();
        while found.len() < most {
            let page = match self.has_created(directory) {
                true => Vec::new(),
                false => shown.list(directory, behind.as_ref(), PAGE)?,
            };
            let is_last = page.len() < PAGE;
            let last = page.last().map(|(name, _)| name.clone());
            found.extend(self.laid_over(directory, behind.as_ref(), page, is_last));
            if is_last {
                break;
            }
            behind = last;
        }
        found.truncate(most);
        let changed = self.names.get(&directory);
        for (name, number) in &found {
            match changed.map_or(false, |names| names.contains_key(name)) {
                true => self.paths.name(directory, name, *number),
                false => self.paths.see(directory, name, *number),
            }
        }
        Ok(found)
    }

    /// A page of names with this log's changes of them. The last page has all new names that follow.
    fn laid_over(&self, directory: u32, behind: Option<&Name>, page: Vec<(Name, u32)>, is_last: bool) -> Vec<(Name, u32)> {
        let changes = match self.names.get(&directory) {
            Some(changes) => changes,
            None => return page,
        };
        let from = behind.map_or(Bound::Unbounded, Bound::Excluded);
        let last = page.last().map(|(name, _)| name.clone()).filter(|_| !is_last);
        let until = last.as_ref().map_or(Bound::Unbounded, Bound::Included);
        let mut names: BTreeMap<Name, u32> = page.into_iter().collect();
        for (name, change) in changes.range::<Name, _>((from, until)) {
            match change.now {
                Some(number) => names.insert(name.clone(), number),
                None => names.remove(name),
            };
        }
        names.into_iter().collect()
    }

    /// The bytes of a file from a place on, at most so many; fewer only where the file ends.
    pub fn read(&self, shown: &mut dyn Shown, number: u32, start: u64, most: usize) -> Result<Vec<u8>, Unshown> {
        let file = match self.files.get(&number) {
            Some(file) => file,
            None if self.has_created(number) => return Ok(Vec::new()),
            None => return shown.read(number, start, most),
        };
        let mut bytes = Vec::new();
        for part in file.parts(start..start.saturating_add(most as u64)) {
            // A part is no longer than what was asked for.
            let length = (part.end - part.start) as usize;
            match part.origin {
                Some(Origin::Zero) => bytes.resize(bytes.len() + length, 0),
                Some(Origin::Payload { entry, place }) => {
                    bytes.extend_from_slice(self.log.payload(entry, place, length));
                }
                None => bytes.extend(old_bytes(shown, number, part)?),
            }
        }
        Ok(bytes)
    }

    // ---- New entries

    /// The next number of the grant that no node has, or had before the log. They are given in order, and then from the front
    /// again.
    pub fn free_number(&mut self, shown: &mut dyn Shown) -> Result<u32, Fault> {
        let [first, last] = self.client.grant;
        let from = self.next.clamp(first, last.max(first));
        let mut numbers = (from..=last).chain(first..from).peekable();
        while let Some(number) = numbers.peek().copied() {
            let some: Vec<u32> = numbers.by_ref().take(if self.is_known(number) { 1 } else { AHEAD }).collect();
            self.look_for_free(shown, &some)?;
            if let Some(number) = some.into_iter().find(|number| self.free.contains(number)) {
                self.next = number;
                return Ok(number);
            }
        }
        Err(Fault::NoNumber)
    }

    /// The numbers of which it will be asked next, where few are left that are free.
    pub(crate) fn next_numbers(&self) -> Vec<u32> {
        if self.free.len() > LEFT {
            return Vec::new();
        }
        let [first, last] = self.client.grant;
        (self.next.max(first)..=last).filter(|number| !self.is_known(*number)).take(AHEAD).collect()
    }

    /// Whether nobody needs to be asked whether a number is free.
    fn is_known(&self, number: u32) -> bool {
        self.free.contains(&number) || self.has_created(number) || self.nodes.contains_key(&number)
    }

    /// Asks of numbers whether they are free, where that isn't known.
    fn look_for_free(&mut self, shown: &mut dyn Shown, numbers: &[u32]) -> Result<(), Unshown> {
        let unknown: Vec<u32> = numbers.iter().copied().filter(|number| !self.is_known(*number)).collect();
        if unknown.is_empty() {
            return Ok(());
        }
        let headers = shown.headers(&unknown)?;
        self.free.extend(unknown.into_iter().zip(headers).filter(|(_, header)| header.is_none()).map(|(number, _)| number));
        Ok(())
    }

    /// Whether no node has this number, or had it before the log.
    pub(crate) fn is_free(&self, shown: &mut dyn Shown, number: u32) -> Result<bool, Unshown> {
        if self.has_created(number) || self.free.contains(&number) {
            return Ok(!self.has_created(number));
        }
        let before = match self.nodes.get(&number) {
            Some(change) => change.before,
            None => shown.header(number)?,
        };
        Ok(before.is_none())
    }

    /// Takes an entry into the log, where the rules allow it and there is room; else the log stays as it was.
    pub fn enter(&mut self, shown: &mut dyn Shown, held: &dyn Held, entry: &Entry) -> Result<(), Fault> {
        let is_spelled = match entry {
            Entry::Write { payload, .. } => payload.len() <= PAYLOAD_LIMIT,
            Entry::Create { mode, .. } | Entry::Chmod { mode, .. } => *mode <= GREATEST_MODE,
            _ => true,
        };
        if !is_spelled {
            return Err(Fault::Unspelled);
        }
        self.log.room_for(entry.length())?;
        let effect = Judge { draft: self, shown, held }.judge(entry)?;
        // A log has at most 4,096 entries.
        let index = self.log.len() as u16;
        self.log.push(entry)?;
        self.make(index, entry, effect);
        self.last_write = match entry {
            Entry::Write { number, offset, payload } => Some((*number, offset + payload.len() as u64)),
            _ => None,
        };
        Ok(())
    }

    /// Puts bytes behind those of the last entry, where that is a Write whose payload ends there and may grow. Returns how many
    /// were put. No check is needed: none has changed since that entry.
    pub fn write_on(&mut self, held: &dyn Held, number: u32, offset: u64, payload: &[u8]) -> usize {
        let is_held = self.has_created(number) || held.holds(number);
        let count = payload.len().min(self.log.room_in_last());
        let end = offset.saturating_add(count as u64);
        if self.last_write != Some((number, offset)) || !is_held || count == 0 || end > crate::node::SIZE_LIMIT {
            return 0;
        }
        let (place, index) = (self.log.last_payload().unwrap_or(0), self.log.len() - 1);
        self.log.extend_last(&payload[..count]);
        if let Some(file) = self.files.get_mut(&number) {
            file.write(offset, count, index as u16, place as u32);
        }
        if let Some(Change { now: Some(now), .. }) = self.nodes.get_mut(&number) {
            now.size = now.size.max(end);
        }
        self.last_write = Some((number, end));
        count
    }

    // ---- The changes

    /// Makes the change of an entry that the judge has let pass. It answers no effects but these.
    fn make(&mut self, index: u16, entry: &Entry, effect: Effect) {
        match effect {
            Effect::Nothing => {}
            Effect::Created => self.create(entry),
            Effect::Of(header) => self.change(index, entry, header),
            Effect::Gone(found) => {
                if let Entry::Unlink { directory, name, .. } = entry {
                    self.set_name(*directory, name, Some(found.number), None);
                    self.lose_name(found);
                }
            }
            Effect::Moved(moved, there) => {
                if let Entry::Rename { directory, name, new_directory, new_name } = entry {
                    self.moved.insert(moved.number);
                    self.set_name(*directory, name, Some(moved.number), None);
                    let replaced = there.map(|found| found.number);
                    self.set_name(*new_directory, new_name, replaced, Some(moved.number));
                    there.into_iter().for_each(|found| self.lose_name(found));
                }
            }
        }
    }

    fn create(&mut self, entry: &Entry) {
        if let Entry::Create { directory, name, number, kind, mode } = entry {
            let (uid, gid) = (self.client.uid, self.client.gid);
            let header = Header { kind: *kind, mode: *mode, uid, gid, links: 1, size: 0 };
            self.nodes.insert(*number, Change { before: None, now: Some(header) });
            self.created.insert(*number);
            self.free.remove(number);
            self.next = number.saturating_add(1);
            self.set_name(*directory, name, None, Some(*number));
        }
    }

    /// Changes a node that had this header before the entry.
    fn change(&mut self, index: u16, entry: &Entry, header: Header) {
        match entry {
            Entry::Write { number, offset, payload } => {
                self.file(*number, &header).write(*offset, payload.len(), index, 0);
                self.set_size(*number, header);
            }
            Entry::Truncate { number, size } => {
                self.file(*number, &header).resize(*size);
                self.set_size(*number, header);
            }
            Entry::Link { number, directory, name } => {
                self.set_header(*number, header, Some(Header { links: header.links + 1, ..header }));
                self.set_name(*directory, name, None, Some(*number));
            }
            Entry::Chmod { number, mode } => self.set_header(*number, header, Some(Header { mode: *mode, ..header })),
            Entry::Regroup { number, group } => self.set_header(*number, header, Some(Header { gid: *group, ..header })),
            Entry::Create { .. } | Entry::Unlink { .. } | Entry::Rename { .. } => {}
        }
    }

    fn file(&mut self, number: u32, header: &Header) -> &mut FileBytes {
        self.files.entry(number).or_insert_with(|| FileBytes::new(header.size))
    }

    /// The node, which had this header, has another one now.
    fn set_header(&mut self, number: u32, old: Header, now: Option<Header>) {
        self.nodes.entry(number).or_insert(Change { before: Some(old), now }).now = now;
    }

    fn set_size(&mut self, number: u32, header: Header) {
        let size = self.file(number, &header).size();
        self.set_header(number, header, Some(Header { size, ..header }));
    }

    /// The name, which led to one node, leads to another now.
    fn set_name(&mut self, directory: u32, name: &Name, old: Option<u32>, now: Option<u32>) {
        let names = self.names.entry(directory).or_default();
        names.entry(name.clone()).or_insert(Change { before: old, now }).now = now;
        old.into_iter().for_each(|number| self.paths.lose(directory, name, number));
        now.into_iter().for_each(|number| self.paths.name(directory, name, number));
    }

    /// The node has a name less. It goes with its last one.
    fn lose_name(&mut self, found: Found) {
        let header = found.header;
        let is_last = header.kind == Kind::Directory || header.links <= 1;
        let now = if is_last { None } else { Some(Header { links: header.links - 1, ..header }) };
        self.set_header(found.number, header, now);
        if is_last {
            self.files.remove(&found.number);
        }
    }

    // ---- Room

    /// How many blocks the log writes.
    pub(crate) fn blocks(&self) -> u64 {
        self.files.values().map(|file| file.written_blocks(Blocks::LENGTH)).sum()
    }

    /// How many it writes at most, by its length alone.
    pub(crate) fn most_blocks(&self) -> u64 {
        self.log.as_bytes().len() as u64 / Blocks::LENGTH + 2 * self.log.len() as u64
    }

    /// Whether an entry that takes a name of this node away, or cuts it, may be done before the log: that has changed nothing of what
    /// the entry is about.
    pub(crate) fn is_apart(&self, entry: &Entry, number: u32) -> bool {
        let is_as_before = |number: &u32| !self.nodes.contains_key(number) && !self.moved.contains(number);
        let is_other = is_as_before(&number) && !self.names.contains_key(&number);
        match entry {
            Entry::Truncate { .. } => is_other,
            Entry::Unlink { directory, name, .. } => {
                let is_named = self.names.get(directory).map_or(false, |names| names.contains_key(name));
                is_other && !is_named && is_as_before(directory)
            }
            _ => false,
        }
    }

    /// An empty log of the same client, which is handed in before this one.
    pub(crate) fn lend(&mut self) -> Draft {
        Draft { paths: self.paths.lend(), ..Draft::new(self.client.clone()) }
    }

    /// That log was handed in, or refused.
    pub(crate) fn take_back(&mut self, lent: Draft) {
        self.paths.take_back(lent.paths);
    }

    // ---- Whether it was done

    /// Whether a server shows what a change of the log has made, or what stood there before. None where it shows neither, or
    /// where no name and no header changes.
    pub(crate) fn is_done(&self, shown: &mut dyn Shown) -> Result<Option<bool>, Unshown> {
        let name = self.names.iter().find_map(|(directory, names)| {
            let (name, change) = names.iter().find(|(_, change)| change.is_one())?;
            Some((*directory, name, change))
        });
        if let Some((directory, name, change)) = name {
            return Ok(change.side_of(&shown.find(directory, name)?));
        }
        match self.nodes.iter().find(|(_, change)| change.is_one()) {
            Some((number, change)) => Ok(change.side_of(&shown.header(*number)?)),
            None => Ok(None),
        }
    }

    // ---- The plan

    /// The plan of the log, made of its changes in one pass.
    pub fn plan(&self) -> Plan {
        let mut plan = Plan::default();
        for (directory, names) in &self.names {
            let changed = names.iter().filter(|(_, change)| change.is_one());
            plan.names.extend(changed.map(|(name, change)| NameRow {
                directory: *directory,
                name: name.clone(),
                number: change.now,
            }));
        }
        let changed = self.nodes.iter().filter(|(_, change)| change.is_one());
        plan.nodes.extend(changed.map(|(number, change)| NodeRow { number: *number, now: change.now }));
        for (number, file) in &self.files {
            plan.pieces.extend(file.made().map(|(range, origin)| Piece {
                number: *number,
                start: range.start,
                length: range.end - range.start,
                origin,
            }));
        }
        plan
    }
}

/// The bytes from before the log that a part stands for.
fn old_bytes(shown: &mut dyn Shown, number: u32, part: Part) -> Result<Vec<u8>, Unshown> {
    let length = (part.end - part.start) as usize;
    let bytes = shown.read(number, part.start, length)?;
    if bytes.len() != length {
        return Err(Unshown::Nonsense(format!("{} bytes of {length} of file {number}", bytes.len())));
    }
    Ok(bytes)
}

//! What a server has shown of nodes on which a lease is held: nobody else changes these, so it is shown still. And what was asked
//! for ahead.

use crate::draft::Draft;
use crate::leases::Leases;
use crate::name::Name;
use crate::names::Names;
use crate::node::Header;
use crate::shown::{Ahead, FoundAhead, Shown, Stamp, Unshown};
use std::collections::{BTreeMap, HashMap};
use std::time::{Duration, Instant};

/// Bytes are asked for and kept in blocks of so many.
const BLOCK: u64 = 65_536;
/// The most blocks that are kept. Where there would be more, those that were there go.
const BLOCKS: usize = 256;
/// How many blocks behind one are asked for ahead, where one is read behind another.
const RUN: u64 = 8;
/// How many names are listed at once, where the server has to be asked for names one after another.
const LISTED: usize = 4096;
/// How many bytes are asked for ahead of a file that was opened.
pub(crate) const OPENED: u32 = 65_536;
/// Of how many such files bytes are kept at most, and how many headers without a lease. Where there would be more, all go.
const OPENED_FILES: usize = 64;
const FRESH: usize = 4096;

/// What was shown.
#[derive(Debug, Default)]
pub struct Cache {
    headers: HashMap<u32, Option<Header>>,
    names: HashMap<u32, Names>,
    blocks: HashMap<u32, BTreeMap<u64, Vec<u8>>>,
    block_count: usize,
    /// Headers that were shown without a lease, where calls that belong together ask for them once.
    together: Option<HashMap<u32, Option<Header>>>,
    /// For how long what was asked for without a lease is believed.
    age: Duration,
    /// Such headers, and when they were asked for.
    fresh: HashMap<u32, (Instant, Option<Header>)>,
    /// The first bytes of files that were opened, and when they were asked for.
    opened: HashMap<u32, (Instant, Vec<u8>)>,
    /// What was asked for ahead and hasn't come, by its number.
    under_way: BTreeMap<u64, UnderWay>,
    serial: u64,
}

/// A look-up that was asked for ahead.
#[derive(Clone, Copy, Debug)]
struct UnderWay {
    ahead: Ahead,
    asked: Instant,
    /// Under which lease. What comes under another one, or under none, isn't believed.
    since: Option<u64>,
}

impl Cache {
    /// What was shown of a node may be otherwise by now.
    pub fn forget(&mut self, number: u32) {
        self.look_anew(number);
        self.headers.remove(&number);
        self.names.remove(&number);
        self.under_way.retain(|_, under_way| under_way.ahead.number() != number);
        self.forget_bytes(number);
    }

    fn forget_bytes(&mut self, number: u32) {
        let blocks = self.blocks.remove(&number);
        self.block_count -= blocks.map_or(0, |blocks| blocks.len());
    }

    /// All may be otherwise by now.
    pub fn clear(&mut self) {
        let together = self.together.take().map(|_| HashMap::new());
        *self = Cache { together, age: self.age, serial: self.serial, ..Cache::default() };
    }

    /// Calls that belong together begin.
    pub fn begin_together(&mut self) {
        self.together.get_or_insert_with(HashMap::new).clear();
    }

    /// For how long what was asked for without a lease is believed.
    pub(crate) fn set_age(&mut self, age: Duration) {
        self.age = age;
    }

    /// What calls that belong together were shown without a lease is asked for again, and so is what was shown of this node.
    pub fn look_anew(&mut self, number: u32) {
        self.together.iter_mut().for_each(HashMap::clear);
        self.fresh.remove(&number);
        self.opened.remove(&number);
        self.under_way.retain(|_, under_way| under_way.since.is_some() || under_way.ahead.number() != number);
    }

    /// All that was shown without a lease is asked for again.
    pub fn look_all_anew(&mut self) {
        self.together.iter_mut().for_each(HashMap::clear);
        self.fresh.clear();
        self.opened.clear();
        self.under_way.retain(|_, under_way| under_way.since.is_some());
    }

    /// What a log has changed was done, under leases. What it has made of names and headers is what the server shows by now, and
    /// stays where a lease does.
    pub fn land(&mut self, draft: &Draft, leases: &Leases) {
        for number in draft.changed() {
            match draft.header_made(number) {
                _ if !leases.is_live(number) => self.forget(number),
                Some(None) => self.forget(number),
                header => self.land_on(draft, number, header.flatten()),
            }
        }
    }

    /// The same of one node on which there is a lease.
    fn land_on(&mut self, draft: &Draft, number: u32, header: Option<Header>) {
        self.look_anew(number);
        self.under_way.retain(|_, under_way| under_way.ahead.number() != number);
        if draft.has_bytes(number) {
            self.forget_bytes(number);
        }
        if header.is_some() {
            self.headers.insert(number, header);
        }
        if let Some(names) = self.names.get_mut(&number) {
            draft.names_made(number).for_each(|(name, found)| names.put(name, found));
        }
    }

    /// The header of a node as it was told last, however old: a guess.
    pub(crate) fn last_header(&self, number: u32) -> Option<Header> {
        let told = self.fresh.get(&number).map(|(_, header)| *header);
        self.headers.get(&number).copied().or(told).flatten()
    }

    /// Whether a node's header needn't be asked for ahead: it is known for some time yet, or was asked for, or there was none.
    fn is_known(&self, number: u32) -> bool {
        let told = self.fresh.get(&number);
        let is_fresh = told.map_or(false, |(asked, header)| header.is_none() || asked.elapsed() < self.age / 2);
        is_fresh || self.under_way.values().any(|under_way| under_way.ahead == Ahead::Header(number))
    }

    /// The names that are known of a directory.
    pub(crate) fn names_of(&self, directory: u32) -> Option<&Names> {
        self.names.get(&directory)
    }

    /// Of these nodes those whose headers are to be asked for ahead.
    pub(crate) fn unknown(&self, numbers: impl Iterator<Item = u32>, leases: &Leases) -> Vec<Ahead> {
        let is_unknown = |number: &u32| !leases.is_live(*number) && !self.is_known(*number);
        numbers.filter(is_unknown).map(Ahead::Header).collect()
    }

    /// What was asked for when the file was opened before is too old for who opens it now.
    pub(crate) fn open(&mut self, number: u32) {
        self.opened.remove(&number);
        self.under_way.retain(|_, under_way| under_way.since.is_some() || !is_opening(under_way.ahead, number));
    }

    /// The number of a look-up that is under way.
    fn serial_of(&self, is_it: impl Fn(Ahead) -> bool) -> Option<u64> {
        // The last one: what was asked for before it may be older than what is wanted.
        self.under_way.iter().rev().find(|(_, under_way)| is_it(under_way.ahead)).map(|(serial, _)| *serial)
    }

    /// Keeps what was asked for ahead.
    fn keep(&mut self, under_way: UnderWay, found: FoundAhead, leases: &Leases) {
        let number = under_way.ahead.number();
        if under_way.since != leases.since(number) {
            return;
        }
        match (under_way.ahead, found, under_way.since) {
            (Ahead::Header(_), FoundAhead::Header(header), None) => self.keep_fresh(number, under_way.asked, header),
            (Ahead::Header(_), FoundAhead::Header(header), Some(_)) => {
                self.headers.insert(number, header);
            }
            (Ahead::Bytes { most, .. }, FoundAhead::Bytes(bytes), _) if bytes.len() > most as usize => {}
            (Ahead::Bytes { .. }, FoundAhead::Bytes(bytes), None) => {
                if self.opened.len() >= OPENED_FILES {
                    self.opened.clear();
                }
                self.opened.insert(number, (under_way.asked, bytes));
            }
            (Ahead::Bytes { start, .. }, FoundAhead::Bytes(bytes), Some(_)) => self.keep_block(number, start / BLOCK, bytes),
            _ => {}
        }
    }

    /// Keeps a header that was asked for without a lease.
    fn keep_fresh(&mut self, number: u32, asked: Instant, header: Option<Header>) {
        if self.fresh.len() >= FRESH {
            self.fresh.clear();
        }
        if !self.age.is_zero() {
            self.fresh.insert(number, (asked, header));
        }
    }

    /// A header that was told without a lease, and is no older than it may be.
    fn fresh(&self, number: u32) -> Option<Option<Header>> {
        self.fresh.get(&number).filter(|(asked, _)| asked.elapsed() < self.age).map(|(_, header)| *header)
    }

    /// Keeps a block of a file. The last one of a file may be short, or empty.
    fn keep_block(&mut self, number: u32, index: u64, bytes: Vec<u8>) {
        if self.block_count >= BLOCKS {
            self.blocks.clear();
            self.block_count = 0;
        }
        if self.blocks.entry(number).or_default().insert(index, bytes).is_none() {
            self.block_count += 1;
        }
    }

    fn has_block(&self, number: u32, index: u64) -> bool {
        self.blocks.get(&number).map_or(false, |blocks| blocks.contains_key(&index))
    }

    fn block(&self, number: u32, index: u64) -> &[u8] {
        self.blocks.get(&number).and_then(|blocks| blocks.get(&index)).map_or(&[], Vec::as_slice)
    }

    /// Whether a file is known to end before this block.
    fn ends_before(&self, number: u32, index: u64) -> bool {
        let header = self.headers.get(&number).copied().flatten();
        let before = self.blocks.get(&number).and_then(|blocks| blocks.range(..index).next_back());
        let is_short = before.map_or(false, |(_, bytes)| bytes.len() < BLOCK as usize);
        is_short || header.map_or(false, |header| header.size <= index * BLOCK)
    }
}

/// Whether these are the bytes that were asked for when a file was opened.
fn is_opening(ahead: Ahead, file: u32) -> bool {
    matches!(ahead, Ahead::Bytes { number, start: 0, .. } if number == file)
}

/// The look-up of a block.
fn block_ahead(number: u32, index: u64) -> Ahead {
    Ahead::Bytes { number, start: index * BLOCK, most: BLOCK as u32 }
}

/// A server behind a cache.
pub struct Cached<'a> {
    /// The server.
    pub shown: &'a mut dyn Shown,
    /// What it has shown.
    pub cache: &'a mut Cache,
    /// What may be kept.
    pub leases: &'a Leases,
}

impl Cached<'_> {
    /// Asks for look-ups ahead. Returns whether they are under way, the first one at least.
    pub(crate) fn ask_for(&mut self, some: &[Ahead]) -> bool {
        let first = self.cache.serial + 1;
        let asked = Instant::now();
        let numbered: Vec<(u64, Ahead)> = (first..).zip(some.iter().copied()).collect();
        let count = if some.is_empty() { 0 } else { self.shown.ask_ahead(&numbered) };
        self.cache.serial += some.len() as u64;
        for (serial, ahead) in numbered.into_iter().take(count) {
            let since = self.leases.since(ahead.number());
            self.cache.under_way.insert(serial, UnderWay { ahead, asked, since });
        }
        count > 0
    }

    /// Takes over what was asked for ahead and has come. One of them is waited for, if it is named.
    pub(crate) fn take_told(&mut self, wait_for: Option<u64>) {
        for (serial, found) in self.shown.told_ahead(wait_for) {
            if let Some(under_way) = self.cache.under_way.remove(&serial) {
                self.cache.keep(under_way, found, self.leases);
            }
        }
    }

    /// Waits for a look-up, where it is under way.
    fn await_told(&mut self, is_it: impl Fn(Ahead) -> bool) {
        if let Some(serial) = self.cache.serial_of(is_it) {
            self.take_told(Some(serial));
        }
    }

    /// A header that was told lately without a lease. One that was asked for ahead is waited for.
    fn fresh_header(&mut self, number: u32) -> Option<Option<Header>> {
        if self.cache.age.is_zero() {
            return None;
        }
        if self.cache.fresh(number).is_none() {
            self.await_told(|ahead| ahead == Ahead::Header(number));
        }
        self.cache.fresh(number)
    }

    /// Has a block kept of a file on which there is a lease.
    fn keep_one(&mut self, number: u32, index: u64) -> Result<(), Unshown> {
        if !self.cache.has_block(number, index) {
            self.await_told(|ahead| ahead == block_ahead(number, index));
        }
        // Also where it came, and went since there were too many.
        if !self.cache.has_block(number, index) {
            let bytes = self.shown.read(number, index * BLOCK, BLOCK as usize)?;
            self.cache.keep_block(number, index, bytes);
        }
        Ok(())
    }

    /// Asks for the blocks of a read that are lacking, at once. Where one is read behind another, those behind them are asked for,
    /// too, some at a time.
    fn run_on(&mut self, number: u32, first: u64, last: u64) {
        let is_behind = first > 0 && self.cache.has_block(number, first - 1);
        let until = if is_behind { last + RUN } else { last };
        let is_there = |at: &u64| {
            let ahead = block_ahead(number, *at);
            self.cache.has_block(number, *at) || self.cache.under_way.values().any(|under_way| under_way.ahead == ahead)
        };
        let wanted = (first..=until).take_while(|at| !self.cache.ends_before(number, *at));
        let lacking: Vec<u64> = wanted.filter(|at| !is_there(at)).collect();
        let is_now = lacking.first().map_or(false, |at| *at <= last);
        let is_one = lacking.len() == 1;
        if (is_now && !is_one) || lacking.len() as u64 >= RUN / 2 {
            let some: Vec<Ahead> = lacking.into_iter().map(|at| block_ahead(number, at)).collect();
            self.ask_for(&some);
        }
    }

    /// Bytes of a file without a lease, where they were asked for when it was opened.
    fn opened(&mut self, number: u32, start: u64, most: usize) -> Option<Vec<u8>> {
        self.await_told(|ahead| is_opening(ahead, number));
        // The stamp behind them tells whose they are.
        self.await_told(|ahead| ahead == Ahead::Header(number));
        let (asked, bytes) = self.cache.opened.get(&number)?;
        let is_whole = bytes.len() < OPENED as usize;
        let from = usize::try_from(start).ok()?.min(bytes.len());
        let until = from.saturating_add(most);
        if asked.elapsed() >= self.cache.age || (until > bytes.len() && !is_whole) {
            self.cache.opened.remove(&number);
            return None;
        }
        Some(bytes[from..until.min(bytes.len())].to_vec())
    }
}

impl Shown for Cached<'_> {
    fn header(&mut self, number: u32) -> Result<Option<Header>, Unshown> {
        let may_keep = self.leases.reads(number);
        if let Some(header) = self.cache.headers.get(&number).filter(|_| may_keep) {
            return Ok(*header);
        }
        if let Some(header) = self.cache.together.as_ref().and_then(|headers| headers.get(&number)) {
            return Ok(*header);
        }
        if may_keep {
            let header = self.shown.header(number)?;
            self.cache.headers.insert(number, header);
            return Ok(header);
        }
        let header = match self.fresh_header(number) {
            Some(header) => header,
            None => {
                let asked = Instant::now();
                let header = self.shown.header(number)?;
                self.cache.keep_fresh(number, asked, header);
                header
            }
        };
        self.cache.together.iter_mut().for_each(|headers| {
            headers.insert(number, header);
        });
        Ok(header)
    }

    /// These are of new numbers of the client, on which there is no lease. Nobody else gives them to a node. So one that was free
    /// when it was asked for ahead is free still, unless a log of one's own has taken it since.
    fn headers(&mut self, numbers: &[u32]) -> Result<Vec<Option<Header>>, Unshown> {
        let last = numbers.iter().rev().find_map(|number| self.cache.serial_of(|ahead| ahead == Ahead::Header(*number)));
        if last.is_some() {
            self.take_told(last);
        }
        let is_free = |number: &u32| matches!(self.cache.fresh.get(number), Some((_, None)));
        let unknown: Vec<u32> = numbers.iter().copied().filter(|number| !is_free(number)).collect();
        if unknown.is_empty() {
            return Ok(vec![None; numbers.len()]);
        }
        let mut told = self.shown.headers(&unknown)?.into_iter();
        Ok(numbers.iter().map(|number| if unknown.contains(number) { told.next().flatten() } else { None }).collect())
    }

    fn find(&mut self, directory: u32, name: &Name) -> Result<Option<u32>, Unshown> {
        if !self.leases.reads(directory) {
            return self.shown.find(directory, name);
        }
        let names = self.cache.names.entry(directory).or_default();
        if let Some(found) = names.find(name) {
            return Ok(found);
        }
        if names.ask() {
            let end = names.end();
            match self.shown.list(directory, end.as_ref(), LISTED) {
                Ok(found) => names.put_list(end.as_ref(), &found, found.len() < LISTED),
                Err(Unshown::NotAllowed | Unshown::NoSuchLookUp) => names.hide(),
                Err(fault) => return Err(fault),
            }
            if let Some(found) = names.find(name) {
                return Ok(found);
            }
        }
        let found = self.shown.find(directory, name)?;
        names.put(name, found);
        Ok(found)
    }

    fn list(&mut self, directory: u32, behind: Option<&Name>, most: usize) -> Result<Vec<(Name, u32)>, Unshown> {
        if !self.leases.reads(directory) {
            return self.shown.list(directory, behind, most);
        }
        let names = self.cache.names.entry(directory).or_default();
        if let Some(found) = names.list(behind, most) {
            return Ok(found);
        }
        let found = self.shown.list(directory, behind, most)?;
        names.put_list(behind, &found, found.len() < most);
        Ok(found)
    }

    fn stamp(&self, number: u32) -> Option<Stamp> {
        self.shown.stamp(number)
    }

    fn read(&mut self, number: u32, start: u64, most: usize) -> Result<Vec<u8>, Unshown> {
        if !self.leases.reads(number) {
            return match self.opened(number, start, most) {
                Some(bytes) => Ok(bytes),
                None => self.shown.read(number, start, most),
            };
        }
        if most == 0 {
            return Ok(Vec::new());
        }
        let end = start.saturating_add(most as u64);
        self.run_on(number, start / BLOCK, (end - 1) / BLOCK);
        let mut bytes = Vec::new();
        while bytes.len() < most {
            let at = start + bytes.len() as u64;
            let left = most - bytes.len();
            self.keep_one(number, at / BLOCK)?;
            let block = self.cache.block(number, at / BLOCK);
            let from = ((at % BLOCK) as usize).min(block.len());
            let until = block.len().min(from.saturating_add(left));
            bytes.extend_from_slice(&block[from..until]);
            if until < BLOCK as usize {
                break;
            }
        }
        Ok(bytes)
    }
}

#[cfg(test)]
mod tests {
    use super::*;
    use crate::desk::LeaseKind;

    /// Files of so many bytes, each byte of which tells in which file and block it stands.
    struct Files(u64);

    fn byte_of(number: u32, at: u64) -> u8 {
        (u64::from(number) * 31 + at / BLOCK) as u8
    }

    impl Shown for Files {
        fn header(&mut self, _number: u32) -> Result<Option<Header>, Unshown> {
            Ok(None)
        }

        fn find(&mut self, _directory: u32, _name: &Name) -> Result<Option<u32>, Unshown> {
            Ok(None)
        }

        fn list(&mut self, _: u32, _behind: Option<&Name>, _most: usize) -> Result<Vec<(Name, u32)>, Unshown> {
            Ok(Vec::new())
        }

        fn read(&mut self, number: u32, start: u64, most: usize) -> Result<Vec<u8>, Unshown> {
            let (mut bytes, end) = (Vec::new(), self.0.min(start + most as u64));
            while start + (bytes.len() as u64) < end {
                let at = start + bytes.len() as u64;
                let until = end.min((at / BLOCK + 1) * BLOCK);
                bytes.resize(bytes.len() + (until - at) as usize, byte_of(number, at));
            }
            Ok(bytes)
        }
    }

    #[test]
    fn a_read_is_whole_also_where_there_are_too_many_blocks() {
        let (mut files, mut cache, mut leases) = (Files(29 * BLOCK - 100), Cache::default(), Leases::default());
        let step = 2 * BLOCK as usize;
        for number in 2..14 {
            leases.grant(number, LeaseKind::Read, 100);
            for at in (0..files.0).step_by(step) {
                let mut cached = Cached { shown: &mut files, cache: &mut cache, leases: &leases };
                let found = cached.read(number, at, step).unwrap();
                assert!(found == files.read(number, at, step).unwrap(), "file {number} at {at}: {} bytes", found.len());
            }
            assert!(cache.block_count <= BLOCKS);
            assert_eq!(cache.block_count, cache.blocks.values().map(BTreeMap::len).sum::<usize>());
        }
    }
}

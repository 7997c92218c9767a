//! Room for what a log writes. It is asked for before bytes are taken, so that whoever writes hears of a lack of it. And where a
//! log has none, what frees some goes before it.

use crate::desk::{Blocks, Desk, Unanswered};
use crate::draft::Draft;
use crate::entry::Entry;
use crate::failure::{Failure, HandInFault};
use crate::session::Session;
use std::time::{Duration, Instant};

/// How long it is believed what was told of free blocks.
const AGE: Duration = Duration::from_millis(500);
/// Blocks go to slower tiers meanwhile: how long a log waits for it while none goes.
const STANDSTILL: Duration = Duration::from_secs(10);
/// Where no more than one of so many blocks is free they are scarce: other clients' logs that are under way may take them all.
const SCARCE: u32 = 8;

/// What is known of free blocks.
#[derive(Debug, Default)]
pub(crate) struct Room {
    told: Option<(Instant, Blocks)>,
    /// The log as it was refused for want of room last: how many entries and bytes it had, and how many blocks it writes.
    refused: Option<(usize, usize, u64)>,
    /// How blocks were when it was waited in vain for them to go to slower tiers.
    stuck: Option<Blocks>,
}

/// Who waits until blocks have gone to slower tiers.
pub(crate) struct Waiting {
    until: Instant,
    before: Option<Blocks>,
    since: Instant,
}

impl Waiting {
    pub fn new(patience: Duration) -> Waiting {
        let now = Instant::now();
        Waiting { until: now + patience, before: None, since: now }
    }

    /// Whether to wait on: there is room in slower tiers, and lately some blocks went there.
    fn goes_on(&mut self, now: Blocks) -> bool {
        if self.before != Some(now) {
            (self.before, self.since) = (Some(now), Instant::now());
        }
        now.slower_free > 0 && self.since.elapsed() < STANDSTILL && Instant::now() < self.until
    }
}

impl<D: Desk> Session<D> {
    /// How many blocks there are, as it was told lately; none where the server doesn't tell.
    fn blocks_lately(&mut self) -> Result<Option<Blocks>, Unanswered> {
        if let Some((_, blocks)) = self.room.told.filter(|(at, _)| at.elapsed() < AGE) {
            return Ok(Some(blocks));
        }
        self.blocks_now()
    }

    fn blocks_now(&mut self) -> Result<Option<Blocks>, Unanswered> {
        let at = Instant::now();
        let blocks = self.desk.blocks()?;
        self.room.told = blocks.map(|blocks| (at, blocks));
        Ok(blocks)
    }

    /// Sees to it that so many bytes more have room. Where they may have none behind the log, that is handed in before.
    pub fn make_room(&mut self, bytes: usize) -> Result<(), Failure> {
        let more = bytes as u64 / Blocks::LENGTH + 2;
        let has_room = |draft: &Draft, blocks: &Blocks| {
            let free = u64::from(blocks.free);
            draft.most_blocks() + more <= free || draft.blocks() + more <= free
        };
        match self.blocks_lately()? {
            Some(blocks) if !has_room(&self.draft, &blocks) => {}
            _ => return Ok(()),
        }
        match self.blocks_now()? {
            Some(blocks) if !has_room(&self.draft, &blocks) => {}
            _ => return Ok(()),
        }
        self.sync_patiently()?;
        match self.blocks_now()? {
            Some(blocks) if u64::from(blocks.free) + u64::from(blocks.slower_free) < more => {
                Err(HandInFault::NoRoom { need: more, free: blocks.free }.into())
            }
            _ => Ok(()),
        }
    }

    /// Whether others may take the room of what is in the log of this file, before it is handed in.
    pub fn is_scarce(&mut self, number: u32) -> Result<bool, Failure> {
        if !self.draft.has_bytes(number) {
            return Ok(false);
        }
        let is_scarce = |blocks: Blocks| {
            let free = blocks.free.saturating_add(blocks.slower_free);
            free <= blocks.all.saturating_add(blocks.slower_all) / SCARCE
        };
        Ok(self.blocks_lately()?.map_or(false, is_scarce))
    }

    /// Whether the log is refused without being handed in: it was for want of room, and there is no more by now.
    pub(crate) fn still_lacks_room(&mut self) -> Result<Option<HandInFault>, HandInFault> {
        let need = match self.room.refused {
            Some((entries, bytes, need)) if self.is_log(entries, bytes) => need,
            _ => return Ok(None),
        };
        let free = self.blocks_now()?.map(|blocks| blocks.free);
        Ok(free.filter(|free| u64::from(*free) < need).map(|free| HandInFault::NoRoom { need, free }))
    }

    fn is_log(&self, entries: usize, bytes: usize) -> bool {
        let log = self.draft.log();
        (log.len(), log.as_bytes().len()) == (entries, bytes)
    }

    /// The log was refused for want of room.
    pub(crate) fn note_no_room(&mut self, need: u64) {
        let log = self.draft.log();
        self.room.refused = Some((log.len(), log.as_bytes().len(), need));
    }

    /// A log has landed.
    pub(crate) fn note_room(&mut self) {
        (self.room.refused, self.room.told) = (None, None);
    }

    /// Whether to wait until blocks have gone to slower tiers.
    pub(crate) fn waits_for_room(&mut self, waiting: &mut Waiting) -> bool {
        let now = match self.blocks_now() {
            Ok(Some(now)) if !self.desk.is_ending() && self.room.stuck != Some(now) => now,
            _ => return false,
        };
        let goes_on = waiting.goes_on(now);
        self.room.stuck = if goes_on { None } else { Some(now) };
        goes_on
    }

    /// Takes an entry that may free room. Where the log has none, and neither depends on the other, it is done before the log.
    pub(crate) fn enter_to_free(&mut self, entry: &Entry) -> Result<(), Failure> {
        if self.room.refused.is_some() && !self.is_uncertain {
            let number = match entry {
                Entry::Unlink { directory, name, .. } => self.look(|draft, shown| draft.find(shown, *directory, name))?,
                _ => Some(entry.number()),
            };
            let is_apart = number.map_or(false, |number| self.draft.is_apart(entry, number));
            if is_apart && self.enter_aside(entry)? {
                return Ok(());
            }
        }
        self.enter(entry)
    }

    /// Hands an entry in by a log of its own, before the one that there is. Returns whether it is done.
    fn enter_aside(&mut self, entry: &Entry) -> Result<bool, Failure> {
        let aside = self.draft.lend();
        let (own, calls) = (std::mem::replace(&mut self.draft, aside), std::mem::take(&mut self.calls));
        let (began, refused) = (self.began.take(), self.room.refused.take());
        let entered = self.enter(entry).and_then(|()| self.sync().map_err(Failure::from));
        let aside = std::mem::replace(&mut self.draft, own);
        self.draft.take_back(aside);
        (self.calls, self.began, self.room.refused, self.is_uncertain) = (calls, began, refused, false);
        match entered {
            Ok(()) => Ok(true),
            // What the log has changed may allow it.
            Err(Failure::Entry { .. }) => Ok(false),
            Err(failure) => {
                // Nobody knows whether it was done.
                self.cache.clear();
                Err(failure)
            }
        }
    }
}

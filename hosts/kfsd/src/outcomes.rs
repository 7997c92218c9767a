//! Numbered calls: a client that hands one in again is told how the first one ended, and it isn't made again.
//!
//! Before such a call kfsd sends a marker of its own, which the desk refuses and keeps. So the journal tells which call behind
//! it had which number, also where neither an answer was read nor anything was kept here (docs/KFSD.md).

use crate::bytes::Bytes;
use crate::store::{Changes, Outcome};
use std::collections::{HashMap, HashSet, VecDeque};
use std::sync::{Mutex, MutexGuard, PoisonError};

/// How many outcomes of a client are told.
pub const KEPT: usize = 4096;

const MIGRATE: u8 = 5;

/// No block has this tier.
const NO_TIER: u8 = 0xff;

/// Says that the next call in the journal is this numbered one, where it is.
#[derive(Clone, Copy, Debug, PartialEq, Eq)]
pub struct Marker {
    pub client: u32,
    pub number: u64,
    length: u32,
    check: u32,
}

/// How many bytes the call of a marker has.
pub const MARKER: usize = 29;

impl Marker {
    pub fn new(client: u32, number: u64, call: &[u8]) -> Marker {
        // Bodies have at most 16,777,216 bytes.
        Marker { client, number, length: call.len() as u32, check: check_of(call) }
    }

    /// A call of moves that is refused: no node has the number 0.
    pub fn bytes(&self) -> [u8; MARKER] {
        let mut body = [0; MARKER];
        let number = self.number.to_be_bytes();
        body[..3].copy_from_slice(&[MIGRATE, 0, 2]);
        body[7..11].copy_from_slice(&self.client.to_be_bytes());
        body[11] = NO_TIER;
        body[12..16].copy_from_slice(&self.length.to_be_bytes());
        body[16..24].copy_from_slice(&number);
        body[24] = NO_TIER;
        body[25..].copy_from_slice(&self.check.to_be_bytes());
        body
    }

    /// The marker that a call is; none where it is no marker.
    pub fn of(call: &[u8]) -> Option<Marker> {
        let mut bytes = Bytes(call);
        let is_marker = call.len() == MARKER && bytes.take(3)? == [MIGRATE, 0, 2] && bytes.word()? == 0;
        let (client, tier, length) = (bytes.word()?, bytes.byte()?, bytes.word()?);
        let (number, other_tier, check) = (bytes.long()?, bytes.byte()?, bytes.word()?);
        (is_marker && tier == NO_TIER && other_tier == NO_TIER).then_some(Marker { client, number, length, check })
    }

    /// Whether this is the call that is meant.
    fn fits(&self, call: &[u8]) -> bool {
        *self == Marker::new(self.client, self.number, call) && call.get(1..5) == Some(&self.client.to_be_bytes()[..])
    }
}

/// FNV-1a. It tells a client's own calls apart, so nobody gains by making two that are alike.
fn check_of(call: &[u8]) -> u32 {
    call.iter().fold(0x811c_9dc5, |hash, byte| (hash ^ u32::from(*byte)).wrapping_mul(0x0100_0193))
}

/// Finds numbered calls in a journal, whose calls are given in order.
#[derive(Debug, Default)]
pub struct Finder(Option<Marker>);

impl Finder {
    /// The outcome that this call of the journal shows.
    pub fn next(&mut self, call: &[u8], answer: &[u8]) -> Option<Outcome> {
        let before = std::mem::replace(&mut self.0, Marker::of(call));
        let marker = before.filter(|marker| marker.fits(call))?;
        Some(Outcome { client: marker.client, number: marker.number, answer: answer.to_vec() })
    }
}

#[derive(Debug, PartialEq, Eq)]
enum Standing {
    UnderWay,
    Done(Vec<u8>),
}

#[derive(Debug, Default)]
struct OfClient {
    standing: HashMap<u64, Standing>,
    /// Those that are done, in their order.
    done: VecDeque<u64>,
}

#[derive(Debug, Default)]
struct All {
    of: HashMap<u32, OfClient>,
    unsaved: Changes,
}

/// How a numbered call stands when it comes.
#[derive(Debug, PartialEq, Eq)]
pub enum Stands {
    /// It isn't known, and is under way from now on.
    New,
    UnderWay,
    /// It was answered so.
    Done(Vec<u8>),
}

/// The numbered calls that are under way or were answered.
#[derive(Debug, Default)]
pub struct Outcomes(Mutex<All>);

impl Outcomes {
    fn all(&self) -> MutexGuard<'_, All> {
        self.0.lock().unwrap_or_else(PoisonError::into_inner)
    }

    /// Takes what was kept, and behind that what the journal has: it has the last calls, so what it has is later.
    pub fn begin_with(&self, kept: Vec<Outcome>, in_journal: Vec<Outcome>) {
        let mut all = self.all();
        let known: HashSet<(u32, u64)> = kept.iter().map(|one| (one.client, one.number)).collect();
        let later: HashSet<(u32, u64)> = in_journal.iter().map(|one| (one.client, one.number)).collect();
        kept.into_iter().filter(|one| !later.contains(&(one.client, one.number))).for_each(|one| all.done(one, true));
        in_journal.into_iter().for_each(|one| {
            let is_kept = known.contains(&(one.client, one.number));
            all.done(one, is_kept);
        });
    }

    /// How a call stands. A new one is under way from now on.
    pub fn begin(&self, client: u32, number: u64) -> Stands {
        let mut all = self.all();
        let standing = &mut all.of.entry(client).or_default().standing;
        match standing.get(&number) {
            Some(Standing::Done(answer)) => Stands::Done(answer.clone()),
            Some(Standing::UnderWay) => Stands::UnderWay,
            None => {
                standing.insert(number, Standing::UnderWay);
                Stands::New
            }
        }
    }

    /// The same, and a new one isn't begun.
    pub fn look(&self, client: u32, number: u64) -> Stands {
        match self.all().of.get(&client).and_then(|of| of.standing.get(&number)) {
            Some(Standing::Done(answer)) => Stands::Done(answer.clone()),
            Some(Standing::UnderWay) => Stands::UnderWay,
            None => Stands::New,
        }
    }

    /// A call that was under way has this answer, or was refused and not made.
    pub fn end(&self, client: u32, number: u64, answer: Option<&[u8]>) {
        let mut all = self.all();
        match answer {
            Some(answer) => all.done(Outcome { client, number, answer: answer.to_vec() }, false),
            None => {
                all.of.entry(client).or_default().standing.remove(&number);
            }
        }
    }

    /// All that are done, those of a client in their order.
    pub fn all_done(&self) -> Vec<Outcome> {
        let all = self.all();
        let of_one = |(client, of): (&u32, &OfClient)| {
            let outcome = |number: &u64| match of.standing.get(number) {
                Some(Standing::Done(answer)) => Some(Outcome { client: *client, number: *number, answer: answer.clone() }),
                _ => None,
            };
            of.done.iter().filter_map(outcome).collect::<Vec<_>>()
        };
        all.of.iter().flat_map(of_one).collect()
    }

    /// Takes what isn't kept yet.
    pub fn take_unsaved(&self) -> Changes {
        std::mem::take(&mut self.all().unsaved)
    }
}

impl All {
    fn done(&mut self, outcome: Outcome, is_kept: bool) {
        let of = self.of.entry(outcome.client).or_default();
        if let Some(Standing::Done(_)) = of.standing.insert(outcome.number, Standing::Done(outcome.answer.clone())) {
            of.done.retain(|number| *number != outcome.number);
        }
        of.done.push_back(outcome.number);
        let oldest = (of.done.len() > KEPT).then(|| of.done.pop_front()).flatten();
        if let Some(number) = oldest {
            of.standing.remove(&number);
            self.unsaved.forgotten.push((outcome.client, number));
        }
        if !is_kept {
            self.unsaved.outcomes.push(outcome);
        }
    }
}

#[cfg(test)]
mod tests {
    use super::*;

    const CALL: &[u8] = &[1, 0, 0, 0, 7, 9, 9];

    fn outcome(number: u64) -> Outcome {
        Outcome { client: 7, number, answer: vec![1, number as u8] }
    }

    #[test]
    fn a_marker_is_read_again() {
        let marker = Marker::new(7, 0x0102_0304_0506_0708, CALL);
        assert_eq!(Marker::of(&marker.bytes()), Some(marker));
        assert!(marker.fits(CALL));
        assert!(!marker.fits(&CALL[..6]));
        assert!(!marker.fits(&[1, 0, 0, 0, 7, 9, 8]));
        assert!(!Marker::new(8, 1, CALL).fits(CALL));
        assert_eq!(Marker::of(&marker.bytes()[..28]), None);
        for at in [0, 1, 2, 3, 11, 24] {
            let mut other = marker.bytes();
            other[at] ^= 1;
            assert_eq!(Marker::of(&other), None, "{at}");
        }
    }

    #[test]
    fn a_call_right_behind_its_marker_is_found() {
        let marker = Marker::new(7, 5, CALL).bytes();
        let mut finder = Finder::default();
        assert_eq!(finder.next(CALL, &[1, 0]), None);
        assert_eq!(finder.next(&marker, &[9]), None);
        assert_eq!(finder.next(CALL, &[1, 5]), Some(outcome(5)));
        assert_eq!(finder.next(CALL, &[1, 5]), None);
        // refused without an answer, it isn't in the journal
        assert_eq!(finder.next(&marker, &[9]), None);
        assert_eq!(finder.next(&Marker::new(7, 6, CALL).bytes(), &[9]), None);
        assert_eq!(finder.next(CALL, &[1, 6]), Some(outcome(6)));
        assert_eq!(finder.next(&marker, &[9]), None);
        assert_eq!(finder.next(&[3, 0, 0, 0, 7, 0, 0, 0, 1], &[5]), None);
        assert_eq!(finder.next(CALL, &[1, 0]), None);
    }

    #[test]
    fn a_number_is_done_once() {
        let outcomes = Outcomes::default();
        assert_eq!(outcomes.look(7, 1), Stands::New);
        assert_eq!(outcomes.begin(7, 1), Stands::New);
        assert_eq!(outcomes.begin(7, 1), Stands::UnderWay);
        assert_eq!(outcomes.begin(8, 1), Stands::New);
        outcomes.end(7, 1, Some(&[1, 1]));
        assert_eq!(outcomes.begin(7, 1), Stands::Done(vec![1, 1]));
        outcomes.end(8, 1, None);
        assert_eq!(outcomes.begin(8, 1), Stands::New);
        assert_eq!(outcomes.take_unsaved().outcomes, [outcome(1)]);
        assert!(outcomes.take_unsaved().is_empty());
    }

    #[test]
    fn the_oldest_are_forgotten() {
        let outcomes = Outcomes::default();
        for number in 0..KEPT as u64 + 3 {
            assert_eq!(outcomes.begin(7, number), Stands::New);
            outcomes.end(7, number, Some(&[1]));
        }
        assert_eq!(outcomes.look(7, 2), Stands::New);
        assert_eq!(outcomes.look(7, 3), Stands::Done(vec![1]));
        assert_eq!(outcomes.take_unsaved().forgotten, [(7, 0), (7, 1), (7, 2)]);
    }

    #[test]
    fn what_the_journal_has_is_later_than_what_was_kept() {
        let outcomes = Outcomes::default();
        outcomes.begin_with((0..KEPT as u64).map(outcome).collect(), vec![outcome(3), outcome(9000)]);
        assert_eq!(outcomes.look(7, 0), Stands::New);
        assert_eq!(outcomes.look(7, 3), Stands::Done(vec![1, 3]));
        let unsaved = outcomes.take_unsaved();
        assert_eq!(unsaved.forgotten, [(7, 0)]);
        assert_eq!(unsaved.outcomes, [outcome(9000)]);
    }
}

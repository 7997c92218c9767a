//! What is asked for ahead: headers and bytes of files that will be wanted soon, as far as one can guess.

use crate::cache::{Cached, OPENED};
use crate::desk::Desk;
use crate::name::Name;
use crate::node::ROOT;
use crate::session::Session;
use crate::shown::Ahead;
use std::time::{Duration, Instant};

/// How many headers are asked for ahead at most, and from how many on they are while the next one is known.
const HEADERS: usize = 16;
const LACKING: usize = 8;
/// After how many look-ups of names one behind another headers of the next ones are asked for.
const STEPS: u32 = 2;

/// Where names were looked up last.
#[derive(Debug, Default)]
pub(crate) struct Course {
    directory: u32,
    last: Option<(Name, u32)>,
    /// How many look-ups went on in the order of names, and in that of numbers.
    by_name: u32,
    by_number: u32,
    /// When the last one was, and how much time lies between two by now.
    at: Option<Instant>,
    gap: Duration,
}

impl Course {
    /// One more look-up comes now. Returns how many of the next ones will come within a time, at this pace.
    fn pace(&mut self, within: Duration) -> usize {
        let now = Instant::now();
        let gap = self.at.replace(now).map_or(within, |before| (now - before).min(within));
        self.gap = (self.gap * 3 + gap) / 4;
        (within.as_nanos() / self.gap.as_nanos().max(1)).min(HEADERS as u128) as usize
    }
}

impl<D: Desk> Session<D> {
    fn cached(&mut self) -> Cached<'_> {
        let Session { desk, cache, leases, .. } = self;
        Cached { shown: desk, cache, leases }
    }

    /// Takes over what was asked for ahead and has come.
    pub(crate) fn take_told(&mut self) {
        self.cached().take_told(None);
    }

    /// A name was looked up. Where such look-ups go on in the order of names or of numbers, headers of the next ones are asked for.
    pub(crate) fn look_ahead(&mut self, directory: u32, name: &Name, number: u32) {
        if self.options.age.is_zero() {
            return;
        }
        let Session { cache, course, leases, draft, options, .. } = self;
        let names = match cache.names_of(directory) {
            Some(names) if leases.is_live(directory) => names,
            _ => return,
        };
        let last = course.last.replace((name.clone(), number)).filter(|_| course.directory == directory);
        let (is_next, is_next_number) = match &last {
            // The same once more: nothing has changed.
            Some((_, before)) if *before == number => return,
            Some((last, before)) => (names.is_next(name, last), names.is_next_number(number, *before)),
            None => (false, false),
        };
        course.directory = directory;
        course.by_name = if is_next { course.by_name + 1 } else { 0 };
        course.by_number = if is_next_number { course.by_number + 1 } else { 0 };
        // What isn't wanted while it is believed is asked for in vain.
        let count = course.pace(options.age / 2);
        let next: Vec<u32> = match (course.by_name >= STEPS, course.by_number >= STEPS) {
            (true, _) => names.behind(name).take(count).collect(),
            (_, true) => names.behind_number(number).take(count).collect(),
            _ => return,
        };
        // A header that the log has made is known.
        let next: Vec<u32> = next.into_iter().filter(|number| draft.header_made(*number).is_none()).collect();
        let unknown = cache.unknown(next.iter().copied(), leases);
        let is_next_lacking = next.first().map_or(false, |next| unknown.first() == Some(&Ahead::Header(*next)));
        if unknown.len() >= LACKING || is_next_lacking && unknown.len() > 1 {
            self.cached().ask_for(&unknown);
        }
    }

    /// Asks for the headers of these nodes at once: they will be wanted soon.
    pub fn headers_ahead(&mut self, numbers: impl Iterator<Item = u32>) {
        if self.options.age.is_zero() {
            return;
        }
        let Session { cache, leases, draft, .. } = self;
        let unknown = cache.unknown(numbers.filter(|number| draft.header_made(*number).is_none()), leases);
        if unknown.len() > 1 {
            self.cached().ask_for(&unknown);
        }
    }

    /// A file is opened, to be read. Where it is short, its bytes are asked for: later than this call begins, so that who opens it
    /// is told what others have handed in before.
    pub fn bytes_ahead(&mut self, number: u32) {
        self.cache.open(number);
        let is_own = self.draft.has_created(number) || self.draft.has_bytes(number);
        if self.options.age.is_zero() || is_own || self.leases.is_live(number) {
            return;
        }
        match self.cache.last_header(number) {
            Some(header) if !header.is_directory() && (1..u64::from(OPENED)).contains(&header.size) => {
                let bytes = Ahead::Bytes { number, start: 0, most: OPENED };
                let has_stamps = self.desk.stamp(ROOT).is_some();
                let both = [bytes, Ahead::Header(number)];
                self.cached().ask_for(if has_stamps { &both } else { &both[..1] });
            }
            _ => {}
        }
    }
}

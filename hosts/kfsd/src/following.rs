//! What kfsd knows of the desk: it follows each call and its answer, and reads the files before `kfs_serve` opens them.

use crate::calls::{need_in, Change, Landing, Note, Told, Why, Wish};
use crate::clock::Clock;
use crate::desk::{beside, DeskFault};
use crate::journal::{self, Part};
use crate::leases::Leases;
use crate::locks::Locks;
use crate::outcomes::{Finder, Outcomes, KEPT};
use crate::space::{Held, Space};
use crate::store::{Changes, Outcome, Store};
use crate::times::Times;
use crate::waiting::Waiting;
use crate::wants::{News, Wants, What};
use std::collections::{HashMap, VecDeque};
use std::io;
use std::path::Path;
use std::sync::atomic::{AtomicU64, Ordering};
use std::sync::{Arc, Mutex, MutexGuard, PoisonError};
use std::time::Instant;
use tokio::sync::{watch, Notify};

/// How many bytes of the journal may have landings in them that aren't kept here yet, and some more.
const RECENT: usize = 1 << 20;

/// How many leases may wait for a look whether their clients may have them. More are looked at when they are wanted again.
const DOUBTS: usize = 4096;

/// What the files tell of calls whose answers may be lost.
#[derive(Debug, Default)]
pub struct Found {
    /// How numbered calls in them ended: of each client the last ones.
    pub outcomes: HashMap<u32, VecDeque<Outcome>>,
    /// The last logs that have landed, and what owners have set between them.
    pub recent: VecDeque<Landing>,
}

impl Found {
    /// Adds an outcome behind the others of its client, of which no more are held than are told.
    fn put(&mut self, outcome: Outcome) {
        let last = self.outcomes.entry(outcome.client).or_default();
        if last.len() == KEPT {
            last.pop_front();
        }
        last.push_back(outcome);
    }
}

/// What a call has changed, by its answer. kfsd's own call for a time or marks has to be kept, and is always refused.
fn landing_of(note: &Note, told: Told) -> Option<Landing> {
    match note {
        Note::Submit(_) if told != Told::Landed => None,
        _ => note.landing(),
    }
}

/// A lease of which it is to be looked whether its client may have it.
#[derive(Clone, Copy, Debug, PartialEq, Eq)]
pub struct Doubt {
    pub node: u32,
    pub holder: u32,
}

/// How the desk stands by the answers so far.
#[derive(Debug)]
pub struct Following {
    pub clock: Clock,
    pub outcomes: Outcomes,
    leases: Mutex<Leases>,
    locks: Mutex<Locks>,
    /// Where it is noted which clients may have locks; none in a cluster.
    store: Mutex<Option<Arc<Mutex<Store>>>>,
    wants: Mutex<Wants>,
    waiting: Mutex<Waiting>,
    times: Mutex<Times>,
    space: Mutex<Space>,
    /// Changes with each new want.
    is_wanted: watch::Sender<()>,
    /// Leases whose clients may not be allowed them. Each want puts one here once a second at most.
    doubts: Mutex<VecDeque<Doubt>>,
    is_doubtful: Notify,
    /// How many places of tier 0 are free, and how many should be, as far as that is known; and tells where fewer are, or a log had
    /// too few.
    free: AtomicU64,
    least: AtomicU64,
    /// How many the largest of these logs needs.
    needed: AtomicU64,
    short: Notify,
}

impl Default for Following {
    fn default() -> Following {
        Following {
            clock: Clock::default(),
            outcomes: Outcomes::default(),
            leases: Mutex::default(),
            locks: Mutex::default(),
            store: Mutex::default(),
            wants: Mutex::default(),
            waiting: Mutex::default(),
            times: Mutex::default(),
            space: Mutex::default(),
            is_wanted: watch::channel(()).0,
            doubts: Mutex::default(),
            is_doubtful: Notify::new(),
            free: AtomicU64::new(u64::MAX),
            least: AtomicU64::new(0),
            needed: AtomicU64::new(0),
            short: Notify::new(),
        }
    }
}

impl Following {
    /// The leases.
    pub fn leases(&self) -> MutexGuard<'_, Leases> {
        self.leases.lock().unwrap_or_else(PoisonError::into_inner)
    }

    /// The locks of files, which nobody else knows.
    pub fn locks(&self) -> MutexGuard<'_, Locks> {
        self.locks.lock().unwrap_or_else(PoisonError::into_inner)
    }

    /// Has it noted in this store which clients may have locks.
    pub fn note_locks_in(&self, store: Arc<Mutex<Store>>) {
        *self.store.lock().unwrap_or_else(PoisonError::into_inner) = Some(store);
    }

    /// Notes that a client may have locks: behind the answer the next start knows. Those that had some before an earlier start, and
    /// haven't come back in time, are forgotten.
    pub async fn note_locker(&self, client: u32) -> Result<(), DeskFault> {
        let store = self.store.lock().unwrap_or_else(PoisonError::into_inner).clone();
        let is_noted = self.locks().is_noted(client);
        if let Some(store) = store.filter(|_| !is_noted) {
            let noted = self.locks().noted(client, Instant::now());
            beside(move || Ok(store.lock().unwrap_or_else(PoisonError::into_inner).keep_lockers(client, noted.as_ref())?))
                .await?;
        }
        self.locks().note(client);
        Ok(())
    }

    /// Changes the locks. Who waits for what is free by that is told.
    pub fn with_locks<T>(&self, change: impl FnOnce(&mut Locks) -> T) -> T {
        let mut locks = self.locks();
        locks.set_serial(self.wants().next_serial());
        let changed = change(&mut locks);
        if locks.take_freed() {
            self.is_wanted.send_replace(());
        }
        changed
    }

    /// What is new for a client behind a serial.
    pub fn told(&self, client: u32, behind: u64) -> Vec<News> {
        let locks = self.locks();
        let wants = self.wants();
        let known = wants.known(behind);
        let locked = locks.told(client, known).into_iter().map(|(node, serial)| (What::Lock, node, serial));
        let leased = self.waiting().told(client, known).into_iter().map(|(node, serial)| (What::Free, node, serial));
        let more = locked.chain(leased).map(|(what, node, serial)| News { what, by: client, node, serial });
        wants.told(client, behind, more, Instant::now())
    }

    /// Who waits for leases.
    fn waiting(&self) -> MutexGuard<'_, Waiting> {
        self.waiting.lock().unwrap_or_else(PoisonError::into_inner)
    }

    /// Takes over what the answer to a call for a lease, or to one that gives a lease up, is to those who wait for it.
    fn let_in(&self, note: &Note, told: Told, now: Instant) {
        let is_told = match (note, told) {
            (Note::Lease(wish), Told::Leased(node)) => {
                self.waiting().take(wish.client, node);
                false
            }
            (Note::Lease(Wish { client, node: Some(node), .. }), Told::NoLease(Why::Held(_))) => {
                self.waiting().wait(*client, *node, now);
                false
            }
            (Note::Drop { client }, Told::Dropped(node)) => {
                let mut wants = self.wants();
                self.waiting().give_up(*client, node, now, || wants.next_serial())
            }
            _ => false,
        };
        if is_told {
            self.is_wanted.send_replace(());
        }
    }

    /// The leases that others want.
    pub fn wants(&self) -> MutexGuard<'_, Wants> {
        self.wants.lock().unwrap_or_else(PoisonError::into_inner)
    }

    /// When nodes were changed.
    pub fn times(&self) -> MutexGuard<'_, Times> {
        self.times.lock().unwrap_or_else(PoisonError::into_inner)
    }

    /// What the files of each owner take.
    pub fn space(&self) -> MutexGuard<'_, Space> {
        self.space.lock().unwrap_or_else(PoisonError::into_inner)
    }

    /// Takes what isn't kept yet.
    pub fn take_unsaved(&self) -> Changes {
        let (stamps, landed) = self.times().take_unsaved();
        Changes { stamps, landed, ..self.outcomes.take_unsaved() }
    }

    /// Returns when a log had too few free places, or fewer are free than should be.
    pub async fn is_short(&self) {
        self.short.notified().await;
    }

    /// So many places of tier 0 are free, and so many should be.
    pub fn look_for(&self, free: u64, least: u64) {
        self.free.store(free, Ordering::Relaxed);
        self.least.store(least, Ordering::Relaxed);
    }

    /// How many places the largest log needs that had too few, since this was asked for.
    pub fn take_needed(&self) -> u64 {
        self.needed.swap(0, Ordering::Relaxed)
    }

    /// So many were freed.
    pub fn gain(&self, places: u64) {
        self.free.fetch_add(places, Ordering::Relaxed);
    }

    /// Whether less than half of those are free that should be.
    pub fn has_few(&self) -> bool {
        self.free.load(Ordering::Relaxed) < self.least.load(Ordering::Relaxed) / 2
    }

    /// A log has taken places of tier 0. It may have freed others, which the desk tells.
    fn spend(&self, places: u64) {
        let (before, least) = (self.free.load(Ordering::Relaxed), self.least.load(Ordering::Relaxed));
        let left = before.saturating_sub(places);
        self.free.store(left, Ordering::Relaxed);
        if before >= least && left < least {
            self.short.notify_one();
        }
    }

    /// Tells of each new want.
    pub fn wanted(&self) -> watch::Receiver<()> {
        self.is_wanted.subscribe()
    }

    /// Whether a client doesn't get a lease on a node now: another one has wanted it for long, or it gave the lease up a moment ago for
    /// others, whose turn it is.
    pub fn forbids(&self, client: u32, node: u32) -> bool {
        let now = Instant::now();
        self.wants().forbid(client, node, now) || self.waiting().forbids(client, node, now)
    }

    fn doubts(&self) -> MutexGuard<'_, VecDeque<Doubt>> {
        self.doubts.lock().unwrap_or_else(PoisonError::into_inner)
    }

    fn doubt(&self, node: u32, holders: impl IntoIterator<Item = u32>) {
        let mut doubts = self.doubts();
        // One that doesn't lead looks at none.
        let room = DOUBTS.saturating_sub(doubts.len());
        doubts.extend(holders.into_iter().take(room).map(|holder| Doubt { node, holder }));
        self.is_doubtful.notify_one();
    }

    /// The next lease whose client may not be allowed it, once there is one.
    pub async fn next_doubt(&self) -> Doubt {
        loop {
            let next = self.doubts().pop_front();
            match next {
                Some(doubt) => return doubt,
                None => self.is_doubtful.notified().await,
            }
        }
    }

    /// Begins anew with what the files say, and tells more of it: of numbered calls of those clients and numbers that are
    /// asked for. No `kfs_serve` may run.
    pub fn read(&self, folder: &Path, is_asked: impl Fn(u32, u64) -> bool) -> io::Result<Found> {
        let (mut leases, mut found, mut finder) = (Leases::default(), Found::default(), Finder::default());
        let (mut lengths, mut length, mut space) = (VecDeque::new(), 0, Space::default());
        // Of each call, so that they go as their lengths do.
        let mut recent = VecDeque::new();
        journal::read(folder, |part| match part {
            Part::State(state) => (leases, space) = (state, Space::default()),
            Part::Node { number, owner, size } => space.put(number, Held::new(owner, size)),
            Part::Call(call, answer) => {
                let (note, told) = (Note::of(call), Told::of(answer));
                let landing = landing_of(&note, told);
                leases.apply(&note, told);
                landing.iter().for_each(|landing| leases.landed(&landing.changes));
                space.made(call, answer);
                if let Some(outcome) = finder.next(call, answer).filter(|one| is_asked(one.client, one.number)) {
                    found.put(outcome);
                }
                recent.push_back(landing);
                lengths.push_back(call.len());
                length += call.len();
                while length - lengths.front().copied().unwrap_or(0) > RECENT {
                    length -= lengths.pop_front().unwrap_or(0);
                    recent.pop_front();
                }
            }
        })?;
        found.recent = recent.into_iter().flatten().collect();
        self.clock.at_least(leases.moment);
        *self.leases() = leases;
        *self.space() = space;
        Ok(found)
    }

    /// Takes over what a call has done that was answered at this time. Answers come in the order of the calls.
    pub fn answered(&self, note: &Note, answer: &[u8], time: i64) {
        let told = Told::of(answer);
        let landing = landing_of(note, told);
        let mut leases = self.leases();
        match (note, told) {
            (Note::Lease(wish), Told::Leased(node)) => {
                if leases.of(node, wish.client).is_none() {
                    self.wants().taken(wish.client, node);
                }
                if wish.node.map_or(false, |meant| meant != node) {
                    // The path has led elsewhere meanwhile, where nobody has looked whether the client may have the lease.
                    self.doubt(node, [wish.client]);
                }
            }
            (_, Told::NoRoom) => {
                self.needed.fetch_max(need_in(answer), Ordering::Relaxed);
                self.short.notify_one();
            }
            (_, Told::Landed) => self.spend(need_in(answer)),
            _ => {}
        }
        leases.apply(note, told);
        if let Some(landing) = &landing {
            leases.landed(&landing.changes);
            for (node, _) in landing.changes.iter().filter(|(_, change)| *change == Change::Gone) {
                self.locks().gone(*node);
            }
            self.times().changed(landing, time);
        }
        self.let_in(note, told, Instant::now());
        if let Note::Lease(wish) = note {
            let noted = self.wants().apply(wish, told, &leases, Instant::now());
            if noted.is_new {
                self.is_wanted.send_replace(());
            }
            if let Some(node) = wish.node.filter(|_| !noted.doubtful.is_empty()) {
                self.doubt(node, noted.doubtful);
            }
        }
    }
}

#[cfg(test)]
mod tests {
    use super::*;
    use std::time::Duration;
    use tokio::time::timeout;

    #[tokio::test]
    async fn it_is_told_once_where_few_places_are_free() {
        let following = Following::default();
        let landed = |places: u64| [&[1, 0][..], &places.to_be_bytes()].concat();
        let log = Note::of(&[&[1, 0, 0, 0, 7][..], &[0; 8]].concat());
        let is_short = || async { timeout(Duration::from_millis(10), following.is_short()).await.is_ok() };
        following.answered(&log, &landed(1 << 40), 1);
        assert!(!is_short().await, "nobody has said how many there should be");
        following.look_for(100, 50);
        following.answered(&log, &landed(50), 1);
        assert!(!is_short().await);
        following.answered(&log, &landed(1), 1);
        assert!(is_short().await);
        following.answered(&log, &landed(10), 1);
        assert!(!is_short().await, "it was told");
        following.look_for(20, 50);
        assert!(following.has_few());
        following.gain(5);
        assert!(!following.has_few());
        following.gain(35);
        following.answered(&Note::Nothing, &[6, 0, 0, 0, 0, 0, 0, 0, 99], 1);
        assert!(!is_short().await);
        following.answered(&log, &landed(60), 1);
        assert!(is_short().await);
        // a log that had no room is told of, with what it needs
        let no_room = |need| [3, 0, 0, 0, 0, 0, 0, 0, 0, need, 0, 0, 0, 0];
        following.answered(&log, &no_room(9), 1);
        following.answered(&log, &no_room(7), 1);
        assert!(is_short().await);
        assert_eq!((following.take_needed(), following.take_needed()), (9, 0));
    }
}

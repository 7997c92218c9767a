//! Calls as a file system has them. Changes go into the log, and reads see them at once.

use crate::cache::{Cache, Cached};
use crate::client::{Access, Client};
use crate::course::Course;
use crate::desk::{Desk, LeaseKind, LeaseRefusal, Unanswered, Wanted, Wish};
use crate::draft::Draft;
use crate::entry::{Entry, Kind, PAYLOAD_LIMIT};
use crate::failure::Failure;
use crate::fault::{Fault, Reason};
use crate::judge::Held;
use crate::leases::Leases;
use crate::name::Name;
use crate::node::{Header, ROOT};
use crate::room::Room;
use crate::shown::{Shown, Stamp, Unshown};
use std::collections::HashMap;
use std::fmt;
use std::ops::RangeInclusive;
use std::time::{Duration, Instant};

/// How often an entry is tried at least. Each time but the last one more lease was lacking, or the log was full. While a lease is
/// waited for others may go, so behind that it is tried for as long as one waits.
const ATTEMPTS: usize = 12;
/// A read of so many bytes is worth a lease at once.
const LONG_READ: usize = 65_536;
/// How many leases are asked for at once.
const TOGETHER: usize = 256;
/// How long the first and each later pause is, where another client has the lease.
pub(crate) const FIRST_PAUSE: Duration = Duration::from_millis(1);
const LONGEST_PAUSE: Duration = Duration::from_millis(50);
/// How long no lease for reading is taken on a node on which one was given up.
const COURTESY: Duration = Duration::from_millis(100);
/// For how long a node on which another client wanted a lease is leased from one `poll` to the next alone.
const CONTENDED: Duration = Duration::from_secs(30);

/// How a session behaves.
#[derive(Clone, Debug, PartialEq, Eq)]
pub struct Options {
    /// How long a change waits in the log at most, where `poll` is called.
    pub linger: Duration,
    /// For how many moments a lease is asked for; kfsd's are seconds. Within the last half of them it is renewed, where it is
    /// used.
    pub term: u64,
    /// How long a call waits for another client's lease.
    pub patience: Duration,
    /// After how many reads of a file, or look-ups in a directory, a lease for reading is taken, so that later ones ask nobody; 0
    /// for never.
    pub reads_before_lease: u32,
    /// For how long a header that was told without a lease is believed, and the first bytes of a file that was opened; not at all,
    /// unless it is set. What is asked for ahead without a lease is no use else.
    pub age: Duration,
}

impl Default for Options {
    fn default() -> Options {
        let (linger, patience) = (Duration::from_secs(5), Duration::from_secs(10));
        Options { linger, term: 60, patience, reads_before_lease: 3, age: Duration::ZERO }
    }
}

/// A client's log, its leases, and the desk to which it comes.
#[derive(Debug)]
pub struct Session<D> {
    pub(crate) desk: D,
    pub(crate) draft: Draft,
    pub(crate) leases: Leases,
    pub(crate) cache: Cache,
    pub(crate) options: Options,
    /// For each entry of the log the calls that made it.
    pub(crate) calls: Vec<RangeInclusive<u64>>,
    /// The call that is under way, or the last one. They count from 1.
    call: u64,
    /// When the first entry of the log came.
    pub(crate) began: Option<Instant>,
    /// Whether the log may have been done.
    pub(crate) is_uncertain: bool,
    /// Whether a call waits for a lease, so that what it causes doesn't.
    pub(crate) is_waiting: bool,
    /// How often each node was read without a lease.
    reads: HashMap<u32, u32>,
    /// When leases were given up, so that who wants one gets it before this client asks again.
    given_up: HashMap<u32, Instant>,
    /// When others wanted leases.
    wished: HashMap<u32, Instant>,
    /// Where names were looked up last.
    pub(crate) course: Course,
    /// When the nodes were made that calls mean by their numbers.
    pub(crate) meant: HashMap<u32, u64>,
    pub(crate) room: Room,
    losses: Losses,
}

/// What is called before a lease on a directory goes, and with it what was kept of its names.
#[derive(Default)]
struct Losses(Option<Box<dyn FnMut() + Send>>);

impl fmt::Debug for Losses {
    fn fmt(&self, to: &mut fmt::Formatter<'_>) -> fmt::Result {
        to.write_str(if self.0.is_some() { "Losses(told)" } else { "Losses(untold)" })
    }
}

/// The leases of a client, and which nodes it means.
struct Guard<'a> {
    leases: &'a Leases,
    meant: &'a HashMap<u32, u64>,
}

impl Held for Guard<'_> {
    fn holds(&self, number: u32) -> bool {
        self.leases.holds(number)
    }

    fn meant(&self, number: u32) -> Option<u64> {
        self.meant.get(&number).copied()
    }
}

impl<D: Desk> Session<D> {
    /// The session of a client, with an empty log.
    pub fn new(desk: D, client: Client, options: Options) -> Session<D> {
        let mut cache = Cache::default();
        cache.set_age(options.age);
        Session {
            desk,
            draft: Draft::new(client),
            leases: Leases::default(),
            cache,
            options,
            calls: Vec::new(),
            call: 0,
            began: None,
            is_uncertain: false,
            is_waiting: false,
            reads: HashMap::new(),
            given_up: HashMap::new(),
            wished: HashMap::new(),
            course: Course::default(),
            meant: HashMap::new(),
            room: Room::default(),
            losses: Losses::default(),
        }
    }

    /// The log so far, with its changes.
    pub fn draft(&self) -> &Draft {
        &self.draft
    }

    /// The number of the last call that changes something, counted from 1. `Lost` tells of calls by it.
    pub fn last_call(&self) -> u64 {
        self.call
    }

    /// How it behaves from now on. `age` stays as it was.
    pub fn options_mut(&mut self) -> &mut Options {
        &mut self.options
    }

    /// Has this called before other clients may change names of a directory that they couldn't change so far: for who keeps such
    /// names outside of the session.
    pub fn tell_losses(&mut self, told: impl FnMut() + Send + 'static) {
        self.losses.0 = Some(Box::new(told));
    }

    /// A lease has ended, or is about to be given up.
    pub(crate) fn note_loss(&mut self, number: u32) {
        let is_file = self.cache.last_header(number).map_or(false, |header| !header.is_directory());
        if let Some(told) = self.losses.0.as_mut().filter(|_| !is_file) {
            told();
        }
        self.cache.forget(number);
    }

    /// The desk itself.
    pub fn desk(&mut self) -> &mut D {
        &mut self.desk
    }

    // ---- Reads

    /// From now on until this is called again a header is asked for once alone, but behind each new lease: for some calls that
    /// belong together, and are made at once. No number means a certain node any more.
    pub fn begin_together(&mut self) {
        self.cache.begin_together();
        self.meant.clear();
    }

    /// From now on until `begin_together` this number means the node that was made then (`Stamp`): a later one of the same number
    /// isn't changed, and calls that would do it are answered `NoSuchNode`.
    pub fn mean(&mut self, number: u32, born: u64) {
        self.meant.insert(number, born);
    }

    /// What the server keeps of a node beside its header, as it was told last. None where there was no such node, or the server
    /// tells none: then the root has none either.
    pub fn stamp(&self, number: u32) -> Option<Stamp> {
        self.desk.stamp(number)
    }

    /// What a node is.
    pub fn header(&mut self, number: u32) -> Result<Header, Failure> {
        self.pass_time()?;
        let header = self.look(|draft, shown| draft.header(shown, number))?;
        header.ok_or(Failure::Missing(Reason::NoSuchNode))
    }

    /// The same, and never as it was told without a lease before.
    pub fn header_of_now(&mut self, number: u32) -> Result<Header, Failure> {
        self.cache.look_anew(number);
        self.header(number)
    }

    /// What was shown without a lease is asked for again from now on.
    pub fn look_anew(&mut self) {
        self.cache.look_all_anew();
    }

    /// Whether the node's bits grant this.
    pub fn access(&mut self, number: u32, access: Access) -> Result<(), Failure> {
        let header = self.header(number)?;
        self.may(&header, access)
    }

    fn may(&self, header: &Header, access: Access) -> Result<(), Failure> {
        if self.draft.client().may(header, access) {
            Ok(())
        } else {
            Err(Failure::NotAllowed(access))
        }
    }

    fn directory(&mut self, number: u32, access: Access) -> Result<(), Failure> {
        self.note_reads(number, 1)?;
        let header = self.header(number)?;
        if !header.is_directory() {
            return Err(Failure::Missing(Reason::NotDirectory));
        }
        self.may(&header, access)
    }

    /// Where a name leads, and what is there.
    pub fn lookup(&mut self, directory: u32, name: &Name) -> Result<(u32, Header), Failure> {
        self.directory(directory, Access::Search)?;
        let found = self.look(|draft, shown| draft.find(shown, directory, name))?;
        let number = found.ok_or(Failure::Missing(Reason::NoSuchName))?;
        self.look_ahead(directory, name, number);
        Ok((number, self.header(number)?))
    }

    /// The first names of a directory behind this one, ascending, at most so many.
    pub fn list(&mut self, directory: u32, behind: Option<&Name>, most: usize) -> Result<Vec<(Name, u32)>, Failure> {
        self.directory(directory, Access::Read)?;
        self.look(|draft, shown| draft.list(shown, directory, behind, most))
    }

    /// The bytes of a file from a place on, at most so many. Its bits are for `access` to ask, when it is opened.
    pub fn read(&mut self, number: u32, start: u64, most: usize) -> Result<Vec<u8>, Failure> {
        self.pass_time()?;
        let is_long = most >= LONG_READ;
        self.note_reads(number, if is_long { self.options.reads_before_lease } else { 1 })?;
        let found = self.look(|draft, shown| draft.read(shown, number, start, most));
        // Who finds bytes has read a file.
        match found {
            Ok(bytes) if !bytes.is_empty() => Ok(bytes),
            // Who finds none asks whether the file is there still.
            _ if self.header_of_now(number)?.is_directory() => Err(Failure::Missing(Reason::IsDirectory)),
            found => found,
        }
    }

    /// The bytes of a short file that is opened, at most so many, as they are later than this call begins. They don't count as read.
    pub fn read_to_open(&mut self, number: u32, most: usize) -> Result<Vec<u8>, Failure> {
        self.pass_time()?;
        self.bytes_ahead(number);
        let bytes = self.look(|draft, shown| draft.read(shown, number, 0, most))?;
        if bytes.is_empty() {
            self.header_of_now(number)?;
        }
        Ok(bytes)
    }

    /// Looks something up, over what the server shows. That asks the modes that are kept: where it refuses, those of the log may
    /// allow it, which is handed in for that.
    pub(crate) fn look<T>(&mut self, look_up: impl Fn(&mut Draft, &mut dyn Shown) -> Result<T, Unshown>) -> Result<T, Failure> {
        let again = |session: &mut Session<D>| {
            let Session { desk, cache, leases, draft, .. } = session;
            look_up(draft, &mut Cached { shown: desk, cache, leases })
        };
        match again(self) {
            Err(Unshown::NotAllowed) if !self.draft.log().is_empty() => {
                self.sync_patiently()?;
                Ok(again(self)?)
            }
            found => Ok(found?),
        }
    }

    /// The node to which a path leads. `.` stands for where it is, and `..` for the directory above.
    pub fn walk(&mut self, path: &[u8]) -> Result<u32, Failure> {
        let mut at = ROOT;
        for part in path.split(|byte| *byte == b'/') {
            at = match part {
                b"" | b"." => at,
                b".." => self.draft.paths().parent(at).unwrap_or(ROOT),
                _ => self.lookup(at, &Name::new(part)?)?.0,
            };
        }
        Ok(at)
    }

    /// The file at a path. Where its last name isn't there, and a mode is given, it is made.
    pub fn open(&mut self, path: &[u8], mode: Option<u16>) -> Result<u32, Failure> {
        let cut = path.iter().rposition(|byte| *byte == b'/').map_or(0, |at| at + 1);
        let (directory, name) = (self.walk(&path[..cut])?, Name::new(&path[cut..])?);
        match (self.lookup(directory, &name), mode) {
            (Err(Failure::Missing(Reason::NoSuchName)), Some(mode)) => self.create(directory, &name, Kind::File, mode),
            (found, _) => Ok(found?.0),
        }
    }

    /// Takes a lease for reading on a node that is read often: a lease is a call that the server keeps, and costs more than a
    /// look-up. That it isn't to be had is no fault.
    fn note_reads(&mut self, number: u32, more: u32) -> Result<(), Failure> {
        let most = self.options.reads_before_lease;
        let is_given_up = matches!(self.given_up.get(&number), Some(at) if at.elapsed() < COURTESY);
        if most == 0 || is_given_up || self.draft.has_created(number) || self.leases.reads(number) {
            return Ok(());
        }
        let count = self.reads.entry(number).or_insert(0);
        *count = count.saturating_add(more);
        if *count >= most {
            self.reads.remove(&number);
            // One for reading would take the place of one that the log needs, and that may be live at the server still.
            let kind = if self.draft.needs(number) { LeaseKind::Write } else { LeaseKind::Read };
            let _refused = self.ask_lease(number, kind)?;
        }
        Ok(())
    }

    // ---- Changes

    /// Makes a file or a directory. Returns its number.
    pub fn create(&mut self, directory: u32, name: &Name, kind: Kind, mode: u16) -> Result<u32, Failure> {
        self.begin_call()?;
        let number = match self.free_number() {
            // What the log removes has its number until the log is done.
            Err(Failure::Entry { fault: Fault::NoNumber, .. }) if !self.draft.log().is_empty() => {
                self.sync_patiently()?;
                self.free_number()?
            }
            number => number?,
        };
        self.enter(&Entry::Create { directory, name: name.clone(), number, kind, mode })?;
        let next = self.draft.next_numbers();
        self.headers_ahead(next.into_iter());
        Ok(number)
    }

    /// Writes bytes at an offset. Returns how many were taken: fewer only where the others can't be.
    pub fn write(&mut self, number: u32, offset: u64, bytes: &[u8]) -> Result<usize, Failure> {
        self.begin_call()?;
        let mut done = 0;
        while done < bytes.len() {
            let (at, rest) = (offset.saturating_add(done as u64), &bytes[done..]);
            let count = self.draft.write_on(&self.leases, number, at, rest);
            if let Some(calls) = self.calls.last_mut().filter(|_| count > 0) {
                *calls = *calls.start()..=self.call;
                done += count;
                continue;
            }
            let payload = rest[..rest.len().min(PAYLOAD_LIMIT)].to_vec();
            let count = payload.len();
            match self.enter(&Entry::Write { number, offset: at, payload }) {
                Ok(()) => done += count,
                // Calls that are lost have to be told.
                Err(failure @ Failure::HandIn(_)) => return Err(failure),
                Err(_) if done > 0 => break,
                Err(failure) => return Err(failure),
            }
        }
        Ok(done)
    }

    /// Puts bytes behind the last one of a file, wherever that is by now. Returns the place of the first one, and how many were
    /// taken: fewer only where the others can't be.
    pub fn append(&mut self, number: u32, bytes: &[u8]) -> Result<(u64, usize), Failure> {
        self.begin_call()?;
        let (mut first, mut done) = (None, 0);
        while done < bytes.len() {
            let rest = &bytes[done..];
            let failed = |fault: Fault| Failure::Entry { errno: fault.errno(), fault };
            match self.insist(number, |session| session.try_append(number, rest), failed) {
                Ok((at, count)) => {
                    first.get_or_insert(at);
                    done += count;
                }
                // Calls that are lost have to be told.
                Err(failure @ Failure::HandIn(_)) => return Err(failure),
                Err(_) if done > 0 => break,
                Err(failure) => return Err(failure),
            }
        }
        Ok((first.unwrap_or(0), done))
    }

    /// Takes some bytes into the log behind the last one of a file. Without a lease no entry is taken, and with one the end that was
    /// shown is where the file ends.
    fn try_append(&mut self, number: u32, bytes: &[u8]) -> Result<(u64, usize), Fault> {
        let Session { desk, cache, leases, draft, .. } = self;
        let header = draft.header(&mut Cached { shown: desk, cache, leases }, number)?;
        let offset = header.ok_or(Fault::Refused(Reason::NoSuchNode))?.size;
        let count = draft.write_on(leases, number, offset, bytes);
        if let Some(calls) = self.calls.last_mut().filter(|_| count > 0) {
            *calls = *calls.start()..=self.call;
            return Ok((offset, count));
        }
        let payload = bytes[..bytes.len().min(PAYLOAD_LIMIT)].to_vec();
        let count = payload.len();
        self.try_enter(&Entry::Write { number, offset, payload })?;
        self.calls.push(self.call..=self.call);
        Ok((offset, count))
    }

    /// Gives a file another size.
    pub fn truncate(&mut self, number: u32, size: u64) -> Result<(), Failure> {
        self.begin_call()?;
        self.enter_to_free(&Entry::Truncate { number, size })
    }

    /// Gives a file one more name.
    pub fn link(&mut self, number: u32, directory: u32, name: &Name) -> Result<(), Failure> {
        self.change(&Entry::Link { number, directory, name: name.clone() })
    }

    /// Takes a name away, of a file or of an empty directory.
    pub fn unlink(&mut self, directory: u32, name: &Name, kind: Kind) -> Result<(), Failure> {
        self.begin_call()?;
        self.enter_to_free(&Entry::Unlink { directory, name: name.clone(), kind })
    }

    /// Gives a node another name. What had that name loses it.
    pub fn rename(&mut self, from: u32, name: &Name, to: u32, new_name: &Name) -> Result<(), Failure> {
        let (name, new_name) = (name.clone(), new_name.clone());
        self.change(&Entry::Rename { directory: from, name, new_directory: to, new_name })
    }

    /// Gives a node another mode.
    pub fn change_mode(&mut self, number: u32, mode: u16) -> Result<(), Failure> {
        self.change(&Entry::Chmod { number, mode })
    }

    /// Gives a node another group.
    pub fn change_group(&mut self, number: u32, group: u32) -> Result<(), Failure> {
        self.change(&Entry::Regroup { number, group })
    }

    /// The next number for a new node.
    fn free_number(&mut self) -> Result<u32, Failure> {
        let Session { desk, cache, leases, draft, .. } = self;
        let number = draft.free_number(&mut Cached { shown: desk, cache, leases });
        number.map_err(|fault| Failure::Entry { errno: fault.errno(), fault })
    }

    /// Takes an entry that an earlier session has left.
    pub(crate) fn take_again(&mut self, entry: &Entry) -> Result<(), Failure> {
        self.begin_call()?;
        self.enter(entry)
    }

    /// This number for a new node, where it is free, or another one.
    pub(crate) fn number_like(&mut self, number: u32) -> Result<u32, Failure> {
        let Session { desk, cache, leases, draft, .. } = self;
        let mut shown = Cached { shown: desk, cache, leases };
        let found = match draft.is_free(&mut shown, number) {
            Ok(true) => Ok(number),
            Ok(false) => draft.free_number(&mut shown),
            Err(fault) => Err(fault.into()),
        };
        found.map_err(|fault| Failure::Entry { errno: fault.errno(), fault })
    }

    /// The next call begins. A log of which nobody knows whether it was done takes no entry: that is found out before.
    fn begin_call(&mut self) -> Result<(), Failure> {
        self.call += 1;
        self.pass_time()?;
        if self.is_uncertain {
            self.sync_patiently()?;
        }
        Ok(())
    }

    fn change(&mut self, entry: &Entry) -> Result<(), Failure> {
        self.begin_call()?;
        self.enter(entry)
    }

    /// Takes an entry into the log.
    pub(crate) fn enter(&mut self, entry: &Entry) -> Result<(), Failure> {
        self.insist(entry.number(), |session| session.try_enter(entry), |fault| Failure::of(fault, entry))?;
        self.calls.push(self.call..=self.call);
        Ok(())
    }

    /// Tries to take an entry into the log until it is, or can't be. Leases that are lacking are taken, and a full log is handed in
    /// before.
    fn insist<T>(
        &mut self,
        number: u32,
        attempt: impl Fn(&mut Session<D>) -> Result<T, Fault>,
        failed: impl Fn(Fault) -> Failure,
    ) -> Result<T, Failure> {
        let until = Instant::now() + self.options.patience;
        for count in 1.. {
            match attempt(self) {
                Ok(taken) => return Ok(taken),
                Err(Fault::Refused(Reason::NoLease(number))) => self.take_lease(number, LeaseKind::Write)?,
                Err(Fault::Full(_)) => self.sync_patiently()?,
                Err(Fault::Unshown(Unshown::NotAllowed)) if !self.draft.log().is_empty() => self.sync_patiently()?,
                Err(fault) => return Err(failed(fault)),
            }
            if count >= ATTEMPTS && Instant::now() >= until {
                break;
            }
        }
        Err(Failure::Lease(number, LeaseRefusal::Past))
    }

    /// A number that stays the same while a lease on the node is held without a gap; none where there is no lease.
    pub fn held_since(&mut self, number: u32) -> Result<Option<u64>, Failure> {
        self.pass_time()?;
        Ok(self.leases.since(number))
    }

    pub(crate) fn try_enter(&mut self, entry: &Entry) -> Result<(), Fault> {
        let Session { desk, cache, leases, draft, meant, .. } = self;
        let leases = &*leases;
        draft.enter(&mut Cached { shown: desk, cache, leases }, &Guard { leases, meant }, entry)?;
        draft.mean(meant, leases);
        self.began.get_or_insert_with(Instant::now);
        Ok(())
    }

    // ---- Leases

    /// Asks for a lease, and waits where another client has one. Meanwhile it gives up what others want.
    pub(crate) fn take_lease(&mut self, number: u32, kind: LeaseKind) -> Result<(), Failure> {
        let until = Instant::now() + self.options.patience;
        let mut pause = FIRST_PAUSE;
        loop {
            let refusal = match self.ask_lease(number, kind)? {
                Ok(()) => return Ok(()),
                Err(refusal) => refusal,
            };
            // The log may have changed what the server asks of a path, or of the node.
            let is_changed = !refusal.may_pass() && !self.draft.log().is_empty();
            if is_changed && !self.is_waiting {
                self.sync_patiently()?;
                continue;
            }
            if !refusal.may_pass() || self.is_waiting || self.desk.is_ending() || Instant::now() >= until {
                return Err(Failure::Lease(number, refusal));
            }
            self.wait_a_while(&mut pause)?;
        }
    }

    /// Gives up what others want, has leases renewed, and waits for a while.
    pub(crate) fn wait_a_while(&mut self, pause: &mut Duration) -> Result<(), Failure> {
        self.is_waiting = true;
        let given = self.give_up_wanted();
        let renewed = self.renew();
        self.is_waiting = false;
        self.desk.wait_for_news(*pause);
        *pause = (*pause * 5 / 4).min(LONGEST_PAUSE);
        given?;
        Ok(renewed?)
    }

    /// Has the leases renewed that are used, or that the log needs. One that isn't renewed ends at its end.
    fn renew(&mut self) -> Result<(), Unanswered> {
        let due = self.leases.due(self.term() / 2, |number| self.draft.needs(number));
        self.ask_leases(&due)
    }

    fn ask_lease(&mut self, number: u32, kind: LeaseKind) -> Result<Result<(), LeaseRefusal>, Unanswered> {
        let wanted = self.wanted(number, kind)?;
        let answer = self.desk.lease(&wanted)?;
        self.take_over(&wanted, answer)?;
        Ok(answer)
    }

    /// Asks for some leases at once, each as by `ask_lease`.
    pub(crate) fn ask_leases(&mut self, some: &[(u32, LeaseKind)]) -> Result<(), Unanswered> {
        for some in some.chunks(TOGETHER) {
            let wanted: Result<Vec<_>, _> = some.iter().map(|(number, kind)| self.wanted(*number, *kind)).collect();
            let wanted = wanted?;
            let answers = self.desk.leases(&wanted)?;
            for (wanted, answer) in wanted.iter().zip(answers) {
                self.take_over(wanted, answer)?;
            }
        }
        Ok(())
    }

    /// How long a lease lives from now on, in moments.
    fn term(&self) -> u64 {
        self.options.term.min(self.desk.longest_term())
    }

    /// A lease, as it is asked for now.
    fn wanted(&mut self, number: u32, kind: LeaseKind) -> Result<Wanted, Unanswered> {
        let end = self.pass_time()?.saturating_add(self.term());
        Ok(Wanted { number, path: self.draft.paths().path_shown(number), kind, end })
    }

    /// Takes over how a lease was answered. The answer may have been long in coming: where the lease before has ended meanwhile,
    /// another client may have had one.
    fn take_over(&mut self, wanted: &Wanted, answer: Result<(), LeaseRefusal>) -> Result<(), Unanswered> {
        self.pass_time()?;
        self.cache.look_anew(wanted.number);
        match answer {
            Ok(()) => self.leases.grant(wanted.number, wanted.kind, wanted.end),
            // It has taken the place of one that is held.
            Err(LeaseRefusal::Elsewhere(found)) if self.leases.reads(found) => {
                self.cache.look_anew(found);
                self.leases.grant(found, wanted.kind, wanted.end);
            }
            Err(LeaseRefusal::Elsewhere(found)) => {
                let _none_held = self.desk.drop_lease(found)?;
            }
            Err(_) => {}
        }
        Ok(())
    }

    /// Looks which moment it is. What was shown under leases that have ended is forgotten.
    pub(crate) fn pass_time(&mut self) -> Result<u64, Unanswered> {
        let moment = self.desk.moment()?;
        for number in self.leases.set_moment(moment) {
            self.note_loss(number);
        }
        Ok(moment)
    }

    /// Gives up the leases that others want.
    fn give_up_wanted(&mut self) -> Result<(), Failure> {
        // They are told once, so each is given up, whatever becomes of the others.
        let given: Vec<_> = self.desk.wanted_by_others()?.into_iter().map(|wish| self.grant_wish(wish)).collect();
        given.into_iter().collect()
    }

    fn grant_wish(&mut self, wish: Wish) -> Result<(), Failure> {
        let wanted = match wish {
            Wish::Node(number) => Some(number),
            Wish::Path(path) => self.node_at(&path)?,
        };
        match wanted {
            Some(number) => {
                self.wished.insert(number, Instant::now());
                self.give_up(number)
            }
            None => Ok(()),
        }
    }

    /// Gives up the leases that others have wanted lately, and that this client has taken again: who wants one again may not be
    /// told a second time.
    fn give_up_contended(&mut self) -> Result<(), Failure> {
        self.wished.retain(|_, at| at.elapsed() < CONTENDED);
        self.given_up.retain(|_, at| at.elapsed() < COURTESY);
        let held: Vec<u32> = self.wished.keys().copied().filter(|number| self.leases.reads(*number)).collect();
        let given: Vec<_> = held.into_iter().map(|number| self.give_up(number)).collect();
        given.into_iter().collect()
    }

    /// The node to which a path leads that another client has gone, if this one may see it.
    fn node_at(&mut self, path: &[u8]) -> Result<Option<u32>, Failure> {
        match self.walk(path) {
            Ok(number) => Ok(Some(number)),
            Err(failure @ (Failure::Unanswered(_) | Failure::HandIn(_) | Failure::Unshown(Unshown::Gone(_)))) => Err(failure),
            Err(_) => Ok(None),
        }
    }

    /// Hands the log in, and gives a lease up. Where the log isn't kept, the lease goes all the same.
    pub fn give_up(&mut self, number: u32) -> Result<(), Failure> {
        let is_held = self.leases.reads(number);
        let handed_in = if is_held || self.draft.needs(number) { self.sync() } else { Ok(()) };
        if is_held {
            self.leases.forget(number);
            self.note_loss(number);
            self.given_up.insert(number, Instant::now());
        }
        // Also one that has ended here, and one of an earlier session of this client: it may be live still.
        let _none_held = self.desk.drop_lease(number)?;
        Ok(handed_in?)
    }

    /// Gives up the leases that others want, if they do: call it where `Desk::news` has something to read, or more often than `poll`.
    pub fn hear(&mut self) -> Result<(), Failure> {
        self.pass_time()?;
        self.give_up_wanted()
    }

    /// Does what is due: leases that others want are given up, those that are used are renewed, and a log that has waited long
    /// enough, or needs a lease that ends soon, is handed in. Call it now and then, some times within `linger`.
    pub fn poll(&mut self) -> Result<(), Failure> {
        self.pass_time()?;
        self.take_told();
        self.give_up_wanted()?;
        self.give_up_contended()?;
        self.renew()?;
        if self.is_due() {
            self.sync()?;
        }
        Ok(())
    }

    /// Whether the log is to be handed in by now.
    fn is_due(&self) -> bool {
        let is_old = self.began.map_or(false, |began| began.elapsed() >= self.options.linger);
        let soon = (self.term() / 4).max(1);
        is_old || self.leases.ending_within(soon).any(|number| self.draft.needs(number))
    }

    /// Hands the log in, and gives all leases up. Where the log isn't kept the session is as it was.
    pub fn close(&mut self) -> Result<(), Failure> {
        self.sync_patiently()?;
        let held = self.leases.numbers();
        self.leases.forget_all();
        self.cache.clear();
        Ok(self.desk.drop_leases(&held)?)
    }
}

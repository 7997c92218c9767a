//! A session at a server in memory that is told what to say of leases and logs: what comes late, is refused for a while, or has
//! changed meanwhile.

use kfs_client::desk::{Answer, Desk, LeaseKind, LeaseRefusal, Unanswered, Wanted, Wish};
use kfs_client::memory::Memory;
use kfs_client::node::ROOT;
use kfs_client::{Client, Draft, Entry, HandInFault, Header, Kind, Name, Options, Reason, Session, Shown, Unshown};
use nix::errno::Errno;
use std::collections::VecDeque;
use std::time::Duration;

/// A server that answers as it is told, and else as one at which everybody has each lease.
struct Told {
    memory: Memory,
    moment: u64,
    /// How many moments pass while leases are asked for.
    passes: u64,
    refusals: VecDeque<LeaseRefusal>,
    /// A node that another client has, and for how many calls more.
    held: (u32, usize),
    answers: VecDeque<Answer>,
    asked: Vec<Wanted>,
    /// How many leases were asked for at once.
    at_once: Vec<usize>,
    dropped: Vec<u32>,
}

impl Shown for Told {
    fn header(&mut self, number: u32) -> Result<Option<Header>, Unshown> {
        self.memory.header(number)
    }

    fn find(&mut self, directory: u32, name: &Name) -> Result<Option<u32>, Unshown> {
        self.memory.find(directory, name)
    }

    fn list(&mut self, directory: u32, behind: Option<&Name>, most: usize) -> Result<Vec<(Name, u32)>, Unshown> {
        self.memory.list(directory, behind, most)
    }

    fn read(&mut self, number: u32, start: u64, most: usize) -> Result<Vec<u8>, Unshown> {
        self.memory.read(number, start, most)
    }
}

impl Desk for Told {
    fn lease(&mut self, wanted: &Wanted) -> Result<Result<(), LeaseRefusal>, Unanswered> {
        self.asked.push(wanted.clone());
        self.moment += std::mem::take(&mut self.passes);
        if wanted.number == self.held.0 && self.held.1 > 0 {
            self.held.1 -= 1;
            return Ok(Err(LeaseRefusal::Held(8)));
        }
        Ok(self.refusals.pop_front().map_or(Ok(()), Err))
    }

    fn leases(&mut self, wanted: &[Wanted]) -> Result<Vec<Result<(), LeaseRefusal>>, Unanswered> {
        self.at_once.push(wanted.len());
        wanted.iter().map(|one| self.lease(one)).collect()
    }

    fn drop_lease(&mut self, number: u32) -> Result<Result<(), LeaseRefusal>, Unanswered> {
        self.dropped.push(number);
        Ok(Ok(()))
    }

    fn submit(&mut self, log: &[u8], plan: &[u8]) -> Result<Answer, Unanswered> {
        match self.answers.pop_front() {
            Some(answer) => Ok(answer),
            None => self.memory.submit(log, plan),
        }
    }

    fn moment(&mut self) -> Result<u64, Unanswered> {
        Ok(self.moment)
    }

    fn wanted_by_others(&mut self) -> Result<Vec<Wish>, Unanswered> {
        Ok(Vec::new())
    }
}

fn client() -> Client {
    Client { number: 7, uid: 1000, gid: 1000, groups: vec![], is_privileged: false, grant: [2, 99] }
}

fn name(text: &str) -> Name {
    Name::new(text.as_bytes()).unwrap()
}

fn session(options: Options) -> Session<Told> {
    let desk = Told {
        memory: Memory::new(client()),
        moment: 0,
        passes: 0,
        refusals: VecDeque::new(),
        held: (0, 0),
        answers: VecDeque::new(),
        asked: Vec::new(),
        at_once: Vec::new(),
        dropped: Vec::new(),
    };
    Session::new(desk, client(), options)
}

fn quick() -> Options {
    Options { patience: Duration::from_millis(0), ..Options::default() }
}

/// What stands in the file at the server.
fn kept(session: &mut Session<Told>, file: &str) -> Option<Vec<u8>> {
    let desk = session.desk();
    let number = desk.find(ROOT, &name(file)).unwrap()?;
    Some(desk.read(number, 0, 1 << 20).unwrap())
}

/// Another client makes a change.
fn change_beside(session: &mut Session<Told>, entry: &Entry) {
    let memory = &mut session.desk().memory;
    let mut draft = Draft::new(client());
    let mut leases = kfs_client::leases::Leases::default();
    (1..100).for_each(|number| leases.grant(number, LeaseKind::Write, u64::MAX));
    draft.enter(memory, &leases, entry).unwrap();
    assert_eq!(memory.submit(draft.log().as_bytes(), &draft.plan().to_bytes()).unwrap(), Answer::Yes);
}

#[test]
fn no_call_is_lost_where_its_lease_ends_again_and_again() {
    let mut mine = session(quick());
    let file = mine.open(b"/a", Some(0o644)).unwrap();
    mine.sync().unwrap();
    mine.write(file, 0, b"x").unwrap();
    mine.rename(ROOT, &name("a"), ROOT, &name("b")).unwrap();
    let no_lease = Answer::Entry(0, Reason::NoLease(file));
    mine.desk().answers = [no_lease; 2].into();
    mine.sync().unwrap();
    assert_eq!((kept(&mut mine, "a"), kept(&mut mine, "b").unwrap()), (None, b"x".to_vec()));
    // Also where it ends more often than a log is handed in at once.
    mine.write(file, 1, b"y").unwrap();
    mine.desk().answers = [no_lease; 3].into();
    let failure = mine.sync().unwrap_err();
    assert!(failure.may_pass(), "{failure}");
    assert!(matches!(failure, HandInFault::Refused { ref lost, stays: 1, .. } if lost.is_empty()), "{failure}");
    mine.sync().unwrap();
    assert_eq!(kept(&mut mine, "b").unwrap(), b"xy");
}

#[test]
fn all_leases_of_a_log_are_asked_for_before_it_is_handed_in_again() {
    let mut mine = session(quick());
    let files: Vec<u32> = (0..5).map(|at| mine.open(format!("/{at}").as_bytes(), Some(0o644)).unwrap()).collect();
    mine.sync().unwrap();
    (0..5).for_each(|at| mine.rename(ROOT, &name(&at.to_string()), ROOT, &name(&format!("{at}{at}"))).unwrap());
    let created = mine.open(b"/new", Some(0o644)).unwrap();
    mine.desk().asked.clear();
    mine.desk().answers = [Answer::Entry(4, Reason::NoLease(files[4]))].into();
    mine.sync().unwrap();
    let asked: Vec<u32> = mine.desk().asked.iter().map(|wanted| wanted.number).collect();
    assert_eq!(asked, [&[ROOT], &files[..]].concat());
    assert!(!asked.contains(&created));
    assert_eq!(mine.desk().at_once, [6]);
    assert!(kept(&mut mine, "44").is_some() && kept(&mut mine, "new").is_some());
}

#[test]
fn a_log_that_takes_too_much_stays() {
    let mut mine = session(quick());
    let file = mine.open(b"/a", Some(0o644)).unwrap();
    mine.write(file, 0, b"x").unwrap();
    mine.desk().answers = [Answer::NoSpace; 2].into();
    let failure = mine.sync().unwrap_err();
    assert!(matches!(failure, HandInFault::NoSpace) && !failure.may_pass(), "{failure}");
    assert_eq!(failure.errno(), Errno::EDQUOT);
    let failure = mine.close().unwrap_err();
    assert_eq!(failure.errno(), Errno::EDQUOT);
    assert_eq!(mine.draft().log().len(), 2);
    mine.write(file, 1, b"y").unwrap();
    mine.sync().unwrap();
    assert_eq!(kept(&mut mine, "a").unwrap(), b"xy");
}

#[test]
fn no_call_is_lost_where_a_lease_is_refused_for_a_while() {
    for refusal in [LeaseRefusal::Wanted, LeaseRefusal::TooFar, LeaseRefusal::Past, LeaseRefusal::Held(8)] {
        let mut mine = session(quick());
        mine.open(b"/a", Some(0o644)).unwrap();
        mine.desk().answers = [Answer::Entry(0, Reason::NoLease(ROOT))].into();
        mine.desk().refusals = [refusal; 2].into();
        let failure = mine.sync().unwrap_err();
        assert!(matches!(failure, HandInFault::Lease(ROOT, found) if found == refusal), "{failure}");
        assert_eq!(mine.draft().log().len(), 1);
        mine.sync().unwrap();
        assert!(kept(&mut mine, "a").is_some());
    }
}

#[test]
fn what_is_refused_for_a_while_is_waited_for() {
    let mut mine = session(Options::default());
    mine.desk().refusals = [LeaseRefusal::Wanted, LeaseRefusal::TooFar, LeaseRefusal::Held(8)].into();
    mine.open(b"/a", Some(0o644)).unwrap();
    mine.desk().answers = [Answer::Entry(0, Reason::NoLease(ROOT))].into();
    mine.desk().refusals = [LeaseRefusal::Wanted; 5].into();
    mine.sync_patiently().unwrap();
    assert!(kept(&mut mine, "a").is_some());
}

#[test]
fn leases_live_by_the_moment_of_a_server_that_was_killed() {
    let mut mine = session(quick());
    mine.desk().moment = 1000;
    let file = mine.open(b"/a", Some(0o644)).unwrap();
    mine.sync().unwrap();
    mine.desk().moment = 10;
    mine.write(file, 0, b"x").unwrap();
    mine.rename(ROOT, &name("a"), ROOT, &name("b")).unwrap();
    mine.sync().unwrap();
    assert_eq!(kept(&mut mine, "b").unwrap(), b"x");
}

#[test]
fn what_changed_while_a_lease_was_asked_for_anew_is_seen() {
    let mut mine = session(quick());
    let file = mine.open(b"/a", Some(0o644)).unwrap();
    mine.write(file, 0, b"old").unwrap();
    mine.close().unwrap();
    (0..4).for_each(|_| assert_eq!(mine.read(file, 0, 9).unwrap(), b"old"));
    let since = mine.held_since(file).unwrap();
    assert!(since.is_some());
    // Its lease ends at 60. It is asked for at 50, and granted at 70: another client has had one in between.
    mine.desk().moment = 50;
    mine.desk().passes = 20;
    change_beside(&mut mine, &Entry::Write { number: file, offset: 0, payload: b"new".to_vec() });
    mine.poll().unwrap();
    assert_eq!(mine.desk().moment, 70);
    assert_eq!(mine.read(file, 0, 9).unwrap(), b"new");
    assert!(mine.held_since(file).unwrap() > since);
}

#[test]
fn a_log_is_handed_in_before_its_leases_end() {
    let mut mine = session(Options { linger: Duration::from_secs(3600), term: 100, ..quick() });
    mine.open(b"/a", Some(0o644)).unwrap();
    mine.desk().moment = 70;
    mine.desk().refusals = [LeaseRefusal::Wanted].into();
    mine.poll().unwrap();
    assert_eq!(kept(&mut mine, "a"), None);
    mine.desk().moment = 80;
    mine.desk().refusals = [LeaseRefusal::Wanted].into();
    mine.poll().unwrap();
    assert!(kept(&mut mine, "a").is_some());
}

#[test]
fn leases_are_renewed_while_another_one_is_waited_for() {
    let mut mine = session(Options { linger: Duration::from_secs(3600), term: 100, ..Options::default() });
    let [one, other] = [&b"/a"[..], b"/b"].map(|path| mine.open(path, Some(0o644)).unwrap());
    mine.close().unwrap();
    mine.write(one, 0, b"x").unwrap();
    mine.desk().asked.clear();
    mine.desk().passes = 60;
    mine.desk().held = (other, 3);
    mine.write(other, 0, b"y").unwrap();
    let asked: Vec<(u32, u64)> = mine.desk().asked.iter().map(|wanted| (wanted.number, wanted.end)).collect();
    assert_eq!(asked, [(other, 100), (one, 160), (other, 160), (other, 160), (other, 160)]);
    // What the log needs is renewed also where nothing has asked for it since.
    mine.desk().moment = 120;
    mine.desk().asked.clear();
    mine.poll().unwrap();
    assert!(mine.desk().asked.iter().any(|wanted| wanted.number == one && wanted.end == 220));
    mine.sync().unwrap();
    assert_eq!((kept(&mut mine, "a").unwrap(), kept(&mut mine, "b").unwrap()), (b"x".to_vec(), b"y".to_vec()));
}

#[test]
fn a_lease_is_asked_for_by_the_path_that_the_server_knows() {
    let mut mine = session(quick());
    mine.create(ROOT, &name("d"), Kind::Directory, 0o755).unwrap();
    let file = mine.open(b"/d/f", Some(0o644)).unwrap();
    mine.close().unwrap();
    mine.rename(ROOT, &name("d"), ROOT, &name("e")).unwrap();
    assert_eq!(mine.walk(b"/e/f").unwrap(), file);
    let directory = mine.walk(b"/e").unwrap();
    mine.rename(directory, &name("f"), ROOT, &name("g")).unwrap();
    mine.desk().answers = [Answer::Entry(0, Reason::NoLease(ROOT))].into();
    mine.desk().asked.clear();
    mine.sync().unwrap();
    let path_of = |number| mine.desk().asked.iter().find(|wanted| wanted.number == number).unwrap().path.clone().unwrap();
    let mut path_of = path_of;
    assert_eq!((path_of(directory), path_of(file)), (b"/d".to_vec(), b"/d/f".to_vec()));
    assert_eq!(mine.walk(b"/g").unwrap(), file);
    mine.write(file, 0, b"x").unwrap();
    mine.close().unwrap();
    mine.write(file, 0, b"y").unwrap();
    assert_eq!(mine.desk().asked.last().unwrap().path.as_deref(), Some(&b"/g"[..]));
}

#[test]
fn a_lease_that_was_got_by_a_wrong_path_does_no_harm() {
    let mut mine = session(quick());
    let [one, other] = [&b"/a"[..], b"/b"].map(|path| mine.open(path, Some(0o644)).unwrap());
    mine.close().unwrap();
    mine.write(one, 0, b"x").unwrap();
    mine.desk().dropped.clear();
    mine.desk().refusals = [LeaseRefusal::Elsewhere(one), LeaseRefusal::Elsewhere(50)].into();
    // The log is handed in, since it may have moved what stands there.
    assert!(mine.write(other, 0, b"y").is_err());
    assert_eq!(kept(&mut mine, "a").unwrap(), b"x");
    // The lease that is held stays, and the one that nobody asked for goes.
    assert_eq!(mine.desk().dropped, [50]);
    assert!(mine.held_since(one).unwrap().is_some());
}

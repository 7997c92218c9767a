//! Tests of a mount's locks over a server that knows them.

use super::*;
use kfs_client::desk::{Answer, LeaseRefusal, Unanswered, Wanted, Wish};
use kfs_client::memory::Memory;
use kfs_client::{Client, Header, Kind, Name, Options, Session, Shown, Unshown};

/// A server in memory that has locks, and may take no log.
struct Locked {
    memory: Memory,
    held: HeldLocks,
    takes_no_log: bool,
    /// Another client has a lock on all.
    is_in_the_way: bool,
    freed: Vec<u32>,
    asked: Vec<(LockKind, LockHow)>,
}

impl Shown for Locked {
    fn header(&mut self, number: u32) -> Result<Option<Header>, Unshown> {
        self.memory.header(number)
    }

    fn find(&mut self, directory: u32, name: &Name) -> Result<Option<u32>, Unshown> {
        self.memory.find(directory, name)
    }

    fn list(&mut self, directory: u32, behind: Option<&Name>, most: usize) -> Result<Vec<(Name, u32)>, Unshown> {
        self.memory.list(directory, behind, most)
    }

    fn read(&mut self, number: u32, start: u64, most: usize) -> Result<Vec<u8>, Unshown> {
        self.memory.read(number, start, most)
    }
}

impl Desk for Locked {
    fn lease(&mut self, wanted: &Wanted) -> Result<Result<(), LeaseRefusal>, Unanswered> {
        self.memory.lease(wanted)
    }

    fn drop_lease(&mut self, number: u32) -> Result<Result<(), LeaseRefusal>, Unanswered> {
        self.memory.drop_lease(number)
    }

    fn submit(&mut self, log: &[u8], plan: &[u8]) -> Result<Answer, Unanswered> {
        match self.takes_no_log {
            true => Err(Unanswered::NoMemory),
            false => self.memory.submit(log, plan),
        }
    }

    fn moment(&mut self) -> Result<u64, Unanswered> {
        self.memory.moment()
    }

    fn wanted_by_others(&mut self) -> Result<Vec<Wish>, Unanswered> {
        self.memory.wanted_by_others()
    }

    fn has_locks(&mut self) -> bool {
        true
    }

    fn lock(&mut self, lock: &Lock, how: LockHow) -> Result<Option<LockAnswer>, Unanswered> {
        self.asked.push((lock.kind, how));
        let conflict = Conflict { kind: LockKind::Write, first: 5, last: u64::MAX, pid: 0 };
        let answer = match (lock.kind, how) {
            (LockKind::Unlock, _) => {
                self.held.give_up(lock);
                LockAnswer::Granted
            }
            (_, LockHow::GiveUp) => LockAnswer::Granted,
            _ if self.is_in_the_way => LockAnswer::Conflicts(conflict),
            _ => LockAnswer::Granted,
        };
        self.held.take_over(lock, how, &answer);
        Ok(Some(answer))
    }

    fn held_locks(&mut self) -> Option<&mut HeldLocks> {
        Some(&mut self.held)
    }

    fn freed_locks(&mut self) -> Vec<u32> {
        std::mem::take(&mut self.freed)
    }
}

/// A volume with a file that is kept, and its id.
fn volume() -> (Volume<Locked>, u64) {
    let client = Client { number: 7, uid: 1000, gid: 1000, groups: vec![], is_privileged: false, grant: [2, 99] };
    let (memory, held) = (Memory::new(client.clone()), HeldLocks::default());
    let desk = Locked { memory, held, takes_no_log: false, is_in_the_way: false, freed: vec![], asked: vec![] };
    let mut volume = Volume::new(Session::new(desk, client, Options::default()));
    assert!(volume.begin_locking());
    let id = volume.make(1, b"a", Kind::File, 0o644).unwrap().0;
    volume.sync().unwrap();
    (volume, id)
}

const GET: u32 = 31;
const SET: u32 = 32;
const SET_WAITING: u32 = 33;
const FLUSH: u32 = 25;
const RELEASE: u32 = 18;
const INTERRUPT: u32 = 36;

/// The bytes of a request of the number 9.
fn request(operation: u32, id: u64, put: impl Fn(&mut Reply)) -> Vec<u8> {
    let mut bytes = Reply::default();
    bytes.word(0).word(operation).long(9).long(id).zeros(16);
    put(&mut bytes);
    bytes.0
}

/// Asks for a lock of the bytes from 5 on, by handle 3 and for owner 4.
fn ask(volume: &mut Volume<Locked>, operation: u32, id: u64, kind: LockKind, flags: u32) -> Option<Told> {
    let bytes = request(operation, id, |it| {
        it.long(3).long(4).long(5).long(LAST).word(kind as u32).word(77).word(flags).word(0);
    });
    volume.lock(&mut Request::of(&bytes).unwrap())
}

fn errno(told: Option<Told>) -> Option<Errno> {
    told.unwrap().reply.unwrap().1.err()
}

#[test]
fn the_kernel_forgets_a_file_with_a_new_lock() {
    let (mut volume, id) = volume();
    // what is kept without a lease
    volume.session.give_up(number_of(id)).unwrap();
    let told = ask(&mut volume, SET, id, LockKind::Read, 0).unwrap();
    assert_eq!((told.forgets, told.reply.unwrap().1.is_ok()), (Some(id), true));
    // it has it already
    assert_eq!(ask(&mut volume, SET, id, LockKind::Read, 0).unwrap().forgets, None);
    assert_eq!(ask(&mut volume, GET, id, LockKind::Write, 0).unwrap().reply.unwrap().1.unwrap().0[16..20], [2, 0, 0, 0]);
    volume.desk().is_in_the_way = true;
    let conflict = ask(&mut volume, GET, id, LockKind::Write, 0).unwrap().reply.unwrap().1.unwrap().0;
    assert_eq!((&conflict[..8], &conflict[8..16]), (&5u64.to_ne_bytes()[..], &LAST.to_ne_bytes()[..]));
    assert_eq!(errno(ask(&mut volume, SET, id, LockKind::Write, 0)), Some(Errno::EAGAIN));
    assert_eq!(errno(ask(&mut volume, SET, id, LockKind::Unlock, 0)), None);
    assert!(volume.desk().held.is_empty());
}

#[test]
fn who_waits_is_answered_later() {
    let (mut volume, id) = volume();
    volume.desk().is_in_the_way = true;
    assert!(ask(&mut volume, SET_WAITING, id, LockKind::Write, 0).is_none());
    assert!(volume.poll_locks().is_empty(), "nothing has gone");
    let interrupt = request(INTERRUPT, id, |it| {
        it.long(9);
    });
    assert_eq!(errno(volume.interrupt(&mut Request::of(&interrupt).unwrap())), Some(Errno::EINTR));
    assert_eq!(volume.desk().asked.last(), Some(&(LockKind::Write, LockHow::GiveUp)));
    assert!(volume.interrupt(&mut Request::of(&interrupt).unwrap()).is_none());
    assert!(ask(&mut volume, SET_WAITING, id, LockKind::Write, 0).is_none());
    (volume.desk().is_in_the_way, volume.desk().freed) = (false, vec![number_of(id)]);
    let mut told = volume.poll_locks();
    assert_eq!((told.len(), errno(told.pop()), volume.poll_locks().len()), (1, None, 0));
    assert_eq!(volume.desk().held.all().len(), 1);
}

#[test]
fn a_lock_is_given_up_once_the_log_is_handed_in() {
    let (mut volume, id) = volume();
    assert_eq!(errno(ask(&mut volume, SET, id, LockKind::Write, 0)), None);
    volume.write(id, 0, b"mine", 0).unwrap();
    volume.desk().takes_no_log = true;
    // who reads from now on would let others do so, too
    assert_eq!(errno(ask(&mut volume, SET, id, LockKind::Read, 0)), Some(Errno::ENOMEM));
    assert_eq!(errno(ask(&mut volume, SET, id, LockKind::Unlock, 0)), None);
    assert_eq!(volume.desk().held.all().len(), 1);
    volume.desk().takes_no_log = false;
    let until = Instant::now() + Duration::from_secs(30);
    while !volume.desk().held.is_empty() {
        assert!(volume.poll_locks().is_empty() && Instant::now() < until);
        std::thread::sleep(Duration::from_millis(20));
    }
    assert!(volume.session.draft().log().is_empty());
    assert_eq!(volume.desk().asked.last(), Some(&(LockKind::Unlock, LockHow::Set)));
}

#[test]
fn a_close_gives_up_what_is_its_own() {
    let (mut volume, id) = volume();
    let flush = |owner| {
        request(FLUSH, id, move |it| {
            it.long(3).long(0).long(owner);
        })
    };
    let release = |handle, flags| {
        request(RELEASE, id, move |it| {
            it.long(handle).word(0).word(flags).long(4);
        })
    };
    let held = |volume: &mut Volume<Locked>| volume.desk().held.all().len();
    ask(&mut volume, SET, id, LockKind::Write, 0);
    ask(&mut volume, SET, id, LockKind::Write, BY_FLOCK);
    volume.flush_locks(&mut Request::of(&flush(5)).unwrap()).unwrap();
    volume.release_locks(&mut Request::of(&release(2, 0)).unwrap()).unwrap();
    assert_eq!(held(&mut volume), 2, "another process, and another handle");
    volume.flush_locks(&mut Request::of(&flush(4)).unwrap()).unwrap();
    assert_eq!(held(&mut volume), 1);
    volume.release_locks(&mut Request::of(&release(3, GIVES_UP)).unwrap()).unwrap();
    assert_eq!(held(&mut volume), 0);
    // one of the handle itself, of which no process tells when it closes
    ask(&mut volume, SET, id, LockKind::Write, 0);
    volume.release_locks(&mut Request::of(&release(3, 0)).unwrap()).unwrap();
    assert_eq!(held(&mut volume), 0);
}

#[test]
fn a_file_of_a_lost_lock_is_neither_read_nor_written() {
    let (mut volume, id) = volume();
    volume.write(id, 0, b"before", 0).unwrap();
    volume.sync().unwrap();
    ask(&mut volume, SET, id, LockKind::Write, 0);
    volume.write(id, 0, b"stale", 0).unwrap();
    let lock = volume.desk().held.all()[0];
    volume.desk().held.lose(&lock);
    let mut told = volume.poll_locks();
    assert_eq!((told.len(), told.pop().unwrap().forgets), (1, Some(id)));
    assert_eq!((volume.read(id, 0, 9), volume.write(id, 0, b"x", 0)), (Err(Errno::EIO), Err(Errno::EIO)));
    assert_eq!(volume.sync(), Err(Errno::EIO));
    assert_eq!(errno(ask(&mut volume, SET, id, LockKind::Unlock, 0)), None);
    assert_eq!((volume.read(id, 0, 9), volume.sync()), (Ok(b"before".to_vec()), Ok(())));
}

#[test]
fn memory_is_shared_by_one_mount_alone() {
    let (mut volume, id) = volume();
    let memory = volume.make(1, b"base-shm", Kind::File, 0o644).unwrap().0;
    volume.desk().is_in_the_way = true;
    assert!(volume.may_map(id) && !volume.may_map(memory));
    assert!(volume.open(memory, 0).unwrap().is_direct);
    volume.close_file(memory).unwrap();
    volume.desk().is_in_the_way = false;
    assert!(!volume.open(memory, 0).unwrap().is_direct && !volume.open(memory, 0).unwrap().is_direct);
    volume.close_file(memory).unwrap();
    assert!(!volume.desk().held.is_empty());
    volume.close_file(memory).unwrap();
    assert!(volume.desk().held.is_empty());
}

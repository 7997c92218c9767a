//! A session at a server in memory, beside which another client changes the tree: what is kept and asked for ahead is never older
//! than the page says. Answers to what is asked for ahead are made when it is asked, and come as late as they may.

use kfs_client::desk::{Answer, Desk, LeaseKind, LeaseRefusal, Unanswered, Wanted, Wish};
use kfs_client::leases::Leases;
use kfs_client::memory::Memory;
use kfs_client::node::ROOT;
use kfs_client::shown::{Ahead, FoundAhead};
use kfs_client::{Client, Draft, Entry, Header, Kind, Name, Options, Reason, Session, Shown, Unshown};
use std::thread::sleep;
use std::time::Duration;

const BLOCK: usize = 65_536;

/// A server that counts what it is asked.
struct Server {
    memory: Memory,
    moment: u64,
    headers: usize,
    /// How often numbers were asked for, of which some may be free.
    numbers: usize,
    finds: usize,
    lists: usize,
    reads: usize,
    /// What was asked for ahead, and what is told of it; all that was.
    ahead: Vec<(u64, FoundAhead)>,
    all_ahead: Vec<Ahead>,
    wishes: Vec<Wish>,
    /// Whether the next log is done and not answered.
    is_lost: bool,
    /// Whether names aren't listed.
    is_hidden: bool,
}

impl Server {
    /// How many look-ups were waited for since this was asked last.
    fn questions(&mut self) -> usize {
        let all = self.headers + self.finds + self.lists + self.reads;
        (self.headers, self.finds, self.lists, self.reads) = (0, 0, 0, 0);
        all
    }
}

impl Shown for Server {
    fn header(&mut self, number: u32) -> Result<Option<Header>, Unshown> {
        self.headers += 1;
        self.memory.header(number)
    }

    fn headers(&mut self, numbers: &[u32]) -> Result<Vec<Option<Header>>, Unshown> {
        // These are of new numbers, and one question for many.
        self.numbers += 1;
        numbers.iter().map(|number| self.memory.header(*number)).collect()
    }

    fn find(&mut self, directory: u32, name: &Name) -> Result<Option<u32>, Unshown> {
        self.finds += 1;
        self.memory.find(directory, name)
    }

    fn list(&mut self, directory: u32, behind: Option<&Name>, most: usize) -> Result<Vec<(Name, u32)>, Unshown> {
        self.lists += 1;
        if self.is_hidden {
            return Err(Unshown::NotAllowed);
        }
        self.memory.list(directory, behind, most)
    }

    fn read(&mut self, number: u32, start: u64, most: usize) -> Result<Vec<u8>, Unshown> {
        self.reads += 1;
        self.memory.read(number, start, most)
    }

    fn ask_ahead(&mut self, some: &[(u64, Ahead)]) -> usize {
        for (serial, ahead) in some {
            let found = match *ahead {
                Ahead::Header(number) => FoundAhead::Header(self.memory.header(number).unwrap()),
                Ahead::Bytes { number, start, most } => {
                    FoundAhead::Bytes(self.memory.read(number, start, most as usize).unwrap())
                }
            };
            self.ahead.push((*serial, found));
            self.all_ahead.push(*ahead);
        }
        some.len()
    }

    fn told_ahead(&mut self, wait_for: Option<u64>) -> Vec<(u64, FoundAhead)> {
        // No sooner than it is waited for, and with it what was asked for before.
        let count = wait_for.and_then(|it| self.ahead.iter().position(|(serial, _)| *serial == it)).map_or(0, |at| at + 1);
        self.ahead.drain(..count).collect()
    }
}

impl Desk for Server {
    fn lease(&mut self, _wanted: &Wanted) -> Result<Result<(), LeaseRefusal>, Unanswered> {
        Ok(Ok(()))
    }

    fn drop_lease(&mut self, _number: u32) -> Result<Result<(), LeaseRefusal>, Unanswered> {
        Ok(Ok(()))
    }

    fn submit(&mut self, log: &[u8], plan: &[u8]) -> Result<Answer, Unanswered> {
        let answer = self.memory.submit(log, plan)?;
        match std::mem::take(&mut self.is_lost) {
            true => Err(Unanswered::Unknown),
            false => Ok(answer),
        }
    }

    fn moment(&mut self) -> Result<u64, Unanswered> {
        Ok(self.moment)
    }

    fn wanted_by_others(&mut self) -> Result<Vec<Wish>, Unanswered> {
        Ok(std::mem::take(&mut self.wishes))
    }
}

fn client() -> Client {
    Client { number: 7, uid: 1000, gid: 1000, groups: vec![], is_privileged: false, grant: [2, 999] }
}

fn name(text: &str) -> Name {
    Name::new(text.as_bytes()).unwrap()
}

fn session(options: Options) -> Session<Server> {
    session_of(client(), options)
}

fn session_of(client: Client, options: Options) -> Session<Server> {
    let desk = Server {
        memory: Memory::new(client.clone()),
        moment: 0,
        headers: 0,
        numbers: 0,
        finds: 0,
        lists: 0,
        reads: 0,
        ahead: Vec::new(),
        all_ahead: Vec::new(),
        wishes: Vec::new(),
        is_lost: false,
        is_hidden: false,
    };
    Session::new(desk, client, options)
}

/// What was asked without a lease is believed for long, so that a test that is late sees it, too.
fn believing() -> Options {
    Options { age: Duration::from_secs(600), ..Options::default() }
}

/// Another client makes a change, which this one's leases let it make.
fn change_beside(session: &mut Session<Server>, entry: &Entry) {
    let memory = &mut session.desk().memory;
    let mut draft = Draft::new(client());
    let mut leases = Leases::default();
    (1..1000).for_each(|number| leases.grant(number, LeaseKind::Write, u64::MAX));
    draft.enter(memory, &leases, entry).unwrap();
    assert_eq!(memory.submit(draft.log().as_bytes(), &draft.plan().to_bytes()).unwrap(), Answer::Yes);
}

fn put(number: u32, offset: u64, bytes: &[u8]) -> Entry {
    Entry::Write { number, offset, payload: bytes.to_vec() }
}

fn chmod(number: u32, mode: u16) -> Entry {
    Entry::Chmod { number, mode }
}

fn made(number: u32, text: &str) -> Entry {
    Entry::Create { directory: ROOT, name: name(text), number, kind: Kind::File, mode: 0o644 }
}

/// Files of so many bytes that the server has, named by numbers of two digits.
fn files(session: &mut Session<Server>, count: u32, size: usize) -> Vec<u32> {
    let made = (0..count).map(|at| {
        let number = session.create(ROOT, &name(&format!("{at:02}")), Kind::File, 0o644).unwrap();
        session.write(number, 0, &vec![at as u8; size]).unwrap();
        number
    });
    let made = made.collect();
    session.close().unwrap();
    session.desk().questions();
    made
}

/// A file is opened as a mount does it.
fn open(session: &mut Session<Server>, text: &str) -> u32 {
    let (number, _) = session.lookup(ROOT, &name(text)).unwrap();
    session.bytes_ahead(number);
    number
}

#[test]
fn bytes_of_a_file_are_no_older_than_its_opening() {
    let mut mine = session(Options { reads_before_lease: 0, ..believing() });
    let file = files(&mut mine, 1, 3)[0];
    open(&mut mine, "00");
    mine.desk().questions();
    assert_eq!(mine.read(file, 0, 9).unwrap(), [0; 3]);
    assert_eq!(mine.desk().questions(), 0);
    change_beside(&mut mine, &put(file, 0, b"new"));
    // It is opened again, also where nobody has read what was asked for before.
    for bytes in [b"new", b"two"] {
        change_beside(&mut mine, &put(file, 0, bytes));
        open(&mut mine, "00");
        assert_eq!(mine.read(file, 0, 9).unwrap(), bytes);
        open(&mut mine, "00");
    }
    change_beside(&mut mine, &put(file, 0, b"end"));
    open(&mut mine, "00");
    assert_eq!((mine.read(file, 1, 1).unwrap(), mine.read(file, 2, 9).unwrap()), (b"n".to_vec(), b"d".to_vec()));
}

#[test]
fn what_is_told_without_a_lease_grows_no_older_than_it_may() {
    let age = Duration::from_millis(20);
    let mut mine = session(Options { age, reads_before_lease: 0, ..Options::default() });
    let file = files(&mut mine, 1, 3)[0];
    open(&mut mine, "00");
    change_beside(&mut mine, &put(file, 0, b"newer"));
    change_beside(&mut mine, &chmod(file, 0o600));
    sleep(age);
    assert_eq!((mine.header(file).unwrap().mode, mine.header(file).unwrap().size), (0o600, 5));
    assert_eq!(mine.read(file, 0, 9).unwrap(), b"newer");
    // Nothing is believed where that isn't said.
    let mut plain = session(Options { reads_before_lease: 0, ..Options::default() });
    let file = files(&mut plain, 1, 3)[0];
    open(&mut plain, "00");
    change_beside(&mut plain, &put(file, 0, b"newer"));
    assert_eq!((plain.header(file).unwrap().size, plain.read(file, 0, 9).unwrap()), (5, b"newer".to_vec()));
}

#[test]
fn headers_come_ahead_in_the_order_of_look_ups() {
    let mut mine = session(believing());
    let made = files(&mut mine, 60, 1);
    for at in 0..60 {
        mine.lookup(ROOT, &name(&format!("{at:02}"))).unwrap();
    }
    let asked = mine.desk().questions();
    assert!(asked < 16, "{asked} questions for 60 files");
    // What comes late is of before an own change, and isn't believed.
    let mut mine = session(believing());
    files(&mut mine, 60, 1);
    for at in 0..20 {
        mine.lookup(ROOT, &name(&format!("{at:02}"))).unwrap();
    }
    let is_under_way = mine.desk().ahead.iter().any(|(_, found)| matches!(found, FoundAhead::Header(Some(_))));
    assert!(is_under_way);
    for number in &made {
        mine.change_mode(*number, 0o600).unwrap();
    }
    mine.sync().unwrap();
    made.iter().for_each(|number| mine.give_up(*number).unwrap());
    for number in &made {
        assert_eq!(mine.header(*number).unwrap().mode, 0o600);
    }
}

#[test]
fn what_is_asked_for_without_a_lease_is_not_believed_under_one() {
    let mut mine = session(believing());
    let file = files(&mut mine, 1, 3)[0];
    open(&mut mine, "00");
    change_beside(&mut mine, &put(file, 3, b"more"));
    // The write needs the size of now: it is read under the lease that the write takes.
    mine.write(file, 1, b"x").unwrap();
    assert_eq!((mine.header(file).unwrap().size, mine.read(file, 0, 9).unwrap()), (7, b"\0x\0more".to_vec()));
    mine.sync().unwrap();
    assert_eq!(mine.read(file, 0, 9).unwrap(), b"\0x\0more");
}

/// Reads the first blocks of a long file under a lease, so that others are under way.
fn read_on(session: &mut Session<Server>, file: u32, blocks: usize) {
    for at in 0..blocks {
        assert_eq!(session.read(file, (at * BLOCK) as u64, BLOCK).unwrap().len(), BLOCK);
    }
    assert!(!session.desk().ahead.is_empty());
}

#[test]
fn a_long_file_is_read_ahead() {
    let mut mine = session(Options::default());
    let file = files(&mut mine, 1, 40 * BLOCK + 9)[0];
    for at in 0..41 {
        let found = mine.read(file, (at * BLOCK) as u64, BLOCK).unwrap();
        assert_eq!(found.len(), if at == 40 { 9 } else { BLOCK }, "{at}");
    }
    let (asked, ahead) = (mine.desk().questions(), mine.desk().all_ahead.len());
    assert!(asked < 5 && ahead < 50, "{asked} questions, {ahead} ahead");
    // All of a long read is asked for at once.
    let mut mine = session(Options::default());
    let file = files(&mut mine, 1, 4 * BLOCK)[0];
    assert_eq!(mine.read(file, 0, 4 * BLOCK).unwrap().len(), 4 * BLOCK);
    assert_eq!((mine.desk().reads, mine.desk().all_ahead.len()), (0, 4));
}

#[test]
fn blocks_that_come_behind_an_own_log_are_asked_for_anew() {
    let mut mine = session(Options::default());
    let file = files(&mut mine, 1, 20 * BLOCK)[0];
    read_on(&mut mine, file, 3);
    mine.write(file, 5 * BLOCK as u64, b"own").unwrap();
    mine.sync().unwrap();
    assert_eq!(mine.read(file, 5 * BLOCK as u64, 4).unwrap(), b"own\0");
}

#[test]
fn blocks_that_come_behind_their_lease_are_asked_for_anew() {
    let mut mine = session(Options::default());
    let file = files(&mut mine, 1, 20 * BLOCK)[0];
    read_on(&mut mine, file, 3);
    // Another client wants the lease, and gets it.
    mine.desk().wishes.push(Wish::Node(file));
    mine.poll().unwrap();
    change_beside(&mut mine, &put(file, 5 * BLOCK as u64, b"other"));
    assert_eq!(mine.read(file, 5 * BLOCK as u64, 6).unwrap(), b"other\0");
    // It ends by itself, and another one is taken.
    let mut mine = session(Options::default());
    let file = files(&mut mine, 1, 20 * BLOCK)[0];
    read_on(&mut mine, file, 3);
    mine.desk().moment = 1000;
    change_beside(&mut mine, &put(file, 5 * BLOCK as u64, b"other"));
    assert_eq!(mine.read(file, 5 * BLOCK as u64, BLOCK).unwrap()[..6], *b"other\0");
}

#[test]
fn names_are_known_while_their_directory_is_leased() {
    let mut mine = session(Options::default());
    files(&mut mine, 20, 1);
    let create = |mine: &mut Session<Server>, text: &str| mine.create(ROOT, &name(text), Kind::File, 0o644);
    create(&mut mine, "a").unwrap();
    create(&mut mine, "b").unwrap();
    mine.sync().unwrap();
    assert!(mine.desk().questions() <= 4);
    // Behind that nobody is asked, neither for a name that is there nor for one that isn't, also behind a log.
    for text in ["c", "d", "e"] {
        create(&mut mine, text).unwrap();
        assert_eq!(create(&mut mine, text).unwrap_err().errno() as i32, 17);
        mine.sync().unwrap();
        assert!(mine.lookup(ROOT, &name("nothing")).is_err());
    }
    assert_eq!(mine.list(ROOT, None, usize::MAX).unwrap().len(), 25);
    assert_eq!(mine.desk().questions(), 0);
    mine.unlink(ROOT, &name("c"), Kind::File).unwrap();
    mine.rename(ROOT, &name("d"), ROOT, &name("f")).unwrap();
    mine.sync().unwrap();
    mine.desk().questions();
    assert!(mine.lookup(ROOT, &name("c")).is_err() && mine.lookup(ROOT, &name("d")).is_err());
    assert_eq!((mine.list(ROOT, None, usize::MAX).unwrap().len(), mine.desk().questions()), (24, 0));
    // Another client wants the lease, and makes a name.
    mine.desk().wishes.push(Wish::Node(ROOT));
    mine.poll().unwrap();
    change_beside(&mut mine, &made(900, "theirs"));
    assert_eq!(mine.lookup(ROOT, &name("theirs")).unwrap().0, 900);
    assert_eq!(create(&mut mine, "theirs").unwrap_err().errno() as i32, 17);
    assert_eq!(mine.list(ROOT, None, usize::MAX).unwrap().len(), 25);
}

#[test]
fn names_that_may_not_be_listed_are_asked_for_singly() {
    let mut mine = session(Options::default());
    files(&mut mine, 3, 1);
    mine.desk().is_hidden = true;
    for text in ["a", "b", "c", "d"] {
        mine.create(ROOT, &name(text), Kind::File, 0o644).unwrap();
    }
    assert_eq!((mine.desk().lists, mine.desk().finds), (1, 4));
}

#[test]
fn what_a_log_has_made_of_headers_is_known_while_they_are_leased() {
    let mut mine = session(Options::default());
    let file = files(&mut mine, 1, 3)[0];
    mine.change_mode(file, 0o600).unwrap();
    mine.write(file, 0, b"longer").unwrap();
    mine.sync().unwrap();
    mine.desk().questions();
    let header = mine.header(file).unwrap();
    assert_eq!((header.mode, header.size, mine.desk().questions()), (0o600, 6, 0));
    assert_eq!(mine.read(file, 0, 9).unwrap(), b"longer");
    // A file that the log has made isn't leased: others may change it at once.
    let new = mine.create(ROOT, &name("new"), Kind::File, 0o644).unwrap();
    mine.sync().unwrap();
    change_beside(&mut mine, &put(new, 0, b"other"));
    assert_eq!((mine.header(new).unwrap().size, mine.read(new, 0, 9).unwrap()), (5, b"other".to_vec()));
    // Nor is one whose lease has ended.
    mine.change_mode(file, 0o640).unwrap();
    mine.sync().unwrap();
    mine.desk().moment = 1000;
    change_beside(&mut mine, &chmod(file, 0o604));
    assert_eq!(mine.header(file).unwrap().mode, 0o604);
}

#[test]
fn a_log_that_was_done_without_an_answer_leaves_nothing_known() {
    let mut mine = session(Options::default());
    let file = files(&mut mine, 1, 3)[0];
    mine.change_mode(file, 0o600).unwrap();
    mine.create(ROOT, &name("new"), Kind::File, 0o644).unwrap();
    mine.desk().is_lost = true;
    assert!(mine.sync().is_err());
    mine.sync().unwrap();
    assert!(mine.draft().log().is_empty());
    mine.desk().questions();
    assert_eq!(mine.header(file).unwrap().mode, 0o600);
    assert!(mine.lookup(ROOT, &name("new")).is_ok());
    assert!(mine.desk().questions() >= 2);
}

#[test]
fn a_node_whose_number_is_another_ones_by_now_is_asked_for_anew() {
    let mut mine = session(believing());
    let file = files(&mut mine, 1, 3)[0];
    open(&mut mine, "00");
    mine.unlink(ROOT, &name("00"), Kind::File).unwrap();
    mine.sync().unwrap();
    assert_eq!(mine.header(file).unwrap_err().errno() as i32, 2);
    change_beside(&mut mine, &made(file, "again"));
    change_beside(&mut mine, &put(file, 0, b"other"));
    mine.close().unwrap();
    assert_eq!(mine.lookup(ROOT, &name("again")).unwrap().1.size, 5);
    mine.bytes_ahead(file);
    assert_eq!(mine.read(file, 0, 9).unwrap(), b"other");
    assert_eq!(mine.lookup(ROOT, &name("00")).unwrap_err().errno(), Reason::NoSuchName.errno());
}

#[test]
fn numbers_are_free_that_were_asked_for_ahead() {
    let mut mine = session(believing());
    for at in 0..300 {
        mine.create(ROOT, &name(&at.to_string()), Kind::File, 0o644).unwrap();
        if at % 50 == 49 {
            mine.sync().unwrap();
        }
    }
    assert!(mine.desk().numbers <= 2, "{} questions for numbers", mine.desk().numbers);
    // Of few numbers each is given anew once it is free, in this log or in a later one.
    for age in [Duration::ZERO, Duration::from_secs(600)] {
        let few = Client { grant: [2, 41], ..client() };
        let mut mine = session_of(few, Options { age, ..Options::default() });
        for at in 0..400 {
            let number = mine.create(ROOT, &name(&at.to_string()), Kind::File, 0o644).unwrap();
            mine.write(number, 0, at.to_string().as_bytes()).unwrap();
            if at % 3 == 2 {
                mine.sync().unwrap();
            }
            if at >= 30 {
                mine.unlink(ROOT, &name(&(at - 30).to_string()), Kind::File).unwrap();
            }
        }
        mine.close().unwrap();
        let names = mine.list(ROOT, None, usize::MAX).unwrap();
        assert_eq!(names.len(), 30);
        for (name, number) in names {
            assert_eq!(mine.read(number, 0, 9).unwrap(), name.as_bytes());
        }
    }
}

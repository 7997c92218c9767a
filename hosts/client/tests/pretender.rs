//! A connection to who pretends to be kfsd: what it tells besides answers, and frames that it doesn't answer at once.

use kfs_client::connection::Connection;
use kfs_client::desk::{Answer, Desk, LeaseKind, LeaseRefusal, Unanswered, Wanted, Wish};
use kfs_client::shown::{Ahead, FoundAhead};
use kfs_client::{Header, Kind, Name, Shown, Unshown};
use std::io::{Read, Write};
use std::os::unix::net::{UnixListener, UnixStream};
use std::path::PathBuf;
use std::sync::{Arc, Mutex};
use std::thread;
use std::time::{Duration, Instant};

/// What it has been asked, and what it says next.
#[derive(Default)]
struct Told {
    bodies: Vec<Vec<u8>>,
    replies: Vec<Vec<u8>>,
    wants: Vec<Vec<u8>>,
    serials: Vec<u64>,
    /// How long the answer is under way that tells the moment.
    late: Duration,
    /// When the node was made that it tells of; 0 where it tells no stamps, as an earlier kfsd.
    born: u8,
}

struct Pretender {
    path: PathBuf,
    told: Arc<Mutex<Told>>,
}

const YES: &[u8] = &[1, 0, 0, 0, 0, 1, 0, 0, 0, 0, 0, 0, 0, 0, 0];

impl Pretender {
    fn start(name: &str) -> Pretender {
        let path = std::env::temp_dir().join(format!("kfs-pretender-{name}-{}", std::process::id()));
        let _ = std::fs::remove_file(&path);
        let listener = UnixListener::bind(&path).unwrap();
        let told: Arc<Mutex<Told>> = Arc::default();
        let of_all = Arc::clone(&told);
        thread::spawn(move || {
            for stream in listener.incoming() {
                let told = Arc::clone(&of_all);
                // A connection that ends has ended.
                thread::spawn(move || drop(answer_all(stream.unwrap(), &told)));
            }
        });
        Pretender { path, told }
    }

    fn told(&self) -> std::sync::MutexGuard<'_, Told> {
        self.told.lock().unwrap()
    }
}

impl Drop for Pretender {
    fn drop(&mut self) {
        let _ = std::fs::remove_file(&self.path);
    }
}

fn answer_all(mut stream: UnixStream, told: &Mutex<Told>) -> std::io::Result<()> {
    loop {
        let mut head = [0; 12];
        stream.read_exact(&mut head)?;
        let mut body = vec![0; u32::from_be_bytes(head[..4].try_into().unwrap()) as usize];
        stream.read_exact(&mut body)?;
        let said = match body[0] {
            // client 7 may give the numbers 2 to 99
            0xf0 => vec![0xf0, 0, 0, 0, 7, 0, 0, 0, 2, 0, 0, 0, 99],
            // moment 1000, and a lease may live for 100
            0xf1 => {
                let late = told.lock().unwrap().late;
                thread::sleep(late);
                vec![0xf1, 0, 0, 0, 0, 0, 0, 3, 232, 0, 0, 0, 0, 0, 0, 0, 100]
            }
            0xf6 => stamped(told.lock().unwrap().born),
            0xf3 => wait_for_want(told, u64::from_be_bytes(body[1..9].try_into().unwrap())),
            _ => {
                let mut told = told.lock().unwrap();
                told.bodies.push(body);
                if told.replies.is_empty() {
                    YES.to_vec()
                } else {
                    told.replies.remove(0)
                }
            }
        };
        if said.is_empty() {
            return Ok(());
        }
        let mut reply = (said.len() as u32).to_be_bytes().to_vec();
        reply.extend_from_slice(&head[4..8]);
        reply.extend_from_slice(&said);
        stream.write_all(&reply)?;
    }
}

/// An empty file with its stamp.
fn stamped(born: u8) -> Vec<u8> {
    match born {
        0 => vec![2, 3, 0, 0, 0, 0],
        born => [&[3, 1, 1, 1, 0xa4][..], &[0; 9], &[1], &[0; 8], &[0; 7], &[born], &[0; 16], &[1]].concat(),
    }
}

fn wait_for_want(told: &Mutex<Told>, serial: u64) -> Vec<u8> {
    told.lock().unwrap().serials.push(serial);
    loop {
        let mut told = told.lock().unwrap();
        if !told.wants.is_empty() {
            return told.wants.remove(0);
        }
        drop(told);
        thread::sleep(Duration::from_millis(1));
    }
}

fn want(serial: u8, node: u8) -> Vec<u8> {
    vec![0xf3, 0, 0, 0, 0, 0, 0, 0, serial, 0, 1, 0, 0, 0, 8, 0, 0, 0, node, 0, 0]
}

#[test]
fn a_log_has_one_number_until_it_is_answered() {
    let kfsd = Pretender::start("numbers");
    let mut connection = Connection::open(&kfsd.path, 7).unwrap();
    // Nobody knows, it is under way, and the connection ends.
    kfsd.told().replies = vec![vec![2, 128, 0, 0, 0, 0], vec![2, 133, 0, 0, 0, 0], vec![]];
    assert_eq!(connection.submit(b"log", b"plan").unwrap(), Answer::Yes);
    assert_eq!(connection.submit(b"log", b"plan").unwrap(), Answer::Yes);
    let bodies = kfsd.told().bodies.clone();
    assert_eq!(bodies.len(), 5);
    assert!(bodies[..4].iter().all(|body| *body == bodies[0]), "{bodies:?}");
    assert_eq!(bodies[0][0], 0xf2);
    assert_eq!(bodies[0][9..], *b"\x01\0\0\0\x07\0\0\0\x03log\0\0\0\x04plan");
    assert_eq!(bodies[4][9..], bodies[0][9..]);
    assert_ne!(bodies[4][1..9], bodies[0][1..9]);
}

#[test]
fn a_stamp_is_told_behind_bytes() {
    let kfsd = Pretender::start("stamps");
    let mut earlier = Connection::open(&kfsd.path, 7).unwrap();
    kfsd.told().replies = vec![vec![3, 1, 0], vec![3, 7, 9]];
    assert_eq!((earlier.header(5).unwrap(), earlier.stamp(5)), (None, None));
    assert_eq!((earlier.read(5, 0, 4).unwrap(), earlier.stamp(5), earlier.stamp(1)), (vec![9], None, None));
    assert_eq!(kfsd.told().bodies.len(), 2);
    kfsd.told().born = 8;
    let mut connection = Connection::open(&kfsd.path, 7).unwrap();
    assert_eq!(connection.stamp(1).unwrap().born, 8);
    assert_eq!(connection.header(5).unwrap().unwrap().mode, 0o644);
    assert!(connection.stamp(5).unwrap().gives_group);
    // Another node has got the number.
    kfsd.told().replies = vec![vec![3, 7, 9]];
    kfsd.told().born = 9;
    assert_eq!((connection.read(5, 0, 4).unwrap(), connection.stamp(5).unwrap().born), (vec![9], 9));
}

#[test]
fn a_log_that_takes_too_much_is_told() {
    let kfsd = Pretender::start("space");
    let mut connection = Connection::open(&kfsd.path, 7).unwrap();
    kfsd.told().replies = vec![vec![2, 137, 0, 0, 0, 0]];
    assert_eq!(connection.submit(b"log", b"plan").unwrap(), Answer::NoSpace);
    assert_eq!(connection.submit(b"log", b"plan").unwrap(), Answer::Yes);
    assert_eq!(kfsd.told().bodies.len(), 2);
}

#[test]
fn wants_are_told_one_after_another() {
    let kfsd = Pretender::start("wants");
    let mut connection = Connection::open(&kfsd.path, 7).unwrap();
    assert_eq!(connection.wanted_by_others().unwrap(), []);
    for (serial, node) in [(5, 1), (9, 2)] {
        kfsd.told().wants.push(want(serial, node));
        let until = Instant::now() + Duration::from_secs(20);
        let told = loop {
            let told = connection.wanted_by_others().unwrap();
            if !told.is_empty() {
                break told;
            }
            assert!(Instant::now() < until, "nothing is told");
        };
        assert_eq!(told, [Wish::Node(node.into())]);
    }
    let until = Instant::now() + Duration::from_secs(20);
    while kfsd.told().serials != [0, 5, 9] {
        assert!(Instant::now() < until, "{:?}", kfsd.told().serials);
    }
}

#[test]
fn the_moment_goes_on_and_a_lease_may_not_live_too_long() {
    let kfsd = Pretender::start("moments");
    let mut connection = Connection::open(&kfsd.path, 7).unwrap();
    assert!((1000..1010).contains(&connection.moment().unwrap()));
    assert!(connection.longest_term() <= 100);
    let wanted = Wanted { number: 1, path: Some(b"/".to_vec()), kind: LeaseKind::Read, end: 1050 };
    kfsd.told().replies = vec![vec![2, 132, 0, 0, 0, 0], vec![2, 135, 0, 0, 0, 0], vec![2, 129, 0, 0, 0, 0]];
    assert_eq!(connection.lease(&wanted).unwrap(), Err(LeaseRefusal::TooFar));
    assert_eq!(connection.lease(&wanted).unwrap(), Err(LeaseRefusal::Wanted));
    assert!(matches!(connection.lease(&wanted), Err(Unanswered::Stopping)));
    // By number it isn't permitted, so it is asked for by path.
    let not_allowed = [&[1, 0, 0, 0, 0, 8, 11][..], &[0; 13]].concat();
    kfsd.told().replies = vec![not_allowed, vec![1, 0, 0, 0, 1, 4, 0, 0, 0, 1]];
    assert_eq!(connection.lease(&wanted).unwrap(), Ok(()));
    let bodies = kfsd.told().bodies.clone();
    assert_eq!(bodies[bodies.len() - 2][0], 6);
    assert_eq!(bodies[bodies.len() - 1], b"\x02\0\0\0\x07\0\0\0\0\0\0\0\x04\x1a\0\x01/");
}

#[test]
fn a_moment_that_was_told_late_is_no_earlier_one() {
    let kfsd = Pretender::start("late");
    kfsd.told().late = Duration::from_millis(2100);
    let mut connection = Connection::open(&kfsd.path, 7).unwrap();
    // kfsd's clock was at 1000 or short of 1001 when it was asked, and so is at 1003 by now, maybe.
    assert!(connection.moment().unwrap() >= 1003);
}

#[test]
fn a_lease_that_a_path_led_to_is_told_and_stays() {
    let kfsd = Pretender::start("elsewhere");
    let mut connection = Connection::open(&kfsd.path, 7).unwrap();
    let not_allowed = [&[1, 0, 0, 0, 0, 8, 11][..], &[0; 13]].concat();
    kfsd.told().replies = vec![not_allowed, vec![1, 0, 0, 0, 1, 4, 0, 0, 0, 9]];
    let wanted = Wanted { number: 5, path: Some(b"/a".to_vec()), kind: LeaseKind::Write, end: 1050 };
    assert_eq!(connection.lease(&wanted).unwrap(), Err(LeaseRefusal::Elsewhere(9)));
    assert_eq!(kfsd.told().bodies.len(), 2);
}

#[test]
fn leases_are_asked_for_and_given_up_at_once() {
    let kfsd = Pretender::start("leases");
    let mut connection = Connection::open(&kfsd.path, 7).unwrap();
    let wanted = |number| Wanted { number, path: None, kind: LeaseKind::Write, end: 1050 };
    let leased = |number| vec![1, 0, 0, 0, 0, 4, 0, 0, 0, number];
    // The second one is held by client 8; it is asked for singly, and granted to nobody then either.
    let held = vec![1, 0, 0, 0, 0, 8, 7, 0, 0, 0, 0, 0, 0, 0, 0, 0, 0, 0, 0, 8];
    kfsd.told().replies = vec![leased(5), held.clone(), leased(7), held];
    let answers = connection.leases(&[wanted(5), wanted(6), wanted(7)]).unwrap();
    assert_eq!(answers, [Ok(()), Err(LeaseRefusal::Held(8)), Ok(())]);
    let asked: Vec<u8> = kfsd.told().bodies.iter().map(|body| *body.last().unwrap()).collect();
    assert_eq!(asked, [5, 6, 7, 6]);
    // Nobody knows of the second one, so it is given up once more.
    kfsd.told().bodies.clear();
    let dropped = |number| vec![1, 0, 0, 0, 0, 5, 0, 0, 0, number];
    kfsd.told().replies = vec![dropped(5), vec![2, 128, 0, 0, 0, 0], dropped(7), dropped(6)];
    connection.drop_leases(&[5, 6, 7]).unwrap();
    let given_up: Vec<Vec<u8>> = kfsd.told().bodies.clone();
    let body = |number| vec![3, 0, 0, 0, 7, 0, 0, 0, number];
    assert_eq!(given_up, [body(5), body(6), body(7), body(6)]);
}

#[test]
fn wants_are_asked_for_over_a_new_connection_where_one_ends() {
    let kfsd = Pretender::start("ended");
    let mut connection = Connection::open(&kfsd.path, 7).unwrap();
    // It tells of one, and ends the connection; then it tells of another.
    kfsd.told().wants = vec![want(5, 1), vec![], want(9, 2)];
    let (mut told, until) = (Vec::new(), Instant::now() + Duration::from_secs(20));
    while told.len() < 2 {
        told.extend(connection.wanted_by_others().unwrap());
        assert!(Instant::now() < until, "{told:?} is told");
        thread::sleep(Duration::from_millis(1));
    }
    assert_eq!(told, [Wish::Node(1), Wish::Node(2)]);
    assert_eq!(kfsd.told().serials[..3], [0, 5, 5]);
}

#[test]
fn look_ups_are_asked_for_until_all_is_told() {
    let kfsd = Pretender::start("names");
    let mut connection = Connection::open(&kfsd.path, 7).unwrap();
    let name = |text: &str| Name::new(text.as_bytes()).unwrap();
    let page = |has_more: u8, number: u8, letter: u8| vec![3, 6, has_more, 0, 0, 0, number, 1, letter];
    kfsd.told().replies = vec![page(1, 5, b'a'), page(0, 6, b'b')];
    assert_eq!(connection.list(1, None, 9).unwrap(), [(name("a"), 5), (name("b"), 6)]);
    assert_eq!(kfsd.told().bodies[1], [&[0x44, 0, 0, 0, 1][..], &2080u32.to_be_bytes(), b"a"].concat());
    kfsd.told().replies = vec![page(1, 5, b'a')];
    assert_eq!(connection.list(1, Some(&name("0")), 1).unwrap().len(), 1);
    kfsd.told().replies = vec![[&[3, 7][..], &[9; 65_536]].concat(), vec![3, 7, 8]];
    assert_eq!(connection.read(5, 1, 100_000).unwrap().len(), 65_537);
    let last = kfsd.told().bodies.last().unwrap().clone();
    assert_eq!(last, [&[0x45, 0, 0, 0, 5][..], &65_537u64.to_be_bytes(), &34_464u32.to_be_bytes()].concat());
    kfsd.told().replies = vec![vec![3, 5, 1, 0, 0, 0, 5], vec![3, 4, 5], vec![3, 4, 2], vec![2, 3, 0, 0, 0, 0]];
    assert_eq!(connection.find(1, &name("a")).unwrap(), Some(5));
    assert!(matches!(connection.find(1, &name("a")), Err(Unshown::NotAllowed)));
    assert_eq!(connection.find(1, &name("a")).unwrap(), None);
    assert!(matches!(connection.find(1, &name("a")), Err(Unshown::NoSuchLookUp)));
    kfsd.told().replies = vec![[&[3, 8][..], &[0, 0, 1, 0, 0, 0, 0, 9], &[0; 16]].concat(), vec![3, 8, 0]];
    let blocks = connection.blocks().unwrap().unwrap();
    assert_eq!((blocks.all, blocks.free), (256, 9));
    assert!(connection.blocks().is_err());
}

#[test]
fn what_is_asked_for_ahead_is_told_once_and_holds_no_answer_up() {
    let kfsd = Pretender::start("ahead");
    let mut connection = Connection::open(&kfsd.path, 7).unwrap();
    let file = vec![3, 1, 1, 1, 0xa4, 0, 0, 3, 0xe8, 0, 0, 3, 0xe9, 0, 1, 0, 0, 0, 0, 0, 0, 0, 9];
    let header = Header { kind: Kind::File, mode: 0o644, uid: 1000, gid: 1001, links: 1, size: 9 };
    let found = FoundAhead::Header(Some(header));
    let bytes = Ahead::Bytes { number: 5, start: 2, most: 9 };
    kfsd.told().replies = vec![file.clone(), vec![3, 7, 8, 8], vec![3, 5, 1, 0, 0, 0, 5], vec![2, 128, 0, 0, 0, 0]];
    assert_eq!(connection.ask_ahead(&[(1, Ahead::Header(5)), (2, bytes)]), 2);
    assert_eq!(connection.find(1, &Name::new(b"a").unwrap()).unwrap(), Some(5));
    assert_eq!(connection.ask_ahead(&[(3, Ahead::Header(6))]), 1);
    let told = connection.told_ahead(Some(3));
    assert_eq!(told, [(1, found.clone()), (2, FoundAhead::Bytes(vec![8, 8])), (3, FoundAhead::Nothing)]);
    assert_eq!(connection.told_ahead(Some(3)), []);
    assert_eq!(kfsd.told().bodies[1], [&[0x45, 0, 0, 0, 5][..], &2u64.to_be_bytes(), &9u32.to_be_bytes()].concat());
    // A long log is sent behind the answers: kfsd may not read it before.
    kfsd.told().replies = vec![file.clone(), YES.to_vec()];
    assert_eq!(connection.ask_ahead(&[(4, Ahead::Header(5))]), 1);
    assert_eq!(connection.submit(&[0; 10_000], b"plan").unwrap(), Answer::Yes);
    assert_eq!(connection.told_ahead(None), [(4, found)]);
    // Where the connection ends nothing is told, and the next question is asked over a new one.
    kfsd.told().replies = vec![vec![], file];
    assert_eq!(connection.ask_ahead(&[(5, Ahead::Header(5)), (6, bytes)]), 2);
    assert_eq!(connection.told_ahead(Some(5)), [(5, FoundAhead::Nothing), (6, FoundAhead::Nothing)]);
    assert_eq!(connection.ask_ahead(&[(7, bytes)]), 0);
    assert_eq!(connection.header(5).unwrap(), Some(header));
    let many: Vec<_> = (8..108).map(|serial| (serial, bytes)).collect();
    assert!((1..=24).contains(&connection.ask_ahead(&many)));
}

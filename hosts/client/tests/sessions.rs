//! Sessions of several clients at one program: what each sees and when, leases that are given up, logs that are refused.

mod common;

use common::program_path;
use common::seat::{seats, Seat, Trouble};
use kfs_client::client::Access;
use kfs_client::desk::{Answer, Desk, LeaseRefusal, Unanswered};
use kfs_client::node::ROOT;
use kfs_client::{Client, Entry, Failure, Fault, HandInFault, Kind, Name, Options, Reason, Session, Shown};
use nix::errno::Errno;
use std::sync::atomic::{AtomicUsize, Ordering};
use std::thread;
use std::time::{Duration, Instant};

fn name(text: &str) -> Name {
    Name::new(text.as_bytes()).unwrap()
}

fn users() -> Vec<Client> {
    let user = |number, uid, grant| Client { number, uid, gid: uid, groups: vec![], is_privileged: false, grant };
    vec![user(7, 1000, [2, 20_000]), user(8, 1001, [20_001, 40_000]), user(9, 1002, [40_001, 60_000])]
}

fn quick() -> Options {
    Options { patience: Duration::from_millis(0), ..Options::default() }
}

/// Sessions of three users at a new program.
fn sessions(options: &Options) -> [Session<Seat>; 3] {
    let made = seats(&program_path(), [4096, 16, 16], &users()).into_iter().zip(users());
    let made: Vec<_> = made.map(|(seat, user)| Session::new(seat, user, options.clone())).collect();
    made.try_into().unwrap_or_else(|_| panic!("three sessions"))
}

/// What the program has of a file of the root.
fn kept(session: &mut Session<Seat>, file: &str) -> Option<Vec<u8>> {
    let desk = session.desk();
    let number = desk.find(ROOT, &name(file)).unwrap()?;
    Some(desk.read(number, 0, 1 << 24).unwrap())
}

#[test]
fn own_writes_are_read_before_they_are_kept() {
    let [mut mine, mut other, _] = sessions(&quick());
    let file = mine.open(b"/a", Some(0o644)).unwrap();
    assert_eq!(mine.write(file, 0, b"hello").unwrap(), 5);
    assert_eq!(mine.read(file, 1, 100).unwrap(), b"ello");
    assert_eq!(mine.walk(b"/a").unwrap(), file);
    assert_eq!(other.walk(b"/a").unwrap_err().errno(), Errno::ENOENT);
    assert_eq!(kept(&mut mine, "a"), None);
    mine.sync().unwrap();
    assert_eq!(other.walk(b"/a").unwrap(), file);
    assert_eq!(other.read(file, 0, 100).unwrap(), b"hello");
    assert!(mine.draft().log().is_empty());
    mine.write(file, 5, b"!").unwrap();
    assert_eq!(mine.read(file, 0, 100).unwrap(), b"hello!");
    assert_eq!(other.read(file, 0, 100).unwrap(), b"hello");
    mine.close().unwrap();
    assert_eq!(kept(&mut mine, "a").unwrap(), b"hello!");
}

#[test]
fn small_writes_become_one_entry() {
    let [mut mine, ..] = sessions(&quick());
    let file = mine.open(b"/a", Some(0o400)).unwrap();
    let expected: Vec<u8> = (0..200_000u32).map(|at| at as u8).collect();
    for (index, part) in expected.chunks(100).enumerate() {
        assert_eq!(mine.write(file, index as u64 * 100, part).unwrap(), part.len());
    }
    // A Create, and Writes of 65,536 bytes.
    assert_eq!(mine.draft().log().len(), 5);
    assert_eq!(mine.draft().plan().pieces.len(), 4);
    mine.sync().unwrap();
    assert_eq!(kept(&mut mine, "a").unwrap(), expected);
}

#[test]
fn a_full_log_is_handed_in() {
    let [mut mine, ..] = sessions(&quick());
    for index in 0..4097 {
        mine.create(ROOT, &name(&format!("f{index}")), Kind::File, 0o644).unwrap();
    }
    assert_eq!(mine.draft().log().len(), 1);
    assert_eq!(mine.desk().list(ROOT, None, 5000).unwrap().len(), 4096);
    assert_eq!(mine.list(ROOT, None, 5000).unwrap().len(), 4097);
    let file = mine.open(b"/big", Some(0o644)).unwrap();
    let expected: Vec<u8> = (0..3_000_000u32).map(|at| (at >> 7) as u8).collect();
    assert_eq!(mine.write(file, 0, &expected).unwrap(), expected.len());
    assert!(mine.desk().header(file).unwrap().unwrap().size > 1_900_000);
    assert!(mine.read(file, 0, 1 << 23).unwrap() == expected);
    mine.sync().unwrap();
    assert!(kept(&mut mine, "big").unwrap() == expected);
}

#[test]
fn a_log_that_has_waited_is_handed_in() {
    let [mut mine, mut late, _] = sessions(&Options { linger: Duration::from_secs(3600), ..quick() });
    mine.open(b"/a", Some(0o644)).unwrap();
    mine.poll().unwrap();
    assert_eq!(kept(&mut late, "a"), None);
    let [mut mine, ..] = sessions(&Options { linger: Duration::from_millis(1), ..quick() });
    mine.open(b"/a", Some(0o644)).unwrap();
    thread::sleep(Duration::from_millis(2));
    mine.poll().unwrap();
    assert_eq!(kept(&mut mine, "a").unwrap(), b"");
}

#[test]
fn a_lease_is_given_up_to_who_wants_it() {
    let [mut mine, mut other, _] = sessions(&quick());
    let file = mine.open(b"/a", Some(0o644)).unwrap();
    mine.write(file, 0, b"x").unwrap();
    let refused = other.open(b"/b", Some(0o644)).unwrap_err();
    assert!(matches!(refused, Failure::Lease(ROOT, LeaseRefusal::Held(7))), "{refused}");
    assert_eq!(refused.errno(), Errno::EAGAIN);
    mine.poll().unwrap();
    assert_eq!(kept(&mut mine, "a").unwrap(), b"x");
    other.open(b"/b", Some(0o644)).unwrap();
    other.sync().unwrap();
    assert_eq!(mine.list(ROOT, None, 9).unwrap().len(), 2);
}

#[test]
fn a_lease_of_an_earlier_session_is_given_up() {
    let [mut mine, mut other, _] = sessions(&quick());
    let file = mine.open(b"/a", Some(0o666)).unwrap();
    mine.sync().unwrap();
    let again = mine.desk().clone();
    drop(mine);
    let mut mine = Session::new(again, users()[0].clone(), quick());
    assert!(matches!(other.open(b"/b", Some(0o644)), Err(Failure::Lease(ROOT, LeaseRefusal::Held(7)))));
    mine.poll().unwrap();
    other.open(b"/b", Some(0o644)).unwrap();
    other.sync().unwrap();
    assert_eq!(mine.walk(b"/a").unwrap(), file);
    assert!(mine.walk(b"/b").is_ok());
}

#[test]
fn who_waits_gives_up_what_others_want() {
    let [mut one, mut two, _] = sessions(&quick());
    let directory = |session: &mut Session<Seat>, text| {
        let number = session.create(ROOT, &name(text), Kind::Directory, 0o777).unwrap();
        session.close().unwrap();
        number
    };
    let (p, q) = (directory(&mut one, "p"), directory(&mut two, "q"));
    let began = Instant::now();
    let work = |mut session: Session<Seat>, first, second, text: &'static str| {
        move || {
            session.options_mut().patience = Duration::from_secs(20);
            for index in 0..40 {
                session.create(first, &name(&format!("{text}{index}")), Kind::File, 0o644).unwrap();
                session.rename(first, &name(&format!("{text}{index}")), second, &name(&format!("{text}{index}"))).unwrap();
            }
            session.close().unwrap();
        }
    };
    let seat = one.desk().clone();
    thread::scope(|scope| {
        scope.spawn(work(one, p, q, "one"));
        scope.spawn(work(two, q, p, "two"));
    });
    let mut seat = seat;
    assert_eq!(seat.list(p, None, 100).unwrap().len(), 40);
    assert_eq!(seat.list(q, None, 100).unwrap().len(), 40);
    assert!(began.elapsed() < Duration::from_secs(60));
}

#[test]
fn three_users_share_a_directory() {
    let ended = AtomicUsize::new(0);
    let all = sessions(&Options { patience: Duration::from_secs(30), ..Options::default() });
    let mut seat = seats(&program_path(), [8, 8, 8], &users()).remove(0);
    thread::scope(|scope| {
        for (at, mut session) in all.into_iter().enumerate() {
            seat.shared = session.desk().shared.clone();
            let ended = &ended;
            scope.spawn(move || {
                for index in 0..30 {
                    let file = session.open(format!("/{at}-{index}").as_bytes(), Some(0o644)).unwrap();
                    session.write(file, 0, format!("{at} {index}").as_bytes()).unwrap();
                    session.poll().unwrap();
                }
                session.sync().unwrap();
                ended.fetch_add(1, Ordering::SeqCst);
                // Others may want a lease still.
                while ended.load(Ordering::SeqCst) < 3 {
                    session.poll().unwrap();
                    thread::sleep(Duration::from_millis(1));
                }
            });
        }
    });
    let names = seat.list(ROOT, None, 100).unwrap();
    assert_eq!(names.len(), 90);
    for (text, number) in names {
        let expected = text.to_string().replace('-', " ");
        assert_eq!(seat.read(number, 0, 100).unwrap(), expected.as_bytes());
    }
}

#[test]
fn a_refusal_tells_which_call_it_was() {
    let [mut mine, mut other, _] = sessions(&quick());
    let file = mine.open(b"/f", Some(0o644)).unwrap();
    let created = mine.last_call();
    mine.write(file, 0, b"x").unwrap();
    mine.open(b"/g", Some(0o644)).unwrap();
    // The lease on the root ends, and another client makes a file of that name. It isn't told yet that the lease has ended.
    mine.desk().taken().program.ask("tick 60000").unwrap();
    other.desk().taken().moment = 60_000;
    other.open(b"/f", Some(0o600)).unwrap();
    other.close().unwrap();
    let failure = mine.sync().unwrap_err();
    assert_eq!(failure.errno(), Errno::EIO);
    let (said, lost, stays) = match failure {
        HandInFault::Refused { said, lost, stays } => (said, lost, stays),
        other => panic!("{other}"),
    };
    assert_eq!(said, Answer::Entry(0, Reason::NoLease(ROOT)));
    assert_eq!(lost.len(), 2);
    assert_eq!((lost[0].calls.clone(), lost[0].path.as_str()), (created..=created, "/f"));
    assert!(matches!(lost[0].fault, Fault::Refused(Reason::NameTaken)));
    assert!(matches!(&lost[0].entry, Entry::Create { number, .. } if *number == file));
    assert!(matches!(lost[1].fault, Fault::Refused(Reason::NoSuchNode)));
    assert_eq!(lost[1].calls, created + 1..=created + 1);
    assert_eq!(stays, 1);
    mine.sync().unwrap();
    assert_eq!(kept(&mut mine, "g").unwrap(), b"");
    assert_eq!(other.header(mine.walk(b"/f").unwrap()).unwrap().mode, 0o600);
}

#[test]
fn a_log_is_made_anew_where_the_tree_has_changed_beside_it() {
    let [mut mine, mut other, _] = sessions(&quick());
    let file = mine.open(b"/f", Some(0o666)).unwrap();
    mine.close().unwrap();
    mine.write(file, 0, b"abc").unwrap();
    mine.desk().taken().program.ask("tick 60000").unwrap();
    other.desk().taken().moment = 60_000;
    // The file is longer by now, so the plan's node row is wrong; all of the log can be done still.
    other.write(file, 0, b"0123456789").unwrap();
    other.close().unwrap();
    mine.sync().unwrap();
    assert_eq!(kept(&mut mine, "f").unwrap(), b"abc3456789");
}

#[test]
fn leases_go_with_their_nodes() {
    let client = Client { grant: [2, 5], ..users()[0].clone() };
    let seat = seats(&program_path(), [64, 16, 16], std::slice::from_ref(&client)).remove(0);
    let mut mine = Session::new(seat, client, quick());
    let files = [&b"/a"[..], b"/b"].map(|path| mine.open(path, Some(0o644)).unwrap());
    mine.sync().unwrap();
    for (file, path) in files.into_iter().zip(["a", "b"]) {
        mine.write(file, 0, b"old").unwrap();
        mine.unlink(ROOT, &name(path), Kind::File).unwrap();
    }
    mine.sync().unwrap();
    let others = [&b"/c"[..], b"/d", b"/e", b"/f"].map(|path| mine.open(path, Some(0o644)).unwrap());
    assert_eq!(others[2..], files);
    mine.sync().unwrap();
    // These have the numbers, and need leases of their own.
    others.into_iter().for_each(|file| assert_eq!(mine.write(file, 0, b"new").unwrap(), 3));
    mine.sync().unwrap();
    assert_eq!(kept(&mut mine, "e").unwrap(), b"new");
}

#[test]
fn nothing_is_lost_where_leases_have_ended_unnoticed() {
    let [mut mine, ..] = sessions(&quick());
    let files = ["a", "b", "c"].map(|file| mine.open(file.as_bytes(), Some(0o644)).unwrap());
    mine.sync().unwrap();
    for file in files {
        mine.write(file, 0, b"x").unwrap();
        mine.desk().drop_lease(file).unwrap().unwrap();
    }
    mine.rename(ROOT, &name("c"), ROOT, &name("d")).unwrap();
    mine.desk().drop_lease(ROOT).unwrap().unwrap();
    mine.sync().unwrap();
    assert_eq!(["a", "b", "d"].map(|file| kept(&mut mine, file).unwrap()), [b"x", b"x", b"x"]);
}

#[test]
fn nothing_is_lost_where_a_lease_is_not_to_be_had_now() {
    let [mut mine, mut other, _] = sessions(&quick());
    mine.open(b"/f", Some(0o666)).unwrap();
    mine.desk().taken().program.ask("tick 60000").unwrap();
    other.desk().taken().moment = 60_000;
    other.open(b"/g", Some(0o666)).unwrap();
    let refused = mine.sync().unwrap_err();
    assert!(matches!(refused, HandInFault::Lease(ROOT, LeaseRefusal::Held(8))), "{refused}");
    assert_eq!(mine.draft().log().len(), 1);
    other.poll().unwrap();
    mine.sync().unwrap();
    assert!(kept(&mut mine, "f").is_some() && kept(&mut mine, "g").is_some());
}

#[test]
fn a_lost_answer_is_found_out() {
    for trouble in [Trouble::AnswerLost, Trouble::CallLost] {
        let [mut mine, ..] = sessions(&quick());
        let file = mine.open(b"/f", Some(0o644)).unwrap();
        mine.write(file, 0, b"abc").unwrap();
        mine.desk().trouble = trouble;
        let failure = mine.sync().unwrap_err();
        assert!(matches!(failure, HandInFault::Unanswered(Unanswered::Unknown)), "{failure}");
        assert_eq!(mine.read(file, 0, 9).unwrap(), b"abc");
        mine.sync().unwrap();
        assert_eq!(kept(&mut mine, "f").unwrap(), b"abc");
        assert!(mine.draft().log().is_empty());
        // Of bytes alone nobody can say, so they are handed in again.
        mine.write(file, 1, b"X").unwrap();
        mine.desk().trouble = trouble;
        mine.sync().unwrap_err();
        mine.sync().unwrap();
        assert_eq!(kept(&mut mine, "f").unwrap(), b"aXc");
    }
}

#[test]
fn a_log_that_may_be_done_takes_no_entry() {
    for trouble in [Trouble::AnswerLost, Trouble::CallLost] {
        let [mut mine, ..] = sessions(&quick());
        let file = mine.open(b"/f", Some(0o644)).unwrap();
        mine.write(file, 0, b"abc").unwrap();
        mine.desk().trouble = trouble;
        mine.sync().unwrap_err();
        // It is found out first, so this is an entry of the next log.
        mine.rename(ROOT, &name("f"), ROOT, &name("g")).unwrap();
        assert_eq!(mine.draft().log().len(), 1);
        mine.write(file, 3, b"d").unwrap();
        mine.sync().unwrap();
        assert_eq!(kept(&mut mine, "g").unwrap(), b"abcd");
        assert_eq!(kept(&mut mine, "f"), None);
        mine.write(file, 4, b"e").unwrap();
        mine.desk().trouble = trouble;
        mine.sync().unwrap_err();
        // Nor is it added to the last one.
        mine.write(file, 5, b"f").unwrap();
        mine.sync().unwrap();
        assert_eq!(kept(&mut mine, "g").unwrap(), b"abcdef");
    }
}

#[test]
fn a_lease_is_had_below_a_directory_that_the_log_has_moved() {
    let [mut mine, mut other, _] = sessions(&quick());
    let directory = other.create(ROOT, &name("d"), Kind::Directory, 0o777).unwrap();
    other.open(b"/d/f", Some(0o666)).unwrap();
    other.close().unwrap();
    mine.desk().is_by_path = true;
    mine.rename(ROOT, &name("d"), ROOT, &name("e")).unwrap();
    let file = mine.walk(b"/e/f").unwrap();
    assert_eq!(mine.draft().log().len(), 1);
    // The server knows no such path before the log is handed in: it is asked by the one from before.
    mine.write(file, 0, b"x").unwrap();
    assert_eq!(mine.draft().log().len(), 2);
    for number in [ROOT, directory, file] {
        mine.desk().drop_lease(number).unwrap().unwrap();
    }
    mine.sync().unwrap();
    assert_eq!(other.lookup(ROOT, &name("e")).unwrap().0, directory);
    mine.close().unwrap();
    assert_eq!(other.read(file, 0, 9).unwrap(), b"x");
}

#[test]
fn without_free_blocks_the_log_stays() {
    let mut seat = seats(&program_path(), [2, 8, 8], &users());
    let mut mine = Session::new(seat.remove(0), users().remove(0), quick());
    let file = mine.open(b"/f", Some(0o644)).unwrap();
    mine.write(file, 0, &[1; 3 * 4096]).unwrap();
    let failure = mine.sync().unwrap_err();
    assert!(matches!(failure, HandInFault::NoRoom { need: 3, free: 2 }), "{failure}");
    assert_eq!(failure.errno(), Errno::ENOSPC);
    mine.truncate(file, 8192).unwrap();
    mine.sync().unwrap();
    assert_eq!(kept(&mut mine, "f").unwrap(), [1; 8192]);
}

#[test]
fn leases_that_are_used_are_renewed() {
    let [mut mine, ..] = sessions(&Options { term: 100, ..quick() });
    mine.open(b"/f", Some(0o644)).unwrap();
    for moment in [60, 120, 180] {
        mine.desk().tick(moment);
        mine.poll().unwrap();
    }
    mine.sync().unwrap();
    assert!(kept(&mut mine, "f").is_some());
}

#[test]
fn reads_under_a_lease_ask_nobody() {
    let [mut mine, mut other, _] = sessions(&quick());
    let file = other.open(b"/f", Some(0o644)).unwrap();
    other.write(file, 0, b"abc").unwrap();
    other.close().unwrap();
    let all = |session: &mut Session<Seat>| {
        (session.walk(b"/f").unwrap(), session.read(file, 0, 9).unwrap(), session.walk(b"/g").unwrap_err().errno())
    };
    let first = all(&mut mine);
    (0..5).for_each(|_| assert_eq!(all(&mut mine), first));
    let before = mine.desk().calls;
    (0..50).for_each(|_| assert_eq!(all(&mut mine), first));
    assert_eq!(mine.desk().calls, before, "the server was asked");
    // Who wants to write is let in, and is seen then.
    other.write(file, 0, b"x").unwrap_err();
    mine.poll().unwrap();
    other.write(file, 0, b"x").unwrap();
    other.close().unwrap();
    // Behind some reads there is a lease again.
    (0..5).for_each(|_| assert_eq!(all(&mut mine).1, b"xbc"));
}

#[test]
fn faults_are_those_of_posix() {
    let [mut mine, mut other, _] = sessions(&quick());
    let directory = mine.create(ROOT, &name("d"), Kind::Directory, 0o700).unwrap();
    let file = mine.open(b"/d/f", Some(0o600)).unwrap();
    mine.open(b"/g", Some(0o600)).unwrap();
    let errno = |result: Result<(), Failure>| result.unwrap_err().errno();
    assert_eq!(mine.walk(b"/d/x").unwrap_err().errno(), Errno::ENOENT);
    assert_eq!(mine.walk(b"/g/x").unwrap_err().errno(), Errno::ENOTDIR);
    assert_eq!(mine.read(directory, 0, 1).unwrap_err().errno(), Errno::EISDIR);
    assert_eq!(mine.create(ROOT, &name("d"), Kind::Directory, 0o700).unwrap_err().errno(), Errno::EEXIST);
    assert_eq!(errno(mine.unlink(ROOT, &name("d"), Kind::File)), Errno::EISDIR);
    assert_eq!(errno(mine.unlink(ROOT, &name("g"), Kind::Directory)), Errno::ENOTDIR);
    assert_eq!(errno(mine.unlink(ROOT, &name("d"), Kind::Directory)), Errno::ENOTEMPTY);
    assert_eq!(errno(mine.rename(ROOT, &name("d"), directory, &name("e"))), Errno::EINVAL);
    assert_eq!(errno(mine.rename(ROOT, &name("g"), ROOT, &name("d"))), Errno::EISDIR);
    assert_eq!(errno(mine.rename(ROOT, &name("d"), ROOT, &name("g"))), Errno::ENOTDIR);
    assert_eq!(errno(mine.link(directory, ROOT, &name("h"))), Errno::EPERM);
    assert_eq!(errno(mine.truncate(file, u64::MAX)), Errno::EFBIG);
    assert_eq!(errno(mine.change_group(file, 4)), Errno::EPERM);
    assert_eq!(errno(mine.change_mode(file, 0o2000)), Errno::EINVAL);
    assert_eq!(mine.open(&[b'x'; 256], Some(0)).unwrap_err().errno(), Errno::ENAMETOOLONG);
    mine.close().unwrap();
    assert_eq!(other.walk(b"/d/f").unwrap_err().errno(), Errno::EACCES);
    assert_eq!(other.list(directory, None, 1).unwrap_err().errno(), Errno::EACCES);
    assert_eq!(errno(other.access(file, Access::Read)), Errno::EACCES);
    assert_eq!(errno(other.change_mode(directory, 0o777)), Errno::EPERM);
    assert_eq!(other.write(file, 0, b"x").unwrap_err().errno(), Errno::EACCES);
}

#[test]
fn the_greatest_file_and_the_most_names() {
    let [mut mine, mut other, _] = sessions(&quick());
    let file = mine.open(b"/f", Some(0o644)).unwrap();
    mine.truncate(file, 1 << 32).unwrap();
    mine.write(file, (1 << 32) - 3, b"end").unwrap();
    assert_eq!(mine.write(file, (1 << 32) - 2, b"end").unwrap_err().errno(), Errno::EFBIG);
    assert_eq!(mine.write(file, 1 << 32, b"x").unwrap_err().errno(), Errno::EFBIG);
    assert_eq!(mine.write(file, u64::MAX, b"x").unwrap_err().errno(), Errno::EFBIG);
    assert_eq!(mine.read(file, (1 << 32) - 5, 100).unwrap(), b"\0\0end");
    for index in 1..1024 {
        mine.link(file, ROOT, &name(&format!("l{index}"))).unwrap();
    }
    assert_eq!(mine.link(file, ROOT, &name("more")).unwrap_err().errno(), Errno::EMLINK);
    mine.close().unwrap();
    let header = other.header(file).unwrap();
    assert_eq!((header.links, header.size), (1024, 1 << 32));
    assert_eq!(other.read(file, (1 << 32) - 4, 100).unwrap(), b"\0end");
}

#[test]
fn numbers_are_given_in_order_and_again() {
    let mut user = users().remove(0);
    user.grant = [5, 7];
    let seat = seats(&program_path(), [8, 8, 8], std::slice::from_ref(&user)).remove(0);
    let mut mine = Session::new(seat, user, quick());
    let numbers: Vec<u32> = ["a", "b", "c"].map(|text| mine.open(text.as_bytes(), Some(0)).unwrap()).to_vec();
    assert_eq!(numbers, [5, 6, 7]);
    assert_eq!(mine.open(b"d", Some(0)).unwrap_err().errno(), Errno::ENOSPC);
    mine.unlink(ROOT, &name("b"), Kind::File).unwrap();
    // A number that the log has given isn't free in it: it is handed in before.
    assert_eq!(mine.open(b"d", Some(0)).unwrap(), 6);
    assert_eq!(mine.draft().log().len(), 1);
    mine.sync().unwrap();
}

#[test]
fn a_plan_is_made_in_one_pass() {
    let [mut mine, ..] = sessions(&quick());
    let files = ["a", "b"].map(|text| mine.open(text.as_bytes(), Some(0o644)).unwrap());
    let mut at = 1u64;
    for index in 0..4000u64 {
        at = at.wrapping_mul(6_364_136_223_846_793_005).wrapping_add(1_442_695_040_888_963_407);
        mine.write(files[(index % 2) as usize], at >> 44, &[index as u8; 150]).unwrap();
    }
    let log = mine.draft().log().as_bytes().to_vec();
    let began = Instant::now();
    let plan = mine.draft().plan().to_bytes();
    assert!(began.elapsed() < Duration::from_secs(1), "{:?}", began.elapsed());
    assert_eq!(mine.desk().taken().program.plan(&log).unwrap().unwrap(), plan);
    assert_eq!(mine.desk().taken().program.submit(&log, &plan).unwrap(), Answer::Yes);
}

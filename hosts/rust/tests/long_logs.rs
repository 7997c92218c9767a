//! Logs of as many entries as there may be, landed by threads with the stack that Rust gives one, which is 2 MiB, and by eight
//! threads with 256 KiB each.

use kfs::{Client, Desk, Error, Reply};
use std::sync::Mutex;
use std::thread;

const ENTRIES: u32 = 4_096;
const ROOT: u32 = 1;
const SMALL_STACK: usize = 256 * 1024;
const NO_LEASE_HELD: u32 = 8;

/// The names of the files that are there end in an even digit, so that others fit between them.
fn name(index: u32) -> String {
    format!("n{index:07}")
}

fn push_name(bytes: &mut Vec<u8>, directory: u32, name: &str) {
    bytes.extend(directory.to_be_bytes());
    bytes.push(name.len() as u8);
    bytes.extend(name.bytes());
}

fn push_node(bytes: &mut Vec<u8>, number: u32, kind: u8, mode: u16) {
    bytes.extend(number.to_be_bytes());
    bytes.push(kind);
    bytes.extend(mode.to_be_bytes());
    bytes.extend([0; 8]); // uid and gid
    bytes.extend(1u16.to_be_bytes());
    bytes.extend(0u64.to_be_bytes());
}

/// The bytes of an image with so many directories in the root directory, of the numbers from 2 on, and so many files in each of
/// them, of the numbers behind those. Without directories the files stand in the root directory.
fn image(directories: u32, files: u32) -> Vec<u8> {
    let holders = if directories == 0 { ROOT..=ROOT } else { 2..=directories + 1 };
    let all = files * holders.clone().count() as u32;
    let mut bytes = b"KIMG\x02".to_vec();
    for number in [8, 8, 8, 1 + directories + all, directories + all, 0] {
        bytes.extend(number.to_be_bytes());
    }
    for number in 1..=1 + directories + all {
        let (kind, mode) = if number <= 1 + directories { (1, 0o777) } else { (0, 0o644) };
        push_node(&mut bytes, number, kind, mode);
    }
    for number in 2..=directories + 1 {
        push_name(&mut bytes, ROOT, &name(number));
        bytes.extend(number.to_be_bytes());
    }
    let mut number = directories + 2;
    for holder in holders {
        for index in 0..files {
            push_name(&mut bytes, holder, &name(2 * index));
            bytes.extend(number.to_be_bytes());
            number += 1;
        }
    }
    bytes
}

/// A log of the client, of as many entries as there may be.
fn log(client: u32, entry: impl Fn(u32) -> Vec<u8>) -> Vec<u8> {
    let mut log = b"KLOG\x02".to_vec();
    log.extend(client.to_be_bytes());
    log.extend((ENTRIES as u16).to_be_bytes());
    log.extend((0..ENTRIES).flat_map(entry));
    log
}

/// A Create of a file in the root directory.
fn create(name: &str, number: u32) -> Vec<u8> {
    let mut entry = vec![1];
    push_name(&mut entry, ROOT, name);
    entry.extend(number.to_be_bytes());
    entry.push(0);
    entry.extend(0o644u16.to_be_bytes());
    entry
}

fn unlink(directory: u32, name: &str) -> Vec<u8> {
    let mut entry = vec![5];
    push_name(&mut entry, directory, name);
    entry.push(0);
    entry
}

/// A client that may do everything; it may give the numbers of the grant to new nodes.
fn client(number: u32, grant: std::ops::RangeInclusive<u32>) -> Client {
    Client { number, uid: 0, gid: 0, groups: vec![], privileged: true, grant }
}

/// A desk with so many files in the root directory, on which client 1 has a lease.
fn desk(files: u32) -> Desk {
    let mut desk = Desk::load(&image(0, files), &[client(1, 2..=65_536)], u32::MAX).unwrap();
    assert_eq!(desk.lease(1, b"/", true, 100), Ok(Ok(1)));
    desk
}

/// Makes the plan of a log of client 1, judges it and lands it, in a thread of its own.
fn land_in_thread(mut desk: Desk, log: Vec<u8>) -> (Desk, Reply) {
    let landed = thread::spawn(move || {
        let plan = desk.plan(1, &log).unwrap();
        let reply = desk.submit(1, &log, &plan).unwrap();
        (desk, reply)
    });
    landed.join().unwrap()
}

#[test]
fn creates_between_sixty_thousand_files() {
    const FILES: u32 = 60_000;
    const APART: u32 = FILES / ENTRIES;
    let new = |index: u32| name(2 * APART * index + 1);
    let (mut desk, reply) = land_in_thread(desk(FILES), log(1, |index| create(&new(index), FILES + 2 + index)));
    assert_eq!(reply, Reply::Yes { position: 1, rejudged: false, need: 0 });
    let mut due: Vec<_> = (0..FILES).map(|index| (name(2 * index).into_bytes(), index + 2)).collect();
    due.extend((0..ENTRIES).map(|index| (new(index).into_bytes(), FILES + 2 + index)));
    due.sort();
    assert_eq!(desk.names(ROOT), Ok(due));
    assert_eq!(desk.node(FILES + 1 + ENTRIES).map(|node| (node.directory, node.mode, node.links)), Ok((false, 0o644, 1)));
    assert_eq!(desk.node(FILES + 2 + ENTRIES), Err(Error::Nothing));
}

#[test]
fn unlinks_of_leased_files() {
    const APART: u32 = 14;
    const FILES: u32 = APART * ENTRIES;
    let mut desk = desk(FILES);
    for index in 0..FILES {
        let path = format!("/{}", name(2 * index));
        assert_eq!(desk.lease(1, path.as_bytes(), true, 100), Ok(Ok(u64::from(index) + 2)));
    }
    let (mut desk, reply) = land_in_thread(desk, log(1, |index| unlink(ROOT, &name(2 * APART * index))));
    assert_eq!(reply, Reply::Yes { position: FILES + 1, rejudged: false, need: 0 });
    let left = (0..FILES).filter(|index| index % APART != 0);
    let due: Vec<_> = left.map(|index| (name(2 * index).into_bytes(), index + 2)).collect();
    assert_eq!(desk.names(ROOT), Ok(due));
    assert_eq!(desk.node(2), Err(Error::Nothing));
    // a file that is gone has no lease; the one behind it has
    assert!(matches!(desk.drop_lease(1, 2), Ok(Err(fault)) if fault.code == NO_LEASE_HELD));
    assert_eq!(desk.drop_lease(1, 3), Ok(Ok(3)));
}

/// Leases the client's directory and its first files, and takes these away by one log, which is judged outside the lock.
fn empty(desk: &Mutex<Desk>, client: u32, directory: u32) -> Reply {
    let folder = format!("/{}", name(directory));
    assert_eq!(desk.lock().unwrap().lease(client, folder.as_bytes(), true, 100), Ok(Ok(u64::from(directory))));
    for index in 0..ENTRIES {
        let path = format!("{folder}/{}", name(2 * index));
        assert!(matches!(desk.lock().unwrap().lease(client, path.as_bytes(), true, 100), Ok(Ok(_))));
    }
    let log = log(client, |index| unlink(directory, &name(2 * index)));
    let (plan, mut view) = {
        let mut desk = desk.lock().unwrap();
        (desk.plan(client, &log).unwrap(), desk.look().unwrap())
    };
    let verdict = view.judge(client, &log, &plan).unwrap();
    drop(view);
    let reply = desk.lock().unwrap().land(verdict).unwrap();
    reply
}

#[test]
fn eight_threads_with_small_stacks() {
    const THREADS: u32 = 8;
    const FILES: u32 = 7_000;
    let clients: Vec<Client> = (1..=THREADS).map(|number| client(number, number..=number)).collect();
    let desk = Mutex::new(Desk::load(&image(THREADS, FILES), &clients, u32::MAX).unwrap());
    thread::scope(|scope| {
        for number in 1..=THREADS {
            let desk = &desk;
            let small = thread::Builder::new().stack_size(SMALL_STACK);
            let started = small.spawn_scoped(scope, move || {
                assert!(matches!(empty(desk, number, number + 1), Reply::Yes { rejudged: false, need: 0, .. }));
            });
            started.unwrap();
        }
    });
    let mut desk = desk.into_inner().unwrap();
    assert_eq!(desk.docket_len(), Ok(THREADS * (ENTRIES + 2)));
    for directory in 2..=THREADS + 1 {
        let first = THREADS + 2 + (directory - 2) * FILES;
        let due: Vec<_> = (ENTRIES..FILES).map(|index| (name(2 * index).into_bytes(), first + index)).collect();
        assert_eq!(desk.names(directory), Ok(due));
    }
}

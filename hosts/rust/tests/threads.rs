//! Eight threads over one desk: each makes files in a directory of its own, and judges outside the lock.

use kfs::{Client, Desk, Reply};
use std::sync::Mutex;

const THREADS: u32 = 8;
const FILES: u32 = 40;

fn client(number: u32) -> Client {
    Client { number, uid: 0, gid: 0, groups: vec![4, 5], privileged: true, grant: number * 100..=number * 100 + 99 }
}

/// The log of a client that creates a node: its kind is 0 for a file and 1 for a directory.
fn create(client: u32, directory: u32, name: &str, number: u32, kind: u8) -> Vec<u8> {
    let mut log = b"KLOG\x01".to_vec();
    log.extend(client.to_be_bytes());
    log.extend(1u16.to_be_bytes());
    log.push(1);
    log.extend(directory.to_be_bytes());
    log.push(name.len() as u8);
    log.extend(name.bytes());
    log.extend(number.to_be_bytes());
    log.push(kind);
    log.extend(0o644u16.to_be_bytes());
    log
}

/// Plans under the lock, judges outside it, lands under it. Whether it was judged again.
fn hand_in(desk: &Mutex<Desk>, client: u32, log: &[u8]) -> bool {
    let (plan, mut view) = {
        let mut desk = desk.lock().unwrap();
        (desk.plan(client, log).unwrap(), desk.look().unwrap())
    };
    let verdict = view.judge(client, log, &plan).unwrap();
    drop(view);
    match desk.lock().unwrap().land(verdict).unwrap() {
        Reply::Yes { rejudged, need: 0, .. } => rejudged,
        other => panic!("{other:?}"),
    }
}

#[test]
fn eight_threads_over_one_desk() {
    let clients: Vec<Client> = (1..=THREADS).map(client).collect();
    let mut desk = Desk::open([64, 0, 0], &clients, u32::MAX).unwrap();
    for number in 1..=THREADS {
        // one after another: each needs the root's lease, and gives it up
        assert_eq!(desk.lease(number, b"/", true, 1_000), Ok(Ok(1)));
        let log = create(number, 1, &format!("of-{number}"), number * 100, 1);
        let plan = desk.plan(number, &log).unwrap();
        assert!(matches!(desk.submit(number, &log, &plan), Ok(Reply::Yes { .. })));
        assert_eq!(desk.drop_lease(number, 1), Ok(Ok(1)));
    }
    let begun = desk.docket_len().unwrap();
    let desk = Mutex::new(desk);
    std::thread::scope(|scope| {
        for number in 1..=THREADS {
            let desk = &desk;
            scope.spawn(move || {
                let path = format!("/of-{number}");
                let mine = u64::from(number * 100);
                assert_eq!(desk.lock().unwrap().lease(number, path.as_bytes(), true, 1_000), Ok(Ok(mine)));
                for file in 1..=FILES {
                    let log = create(number, number * 100, &format!("f{file:02}"), number * 100 + file, 0);
                    hand_in(desk, number, &log);
                }
            });
        }
    });
    let mut desk = desk.into_inner().unwrap();
    assert_eq!(desk.docket_len(), Ok(begun + THREADS * (1 + FILES)));
    for number in 1..=THREADS {
        let names = desk.names(number * 100).unwrap();
        let wanted: Vec<_> = (1..=FILES).map(|file| (format!("f{file:02}").into_bytes(), number * 100 + file)).collect();
        assert_eq!(names, wanted);
    }
    // the image over a restart
    let image = desk.save().unwrap();
    let mut again = Desk::load(&image, &clients, 10).unwrap();
    assert_eq!(again.save().unwrap(), image);
    assert_eq!(again.node(101), desk.node(101));
}

/// The log of a client that writes bytes at the front of a file.
fn write(client: u32, number: u32, payload: &[u8]) -> Vec<u8> {
    let mut log = b"KLOG\x01".to_vec();
    log.extend(client.to_be_bytes());
    log.extend(1u16.to_be_bytes());
    log.push(2);
    log.extend(number.to_be_bytes());
    log.extend(0u64.to_be_bytes());
    log.extend((payload.len() as u32).to_be_bytes());
    log.extend(payload);
    log
}

#[test]
fn blocks_are_written_moved_and_read() {
    let mut desk = Desk::open([8, 8, 0], &[client(1)], 10).unwrap();
    assert_eq!(desk.lease(1, b"/", true, 5), Ok(Ok(1)));
    let log = create(1, 1, "a", 100, 0);
    let plan = desk.plan(1, &log).unwrap();
    assert_eq!(desk.submit(1, &log, &plan), Ok(Reply::Yes { position: 1, rejudged: false, need: 0 }));
    assert_eq!(desk.lease(1, b"/a", true, 5), Ok(Ok(100)));
    let log = write(1, 100, b"bytes");
    let plan = desk.plan(1, &log).unwrap();
    assert_eq!(desk.submit(1, &log, &plan), Ok(Reply::Yes { position: 3, rejudged: false, need: 1 }));
    assert_eq!((desk.free(0), desk.free(1), desk.place(100, 1)), (Ok(7), Ok(8), Err(kfs::Error::Nothing)));
    assert_eq!(desk.place(100, 0).unwrap().0, 0);
    assert_eq!(desk.migrate(&[kfs::Move { number: 100, block: 0, tier: 1, place: 3 }]), Ok(Ok(1)));
    assert_eq!((desk.free(0), desk.free(1), desk.place(100, 0)), (Ok(8), Ok(7), Ok((1, 3))));
    let mut buffer = [b'-'; 8];
    assert_eq!(desk.read(100, 2, &mut buffer), Ok(3));
    assert_eq!(&buffer, b"tes-----");
    assert_eq!(desk.read(7, 0, &mut buffer), Err(kfs::Error::Nothing));
    assert_eq!(desk.read(1, 0, &mut buffer), Err(kfs::Error::Directory));
}

#[test]
fn faults_are_told() {
    let mut desk = Desk::open([8, 0, 0], &[client(1)], 2).unwrap();
    assert!(matches!(desk.submit(9, b"", b""), Ok(Reply::No { position: 0, fault, .. }) if fault.code == 1));
    assert!(matches!(desk.lease(9, b"/", true, 5), Ok(Err(fault)) if fault.code == 1));
    assert_eq!(desk.tick(7), Err(kfs::Error::Full));
    assert_eq!(desk.docket_len(), Ok(2));
    assert!(matches!(Desk::open([65_537, 0, 0], &[], 0), Err(kfs::Error::Refused(fault)) if fault.code == 1));
    assert!(matches!(Desk::open([8, 0, 0], &[client(1), client(1)], 0), Err(kfs::Error::Refused(fault)) if fault.code == 3));
    assert!(matches!(Desk::load(b"KIMG", &[], 0), Err(kfs::Error::Refused(fault)) if fault.code == 4));
}

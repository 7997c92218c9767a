//! Logs handed in without a plan, and names looked up.

use kfs::{Client, Desk, Error, Fault, Reply};

/// Client 7 makes directory 3 named `d` with mode 0711, and in it file 5 named `a` with mode 0640.
const LOG: &[u8] = b"KLOG\x01\0\0\0\x07\0\x02\x01\0\0\0\x01\x01d\0\0\0\x03\x01\x01\xc9\x01\0\0\0\x03\x01a\0\0\0\x05\0\x01\xa0";

/// It creates the name `d` of the root once more.
const AGAIN: &[u8] = b"KLOG\x01\0\0\0\x07\0\x01\x01\0\0\0\x01\x01d\0\0\0\x06\0\x01\xa4";

fn client(number: u32, uid: u32, grant: std::ops::RangeInclusive<u32>) -> Client {
    Client { number, uid, gid: uid, groups: vec![], privileged: false, grant }
}

/// A desk on which client 7 has handed in its log.
fn desk() -> Desk {
    let clients = [client(7, 1000, 2..=99), client(8, 1001, 100..=199)];
    let mut desk = Desk::open([8, 8, 8], &clients, 1000).unwrap();
    desk.lease(7, b"/", true, 100).unwrap().unwrap();
    assert_eq!(desk.submit_log(7, LOG), Ok(Reply::Yes { position: 1, rejudged: false, need: 0 }));
    desk
}

/// The code of the fault, of a reply that is a No.
fn refused(reply: Result<Reply, Error>) -> (u32, u32, u64) {
    match reply {
        Ok(Reply::No { fault, .. }) => (fault.code, fault.reason, fault.index),
        other => panic!("{other:?}"),
    }
}

#[test]
fn a_fault_of_a_log_is_told_by_its_name() {
    let mut desk = desk();
    // entry 0, the name is taken
    assert_eq!(refused(desk.submit_log(7, AGAIN)), (5, 5, 0));
    // an unknown client, no log, another client's log
    assert_eq!(refused(desk.submit_log(11, AGAIN)), (1, 0, 0));
    assert_eq!(refused(desk.submit_log(7, b"KLOG")), (2, 1, 0));
    assert_eq!(refused(desk.submit_log(8, AGAIN)), (3, 0, 0));
}

#[test]
fn names_are_looked_up() {
    let mut desk = desk();
    assert_eq!(desk.find(1, b"d"), Ok(3));
    assert_eq!(desk.find(3, b"a"), Ok(5));
    assert_eq!(desk.find(1, b"a"), Err(Error::Nothing));
    assert_eq!(desk.find(5, b"a"), Err(Error::Nothing));
    assert_eq!(desk.find(1, b".."), Err(Error::Refused(Fault::default())));
}

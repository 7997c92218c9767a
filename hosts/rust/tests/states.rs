//! A desk that is saved and restored, and calls as bytes.

use kfs::{Client, Desk, Error, Lease};

/// Client 7 asks for a write lease on the root up to moment 100 (docs/FORMATS.md).
const LEASE: &[u8] = b"\x02\0\0\0\x07\x01\0\0\0\0\0\0\0\x64\0\x01/";

fn client(number: u32, grant: std::ops::RangeInclusive<u32>) -> Client {
    Client { number, uid: 1000, gid: 1000, groups: vec![], privileged: false, grant }
}

fn desk() -> Desk {
    Desk::open([8, 8, 8], &[client(7, 2..=99)], 1000).unwrap()
}

#[test]
fn a_restored_desk_has_the_lease() {
    let mut desk = desk();
    // the first row: client 7 has its lease on node 1
    assert_eq!(desk.call(LEASE), Ok(b"\0\0\0\0\x04\0\0\0\x01".to_vec()));
    let state = desk.state().unwrap();
    let mut other = Desk::restore(&state, 1000).unwrap();
    assert_eq!(other.state(), Ok(state));
    assert_eq!(other.docket_len(), Ok(0));
    assert_eq!(other.drop_lease(7, 1), desk.drop_lease(7, 1));
}

/// Client 7 may write the root directory up to moment 100.
const HELD: Lease = Lease { number: 1, client: 7, end: 100, write: true };

#[test]
fn a_resumed_desk_has_the_lease() {
    let mut desk = desk();
    desk.tick(9).unwrap().unwrap();
    desk.lease(7, b"/", true, 100).unwrap().unwrap();
    let image = desk.save().unwrap();
    let mut other = Desk::resume(&image, &[client(7, 2..=99)], &[HELD], 9, 1000).unwrap();
    assert_eq!(other.state(), desk.state());
    assert_eq!(other.docket_len(), Ok(0));
}

/// The code, the reason and the index of why no desk goes on at moment 9.
fn unresumed(image: &[u8], clients: &[Client], leases: &[Lease]) -> (u32, u32, u64) {
    match Desk::resume(image, clients, leases, 9, 1000).map(drop) {
        Err(Error::Refused(fault)) => (fault.code, fault.reason, fault.index),
        other => panic!("{other:?}"),
    }
}

#[test]
fn each_lease_that_no_desk_has_is_told() {
    let image = desk().save().unwrap();
    let clients = [client(7, 2..=99), client(8, 100..=199)];
    let told = |leases: &[Lease]| unresumed(&image, &clients, leases);
    assert_eq!(told(&[Lease { client: 9, ..HELD }]), (7, 1, 0));
    assert_eq!(told(&[HELD, Lease { number: 2, ..HELD }]), (7, 2, 1));
    assert_eq!(told(&[Lease { end: 9, ..HELD }]), (7, 3, 0));
    assert_eq!(told(&[HELD, HELD]), (7, 4, 1));
    assert_eq!(told(&[HELD, Lease { client: 8, ..HELD }]), (7, 5, 1));
}

#[test]
fn the_first_thing_that_is_wrong_is_told() {
    let image = desk().save().unwrap();
    let (never, twice) = ([client(7, 0..=99)], [client(7, 2..=99), client(7, 100..=199)]);
    let past = [Lease { end: 9, ..HELD }];
    assert_eq!(unresumed(&image[1..], &never, &past), (4, 1, 0));
    assert_eq!(unresumed(&image, &never, &past), (2, 2, 0));
    assert_eq!(unresumed(&image, &twice, &past), (7, 3, 0));
    assert_eq!(unresumed(&image, &twice, &[HELD]), (3, 1, 1));
}

#[test]
fn other_bytes_are_refused() {
    let mut desk = desk();
    let codes = |answer: Result<(), Error>| match answer {
        Err(Error::Refused(fault)) => (fault.code, fault.index),
        other => panic!("{other:?}"),
    };
    assert_eq!(codes(desk.call(&LEASE[..5]).map(drop)), (1, 2));
    assert_eq!(codes(desk.call(&[LEASE, b"/"].concat()).map(drop)), (2, 0));
    assert_eq!(codes(Desk::restore(LEASE, 1000).map(drop)), (6, 0));
}

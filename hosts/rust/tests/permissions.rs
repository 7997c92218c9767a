//! Who may look names up, list them and read, and who gets a lease by number.

use kfs::{Access, Client, Desk, Error, Reply};

/// Client 7 makes directory 3 named `d` with mode 0711, and in it file 5 named `a` with mode 0640.
const LOG: &[u8] = b"KLOG\x01\0\0\0\x07\0\x02\x01\0\0\0\x01\x01d\0\0\0\x03\x01\x01\xc9\x01\0\0\0\x03\x01a\0\0\0\x05\0\x01\xa0";

fn client(number: u32, uid: u32, groups: Vec<u32>, privileged: bool) -> Client {
    Client { number, uid, gid: uid, groups, privileged, grant: number * 100 - 698..=number * 100 - 601 }
}

/// A desk on which client 7 has handed in its log. Client 8 is in its group, client 9 isn't, and client 10 is
/// privileged.
fn desk() -> Desk {
    let clients = [
        client(7, 1000, vec![], false),
        client(8, 1001, vec![1000], false),
        client(9, 1002, vec![], false),
        client(10, 1003, vec![], true),
    ];
    let mut desk = Desk::open([8, 8, 8], &clients, 1000).unwrap();
    desk.lease(7, b"/", true, 100).unwrap().unwrap();
    assert_eq!(desk.submit_log(7, LOG), Ok(Reply::Yes { position: 1, rejudged: false, need: 0 }));
    desk
}

#[test]
fn bits_permit() {
    let mut desk = desk();
    let mut view = desk.look().unwrap();
    let codes = |answers: [Result<(), Error>; 3]| {
        answers.map(|answer| match answer {
            Ok(()) => 0,
            Err(Error::Refused(fault)) => fault.code,
            Err(error) => panic!("{error:?}"),
        })
    };
    let mut asked = |client, directory, file| {
        codes([
            view.may(Access::FindName, client, directory),
            view.may(Access::ListNames, client, directory),
            view.may(Access::ReadBytes, client, file),
        ])
    };
    // the owner, its group, another client, a privileged one
    assert_eq!(asked(7, 3, 5), [0, 0, 0]);
    assert_eq!(asked(8, 3, 5), [0, 6, 0]);
    assert_eq!(asked(9, 3, 5), [0, 6, 6]);
    assert_eq!(asked(10, 3, 5), [0, 0, 0]);
    // the other kind, no such node, no such client
    assert_eq!(asked(10, 5, 3), [3, 3, 4]);
    assert_eq!(asked(9, 4, 0), [2, 2, 2]);
    assert_eq!(asked(11, 4, 0), [1, 1, 1]);
}

#[test]
fn leases_by_number() {
    let mut desk = desk();
    let mut asked = |client, number, write, end| match desk.lease_at(client, number, write, end).unwrap() {
        Ok(number) => (number, 0),
        Err(fault) => (fault.code.into(), fault.detail),
    };
    // the refusals in their order: each call fails each later test, too
    assert_eq!(asked(11, 4, true, 0), (1, 0));
    assert_eq!(asked(9, 4, true, 0), (10, 0));
    assert_eq!(asked(9, 1 << 31, false, 0), (10, 0));
    assert_eq!(asked(9, 5, true, 0), (11, 0));
    assert_eq!(asked(10, 1, false, 0), (6, 0));
    assert_eq!(asked(10, 1, false, 100), (7, 7));
    // the group may read the file, another client may not; the owner and a privileged client may write it
    assert_eq!(asked(8, 5, false, 100), (5, 0));
    assert_eq!(asked(8, 5, true, 100), (11, 0));
    assert_eq!(asked(9, 5, false, 100), (11, 0));
    assert_eq!(asked(7, 5, true, 100), (7, 8));
    assert_eq!(asked(10, 5, false, 100), (5, 0));
    assert_eq!(asked(7, 3, true, 100), (3, 0));
}

//! Who may connect, and which client of the desk each one is.

use crate::allowance::Allowance;
use crate::config::Limits;
use crate::pace::Pace;
use crate::thread::Usage;
use serde::{Deserialize, Serialize};
use std::collections::{BTreeSet, HashMap};
use std::fmt::Write as _;
use std::sync::atomic::{AtomicU32, Ordering};
use std::sync::Arc;
use thiserror::Error;

/// The client number that stands for the front itself.
pub const FRONT: u32 = u32::MAX;

/// How many supplementary groups a client of the desk may have.
const GROUP_LIMIT: usize = 16;

/// How many frames of a user kfsd itself answers a second, and how many connections it takes; and how many of each at once.
const ANSWERS: u32 = 10_000;
const ARRIVALS: u32 = 1_000;
const AT_ONCE: u32 = 100;

/// A user of the configuration.
#[derive(Clone, Debug, Deserialize, Serialize, PartialEq, Eq)]
#[serde(deny_unknown_fields)]
pub struct User {
    /// The user's number on this machine, which the kernel tells of a connection.
    pub uid: u32,
    pub gid: u32,
    /// The client of the desk that it is.
    pub client: u32,
    #[serde(default)]
    pub groups: Vec<u32>,
    #[serde(default)]
    pub privileged: bool,
    /// The first and the last number that it may give to new nodes.
    pub grant: [u32; 2],
}

impl User {
    /// The line of the client, as `kfs_serve new` reads it (docs/FORMATS.md, "client").
    pub fn line(&self) -> String {
        let [first, last] = self.grant;
        let privilege = u32::from(self.privileged);
        let mut line = format!("client {} {} {} {privilege} {first} {last}", self.client, self.uid, self.gid);
        for group in &self.groups {
            // Nothing is refused where a String is written to.
            let _ = write!(line, " {group}");
        }
        line
    }

    /// The user that such a line is; none where it is no such line.
    pub fn of_line(line: &str) -> Option<User> {
        let numbers = line.strip_prefix("client ")?.split(' ').map(|word| word.parse().ok());
        match *numbers.collect::<Option<Vec<u32>>>()? {
            [client, uid, gid, privilege @ (0 | 1), first, last, ref groups @ ..] => {
                Some(User { uid, gid, client, groups: groups.to_vec(), privileged: privilege == 1, grant: [first, last] })
            }
            _ => None,
        }
    }
}

/// Why users aren't taken.
#[derive(Debug, Error, PartialEq, Eq)]
pub enum UsersFault {
    #[error("user {0} is there twice")]
    TwiceUid(u32),
    #[error("user {0}: client {1} is there twice")]
    TwiceClient(u32, u32),
    #[error("user {0}: client {FRONT} is the front")]
    Front(u32),
    #[error("user {0} has more than 16 groups")]
    Groups(u32),
}

/// Looks whether the users can be beside each other. The desk asks for more at its first start.
pub fn check(users: &[User]) -> Result<(), UsersFault> {
    let (mut uids, mut clients) = (BTreeSet::new(), BTreeSet::new());
    for user in users {
        if !uids.insert(user.uid) {
            return Err(UsersFault::TwiceUid(user.uid));
        }
        if !clients.insert(user.client) {
            return Err(UsersFault::TwiceClient(user.uid, user.client));
        }
        if user.client == FRONT {
            return Err(UsersFault::Front(user.uid));
        }
        if user.groups.len() > GROUP_LIMIT {
            return Err(UsersFault::Groups(user.uid));
        }
    }
    Ok(())
}

/// The lines of clients, as a first start takes them.
pub fn lines_of(users: &[User]) -> String {
    users.iter().map(|user| user.line() + "\n").collect()
}

/// How many calls of a user may be made at once: those of a tenth of a second.
fn calls_at_once(limits: &Limits) -> u32 {
    (limits.calls_a_second / 10).max(1)
}

/// What a user has in flight, over all of its connections.
#[derive(Debug)]
pub struct Account {
    pub user: User,
    pub frames: Arc<Allowance>,
    pub bytes: Arc<Allowance>,
    /// Frames that kfsd answers itself, and new connections. Where a user has more of them, they wait.
    pub answers: Pace,
    pub arrivals: Pace,
    /// Calls that it makes.
    pub calls: Pace,
    /// What it has had of kfsd's thread.
    pub usage: Arc<Usage>,
    connections: AtomicU32,
}

impl Account {
    fn new(user: User, limits: &Limits) -> Account {
        Account {
            user,
            frames: Allowance::new(limits.frames_a_user),
            bytes: Allowance::new(limits.bytes_a_user),
            answers: Pace::new(ANSWERS, AT_ONCE),
            arrivals: Pace::new(ARRIVALS, AT_ONCE),
            calls: Pace::new(limits.calls_a_second, calls_at_once(limits)),
            usage: Arc::default(),
            connections: AtomicU32::new(0),
        }
    }

    /// Holds it to other limits from now on. What it has in flight stays.
    fn limit(&self, limits: &Limits) {
        self.frames.set_most(limits.frames_a_user);
        self.bytes.set_most(limits.bytes_a_user);
        self.calls.set(limits.calls_a_second, calls_at_once(limits));
    }

    /// How many connections it has.
    pub fn connections(&self) -> u32 {
        self.connections.load(Ordering::Relaxed)
    }

    /// Counts one connection more, for as long as the answer lives; none where it has `most` of them.
    pub fn connect(self: &Arc<Account>, most: u32) -> Option<Place> {
        let more = |count| (count < most).then_some(count + 1);
        self.connections.fetch_update(Ordering::Relaxed, Ordering::Relaxed, more).ok()?;
        Some(Place { account: Arc::clone(self) })
    }
}

/// The place of one connection of a user.
#[derive(Debug)]
pub struct Place {
    pub account: Arc<Account>,
}

impl Drop for Place {
    fn drop(&mut self) {
        self.account.connections.fetch_sub(1, Ordering::Relaxed);
    }
}

/// The users that may connect, by uid.
#[derive(Debug, Default)]
pub struct Table {
    accounts: HashMap<u32, Arc<Account>>,
    /// Those that are listed, and are no clients of the desk.
    strangers: HashMap<u32, User>,
}

impl Table {
    /// The table of these users. Who was there before keeps its account, so that what it has in flight is counted still.
    pub fn new(users: &[User], of_desk: &str, limits: &Limits, before: &Table) -> Table {
        let known: BTreeSet<&str> = of_desk.lines().collect();
        let (mut accounts, mut strangers) = (HashMap::new(), HashMap::new());
        for user in users {
            if !known.contains(user.line().as_str()) {
                strangers.insert(user.uid, user.clone());
                continue;
            }
            let account = match before.of(user.uid) {
                Some(account) if account.user == *user => {
                    account.limit(limits);
                    account
                }
                _ => Arc::new(Account::new(user.clone(), limits)),
            };
            accounts.insert(user.uid, account);
        }
        Table { accounts, strangers }
    }

    /// The account of a user.
    pub fn of(&self, uid: u32) -> Option<Arc<Account>> {
        self.accounts.get(&uid).cloned()
    }

    /// Whether a user is listed, and is no client of the desk.
    pub fn is_stranger(&self, uid: u32) -> bool {
        self.strangers.contains_key(&uid)
    }

    /// Those who are, by client.
    pub fn strangers(&self) -> Vec<&User> {
        let mut all: Vec<_> = self.strangers.values().collect();
        all.sort_by_key(|user| user.client);
        all
    }

    /// All accounts, by client.
    pub fn all(&self) -> Vec<&Arc<Account>> {
        let mut all: Vec<_> = self.accounts.values().collect();
        all.sort_by_key(|account| account.user.client);
        all
    }
}

#[cfg(test)]
mod tests {
    use super::*;

    fn user(uid: u32, client: u32) -> User {
        User { uid, gid: uid, client, groups: vec![50, 60], privileged: uid == 0, grant: [2, 99] }
    }

    #[test]
    fn a_line_is_as_the_desk_reads_it() {
        assert_eq!(user(1000, 7).line(), "client 7 1000 1000 0 2 99 50 60");
        assert_eq!(lines_of(&[user(0, 1), user(5, 2)]), "client 1 0 0 1 2 99 50 60\nclient 2 5 5 0 2 99 50 60\n");
        for one in [user(1000, 7), user(0, 1), User { groups: vec![], ..user(5, 2) }] {
            assert_eq!(User::of_line(&one.line()), Some(one));
        }
        for line in ["", "client", "client 7 1 1 2 2 99", "client 7 1 1 0 2", "client 7 1 1 0 2 x", "client 7 1 1 0 2 99 "] {
            assert_eq!(User::of_line(line), None, "{line}");
        }
    }

    #[test]
    fn two_of_one_kind_are_refused() {
        assert_eq!(check(&[user(1, 7), user(2, 8)]), Ok(()));
        assert_eq!(check(&[user(1, 7), user(1, 8)]), Err(UsersFault::TwiceUid(1)));
        assert_eq!(check(&[user(1, 7), user(2, 7)]), Err(UsersFault::TwiceClient(2, 7)));
        assert_eq!(check(&[user(1, FRONT)]), Err(UsersFault::Front(1)));
        let many = User { groups: vec![1; 17], ..user(1, 7) };
        assert_eq!(check(&[many]), Err(UsersFault::Groups(1)));
    }

    #[test]
    fn who_is_no_client_of_the_desk_is_kept_out() {
        let users = [user(1, 7), user(2, 8)];
        let table = Table::new(&users, &lines_of(&users[..1]), &Limits::default(), &Table::default());
        assert!(table.of(1).is_some() && !table.is_stranger(1));
        assert!(table.of(2).is_none() && table.is_stranger(2) && !table.is_stranger(3));
        assert_eq!(table.strangers(), [&users[1]]);
    }

    #[test]
    fn an_account_outlives_a_reload() {
        let users = [user(1, 7)];
        let lines = lines_of(&users);
        let before = Table::new(&users, &lines, &Limits::default(), &Table::default());
        let place = before.of(1).unwrap().connect(1).unwrap();
        let after = Table::new(&users, &lines, &Limits::default(), &before);
        assert_eq!(after.of(1).unwrap().connections(), 1);
        assert!(after.of(1).unwrap().connect(1).is_none());
        drop(place);
        assert!(after.of(1).unwrap().connect(1).is_some());
    }

    #[tokio::test]
    async fn what_is_in_flight_outlives_other_limits() {
        let users = [user(1, 7)];
        let lines = lines_of(&users);
        let table = |limits, before: &Table| Table::new(&users, &lines, &limits, before);
        let before = table(Limits { frames_a_user: 2, ..Limits::default() }, &Table::default());
        let account = before.of(1).unwrap();
        let frame = account.frames.take(2).await;
        let after = table(Limits { frames_a_user: 1, bytes_a_user: 70_000, ..Limits::default() }, &before);
        assert!(Arc::ptr_eq(&account, &after.of(1).unwrap()));
        assert_eq!((account.frames.left(), account.bytes.left()), (0, 70_000));
        drop(frame);
        assert_eq!(account.frames.left(), 1);
    }
}

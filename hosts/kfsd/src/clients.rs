//! Who is a client of the desk, and who is to become one.
//!
//! The desk's clients are in its files. A user of the configuration who is none of them becomes one at a start of `kfs_serve`
//! with `--clients`, where that knows the word and the new one can be beside the others.

use crate::users::{lines_of, User};
use std::sync::{Mutex, MutexGuard, PoisonError};
use tokio::sync::watch;
use tracing::{info, warn};

/// The greatest number of a node.
const LAST_NODE: u32 = 65_536;

/// How many processes may end one after another over new clients before these are kept out.
const TRIES: u32 = 3;

/// Whether new clients can be taken at all.
#[derive(Clone, Copy, Debug, PartialEq, Eq)]
enum Taking {
    /// Maybe: `kfs_serve` tells.
    Maybe,
    /// It doesn't know the word.
    Never,
    /// The clients of a volume were fixed when it began.
    Fixed,
}

#[derive(Debug)]
struct State {
    taking: Taking,
    /// The lines of the desk's clients.
    of_desk: String,
    /// The users of the configuration.
    listed: Vec<User>,
    /// Lines that were tried in vain.
    refused: Option<String>,
    /// How many processes have ended over the lines that are tried.
    tries: u32,
}

/// The clients of a desk.
#[derive(Debug)]
pub struct Clients {
    state: Mutex<State>,
    /// Changes where there may be somebody new, and where there is.
    changed: watch::Sender<()>,
}

/// How a process ended that was started with new clients, before it had opened the files.
#[derive(Clone, Copy, Debug, PartialEq, Eq)]
pub enum Refusal {
    /// The clients can't be.
    Clients,
    /// It doesn't know the word.
    Word,
    /// It has ended in another way.
    Ended,
}

impl Clients {
    /// Those of a desk of this machine alone.
    pub fn of_desk(lines: String) -> Clients {
        Clients::new(lines, Taking::Maybe)
    }

    /// Those of a volume, which takes no new one.
    pub fn of_volume(lines: String) -> Clients {
        Clients::new(lines, Taking::Fixed)
    }

    fn new(of_desk: String, taking: Taking) -> Clients {
        let state = State { taking, of_desk, listed: vec![], refused: None, tries: 0 };
        Clients { state: Mutex::new(state), changed: watch::channel(()).0 }
    }

    fn state(&self) -> MutexGuard<'_, State> {
        self.state.lock().unwrap_or_else(PoisonError::into_inner)
    }

    /// The lines of the clients that the desk has.
    pub fn lines(&self) -> String {
        self.state().of_desk.clone()
    }

    /// Tells of each change.
    pub fn changes(&self) -> watch::Receiver<()> {
        self.changed.subscribe()
    }

    /// Takes these users for those of the configuration. Says of each who can't become a client why that is.
    pub fn list(&self, users: &[User]) {
        let mut state = self.state();
        state.listed = users.to_vec();
        state.refused = None;
        state.say_who_is_kept_out();
        drop(state);
        self.changed.send_replace(());
    }

    /// The lines of the clients with which `kfs_serve` is to be started, where there are new ones among them.
    pub fn wanted(&self) -> Option<String> {
        self.state().wanted()
    }

    /// Returns when there are new ones.
    pub async fn due(&self) {
        let mut changes = self.changes();
        while self.wanted().is_none() {
            if changes.changed().await.is_err() {
                std::future::pending::<()>().await;
            }
        }
    }

    /// A process has opened the files with these clients.
    pub fn admitted(&self, lines: &str) {
        let mut state = self.state();
        for line in lines.lines().filter(|line| !state.has(line)) {
            info!("new in the desk: `{line}`");
        }
        state.of_desk = lines.to_string();
        state.tries = 0;
        drop(state);
        self.changed.send_replace(());
    }

    /// A process that was to take these clients has ended before it had opened the files. Answers whether they are kept out.
    pub fn failed(&self, lines: &str, how: Refusal) -> bool {
        let mut state = self.state();
        state.tries += 1;
        if how == Refusal::Ended && state.tries < TRIES {
            return false;
        }
        if how == Refusal::Word {
            state.taking = Taking::Never;
        }
        state.refused = Some(lines.to_string());
        state.tries = 0;
        state.say_who_is_kept_out();
        true
    }
}

/// The first of these users that can't be a client beside those before it, and why.
pub fn wrong_one(users: &[User]) -> Option<(u32, String)> {
    users.iter().enumerate().find_map(|(at, user)| Some((user.uid, why_not(user, &users[..at])?)))
}

/// Why a user doesn't become a client.
fn why_not(user: &User, others: &[User]) -> Option<String> {
    let [first, last] = user.grant;
    if others.iter().any(|other| other.client == user.client) {
        return Some(format!("client {} of the desk is another", user.client));
    }
    if first == 0 || last > LAST_NODE {
        return Some("its grant begins at 0, or ends above 65,536".to_string());
    }
    let in_the_way = |other: &&User| first.max(other.grant[0]) <= last.min(other.grant[1]);
    others.iter().find(in_the_way).map(|other| format!("its grant has numbers of client {}", other.client))
}

impl State {
    fn has(&self, line: &str) -> bool {
        self.of_desk.lines().any(|known| known == line)
    }

    /// The desk's clients, and behind them the new ones that can be beside those; and of each other user why it can't be.
    fn beside(&self) -> (Vec<User>, Vec<(&User, String)>) {
        let mut all: Vec<User> = self.of_desk.lines().filter_map(User::of_line).collect();
        let mut out = Vec::new();
        for user in self.listed.iter().filter(|user| !self.has(&user.line())) {
            match why_not(user, &all) {
                Some(why) => out.push((user, why)),
                None => all.push(user.clone()),
            }
        }
        (all, out)
    }

    fn wanted(&self) -> Option<String> {
        if self.taking != Taking::Maybe {
            return None;
        }
        let (all, _) = self.beside();
        let lines = lines_of(&all);
        let is_new = lines.lines().count() > self.of_desk.lines().count();
        (is_new && self.refused.as_ref() != Some(&lines)).then_some(lines)
    }

    fn say_who_is_kept_out(&self) {
        let (_, out) = self.beside();
        for user in self.listed.iter().filter(|user| !self.has(&user.line())) {
            let why = match (self.taking, out.iter().find(|(other, _)| *other == user)) {
                (Taking::Fixed, _) => "the volume's clients were fixed when it began",
                (Taking::Never, _) => "this kfs_serve takes no new clients",
                (Taking::Maybe, Some((_, why))) => why,
                (Taking::Maybe, None) if self.refused.is_some() => "kfs_serve doesn't take it, and says above why",
                (Taking::Maybe, None) => continue,
            };
            warn!("user {} is kept out, as the desk has no `{}`: {why}", user.uid, user.line());
        }
    }
}

#[cfg(test)]
mod tests {
    use super::*;
    use std::slice::from_ref;
    use std::time::Duration;
    use tokio::time::timeout;

    fn user(uid: u32, client: u32, grant: [u32; 2]) -> User {
        User { uid, gid: uid, client, groups: vec![50], privileged: false, grant }
    }

    fn clients(users: &[User]) -> Clients {
        Clients::of_desk(lines_of(users))
    }

    #[test]
    fn who_can_be_beside_the_others_is_wanted() {
        let (one, two) = (user(1, 7, [2, 9]), user(2, 8, [10, 19]));
        let desk = clients(from_ref(&one));
        assert_eq!(desk.wanted(), None);
        desk.list(from_ref(&one));
        assert_eq!(desk.wanted(), None);
        let wrong =
            [user(3, 7, [30, 31]), user(4, 9, [9, 9]), user(5, 10, [0, 0]), user(6, 11, [20, 65_537]), user(7, 12, [19, 20])];
        desk.list(&[from_ref(&two), &wrong[..]].concat());
        assert_eq!(desk.wanted(), Some(lines_of(&[one.clone(), two.clone()])));
        // without numbers it is in nobody's way, and client 7 isn't listed and stays
        let third = user(9, 13, [1, 0]);
        desk.list(from_ref(&third));
        assert_eq!(desk.wanted(), Some(lines_of(&[one, third])));
    }

    #[test]
    fn what_was_refused_is_not_tried_again() {
        let (one, two) = (user(1, 7, [2, 9]), user(2, 8, [10, 19]));
        let desk = clients(from_ref(&one));
        desk.list(&[one.clone(), two.clone()]);
        let lines = desk.wanted().unwrap();
        assert!(desk.failed(&lines, Refusal::Clients));
        assert_eq!(desk.wanted(), None);
        // the file may be another one when it is read anew
        desk.list(&[one.clone(), two.clone()]);
        assert_eq!(desk.wanted(), Some(lines.clone()));
        assert_eq!([desk.failed(&lines, Refusal::Ended), desk.failed(&lines, Refusal::Ended)], [false; 2]);
        assert_eq!(desk.wanted(), Some(lines.clone()));
        assert!(desk.failed(&lines, Refusal::Ended));
        assert_eq!(desk.wanted(), None);
        desk.list(&[one.clone(), two.clone()]);
        assert!(desk.failed(&lines, Refusal::Word));
        desk.list(&[one.clone(), two.clone()]);
        assert_eq!(desk.wanted(), None);
        let volume = Clients::of_volume(lines_of(&[one]));
        volume.list(&[two]);
        assert_eq!(volume.wanted(), None);
    }

    #[tokio::test]
    async fn it_is_due_once_somebody_is_new() {
        let (one, two) = (user(1, 7, [2, 9]), user(2, 8, [10, 19]));
        let desk = clients(from_ref(&one));
        let is_due = || async { timeout(Duration::from_millis(30), desk.due()).await.is_ok() };
        assert!(!is_due().await);
        desk.list(&[one, two]);
        assert!(is_due().await);
        let lines = desk.wanted().unwrap();
        desk.admitted(&lines);
        assert!(!is_due().await);
        assert_eq!(desk.lines(), lines);
    }
}

//! What the configuration says now. It changes as a whole, and a file that is read anew may change it.

use crate::config::{Config, ConfigFault, Duties, Limits};
use crate::users::Table;
use serde::Serialize;
use std::fmt::Write as _;
use toml::value::Table as Names;
use toml::Value;

/// What holds for connections, and for what kfsd does by itself.
#[derive(Debug)]
pub struct Rules {
    pub limits: Limits,
    pub duties: Duties,
    /// The users that may be connected now.
    pub table: Table,
}

/// What a file that is read anew has otherwise than the one before.
#[derive(Debug, Default, PartialEq, Eq)]
pub struct Changes {
    /// What holds from now on, each with its old value.
    pub taken: Vec<String>,
    /// What waits for a new start.
    pub waiting: Vec<String>,
}

/// The parts of the file that are taken at once.
const LIMITS: &str = "limits";
const DUTIES: &str = "duties";
const USERS: &str = "user";

impl Changes {
    /// What one configuration has otherwise than another.
    pub fn between(before: &Config, now: &Config) -> Result<Changes, ConfigFault> {
        let (before, now) = (names_of(before)?, names_of(now)?);
        let mut changes = Changes::default();
        for name in all_names(&before, &now) {
            let (old, new) = (before.get(name), now.get(name));
            match (name.as_str(), old, new) {
                _ if old == new => {}
                (LIMITS | DUTIES, Some(Value::Table(old)), Some(Value::Table(new))) => changes.taken.extend(told(old, new)),
                (USERS, ..) => changes.taken.push(told_of_users(rows_in(old), rows_in(new))),
                _ => changes.waiting.push(name.clone()),
            }
        }
        Ok(changes)
    }
}

fn names_of(config: &impl Serialize) -> Result<Names, ConfigFault> {
    match Value::try_from(config) {
        Ok(Value::Table(names)) => Ok(names),
        _ => Err(ConfigFault::Limit("it can't be compared with the one before")),
    }
}

fn all_names<'a>(before: &'a Names, now: &'a Names) -> impl Iterator<Item = &'a String> {
    before.keys().chain(now.keys().filter(move |name| !before.contains_key(*name)))
}

/// What differs of two tables with the same names.
fn told<'a>(before: &'a Names, now: &'a Names) -> impl Iterator<Item = String> + 'a {
    let differing = before.iter().filter(move |(name, old)| now.get(*name) != Some(*old));
    differing.map(move |(name, old)| match now.get(name) {
        Some(new) => format!("{name} is {new} and was {old}"),
        None => format!("{name} is left out"),
    })
}

fn rows_in(users: Option<&Value>) -> &[Value] {
    users.and_then(Value::as_array).map_or(&[], Vec::as_slice)
}

/// Which users there are that weren't, and which there aren't any more. One of which anything differs is both.
fn told_of_users(before: &[Value], now: &[Value]) -> String {
    let mut text = String::from("users:");
    for (word, of, others) in [("with", now, before), ("without", before, now)] {
        let mut comma = "";
        for user in of.iter().filter(|user| !others.contains(user)) {
            let uid = user.get("uid").and_then(Value::as_integer).unwrap_or(-1);
            // Nothing is refused where a String is written to.
            let _ = match comma {
                "" => write!(text, " {word} {uid}"),
                _ => write!(text, "{comma} {uid}"),
            };
            comma = ",";
        }
    }
    text
}

#[cfg(test)]
mod tests {
    use super::*;
    use std::path::Path;

    const SMALL: &str = r#"
        socket = "/run/s"
        control = "/run/c"
        folder = "/var/lib/kfsd"
        program = "/usr/lib/kfs_serve"
        tiers = [4, 16, 64]
        [limits]
        frames_a_user = 9
        [[user]]
        uid = 1000
        gid = 1000
        client = 7
        grant = [2, 99]
    "#;

    fn changes(text: &str) -> Changes {
        let read = |text: &str| Config::of_text(text, Path::new("kfsd.toml")).unwrap();
        Changes::between(&read(SMALL), &read(text)).unwrap()
    }

    #[test]
    fn the_same_changes_nothing() {
        assert_eq!(changes(SMALL), Changes::default());
    }

    #[test]
    fn limits_and_duties_are_taken() {
        let text =
            SMALL.replace("frames_a_user = 9", "frames_a_user = 8\nstop_seconds = 3\n[duties]\ncheckpoint_at_stop = false");
        let found = changes(&text);
        let taken =
            ["checkpoint_at_stop is false and was true", "frames_a_user is 8 and was 9", "stop_seconds is 3 and was 20"];
        assert_eq!(found, Changes { taken: taken.map(String::from).to_vec(), waiting: vec![] });
    }

    #[test]
    fn users_are_told() {
        assert_eq!(changes(&SMALL.replace("1000", "1001")).taken, ["users: with 1001 without 1000"]);
        let two = format!("{SMALL}\n[[user]]\nuid = 5\ngid = 5\nclient = 8\ngrant = [100, 101]");
        assert_eq!(changes(&two).taken, ["users: with 5"]);
        let three = format!("{two}\n[[user]]\nuid = 6\ngid = 5\nclient = 9\ngrant = [102, 101]");
        assert_eq!(changes(&three).taken, ["users: with 5, 6"]);
    }

    #[test]
    fn the_rest_waits() {
        let text = SMALL.replace("/run/s", "/run/other").replace("[4, 16, 64]", "[4, 16, 65]\nfigures = \"127.0.0.1:1\"");
        assert_eq!(changes(&text).waiting, ["socket", "tiers", "figures"]);
        assert_eq!(changes(&text).taken, Vec::<String>::new());
    }

    #[test]
    fn what_members_and_etcd_are_shown_waits() {
        let cluster = "\n[cluster]\netcd = ['e:1']\nvolume = 'v'\nmember = 'a'\npeer = '127.0.0.1:1'\nkey_file = '/k'";
        let read = |more: &str| Config::of_text(&format!("{SMALL}{cluster}\n{more}"), Path::new("kfsd.toml")).unwrap();
        let login = "etcd_user = 'kfsd'\netcd_password_file = '/p'";
        let tls = "[cluster.peer_tls]\nauthority = '/a'\ncertificate = '/c'\nprivate_key = '/k'";
        for more in [login, tls] {
            let found = Changes::between(&read(""), &read(more)).unwrap();
            assert_eq!(found, Changes { taken: vec![], waiting: vec!["cluster".to_string()] });
        }
        assert_eq!(Changes::between(&read(tls), &read(tls)).unwrap(), Changes::default());
    }
}

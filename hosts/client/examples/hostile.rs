//! A client that keeps to nothing: it takes leases on all that it finds and never gives one up, and hands in logs and plans that
//! are wrong, another's, or made of what was there long ago.
//!
//!     hostile SOCKET NUMBER PAUSE
//!
//! It tries something, waits PAUSE milliseconds, and so on, until its input ends. Then it says what it was answered, and how often. Where a
//! log was answered yes, it ends with status 1.

#[path = "../tests/common/chance.rs"]
#[allow(dead_code)]
mod chance;

use chance::Chance;
use kfs_client::cache::{Cache, Cached};
use kfs_client::connection::Connection;
use kfs_client::desk::{Answer, LeaseKind, Wanted};
use kfs_client::judge::Held;
use kfs_client::leases::Leases;
use kfs_client::node::{GREATEST_NUMBER, ROOT};
use kfs_client::{Client, Desk, Draft, Entry, Kind, Log, Name, Shown};
use std::collections::BTreeMap;
use std::error::Error;
use std::path::{Path, PathBuf};
use std::thread::{self, sleep};
use std::time::Duration;

type Tried = Result<String, Box<dyn Error>>;

/// What is told of a lease or an entry that nobody refuses.
struct All;

impl Held for All {
    fn holds(&self, _number: u32) -> bool {
        true
    }
}

struct Hostile {
    path: PathBuf,
    desk: Connection,
    client: Client,
    chance: Chance,
    /// Leases that it says it has, and what it was shown long ago.
    forged: Leases,
    shown: Cache,
    /// Where it has found nodes: of each the directory, its name, and its path.
    found: BTreeMap<u32, (u32, Name, Vec<u8>)>,
    made: u32,
}

impl Hostile {
    /// Looks around, as far as it may.
    fn look_around(&mut self) {
        let mut left = vec![(ROOT, Vec::new())];
        while let Some((directory, path)) = left.pop() {
            for (name, number) in self.desk.list(directory, None, 1000).unwrap_or_default() {
                let path = [path.as_slice(), b"/", name.as_bytes()].concat();
                if self.found.len() < 10_000 && !self.found.contains_key(&number) {
                    left.push((number, path.clone()));
                }
                self.found.insert(number, (directory, name, path));
            }
        }
    }

    /// A node of which it knows, or any.
    fn node(&mut self) -> u32 {
        let known: Vec<u32> = self.found.keys().copied().chain([ROOT]).collect();
        match self.chance.percent(80) {
            true => *self.chance.of(&known),
            false => self.chance.below(GREATEST_NUMBER.into()) as u32 + 1,
        }
    }

    fn take_lease(&mut self) -> Tried {
        let number = self.node();
        let path = self.found.get(&number).map(|(_, _, path)| path.clone());
        let end = self.desk.moment()? + self.desk.longest_term().min(1 << 20);
        let kind = if self.chance.percent(80) { LeaseKind::Write } else { LeaseKind::Read };
        let told = self.desk.lease(&Wanted { number, path, kind, end })?;
        Ok(format!(
            "a lease: {}",
            told.map_or_else(|refusal| refusal.to_string().replace(char::is_numeric, ""), |()| "granted".into())
        ))
    }

    /// An entry over what it was shown once, as a client that may do all.
    fn forged(&mut self, entry: &Entry, client: Client) -> Option<(Vec<u8>, Vec<u8>)> {
        let Hostile { desk, shown, forged, .. } = self;
        let mut draft = Draft::new(client);
        draft.enter(&mut Cached { shown: desk, cache: shown, leases: forged }, &All, entry).ok()?;
        Some((draft.log().as_bytes().to_vec(), draft.plan().to_bytes()))
    }

    /// A name that it gives.
    fn own_name(&mut self) -> Name {
        self.made += 1;
        Name::new(format!("hostile-{}", self.made).as_bytes()).unwrap_or_else(|_| unreachable!())
    }

    /// Something that the owner of a node may do.
    fn others_entry(&mut self) -> Entry {
        let number = self.node();
        let name = self.own_name();
        let (directory, old) = match self.found.get(&number) {
            Some((directory, old, _)) => (*directory, old.clone()),
            None => (ROOT, name.clone()),
        };
        let payload = self.chance.bytes(100);
        match self.chance.below(6) {
            0 => Entry::Write { number, offset: 0, payload },
            1 => Entry::Truncate { number, size: 1 },
            2 => Entry::Unlink { directory, name: old, kind: Kind::File },
            3 => Entry::Rename { directory, name: old, new_directory: ROOT, new_name: name },
            4 => Entry::Chmod { number, mode: 0o777 },
            _ => Entry::Create { directory: number, name, number: self.client.grant[1] + 1, kind: Kind::File, mode: 0o666 },
        }
    }

    /// Hands in what is no business of its own: nothing is, since all that it hands in is to be refused.
    fn others(&mut self) -> Tried {
        let entry = self.others_entry();
        let privileged = Client { is_privileged: true, grant: [1, GREATEST_NUMBER], ..self.client.clone() };
        match self.forged(&entry, privileged) {
            Some((log, plan)) => self.hand_in("what isn't its own", &log, &plan),
            None => Ok("nothing to forge".into()),
        }
    }

    fn hand_in(&mut self, what: &str, log: &[u8], plan: &[u8]) -> Tried {
        match self.desk.submit(log, plan) {
            Ok(Answer::Yes) => Err(format!("{what} was answered yes: {log:?}").into()),
            Ok(Answer::Entry(_, reason)) => Ok(format!("{what}: {reason}").replace(char::is_numeric, "")),
            Ok(said) => Ok(format!("{what}: {said:?}").replace(char::is_numeric, "")),
            Err(fault) => Ok(format!("{what}: {fault}")),
        }
    }

    /// A Create that is allowed, with a plan that isn't the log's.
    fn wrong_plan(&mut self) -> Tried {
        let (number, name) = (self.client.grant[0] + self.made % 50, self.own_name());
        let entry = Entry::Create { directory: ROOT, name, number, kind: Kind::File, mode: 0o644 };
        let (log, mut plan) = self.forged(&entry, self.client.clone()).ok_or("a Create can't be forged")?;
        let at = self.chance.below(plan.len() as u64) as usize;
        match self.chance.below(3) {
            0 => plan[at] ^= 1 << self.chance.below(8),
            1 => plan.truncate(at),
            _ => plan.insert(at, self.chance.next() as u8),
        }
        self.hand_in("a wrong plan", &log, &plan)
    }

    /// A log of another client, and a connection as one.
    fn another(&mut self) -> Tried {
        let other = self.client.number + 1 + self.chance.below(3) as u32;
        if Connection::open(&self.path, other).is_ok() {
            return Err(format!("it was taken for client {other}").into());
        }
        let mut log = Log::new(other);
        log.push(&self.others_entry())?;
        self.hand_in("another's log", log.as_bytes(), &Draft::new(self.client.clone()).plan().to_bytes())
    }

    fn nonsense(&mut self) -> Tried {
        let (log, plan) = (self.chance.below(300) as usize, self.chance.below(300) as usize);
        let (log, plan) = (self.chance.bytes(log), self.chance.bytes(plan));
        self.hand_in("nonsense", &log, &plan)
    }

    fn try_something(&mut self) -> Tried {
        match self.chance.below(10) {
            0..=4 => self.take_lease(),
            5 | 6 => self.others(),
            7 => self.wrong_plan(),
            8 => self.another(),
            _ => self.nonsense(),
        }
    }
}

fn main() -> Result<(), Box<dyn Error>> {
    let words: Vec<String> = std::env::args().collect();
    let [path, number, pause] = match &words[..] {
        [_, path, number, pause] => [path, number, pause],
        _ => return Err("hostile SOCKET NUMBER PAUSE".into()),
    };
    let path = Path::new(path);
    let desk = Connection::open(path, number.parse()?)?;
    let client = Client::of_process(number.parse()?, desk.grant())?;
    let mut forged = Leases::default();
    (1..=GREATEST_NUMBER).for_each(|number| forged.grant(number, LeaseKind::Write, u64::MAX));
    let mut hostile = Hostile {
        path: path.into(),
        desk,
        client,
        chance: Chance(1),
        forged,
        shown: Cache::default(),
        found: BTreeMap::new(),
        made: 0,
    };
    let (pause, input) = (Duration::from_millis(pause.parse()?), thread::spawn(|| std::io::stdin().lines().count()));
    let mut counts: BTreeMap<String, u64> = BTreeMap::new();
    while !input.is_finished() {
        hostile.look_around();
        let told = hostile.try_something()?;
        *counts.entry(told).or_insert(0) += 1;
        sleep(pause);
    }
    counts.iter().for_each(|(what, count)| println!("{count:6} {what}"));
    Ok(())
}

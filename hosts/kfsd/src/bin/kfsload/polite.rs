//! A user with one thing under way at a time, timed: a look-up, a call and a new connection in turn. It has a thread for itself.

use crate::making::{lease_until, word, Header, Making, Owner};
use crate::User;
use anyhow::{ensure, Context, Result};
use kfsd::frames::{Head, REPLY_HEAD};
use serde::Serialize;
use std::io::{Read, Write};
use std::os::unix::net::UnixStream;
use std::path::{Path, PathBuf};
use std::sync::{mpsc, Arc, Mutex, MutexGuard, PoisonError};
use std::thread;
use std::time::{Duration, Instant};

/// How long it rests between two things.
const PAUSE: Duration = Duration::from_millis(1);
/// How long it waits for an answer. Then it goes on by another connection, and this is what the thing has taken at least.
const PATIENCE: Duration = Duration::from_secs(4);
/// How many seconds its leases live, beyond any run.
const LIFE: u64 = 3000;

const HELLO: u8 = 0xf0;
const MOMENT: u8 = 0xf1;
const NODE: u8 = 0x40;
const ANSWERED: u8 = 1;
const FOUND: u8 = 3;
const YES: u8 = 1;
const LEASED: u8 = 4;

#[derive(Clone, Copy, Debug, PartialEq, Eq)]
enum Thing {
    LookUp,
    Call,
    Connection,
}

const THINGS: [Thing; 3] = [Thing::LookUp, Thing::Call, Thing::Connection];

/// What a call does: logs on one file, and leases between them.
#[derive(Clone, Copy, Debug)]
enum Step {
    Create,
    LeaseFile,
    Rename,
    LeaseDirectory,
    Unlink,
}

const STEPS: [Step; 6] =
    [Step::Create, Step::LeaseFile, Step::Rename, Step::LeaseDirectory, Step::Unlink, Step::LeaseDirectory];

/// How long things of a kind took, in microseconds, and how many weren't answered in time or were answered wrongly.
#[derive(Debug, Default)]
struct Times {
    micros: Vec<u32>,
    lost: u32,
    wrong: u32,
}

#[derive(Debug, Default)]
struct Found {
    look_ups: Times,
    calls: Times,
    connections: Times,
    /// What is under way, and since when.
    now: Option<(Thing, Instant)>,
}

/// What is printed of a kind, as JSON.
#[derive(Debug, Serialize)]
struct Figures {
    count: usize,
    lost: u32,
    wrong: u32,
    median_micros: u32,
    micros_of_99_in_100: u32,
    most_micros: u32,
}

#[derive(Debug, Serialize)]
struct Said {
    look_up: Figures,
    call: Figures,
    connection: Figures,
}

struct Polite {
    socket: PathBuf,
    user: User,
    stream: UnixStream,
    /// The end of its leases.
    until: u64,
    step: usize,
    found: Arc<Mutex<Found>>,
}

impl Found {
    fn times(&mut self, thing: Thing) -> &mut Times {
        match thing {
            Thing::LookUp => &mut self.look_ups,
            Thing::Call => &mut self.calls,
            Thing::Connection => &mut self.connections,
        }
    }
}

impl Times {
    fn figures(&self) -> Figures {
        let mut micros = self.micros.clone();
        micros.sort_unstable();
        let at = |share: f64| micros.get((micros.len() as f64 * share) as usize).copied().unwrap_or(0);
        Figures {
            count: micros.len(),
            lost: self.lost,
            wrong: self.wrong,
            median_micros: at(0.5),
            micros_of_99_in_100: at(0.99),
            most_micros: micros.last().copied().unwrap_or(0),
        }
    }
}

impl Polite {
    fn new(socket: &Path, user: User, found: Arc<Mutex<Found>>) -> Result<Polite> {
        let stream = connect(socket)?;
        let mut polite = Polite { socket: socket.to_path_buf(), user, stream, until: 0, step: 0, found };
        let said = exchange(&mut polite.stream, user.client, &[MOMENT])?;
        let moment = said.get(1..9).context("the moment")?;
        polite.until = u64::from_be_bytes(moment.try_into()?) + LIFE;
        polite.tidy()?;
        Ok(polite)
    }

    /// Has its directory leased and empty, whatever an earlier one has left. What isn't there is refused.
    fn tidy(&mut self) -> Result<()> {
        let User { uid, gid, client, directory, first, .. } = self.user;
        let gone = |name| Making::new(Owner { client, uid, gid }).unlink(directory, name).gone(first).call();
        let (leases, logs) = ([Step::LeaseDirectory, Step::LeaseFile], [gone("a"), gone("b")]);
        for call in leases.map(|step| self.call_of(step).0).into_iter().chain(logs) {
            exchange(&mut self.stream, client, &call)?;
        }
        Ok(())
    }

    fn found(&self) -> MutexGuard<'_, Found> {
        self.found.lock().unwrap_or_else(PoisonError::into_inner)
    }

    /// Does one thing after another until the end, and each at least once.
    fn run(&mut self, end: Instant) {
        let mut turns = 0;
        while turns < THINGS.len() || Instant::now() < end {
            self.time(THINGS[turns % THINGS.len()]);
            turns += 1;
            thread::sleep(PAUSE);
        }
    }

    /// Does one thing, and keeps how long it took.
    fn time(&mut self, thing: Thing) {
        let began = Instant::now();
        self.found().now = Some((thing, began));
        let done = match thing {
            Thing::LookUp => self.look_up(),
            Thing::Call => self.call(),
            Thing::Connection => self.connection(),
        };
        let micros = began.elapsed().as_micros() as u32;
        {
            let mut found = self.found();
            found.now = None;
            let times = found.times(thing);
            times.micros.push(micros);
            times.lost += u32::from(done.is_err());
            times.wrong += u32::from(matches!(done, Ok(false)));
        }
        if done.is_err() {
            // Its answer may come still, so the connection is of no use.
            if let Ok(stream) = connect(&self.socket) {
                self.stream = stream;
            }
        }
    }

    /// The header of the root. Tells whether it was answered rightly.
    fn look_up(&mut self) -> Result<bool> {
        let said = exchange(&mut self.stream, self.user.client, &[&[NODE][..], &word(1)].concat())?;
        Ok(said.starts_with(&[FOUND, 1, 2]))
    }

    fn call(&mut self) -> Result<bool> {
        let step = STEPS[self.step % STEPS.len()];
        self.step += 1;
        let (call, due) = self.call_of(step);
        let said = exchange(&mut self.stream, self.user.client, &call)?;
        Ok(said.first() == Some(&ANSWERED) && said.get(5) == Some(&due))
    }

    /// A call, and the tag of its answer.
    fn call_of(&self, step: Step) -> (Vec<u8>, u8) {
        let User { uid, gid, client, directory, first, .. } = self.user;
        let making = Making::new(Owner { client, uid, gid });
        let header = Header { mode: 0o644, links: 1, size: 0 };
        match step {
            Step::Create => (making.create(directory, "a", first, header).call(), YES),
            Step::Rename => (making.rename(first, directory, "a", "b").call(), YES),
            Step::Unlink => (making.unlink(directory, "b").gone(first).call(), YES),
            Step::LeaseFile => (lease_until(client, first, true, self.until), LEASED),
            Step::LeaseDirectory => (lease_until(client, directory, true, self.until), LEASED),
        }
    }

    /// Connects, asks who it is, and closes.
    fn connection(&self) -> Result<bool> {
        let mut stream = connect(&self.socket)?;
        let said = exchange(&mut stream, self.user.client, &[HELLO])?;
        Ok(said.get(..5) == Some([&[HELLO][..], &word(self.user.client)].concat().as_slice()))
    }
}

fn connect(socket: &Path) -> Result<UnixStream> {
    let stream = UnixStream::connect(socket)?;
    stream.set_read_timeout(Some(PATIENCE))?;
    stream.set_write_timeout(Some(PATIENCE))?;
    Ok(stream)
}

/// What stands behind the head of the reply to a frame.
fn exchange(stream: &mut UnixStream, client: u32, body: &[u8]) -> Result<Vec<u8>> {
    let head = Head { length: body.len() as u32, number: 1, from: client };
    stream.write_all(&[&head.bytes()[..], body].concat())?;
    let mut head = [0; REPLY_HEAD];
    stream.read_exact(&mut head)?;
    let [l0, l1, l2, l3, ..] = head;
    let mut said = vec![0; u32::from_be_bytes([l0, l1, l2, l3]) as usize];
    stream.read_exact(&mut said)?;
    Ok(said)
}

/// Says that it is ready, waits for a line, and times things for so long. It prints figures as JSON. What is under way long
/// behind the end counts with the time so far: a connection waits in the kernel's line without a limit.
pub fn run(socket: &Path, user: User, time: Duration) -> Result<()> {
    let found = Arc::new(Mutex::new(Found::default()));
    let (over, is_over) = mpsc::channel();
    let mut polite = Polite::new(socket, user, Arc::clone(&found))?;
    println!("ready");
    std::io::stdin().read_line(&mut String::new())?;
    let end = Instant::now() + time;
    thread::Builder::new().spawn(move || {
        polite.run(end);
        // Nobody hears it where this comes too late.
        let _ = over.send(());
    })?;
    let most = end.saturating_duration_since(Instant::now()) + PATIENCE * THINGS.len() as u32;
    let _ = is_over.recv_timeout(most);
    let mut found = found.lock().unwrap_or_else(PoisonError::into_inner);
    if let Some((thing, began)) = found.now.take() {
        let times = found.times(thing);
        times.micros.push(began.elapsed().as_micros() as u32);
        times.lost += 1;
    }
    ensure!(!found.look_ups.micros.is_empty(), "nothing was timed");
    let (look_up, call, connection) = (found.look_ups.figures(), found.calls.figures(), found.connections.figures());
    println!("{}", serde_json::to_string(&Said { look_up, call, connection })?);
    Ok(())
}

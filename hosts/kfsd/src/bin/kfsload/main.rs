//! Many clients at once, each of which makes calls whose answers are known beforehand: for tests and figures (hosts/load).
//!
//! A connection has some files of its own in a directory of its user. Again and again it creates one with bytes, leases it,
//! writes it twice, and takes it out. In a mixed load it also changes its mode, size and names, writes to a file that all
//! connections of the user share, and tries to create one that all try to create. Each call has a number, and is handed in
//! again under it until it is answered; so each answer has to be the right one, whatever is killed meanwhile. It prints figures.
//!
//! It is also a client that would harm others (hostile.rs), and one that isn't and is timed beside those (polite.rs).

#![forbid(unsafe_code)]

mod hostile;
mod kernel;
mod making;
mod polite;
mod steps;

use anyhow::{bail, ensure, Context, Result};
use clap::Parser;
use hostile::Kind;
use kfsd::frames::{Head, REPLY_HEAD};
use making::{word, Owner};
use nix::unistd::{geteuid, seteuid, Uid};
use serde::{Deserialize, Serialize};
use std::fs::File as Disk;
use std::io::{BufWriter, Write};
use std::os::unix::fs::FileExt;
use std::path::{Path, PathBuf};
use std::sync::atomic::{AtomicU64, Ordering};
use std::sync::{Arc, Mutex, PoisonError};
use std::time::{Duration, Instant};
use steps::{File, Place, Step, MIXED, PLAIN};
use tokio::io::{AsyncReadExt, AsyncWriteExt};
use tokio::net::UnixStream;
use tokio::time::sleep;

/// How many files a connection has, at most.
const FILES: u32 = 4;
/// How many numbers it has: one for each file, and another one.
const NUMBERS: u32 = FILES + 1;
/// How long to wait where nobody listens, or a call is under way.
const AGAIN: Duration = Duration::from_millis(20);
/// How often the count of answers is written.
const TELLING: Duration = Duration::from_millis(100);
const ANSWERED: u8 = 1;
/// The refusals behind which a call is handed in again: `Unknown`, `Stopping` and `UnderWay`.
const ASK_AGAIN: [u8; 3] = [128, 129, 133];

/// Makes calls until so many are answered, or so many seconds are over.
#[derive(Debug, Parser)]
struct Words {
    #[arg(long, default_value = "/run/kfsd/socket")]
    socket: PathBuf,
    /// The users, as TOML.
    #[arg(long, default_value = "users.toml")]
    users: PathBuf,
    /// Does the same with files of this folder through the kernel, in as many threads; without leases.
    #[arg(long)]
    kernel: Option<PathBuf>,
    #[arg(long)]
    connections: u32,
    #[arg(long, default_value_t = u64::MAX)]
    calls: u64,
    #[arg(long, default_value_t = 3600.0)]
    seconds: f64,
    /// Calls without numbers, and none is handed in again.
    #[arg(long)]
    plain: bool,
    /// All kinds of calls, some of them on what others change.
    #[arg(long)]
    mixed: bool,
    /// Where each answered call is written: client (4), number (8), and the answer behind its length (1).
    #[arg(long)]
    record: Option<PathBuf>,
    /// Where it is written now and then how many calls were answered.
    #[arg(long)]
    progress: Option<PathBuf>,
    /// Is the first user with one thing under way at a time, and times look-ups, calls and new connections.
    #[arg(long)]
    polite: bool,
    /// Harms others in this way, as the first user.
    #[arg(long, value_enum)]
    hostile: Option<Kind>,
    /// What a hostile one sends.
    #[arg(long, default_value = "frames")]
    frames: PathBuf,
    /// Where its counts begin.
    #[arg(long, default_value_t = 0)]
    first: u32,
}

#[derive(Debug, Deserialize)]
struct Users {
    user: Vec<User>,
}

/// A user, its directory, and the first number that its connections may give to files.
#[derive(Clone, Copy, Debug, Deserialize)]
struct User {
    uid: u32,
    gid: u32,
    client: u32,
    directory: u32,
    first: u32,
    /// A file that all its connections write to, and one of another user.
    #[serde(default)]
    shared: u32,
    #[serde(default)]
    others: u32,
}

/// What all connections share.
struct Shared {
    socket: PathBuf,
    /// Held by who connects as another user: the user is the whole process's.
    connecting: Mutex<()>,
    answered: AtomicU64,
    again: AtomicU64,
    calls: u64,
    end: Instant,
    is_plain: bool,
    steps: &'static [Step],
    record: Option<Mutex<BufWriter<Disk>>>,
}

struct Client {
    shared: Arc<Shared>,
    user: User,
    place: Place,
    files: Vec<File>,
    number: u64,
    stream: Option<UnixStream>,
    micros: Vec<u32>,
}

#[derive(Debug, Default, Serialize)]
struct Figures {
    answered: u64,
    again: u64,
    seconds: f64,
    calls_a_second: f64,
    mean_micros: f64,
    median_micros: u32,
    micros_of_99_in_100: u32,
    most_micros: u32,
}

#[derive(Debug, Serialize)]
struct Said {
    figures: Figures,
}

impl Shared {
    /// Keeps an answered call.
    fn record(&self, client: u32, number: u64, answer: &[u8]) -> Result<()> {
        if let Some(record) = &self.record {
            let row = [&word(client)[..], &number.to_be_bytes(), &[answer.len() as u8], answer].concat();
            record.lock().unwrap_or_else(PoisonError::into_inner).write_all(&row)?;
        }
        Ok(())
    }

    /// Tells the count of answers, without end. The file is open: as another user it couldn't be opened.
    async fn tell(&self, file: Disk) -> Result<()> {
        loop {
            file.write_all_at(format!("{:>20}", self.answered.load(Ordering::Relaxed)).as_bytes(), 0)?;
            sleep(TELLING).await;
        }
    }
}

impl Client {
    fn new(shared: &Arc<Shared>, user: User, at: u32, place: u32) -> Client {
        let first = user.first + place * NUMBERS;
        let owner = Owner { client: user.client, uid: user.uid, gid: user.gid };
        let spare = first + FILES;
        let place = Place { owner, directory: user.directory, shared: user.shared, others: user.others, spare, at };
        let number = u64::from(std::process::id() & 0xffff) << 48 | u64::from(at) << 32;
        Client {
            shared: Arc::clone(shared),
            user,
            place,
            files: (0..FILES).map(|slot| File::new(slot, first + slot)).collect(),
            number,
            stream: None,
            micros: vec![],
        }
    }

    /// Makes calls to the end, and tells how long each took.
    async fn run(mut self) -> Result<Vec<u32>> {
        let mut turn = 0;
        while self.shared.answered.load(Ordering::Relaxed) < self.shared.calls && Instant::now() < self.shared.end {
            let slot = turn % FILES as usize;
            self.next_step(slot).await?;
            // Some files are worked on together.
            turn += usize::from(self.files[slot].step % 2 == 0);
        }
        Ok(self.micros)
    }

    /// Makes the next call on a file, which has to be done.
    async fn next_step(&mut self, slot: usize) -> Result<()> {
        let (file, steps) = (self.files[slot], self.shared.steps);
        let step = steps[file.step];
        let mut next = file;
        if file.does(step) {
            let (changed, call, due) = file.stepped(step, &self.place);
            let answer = self.answer(&call).await?;
            let tag = answer.first().copied().context("an answer")?;
            let is_right = due.map_or(true, |due| due == tag);
            ensure!(is_right, "connection {}: {step:?} of {file:?} was answered {answer:x?}", self.place.at);
            next = changed;
            next.answered(step, tag);
        }
        next.step = (file.step + 1) % steps.len();
        self.files[slot] = next;
        Ok(())
    }

    /// The answer to a call, without its position. It is handed in until there is one.
    async fn answer(&mut self, call: &[u8]) -> Result<Vec<u8>> {
        self.number += 1;
        let body = if self.shared.is_plain { call.to_vec() } else { [&[0xf2][..], &self.number.to_be_bytes(), call].concat() };
        let began = Instant::now();
        loop {
            match self.once(&body).await {
                Ok(said) if said.first() == Some(&ANSWERED) => {
                    self.micros.push(began.elapsed().as_micros() as u32);
                    self.shared.record(self.user.client, self.number, &said[5..])?;
                    self.shared.answered.fetch_add(1, Ordering::Relaxed);
                    return Ok(said[5..].to_vec());
                }
                Ok(said) if !self.shared.is_plain && said.len() > 1 && ASK_AGAIN.contains(&said[1]) => {}
                Ok(said) => bail!("connection {}: {said:x?}", self.place.at),
                Err(fault) if self.shared.is_plain => return Err(fault),
                Err(_) => self.stream = None,
            }
            self.shared.again.fetch_add(1, Ordering::Relaxed);
            sleep(AGAIN).await;
        }
    }

    /// What stands behind the head of the reply.
    async fn once(&mut self, body: &[u8]) -> Result<Vec<u8>> {
        if self.stream.is_none() {
            self.stream = Some(connect(&self.shared, self.user.uid)?);
        }
        let stream = self.stream.as_mut().context("a connection")?;
        let head = Head { length: body.len() as u32, number: 1, from: self.user.client };
        stream.write_all(&[&head.bytes()[..], body].concat()).await?;
        let mut head = [0; REPLY_HEAD];
        stream.read_exact(&mut head).await?;
        let [l0, l1, l2, l3, ..] = head;
        let mut said = vec![0; u32::from_be_bytes([l0, l1, l2, l3]) as usize];
        stream.read_exact(&mut said).await?;
        Ok(said)
    }
}

/// Connects as a user.
fn connect(shared: &Shared, uid: u32) -> Result<UnixStream> {
    let _held = shared.connecting.lock().unwrap_or_else(PoisonError::into_inner);
    let own = geteuid();
    seteuid(Uid::from_raw(uid))?;
    let connected = std::os::unix::net::UnixStream::connect(&shared.socket);
    seteuid(own)?;
    let stream = connected?;
    stream.set_nonblocking(true)?;
    Ok(UnixStream::from_std(stream)?)
}

fn users_in(path: &Path) -> Result<Vec<User>> {
    Ok(toml::from_str::<Users>(&std::fs::read_to_string(path)?)?.user)
}

fn figures(again: u64, mut micros: Vec<u32>, seconds: f64) -> Figures {
    micros.sort_unstable();
    let at = |share: f64| micros.get((micros.len() as f64 * share) as usize).copied().unwrap_or(0);
    Figures {
        answered: micros.len() as u64,
        again,
        seconds,
        calls_a_second: micros.len() as f64 / seconds,
        mean_micros: micros.iter().map(|it| f64::from(*it)).sum::<f64>() / micros.len().max(1) as f64,
        median_micros: at(0.5),
        micros_of_99_in_100: at(0.99),
        most_micros: micros.last().copied().unwrap_or(0),
    }
}

fn say(again: u64, micros: Vec<u32>, began: Instant) -> Result<()> {
    let said = Said { figures: figures(again, micros, began.elapsed().as_secs_f64()) };
    println!("{}", toml::to_string(&said)?);
    Ok(())
}

fn shared_of(words: &Words) -> Result<Shared> {
    let record = words.record.as_ref().map(Disk::create).transpose()?;
    Ok(Shared {
        socket: words.socket.clone(),
        connecting: Mutex::new(()),
        answered: AtomicU64::new(0),
        again: AtomicU64::new(0),
        calls: words.calls,
        end: Instant::now() + Duration::from_secs_f64(words.seconds),
        is_plain: words.plain,
        steps: if words.mixed { MIXED } else { PLAIN },
        record: record.map(|file| Mutex::new(BufWriter::new(file))),
    })
}

/// Is polite or hostile until the end.
async fn beside(words: &Words, user: User) -> Result<()> {
    let time = Duration::from_secs_f64(words.seconds);
    match words.hostile {
        Some(kind) => {
            let (file, end) = (std::fs::read(&words.frames)?, Instant::now() + time);
            hostile::run(kind, &words.socket, user, &file, words.connections, words.first, end).await
        }
        None => {
            hostile::become_user(user)?;
            polite::run(&words.socket, user, time)
        }
    }
}

// With one thread, as kfsd (src/main.rs).
#[tokio::main(flavor = "current_thread")]
async fn main() -> Result<()> {
    let words = Words::parse();
    if let Some(folder) = &words.kernel {
        let began = Instant::now();
        return say(0, kernel::run(folder, words.connections, Duration::from_secs_f64(words.seconds))?, began);
    }
    let users = users_in(&words.users)?;
    let user = *users.first().context("there are no users")?;
    if words.polite || words.hostile.is_some() {
        return beside(&words, user).await;
    }
    let (began, shared) = (Instant::now(), Arc::new(shared_of(&words)?));
    if let Some(path) = words.progress {
        let (shared, file) = (Arc::clone(&shared), Disk::create(path)?);
        tokio::spawn(async move { shared.tell(file).await });
    }
    let count = users.len() as u32;
    let running: Vec<_> = (0..words.connections)
        .map(|at| tokio::spawn(Client::new(&shared, users[(at % count) as usize], at, at / count).run()))
        .collect();
    let mut micros = vec![];
    for one in running {
        micros.extend(one.await??);
    }
    if let Some(record) = &shared.record {
        record.lock().unwrap_or_else(PoisonError::into_inner).flush()?;
    }
    say(shared.again.load(Ordering::Relaxed), micros, began)
}

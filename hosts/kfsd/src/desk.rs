//! `kfs_serve`: the process, its two pipes, and a new one where it ends before its time.

use crate::calls::{Landing, Note, Told};
use crate::clients::{Clients, Refusal};
use crate::cluster::ClusterFault;
use crate::connection::Shared;
use crate::cost::Part;
use crate::docket::Docket;
use crate::flight::Flight;
use crate::folder::{Folder, Found, FILES};
use crate::following::Following;
use crate::frames::{read_reply, said_again, Head, Reply, CHECKPOINT, CHECKPOINT_MADE, FULL};
use crate::journal;
use crate::log;
use crate::meter::Meter;
use crate::queue::{Answer, Batch, Sent};
use crate::store::{Changes, Store, StoreFault};
use crate::times::{self, Times};
use crate::users::FRONT;
use std::collections::{HashMap, HashSet, VecDeque};
use std::ffi::OsString;
use std::io;
use std::path::{Path, PathBuf};
use std::process::{ExitStatus, Stdio};
use std::sync::{Arc, Mutex, MutexGuard, PoisonError};
use std::time::Duration;
use thiserror::Error;
use tokio::io::{AsyncRead, AsyncWrite, AsyncWriteExt, BufReader};
use tokio::process::{Child, ChildStdin, ChildStdout, Command};
use tokio::sync::{oneshot, watch};
use tokio::task::spawn_blocking;
use tokio::time::{sleep, timeout};
use tracing::{info, warn};

/// How many processes may end one after another without an answer to the first frame.
const FRUITLESS: u32 = 5;

/// How long a new start waits. Behind each process in a row that has answered nothing it waits twice as long.
const PAUSE: Duration = Duration::from_millis(50);

/// How long an outcome may be without being kept, where little is sent behind it.
const KEEPING: Duration = Duration::from_secs(1);

/// How long a process whose pipes have ended may take to end, too.
const LAST_MOMENT: Duration = Duration::from_secs(5);

/// Why there is no desk any more.
#[derive(Debug, Error)]
pub enum DeskFault {
    #[error("{0} can't be run: {1}")]
    Process(PathBuf, io::Error),
    #[error("the folder: {0}")]
    Folder(io::Error),
    #[error(
        "a crash has cut the first start in {0} short: where no call was ever answered, remove {1}, else go back to a copy"
    )]
    HalfMade(PathBuf, &'static str),
    #[error("{0} has had a desk, and {1} gone: put back both files of a copy. A new desk begins in an empty folder")]
    Gone(PathBuf, &'static str),
    #[error("neither first.kdjl nor second.kdjl in {0} is whole: keep them, and go back to a copy (docs/OPERATIONS.md)")]
    Damaged(PathBuf),
    #[error("kfs_serve takes neither its words nor its clients (status {0})")]
    Words(i32),
    #[error("the files of the desk, or their disk, have failed (status 3 of kfs_serve): see docs/OPERATIONS.md")]
    Files,
    #[error(transparent)]
    Store(#[from] StoreFault),
    #[error("kfsd itself: {0}")]
    Keeping(tokio::task::JoinError),
    #[error("{FRUITLESS} processes of kfs_serve have ended one after another without an answer; the last one: {0}")]
    Fruitless(ExitStatus),
    #[error(transparent)]
    Cluster(#[from] ClusterFault),
}

impl From<rusqlite::Error> for DeskFault {
    fn from(fault: rusqlite::Error) -> DeskFault {
        DeskFault::Store(fault.into())
    }
}

/// What a start of `kfs_serve` takes.
#[derive(Debug)]
pub struct Desk {
    pub program: PathBuf,
    pub folder: Folder,
    pub rows: u32,
    pub docket: Docket,
    pub tiers: [u32; 3],
    /// What kfsd keeps itself.
    pub store: Arc<Mutex<Store>>,
    /// Who is a client, and who is to become one.
    pub clients: Arc<Clients>,
}

/// Why a process is sent nothing more.
#[derive(Clone, Copy, Debug, PartialEq, Eq)]
enum Why {
    /// No call comes any more.
    Closed,
    /// There are new clients, which the next process takes.
    NewClients,
    /// The docket is begun anew by the next process.
    Docket,
}

/// How a process of `kfs_serve` ended.
struct Ended {
    status: ExitStatus,
    /// Why it ended because its input did, with all frames answered; none where that isn't so.
    done: Option<Why>,
    /// Whether it answered the first frame.
    has_begun: bool,
    /// The frames that it has left without an answer.
    left: VecDeque<Sent>,
}

/// Whether the files of a desk are there for `kfs_serve` to be opened. False where there was never a desk: they may be made.
pub fn has_files(folder: &Folder, had_desk: bool) -> Result<bool, DeskFault> {
    const BOTH: &str = "first.kdjl and second.kdjl";
    let [_, second] = FILES;
    let path = || folder.path().to_path_buf();
    match (folder.files().map_err(DeskFault::Folder)?, had_desk) {
        (Found::None, false) => Ok(false),
        (Found::None, true) => Err(DeskFault::Gone(path(), "both first.kdjl and second.kdjl are")),
        (Found::One(name), false) => Err(DeskFault::HalfMade(path(), name)),
        (Found::One(name), true) if name == second => Err(DeskFault::Gone(path(), "first.kdjl is")),
        (Found::One(_), true) => Err(DeskFault::Gone(path(), "second.kdjl is")),
        (Found::Both, _) if journal::counting(folder.path()).map_err(DeskFault::Folder)?.is_some() => Ok(true),
        (Found::Both, false) => Err(DeskFault::HalfMade(path(), BOTH)),
        (Found::Both, true) => Err(DeskFault::Damaged(path())),
    }
}

impl Desk {
    /// Has `kfs_serve` answer the calls of the queue, until the queue is closed and empty. `ready` becomes true when the
    /// files are open for the first time.
    pub async fn run(&self, shared: &Arc<Shared>, ready: &watch::Sender<bool>) -> Result<(), DeskFault> {
        self.begin(shared).await?;
        let mut fruitless = 0;
        loop {
            let lines = self.new_clients()?;
            let ended = self.once(shared, ready, lines.as_deref()).await?;
            self.keep(shared).await?;
            match ended.done {
                Some(Why::Closed) => return Ok(locked(&self.store).end()?),
                Some(Why::NewClients | Why::Docket) => {
                    fruitless = 0;
                    continue;
                }
                None => {}
            }
            let tried = lines.as_deref().filter(|_| !ended.has_begun);
            if self.keeps_out(tried, ended.status)? {
                fruitless = 0;
                continue;
            }
            fault_of(ended.status)?;
            self.settle(shared, ended.left).await?;
            fruitless = if ended.has_begun { 0 } else { fruitless + 1 };
            if fruitless == FRUITLESS {
                return Err(DeskFault::Fruitless(ended.status));
            }
            warn!("kfs_serve has ended before its input did: {}", ended.status);
            sleep(PAUSE * 2u32.pow(fruitless)).await;
        }
    }

    /// The lines of the clients that a start takes, where there are new ones. The first start takes all that are listed anyway.
    fn new_clients(&self) -> Result<Option<String>, DeskFault> {
        Ok(if self.has_files()? { self.clients.wanted() } else { None })
    }

    fn has_files(&self) -> Result<bool, DeskFault> {
        has_files(&self.folder, locked(&self.store).had_desk())
    }

    /// Notes that there is a desk, before a client is answered.
    async fn note(&self) -> Result<(), DeskFault> {
        let store = Arc::clone(&self.store);
        beside(move || Ok(locked(&store).note_desk()?)).await
    }

    /// Whether the clients that a process was to take are kept out from now on, since it has ended so before it had begun.
    fn keeps_out(&self, tried: Option<&str>, status: ExitStatus) -> Result<bool, DeskFault> {
        let how = match status.code() {
            Some(1) => Refusal::Clients,
            Some(2) => Refusal::Word,
            Some(3) => return Ok(false),
            _ => Refusal::Ended,
        };
        match tried {
            Some(lines) if self.clients.failed(lines, how) => {
                self.folder.keep_clients(&self.clients.lines()).map_err(DeskFault::Folder)?;
                Ok(true)
            }
            _ => Ok(false),
        }
    }

    /// Reads what was kept, and how the desk stands.
    async fn begin(&self, shared: &Arc<Shared>) -> Result<(), DeskFault> {
        let (store, following, folder) = (Arc::clone(&self.store), Arc::clone(shared), self.folder.path().to_path_buf());
        beside(move || recall(&folder, &mut locked(&store), &following.following)).await?;
        self.keep(shared).await
    }

    /// Keeps what isn't kept yet.
    async fn keep(&self, shared: &Shared) -> Result<(), DeskFault> {
        keep(&self.store, shared.following.take_unsaved()).await
    }

    /// Finds out of the calls that a process has left without an answer whether they were made, as far as the journal tells.
    /// No process runs. Of calls without a number each asker hears that nobody knows.
    async fn settle(&self, shared: &Arc<Shared>, left: VecDeque<Sent>) -> Result<(), DeskFault> {
        let following = &shared.following;
        let asked: HashSet<_> = left.iter().filter_map(|sent| Some((sent.client, sent.numbered?))).collect();
        let (reading, folder) = (Arc::clone(shared), self.folder.path().to_path_buf());
        let read = move || reading.following.read(&folder, |client, number| asked.contains(&(client, number)));
        let found = beside(move || read().map_err(DeskFault::Folder)).await?;
        let outcomes = found.outcomes.into_values().flatten();
        let outcomes: HashMap<_, _> = outcomes.map(|one| ((one.client, one.number), one.answer)).collect();
        let answer_of = |sent: &Sent| sent.numbered.and_then(|number| outcomes.get(&(sent.client, number)));
        for sent in &left {
            if let Some(number) = sent.numbered {
                following.outcomes.end(sent.client, number, answer_of(sent).map(Vec::as_slice));
            }
        }
        follow_left(&left, &found.recent, &mut following.times());
        self.keep(shared).await?;
        for sent in left {
            let is_own = sent.is_own();
            match (answer_of(&sent), sent.asker) {
                (Some(answer), Some(asker)) => {
                    let _ = asker.to.send(Answer::Said(Reply { number: sent.number, said: said_again(answer) }));
                }
                _ if !is_own => shared.figures.unknown.add(1),
                _ => {}
            }
        }
        Ok(())
    }

    /// Starts a process with these clients, or with those that there are, and has it answer calls until it ends.
    async fn once(&self, shared: &Shared, ready: &watch::Sender<bool>, lines: Option<&str>) -> Result<Ended, DeskFault> {
        let figures = &shared.figures;
        let (mut child, mut to, from) = self.start(lines)?;
        figures.starts.add(1);
        figures.process.set(child.id().map_or(0, u64::from));
        let mut from = BufReader::new(from);
        let (flight, mut meter) = (Flight::default(), Meter::of(child.id()));
        shared.queue.begin_anew();
        let has_begun = is_open(&mut to, &mut from).await;
        // What it took to open the files is nobody's.
        let _ = meter.lap(None);
        self.docket.begin_anew();
        let mut done = None;
        if has_begun {
            self.note().await?;
            info!("kfs_serve is ready");
            figures.opened.set(1);
            if let Some(lines) = lines {
                self.clients.admitted(lines);
            }
            ready.send_replace(true);
            done = self.talk(to, &mut from, shared, &flight, &mut meter).await?;
        } else {
            drop(to);
        }
        figures.opened.set(0);
        let status = end(&mut child, &self.program).await?;
        figures.process.set(0);
        Ok(Ended { status, done: done.filter(|_| status.success()), has_begun, left: flight.take_all() })
    }

    /// Sends calls and hands their answers out. Answers why nothing more is sent, where all calls were answered.
    async fn talk(
        &self,
        to: ChildStdin,
        from: &mut BufReader<ChildStdout>,
        shared: &Shared,
        flight: &Flight,
        meter: &mut Meter,
    ) -> Result<Option<Why>, DeskFault> {
        let writing = self.write_calls(to, shared, flight);
        let reading = read_replies(from, shared, flight, &self.docket, meter);
        let keeping = self.keep_on(shared, flight);
        tokio::pin!(writing, reading, keeping);
        let why = tokio::select! {
            // Where it fails, what was answered is in the pipe still.
            sent = &mut writing => sent.ok(),
            read = &mut reading => {
                say_why(read);
                return Ok(None);
            }
            fault = &mut keeping => return Err(fault),
        };
        let read = if why.is_some() { reading.await } else { timeout(LAST_MOMENT, reading).await.unwrap_or(Ok(())) };
        say_why(read);
        Ok(why.filter(|_| flight.is_empty()))
    }

    /// Sends calls until the queue has ended, or the next process takes new clients or begins the docket anew. Then the input of
    /// `kfs_serve` ends, too.
    async fn write_calls(&self, mut to: ChildStdin, shared: &Shared, flight: &Flight) -> io::Result<Why> {
        let are_new = self.clients.due();
        let mut anew = Anew::NotDue;
        tokio::pin!(are_new);
        loop {
            // Where this is dropped it has taken nothing.
            let next = async { shared.next_batch(flight.room().await).await };
            let batch = tokio::select! {
                batch = next, if anew.has_room() => batch,
                () = &mut are_new => return Ok(Why::NewClients),
                is_made = anew.is_made(&self.docket, shared) => match is_made {
                    true => return Ok(Why::Docket),
                    false => continue,
                },
            };
            match batch {
                None => return Ok(Why::Closed),
                Some(Batch { bytes, sent }) => {
                    anew.sent(&sent);
                    count_sent(&sent, shared);
                    flight.add(sent).await;
                    to.write_all(&bytes).await?;
                }
            }
        }
    }

    /// Keeps outcomes now and then, and whenever much was sent behind them. Returns where that fails.
    async fn keep_on(&self, shared: &Shared, flight: &Flight) -> DeskFault {
        loop {
            // Whichever is first.
            let _ = timeout(KEEPING, flight.due()).await;
            // Counted before they are taken: there are as many at least.
            let count = flight.count_ended();
            let changes = shared.following.take_unsaved();
            if !changes.is_empty() {
                if let Err(fault) = keep(&self.store, changes).await {
                    return fault;
                }
            }
            flight.kept(count);
        }
    }

    fn start(&self, lines: Option<&str>) -> Result<(Child, ChildStdin, ChildStdout), DeskFault> {
        let mut child = Command::new(&self.program)
            .args(self.words(lines)?)
            .stdin(Stdio::piped())
            .stdout(Stdio::piped())
            .stderr(Stdio::piped())
            .kill_on_drop(true)
            .spawn()
            .map_err(|fault| DeskFault::Process(self.program.clone(), fault))?;
        log::tell_of(child.stderr.take());
        match (child.stdin.take(), child.stdout.take()) {
            (Some(to), Some(from)) => Ok((child, to, from)),
            _ => Err(DeskFault::Process(self.program.clone(), io::ErrorKind::BrokenPipe.into())),
        }
    }

    /// `open` where both files are there, with these clients where they are given; and `new` where there is none.
    fn words(&self, lines: Option<&str>) -> Result<Vec<OsString>, DeskFault> {
        let folder = self.folder.path();
        let mut words: Vec<OsString> = vec!["open".into(), folder.into(), self.rows.to_string().into()];
        if self.has_files()? {
            if let Some(lines) = lines {
                self.folder.keep_clients(lines).map_err(DeskFault::Folder)?;
                words.extend(["--clients".into(), self.folder.clients_path().into()]);
            }
        } else {
            words[0] = "new".into();
            words.push(self.folder.clients_path().into());
            words.extend(self.tiers.iter().map(|blocks| blocks.to_string().into()));
        }
        Ok(words)
    }
}

/// How far a process is on the way to a new docket: the rows go back at a start behind a checkpoint.
enum Anew {
    NotDue,
    /// The checkpoint is asked for, and is sent. So many calls may be sent behind it before it is made.
    Asked {
        answer: oneshot::Receiver<Answer>,
        is_sent: bool,
        room: usize,
    },
}

impl Anew {
    /// Whether more calls may be sent.
    fn has_room(&self) -> bool {
        !matches!(self, Anew::Asked { is_sent: true, room: 0, .. })
    }

    /// These were sent.
    fn sent(&mut self, frames: &[Sent]) {
        if let Anew::Asked { is_sent, room, .. } = self {
            *is_sent = *is_sent || frames.iter().any(|frame| frame.is_checkpoint);
            *room = room.saturating_sub(frames.len());
        }
    }

    /// Returns when it has gone on. Answers whether the checkpoint is made, behind which the docket is begun anew.
    async fn is_made(&mut self, docket: &Docket, shared: &Shared) -> bool {
        match self {
            Anew::NotDue => {
                docket.is_due().await;
                let answer = shared.queue.push_first(vec![CHECKPOINT]);
                *self = Anew::Asked { answer, is_sent: false, room: docket.room() };
                false
            }
            Anew::Asked { answer, .. } => {
                let answer = answer.await;
                let is_made = matches!(&answer, Ok(Answer::Said(reply)) if reply.found() == Some(&[CHECKPOINT_MADE]));
                *self = Anew::NotDue;
                if is_made {
                    info!("the docket is begun anew");
                } else {
                    warn!("the docket has three quarters of its rows, and no checkpoint is made");
                    docket.wait();
                }
                is_made
            }
        }
    }
}

/// Does what may take long with files on a thread of its own, beside all else.
pub async fn beside<T: Send + 'static>(work: impl FnOnce() -> Result<T, DeskFault> + Send + 'static) -> Result<T, DeskFault> {
    spawn_blocking(work).await.unwrap_or_else(|fault| Err(DeskFault::Keeping(fault)))
}

fn locked(store: &Mutex<Store>) -> MutexGuard<'_, Store> {
    store.lock().unwrap_or_else(PoisonError::into_inner)
}

/// Keeps changes.
async fn keep(store: &Arc<Mutex<Store>>, changes: Changes) -> Result<(), DeskFault> {
    let store = Arc::clone(store);
    beside(move || Ok(locked(&store).keep(&changes)?)).await
}

/// Reads what was kept, and how the desk in a folder stands. No `kfs_serve` may run.
pub fn recall(folder: &Path, store: &mut Store, following: &Following) -> Result<(), DeskFault> {
    let found = following.read(folder, |_, _| true).map_err(DeskFault::Folder)?;
    following.outcomes.begin_with(store.outcomes()?, found.outcomes.into_values().flatten().collect());
    let mut times = following.times();
    times.begin_with(store.known()?);
    if store.begin()? {
        // The kfsd before may not have kept those behind the last one that is known.
        let known = times.known_of(&found.recent, found.recent.len()).unwrap_or(0);
        found.recent.iter().skip(known).for_each(|landing| times.changed_again(landing, times::now()));
    }
    times.go_on_behind(&found.recent);
    Ok(())
}

/// Follows those of the calls that a process has left which have landed.
fn follow_left(left: &VecDeque<Sent>, recent: &VecDeque<Landing>, times: &mut Times) {
    let landings: Vec<_> = left.iter().filter_map(|sent| sent.note.landing()).collect();
    let first = recent.len().saturating_sub(landings.len());
    // Where it can't be told, one that is like it may have been made before. Then its time is later than it was.
    let known = times.known_of(recent, landings.len()).unwrap_or(first);
    let made = recent.iter().skip(known).filter(|landing| landings.contains(landing));
    made.for_each(|landing| times.changed(landing, times::now()));
    times.go_on_behind(recent);
}

/// What a status says that a new start wouldn't mend.
fn fault_of(status: ExitStatus) -> Result<(), DeskFault> {
    match status.code() {
        Some(code @ (1 | 2)) => Err(DeskFault::Words(code)),
        Some(3) => Err(DeskFault::Files),
        _ => Ok(()),
    }
}

/// Sends an empty frame, which changes nothing, and waits for its refusal. Before it no frame of a client is sent.
async fn is_open(to: &mut (impl AsyncWrite + Unpin), from: &mut (impl AsyncRead + Unpin)) -> bool {
    let head = Head { length: 0, number: FRONT, from: FRONT };
    if to.write_all(&head.bytes()).await.is_err() {
        return false;
    }
    matches!(read_reply(from).await, Ok(Some(Reply { number: FRONT, .. })))
}

fn say_why(read: io::Result<()>) {
    if let Err(fault) = read {
        warn!("kfs_serve isn't understood: {fault}");
    }
}

/// Hands answers out until the output of `kfs_serve` ends.
async fn read_replies(
    from: &mut BufReader<ChildStdout>,
    shared: &Shared,
    flight: &Flight,
    docket: &Docket,
    meter: &mut Meter,
) -> io::Result<()> {
    // Those that have come together.
    let mut parts = Vec::new();
    while let Some(reply) = read_reply(from).await? {
        let wrong = || io::Error::new(io::ErrorKind::InvalidData, format!("a reply to frame {}", reply.number));
        let sent = flight.take(reply.number).ok_or_else(wrong)?;
        take_over(&sent, &reply, times::now(), shared);
        match reply.position() {
            Some(position) => docket.has(position),
            None if reply.said.starts_with(&FULL) => docket.is_full(),
            None => {}
        }
        if sent.is_kept() {
            flight.ended();
        }
        parts.push(part_of(&sent, &reply));
        hand_out(sent, reply, shared);
        if from.buffer().is_empty() {
            let (worked, waited) = meter.lap(flight.busy_since());
            shared.queue.measured(&parts, worked, waited);
            parts.clear();
        }
    }
    Ok(())
}

/// What a frame cost. A log that hasn't landed came to nothing.
pub fn part_of(sent: &Sent, reply: &Reply) -> Part {
    let has_landed = || reply.answer().map(Told::of) == Some(Told::Landed);
    let is_refused = matches!(sent.note, Note::Submit(_)) && !has_landed();
    Part { is_in_vain: sent.part.is_in_vain || is_refused, ..sent.part }
}

/// Counts frames that are about to be sent.
pub fn count_sent(sent: &[Sent], shared: &Shared) {
    let of_clients = || sent.iter().filter(|one| !one.is_own());
    shared.figures.sent.add(of_clients().count());
    shared.figures.waited.add(of_clients().map(|one| one.came.elapsed().as_micros() as usize).sum());
}

/// Takes over what a frame has done, which was answered at this time.
pub fn take_over(sent: &Sent, reply: &Reply, time: i64, shared: &Shared) {
    if sent.is_own() {
        shared.figures.own.add(1);
    } else {
        shared.figures.answered.add(1);
        shared.figures.times.add(sent.came.elapsed());
    }
    if let Some(answer) = reply.answer() {
        shared.following.answered(&sent.note, answer, time);
    }
    if let Some(own) = sent.numbered {
        shared.following.outcomes.end(sent.client, own, reply.answer());
    }
    shared.following.space().ended(sent.number, reply.answer().map(Told::of) == Some(Told::Landed));
    shared.queue.answered(sent);
    if sent.is_long() {
        let is_done = matches!(reply.answer().map(Told::of), Some(Told::Landed | Told::Leased(_)));
        shared.queue.long_answered(sent.client, sent.length, is_done);
    }
}

/// Hands a reply to who waits for it, once all before it is taken over: what kfsd keeps of a node is as the desk had it then.
pub fn hand_out(sent: Sent, mut reply: Reply, shared: &Shared) {
    if let Note::Look(node) = sent.note {
        reply.add(shared.following.times().of(node));
    }
    if let Some(asker) = sent.asker {
        // Where the connection is gone nobody hears it.
        let _ = asker.to.send(Answer::Said(reply));
    }
}

/// Waits for the end of a process whose pipes are at their end, and ends it where it doesn't by itself.
async fn end(child: &mut Child, program: &Path) -> Result<ExitStatus, DeskFault> {
    let not_ended = |fault| DeskFault::Process(program.to_path_buf(), fault);
    if let Ok(status) = timeout(LAST_MOMENT, child.wait()).await {
        return status.map_err(not_ended);
    }
    warn!("kfs_serve doesn't end by itself");
    child.kill().await.map_err(not_ended)?;
    child.wait().await.map_err(not_ended)
}

#[cfg(test)]
mod tests {
    use super::*;
    use crate::calls::{time_call, Change, Setting};
    use crate::cost::Part;
    use std::os::unix::process::ExitStatusExt;
    use std::time::Instant;

    /// Calls that set the times of these nodes, as they were sent and as they are in the journal.
    fn set(nodes: &[u32]) -> (VecDeque<Sent>, VecDeque<Landing>) {
        let calls = nodes.iter().map(|node| time_call(*node, Setting { time: 5, is_first: true }));
        let notes: Vec<_> = calls.map(|call| Note::of(&call)).collect();
        let landings = notes.iter().filter_map(Note::landing).collect();
        let sent = |note| Sent {
            number: 1,
            client: 7,
            note,
            came: Instant::now(),
            numbered: None,
            is_checkpoint: false,
            length: 1,
            part: Part::free(7),
            cost: 1,
            asker: None,
        };
        (notes.into_iter().map(sent).collect(), landings)
    }

    #[test]
    fn of_calls_that_are_left_those_count_that_the_journal_has() {
        let (left, all) = set(&[1, 2, 3, 4, 5]);
        let mut times = Times::default();
        // nothing is known before
        follow_left(&left, &all.iter().take(2).cloned().collect(), &mut times);
        let known = |times: &Times| (1..9).filter(|node| times.of(*node).is_some()).collect::<Vec<_>>();
        assert_eq!(known(&times), [1, 2]);
        // behind those that are known come two more, of which the first is like one of them
        let (left, more) = set(&[2, 6, 7]);
        let before = times.of(1);
        let recent = all.iter().take(2).chain(&more).take(4).cloned().collect();
        follow_left(&left, &recent, &mut times);
        assert_eq!((known(&times), times.of(1)), (vec![1, 2, 6], before));
        assert_eq!(times.known_of(&recent, 3), Some(4));
        let gone = Landing { changes: vec![(6, Change::Gone)], print: 0 };
        times.changed(&gone, 9);
        assert_eq!((known(&times), times.known_of(&recent, 3)), (vec![1, 2], None));
        // of those of which nobody knows, that can be told of the last ones alone
        let (left, _) = set(&[8, 1]);
        follow_left(&left, &set(&[1, 9, 8]).1, &mut times);
        assert_eq!((known(&times), times.of(1)), (vec![1, 2, 8], before));
    }

    #[test]
    fn a_new_start_follows_a_signal_and_want_of_memory() {
        assert!(fault_of(ExitStatus::from_raw(9)).is_ok());
        assert!(fault_of(ExitStatus::from_raw(4 << 8)).is_ok());
        assert!(fault_of(ExitStatus::from_raw(5 << 8)).is_ok());
        assert!(matches!(fault_of(ExitStatus::from_raw(3 << 8)), Err(DeskFault::Files)));
        assert!(matches!(fault_of(ExitStatus::from_raw(1 << 8)), Err(DeskFault::Words(1))));
    }
}

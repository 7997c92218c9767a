//! One connection: frames are read, stamped and handed to the desk, and their replies are written in the same order.
//!
//! What it waits for is its own: its reader's bytes, its writer's room, and places of its own user. So it holds up no other user.

use crate::allowance::Allowance;
use crate::asking::{leasing_of, set_on, Instead, Leasing};
use crate::calls::{path_in, Note, Wish};
use crate::cluster::term::Term;
use crate::config::{Duties, Limits, FRAME_COST};
use crate::figures::Figures;
use crate::following::Following;
use crate::frames::{
    answer_in, asked, found_in, moment, node_look_up, reply, shorten, times, told_again, wanted, welcome, Asked, Head, Refusal,
    HEAD, NUMBERED_HEAD,
};
use crate::locking::{lock, Locking};
use crate::locks::Line;
use crate::outcomes::{Outcomes, Stands};
use crate::queue::{Answer, Asker, Call, Permits, Queue};
use crate::rules::Rules;
use crate::thread::{self, Thread};
use crate::users::{Account, Place};
use std::collections::VecDeque;
use std::future::Future;
use std::io;
use std::pin::Pin;
use std::sync::{Arc, Mutex, MutexGuard, PoisonError};
use std::task::{Context, Poll};
use std::time::{Duration, Instant};
use tokio::io::{AsyncRead, AsyncReadExt, AsyncWrite, AsyncWriteExt, BufReader};
use tokio::sync::{oneshot, watch};
use tokio::time::{sleep, timeout};
use tracing::debug;

/// How many bytes of small frames are read at once.
const BUFFER: usize = 4096;

/// How many bytes of replies are written at once, and one reply more.
const TOGETHER: usize = 16_384;

/// How often it is looked whether the other end of a connection is closed from which no more comes.
const LOOK: Duration = Duration::from_millis(100);

/// How long a client waits that asks which of its leases others want.
const WAITING: Duration = Duration::from_secs(20);

/// What all connections share.
#[derive(Debug)]
pub struct Shared {
    pub queue: Queue,
    pub figures: Figures,
    /// How the desk stands.
    pub following: Following,
    /// Until when nobody else leads.
    pub term: Term,
    /// What the configuration says now.
    pub rules: watch::Receiver<Arc<Rules>>,
    /// Whether no frame is read any more.
    pub stopping: watch::Receiver<bool>,
    /// Who has had kfsd's thread.
    pub thread: Arc<Thread>,
}

impl Shared {
    /// The limits that hold now.
    pub fn limits(&self) -> Limits {
        self.rules.borrow().limits
    }

    /// What kfsd has to do by itself now.
    pub fn duties(&self) -> Duties {
        self.rules.borrow().duties
    }

    /// A place for one more connection of a user, where it is listed and may have one.
    pub fn place_of(&self, uid: io::Result<u32>) -> Result<Place, Refusal> {
        let uid = uid.map_err(|_| Refusal::Unlisted)?;
        let rules = self.rules.borrow();
        match rules.table.of(uid) {
            Some(account) => account.connect(rules.limits.connections_a_user).ok_or(Refusal::TooMany),
            None if rules.table.is_stranger(uid) => Err(Refusal::NoClient),
            None => Err(Refusal::Unlisted),
        }
    }
}

/// Why no frame is read any more.
enum End {
    /// The input has ended, or can't be read.
    Input,
    /// A frame takes too long.
    Slow,
}

impl From<io::Error> for End {
    fn from(_fault: io::Error) -> End {
        End::Input
    }
}

impl From<tokio::time::error::Elapsed> for End {
    fn from(_fault: tokio::time::error::Elapsed) -> End {
        End::Slow
    }
}

/// The place of a frame's reply.
struct Slot {
    number: u32,
    said: Said,
    /// The frame is under way until its reply is written.
    _frame: Arc<Permits>,
    /// The bytes of a reply that may be long.
    _found: Option<Permits>,
}

impl Slot {
    /// The whole reply, when it is there.
    async fn reply(&mut self) -> Vec<u8> {
        match &mut self.said {
            Said::Here(bytes) => std::mem::take(bytes),
            Said::Later(bytes) => bytes.await,
            Said::Waits(answer) => reply_of(self.number, answer.await.ok()),
        }
    }

    /// The whole reply, where it is there.
    fn reply_now(&mut self) -> Option<Vec<u8>> {
        match &mut self.said {
            Said::Here(bytes) => Some(std::mem::take(bytes)),
            Said::Later(_) => None,
            Said::Waits(answer) => match answer.try_recv() {
                Ok(found) => Some(reply_of(self.number, Some(found))),
                Err(oneshot::error::TryRecvError::Empty) => None,
                Err(oneshot::error::TryRecvError::Closed) => Some(reply_of(self.number, None)),
            },
        }
    }
}

/// A numbered call that is under way here. Where it isn't handed in, its number is free again.
struct Begun<'a> {
    outcomes: &'a Outcomes,
    client: u32,
    number: u64,
    is_under_way: bool,
}

impl Begun<'_> {
    /// The number of a call that is handed in now.
    fn hand_in(mut self) -> u64 {
        self.is_under_way = false;
        self.number
    }

    /// It was answered so, where this is an answer.
    fn end(&mut self, said: &[u8]) {
        if let Some(answer) = answer_in(said) {
            self.outcomes.end(self.client, self.number, Some(answer));
            self.is_under_way = false;
        }
    }
}

impl Drop for Begun<'_> {
    fn drop(&mut self) {
        if self.is_under_way {
            self.outcomes.end(self.client, self.number, None);
        }
    }
}

/// The places of the replies that a connection owes, in the order of their frames.
#[derive(Default)]
struct Places {
    waiting: VecDeque<Slot>,
    is_closed: bool,
}

/// What one half of a connection hands to the other. Both are one task, which is polled from its front: so the half that writes sees what
/// the one that reads has put, and isn't woken. A task that wakes itself has tokio wake another thread, which finds nothing to do.
#[derive(Default)]
struct Owed(Mutex<Places>);

/// The next place, once it is there; none where none comes any more.
struct Next<'a>(&'a Owed);

impl Owed {
    fn places(&self) -> MutexGuard<'_, Places> {
        self.0.lock().unwrap_or_else(PoisonError::into_inner)
    }

    fn put(&self, slot: Slot) {
        self.places().waiting.push_back(slot);
    }

    /// No other one comes.
    fn close(&self) {
        self.places().is_closed = true;
    }

    fn take(&self) -> Option<Slot> {
        self.places().waiting.pop_front()
    }
}

impl Future for Next<'_> {
    type Output = Option<Slot>;

    fn poll(self: Pin<&mut Self>, _context: &mut Context<'_>) -> Poll<Option<Slot>> {
        let mut places = self.0.places();
        match places.waiting.pop_front() {
            None if !places.is_closed => Poll::Pending,
            next => Poll::Ready(next),
        }
    }
}

/// The reply to a frame that was handed to the desk. Where there is no answer, nobody knows.
fn reply_of(number: u32, answer: Option<Answer>) -> Vec<u8> {
    match answer {
        Some(Answer::Said(found)) => reply(number, &found.said),
        Some(Answer::NeverSent) => Refusal::Stopping.reply(number),
        Some(Answer::NoSpace) => Refusal::NoSpace.reply(number),
        None => Refusal::Unknown.reply(number),
    }
}

enum Said {
    /// The whole reply.
    Here(Vec<u8>),
    /// It comes from the desk.
    Waits(oneshot::Receiver<Answer>),
    /// The whole reply, when kfsd has one.
    Later(Pin<Box<dyn Future<Output = Vec<u8>> + Send>>),
}

/// Serves a connection to its end. `is_gone` says whether nobody hears a reply any more, once nothing more is to be read.
pub async fn serve(
    from: impl AsyncRead + Unpin,
    to: impl AsyncWrite + Unpin,
    is_gone: impl Fn() -> bool,
    place: Place,
    shared: Arc<Shared>,
) {
    let (uid, usage, thread) = (place.account.user.uid, Arc::clone(&place.account.usage), Arc::clone(&shared.thread));
    thread::Shared::new(serve_all(from, to, is_gone, place, shared), uid, &thread, &usage).await;
}

async fn serve_all(
    from: impl AsyncRead + Unpin,
    to: impl AsyncWrite + Unpin,
    is_gone: impl Fn() -> bool,
    place: Place,
    shared: Arc<Shared>,
) {
    // Each has its place among the frames that are under way, so there are as many as may be.
    let owed = Owed::default();
    let limits = shared.limits();
    let (frames, bytes) = (Allowance::new(limits.frames_a_connection), Allowance::new(limits.bytes_a_connection));
    let locking = Locking::new(&shared, place.account.user.client);
    let mut reader = Reader {
        line: locking.line,
        from: BufReader::with_capacity(BUFFER, from),
        owed: &owed,
        account: Arc::clone(&place.account),
        frames: Arc::clone(&frames),
        bytes: Arc::clone(&bytes),
        shared: &shared,
    };
    let limit = |limits: &Limits| {
        frames.set_most(limits.frames_a_connection);
        bytes.set_most(limits.bytes_a_connection);
    };
    let reading = async {
        let end = tokio::select! {
            end = reader.read_all() => end,
            () = closing(&shared, &place.account, limit) => End::Input,
        };
        drop(reader);
        owed.close();
        end
    };
    let writing = write_replies(to, &owed, &shared);
    tokio::pin!(reading, writing);
    let is_slow = tokio::select! {
        // What is read first is seen by the half that writes.
        biased;
        end = &mut reading => tokio::select! {
            written = &mut writing => written.is_err() || matches!(end, End::Slow),
            // What is owed is dropped, and look-ups of it aren't made.
            () = gone(is_gone) => false,
        },
        written = &mut writing => written.is_err(),
    };
    if is_slow {
        shared.figures.too_slow.add(1);
        debug!("a connection of user {} was too slow", place.account.user.uid);
    }
}

/// Returns when nobody hears a reply any more. A connection whose other end is closed and one that is only written no more look
/// alike to the half that reads.
async fn gone(is_gone: impl Fn() -> bool) {
    while !is_gone() {
        sleep(LOOK).await;
    }
}

/// Returns when the user isn't listed any more, or kfsd stops. Tells of other limits meanwhile.
async fn closing(shared: &Shared, account: &Arc<Account>, limit: impl Fn(&Limits)) {
    let (mut rules, mut stopping) = (shared.rules.clone(), shared.stopping.clone());
    loop {
        let now = Arc::clone(&rules.borrow_and_update());
        let is_listed = matches!(now.table.of(account.user.uid), Some(now) if Arc::ptr_eq(&now, account));
        if !is_listed || *stopping.borrow_and_update() {
            return;
        }
        limit(&now.limits);
        let is_gone = tokio::select! {
            changed = rules.changed() => changed.is_err(),
            changed = stopping.changed() => changed.is_err(),
        };
        if is_gone {
            return;
        }
    }
}

/// The half of a connection that frames come from.
struct Reader<'a, R> {
    /// By which its locks are known.
    line: Line,
    from: BufReader<R>,
    owed: &'a Owed,
    account: Arc<Account>,
    frames: Arc<Allowance>,
    bytes: Arc<Allowance>,
    shared: &'a Arc<Shared>,
}

impl<R: AsyncRead + Unpin> Reader<'_, R> {
    /// Reads frames until there is no more to read.
    async fn read_all(&mut self) -> End {
        loop {
            if let Err(end) = self.read_one().await {
                return end;
            }
        }
    }

    /// Reads a frame, and has it answered.
    async fn read_one(&mut self) -> Result<(), End> {
        let head = self.read_head().await?;
        let frame = Arc::new(take(&self.frames, &self.account.frames, 1).await);
        let limits = self.shared.limits();
        let time = limits.frame_time();
        if head.length > limits.frame_bytes {
            self.refuse(head, frame, Refusal::TooLong).await?;
            // To pass over it would cost as much as to take it.
            return Err(End::Input);
        }
        let bytes = take(&self.bytes, &self.account.bytes, head.length + FRAME_COST).await;
        let mut body = vec![0; head.length as usize];
        if timeout(time, self.from.read_exact(&mut body)).await?.is_err() {
            return self.refuse(head, frame, Refusal::CutShort).await;
        }
        self.answer(head, body, bytes, frame).await
    }

    /// Reads a head. It may be long until the first byte comes.
    async fn read_head(&mut self) -> Result<Head, End> {
        let mut head = [0; HEAD];
        self.from.read_exact(&mut head[..1]).await?;
        timeout(self.shared.limits().frame_time(), self.from.read_exact(&mut head[1..])).await??;
        Ok(Head::of(head))
    }

    /// Answers a frame that is whole, or hands it to the desk.
    async fn answer(&self, head: Head, mut body: Vec<u8>, bytes: Permits, frame: Arc<Permits>) -> Result<(), End> {
        let client = self.account.user.client;
        let what = asked(&body);
        let is_others = matches!(what, Asked::Of(other) | Asked::Numbered(other, _) if other != client);
        // Who asks who it is needn't know it.
        let is_own = head.from == client || what == Asked::Hello;
        if !is_own || what == Asked::OfFront || is_others {
            return self.refuse(head, frame, Refusal::NotYours).await;
        }
        if let Some(said) = self.said_here(head.number, what) {
            self.shared.term.holds().await;
            return self.put(head, frame, Said::Here(said)).await;
        }
        if matches!(what, Asked::Lock(_)) {
            self.account.calls.pause().await;
        }
        if let Some(said) = self.said_later(head.number, what) {
            return self.put(head, frame, said).await;
        }
        let mut begun = None;
        if let Asked::Numbered(_, own) = what {
            match self.begin(head.number, own) {
                Ok(new) => begun = Some(new),
                Err(said) => return self.put(head, frame, Said::Here(said)).await,
            }
            body.drain(..NUMBERED_HEAD);
        }
        if matches!(what, Asked::Of(_) | Asked::Numbered(..)) {
            self.account.calls.pause().await;
        }
        if let Asked::Stamped(node) = what {
            body = node_look_up(node);
        }
        let (mut body, note) = match self.leased(body).await {
            Ok((body, note)) => (body, what.look().or(note)),
            Err(instead) => {
                if let (Instead::Said(said), Some(begun)) = (&instead, &mut begun) {
                    begun.end(said);
                }
                return self.put(head, frame, Said::Here(instead.reply(head.number))).await;
            }
        };
        shorten(&mut body);
        let (bytes, found) = self.with_found(&body, bytes).await;
        let (to, answer) = oneshot::channel();
        let asker = Asker { to, frame: Some(Arc::clone(&frame)) };
        let number = begun.map(Begun::hand_in);
        self.shared.queue.push(Call { client, line: client, body, note, came: Instant::now(), number, bytes, asker });
        let said = Said::Waits(answer);
        self.owed.put(Slot { number: head.number, said, _frame: frame, _found: found });
        Ok(())
    }

    /// Begins a numbered call that is new. The reply to another one says how that stands: before all else, since what was answered
    /// stays answered.
    fn begin(&self, number: u32, own: u64) -> Result<Begun<'_>, Vec<u8>> {
        let (outcomes, client) = (&self.shared.following.outcomes, self.account.user.client);
        match outcomes.begin(client, own) {
            Stands::Done(answer) => Err(told_again(number, &answer)),
            Stands::UnderWay => Err(Refusal::UnderWay.reply(number)),
            Stands::New => Ok(Begun { outcomes, client, number: own, is_under_way: true }),
        }
    }

    /// The call that is handed to the desk, and what kfsd follows of it where that isn't in its bytes. For a lease by path it is
    /// mostly one by number; where kfsd refuses a lease, or its path leads nowhere, it is what the client is told.
    async fn leased(&self, body: Vec<u8>) -> Result<(Vec<u8>, Option<Note>), Instead> {
        let wish = match Note::of_lease(&body) {
            Some(wish) => wish,
            None => return Ok((body, None)),
        };
        let (following, longest) = (&self.shared.following, self.shared.duties().lease_seconds);
        if longest != 0 && wish.end > following.clock.now().saturating_add(longest) {
            return Err(Instead::Refused(Refusal::TooFar));
        }
        let leasing = match (path_in(&body), wish.node) {
            (Some(path), _) => leasing_of(self.shared, &self.account.user, &wish, path).await?,
            (None, Some(node)) => Leasing { body, node },
            // It is no call, and the desk says so.
            (None, None) => return Ok((body, None)),
        };
        if following.forbids(wish.client, leasing.node) {
            return Err(Instead::Refused(Refusal::Wanted));
        }
        Ok((leasing.body, Some(Note::Lease(Wish { node: Some(leasing.node), ..wish }))))
    }

    /// The bytes that a frame takes until it is sent; or those that it takes with its reply until that is written, where it
    /// may be long. Those that it had are given back first: who waits for more may hold none.
    async fn with_found(&self, body: &[u8], bytes: Permits) -> (Option<Permits>, Option<Permits>) {
        match found_in(body) {
            0 => (Some(bytes), None),
            count => {
                drop(bytes);
                // Such a body has at most 16,777,216 bytes.
                let all = count + FRAME_COST + body.len() as u32;
                (None, Some(take(&self.bytes, &self.account.bytes, all).await))
            }
        }
    }

    /// The reply to what kfsd itself is asked.
    fn said_here(&self, number: u32, what: Asked) -> Option<Vec<u8>> {
        let (user, following) = (&self.account.user, &self.shared.following);
        match what {
            Asked::Hello => Some(welcome(number, user)),
            Asked::Moment => Some(moment(number, following.clock.now(), self.shared.duties().lease_seconds)),
            Asked::Times(node) => Some(times(number, following.times().of(node))),
            Asked::Outcome(own) => Some(match following.outcomes.look(user.client, own) {
                Stands::Done(answer) => told_again(number, &answer),
                Stands::UnderWay => Refusal::UnderWay.reply(number),
                Stands::New => Refusal::NotThere.reply(number),
            }),
            _ => None,
        }
    }

    /// The reply to what kfsd is asked, and waits for. It begins to wait once all before it is answered.
    fn said_later(&self, number: u32, what: Asked) -> Option<Said> {
        let (shared, client) = (Arc::clone(self.shared), self.account.user.client);
        match what {
            Asked::Wants(behind) => Some(Said::Later(Box::pin(wants_of(shared, number, client, behind)))),
            Asked::Set(node, given) => {
                let setting = set_on(shared, Arc::clone(&self.account), node, given);
                let reply =
                    async move { setting.await.map_or_else(|instead| instead.reply(number), |told| given.reply(number, told)) };
                Some(Said::Later(Box::pin(reply)))
            }
            Asked::Lock(ask) => Some(Said::Later(Box::pin(lock(shared, Arc::clone(&self.account), self.line, number, ask)))),
            _ => None,
        }
    }

    async fn refuse(&self, head: Head, frame: Arc<Permits>, refusal: Refusal) -> Result<(), End> {
        self.put(head, frame, Said::Here(refusal.reply(head.number))).await
    }

    /// Puts the reply of a frame behind those before it.
    async fn put(&self, head: Head, frame: Arc<Permits>, said: Said) -> Result<(), End> {
        if matches!(said, Said::Here(_)) {
            self.shared.figures.answered_here.add(1);
            let wait = self.account.answers.wait();
            if !wait.is_zero() {
                sleep(wait).await;
            }
        }
        self.owed.put(Slot { number: head.number, said, _frame: frame, _found: None });
        Ok(())
    }
}

/// Takes so many places of the connection, and then of its user, when they are free.
async fn take(of_connection: &Arc<Allowance>, of_user: &Arc<Allowance>, count: u32) -> Permits {
    let of_connection = of_connection.take(count).await;
    Permits { of_connection, of_user: of_user.take(count).await }
}

/// The reply that tells which leases others want: when there is one behind this serial, after a while, or when kfsd stops.
async fn wants_of(shared: Arc<Shared>, number: u32, client: u32, behind: u64) -> Vec<u8> {
    let (mut changed, mut stopping) = (shared.following.wanted(), shared.stopping.clone());
    let waiting = async {
        while !*stopping.borrow_and_update() && shared.following.told(client, behind).is_empty() {
            tokio::select! {
                is_gone = changed.changed() => if is_gone.is_err() { return },
                is_gone = stopping.changed() => if is_gone.is_err() { return },
            }
        }
    };
    // Whether there is one or not.
    let _ = timeout(WAITING, waiting).await;
    wanted(number, behind, &shared.following.told(client, behind))
}

/// Writes replies in the order of their frames, each as soon as it is there. Those that are there together are written at once.
async fn write_replies(
    mut to: impl AsyncWrite + Unpin,
    owed: &Owed,
    shared: &Shared,
) -> Result<(), tokio::time::error::Elapsed> {
    let mut next = Next(owed).await;
    while let Some(mut slot) = next {
        let mut bytes = slot.reply().await;
        // Frames are under way until their replies are written.
        let mut written = vec![slot];
        next = owed.take();
        while let Some(mut slot) = next.take() {
            let more = if bytes.len() < TOGETHER { slot.reply_now() } else { None };
            if let Some(more) = more {
                bytes.extend_from_slice(&more);
                written.push(slot);
                next = owed.take();
            } else {
                next = Some(slot);
                break;
            }
        }
        // With TLS bytes may stay behind that were written.
        let writing = async {
            to.write_all(&bytes).await?;
            to.flush().await
        };
        if timeout(shared.limits().reply_time(), writing).await?.is_err() {
            break;
        }
        drop(written);
        if next.is_none() {
            next = Next(owed).await;
        }
    }
    Ok(())
}

//! The calls that wait for `kfs_serve`, by client. Clients take turns by what their frames cost it, so none waits for all that
//! another has queued, and what is at `kfs_serve` without an answer is little of each.

use crate::allowance::Taken;
use crate::calls::Note;
use crate::cost::{measured, Account, Part};
use crate::frames::{is_look_up, node_look_up, Head, Reply, CHECKPOINT, HEAD};
use crate::outcomes::{Marker, MARKER};
use crate::space::{Gate, Ruling};
use crate::users::FRONT;
use std::collections::{HashMap, HashSet, VecDeque};
use std::sync::{Mutex, MutexGuard, PoisonError};
use std::time::{Duration, Instant};
use tokio::sync::{oneshot, Notify};
use tokio::time::timeout_at;

/// How many nanoseconds of `kfs_serve` a client's turn has. A frame that costs more waits for some turns.
const TURN: u64 = 50_000;

/// How many nanoseconds of frames may be at `kfs_serve` without an answer, or one frame more; and how many of one client beside
/// others, and alone. Where the disk takes longer it is as long as that, up to the most, so that more calls are kept together.
const WINDOW: u64 = 4_000_000;
const SHARE: u64 = 500_000;
const ALONE: u64 = 2_000_000;
const MOST: u64 = 20_000_000;

/// For how long behind its last answer a client counts as one that others hold up.
const LATELY: Duration = Duration::from_secs(1);

/// A frame with more bytes is a long one: while `kfs_serve` has it, nobody else is answered.
const LONG: usize = 65_536;

/// Behind a long frame that isn't done, the next long one of its client waits for as long as its bytes take at this rate.
const BYTES_A_SECOND: u64 = 4 << 20;

/// What a connection has taken of its own limit and of its user's, given back once this is gone.
#[derive(Debug)]
pub struct Permits {
    pub of_connection: Taken,
    pub of_user: Taken,
}

/// How a call ended. Where nothing comes, nobody knows.
#[derive(Debug, PartialEq, Eq)]
pub enum Answer {
    /// `kfs_serve` has answered.
    Said(Reply),
    /// It never got the call.
    NeverSent,
    /// Nor did it get this one, whose log would take too much space.
    NoSpace,
}

/// A call that waits.
#[derive(Debug)]
pub struct Call {
    /// The client that sends it, as the kernel's answer and the table of users say.
    pub client: u32,
    /// In whose line it waits: the client's, or kfsd's own, where another one waits for it.
    pub line: u32,
    pub body: Vec<u8>,
    /// What kfsd follows of it, where its bytes don't say that.
    pub note: Option<Note>,
    /// When it came.
    pub came: Instant,
    /// The client's own number for it, where it has one.
    pub number: Option<u64>,
    /// The bytes that it takes, until it is sent. None of kfsd's own.
    pub bytes: Option<Permits>,
    pub asker: Asker,
}

/// Who waits for an answer. Where it is dropped, the answer is that nobody knows.
#[derive(Debug)]
pub struct Asker {
    pub to: oneshot::Sender<Answer>,
    /// The place among the frames that are under way. Its connection holds it, too. None of kfsd's own.
    pub frame: Option<std::sync::Arc<Permits>>,
}

impl Call {
    /// In whose line it is, and what it costs.
    fn part(&self) -> Part {
        Part::of(self.line, &self.body)
    }

    /// Whether it is a look-up of somebody who is gone.
    fn is_in_vain(&self) -> bool {
        self.client != FRONT && self.asker.to.is_closed() && is_look_up(&self.body)
    }

    /// Whether it is the first of those that are sent at once: all before it is kept then (flight.rs).
    fn is_alone(&self) -> bool {
        self.client == FRONT && self.body == [CHECKPOINT]
    }

    /// How many bytes are sent for it, with its marker.
    fn length(&self) -> usize {
        let marker = self.number.map_or(0, |_| HEAD + MARKER);
        marker + HEAD + self.body.len()
    }

    fn is_long(&self) -> bool {
        HEAD + self.body.len() > LONG
    }

    /// The number of its frame, where the next one that is sent has this number: its marker is before it.
    fn frame_from(&self, next: u32) -> u32 {
        next.wrapping_add(u32::from(self.number.is_some()))
    }
}

/// A frame that is sent.
#[derive(Debug)]
pub struct Sent {
    pub number: u32,
    pub client: u32,
    pub note: Note,
    /// When it came.
    pub came: Instant,
    /// The client's own number for it.
    pub numbered: Option<u64>,
    /// Whether all before it has to be kept before it is sent.
    pub is_checkpoint: bool,
    /// How many bytes it has.
    pub length: usize,
    /// In whose line it was, and what it is expected to cost an unknown client and this one, in nanoseconds.
    pub part: Part,
    pub cost: u64,
    /// None where it is a marker.
    pub asker: Option<Asker>,
}

impl Sent {
    /// Whether it is kfsd's own, or made in the name of a client for another one's sake.
    pub fn is_own(&self) -> bool {
        self.client == FRONT || self.part.client == FRONT
    }

    /// Whether something of its answer is kept here.
    pub fn is_kept(&self) -> bool {
        self.numbered.is_some() || matches!(self.note, Note::Submit(_) | Note::Time(..) | Note::Marks(..))
    }

    /// Whether its client sends no other long frame before it is answered.
    pub fn is_long(&self) -> bool {
        self.length > LONG
    }
}

/// Calls that are sent at once.
#[derive(Debug, Default)]
pub struct Batch {
    /// The frames.
    pub bytes: Vec<u8>,
    /// Each of them, in their order.
    pub sent: Vec<Sent>,
}

/// The calls of a client, and how many nanoseconds it may use still in its turn.
#[derive(Debug, Default)]
struct Line {
    calls: VecDeque<Call>,
    credit: u64,
}

/// Why a client's next long frame isn't sent yet.
#[derive(Clone, Copy, Debug, PartialEq, Eq)]
enum Hold {
    /// `kfs_serve` has one of them.
    Sent,
    /// One of them wasn't done.
    Until(Instant),
}

/// What becomes of a client's turn.
#[derive(Clone, Copy, Debug, PartialEq, Eq)]
enum Turn {
    /// Its next call is sent.
    Call,
    /// Nobody waits for its next call any more.
    InVain,
    /// It has used it up.
    Over,
    /// Its next call is held back.
    Rests,
    /// As much of it is at `kfs_serve` as may be.
    Full,
    /// The gate has its next call wait.
    Waits,
    /// It doesn't let it go.
    Refused,
}

#[derive(Debug, Default)]
struct Lines {
    /// Calls of kfsd's own that go before all others.
    first: VecDeque<Call>,
    of: HashMap<u32, Line>,
    /// The clients that have a call, in the order of their turns; but for those that rest, are full, or wait.
    turns: VecDeque<u32>,
    /// Those whose next call is held back for a time, or until a long one is answered.
    resting: Vec<u32>,
    /// Those that have a share of the window at `kfs_serve`.
    full: HashSet<u32>,
    /// Those whose next call the gate has wait, in the order in which they came to it.
    waiting: Vec<u32>,
    holds: HashMap<u32, Hold>,
    accounts: HashMap<u32, Account>,
    /// The two clients that were answered last, the last one first.
    last: [Option<u32>; 2],
    /// What is at `kfs_serve`, in nanoseconds, and for how long the disk was waited for lately.
    sent: u64,
    waited: u64,
    count: usize,
    is_closed: bool,
    next_number: u32,
}

/// The calls that wait.
#[derive(Debug, Default)]
pub struct Queue {
    lines: Mutex<Lines>,
    changed: Notify,
}

impl Queue {
    fn lines(&self) -> MutexGuard<'_, Lines> {
        // Each change below is whole once it is begun, so what a thread that panicked has left is whole.
        self.lines.lock().unwrap_or_else(PoisonError::into_inner)
    }

    /// Puts a call behind those of its client. Nobody takes it where the queue is closed: it was never sent then.
    pub fn push(&self, call: Call) {
        let mut lines = self.lines();
        if lines.is_closed {
            drop(lines);
            never_sent(call);
            return;
        }
        lines.push(call);
        drop(lines);
        self.changed.notify_one();
    }

    /// Puts a call of kfsd's own in line. Where the answer is dropped, nobody knows it.
    pub fn push_own(&self, body: Vec<u8>) -> oneshot::Receiver<Answer> {
        self.push_as(FRONT, body)
    }

    /// Puts a call of kfsd's own before all that waits.
    pub fn push_first(&self, body: Vec<u8>) -> oneshot::Receiver<Answer> {
        let (call, answer) = own_call(FRONT, FRONT, body);
        let mut lines = self.lines();
        if lines.is_closed {
            drop(lines);
            never_sent(call);
        } else {
            lines.first.push_back(call);
            lines.count += 1;
            drop(lines);
            self.changed.notify_one();
        }
        answer
    }

    /// The same in the name of a client, behind its calls.
    pub fn push_as(&self, client: u32, body: Vec<u8>) -> oneshot::Receiver<Answer> {
        self.push_in(client, client, body)
    }

    /// The same in the name of a client, among kfsd's own calls: for another one, who needn't wait for the client's.
    pub fn push_for(&self, client: u32, body: Vec<u8>) -> oneshot::Receiver<Answer> {
        self.push_in(FRONT, client, body)
    }

    /// The look-up of a node in the name of a client, behind its calls. What kfsd keeps of the node stands behind the reply.
    pub fn push_look(&self, client: u32, node: u32) -> oneshot::Receiver<Answer> {
        let (call, answer) = own_call(client, client, node_look_up(node));
        self.push(Call { note: Some(Note::Look(node)), ..call });
        answer
    }

    fn push_in(&self, line: u32, client: u32, body: Vec<u8>) -> oneshot::Receiver<Answer> {
        let (call, answer) = own_call(line, client, body);
        self.push(call);
        answer
    }

    /// How many calls wait.
    pub fn len(&self) -> usize {
        self.lines().count
    }

    /// Whether none waits.
    pub fn is_empty(&self) -> bool {
        self.len() == 0
    }

    /// No call comes any more. Those that wait are sent still, and none is held back.
    pub fn close(&self) {
        let mut lines = self.lines();
        lines.is_closed = true;
        lines.holds.clear();
        drop(lines);
        self.changed.notify_one();
    }

    /// A long frame of a client was answered. Where it isn't done, the client's next one waits.
    pub fn long_answered(&self, client: u32, length: usize, is_done: bool) {
        let time = Duration::from_micros(length as u64 * 1_000_000 / BYTES_A_SECOND);
        let mut lines = self.lines();
        lines.holds.remove(&client);
        if !is_done && !lines.is_closed {
            lines.holds.insert(client, Hold::Until(Instant::now() + time));
        }
        drop(lines);
        self.changed.notify_one();
    }

    /// Nothing that was sent is answered any more.
    pub fn begin_anew(&self) {
        let mut lines = self.lines();
        lines.holds.retain(|_, hold| *hold != Hold::Sent);
        lines.sent = 0;
        lines.accounts.values_mut().for_each(|account| account.sent = 0);
        let full = std::mem::take(&mut lines.full);
        lines.turns.extend(full);
        drop(lines);
        self.changed.notify_one();
    }

    /// A frame was answered: there is room for others.
    pub fn answered(&self, sent: &Sent) {
        let is_waited_for = self.lines().answered(sent, Instant::now());
        if is_waited_for {
            self.changed.notify_one();
        }
    }

    /// These frames were answered together. `kfs_serve` has worked for so long, and then waited for the disk.
    pub fn measured(&self, parts: &[Part], worked: Duration, waited: Duration) {
        self.lines().measured(parts, worked, waited);
    }

    /// Takes no call any more, and tells those that wait that they were never sent.
    pub fn give_up(&self) {
        let mut lines = self.lines();
        lines.is_closed = true;
        let (first, left) = (std::mem::take(&mut lines.first), std::mem::take(&mut lines.of));
        lines.turns.clear();
        lines.resting.clear();
        lines.full.clear();
        lines.waiting.clear();
        lines.count = 0;
        drop(lines);
        first.into_iter().chain(left.into_values().flat_map(|line| line.calls)).for_each(never_sent);
        self.changed.notify_one();
    }

    /// The next calls, at most `most` bytes of them or a single one; none once the queue is closed and empty. One task takes.
    pub async fn next(&self, most: usize) -> Option<Batch> {
        self.next_by(most, &()).await
    }

    /// The same of calls that a gate lets go. One that has to wait is looked at again before all others.
    pub async fn next_by(&self, most: usize, gate: &dyn Gate) -> Option<Batch> {
        loop {
            let until = {
                let (mut lines, now) = (self.lines(), Instant::now());
                lines.wake(now);
                let batch = lines.batch(most, now, gate);
                if !batch.sent.is_empty() {
                    return Some(batch);
                }
                if lines.is_closed && lines.count == 0 {
                    return None;
                }
                lines.first_end(now)
            };
            let changed = self.changed.notified();
            match until {
                // Whichever is first.
                Some(until) => drop(timeout_at(until.into(), changed).await),
                None => changed.await,
            }
        }
    }
}

/// A call of kfsd's own, or in the name of a client.
fn own_call(line: u32, client: u32, body: Vec<u8>) -> (Call, oneshot::Receiver<Answer>) {
    let (to, answer) = oneshot::channel();
    let asker = Asker { to, frame: None };
    (Call { client, line, note: None, body, came: Instant::now(), number: None, bytes: None, asker }, answer)
}

fn never_sent(call: Call) {
    // Where the connection is gone nobody hears it.
    let _ = call.asker.to.send(Answer::NeverSent);
}

impl Lines {
    fn push(&mut self, call: Call) {
        let line = self.of.entry(call.line).or_default();
        if line.calls.is_empty() {
            self.turns.push_back(call.line);
        }
        line.calls.push_back(call);
        self.count += 1;
    }

    /// Whether another client was answered lately, beside whom this one has no more than a part of all.
    fn has_others(&self, client: u32, now: Instant) -> bool {
        let is_late = |other: &u32| self.accounts.get(other).map_or(false, |it| now.duration_since(it.last) < LATELY);
        self.last.iter().flatten().any(|other| *other != client && is_late(other))
    }

    /// How much of one client may be at `kfs_serve`.
    fn share(&self, client: u32, now: Instant) -> u64 {
        let share = if self.has_others(client, now) { SHARE } else { ALONE };
        share.max(self.waited)
    }

    /// Until when the next call of a client is held back; none where it isn't, or until an answer.
    fn rests_until(&self, client: u32, now: Instant) -> Option<Instant> {
        let is_long = || self.of.get(&client).and_then(|line| line.calls.front()).map_or(false, Call::is_long);
        let held = match self.holds.get(&client) {
            Some(Hold::Until(end)) if *end > now && is_long() => Some(*end),
            _ => None,
        };
        let is_one_of_some = client != FRONT && !self.is_closed && self.has_others(client, now);
        let spent = self.accounts.get(&client).filter(|_| is_one_of_some).and_then(|account| account.rests_until(now));
        held.max(spent)
    }

    /// Whether the next call of a client is held back.
    fn rests(&self, client: u32, now: Instant) -> bool {
        let is_long = || self.of.get(&client).and_then(|line| line.calls.front()).map_or(false, Call::is_long);
        let is_sent = matches!(self.holds.get(&client), Some(Hold::Sent)) && is_long();
        is_sent || self.rests_until(client, now).is_some()
    }

    /// Gives those a turn that rest no more.
    fn wake(&mut self, now: Instant) {
        let (still, awake) = std::mem::take(&mut self.resting).into_iter().partition(|client| self.rests(*client, now));
        self.resting = still;
        self.turns.extend::<Vec<u32>>(awake);
        self.holds.retain(|_, hold| !matches!(hold, Hold::Until(end) if *end <= now));
    }

    /// When the first of those that rest is due; none where an answer tells.
    fn first_end(&self, now: Instant) -> Option<Instant> {
        self.resting.iter().filter_map(|client| self.rests_until(*client, now)).min()
    }

    fn answered(&mut self, sent: &Sent, now: Instant) -> bool {
        self.sent = self.sent.saturating_sub(sent.cost);
        let client = sent.part.client;
        if let Some(account) = self.accounts.get_mut(&client) {
            account.sent = account.sent.saturating_sub(sent.cost);
            account.last = now;
        }
        if client != FRONT && self.last[0] != Some(client) {
            self.last = [Some(client), self.last[0]];
        }
        if self.full.remove(&client) {
            self.turns.push_back(client);
        }
        self.count > 0
    }

    fn measured(&mut self, parts: &[Part], worked: Duration, waited: Duration) {
        measured(&mut self.accounts, parts, worked, Instant::now());
        // Where the disk takes long, others wait for it anyway.
        let waited = u64::try_from(waited.as_nanos()).unwrap_or(MOST).min(MOST);
        self.waited = (self.waited * 7 + waited) / 8;
    }

    fn batch(&mut self, most: usize, now: Instant, gate: &dyn Gate) -> Batch {
        let mut batch = Batch::default();
        std::mem::take(&mut self.waiting).into_iter().rev().for_each(|client| self.turns.push_front(client));
        gate.begin();
        while let Some(call) = self.pop(most.saturating_sub(batch.bytes.len()), batch.sent.is_empty(), now, gate) {
            if let Some(number) = call.number {
                self.put_marker(&mut batch, &call, number);
            }
            self.put_call(&mut batch, call, now);
        }
        batch
    }

    /// Says which number the next call has.
    fn put_marker(&mut self, batch: &mut Batch, call: &Call, number: u64) {
        let marker = Marker::new(call.client, number, &call.body).bytes();
        let number = self.put(&mut batch.bytes, FRONT, &marker);
        batch.sent.push(Sent {
            number,
            client: FRONT,
            note: Note::Nothing,
            came: call.came,
            numbered: None,
            is_checkpoint: false,
            length: HEAD + MARKER,
            // The call behind it costs that, too.
            part: Part::free(call.line),
            cost: 0,
            asker: None,
        });
    }

    fn put_call(&mut self, batch: &mut Batch, call: Call, now: Instant) {
        let number = self.put(&mut batch.bytes, call.client, &call.body);
        let (is_checkpoint, part) = (call.is_alone(), call.part());
        let Call { client, body, note, came, number: numbered, asker, .. } = call;
        let account = self.accounts.entry(part.client).or_insert_with(|| Account::new(now));
        let cost = account.cost(&part);
        account.sent += cost;
        self.sent += cost;
        let note = note.unwrap_or_else(|| Note::of(&body));
        let length = HEAD + body.len();
        batch.sent.push(Sent { number, client, note, came, numbered, is_checkpoint, length, part, cost, asker: Some(asker) });
    }

    /// Puts a frame behind these bytes, and tells its number.
    fn put(&mut self, bytes: &mut Vec<u8>, from: u32, body: &[u8]) -> u32 {
        let number = self.next_number;
        self.next_number = number.wrapping_add(1);
        // Bodies have at most 16,777,216 bytes.
        bytes.extend_from_slice(&Head { length: body.len() as u32, number, from }.bytes());
        bytes.extend_from_slice(body);
        number
    }

    /// The next call, where there is one and it fits in so many bytes or is the first.
    fn pop(&mut self, room: usize, is_first: bool, now: Instant, gate: &dyn Gate) -> Option<Call> {
        if matches!(self.first.front(), Some(call) if is_first || !call.is_alone()) {
            self.count -= 1;
            return self.first.pop_front();
        }
        if !self.first.is_empty() {
            return None;
        }
        while self.sent < self.waited.max(WINDOW) {
            let client = *self.turns.front()?;
            match self.turn_of(client, room, is_first, now, gate)? {
                Turn::Call => {
                    let call = self.take(client)?;
                    if call.is_long() && !self.is_closed {
                        self.holds.insert(client, Hold::Sent);
                    }
                    return Some(call);
                }
                Turn::InVain => drop(self.take(client)),
                // Where the connection is gone nobody hears it.
                Turn::Refused => drop(self.take(client)?.asker.to.send(Answer::NoSpace)),
                Turn::Over => self.turns.rotate_left(1),
                Turn::Rests => {
                    self.turns.pop_front();
                    self.resting.push(client);
                }
                Turn::Full => {
                    self.turns.pop_front();
                    self.full.insert(client);
                }
                Turn::Waits => {
                    self.turns.pop_front();
                    self.waiting.push(client);
                }
            }
        }
        None
    }

    /// What becomes of the turn of a client; none where its call doesn't fit in so many bytes.
    fn turn_of(&mut self, client: u32, room: usize, is_first: bool, now: Instant, gate: &dyn Gate) -> Option<Turn> {
        let call = self.of.get(&client).and_then(|line| line.calls.front())?;
        if call.is_in_vain() {
            return Some(Turn::InVain);
        }
        let (part, is_too_long) = (call.part(), call.length() > room || call.is_alone());
        if self.rests(client, now) {
            return Some(Turn::Rests);
        }
        let account = self.accounts.get(&client).copied().unwrap_or_else(|| Account::new(now));
        let cost = account.cost(&part);
        if account.sent > 0 && account.sent + cost > self.share(client, now) {
            return Some(Turn::Full);
        }
        let is_only_one = self.turns.len() == 1;
        let line = self.of.get_mut(&client)?;
        if cost > line.credit && !is_only_one {
            line.credit += TURN;
            return Some(Turn::Over);
        }
        if is_too_long && !is_first {
            return None;
        }
        let ruling = line.calls.front().map(|call| gate.rule(call, call.frame_from(self.next_number)))?;
        if ruling == Ruling::Waits {
            return Some(Turn::Waits);
        }
        line.credit = line.credit.saturating_sub(cost);
        Some(if ruling == Ruling::Goes { Turn::Call } else { Turn::Refused })
    }

    /// Takes the next call of a client, whose turn it is.
    fn take(&mut self, client: u32) -> Option<Call> {
        let line = self.of.get_mut(&client)?;
        let call = line.calls.pop_front()?;
        if line.calls.is_empty() {
            self.of.remove(&client);
            self.turns.pop_front();
        }
        self.count -= 1;
        Some(call)
    }
}

#[cfg(test)]
mod tests;

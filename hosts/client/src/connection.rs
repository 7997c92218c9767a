//! A desk behind kfsd's Unix socket: frames out, replies in (docs/PROTOCOL.md, docs/KFSD.md).
//!
//! What kfsd tells besides is asked for at the connection: the moment, calls that are numbered, so that none is made twice, and
//! which leases others want. An older one tells none of it, and an older server has no look-ups.

use crate::desk::{Answer, Blocks, Desk, LeaseRefusal, Unanswered, Wanted, Wish};
use crate::ending::Ending;
use crate::line::{Door, Line};
use crate::locks::{HeldLocks, Lock, LockAnswer, LockHow};
use crate::node::ROOT;
use crate::replies::{
    answer_in, found_ahead, found_in, found_places, found_stamp, is_unwelcome, nonsense, reply_of, told_of, Reply, Row, Told,
    HELLO, MOMENT,
};
use crate::shown::{Ahead, FoundAhead, Stamp, Unshown};
use crate::wants::Wants;
use std::collections::hash_map::RandomState;
use std::collections::{HashMap, VecDeque};
use std::hash::{BuildHasher, Hasher};
use std::io;
use std::os::unix::io::RawFd;
use std::path::Path;
use std::thread::sleep;
use std::time::{Duration, Instant};
use thiserror::Error;

mod looking;

/// The tag before a number and a call that is made once under it.
const NUMBERED: u8 = 0xf2;
/// How long what isn't answered is asked again, where nothing else is said, and after which pause.
const AGAIN: Duration = Duration::from_secs(30);
const PAUSE: Duration = Duration::from_millis(50);
/// How long each answer to a hello is waited for, and how long where nobody has answered for long. Then it is tried once in a while.
const HELLO_TIME: Duration = Duration::from_secs(5);
const SHORT_HELLO: Duration = Duration::from_millis(500);
const WHILE: Duration = Duration::from_secs(2);
/// The look-ups of a node's header, of a name, of names, of bytes, and of the places of the tiers.
const NODE: u8 = 0x40;
const FIND: u8 = 0x43;
const NAMES: u8 = 0x44;
const READ: u8 = 0x45;
const PLACES: u8 = 0x46;
/// The look-up of a node's header, with what kfsd keeps of the node.
const STAMPED: u8 = 0xf6;
/// The call that sets the marks of a node. The first of them is that of a directory that gives its group.
const MARKS: u8 = 0xf8;
/// The most bytes that a look-up finds, and how many a name takes at most.
const FOUND_LIMIT: usize = 65_536;
const NAME_ROOM: usize = 260;
/// How many look-ups for bytes are under way at once.
const AT_ONCE: usize = 8;
/// How many calls for leases are. kfsd takes 64 frames of a connection.
const LEASES_AT_ONCE: usize = 32;
/// How many look-ups that nobody waits for are under way at most, beside those.
const AHEAD_AT_ONCE: usize = 24;
/// A frame of more bytes is sent only when no such look-up is under way: kfsd may wait with reading it until their replies are
/// read.
const SHORT_FRAME: usize = 4096;
/// The tags of calls for a lease.
const LEASE_BY_PATH: u8 = 2;
const LEASE_BY_NUMBER: u8 = 6;
/// Why there is no connection.
#[derive(Debug, Error)]
pub enum Unconnected {
    /// The socket can't be reached.
    #[error("the socket can't be reached: {0}")]
    Socket(#[from] io::Error),
    /// kfsd doesn't know this user.
    #[error("this user isn't listed")]
    Unlisted,
    /// The user has as many connections as it may.
    #[error("this user has too many connections")]
    TooMany,
    /// The user is listed, and the desk was made without it.
    #[error("the desk has no client for this user")]
    NoClient,
    /// The user is this client and no other one, or has another grant by now.
    #[error("this user is another client{}", .0.map_or_else(String::new, |client| format!(": {client}")))]
    Another(Option<u32>),
    /// What came is no answer.
    #[error("no answer to a hello")]
    Nonsense,
}

/// The moment that kfsd has told. It is a second of its clock.
#[derive(Clone, Copy, Debug)]
pub(crate) struct Clock {
    moment: u64,
    /// Before the question: the answer may have been under way for long, and kfsd's clock has gone on since it was given.
    asked_at: Instant,
    /// For how long a lease may live at most.
    longest: u64,
}

/// A connection to kfsd. Where it breaks, the next call connects anew.
#[derive(Debug)]
pub struct Connection {
    door: Door,
    /// The door of the connection on which it is told what others want.
    side_door: Door,
    pub(crate) line: Option<Line>,
    pub(crate) client: u32,
    /// Whether it is known which client this is.
    is_told: bool,
    grant: [u32; 2],
    pub(crate) number: u32,
    /// None where kfsd tells no moment, and takes no numbered calls.
    pub(crate) clock: Option<Clock>,
    /// The number of the next numbered call. Its upper half is random, so that other processes of the user have others.
    next_call: u64,
    wants: Option<Wants>,
    /// How long calls wait where kfsd isn't there, all together.
    again: Duration,
    /// Since when nothing was answered, and when it was last tried to connect where that is long ago.
    away: Option<Instant>,
    tried: Option<Instant>,
    ending: Ending,
    /// The look-ups that were asked for ahead, and what has come of others.
    ahead: VecDeque<AskedAhead>,
    told: Vec<(u64, FoundAhead)>,
    /// Who the client is, where kfsd tells it.
    row: Option<Row>,
    /// Whether kfsd tells stamps of nodes, and those that it has told.
    has_stamps: bool,
    stamps: HashMap<u32, Stamp>,
    /// The locks that are set again where the connection ends.
    pub(crate) locks: HeldLocks,
}

/// A look-up that was asked for ahead.
#[derive(Clone, Copy, Debug)]
struct AskedAhead {
    /// The number of its frame.
    frame: u32,
    /// Its number for who asks.
    serial: u64,
    ahead: Ahead,
}

impl Connection {
    /// Connects to the socket as the client of this number, and asks for its grant. kfsd says a word to no other number.
    pub fn open(path: &Path, client: u32) -> Result<Connection, Unconnected> {
        Connection::open_by(path, Some(client))
    }

    /// Connects as the client that this user is, by what kfsd tells.
    pub fn open_as_told(path: &Path) -> Result<Connection, Unconnected> {
        Connection::open_by(path, None)
    }

    fn open_by(path: &Path, client: Option<u32>) -> Result<Connection, Unconnected> {
        let random = RandomState::new().build_hasher().finish();
        let mut connection = Connection {
            door: Door::new(path),
            side_door: Door::new(path),
            line: None,
            client: client.unwrap_or(0),
            is_told: client.is_some(),
            grant: [0, 0],
            number: 0,
            clock: None,
            next_call: random & !u64::from(u32::MAX),
            wants: None,
            again: AGAIN,
            away: None,
            tried: None,
            ending: Ending::default(),
            ahead: VecDeque::new(),
            told: Vec::new(),
            row: None,
            has_stamps: false,
            stamps: HashMap::new(),
            locks: HeldLocks::default(),
        };
        connection.grant = connection.hello()?;
        Ok(connection)
    }

    /// The number by which the server knows the client.
    pub fn client(&self) -> u32 {
        self.client
    }

    /// The first and the last number that the client may give to new nodes.
    pub fn grant(&self) -> [u32; 2] {
        self.grant
    }

    /// Who the client is at the server. An earlier kfsd doesn't tell it.
    pub fn row(&self) -> Option<&Row> {
        self.row.as_ref()
    }

    /// What isn't answered is asked again for so long, where that does no harm: 30 seconds, unless it is set. Where nobody has
    /// answered for so long each call fails at once, until somebody does.
    pub fn set_again(&mut self, again: Duration) {
        self.again = again;
        self.break_off();
    }

    /// Calls wait no longer than this lets them.
    pub fn set_ending(&mut self, ending: Ending) {
        self.ending = ending;
        self.break_off();
    }

    /// Nothing was answered. Whether to ask again, behind a pause.
    fn asks_again(&mut self) -> bool {
        let since = *self.away.get_or_insert_with(Instant::now);
        let goes_on = since.elapsed() < self.again && !self.ending.has_begun();
        if goes_on {
            sleep(PAUSE);
        }
        goes_on
    }

    /// Closes the connection. The next call connects anew.
    pub fn break_off(&mut self) {
        self.line = None;
        // Who wants what was asked for ahead asks for it anew.
        self.told.extend(self.ahead.drain(..).map(|asked| (asked.serial, FoundAhead::Nothing)));
    }

    fn hello(&mut self) -> Result<[u32; 2], Unconnected> {
        let time = if self.away.is_some() { SHORT_HELLO } else { HELLO_TIME };
        let mut line = Line::new(self.door.connect()?, self.again.min(time), self.ending.clone())?;
        let grant = match exchange(&mut line, self.number, self.client, &[HELLO])? {
            Some(Reply::Welcome(client, grant, row)) if client == self.client || !self.is_told => {
                (self.client, self.is_told, self.row) = (client, true, row);
                grant
            }
            Some(Reply::Welcome(client, ..)) => return Err(Unconnected::Another(Some(client))),
            Some(Reply::Refused(5)) => return Err(Unconnected::Another(None)),
            Some(Reply::Refused(130)) => return Err(Unconnected::Unlisted),
            Some(Reply::Refused(131)) => return Err(Unconnected::TooMany),
            Some(Reply::Refused(136)) => return Err(Unconnected::NoClient),
            _ => return Err(Unconnected::Nonsense),
        };
        self.set_locks_again(&mut line)?;
        let asked_at = Instant::now();
        self.clock = match exchange(&mut line, self.number, self.client, &[MOMENT])? {
            Some(Reply::Moment(moment, longest)) => Some(Clock { moment, asked_at, longest }),
            _ => None,
        };
        let root = exchange(&mut line, self.number, self.client, &look_up_body(STAMPED, ROOT))?;
        self.has_stamps = matches!(&root, Some(Reply::Found(found)) if found_stamp(found).is_some());
        if let Some(Reply::Found(found)) = root {
            self.note_stamp(ROOT, &found);
        }
        self.wants = match self.clock {
            Some(_) => Some(Wants::ask(&mut self.side_door, self.client)?),
            None => None,
        };
        line.set_patience(self.again);
        self.line = Some(line);
        Ok(grant)
    }

    /// Connects anew, where the connection is gone.
    pub(crate) fn connect(&mut self) -> io::Result<()> {
        if self.line.is_none() {
            let is_long = self.away.map_or(false, |since| since.elapsed() >= self.again);
            if is_long && self.tried.map_or(false, |tried| tried.elapsed() < WHILE) {
                return Err(io::ErrorKind::TimedOut.into());
            }
            self.tried = Some(Instant::now()).filter(|_| is_long);
            let told = self.hello().map_err(|fault| io::Error::new(io::ErrorKind::NotConnected, fault))?;
            if told != self.grant {
                self.break_off();
                return Err(io::Error::new(io::ErrorKind::NotConnected, Unconnected::Another(None)));
            }
        }
        Ok(())
    }

    fn line(&mut self) -> io::Result<&mut Line> {
        self.line.as_mut().ok_or_else(|| io::ErrorKind::NotConnected.into())
    }

    /// Sends a frame, and waits for its reply.
    fn ask(&mut self, body: &[u8]) -> Result<Reply, Unshown> {
        let since = Instant::now();
        let told = self.exchange_all(std::slice::from_ref(&body));
        if told.is_err() {
            self.away.get_or_insert(since);
            self.break_off();
        }
        let reply = told?.pop().flatten().ok_or_else(|| nonsense(body))?;
        if reply != Reply::Refused(128) {
            self.away = None;
        }
        Ok(reply)
    }

    /// Sends frames at once, and waits for the replies to all.
    fn ask_all(&mut self, bodies: &[Vec<u8>]) -> Result<Vec<Reply>, Unshown> {
        let told = self.exchange_all(bodies);
        if told.is_err() {
            self.break_off();
        }
        bodies.iter().zip(told?).map(|(body, reply)| reply.ok_or_else(|| nonsense(body))).collect()
    }

    /// Sends frames, and reads their replies. None where that is no reply.
    fn exchange_all<T: AsRef<[u8]>>(&mut self, bodies: &[T]) -> io::Result<Vec<Option<Reply>>> {
        self.connect()?;
        let first = self.number.wrapping_add(1);
        self.number = self.number.wrapping_add(bodies.len() as u32);
        let numbers = (0..bodies.len() as u32).map(|at| first.wrapping_add(at));
        let client = self.client;
        let mut frames = Vec::new();
        for (body, number) in bodies.iter().zip(numbers.clone()) {
            put_frame(&mut frames, number, client, body.as_ref());
        }
        if frames.len() > SHORT_FRAME {
            self.settle()?;
        }
        // Where kfsd refuses the connection it has said so before it closed: that can be read still.
        let sent = self.line()?.send(&frames);
        let is_soon = bodies.first().map_or(false, |body| is_soon(body.as_ref()));
        let mut replies = Vec::with_capacity(bodies.len());
        for number in numbers {
            let said = self.receive(number, is_soon)?;
            if !is_unwelcome(&said) {
                sent.as_ref().map_err(|fault| io::Error::from(fault.kind()))?;
            }
            replies.push(reply_of(&said));
        }
        Ok(replies)
    }

    /// Reads the reply to a frame, behind those to look-ups that were asked for ahead of it.
    fn receive(&mut self, number: u32, is_soon: bool) -> io::Result<Vec<u8>> {
        loop {
            let (replied, said) = self.line()?.next(is_soon)?;
            if replied == number || is_unwelcome(&said) {
                return Ok(said);
            }
            self.take_ahead(replied, &said, number)?;
        }
    }

    /// Takes the reply to the look-up that was asked for first of those that are ahead.
    fn take_ahead(&mut self, replied: u32, said: &[u8], number: u32) -> io::Result<()> {
        match self.ahead.pop_front() {
            Some(first) if first.frame == replied => {
                let found = found_ahead(said);
                if let (Ahead::Header(number), FoundAhead::Header(_)) = (first.ahead, &found) {
                    self.note_stamp(number, &said[1..]);
                }
                self.told.push((first.serial, found));
                Ok(())
            }
            first => {
                self.ahead.extend(first);
                let text = format!("the reply to frame {replied}, and not {number}");
                Err(io::Error::new(io::ErrorKind::InvalidData, text))
            }
        }
    }

    /// Waits for what was asked for ahead, down to so many.
    fn settle_to(&mut self, left: usize) -> io::Result<()> {
        while self.ahead.len() > left {
            let (replied, said) = self.line()?.next(true)?;
            self.take_ahead(replied, &said, 0)?;
        }
        Ok(())
    }

    fn settle(&mut self) -> io::Result<()> {
        self.settle_to(0)
    }

    /// The same of what may be asked twice: again and again, where the server or the connection has ended meanwhile.
    pub(crate) fn ask_again(&mut self, body: &[u8]) -> Result<Reply, Unshown> {
        loop {
            match self.ask(body) {
                Ok(Reply::Refused(128)) | Err(Unshown::Gone(_)) if self.asks_again() => {}
                told => return told,
            }
        }
    }

    /// The answer to a call.
    fn call(&mut self, body: &[u8]) -> Result<Told, Unanswered> {
        let reply = self.ask(body)?;
        answer_in(reply, body)
    }

    /// Makes a call once, and hands it in again until it is known how it ended; where kfsd takes no numbered calls, at once.
    fn call_once(&mut self, body: &[u8]) -> Result<Told, Unanswered> {
        if self.clock.is_none() {
            return self.call(body);
        }
        self.next_call = self.next_call.wrapping_add(1);
        let mut numbered = vec![NUMBERED];
        numbered.extend_from_slice(&self.next_call.to_be_bytes());
        numbered.extend_from_slice(body);
        let mut is_made = false;
        loop {
            // Who connects anew may have lost a lock under which the log was written.
            let _gone = self.connect();
            if !self.locks.unwritten().is_empty() {
                return Err(if is_made { Unanswered::Unknown } else { Unanswered::Stopping });
            }
            is_made = true;
            match self.call(&numbered) {
                Err(Unanswered::Unknown | Unanswered::Gone(Unshown::Gone(_))) if self.asks_again() => {}
                told => return told,
            }
        }
    }

    fn call_for_lease(&mut self, body: &[u8], number: u32) -> Result<Result<(), LeaseRefusal>, Unanswered> {
        let reply = self.ask_again(body)?;
        match answer_in(reply, body)? {
            Told::TooFar => Ok(Err(LeaseRefusal::TooFar)),
            Told::Wanted => Ok(Err(LeaseRefusal::Wanted)),
            Told::Leased(found) if found == number => Ok(Ok(())),
            Told::Leased(found) => Ok(Err(LeaseRefusal::Elsewhere(found))),
            Told::Unleased(refusal) => Ok(Err(refusal)),
            Told::Of(_) => Err(nonsense(body).into()),
        }
    }
}

/// Puts the bytes of a frame behind others.
fn put_frame(out: &mut Vec<u8>, number: u32, client: u32, body: &[u8]) {
    out.reserve(12 + body.len());
    // A body has at most 2 MiB: a log, and its plan.
    for word in [body.len() as u32, number, client] {
        out.extend_from_slice(&word.to_be_bytes());
    }
    out.extend_from_slice(body);
}

/// Sends a frame, and reads its reply. None where that is no reply.
pub(crate) fn exchange(line: &mut Line, number: u32, client: u32, body: &[u8]) -> io::Result<Option<Reply>> {
    // Where kfsd refuses the connection it has said so before it closed: that can be read still.
    let mut frame = Vec::new();
    put_frame(&mut frame, number, client, body);
    let sent = line.send(&frame);
    let (replied, said) = line.next(false)?;
    let reply = reply_of(&said);
    if is_unwelcome(&said) {
        return Ok(reply);
    }
    sent?;
    if replied != number {
        return Err(io::Error::new(io::ErrorKind::InvalidData, format!("the reply to frame {replied}, and not {number}")));
    }
    Ok(reply)
}

/// Whether the answer is due soon: nothing has to be kept before.
fn is_soon(body: &[u8]) -> bool {
    matches!(body.first(), Some(&(NODE..=PLACES | STAMPED)))
}

impl Connection {
    /// The body of the look-up of a node, with its stamp where kfsd tells one.
    fn node_body(&self, number: u32) -> Vec<u8> {
        look_up_body(if self.has_stamps { STAMPED } else { NODE }, number)
    }

    /// Keeps the stamp in what the look-up of a node has found.
    fn note_stamp(&mut self, number: u32, found: &[u8]) {
        match found_stamp(found).filter(|_| self.has_stamps) {
            Some(stamp) => self.stamps.insert(number, stamp),
            None => self.stamps.remove(&number),
        };
    }

    /// What a look-up finds; none where there is no such node, or it is one of the other kind.
    fn look_up(&mut self, body: &[u8]) -> Result<Option<Vec<u8>>, Unshown> {
        match self.ask_again(body)? {
            reply @ Reply::Found(_) => found_in(reply),
            Reply::Refused(3) => Err(Unshown::NoSuchLookUp),
            Reply::Refused(1 | 5) => Err(Unshown::NotAllowed),
            _ => Err(nonsense(body)),
        }
    }
}

/// The first fields of a call for a lease, by path or by number.
fn lease_head(tag: u8, client: u32, wanted: &Wanted) -> Vec<u8> {
    let mut body = vec![tag];
    body.extend_from_slice(&client.to_be_bytes());
    body.push(wanted.kind as u8);
    body.extend_from_slice(&wanted.end.to_be_bytes());
    body
}

/// The body that asks for a lease by number.
fn lease_body(client: u32, wanted: &Wanted) -> Vec<u8> {
    let mut body = lease_head(LEASE_BY_NUMBER, client, wanted);
    body.extend_from_slice(&wanted.number.to_be_bytes());
    body
}

/// The body that gives a lease up.
fn drop_body(client: u32, number: u32) -> Vec<u8> {
    let mut body = vec![3];
    body.extend_from_slice(&client.to_be_bytes());
    body.extend_from_slice(&number.to_be_bytes());
    body
}

/// The body that reads so many bytes, so many look-ups behind a place.
fn read_body(number: u32, from: u64, look_ups: u64, count: usize) -> Vec<u8> {
    let mut body = look_up_body(READ, number);
    body.extend_from_slice(&from.saturating_add(look_ups * FOUND_LIMIT as u64).to_be_bytes());
    body.extend_from_slice(&(count as u32).to_be_bytes());
    body
}

/// The body of a look-up of a node.
fn look_up_body(tag: u8, number: u32) -> Vec<u8> {
    let mut body = vec![tag];
    body.extend_from_slice(&number.to_be_bytes());
    body
}

impl Desk for Connection {
    /// By number, and where that isn't permitted by path, which asks for no permission on the node itself.
    fn lease(&mut self, wanted: &Wanted) -> Result<Result<(), LeaseRefusal>, Unanswered> {
        let answer = self.call_for_lease(&lease_body(self.client, wanted), wanted.number)?;
        let path = match (answer, &wanted.path) {
            (Err(LeaseRefusal::NotAllowed), Some(path)) if path.len() <= usize::from(u16::MAX) => path,
            _ => return Ok(answer),
        };
        let mut body = lease_head(LEASE_BY_PATH, self.client, wanted);
        body.extend_from_slice(&(path.len() as u16).to_be_bytes());
        body.extend_from_slice(path);
        self.call_for_lease(&body, wanted.number)
    }

    /// They are asked for one behind another, without waiting. What isn't granted so is asked for singly.
    fn leases(&mut self, wanted: &[Wanted]) -> Result<Vec<Result<(), LeaseRefusal>>, Unanswered> {
        let mut answers = Vec::with_capacity(wanted.len());
        for some in wanted.chunks(LEASES_AT_ONCE) {
            let bodies: Vec<_> = some.iter().map(|one| lease_body(self.client, one)).collect();
            let mut replies = self.ask_all(&bodies).unwrap_or_default().into_iter();
            for one in some {
                let is_granted =
                    matches!(replies.next(), Some(Reply::Answered(bytes)) if told_of(&bytes) == Some(Told::Leased(one.number)));
                answers.push(if is_granted { Ok(()) } else { self.lease(one)? });
            }
        }
        Ok(answers)
    }

    /// They are given up one behind another, without waiting. What isn't answered so is given up singly.
    fn drop_leases(&mut self, numbers: &[u32]) -> Result<(), Unanswered> {
        for some in numbers.chunks(LEASES_AT_ONCE) {
            let bodies: Vec<_> = some.iter().map(|number| drop_body(self.client, *number)).collect();
            let mut replies = self.ask_all(&bodies).unwrap_or_default().into_iter();
            for number in some {
                if !matches!(replies.next(), Some(Reply::Answered(_))) {
                    let _none_held = self.drop_lease(*number)?;
                }
            }
        }
        Ok(())
    }

    fn drop_lease(&mut self, number: u32) -> Result<Result<(), LeaseRefusal>, Unanswered> {
        let body = drop_body(self.client, number);
        let reply = self.ask_again(&body)?;
        match answer_in(reply, &body)? {
            Told::Leased(_) => Ok(Ok(())),
            Told::Unleased(refusal) => Ok(Err(refusal)),
            _ => Err(nonsense(&body).into()),
        }
    }

    fn submit(&mut self, log: &[u8], plan: &[u8]) -> Result<Answer, Unanswered> {
        let mut body = Vec::with_capacity(13 + log.len() + plan.len());
        body.push(1);
        body.extend_from_slice(&self.client.to_be_bytes());
        for bytes in [log, plan] {
            body.extend_from_slice(&(bytes.len() as u32).to_be_bytes());
            body.extend_from_slice(bytes);
        }
        match self.call_once(&body)? {
            Told::Of(answer) => Ok(answer),
            _ => Err(nonsense(&body).into()),
        }
    }

    fn set_gives_group(&mut self, number: u32, gives: bool) -> Result<bool, Unanswered> {
        if !self.has_stamps {
            return Ok(false);
        }
        let mut body = look_up_body(MARKS, number);
        body.push(u8::from(gives));
        // To set them twice does no harm.
        let is_set = match self.ask_again(&body)? {
            Reply::Marked(1) => true,
            Reply::Marked(_) => false,
            reply => return answer_in(reply, &body).map(|_| false),
        };
        if let Some(stamp) = self.stamps.get_mut(&number).filter(|_| is_set) {
            stamp.gives_group = gives;
        }
        Ok(is_set)
    }

    fn last_call(&self) -> Option<u64> {
        self.clock.map(|_| self.next_call)
    }

    fn was_done(&mut self, call: u64) -> Result<bool, Unanswered> {
        let body = [&[NUMBERED][..], &call.to_be_bytes()].concat();
        loop {
            match self.ask_again(&body)? {
                // It is under way.
                Reply::Refused(133) if self.asks_again() => {}
                Reply::Refused(134) => return Ok(false),
                reply => return Ok(answer_in(reply, &body)? == Told::Of(Answer::Yes)),
            }
        }
    }

    /// A second of kfsd's clock, or a later one: later by at most two, and the time that kfsd took to tell it. 0 where it tells
    /// none.
    fn moment(&mut self) -> Result<u64, Unanswered> {
        Ok(self.clock.map_or(0, |clock| clock.moment + clock.asked_at.elapsed().as_secs() + 1))
    }

    fn blocks(&mut self) -> Result<Option<Blocks>, Unanswered> {
        let found = match self.look_up(&[PLACES]) {
            Ok(found) => found.unwrap_or_default(),
            Err(Unshown::NoSuchLookUp) => return Ok(None),
            Err(fault) => return Err(fault.into()),
        };
        found_places(&found).map(Some).ok_or_else(|| nonsense(&[PLACES]).into())
    }

    fn wait_for_news(&mut self, most: Duration) {
        match &self.wants {
            Some(wants) => wants.wait(most),
            None => sleep(most),
        }
    }

    fn news(&self) -> Option<RawFd> {
        self.wants.as_ref().and_then(Wants::news)
    }

    fn is_ending(&self) -> bool {
        self.ending.has_begun()
    }

    fn longest_term(&self) -> u64 {
        match self.clock {
            // One moment less, since this client's may be ahead of kfsd's.
            Some(clock) if clock.longest > 0 => clock.longest.saturating_sub(2).max(1),
            _ => u64::MAX,
        }
    }

    /// Where the connection has ended, so that nobody would be told any more, there is a new one as soon as kfsd takes it.
    fn wanted_by_others(&mut self) -> Result<Vec<Wish>, Unanswered> {
        self.keep_locks();
        let Connection { wants, side_door, .. } = self;
        Ok(wants.as_mut().map_or_else(Vec::new, |wants| {
            let told = wants.told();
            // Where there is no kfsd now, this is asked again.
            let _no_kfsd = wants.ask_again(side_door);
            told
        }))
    }

    fn has_locks(&mut self) -> bool {
        self.knows_locks()
    }

    fn lock(&mut self, lock: &Lock, how: LockHow) -> Result<Option<LockAnswer>, Unanswered> {
        self.ask_lock(lock, how)
    }

    fn held_locks(&mut self) -> Option<&mut HeldLocks> {
        Some(&mut self.locks)
    }

    fn freed_locks(&mut self) -> Vec<u32> {
        self.wants.as_mut().map_or_else(Vec::new, Wants::take_freed)
    }
}

//! Replies of a connection, one behind another.

use crate::ending::Ending;
use crate::looks::Looks;
use nix::errno::Errno;
use nix::poll::{poll, PollFd, PollFlags};
use std::io::{self, ErrorKind, Read, Write};
use std::os::unix::io::AsRawFd;
use std::os::unix::net::UnixStream;
use std::path::{Path, PathBuf};
use std::sync::mpsc::{channel, Receiver};
use std::thread;
use std::time::{Duration, Instant};

/// The most bytes of a reply behind its head.
const REPLY_LIMIT: u32 = 1 << 24;
const HEAD: usize = 8;
/// How many bytes are read at once at least.
const ROOM: usize = 1 << 17;
/// How often it is looked whether who waits is about to end.
const PAUSE: Duration = Duration::from_millis(100);
/// For how long a reply is looked for before it is waited for asleep. A look-up takes less where there is no other work.
const LONGEST_LOOK: Duration = Duration::from_micros(60);

/// A connection, and what has come over it.
#[derive(Debug)]
pub(crate) struct Line {
    stream: UnixStream,
    /// How long the other end may take until it reads or writes something.
    patience: Duration,
    ending: Ending,
    bytes: Vec<u8>,
    /// Which of these bytes wait.
    from: usize,
    until: usize,
    looks: Looks,
}

/// How long a connection is waited for. It is waited for again by the next call.
const CONNECTING: Duration = Duration::from_secs(1);

/// A socket to which connections are made. The kernel has whoever connects wait while the other end takes none, without an end:
/// so a thread waits.
#[derive(Debug)]
pub(crate) struct Door {
    path: PathBuf,
    pending: Option<Receiver<io::Result<UnixStream>>>,
}

impl Door {
    pub fn new(path: &Path) -> Door {
        Door { path: path.into(), pending: None }
    }

    /// A new connection.
    pub fn connect(&mut self) -> io::Result<UnixStream> {
        let pending = match self.pending.take() {
            Some(pending) => pending,
            None => {
                let ((to, from), path) = (channel(), self.path.clone());
                // Where nobody waits any more it closes.
                thread::Builder::new().spawn(move || drop(to.send(UnixStream::connect(path))))?;
                from
            }
        };
        match pending.recv_timeout(CONNECTING) {
            Ok(connected) => connected,
            Err(_) => {
                self.pending = Some(pending);
                Err(ErrorKind::TimedOut.into())
            }
        }
    }
}

impl Line {
    pub fn new(stream: UnixStream, patience: Duration, ending: Ending) -> io::Result<Line> {
        stream.set_read_timeout(Some(PAUSE))?;
        stream.set_write_timeout(Some(PAUSE))?;
        Ok(Line { stream, patience, ending, bytes: vec![0; ROOM], from: 0, until: 0, looks: Looks::new(LONGEST_LOOK) })
    }

    /// The other end may take so long from now on.
    pub fn set_patience(&mut self, patience: Duration) {
        self.patience = patience;
    }

    /// Sends bytes.
    pub fn send(&mut self, mut bytes: &[u8]) -> io::Result<()> {
        let since = Instant::now();
        while !bytes.is_empty() {
            match self.stream.write(bytes) {
                Ok(count) => bytes = &bytes[count..],
                Err(fault) => self.wait_on(fault, since)?,
            }
        }
        Ok(())
    }

    /// Whether to wait on behind a read or write that has come to nothing.
    fn wait_on(&self, fault: io::Error, since: Instant) -> io::Result<()> {
        match fault.kind() {
            ErrorKind::Interrupted => Ok(()),
            ErrorKind::WouldBlock | ErrorKind::TimedOut if since.elapsed() < self.patience && !self.ending.is_over() => Ok(()),
            ErrorKind::WouldBlock => Err(ErrorKind::TimedOut.into()),
            _ => Err(fault),
        }
    }

    /// Waits for the next reply, which may be due soon. Returns the number of its frame, and what it says.
    pub fn next(&mut self, is_soon: bool) -> io::Result<(u32, Vec<u8>)> {
        if let Some(reply) = self.whole()? {
            return Ok(reply);
        }
        self.looks.begin();
        loop {
            while is_soon && self.looks.goes_on() && !self.has_more()? {}
            self.fill()?;
            if let Some(reply) = self.whole()? {
                if is_soon {
                    self.looks.found();
                }
                return Ok(reply);
            }
        }
    }

    /// Whether the other end has closed, where nothing was asked: else there is a reply to read first.
    pub fn is_ended(&mut self) -> bool {
        match self.has_more() {
            Ok(false) => false,
            Ok(true) => self.fill().is_err(),
            Err(_) => true,
        }
    }

    /// The next reply, if it has come.
    pub fn next_if_there(&mut self) -> io::Result<Option<(u32, Vec<u8>)>> {
        loop {
            if let Some(reply) = self.whole()? {
                return Ok(Some(reply));
            }
            if !self.has_more()? {
                return Ok(None);
            }
            self.fill()?;
        }
    }

    /// The first reply of the bytes, if they have all of it.
    fn whole(&mut self) -> io::Result<Option<(u32, Vec<u8>)>> {
        let waiting = &self.bytes[self.from..self.until];
        let head = match waiting.get(..HEAD) {
            Some(head) => head,
            None => return Ok(None),
        };
        let word = |at: usize| u32::from_be_bytes([head[at], head[at + 1], head[at + 2], head[at + 3]]);
        let (length, number) = (word(0), word(4));
        if length == 0 || length > REPLY_LIMIT {
            return Err(io::Error::new(ErrorKind::InvalidData, format!("a reply of {length} bytes")));
        }
        let end = HEAD + length as usize;
        let said = waiting.get(HEAD..end).map(<[u8]>::to_vec);
        if said.is_some() {
            self.from += end;
        }
        Ok(said.map(|said| (number, said)))
    }

    /// Whether there is something to read, or the connection has ended.
    fn has_more(&self) -> io::Result<bool> {
        match poll(&mut [PollFd::new(self.stream.as_raw_fd(), PollFlags::POLLIN)], 0) {
            Ok(count) => Ok(count > 0),
            Err(Errno::EINTR) => Ok(false),
            Err(errno) => Err(errno.into()),
        }
    }

    /// Reads what is there, and waits where nothing is.
    fn fill(&mut self) -> io::Result<()> {
        if self.from > 0 {
            self.bytes.copy_within(self.from..self.until, 0);
            (self.from, self.until) = (0, self.until - self.from);
        }
        if self.bytes.len() - self.until < ROOM / 2 {
            self.bytes.resize(self.bytes.len() + ROOM, 0);
        }
        let since = Instant::now();
        loop {
            match self.stream.read(&mut self.bytes[self.until..]) {
                Ok(0) => return Err(ErrorKind::UnexpectedEof.into()),
                Ok(count) => {
                    self.until += count;
                    return Ok(());
                }
                Err(fault) => self.wait_on(fault, since)?,
            }
        }
    }
}

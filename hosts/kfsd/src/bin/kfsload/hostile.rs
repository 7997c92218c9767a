//! Clients that would harm others, as fast as one process can. What they send stands in a file; here is how they send it.

use crate::User;
use anyhow::{Context, Result};
use clap::ValueEnum;
use nix::unistd::{setgid, setuid, Gid, Uid};
use std::path::{Path, PathBuf};
use std::sync::Arc;
use std::thread;
use std::time::{Duration, Instant};
use tokio::io::{AsyncReadExt, AsyncWriteExt};
use tokio::net::UnixStream;
use tokio::time::{sleep, timeout_at};

/// Where the file has these bytes, there stand the hexadecimal digits of a count, and those of the count before it. Each
/// time that the file's bytes are sent the count is the next one, and no two connections come to the same one.
const NEXT: &[u8; DIGITS] = b"<<next>>";
const LAST: &[u8; DIGITS] = b"<<last>>";
const DIGITS: usize = 8;
/// How many counts a connection has, as a power of two.
const COUNTS: u32 = 22;
/// Short files are sent several times in one write, since else the calls of the system would be the bottleneck.
const AT_ONCE: usize = 1 << 16;
/// How long a connection rests that was ended or not taken.
const REST: Duration = Duration::from_millis(1);
/// How long a slow one waits before the next byte.
const SLOW: Duration = Duration::from_millis(200);
/// How many threads connect. While one of them waits in the kernel's line the others go on.
const OPENERS: usize = 4;

#[derive(Clone, Copy, Debug, PartialEq, Eq, ValueEnum)]
pub enum Kind {
    /// Sends the file again and again, and forgets what comes.
    Flood,
    /// Sends it again and again, and never reads.
    Unread,
    /// Sends it, and closes while the replies come.
    Reset,
    /// Connects, sends it and closes.
    Open,
    /// Sends a byte of it now and then.
    Slow,
    /// Sends it once, and keeps the connection.
    Idle,
}

/// What is sent: a file's bytes, several times where they are few, and where the counts stand in them.
#[derive(Clone, Debug)]
struct Frames {
    bytes: Arc<Vec<u8>>,
    length: usize,
    next: Vec<usize>,
    last: Vec<usize>,
}

impl Frames {
    fn of(file: &[u8]) -> Frames {
        let copies = (AT_ONCE / file.len().max(1)).max(1);
        Frames {
            bytes: Arc::new(file.repeat(copies)),
            length: file.len(),
            next: places_of(NEXT, file),
            last: places_of(LAST, file),
        }
    }

    /// Puts the next counts in, where there are places for them.
    fn renew(&mut self, count: &mut u32) {
        if self.next.is_empty() {
            return;
        }
        // Each connection has its own bytes then.
        for copy in Arc::make_mut(&mut self.bytes).chunks_mut(self.length) {
            let last = format!("{count:08x}");
            *count = count.wrapping_add(1);
            put(copy, &self.last, last.as_bytes());
            put(copy, &self.next, format!("{count:08x}").as_bytes());
        }
    }
}

fn places_of(word: &[u8], bytes: &[u8]) -> Vec<usize> {
    bytes.windows(word.len()).enumerate().filter(|(_, found)| *found == word).map(|(at, _)| at).collect()
}

fn put(bytes: &mut [u8], places: &[usize], word: &[u8]) {
    for place in places {
        if let Some(there) = bytes.get_mut(*place..*place + word.len()) {
            there.copy_from_slice(word);
        }
    }
}

/// Harms until the end, as the user, with so many connections. Counts begin with `first`.
pub async fn run(kind: Kind, socket: &Path, user: User, file: &[u8], connections: u32, first: u32, end: Instant) -> Result<()> {
    become_user(user)?;
    if kind == Kind::Open {
        return open_and_close(socket, file, end);
    }
    let frames = Frames::of(file);
    let running: Vec<_> = (0..connections)
        .map(|at| tokio::spawn(connection(kind, socket.to_path_buf(), frames.clone(), first.wrapping_add(at << COUNTS), end)))
        .collect();
    for one in running {
        one.await?;
    }
    Ok(())
}

/// Becomes the user for good, so that its threads needn't take turns.
pub fn become_user(user: User) -> Result<()> {
    setgid(Gid::from_raw(user.gid))?;
    setuid(Uid::from_raw(user.uid)).context("the user")
}

/// A connection, and another one where it was ended.
async fn connection(kind: Kind, socket: PathBuf, mut frames: Frames, mut count: u32, end: Instant) {
    while Instant::now() < end {
        if let Ok(stream) = UnixStream::connect(&socket).await {
            // Where it is ended, it is begun anew.
            let _ = timeout_at(end.into(), harm(kind, stream, &mut frames, &mut count)).await;
            if kind == Kind::Reset {
                // It ended as it was to, and the next one follows at once.
                continue;
            }
        }
        sleep(REST).await;
    }
}

async fn harm(kind: Kind, stream: UnixStream, frames: &mut Frames, count: &mut u32) -> Result<()> {
    let (mut from, mut to) = stream.into_split();
    match kind {
        Kind::Unread => loop {
            frames.renew(count);
            to.write_all(&frames.bytes).await?;
        },
        Kind::Reset => {
            to.write_all(&frames.bytes[..frames.length]).await?;
            from.read_exact(&mut [0; 64]).await?;
            Ok(())
        }
        Kind::Flood => {
            let sent = async {
                loop {
                    frames.renew(count);
                    to.write_all(&frames.bytes).await?;
                }
            };
            tokio::select! {
                ended = sent => ended,
                ended = forget(from) => ended,
            }
        }
        Kind::Slow => {
            let sent = async {
                for byte in frames.bytes.iter().cycle() {
                    to.write_all(&[*byte]).await?;
                    sleep(SLOW).await;
                }
                Ok(())
            };
            tokio::select! {
                ended = sent => ended,
                ended = forget(from) => ended,
            }
        }
        Kind::Idle | Kind::Open => {
            to.write_all(&frames.bytes[..frames.length]).await?;
            forget(from).await
        }
    }
}

/// Reads and forgets what comes, until the connection ends.
async fn forget(mut from: tokio::net::unix::OwnedReadHalf) -> Result<()> {
    let mut room = vec![0; AT_ONCE];
    while from.read(&mut room).await? > 0 {}
    Ok(())
}

/// Has some threads connect, send the file and close.
fn open_and_close(socket: &Path, file: &[u8], end: Instant) -> Result<()> {
    let started = (0..OPENERS).map(|_| {
        let (socket, file) = (socket.to_path_buf(), file.to_vec());
        thread::Builder::new().spawn(move || opener(&socket, &file, end))
    });
    // Each ends by itself; one that waits in the kernel's line goes with the process.
    let _running = started.collect::<std::io::Result<Vec<_>>>()?;
    thread::sleep(end.saturating_duration_since(Instant::now()));
    Ok(())
}

fn opener(socket: &Path, file: &[u8], end: Instant) {
    while Instant::now() < end {
        match std::os::unix::net::UnixStream::connect(socket) {
            // Whoever is turned away is closed before it has said all.
            Ok(mut stream) => drop(std::io::Write::write_all(&mut stream, file)),
            Err(_) => thread::sleep(REST),
        }
    }
}

#[cfg(test)]
mod tests {
    use super::*;

    #[test]
    fn each_copy_has_the_next_count() {
        let mut frames = Frames::of(b"a<<last>>b<<next>>c<<next>>");
        let mut count = 0xff;
        frames.renew(&mut count);
        assert_eq!(&frames.bytes[..27], b"a000000ffb00000100c00000100");
        assert_eq!(&frames.bytes[27..54], b"a00000100b00000101c00000101");
        assert_eq!(count as usize, 0xff + AT_ONCE / 27);
        frames.renew(&mut count);
        assert_eq!(count as usize, 0xff + 2 * (AT_ONCE / 27));
    }

    #[test]
    fn without_a_count_connections_share_the_bytes() {
        let mut frames = Frames::of(&[7; AT_ONCE + 1]);
        let other = frames.clone();
        frames.renew(&mut 5);
        assert!(Arc::ptr_eq(&frames.bytes, &other.bytes));
        assert_eq!(frames.bytes.len(), AT_ONCE + 1);
    }
}

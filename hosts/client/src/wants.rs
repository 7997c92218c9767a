//! Which of one's leases others want. kfsd answers that question when there is something to tell, or after a while, and all
//! replies of a connection come in order. So it has a connection of its own, which nobody waits for.

use crate::desk::Wish;
use crate::line::Door;
use nix::poll::{poll, PollFd, PollFlags};
use std::io::{self, ErrorKind, Read, Write};
use std::os::unix::io::{AsRawFd, RawFd};
use std::os::unix::net::UnixStream;
use std::thread::sleep;
use std::time::Duration;

/// The tag of the question, before the serial of the last want that was told, and of the answer.
const WANTED: u8 = 0xf3;
/// What stands behind the node of a lease that another one wants, of a lock that may be had now, and of a lease that may. Anything else is the length of a
/// path, which an earlier kfsd told.
const LEASE: u16 = 0;
const LOCK: u16 = 1;
const FREE: u16 = 2;
/// How many bytes stand before the wants of an answer: its head, tag, serial and count.
const HEAD: usize = 19;

/// A question that is under way.
#[derive(Debug)]
pub(crate) struct Wants {
    stream: UnixStream,
    client: u32,
    serial: u64,
    left: Vec<u8>,
    /// Whether kfsd has said that it knows no such question.
    is_unknown: bool,
    /// Whether the connection has ended.
    is_gone: bool,
    /// Files on which the way to a lock was freed, that nobody was told of yet.
    freed: Vec<u32>,
}

impl Wants {
    /// Asks for the first time.
    pub fn ask(door: &mut Door, client: u32) -> io::Result<Wants> {
        Wants::ask_behind(door, client, 0)
    }

    fn ask_behind(door: &mut Door, client: u32, serial: u64) -> io::Result<Wants> {
        let stream = door.connect()?;
        stream.set_nonblocking(true)?;
        let mut wants =
            Wants { stream, client, serial, left: Vec::new(), is_unknown: false, is_gone: false, freed: Vec::new() };
        wants.send()?;
        Ok(wants)
    }

    /// Asks over a new connection, where the last one has ended. That of another kfsd may have been killed.
    pub fn ask_again(&mut self, door: &mut Door) -> io::Result<()> {
        if self.is_gone && !self.is_unknown {
            *self = Wants::ask_behind(door, self.client, self.serial)?;
        }
        Ok(())
    }

    fn send(&mut self) -> io::Result<()> {
        let mut frame = Vec::new();
        for word in [9, 0, self.client] {
            frame.extend_from_slice(&word.to_be_bytes());
        }
        frame.push(WANTED);
        frame.extend_from_slice(&self.serial.to_be_bytes());
        // There is one question at a time, so there is room for it.
        self.stream.write_all(&frame)
    }

    /// The files on which the way to a lock was freed, as far as `told` has heard of them.
    pub fn take_freed(&mut self) -> Vec<u32> {
        std::mem::take(&mut self.freed)
    }

    /// Waits until something is told, for so long at most.
    pub fn wait(&self, most: Duration) {
        if self.is_gone || self.is_unknown {
            sleep(most);
            return;
        }
        // A signal ends the wait, too.
        let _ = poll(&mut [PollFd::new(self.stream.as_raw_fd(), PollFlags::POLLIN)], most.as_millis().max(1) as i32);
    }

    /// Where it can be waited for that something is told.
    pub fn news(&self) -> Option<RawFd> {
        (!self.is_gone && !self.is_unknown).then(|| self.stream.as_raw_fd())
    }

    /// What was told since this was asked last, without waiting. Each is told once, so what was told is answered also where the
    /// connection has ended meanwhile.
    pub fn told(&mut self) -> Vec<Wish> {
        let mut wishes = Vec::new();
        while !self.is_unknown && !self.is_gone && self.has_more() {
            while let Some(answer) = self.next_answer() {
                match answer_of(&answer) {
                    Some(Told { serial, wishes: told, freed }) => {
                        self.serial = serial;
                        wishes.extend(told);
                        self.freed.extend(freed);
                        self.is_gone |= self.send().is_err();
                    }
                    None => self.is_unknown = true,
                }
            }
        }
        wishes
    }

    /// Reads what has come. Whether there was something.
    fn has_more(&mut self) -> bool {
        let mut bytes = [0; 4096];
        match self.stream.read(&mut bytes) {
            Ok(count) if count > 0 => {
                self.left.extend_from_slice(&bytes[..count]);
                return true;
            }
            Err(fault) if matches!(fault.kind(), ErrorKind::WouldBlock | ErrorKind::Interrupted) => {}
            _ => self.is_gone = true,
        }
        false
    }

    /// The next whole reply, with its head.
    fn next_answer(&mut self) -> Option<Vec<u8>> {
        let length = u32::from_be_bytes(self.left.get(..4)?.try_into().ok()?) as usize;
        if self.left.len() < 8 + length {
            return None;
        }
        Some(self.left.drain(..8 + length).collect())
    }
}

/// What an answer tells.
#[derive(Debug, Default, PartialEq, Eq)]
struct Told {
    /// That of the last one.
    serial: u64,
    /// What is wanted: a node, or a path of which kfsd doesn't know the node.
    wishes: Vec<Wish>,
    /// The files on which the way to a lock is freed.
    freed: Vec<u32>,
}

fn answer_of(bytes: &[u8]) -> Option<Told> {
    let head = bytes.get(..HEAD).filter(|head| head[8] == WANTED)?;
    let serial = u64::from_be_bytes(head[9..17].try_into().ok()?);
    let count = u16::from_be_bytes([head[17], head[18]]);
    let (mut at, mut told) = (HEAD, Told { serial, ..Told::default() });
    for _ in 0..count {
        let node = u32::from_be_bytes(bytes.get(at + 4..at + 8)?.try_into().ok()?);
        match u16::from_be_bytes(bytes.get(at + 8..at + 10)?.try_into().ok()?) {
            LEASE => told.wishes.push(Wish::Node(node)),
            LOCK => told.freed.push(node),
            // Who waits for it asks again by itself.
            FREE => {}
            length => {
                let path = bytes.get(at + 10..at + 10 + usize::from(length))?;
                told.wishes.push(Wish::Path(path.to_vec()));
                at += path.len();
            }
        }
        at += 10;
    }
    Some(told)
}

#[cfg(test)]
mod tests {
    use super::*;

    #[test]
    fn wants_are_read_from_an_answer() {
        let mut bytes = vec![0, 0, 0, 0, 0, 0, 0, 0, WANTED, 0, 0, 0, 0, 0, 0, 1, 2, 0, 3];
        bytes.extend([0, 0, 0, 8, 0, 0, 0, 0, 0, 3, b'/', b'a', b'b']);
        bytes.extend([0, 0, 0, 7, 0, 0, 1, 2, 0, 1]);
        bytes.extend([0, 0, 0, 8, 0, 0, 1, 1, 0, 0]);
        let wishes = vec![Wish::Path(b"/ab".to_vec()), Wish::Node(257)];
        assert_eq!(answer_of(&bytes), Some(Told { serial: 258, wishes, freed: vec![258] }));
        assert_eq!(answer_of(&bytes[..51]), None);
        assert_eq!(answer_of(&[0, 0, 0, 6, 0, 0, 0, 0, 2, 3, 0, 0, 0, 0]), None);
    }
}

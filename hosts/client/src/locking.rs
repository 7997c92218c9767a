//! How a connection asks for locks, and sets them again over a new line.

use crate::connection::{exchange, Connection};
use crate::desk::Unanswered;
use crate::line::Line;
use crate::locks::{Lock, LockAnswer, LockHow, LockKind, LockStyle};
use crate::node::ROOT;
use crate::replies::{nonsense, Reply, LOCK};
use std::io;

/// The body of a question for a lock.
fn lock_body(lock: &Lock, how: LockHow) -> Vec<u8> {
    let mut body = vec![LOCK];
    body.extend_from_slice(&lock.node.to_be_bytes());
    body.extend_from_slice(&lock.owner.to_be_bytes());
    body.extend_from_slice(&lock.pid.to_be_bytes());
    body.extend_from_slice(&[lock.style as u8, lock.kind as u8]);
    body.extend_from_slice(&lock.first.to_be_bytes());
    body.extend_from_slice(&lock.last.to_be_bytes());
    body.push(how as u8);
    body
}

impl Connection {
    /// Asks for a lock. Where the connection has ended, those that were held are set again before.
    pub(crate) fn ask_lock(&mut self, lock: &Lock, how: LockHow) -> Result<Option<LockAnswer>, Unanswered> {
        if self.clock.is_none() {
            return Ok(None);
        }
        if lock.kind == LockKind::Unlock && how != LockHow::Test {
            // Also where nobody can be told: what isn't set again is given up.
            self.locks.give_up(lock);
        } else if self.locks.has_lost(lock) {
            return Ok(Some(LockAnswer::Lost));
        }
        let body = lock_body(lock, how);
        match self.ask_again(&body)? {
            // It may have been lost just now.
            Reply::Lock(_) if self.locks.has_lost(lock) => {
                let unlock = Lock { kind: LockKind::Unlock, ..*lock };
                let _given_up = self.ask_again(&lock_body(&unlock, LockHow::Set))?;
                Ok(Some(LockAnswer::Lost))
            }
            Reply::Lock(answer) => {
                self.locks.take_over(lock, how, &answer);
                Ok(Some(answer))
            }
            // An earlier kfsd hands it to the server, which doesn't know it.
            Reply::Refused(3) => Ok(None),
            Reply::Refused(129) => Err(Unanswered::Stopping),
            _ => Err(nonsense(&body).into()),
        }
    }

    /// Whether kfsd knows such questions. It is asked one that changes nothing.
    pub(crate) fn knows_locks(&mut self) -> bool {
        let nothing = Lock { node: ROOT, owner: 0, pid: 0, style: LockStyle::Range, kind: LockKind::Read, first: 0, last: 0 };
        matches!(self.ask_lock(&nothing, LockHow::GiveUp), Ok(Some(LockAnswer::Granted)))
    }

    /// Sets all locks again over a new line, before anything else. Those that others may have had meanwhile are lost.
    pub(crate) fn set_locks_again(&mut self, line: &mut Line) -> io::Result<()> {
        let held = self.locks.all().to_vec();
        for lock in &held {
            match exchange(line, self.number, self.client, &lock_body(lock, LockHow::Again))? {
                Some(Reply::Lock(LockAnswer::Granted)) => {}
                // The server ends just now, or has ended before it answered.
                Some(Reply::Refused(128 | 129)) => return Err(io::ErrorKind::Interrupted.into()),
                _ => self.locks.lose(lock),
            }
        }
        Ok(())
    }

    /// Connects anew where the connection has ended meanwhile and locks are to be set again: later others may have them.
    pub(crate) fn keep_locks(&mut self) {
        if self.locks.is_empty() {
            return;
        }
        if self.line.is_some() && self.take_all_ahead(None).is_err() {
            self.break_off();
        }
        let is_ended = matches!(self.line.as_mut().map(|line| line.is_ended()), Some(true));
        if is_ended {
            self.break_off();
        }
        // Where there is no kfsd now, this is tried again.
        let _no_kfsd = self.connect();
    }
}

#[cfg(test)]
mod tests {
    use super::*;

    #[test]
    fn a_question_has_36_bytes() {
        let lock =
            Lock { node: 256, owner: 9, pid: 3, style: LockStyle::Whole, kind: LockKind::Write, first: 1, last: u64::MAX };
        let body = lock_body(&lock, LockHow::Wait);
        assert_eq!(body[..17], [0xf7, 0, 0, 1, 0, 0, 0, 0, 0, 0, 0, 0, 9, 0, 0, 0, 3]);
        assert_eq!(
            (&body[17..19], &body[26..], body.len()),
            (&[1, 1][..], &[1, 255, 255, 255, 255, 255, 255, 255, 255, 2][..], 36)
        );
    }
}

//! Frames that were sent to a process of `kfs_serve` and aren't answered, or whose answers aren't kept yet.

use crate::queue::Sent;
use std::collections::VecDeque;
use std::sync::{Mutex, MutexGuard, PoisonError};
use std::time::Instant;
use tokio::sync::Notify;

/// How many bytes of frames may be sent and not answered, or one frame more. `kfs_serve` reads as many at once. What is
/// behind them waits here, where clients take turns.
const WINDOW: usize = 65_536;

/// How many bytes the journal may take behind a call of whose answer something isn't kept here yet. A journal that is begun
/// anew takes at least 2^20 bytes before it is begun anew once more. So such a call is in one of the two files (docs/KFSD.md).
const EXPOSED: u64 = 786_432;

/// The most bytes that the journal takes for a frame, beside the frame's: it has no head there, but an answer of 16 bytes
/// behind its own length, and maybe the 5 bytes of a group.
const ANSWER: u64 = 14;

#[derive(Debug, Default)]
struct Under {
    sent: VecDeque<Sent>,
    /// Since when there is always one; none where there never was.
    since: Option<Instant>,
    bytes: usize,
    /// How many bytes the journal takes at most for all that was sent.
    total: u64,
    /// How many up to the end of each call of which something isn't kept.
    ends: VecDeque<u64>,
    /// How many of these calls, from the first, have ended.
    ended: usize,
    /// Whether the one who sends waits until they are kept.
    is_waiting: bool,
}

impl Under {
    /// How many bytes the journal takes behind the first call of which something isn't kept; none where all is.
    fn exposed(&self) -> Option<u64> {
        self.ends.front().map(|end| self.total - end)
    }
}

/// The frames of a process that are under way.
#[derive(Debug, Default)]
pub struct Flight {
    under: Mutex<Under>,
    /// Tells the one who sends that there is room.
    room: Notify,
    /// Tells it that outcomes are kept.
    kept: Notify,
    /// Tells the one who keeps outcomes that it is time.
    due: Notify,
}

impl Flight {
    fn under(&self) -> MutexGuard<'_, Under> {
        self.under.lock().unwrap_or_else(PoisonError::into_inner)
    }

    /// Whether each frame is answered.
    pub fn is_empty(&self) -> bool {
        self.under().sent.is_empty()
    }

    /// Since when there is always a frame without an answer; none where there never was one.
    pub fn busy_since(&self) -> Option<Instant> {
        self.under().since
    }

    /// Takes those that aren't answered.
    pub fn take_all(&self) -> VecDeque<Sent> {
        std::mem::take(&mut self.under().sent)
    }

    /// Waits until there is room, and tells how many bytes of it.
    pub async fn room(&self) -> usize {
        loop {
            let room = WINDOW.saturating_sub(self.under().bytes);
            if room > 0 {
                return room;
            }
            self.room.notified().await;
        }
    }

    /// Adds what is about to be sent, and waits until it may be.
    pub async fn add(&self, sent: Vec<Sent>) {
        let lengths: Vec<(u64, bool)> = sent.iter().map(|one| (one.length as u64 + ANSWER, one.is_kept())).collect();
        let length = lengths.iter().map(|(length, _)| length).sum::<u64>();
        let bytes = sent.iter().map(|one| one.length).sum::<usize>();
        // A checkpoint takes what the journal would have had room for.
        let most = if sent.iter().any(|one| one.is_checkpoint) { 0 } else { EXPOSED };
        {
            let mut under = self.under();
            under.bytes += bytes;
            if under.sent.is_empty() {
                under.since = Some(Instant::now());
            }
            under.sent.extend(sent);
        }
        loop {
            {
                let mut under = self.under();
                under.is_waiting = matches!(under.exposed(), Some(exposed) if exposed + length > most);
                if !under.is_waiting {
                    for (length, is_kept) in lengths {
                        under.total += length;
                        let total = under.total;
                        under.ends.extend(is_kept.then_some(total));
                    }
                    return;
                }
            }
            self.due.notify_one();
            self.kept.notified().await;
        }
    }

    /// Who waits for the reply of this number, which has to be the oldest frame's.
    pub fn take(&self, number: u32) -> Option<Sent> {
        let mut under = self.under();
        if under.sent.front()?.number != number {
            return None;
        }
        let sent = under.sent.pop_front()?;
        under.bytes -= sent.length;
        self.room.notify_one();
        Some(sent)
    }

    /// A call has ended of which something is to be kept.
    pub fn ended(&self) {
        let mut under = self.under();
        under.ended += 1;
        let is_due = under.is_waiting || under.exposed().unwrap_or(0) > EXPOSED / 2;
        drop(under);
        if is_due {
            self.due.notify_one();
        }
    }

    /// Returns when outcomes are to be kept at once.
    pub async fn due(&self) {
        self.due.notified().await;
    }

    /// How many of these have ended and aren't kept.
    pub fn count_ended(&self) -> usize {
        self.under().ended
    }

    /// So many of them are kept.
    pub fn kept(&self, count: usize) {
        let mut under = self.under();
        under.ended -= count;
        under.ends.drain(..count);
        drop(under);
        if count > 0 {
            self.kept.notify_one();
        }
    }
}

#[cfg(test)]
mod tests {
    use super::*;
    use crate::calls::Note;
    use std::time::Duration;
    use tokio::time::timeout;

    fn sent(number: u32, length: usize, numbered: Option<u64>) -> Sent {
        Sent {
            number,
            client: 7,
            note: Note::Nothing,
            came: std::time::Instant::now(),
            numbered,
            is_checkpoint: false,
            length,
            part: crate::cost::Part::free(7),
            cost: 1,
            asker: None,
        }
    }

    /// Whether frames may be sent at once.
    async fn goes(flight: &Flight, frames: Vec<Sent>) -> bool {
        timeout(Duration::from_millis(50), flight.add(frames)).await.is_ok()
    }

    #[tokio::test]
    async fn a_window_is_under_way() {
        let flight = Flight::default();
        assert!(goes(&flight, vec![sent(1, WINDOW - 1, None)]).await);
        assert_eq!(flight.room().await, 1);
        assert!(goes(&flight, vec![sent(2, 100, None)]).await);
        assert!(timeout(Duration::from_millis(50), flight.room()).await.is_err());
        assert!(flight.take(2).is_none());
        assert!(flight.take(1).is_some());
        assert_eq!(flight.room().await, WINDOW - 100);
    }

    #[tokio::test]
    async fn all_is_kept_before_a_checkpoint() {
        let flight = Flight::default();
        let checkpoint = |number| Sent { is_checkpoint: true, ..sent(number, 13, None) };
        assert!(goes(&flight, vec![checkpoint(1)]).await);
        assert!(goes(&flight, vec![sent(2, 1, Some(1))]).await);
        assert!(!goes(&flight, vec![checkpoint(3)]).await);
        flight.ended();
        flight.kept(1);
        assert!(goes(&flight, vec![checkpoint(4)]).await);
    }

    #[tokio::test]
    async fn little_is_sent_behind_what_is_not_kept() {
        let flight = Flight::default();
        let most = (EXPOSED - 3 * ANSWER) as usize;
        // of what isn't numbered, and of the call itself, nothing is lost
        assert!(goes(&flight, vec![sent(1, 2 * most, None), sent(2, 2 * most, Some(1))]).await);
        assert!(goes(&flight, vec![sent(3, most, None)]).await);
        assert!(!goes(&flight, vec![sent(4, 100, None)]).await);
        flight.ended();
        assert_eq!(flight.count_ended(), 1);
        flight.kept(1);
        assert!(goes(&flight, vec![sent(5, 1, Some(2)), sent(6, 1, Some(3)), sent(7, most, None)]).await);
        assert!(!goes(&flight, vec![sent(8, 100, None)]).await);
        flight.ended();
        flight.kept(1);
        assert!(goes(&flight, vec![sent(9, 1, None)]).await);
    }
}

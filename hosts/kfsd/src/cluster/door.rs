//! Connections to the port for other members that haven't proved the key yet. Each user of these machines may begin one.
//!
//! There are so many of them at once. Where one more comes, the one that has been there longest goes, once it has had the time that
//! a member needs. So silent ones keep no member out, and members that come together don't drive each other away. What is refused is
//! told by a line a second, with its count.

use crate::pace::Pace;
use std::collections::BTreeMap;
use std::io;
use std::net::SocketAddr;
use std::sync::{Arc, Mutex, MutexGuard, PoisonError};
use std::time::{Duration, Instant};
use tokio::net::{TcpListener, TcpStream};
use tokio::sync::{oneshot, Notify};
use tokio::time::{sleep_until, timeout};
use tracing::warn;

/// How many may be there at once, how long each may take, and how long each may take where others wait.
pub const AT_ONCE: usize = 1024;
const TIME: Duration = Duration::from_secs(3);
const LEAST: Duration = Duration::from_millis(500);

/// How many connections are refused a second, and how many at once: each costs a check of what it has shown.
const REFUSALS: u32 = 4_000;
const REFUSED_AT_ONCE: u32 = 10;

/// How often a line tells what was refused.
pub const TELLING: Duration = Duration::from_secs(1);

#[derive(Debug, Default)]
struct State {
    /// Those that are there by the order in which they came, and when each did. Where its sender is dropped, one has to go.
    inside: BTreeMap<u64, (Instant, oneshot::Sender<()>)>,
    /// The number of the next one.
    next: u64,
    /// How many were refused since that was told, and the last one of them.
    refused: u64,
    last: String,
    /// Before this moment no other one is taken.
    rests_until: Option<Instant>,
}

/// Those that haven't proved the key.
#[derive(Debug)]
pub struct Door {
    state: Mutex<State>,
    most: usize,
    /// One has gone.
    left: Notify,
    refusals: Pace,
}

/// One of them.
#[derive(Debug)]
pub struct Inside {
    door: Arc<Door>,
    number: u64,
    has_to_go: oneshot::Receiver<()>,
}

impl Drop for Inside {
    fn drop(&mut self) {
        self.door.state().inside.remove(&self.number);
        self.door.left.notify_one();
    }
}

impl Door {
    /// For so many at once.
    pub fn new(most: usize) -> Arc<Door> {
        Arc::new(Door { state: Mutex::default(), most, left: Notify::new(), refusals: Pace::new(REFUSALS, REFUSED_AT_ONCE) })
    }

    fn state(&self) -> MutexGuard<'_, State> {
        self.state.lock().unwrap_or_else(PoisonError::into_inner)
    }

    /// The next connection, once another one may be taken.
    pub async fn accept(&self, listener: &TcpListener) -> io::Result<(TcpStream, SocketAddr)> {
        let until = self.state().rests_until.take();
        if let Some(until) = until.filter(|until| *until > Instant::now()) {
            // Where it is dropped meanwhile, the rest of it is left out.
            sleep_until(until.into()).await;
        }
        listener.accept().await
    }

    /// One more is there. Where they are too many, it waits until one has gone, or the first one has had its time and has to go.
    pub async fn enter(self: &Arc<Door>) -> Inside {
        loop {
            let room_at = match self.try_enter() {
                Ok(inside) => return inside,
                Err(moment) => moment,
            };
            tokio::select! {
                () = sleep_until(room_at.into()) => {}
                () = self.left.notified() => {}
            }
        }
    }

    /// One more is there, or when the first one has to go.
    fn try_enter(self: &Arc<Door>) -> Result<Inside, Instant> {
        let (now, mut state) = (Instant::now(), self.state());
        let first = state.inside.iter().next().map(|(number, (came, _))| (*number, *came + LEAST));
        if let Some((first, end)) = first.filter(|_| state.inside.len() >= self.most) {
            if end > now {
                return Err(end);
            }
            state.inside.remove(&first);
        }
        let (stays, has_to_go) = oneshot::channel();
        let number = state.next;
        state.next += 1;
        state.inside.insert(number, (now, stays));
        Ok(Inside { door: Arc::clone(self), number, has_to_go })
    }

    /// One is refused, and the next ones wait where that is so too often.
    pub fn refuse(&self, from: SocketAddr, fault: &io::Error) {
        let mut state = self.state();
        state.refused += 1;
        state.last = format!("{from}: {fault}");
        state.rests_until = Some(Instant::now() + self.refusals.wait());
    }

    /// What is to be told of those that were refused since that was told last; none where none was.
    fn told(&self) -> Option<String> {
        let mut state = self.state();
        let (count, last) = (std::mem::take(&mut state.refused), std::mem::take(&mut state.last));
        match count {
            0 => None,
            1 => Some(format!("a connection to the port for members is refused: {last}")),
            _ => Some(format!("{count} connections to the port for members are refused, the last one {last}")),
        }
    }

    /// Tells it.
    pub fn tell(&self) {
        if let Some(line) = self.told() {
            warn!("{line}");
        }
    }
}

impl Inside {
    /// What this one proves, within its time and as long as it needn't go.
    pub async fn prove<T>(mut self, proving: impl std::future::Future<Output = io::Result<T>>) -> io::Result<T> {
        let gone = || io::Error::new(io::ErrorKind::TimedOut, "others have come meanwhile, and it has proved nothing");
        tokio::select! {
            proved = timeout(TIME, proving) => proved.unwrap_or_else(|_| Err(io::ErrorKind::TimedOut.into())),
            _ = &mut self.has_to_go => Err(gone()),
        }
    }
}

#[cfg(test)]
mod tests {
    use super::*;
    use std::future::pending;

    #[tokio::test]
    async fn the_one_that_is_there_longest_goes() {
        let (door, began) = (Door::new(2), Instant::now());
        let silent = || pending::<io::Result<()>>();
        let first = tokio::spawn(door.enter().await.prove(silent()));
        let second = tokio::spawn(door.enter().await.prove(silent()));
        let third = door.enter().await;
        assert!((LEAST..TIME).contains(&began.elapsed()), "the first one had its time");
        assert!(first.await.unwrap().is_err());
        assert!(!second.is_finished());
        assert_eq!(third.prove(async { Ok(7) }).await.unwrap(), 7);
        assert_eq!(door.state().inside.len(), 1);
        second.abort();
        assert!(second.await.is_err());
        assert_eq!(door.state().inside.len(), 0);
    }

    #[tokio::test]
    async fn where_one_has_gone_another_needn_t_wait() {
        let (door, began) = (Door::new(1), Instant::now());
        for _ in 0..100 {
            let inside = door.enter().await;
            tokio::spawn(inside.prove(async {
                tokio::task::yield_now().await;
                Ok(())
            }));
        }
        assert!(began.elapsed() < LEAST);
    }

    #[tokio::test]
    async fn a_silent_one_has_its_time() {
        let door = Door::new(2);
        let began = Instant::now();
        assert!(door.enter().await.prove(pending::<io::Result<()>>()).await.is_err());
        assert!((TIME..TIME * 3).contains(&began.elapsed()));
    }

    #[test]
    fn a_line_has_a_count() {
        let (door, from) = (Door::new(2), "127.0.0.1:5".parse().unwrap());
        assert_eq!(door.told(), None);
        door.refuse(from, &io::Error::new(io::ErrorKind::Other, "why"));
        assert_eq!(door.told().unwrap(), "a connection to the port for members is refused: 127.0.0.1:5: why");
        (0..300).for_each(|_| door.refuse(from, &io::Error::new(io::ErrorKind::Other, "why")));
        assert!(door.told().unwrap().starts_with("300 connections"));
        assert_eq!(door.told(), None);
        assert!(door.state().rests_until > Some(Instant::now()), "it rests behind so many");
    }
}

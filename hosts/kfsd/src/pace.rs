//! How often something may be done: what is over it waits.

use std::sync::{Mutex, MutexGuard, PoisonError};
use std::time::{Duration, Instant};
use tokio::time::sleep;

/// So much time for each, and some of them at once.
#[derive(Debug)]
pub struct Pace(Mutex<State>);

#[derive(Debug)]
struct State {
    each: Duration,
    at_once: Duration,
    /// When all that was done so far would be over, had each taken its time.
    done: Instant,
}

impl Pace {
    /// So many a second, and so many at once.
    pub fn new(a_second: u32, at_once: u32) -> Pace {
        let each = Duration::from_secs(1) / a_second.max(1);
        Pace(Mutex::new(State { each, at_once: each * at_once, done: Instant::now() }))
    }

    /// So many a second, and so many at once, from now on.
    pub fn set(&self, a_second: u32, at_once: u32) {
        let mut state = self.state();
        state.each = Duration::from_secs(1) / a_second.max(1);
        state.at_once = state.each * at_once;
    }

    fn state(&self) -> MutexGuard<'_, State> {
        self.0.lock().unwrap_or_else(PoisonError::into_inner)
    }

    /// Counts one more at this moment, and tells how long it has to wait.
    pub fn wait_at(&self, now: Instant) -> Duration {
        let mut state = self.state();
        state.done = state.done.max(now) + state.each;
        state.done.duration_since(now).saturating_sub(state.at_once)
    }

    /// The same now.
    pub fn wait(&self) -> Duration {
        self.wait_at(Instant::now())
    }

    /// Counts one more, and returns once it may be done.
    pub async fn pause(&self) {
        let wait = self.wait();
        if !wait.is_zero() {
            sleep(wait).await;
        }
    }

    /// Whether one more may be done at this moment without waiting. It is counted where it may.
    pub fn may_at(&self, now: Instant) -> bool {
        let mut state = self.state();
        let next = state.done.max(now) + state.each;
        let may = next.duration_since(now) <= state.at_once;
        if may {
            state.done = next;
        }
        may
    }

    /// The same now.
    pub fn may(&self) -> bool {
        self.may_at(Instant::now())
    }
}

#[cfg(test)]
mod tests {
    use super::*;

    #[test]
    fn some_go_at_once_and_then_each_waits() {
        let (pace, now) = (Pace::new(1000, 10), Instant::now() + Duration::from_secs(1));
        for _ in 0..10 {
            assert_eq!(pace.wait_at(now), Duration::ZERO);
        }
        assert_eq!(pace.wait_at(now), Duration::from_millis(1));
        assert_eq!(pace.wait_at(now), Duration::from_millis(2));
        assert_eq!(pace.wait_at(now + Duration::from_millis(5)), Duration::ZERO);
        for _ in 0..10 {
            assert_eq!(pace.wait_at(now + Duration::from_secs(9)), Duration::ZERO);
        }
        pace.set(10, 1);
        assert_eq!(pace.wait_at(now + Duration::from_secs(20)), Duration::ZERO);
        assert_eq!(pace.wait_at(now + Duration::from_secs(20)), Duration::from_millis(100));
    }

    #[test]
    fn what_may_not_be_done_is_not_counted() {
        let (pace, now) = (Pace::new(1000, 2), Instant::now() + Duration::from_secs(1));
        assert_eq!([(); 4].map(|()| pace.may_at(now)), [true, true, false, false]);
        assert_eq!([(); 2].map(|()| pace.may_at(now + Duration::from_millis(1))), [true, false]);
    }
}

//! The moment: whole seconds of kfsd's monotonic clock, going on from where the desk stands.

use std::sync::{Mutex, PoisonError};
use std::time::Instant;

/// A clock that never goes back. It stands while kfsd doesn't run.
#[derive(Debug)]
pub struct Clock(Mutex<(u64, Instant)>);

impl Default for Clock {
    fn default() -> Clock {
        Clock(Mutex::new((0, Instant::now())))
    }
}

impl Clock {
    /// The moment now.
    pub fn now(&self) -> u64 {
        let (base, since) = *self.0.lock().unwrap_or_else(PoisonError::into_inner);
        base.saturating_add(since.elapsed().as_secs())
    }

    /// Goes on from this moment, whatever is now. Nobody has asked for a moment yet.
    pub fn go_on_from(&self, moment: u64) {
        *self.0.lock().unwrap_or_else(PoisonError::into_inner) = (moment, Instant::now());
    }

    /// Goes on from this moment, where it is later than now.
    pub fn at_least(&self, moment: u64) {
        if moment > self.now() {
            *self.0.lock().unwrap_or_else(PoisonError::into_inner) = (moment, Instant::now());
        }
    }
}

#[cfg(test)]
mod tests {
    use super::*;

    #[test]
    fn it_goes_on_and_never_back() {
        let clock = Clock::default();
        clock.at_least(1000);
        assert!(clock.now() >= 1000);
        clock.at_least(10);
        assert!(clock.now() >= 1000);
        clock.at_least(u64::MAX);
        assert_eq!(clock.now(), u64::MAX);
    }
}

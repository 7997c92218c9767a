//! Whether whoever makes calls is about to end, as behind SIGTERM: then nothing is waited for that may be long in coming.

use std::sync::{Arc, Mutex, PoisonError};
use std::time::{Duration, Instant};

/// How long an answer is waited for that is under way then.
const GRACE: Duration = Duration::from_secs(3);

/// The end of a process. Its copies are one and the same.
#[derive(Clone, Debug, Default)]
pub struct Ending(Arc<Mutex<Option<Instant>>>);

impl Ending {
    /// It begins to end now.
    pub fn begin(&self) {
        self.begun().get_or_insert_with(Instant::now);
    }

    /// Whether it has begun to end: what others have to do first isn't waited for any more.
    pub fn has_begun(&self) -> bool {
        self.begun().is_some()
    }

    /// Whether no answer is waited for any more.
    pub fn is_over(&self) -> bool {
        self.begun().map_or(false, |begun| begun.elapsed() >= GRACE)
    }

    fn begun(&self) -> std::sync::MutexGuard<'_, Option<Instant>> {
        self.0.lock().unwrap_or_else(PoisonError::into_inner)
    }
}

#[cfg(test)]
mod tests {
    use super::*;

    #[test]
    fn copies_end_together() {
        let ending = Ending::default();
        let other = ending.clone();
        assert!(!other.has_begun() && !other.is_over());
        ending.begin();
        assert!(other.has_begun() && !other.is_over());
    }
}

//! How long a process has worked, and how long it has waited meanwhile.

use nix::time::ClockId;
use nix::unistd::Pid;
use std::time::{Duration, Instant};

/// Measures a process from one moment to the next.
#[derive(Debug)]
pub struct Meter {
    /// None where the system has no clock for it: then all of its time counts as work.
    clock: Option<ClockId>,
    worked: Duration,
    last: Instant,
}

impl Meter {
    /// Of the process of this number.
    pub fn of(process: Option<u32>) -> Meter {
        let pid = process.and_then(|process| i32::try_from(process).ok()).map(Pid::from_raw);
        let clock = pid.and_then(|pid| ClockId::pid_cpu_clock_id(pid).ok());
        let mut meter = Meter { clock, worked: Duration::ZERO, last: Instant::now() };
        meter.worked = meter.now().unwrap_or_default();
        meter
    }

    fn now(&self) -> Option<Duration> {
        self.clock.and_then(|clock| clock.now().ok()).map(Duration::from)
    }

    /// How long it has worked since this was asked last, and how long it waited of the time since this moment.
    pub fn lap(&mut self, since: Option<Instant>) -> (Duration, Duration) {
        let now = Instant::now();
        let all = now.duration_since(since.map_or(self.last, |since| since.max(self.last)));
        self.last = now;
        match self.now() {
            Some(worked) => {
                let more = worked.saturating_sub(self.worked);
                self.worked = worked;
                (more, all.saturating_sub(more))
            }
            None => (all, Duration::ZERO),
        }
    }
}

#[cfg(test)]
mod tests {
    use super::*;

    #[test]
    fn work_is_told_from_waiting() {
        let mut meter = Meter::of(Some(std::process::id()));
        let (began, mut worked) = (Instant::now(), Duration::ZERO);
        // however little of a processor this has
        while worked < Duration::from_millis(10) && began.elapsed() < Duration::from_secs(30) {
            let at = Instant::now();
            while at.elapsed() < Duration::from_millis(1) {}
            worked += meter.lap(None).0;
        }
        assert!(worked >= Duration::from_millis(10), "{worked:?}");
        let mut none = Meter::of(None);
        std::thread::sleep(Duration::from_millis(5));
        let (worked, waited) = none.lap(Some(began));
        assert!(worked >= Duration::from_millis(5) && waited.is_zero());
    }
}

//! What kfsd counts.

use std::sync::atomic::{AtomicU64, Ordering};
use std::time::Duration;

/// A count that goes up.
#[derive(Debug, Default)]
pub struct Count(AtomicU64);

impl Count {
    /// So many more.
    pub fn add(&self, count: usize) {
        self.0.fetch_add(count as u64, Ordering::Relaxed);
    }

    /// Another number in its place.
    pub fn set(&self, number: u64) {
        self.0.store(number, Ordering::Relaxed);
    }

    /// What it is now.
    pub fn get(&self) -> u64 {
        self.0.load(Ordering::Relaxed)
    }
}

/// The bounds of times that are counted apart, in microseconds. What takes longer than the last one is counted, too.
pub const BOUNDS: [u64; 14] =
    [100, 200, 500, 1_000, 2_000, 5_000, 10_000, 20_000, 50_000, 100_000, 200_000, 500_000, 1_000_000, 5_000_000];

/// How long things took.
#[derive(Debug, Default)]
pub struct Times {
    /// How many took no longer than each bound, and longer than the one before.
    counts: [Count; BOUNDS.len()],
    longer: Count,
    /// All times together, in microseconds.
    sum: Count,
}

impl Times {
    /// One more.
    pub fn add(&self, time: Duration) {
        let micros = time.as_micros() as usize;
        let place = BOUNDS.iter().position(|bound| micros as u64 <= *bound);
        place.map_or(&self.longer, |place| &self.counts[place]).add(1);
        self.sum.add(micros);
    }

    /// How many took no longer than each bound.
    pub fn up_to(&self) -> Vec<u64> {
        let mut all = 0;
        let sums = self.counts.iter().map(|count| {
            all += count.get();
            all
        });
        sums.collect()
    }

    /// How many there are.
    pub fn count(&self) -> u64 {
        self.up_to().last().copied().unwrap_or(0) + self.longer.get()
    }

    /// All times together.
    pub fn sum(&self) -> Duration {
        Duration::from_micros(self.sum.get())
    }
}

/// All counts since kfsd was started.
#[derive(Debug, Default)]
pub struct Figures {
    /// Connections that were taken, and those that were refused.
    pub connections: Count,
    pub turned_away: Count,
    /// Frames that were given to `kfs_serve`, replies that came, and calls of which nobody knows.
    pub sent: Count,
    pub answered: Count,
    pub unknown: Count,
    /// Frames that kfsd answered itself, and calls of its own that were answered.
    pub answered_here: Count,
    pub own: Count,
    /// Blocks that were moved to slower tiers.
    pub moved: Count,
    /// Connections that were ended because a frame came or a reply went too slowly.
    pub too_slow: Count,
    /// How often `kfs_serve` was started, and its process now; 0 where there is none. 1 where that has opened its files.
    pub starts: Count,
    pub process: Count,
    pub opened: Count,
    /// The number of the next group of a volume.
    pub group: Count,
    /// From a whole frame to the desk's answer.
    pub times: Times,
    /// How many microseconds of that frames waited in line, all together.
    pub waited: Count,
}

#[cfg(test)]
mod tests {
    use super::*;

    #[test]
    fn times_are_counted_up_to_each_bound() {
        let times = Times::default();
        for micros in [0, 100, 101, 5_000_000, 5_000_001] {
            times.add(Duration::from_micros(micros));
        }
        let up_to = times.up_to();
        assert_eq!((up_to[0], up_to[1], up_to[12], up_to[13]), (2, 3, 3, 4));
        assert_eq!((times.count(), times.sum()), (5, Duration::from_micros(10_000_202)));
    }
}

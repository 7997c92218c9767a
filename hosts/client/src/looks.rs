//! Whether it pays to look for what is due again and again, in place of a sleep: a wake-up costs more than a call.
//!
//! Looks in vain have to be paid for: each takes a processor from others, or from who is waited for.

use std::time::{Duration, Instant};

/// How many times what was due came soon for each time that it is looked for in vain.
const PRICE: u32 = 4;
/// How many such times are counted at most: so looks in vain end soon.
const MOST: u32 = 16;
/// Behind looks in vain there are none for a while, each time for twice as long.
const FIRST_REST: Duration = Duration::from_millis(10);
const LONGEST_REST: Duration = Duration::from_secs(1);

/// Who waits for something again and again.
#[derive(Debug)]
pub struct Looks {
    longest: Duration,
    credit: u32,
    since: Instant,
    is_looking: bool,
    rest: Duration,
    rests_until: Option<Instant>,
}

impl Looks {
    /// One that looks for so long at most.
    pub fn new(longest: Duration) -> Looks {
        let since = Instant::now();
        Looks { longest, credit: 0, since, is_looking: false, rest: FIRST_REST, rests_until: None }
    }

    /// Something is due from now on.
    pub fn begin(&mut self) {
        self.since = Instant::now();
        let rests = self.rests_until.map_or(false, |until| self.since < until);
        self.is_looking = self.credit >= PRICE && !rests;
    }

    /// Whether to look once more, where it hasn't come yet. Else who waits sleeps.
    pub fn goes_on(&mut self) -> bool {
        if !self.is_looking {
            return false;
        }
        if self.since.elapsed() < self.longest {
            std::hint::spin_loop();
            return true;
        }
        self.is_looking = false;
        self.credit -= PRICE.min(self.credit);
        if self.credit < PRICE {
            self.rests_until = Some(Instant::now() + self.rest);
            self.rest = (self.rest * 2).min(LONGEST_REST);
        }
        false
    }

    /// It has come.
    pub fn found(&mut self) {
        self.is_looking = false;
        if self.since.elapsed() > self.longest {
            return;
        }
        self.credit = (self.credit + 1).min(MOST);
        if self.credit == MOST {
            self.rest = FIRST_REST;
        }
    }
}

#[cfg(test)]
mod tests {
    use super::*;
    use std::thread::sleep;

    /// Waits in vain. Returns whether it was looked for.
    fn in_vain(looks: &mut Looks) -> bool {
        looks.begin();
        let is_looking = looks.goes_on();
        sleep(looks.longest * 2);
        assert!(!looks.goes_on());
        looks.found();
        is_looking
    }

    fn soon(looks: &mut Looks, times: u32) {
        for _ in 0..times {
            looks.begin();
            looks.found();
        }
    }

    #[test]
    fn looks_in_vain_are_paid_for() {
        // Long enough for this test to be in time.
        let mut looks = Looks::new(Duration::from_millis(30));
        assert!(!in_vain(&mut looks));
        soon(&mut looks, PRICE);
        assert!(in_vain(&mut looks));
        soon(&mut looks, PRICE);
        looks.rests_until = None;
        assert!(in_vain(&mut looks) && !in_vain(&mut looks));
    }

    #[test]
    fn few_looks_in_vain_follow_one_another() {
        let mut looks = Looks::new(Duration::from_millis(30));
        soon(&mut looks, 100);
        let times = (0..20).filter(|_| in_vain(&mut looks)).count() as u32;
        assert_eq!(times, MOST / PRICE);
        // It rests then, also where what is due comes soon again.
        looks.rests_until = Some(Instant::now() + Duration::from_secs(60));
        soon(&mut looks, MOST);
        assert!(!in_vain(&mut looks));
    }
}

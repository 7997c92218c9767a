//! What a frame costs: how long `kfs_serve` works for it. That is expected by its kind and length, and by how long its client's
//! frames took before; and measured where replies come.

use crate::frames::{found_in, LEASES, NAMES, PLAN, READ};
use std::collections::HashMap;
use std::time::{Duration, Instant};

/// What a call and a look-up cost by themselves, and each byte of a frame, in nanoseconds. A look-up of bytes copies them;
/// one of names or leases goes through rows. A move copies a block.
const CALL: u64 = 8_000;
const LOOK_UP: u64 = 4_000;
const BYTE: u64 = 10;
const ROW_BYTE: u64 = 30;
const COPIED_BYTES: u64 = 2;
const MOVE: u64 = 3_500;

/// The tag of a call of moves, and the bytes of each of them.
const MIGRATE: u8 = 5;
const MOVE_BYTES: u64 = 13;

/// What each byte of a frame and its reply costs kfsd itself, which carries both.
const CARRIED_BYTE: u64 = 2;

/// How much of what a measurement says otherwise is believed at once.
const STEP: f64 = 0.3;

/// How many times as long or as short as is expected a client's frames may be thought to take, and how much that changes at once.
const MOST_RATIO: f64 = 10_000.0;
const LEAST_RATIO: f64 = 0.02;
const MOST_STEP: f64 = 4.0;

/// What counts at most of the time that frames took together: so many times what was foreseen, and some more. Where `kfs_serve`
/// begins its journal anew behind them, that is nobody's; and a client whose frames take long is known after some of them.
const MOST_TIMES: f64 = 4.0;
const SOME_MORE: f64 = 1_000_000.0;

/// How much of the time of `kfs_serve` a client may use on and on while others use it, too: one part of so many. It may use
/// so much at once. Where a frame that takes long comes to nothing, as a log that isn't allowed, its time counts many times.
const PART: u32 = 4;
const AT_ONCE: Duration = Duration::from_millis(4);
const IN_VAIN: u32 = 25;
const TAKES_LONG: Duration = Duration::from_millis(1);

/// A frame of a client, and what it costs where nothing is known of the client.
#[derive(Clone, Copy, Debug)]
pub struct Part {
    pub client: u32,
    /// Nanoseconds of `kfs_serve`.
    pub expected: u64,
    /// Nanoseconds of kfsd.
    pub carried: u64,
    /// Whether it came to nothing, once it is answered. A plan does until its log is handed in.
    pub is_in_vain: bool,
}

impl Part {
    /// A frame in the line of a client.
    pub fn of(client: u32, body: &[u8]) -> Part {
        let carried = CARRIED_BYTE * (body.len() as u64 + u64::from(found_in(body)));
        Part { client, expected: expected(body), carried, is_in_vain: body.first() == Some(&PLAN) }
    }

    /// What stands before a frame of this client, and costs nothing by itself.
    pub fn free(client: u32) -> Part {
        Part { client, expected: 0, carried: 0, is_in_vain: false }
    }
}

fn expected(body: &[u8]) -> u64 {
    let length = body.len() as u64;
    let found = u64::from(found_in(body));
    match body.first() {
        Some(&(NAMES | LEASES)) => LOOK_UP + ROW_BYTE * found,
        Some(&READ) => LOOK_UP + found / COPIED_BYTES,
        Some(&PLAN) => LOOK_UP + BYTE * length,
        Some(&MIGRATE) => CALL + MOVE * (length / MOVE_BYTES),
        Some(tag) if *tag >= 0x40 => LOOK_UP,
        _ => CALL + BYTE * length,
    }
}

/// What `kfs_serve` has done for a client.
#[derive(Clone, Copy, Debug)]
pub struct Account {
    /// How many times as long as is expected its frames take.
    ratio: f64,
    /// What is expected of its frames that were sent and aren't answered, in nanoseconds.
    pub sent: u64,
    /// When all that was done for it would be over, had it had its part of the time alone.
    over: Instant,
    /// When its last frame was answered.
    pub last: Instant,
}

impl Account {
    pub fn new(now: Instant) -> Account {
        Account { ratio: 1.0, sent: 0, over: now, last: now }
    }

    /// What a frame of the client is expected to cost.
    pub fn cost(&self, part: &Part) -> u64 {
        // At least one, so that a turn isn't endless.
        ((part.expected as f64 * self.ratio) as u64).max(1) + part.carried
    }

    /// Until when it rests, since it has used more than its part; none where it needn't.
    pub fn rests_until(&self, now: Instant) -> Option<Instant> {
        self.over.checked_sub(AT_ONCE).filter(|end| *end > now)
    }

    /// Counts time that was spent for it.
    fn spend(&mut self, time: Duration, now: Instant, is_in_vain: bool) {
        let times = if is_in_vain && time > TAKES_LONG { PART * IN_VAIN } else { PART };
        self.over = self.over.max(now) + time * times;
    }
}

/// Shares out the time that frames took together. Each client's ratio moves by its share of what wasn't foreseen: a client whose
/// frames come alone now and then is told from one whose frames are beside them.
pub fn measured(accounts: &mut HashMap<u32, Account>, parts: &[Part], took: Duration, now: Instant) {
    let mut sums = HashMap::new();
    parts.iter().for_each(|part| *sums.entry(part.client).or_insert(0.0) += part.expected as f64);
    let ratio = |client: &u32| accounts.get(client).map_or(1.0, |account| account.ratio);
    let foreseen: f64 = sums.iter().map(|(client, sum)| sum * ratio(client)).sum();
    let squares: f64 = sums.values().map(|sum: &f64| sum.powi(2)).sum();
    if foreseen <= 0.0 {
        return;
    }
    let nanos = (took.as_nanos() as f64).min(foreseen * MOST_TIMES + SOME_MORE);
    for part in parts {
        if let Some(account) = accounts.get_mut(&part.client) {
            let share = part.expected as f64 * account.ratio / foreseen;
            account.spend(Duration::from_nanos((nanos * share) as u64), now, part.is_in_vain);
        }
    }
    for (client, sum) in sums {
        if let Some(account) = accounts.get_mut(&client) {
            let moved = account.ratio + STEP * (nanos - foreseen) * sum / squares;
            let least = LEAST_RATIO.max(account.ratio / MOST_STEP);
            account.ratio = moved.clamp(least, MOST_RATIO.min(account.ratio * MOST_STEP));
        }
    }
}

#[cfg(test)]
mod tests {
    use super::*;

    const MICRO: Duration = Duration::from_micros(1);

    fn after(accounts: &mut HashMap<u32, Account>, parts: &[(u32, u64)], took: Duration, now: Instant) {
        let parts: Vec<Part> =
            parts.iter().map(|(client, expected)| Part { expected: *expected, ..Part::free(*client) }).collect();
        for part in &parts {
            accounts.entry(part.client).or_insert_with(|| Account::new(now));
        }
        measured(accounts, &parts, took, now);
    }

    #[test]
    fn kinds_of_frames_are_told_apart() {
        let read = |count: u32| [&[READ, 0, 0, 0, 5, 0, 0, 0, 0, 0, 0, 0, 0][..], &count.to_be_bytes()].concat();
        let names = [NAMES, 0, 0, 0, 5, 0, 1, 0, 0];
        assert!(expected(&names) > 20 * expected(&read(65_536)));
        assert!(expected(&read(65_536)) > expected(&read(1)));
        assert!(expected(&[1; 2000]) > 3 * expected(&[3; 9]) && expected(&[3; 9]) > expected(&[0x40, 0, 0, 0, 1]));
        let moves = [&[MIGRATE, 0, 100][..], &[0; 1300]].concat();
        assert_eq!((expected(&moves), expected(&moves[..29])), (CALL + 100 * MOVE, CALL + 2 * MOVE));
        assert_eq!((Part::of(7, &read(65_536)).carried, Part::of(7, &[1; 2000]).carried), (131_106, 4_000));
    }

    #[test]
    fn who_costs_much_is_told_from_who_is_beside_it() {
        let (mut accounts, now) = (HashMap::new(), Instant::now());
        for _ in 0..100 {
            // 50 frames of client 9 take 100 times as long as is expected
            after(&mut accounts, &[(7, 4_000), (9, 200_000)], MICRO * 20_004, now);
            after(&mut accounts, &[(7, 4_000)], MICRO * 4, now);
            after(&mut accounts, &[(9, 200_000)], MICRO * 20_000, now);
        }
        assert!((accounts[&7].ratio - 1.0).abs() < 0.5, "{}", accounts[&7].ratio);
        assert!((accounts[&9].ratio - 100.0).abs() < 1.0, "{}", accounts[&9].ratio);
    }

    #[test]
    fn many_frames_of_a_client_move_it_as_one_does() {
        let (mut accounts, now) = (HashMap::new(), Instant::now());
        let many = [(7, 8_000); 100];
        for _ in 0..30 {
            after(&mut accounts, &many, MICRO * 400, now);
            let ratio = accounts[&7].ratio;
            assert!((0.49..=1.0).contains(&ratio), "{ratio}");
        }
        assert!((accounts[&7].ratio - 0.5).abs() < 0.01);
    }

    #[test]
    fn what_is_nobodys_harms_little() {
        let (mut accounts, now) = (HashMap::new(), Instant::now());
        after(&mut accounts, &[(7, 8_000)], MICRO * 5_000_000, now);
        assert_eq!(accounts[&7].ratio, MOST_STEP);
        assert!(accounts[&7].rests_until(now) < Some(now + MICRO * 1_000));
        (0..20).for_each(|_| after(&mut accounts, &[(7, 8_000)], MICRO * 8, now));
        assert!(accounts[&7].ratio < 1.1);
    }

    #[test]
    fn who_uses_more_than_its_part_rests() {
        let now = Instant::now();
        let mut account = Account::new(now);
        account.spend(MICRO * 1000, now, false);
        assert_eq!(account.rests_until(now), None);
        account.spend(MICRO * 2000, now, false);
        assert_eq!(account.rests_until(now), Some(now + MICRO * 8000));
        assert_eq!(account.rests_until(now + MICRO * 8000), None);
        // what wasn't used isn't saved
        let later = now + MICRO * 1_000_000;
        account.spend(MICRO * 2000, later, false);
        assert_eq!(account.rests_until(later), Some(later + MICRO * 4000));
        let mut other = Account::new(now);
        other.spend(MICRO * 1000, now, true);
        assert_eq!(other.rests_until(now), None);
        other.spend(MICRO * 2000, now, true);
        assert_eq!(other.rests_until(now), Some(now + MICRO * 200_000));
    }
}

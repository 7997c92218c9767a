//! Who waits for a lease that another client has: it is told when that one gives it up, and is let in first.

use std::collections::HashMap;
use std::time::{Duration, Instant};

/// How long who gave a lease up may not take it again while others wait for it.
const TURN: Duration = Duration::from_millis(50);

/// Who waits asks again before that.
const LONGEST: Duration = Duration::from_secs(30);

/// How many waits of a client are noted. Who waits for more asks again by itself.
const OF_A_CLIENT: usize = 1024;

/// A client that waits.
#[derive(Clone, Copy, Debug)]
struct Waiter {
    client: u32,
    /// When it asked last.
    asked: Instant,
    /// The serial of what it is told, once the lease was given up.
    freed: Option<u64>,
}

/// Who waits for leases, by their nodes.
#[derive(Debug, Default)]
pub struct Waiting {
    of: HashMap<u32, Vec<Waiter>>,
    /// How many waits are noted of each client.
    counts: HashMap<u32, usize>,
    /// Who gave a lease up for others, and when.
    given: HashMap<u32, (u32, Instant)>,
}

impl Waiting {
    /// A client was refused a lease, since another one has it.
    pub fn wait(&mut self, client: u32, node: u32, now: Instant) {
        let waiters = self.of.entry(node).or_default();
        if let Some(waiter) = waiters.iter_mut().find(|waiter| waiter.client == client) {
            *waiter = Waiter { client, asked: now, freed: None };
            return;
        }
        let count = self.counts.entry(client).or_default();
        if *count < OF_A_CLIENT {
            *count += 1;
            waiters.push(Waiter { client, asked: now, freed: None });
        } else {
            self.forget_old(now);
        }
    }

    /// A client has got a lease.
    pub fn take(&mut self, client: u32, node: u32) {
        self.given.remove(&node);
        self.retain(|at, waiter| at != node || waiter.client != client);
    }

    /// A client has given a lease up. Whether anybody is to be told so, under serials that this gives.
    pub fn give_up(&mut self, client: u32, node: u32, now: Instant, mut serial: impl FnMut() -> u64) -> bool {
        let waiters = match self.of.get_mut(&node) {
            Some(waiters) => waiters,
            None => return false,
        };
        let mut is_told = false;
        for waiter in waiters.iter_mut().filter(|waiter| waiter.client != client) {
            waiter.freed = Some(serial());
            is_told = true;
        }
        if is_told {
            self.given.insert(node, (client, now));
        }
        is_told
    }

    /// Whether it is others' turn to take a lease that this client gave up for them.
    pub fn forbids(&self, client: u32, node: u32, now: Instant) -> bool {
        let given = self.given.get(&node);
        given.map_or(false, |(by, at)| *by == client && now.duration_since(*at) < TURN)
    }

    /// What a client waits for that was given up, each node with its serial, behind one.
    pub fn told(&self, client: u32, behind: u64) -> Vec<(u32, u64)> {
        let of_client = |(node, waiters): (&u32, &Vec<Waiter>)| {
            let waiter = waiters.iter().find(|waiter| waiter.client == client)?;
            waiter.freed.filter(|serial| *serial > behind).map(|serial| (*node, serial))
        };
        match self.counts.get(&client) {
            Some(_) => self.of.iter().filter_map(of_client).collect(),
            None => Vec::new(),
        }
    }

    /// Forgets who has given up waiting.
    fn forget_old(&mut self, now: Instant) {
        self.retain(|_, waiter| now.duration_since(waiter.asked) <= LONGEST);
        self.given.retain(|_, (_, at)| now.duration_since(*at) < TURN);
    }

    fn retain(&mut self, is_left: impl Fn(u32, &Waiter) -> bool) {
        let counts = &mut self.counts;
        self.of.retain(|node, waiters| {
            waiters.retain(|waiter| {
                let stays = is_left(*node, waiter);
                if !stays {
                    uncount(counts, waiter.client);
                }
                stays
            });
            !waiters.is_empty()
        });
    }
}

fn uncount(counts: &mut HashMap<u32, usize>, client: u32) {
    match counts.get_mut(&client) {
        Some(count) if *count > 1 => *count -= 1,
        _ => drop(counts.remove(&client)),
    }
}

#[cfg(test)]
mod tests {
    use super::*;

    #[test]
    fn who_waits_is_told_and_let_in_first() {
        let (mut waiting, now, mut serial) = (Waiting::default(), Instant::now(), 10);
        let mut next = || {
            serial += 1;
            serial
        };
        assert!(!waiting.give_up(7, 5, now, &mut next));
        waiting.wait(8, 5, now);
        waiting.wait(9, 5, now);
        assert!(waiting.told(8, 0).is_empty() && !waiting.forbids(7, 5, now));
        assert!(waiting.give_up(7, 5, now, &mut next));
        assert_eq!((waiting.told(8, 0), waiting.told(9, 11), waiting.told(8, 11)), (vec![(5, 11)], vec![(5, 12)], vec![]));
        assert!(waiting.forbids(7, 5, now) && !waiting.forbids(8, 5, now) && !waiting.forbids(7, 6, now));
        assert!(!waiting.forbids(7, 5, now + TURN));
        // One of them gets it, and the other one waits for that one.
        waiting.take(8, 5);
        assert!(!waiting.forbids(7, 5, now) && waiting.told(8, 0).is_empty());
        waiting.wait(9, 5, now);
        assert!(waiting.told(9, 0).is_empty());
        assert!(waiting.give_up(8, 5, now, &mut next));
        assert_eq!(waiting.told(9, 12), [(5, 13)]);
    }

    #[test]
    fn a_client_has_only_so_many_waits() {
        let (mut waiting, now) = (Waiting::default(), Instant::now());
        (0..2 * OF_A_CLIENT as u32).for_each(|node| waiting.wait(8, node, now));
        assert_eq!((waiting.of.len(), waiting.counts[&8]), (OF_A_CLIENT, OF_A_CLIENT));
        waiting.take(8, 0);
        waiting.wait(8, 9999, now);
        assert_eq!(waiting.counts[&8], OF_A_CLIENT);
        waiting.forget_old(now + Duration::from_secs(31));
        assert!(waiting.of.is_empty() && waiting.counts.is_empty() && waiting.given.is_empty());
    }
}

//! Leases that another client wants: who holds one is told so, and after a while it isn't renewed.
//!
//! Only the desk's answer that a lease is held makes a want. Before that it has asked for permission, so nobody wants what it
//! may not have.

use crate::calls::{Told, Why, Wish};
use crate::leases::Leases;
use std::collections::{BTreeMap, HashMap};
use std::time::{Duration, Instant, SystemTime, UNIX_EPOCH};

/// How many wants of a client are noted.
const OF_A_CLIENT: usize = 1024;

/// How many are told at once.
const TOLD: usize = 64;

/// How often it is looked whether the holder of a lease that is wanted may have it still.
const LOOK: Duration = Duration::from_secs(1);

/// A lease that another client wants.
#[derive(Clone, Copy, Debug, PartialEq, Eq)]
pub struct Want {
    /// Who wants it.
    pub by: u32,
    pub node: u32,
    /// Goes up with each want that is new, and with the first one behind a lease that is taken anew.
    pub serial: u64,
    /// Its holder gave the lease up and took it again: that is to be told of it once more.
    is_anew: bool,
    /// When it was asked for first, and last. In between it was asked for again and again.
    first: Instant,
    last: Instant,
    /// When it was looked last whether the holder may have the lease.
    looked: Option<Instant>,
}

/// What a client is told of.
#[derive(Clone, Copy, Debug, PartialEq, Eq)]
pub enum What {
    /// Another one wants a lease of it.
    Lease = 0,
    /// It waits for a lock, and something in the way of that has gone.
    Lock = 1,
    /// It waits for a lease, and another one has given that up.
    Free = 2,
}

/// What is told to a client.
#[derive(Clone, Copy, Debug, PartialEq, Eq)]
pub struct News {
    pub what: What,
    /// Who wants it.
    pub by: u32,
    pub node: u32,
    pub serial: u64,
}

/// What an answer has changed.
#[derive(Debug, Default, PartialEq, Eq)]
pub struct Noted {
    /// Whether somebody is to be told.
    pub is_new: bool,
    /// The holders of the node's leases of whom it is to be looked whether they may have them still.
    pub doubtful: Vec<u32>,
}

/// All wants, by the node whose lease is wanted and who holds it.
#[derive(Debug)]
pub struct Wants {
    of: HashMap<(u32, u32), Want>,
    /// How many are noted of each client that wants some.
    counts: BTreeMap<u32, usize>,
    serial: u64,
    /// How long one is wanted until it isn't renewed, and how long a want lasts that isn't told again.
    time: Duration,
}

impl Default for Wants {
    fn default() -> Wants {
        // Serials of an earlier kfsd are lower, unless the clock was set back. Then they are far above.
        let seconds = SystemTime::now().duration_since(UNIX_EPOCH).map_or(0, |since| since.as_secs());
        Wants { of: HashMap::new(), counts: BTreeMap::new(), serial: seconds << 20, time: Duration::from_secs(30) }
    }
}

impl Wants {
    /// Sets how long a lease is renewed that another client wants.
    pub fn set_time(&mut self, time: Duration) {
        self.time = time;
    }

    /// The next serial, of something else that is told with the wants.
    pub fn next_serial(&mut self) -> u64 {
        self.serial += 1;
        self.serial
    }

    /// The serial behind which is told. One above all is of an earlier kfsd, when the clock went before this one's: nothing is
    /// behind it.
    pub fn known(&self, behind: u64) -> u64 {
        if behind > self.serial {
            0
        } else {
            behind
        }
    }

    /// Takes over how a wish was answered.
    pub fn apply(&mut self, wish: &Wish, told: Told, leases: &Leases, now: Instant) -> Noted {
        match (told, wish.node) {
            (Told::NoLease(Why::Held(least)), Some(node)) => {
                let mut holders = leases.in_the_way(node, wish);
                if holders.is_empty() {
                    holders.push(least);
                }
                let before = self.serial;
                let doubtful = holders.into_iter().filter(|holder| self.note(node, *holder, wish.client, now)).collect();
                Noted { is_new: self.serial > before, doubtful }
            }
            (Told::Leased(node), _) => {
                self.retain(|(on, _), want| want.by != wish.client || *on != node);
                Noted::default()
            }
            _ => Noted::default(),
        }
    }

    /// A client gets a lease on a node that it hasn't. Who wants it wants another lease from now on than the one before; it
    /// has wanted it for as long, so who gives a lease up and takes it again doesn't keep it by that.
    pub fn taken(&mut self, client: u32, node: u32) {
        if let Some(want) = self.of.get_mut(&(node, client)) {
            want.is_anew = true;
        }
    }

    /// Notes a want. Answers whether it is to be looked whether the holder may have the lease.
    fn note(&mut self, node: u32, holder: u32, by: u32, now: Instant) -> bool {
        let (time, key) = (self.time, (node, holder));
        match self.of.get(&key).copied() {
            Some(want) if now.duration_since(want.last) <= time => {
                let is_due = want.looked.map_or(true, |looked| now.duration_since(looked) >= LOOK);
                let looked = if is_due { Some(now) } else { want.looked };
                self.serial += u64::from(want.is_anew);
                let serial = if want.is_anew { self.serial } else { want.serial };
                self.put(key, Want { by, last: now, looked, serial, is_anew: false, ..want });
                is_due
            }
            found if found.is_some() || self.has_room(by, now) => {
                self.serial += 1;
                let looked = Some(now);
                self.put(key, Want { by, node, serial: self.serial, is_anew: false, first: now, last: now, looked });
                true
            }
            _ => false,
        }
    }

    fn put(&mut self, key: (u32, u32), want: Want) {
        *self.counts.entry(want.by).or_default() += 1;
        if let Some(before) = self.of.insert(key, want) {
            uncount(&mut self.counts, before.by);
        }
    }

    fn retain(&mut self, is_left: impl Fn(&(u32, u32), &Want) -> bool) {
        let counts = &mut self.counts;
        self.of.retain(|key, want| {
            let is_left = is_left(key, want);
            if !is_left {
                uncount(counts, want.by);
            }
            is_left
        });
    }

    fn count(&self, by: u32) -> usize {
        self.counts.get(&by).copied().unwrap_or(0)
    }

    /// Whether one more of a client may be noted. Those that were given up are forgotten where there are many.
    fn has_room(&mut self, by: u32, now: Instant) -> bool {
        if self.count(by) < OF_A_CLIENT {
            return true;
        }
        let time = self.time;
        self.retain(|_, want| now.duration_since(want.last) <= time);
        self.count(by) < OF_A_CLIENT
    }

    /// Forgets what was given up.
    pub fn forget_old(&mut self, now: Instant) {
        let time = self.time;
        self.retain(|_, want| now.duration_since(want.last) <= time);
    }

    /// What a client holds that is wanted, behind a serial, and what else is news to it: those first that were first.
    pub fn told(&self, holder: u32, behind: u64, more: impl Iterator<Item = News>, now: Instant) -> Vec<News> {
        let behind = self.known(behind);
        let is_told = |want: &Want| want.serial > behind && now.duration_since(want.last) <= self.time;
        let wanted = self.of.iter().filter(|((_, of), _)| *of == holder).map(|(_, want)| *want).filter(is_told);
        let wanted = wanted.map(|want| News { what: What::Lease, by: want.by, node: want.node, serial: want.serial });
        let mut found: Vec<News> = wanted.chain(more).collect();
        found.sort_by_key(|news| news.serial);
        found.truncate(TOLD);
        found
    }

    /// Whether another client has wanted the lease of this one on a node for so long that it doesn't get it anew.
    pub fn forbid(&self, client: u32, node: u32, now: Instant) -> bool {
        let is_long = |want: &Want| now.duration_since(want.last) <= self.time && now.duration_since(want.first) >= self.time;
        self.of.get(&(node, client)).map_or(false, is_long)
    }

    /// All wants with who holds what is wanted, for those who look.
    pub fn all(&self, now: Instant) -> Vec<(u32, Want, Duration)> {
        let mut found: Vec<_> = self
            .of
            .iter()
            .filter(|(_, want)| now.duration_since(want.last) <= self.time)
            .map(|((_, holder), want)| (*holder, *want, now.duration_since(want.first)))
            .collect();
        found.sort_by_key(|(_, want, _)| want.serial);
        found
    }
}

fn uncount(counts: &mut BTreeMap<u32, usize>, by: u32) {
    match counts.get_mut(&by) {
        Some(count) if *count > 1 => *count -= 1,
        _ => drop(counts.remove(&by)),
    }
}

#[cfg(test)]
mod tests {
    use super::*;
    use crate::calls::Note;
    use std::iter::empty;

    const HELD: Told = Told::NoLease(Why::Held(7));

    fn wish(client: u32, node: u32) -> Wish {
        Wish { client, writes: true, end: 100, node: Some(node) }
    }

    fn seconds(count: u64) -> Duration {
        Duration::from_secs(count)
    }

    /// Client 7 has a lease on node 5.
    fn held() -> Leases {
        let mut leases = Leases::default();
        leases.apply(&Note::Lease(wish(7, 5)), Told::Leased(5));
        leases
    }

    /// Whether client 8 is the first to want node 5, or wants it anew.
    fn is_new(wants: &mut Wants, by: u32, now: Instant) -> bool {
        wants.apply(&wish(by, 5), HELD, &held(), now).is_new
    }

    #[test]
    fn who_holds_a_lease_is_told_once_for_a_want() {
        let (mut wants, now) = (Wants::default(), Instant::now());
        assert!(is_new(&mut wants, 8, now));
        let serial = wants.told(7, 0, empty(), now)[0].serial;
        assert_eq!(wants.told(7, 0, empty(), now)[0].node, 5);
        assert!(wants.told(8, 0, empty(), now).is_empty() && wants.told(7, serial, empty(), now).is_empty());
        assert!(!is_new(&mut wants, 9, now + seconds(20)));
        assert_eq!(wants.told(7, 0, empty(), now + seconds(40))[0].by, 9);
        assert!(wants.told(7, 0, empty(), now + seconds(51)).is_empty());
        assert!(is_new(&mut wants, 8, now + seconds(60)));
        assert!(wants.told(7, serial, empty(), now + seconds(60))[0].serial > serial);
        // the serial of a kfsd whose clock went a day before
        assert_eq!(wants.told(7, serial + (86_400 << 20), empty(), now + seconds(60)).len(), 1);
        // by a path of which nobody has said where it leads nothing is wanted
        let nowhere = Wish { node: None, ..wish(8, 5) };
        assert_eq!(Wants::default().apply(&nowhere, HELD, &held(), now), Noted::default());
    }

    #[test]
    fn who_takes_a_lease_again_is_told_again() {
        let (mut wants, now) = (Wants::default(), Instant::now());
        assert!(is_new(&mut wants, 8, now));
        let serial = wants.told(7, 0, empty(), now)[0].serial;
        wants.taken(7, 6);
        wants.taken(8, 5);
        assert!(!is_new(&mut wants, 8, now + seconds(10)));
        wants.taken(7, 5);
        assert!(wants.told(7, serial, empty(), now + seconds(10)).is_empty());
        assert!(is_new(&mut wants, 8, now + seconds(20)));
        let again = wants.told(7, serial, empty(), now + seconds(20))[0].serial;
        assert!(again > serial && wants.told(7, again, empty(), now + seconds(20)).is_empty());
        assert!(!is_new(&mut wants, 9, now + seconds(25)));
        // it is wanted since the first time
        assert!(wants.forbid(7, 5, now + seconds(30)));
    }

    #[test]
    fn a_lease_that_is_wanted_for_long_is_not_renewed() {
        let (mut wants, now) = (Wants::default(), Instant::now());
        for at in [0, 25] {
            is_new(&mut wants, 8, now + seconds(at));
        }
        assert!(!wants.forbid(7, 5, now + seconds(29)));
        assert!(wants.forbid(7, 5, now + seconds(30)));
        assert!(wants.forbid(7, 5, now + seconds(55)));
        assert!(!wants.forbid(7, 6, now + seconds(55)));
        assert!(!wants.forbid(8, 5, now + seconds(55)));
        // nobody wants it any more
        assert!(!wants.forbid(7, 5, now + seconds(56)));
    }

    #[test]
    fn a_want_ends_when_it_is_granted() {
        let (mut wants, leases, now) = (Wants::default(), held(), Instant::now());
        is_new(&mut wants, 8, now);
        wants.apply(&wish(8, 6), Told::Leased(6), &leases, now);
        assert_eq!(wants.told(7, 0, empty(), now).len(), 1);
        wants.apply(&wish(8, 5), Told::Leased(5), &leases, now);
        assert!(wants.told(7, 0, empty(), now).is_empty() && wants.counts.is_empty());
    }

    #[test]
    fn a_holder_is_looked_at_once_a_second() {
        let (mut wants, now) = (Wants::default(), Instant::now());
        let doubtful =
            |wants: &mut Wants, millis| wants.apply(&wish(8, 5), HELD, &held(), now + Duration::from_millis(millis)).doubtful;
        assert_eq!(doubtful(&mut wants, 0), [7]);
        assert!(doubtful(&mut wants, 500).is_empty());
        assert_eq!(doubtful(&mut wants, 1000), [7]);
        assert!(doubtful(&mut wants, 1999).is_empty());
    }

    #[test]
    fn a_client_has_only_so_many_wants() {
        let (mut wants, leases, now) = (Wants::default(), held(), Instant::now());
        for node in 0..2 * OF_A_CLIENT as u32 {
            wants.apply(&wish(8, node), HELD, &leases, now);
        }
        assert_eq!((wants.all(now).len(), wants.count(8)), (OF_A_CLIENT, OF_A_CLIENT));
        assert_eq!(wants.told(7, 0, empty(), now).len(), TOLD);
        // another one may want the same
        wants.apply(&wish(9, 0), HELD, &leases, now);
        assert_eq!((wants.count(8), wants.count(9)), (OF_A_CLIENT - 1, 1));
        wants.forget_old(now + seconds(31));
        assert!(wants.of.is_empty() && wants.counts.is_empty());
    }
}

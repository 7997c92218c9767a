//! The leases of the desk, as its answers tell them.

use crate::calls::{Change, Note, Told, Wish};
use std::collections::{BTreeMap, BTreeSet};

/// A lease on a node.
#[derive(Clone, Copy, Debug, PartialEq, Eq)]
pub struct Lease {
    pub writes: bool,
    /// It is live while the moment is below this.
    pub end: u64,
}

/// All leases, and the moment. No path is kept: a path has up to 65,535 bytes, and whoever asks chooses it.
#[derive(Debug, Default)]
pub struct Leases {
    pub moment: u64,
    /// By node and client.
    held: BTreeMap<(u32, u32), Lease>,
    /// Their ends, each with the node and the client: what is due is found without going through all.
    ends: BTreeSet<(u64, u32, u32)>,
}

impl Leases {
    /// No leases, at a moment.
    pub fn at(moment: u64) -> Leases {
        Leases { moment, ..Leases::default() }
    }

    /// How many there are.
    pub fn len(&self) -> usize {
        self.held.len()
    }

    /// Whether there is none.
    pub fn is_empty(&self) -> bool {
        self.held.is_empty()
    }

    /// All, by node and client.
    pub fn all(&self) -> impl Iterator<Item = ((u32, u32), Lease)> + '_ {
        self.held.iter().map(|(key, lease)| (*key, *lease))
    }

    /// The lease of a client on a node.
    pub fn of(&self, node: u32, client: u32) -> Option<Lease> {
        self.held.get(&(node, client)).copied()
    }

    /// A client has this lease on a node, in place of the one that it had.
    pub fn put(&mut self, node: u32, client: u32, lease: Lease) {
        self.end(node, client);
        self.held.insert((node, client), lease);
        self.ends.insert((lease.end, node, client));
    }

    fn end(&mut self, node: u32, client: u32) {
        if let Some(lease) = self.held.remove(&(node, client)) {
            self.ends.remove(&(lease.end, node, client));
        }
    }

    /// Takes over what a call has done, by its answer.
    pub fn apply(&mut self, note: &Note, told: Told) {
        match (note, told) {
            (Note::Lease(wish), Told::Leased(node)) => {
                self.put(node, wish.client, Lease { writes: wish.writes, end: wish.end });
            }
            (Note::Drop { client }, Told::Dropped(node)) => self.end(node, *client),
            (_, Told::Ticked(moment)) => {
                self.moment = moment;
                self.end_until(moment);
            }
            _ => {}
        }
    }

    fn end_until(&mut self, moment: u64) {
        while let Some((end, node, client)) = self.ends.iter().next().copied().filter(|(end, ..)| *end <= moment) {
            self.ends.remove(&(end, node, client));
            self.held.remove(&(node, client));
        }
    }

    /// Takes over what a log has changed that has landed: the leases on a node that is gone have ended.
    pub fn landed(&mut self, changes: &[(u32, Change)]) {
        for (node, _) in changes.iter().filter(|(_, change)| *change == Change::Gone) {
            let clients: Vec<_> = self.on_node(*node).map(|(client, _)| client).collect();
            clients.into_iter().for_each(|client| self.end(*node, client));
        }
    }

    fn on_node(&self, node: u32) -> impl Iterator<Item = (u32, Lease)> + '_ {
        self.held.range((node, 0)..=(node, u32::MAX)).map(|((_, client), lease)| (*client, *lease))
    }

    /// The clients whose leases on a node don't go with a wish.
    pub fn in_the_way(&self, node: u32, wish: &Wish) -> Vec<u32> {
        let others = self.on_node(node).filter(|(client, lease)| *client != wish.client && (lease.writes || wish.writes));
        others.map(|(client, _)| client).collect()
    }

    /// The moment that the desk is to be told at this one: now, where a lease ends by it, or where the last one is so old.
    pub fn tick_due(&self, now: u64, longest: u64) -> Option<u64> {
        let (first_end, ..) = *self.ends.iter().next()?;
        let is_due = first_end <= now || now.saturating_sub(self.moment) >= longest;
        (now > self.moment && is_due).then_some(now)
    }
}

#[cfg(test)]
mod tests {
    use super::*;
    use crate::calls::Wish;

    fn wish(client: u32, end: u64) -> Note {
        Note::Lease(Wish { client, writes: true, end, node: None })
    }

    fn keys(leases: &Leases) -> Vec<(u32, u32)> {
        leases.all().map(|(key, _)| key).collect()
    }

    #[test]
    fn leases_follow_the_answers() {
        let mut leases = Leases::default();
        leases.apply(&wish(7, 10), Told::Leased(3));
        leases.apply(&wish(7, 20), Told::Leased(4));
        leases.apply(&wish(8, 20), Told::Else);
        assert_eq!(keys(&leases), [(3, 7), (4, 7)]);
        leases.apply(&Note::Nothing, Told::Ticked(10));
        assert_eq!((leases.moment, keys(&leases)), (10, vec![(4, 7)]));
        leases.apply(&wish(7, 20), Told::Leased(5));
        leases.landed(&[(5, Change::Gone), (4, Change::Bytes)]);
        assert_eq!(keys(&leases), [(4, 7)]);
        leases.apply(&Note::Drop { client: 7 }, Told::Dropped(4));
        assert!(leases.is_empty() && leases.ends.is_empty());
    }

    #[test]
    fn a_lease_that_is_renewed_ends_by_its_last_end() {
        let mut leases = Leases::default();
        leases.apply(&wish(7, 10), Told::Leased(3));
        leases.apply(&wish(7, 30), Told::Leased(3));
        leases.apply(&wish(7, 20), Told::Leased(4));
        assert_eq!((leases.tick_due(19, 60), leases.tick_due(20, 60)), (None, Some(20)));
        leases.apply(&Note::Nothing, Told::Ticked(29));
        assert_eq!((keys(&leases), leases.ends.len()), (vec![(3, 7)], 1));
        leases.apply(&Note::Nothing, Told::Ticked(30));
        assert!(leases.is_empty() && leases.ends.is_empty());
    }

    #[test]
    fn a_tick_is_due_for_an_end_or_after_a_while() {
        let mut leases = Leases::default();
        assert_eq!(leases.tick_due(1000, 60), None);
        leases.apply(&wish(7, 100), Told::Leased(3));
        assert_eq!(leases.tick_due(59, 60), None);
        assert_eq!(leases.tick_due(60, 60), Some(60));
        leases.apply(&Note::Nothing, Told::Ticked(60));
        assert_eq!(leases.tick_due(99, 60), None);
        assert_eq!(leases.tick_due(100, 60), Some(100));
    }
}

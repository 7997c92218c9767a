//! The leases that a client has, as it was told.

use crate::desk::LeaseKind;
use crate::judge::Held;
use std::cell::Cell;
use std::collections::{BTreeMap, BTreeSet};

/// A lease on a node.
#[derive(Clone, Debug)]
struct Lease {
    kind: LeaseKind,
    end: u64,
    /// A number of the time since which it is held without a gap.
    since: u64,
    /// Whether it served something since it was granted.
    is_used: Cell<bool>,
}

/// Leases by node, and the moment by which they end.
#[derive(Clone, Debug, Default)]
pub struct Leases {
    rows: BTreeMap<u32, Lease>,
    /// Their ends, least first.
    ends: BTreeSet<(u64, u32)>,
    moment: u64,
    /// How many were granted where there was none.
    granted: u64,
}

impl Leases {
    /// It is this moment now. Those that have ended are gone: their nodes are told. Where the server was killed its moment may be
    /// an earlier one than before: by that one leases end from now on.
    pub fn set_moment(&mut self, moment: u64) -> Vec<u32> {
        self.moment = moment;
        let ended: Vec<u32> = self.ending_within(0).collect();
        ended.iter().for_each(|number| self.forget(*number));
        ended
    }

    /// A lease was granted. It takes the place of an earlier one.
    pub fn grant(&mut self, number: u32, kind: LeaseKind, end: u64) {
        let since = self.since(number).unwrap_or_else(|| {
            self.granted += 1;
            self.granted
        });
        self.forget(number);
        self.rows.insert(number, Lease { kind, end, since, is_used: Cell::new(false) });
        self.ends.insert((end, number));
    }

    /// A lease is gone.
    pub fn forget(&mut self, number: u32) {
        if let Some(lease) = self.rows.remove(&number) {
            self.ends.remove(&(lease.end, number));
        }
    }

    /// None is believed any more.
    pub fn forget_all(&mut self) {
        self.rows.clear();
        self.ends.clear();
    }

    /// The nodes whose leases end within so many moments.
    pub fn ending_within(&self, moments: u64) -> impl Iterator<Item = u32> + '_ {
        let until = self.moment.saturating_add(moments);
        self.ends.iter().take_while(move |(end, _)| *end <= until).map(|(_, number)| *number)
    }

    /// Whether a lease of any kind is live on the node: then nobody else changes it.
    pub fn reads(&self, number: u32) -> bool {
        self.live(number).is_some()
    }

    /// The same, where it serves nothing: such a lease needn't be renewed.
    pub fn is_live(&self, number: u32) -> bool {
        self.since(number).is_some()
    }

    /// A number that is the node's while a lease on it is live without a gap.
    pub fn since(&self, number: u32) -> Option<u64> {
        self.rows.get(&number).filter(|lease| lease.end > self.moment).map(|lease| lease.since)
    }

    /// All nodes on which there is a lease.
    pub fn numbers(&self) -> Vec<u32> {
        self.rows.keys().copied().collect()
    }

    fn live(&self, number: u32) -> Option<&Lease> {
        let lease = self.rows.get(&number).filter(|lease| lease.end > self.moment)?;
        lease.is_used.set(true);
        Some(lease)
    }

    /// The leases that end within so many moments, and were used or are needed.
    pub fn due(&self, within: u64, is_needed: impl Fn(u32) -> bool) -> Vec<(u32, LeaseKind)> {
        let due = self.ending_within(within).filter_map(|number| Some((number, self.rows.get(&number)?)));
        let due = due.filter(|(number, lease)| lease.is_used.get() || is_needed(*number));
        due.map(|(number, lease)| (number, lease.kind)).collect()
    }
}

impl Held for Leases {
    fn holds(&self, number: u32) -> bool {
        matches!(self.live(number), Some(lease) if lease.kind == LeaseKind::Write)
    }
}

#[cfg(test)]
mod tests {
    use super::*;

    #[test]
    fn a_lease_ends_at_its_moment() {
        let mut leases = Leases::default();
        leases.grant(5, LeaseKind::Write, 10);
        leases.grant(6, LeaseKind::Read, 20);
        assert!(leases.holds(5) && !leases.holds(6) && leases.reads(6));
        assert_eq!(leases.set_moment(9), []);
        assert!(leases.holds(5));
        assert_eq!(leases.set_moment(10), [5]);
        assert!(!leases.reads(5) && leases.reads(6));
    }

    #[test]
    fn what_nobody_used_is_not_renewed() {
        let mut leases = Leases::default();
        leases.grant(5, LeaseKind::Write, 10);
        leases.grant(6, LeaseKind::Read, 10);
        assert!(leases.holds(5));
        assert_eq!(leases.due(10, |_| false), [(5, LeaseKind::Write)]);
        assert_eq!(leases.due(10, |number| number == 6), [(5, LeaseKind::Write), (6, LeaseKind::Read)]);
        assert_eq!(leases.due(9, |_| true), []);
        let since = leases.since(5);
        leases.grant(5, LeaseKind::Write, 12);
        assert_eq!((leases.due(10, |_| false), leases.since(5)), (vec![], since));
        assert_eq!(leases.set_moment(11), [6]);
        assert_eq!(leases.since(6), None);
        leases.grant(6, LeaseKind::Read, 12);
        assert!(leases.since(6) > since);
        leases.forget(6);
        assert_eq!(leases.numbers(), [5]);
    }
}

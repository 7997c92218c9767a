//! When nodes were changed: kfsd keeps the time of the landing, which the desk doesn't know.

use crate::calls::{Change, Landing};
use std::collections::{HashMap, VecDeque};
use std::time::{SystemTime, UNIX_EPOCH};

/// By the prints of how many last landings it is found where the journal goes on behind what is known.
const PRINTS: usize = 16;

/// What is kept of a node. Times are in nanoseconds since 1970.
#[derive(Clone, Copy, Debug, PartialEq, Eq)]
pub struct Stamp {
    /// When a file's bytes or a directory's names were.
    pub modified: i64,
    /// When anything of it was.
    pub changed: i64,
    /// When it was modified, at the time at which all its blocks went to slower tiers; 0 where they didn't.
    pub moved: i64,
    /// When it was modified, as its owner has set it since.
    pub set: Option<i64>,
    /// When it was made, later than all that were made before; 0 where that isn't known.
    pub born: i64,
    /// What its owner has marked it with. kfsd doesn't look into it.
    pub marks: u8,
}

impl Stamp {
    /// Of a node that is changed as a whole at this time.
    fn at(time: i64) -> Stamp {
        Stamp { modified: time, changed: time, moved: 0, set: None, born: 0, marks: 0 }
    }

    /// When it was modified, as it is told.
    pub fn told(&self) -> i64 {
        self.set.unwrap_or(self.modified)
    }
}

/// The time now.
pub fn now() -> i64 {
    SystemTime::now().duration_since(UNIX_EPOCH).map_or(0, |since| since.as_nanos() as i64)
}

/// What is known of all landings.
#[derive(Clone, Debug, Default, PartialEq, Eq)]
pub struct Landed {
    /// A mark of all landings in their order: a node is born with that of the landing which made it. Where landings are taken over
    /// once more behind a kill, it is the same again.
    pub born: i64,
    /// The prints of the last landings, that of the last one at the end.
    pub prints: VecDeque<u64>,
}

/// All that is known at once.
#[derive(Clone, Debug, Default, PartialEq, Eq)]
pub struct Known {
    pub stamps: Vec<(u32, Stamp)>,
    pub landed: Landed,
}

/// The stamps of all nodes of which a landing is known.
#[derive(Debug, Default)]
pub struct Times {
    of: HashMap<u32, Stamp>,
    /// What isn't kept yet: none where the node is gone.
    unsaved: HashMap<u32, Option<Stamp>>,
    landed: Landed,
}

impl Times {
    /// Takes what was kept.
    pub fn begin_with(&mut self, kept: Known) {
        self.of = kept.stamps.into_iter().collect();
        self.landed = kept.landed;
    }

    /// How many of the last landings of a journal are known, of which so many at most aren't; none where that can't be told. It is
    /// told by the prints of the last known ones, all of which have to be there. Where they are in several places the first one
    /// counts: to take a landing over once more does less harm than to leave one out.
    pub fn known_of(&self, recent: &VecDeque<Landing>, new: usize) -> Option<usize> {
        let prints = &self.landed.prints;
        let is_at = |first: &usize| recent.iter().skip(*first).zip(prints).all(|(landing, print)| landing.print == *print);
        let last = recent.len().checked_sub(prints.len()).filter(|_| !prints.is_empty())?;
        (last.saturating_sub(new)..=last).find(is_at).map(|first| first + prints.len())
    }

    /// All landings of a journal are known now, of which these are the last ones.
    pub fn go_on_behind(&mut self, recent: &VecDeque<Landing>) {
        let over = recent.len().saturating_sub(PRINTS);
        self.landed.prints = recent.iter().skip(over).map(|landing| landing.print).collect();
    }

    /// All that is known now.
    pub fn all(&self) -> Known {
        let stamps = self.of.iter().map(|(node, stamp)| (*node, *stamp)).collect();
        Known { stamps, landed: self.landed.clone() }
    }

    /// The stamp of a node.
    pub fn of(&self, node: u32) -> Option<Stamp> {
        self.of.get(&node).copied()
    }

    /// A call has changed nodes at this time.
    pub fn changed(&mut self, landing: &Landing, time: i64) {
        self.take(landing, time, false);
    }

    /// The same, maybe once more. Nodes that it has made are born later than they were then, so marks aren't compared with that.
    pub fn changed_again(&mut self, landing: &Landing, time: i64) {
        self.take(landing, time, true);
    }

    fn take(&mut self, landing: &Landing, time: i64, is_again: bool) {
        self.landed.born = born_behind(self.landed.born, landing.print);
        for (node, change) in &landing.changes {
            let before = self.of(*node);
            let stamp = self.after(before, change, time, is_again);
            match stamp {
                Some(stamp) => self.of.insert(*node, stamp),
                None => self.of.remove(node),
            };
            if stamp != before || stamp.is_none() {
                self.unsaved.insert(*node, stamp);
            }
        }
        self.landed.prints.push_back(landing.print);
        if self.landed.prints.len() > PRINTS {
            self.landed.prints.pop_front();
        }
    }

    /// The stamp of a node behind a change; none where the node is gone.
    fn after(&self, before: Option<Stamp>, change: &Change, time: i64, is_again: bool) -> Option<Stamp> {
        let known = before.unwrap_or_else(|| Stamp::at(time));
        let born = before.map_or(0, |stamp| stamp.born);
        match change {
            Change::Gone => None,
            Change::Made => Some(self.made(time)),
            Change::Bytes => Some(Stamp { born, marks: known.marks, ..Stamp::at(time) }),
            Change::Header => Some(Stamp { changed: time, ..known }),
            // Else it is gone.
            Change::Time(set) => {
                Some(Stamp { changed: time, set: Some(set.time), ..known }).filter(|_| set.is_first || before.is_some())
            }
            Change::Marks(set) if set.born == born || (is_again && before.is_some()) => {
                Some(Stamp { changed: time, marks: set.marks, ..known })
            }
            // It is gone, and another one may have its number.
            Change::Marks(_) => before,
        }
    }

    /// The stamp of a node that is made at this time.
    fn made(&self, time: i64) -> Stamp {
        Stamp { born: self.landed.born, ..Stamp::at(time) }
    }

    /// So many nodes whose blocks aren't all on slower tiers, those that were written longest ago, and when each was.
    pub fn oldest(&self, count: usize) -> Vec<(u32, i64)> {
        let left = self.of.iter().filter(|(_, stamp)| stamp.moved != stamp.modified);
        let mut found: Vec<_> = left.map(|(node, stamp)| (*node, stamp.modified)).collect();
        let age = |(node, modified): &(u32, i64)| (*modified, *node);
        if found.len() > count {
            found.select_nth_unstable_by_key(count, age);
            found.truncate(count);
        }
        found.sort_unstable_by_key(age);
        found
    }

    /// All blocks of a file are on slower tiers that was modified at this time. Where it was written since, they aren't.
    pub fn is_moved(&mut self, node: u32, modified: i64) {
        if let Some(stamp) = self.of.get_mut(&node).filter(|stamp| stamp.modified == modified) {
            stamp.moved = modified;
            self.unsaved.insert(node, Some(*stamp));
        }
    }

    /// Takes what isn't kept yet.
    pub fn take_unsaved(&mut self) -> (HashMap<u32, Option<Stamp>>, Landed) {
        (std::mem::take(&mut self.unsaved), self.landed.clone())
    }
}

/// The mark of all landings behind one more: above 0, and another one for nearly each other course.
fn born_behind(before: i64, print: u64) -> i64 {
    // The odd number nearest to 2^64 by the golden ratio spreads the bits.
    let mixed = ((before as u64).rotate_left(23) ^ print).wrapping_mul(0x9e37_79b9_7f4a_7c15);
    ((mixed >> 1) as i64).max(1)
}

#[cfg(test)]
mod tests {
    use super::*;
    use crate::calls::{Marking, Setting};

    fn landing(changes: &[(u32, Change)], print: u64) -> Landing {
        Landing { changes: changes.to_vec(), print }
    }

    impl Times {
        fn change(&mut self, changes: &[(u32, Change)], time: i64) {
            self.changed(&landing(changes, 0), time);
        }
    }

    #[test]
    fn stamps_follow_landings() {
        let mut times = Times::default();
        times.change(&[(1, Change::Bytes), (5, Change::Header)], 100);
        assert_eq!(times.of(5), Some(Stamp::at(100)));
        times.change(&[(5, Change::Header)], 200);
        assert_eq!(times.of(5), Some(Stamp { changed: 200, ..Stamp::at(100) }));
        times.change(&[(5, Change::Header), (5, Change::Bytes)], 300);
        assert_eq!(times.of(5), Some(Stamp::at(300)));
        times.change(&[(5, Change::Gone)], 400);
        assert_eq!(times.of(5), None);
        let (unsaved, _) = times.take_unsaved();
        assert_eq!((unsaved[&5], unsaved[&1]), (None, Some(Stamp::at(100))));
        assert!(times.take_unsaved().0.is_empty());
    }

    #[test]
    fn a_time_that_is_set_lasts_until_bytes_are_written() {
        let mut times = Times::default();
        times.change(&[(5, Change::Bytes)], 100);
        let set = |time, is_first| Change::Time(Setting { time, is_first });
        times.change(&[(5, set(-7, false))], 200);
        let stamp = times.of(5).unwrap();
        assert_eq!((stamp.told(), stamp.changed, stamp.modified), (-7, 200, 100));
        times.change(&[(5, Change::Header)], 300);
        assert_eq!(times.of(5).unwrap().told(), -7);
        times.change(&[(5, Change::Bytes)], 400);
        assert_eq!(times.of(5), Some(Stamp::at(400)));
        // blocks are moved by when they were written
        times.change(&[(6, Change::Bytes)], 500);
        times.change(&[(6, set(0, false)), (7, set(9, true)), (8, set(9, false))], 600);
        assert_eq!(times.oldest(9), [(5, 400), (6, 500), (7, 600)]);
        assert_eq!(times.of(7).unwrap().told(), 9);
        // it was gone before it was set
        assert_eq!(times.of(8), None);
    }

    #[test]
    fn the_oldest_go_first_and_once() {
        let mut times = Times::default();
        times.change(&[(5, Change::Bytes), (6, Change::Bytes)], 100);
        times.change(&[(4, Change::Bytes)], 50);
        times.change(&[(5, Change::Header)], 200);
        assert_eq!(times.oldest(9), [(4, 50), (5, 100), (6, 100)]);
        assert_eq!(times.oldest(2), [(4, 50), (5, 100)]);
        assert_eq!((times.oldest(1), times.oldest(0)), (vec![(4, 50)], vec![]));
        times.is_moved(4, 50);
        times.is_moved(5, 99);
        assert_eq!(times.oldest(9), [(5, 100), (6, 100)]);
        times.change(&[(4, Change::Header)], 300);
        assert_eq!(times.oldest(9), [(5, 100), (6, 100)]);
        times.change(&[(4, Change::Bytes)], 400);
        assert_eq!(times.oldest(9), [(5, 100), (6, 100), (4, 400)]);
    }
    #[test]
    fn a_node_is_born_once() {
        let mut times = Times::default();
        let born = |times: &Times, node| times.of(node).unwrap().born;
        times.changed(&landing(&[(5, Change::Made), (6, Change::Made), (1, Change::Bytes), (5, Change::Header)], 7), 100);
        let (first, known) = (born(&times, 5), times.all());
        assert!(first > 0 && born(&times, 6) == first && born(&times, 1) == 0);
        let more = [landing(&[(5, Change::Bytes)], 8), landing(&[(5, Change::Gone)], 9), landing(&[(5, Change::Made)], 7)];
        times.changed(&more[0], 200);
        assert_eq!((born(&times, 5), times.of(5).unwrap().modified), (first, 200));
        times.changed(&more[1], 50);
        times.changed(&more[2], 60);
        assert_eq!(born(&times, 6), first);
        assert_ne!(born(&times, 5), first);
        // What wasn't kept is taken over again behind a kill.
        let mut other = Times::default();
        other.begin_with(known);
        more.iter().for_each(|landing| other.changed_again(landing, 500));
        assert_eq!(born(&other, 5), born(&times, 5));
    }

    #[test]
    fn marks_go_with_their_node() {
        let mut times = Times::default();
        let marks = |times: &Times, node| times.of(node).map(|stamp| (stamp.marks, stamp.changed));
        let set = |marks, born| Change::Marks(Marking { marks, born });
        times.change(&[(5, Change::Made)], 100);
        let first = times.of(5).unwrap().born;
        times.change(&[(5, set(1, first)), (1, set(3, 0)), (6, set(1, first))], 200);
        assert_eq!((marks(&times, 5), marks(&times, 1), marks(&times, 6)), (Some((1, 200)), Some((3, 200)), None));
        times.change(&[(5, Change::Bytes), (5, Change::Header)], 300);
        assert_eq!(marks(&times, 5), Some((1, 300)));
        times.change(&[(5, Change::Gone)], 400);
        times.change(&[(5, Change::Made)], 500);
        // it means the one before
        times.change(&[(5, set(1, first))], 600);
        assert_eq!(marks(&times, 5), Some((0, 500)));
        times.changed_again(&landing(&[(5, set(1, first)), (6, set(1, first))], 0), 700);
        assert_eq!((marks(&times, 5), marks(&times, 6)), (Some((1, 700)), None));
    }

    #[test]
    fn it_is_told_where_a_journal_goes_on() {
        let prints = |prints: &[u64]| prints.iter().map(|print| landing(&[], *print)).collect::<VecDeque<_>>();
        let mut times = Times::default();
        assert_eq!(times.known_of(&prints(&[1, 2]), 9), None);
        times.go_on_behind(&prints(&[1, 2, 3]));
        assert_eq!(times.known_of(&prints(&[0, 1, 2, 3, 4, 5]), 9), Some(4));
        assert_eq!(times.known_of(&prints(&[1, 2, 3]), 0), Some(3));
        // the first of two places counts, but where more would be new than may be; and all have to be there
        let twice = prints(&[1, 2, 3, 1, 2, 3]);
        assert_eq!([3, 2, 0].map(|new| times.known_of(&twice, new)), [Some(3), Some(6), Some(6)]);
        for other in [&[2, 3, 4][..], &[3], &[], &[1, 2, 4, 3]] {
            assert_eq!(times.known_of(&prints(other), 9), None);
        }
        assert_eq!(times.known_of(&prints(&[1, 2, 3, 4, 5]), 1), None);
        times.changed(&landing(&[], 4), 100);
        assert_eq!(times.known_of(&prints(&[1, 2, 3, 4, 5]), 9), Some(4));
        let many: Vec<u64> = (0..PRINTS as u64 + 5).collect();
        many.iter().for_each(|print| times.changed(&landing(&[], 100 + print), 100));
        let late: Vec<u64> = (105..130).collect();
        assert_eq!(times.known_of(&prints(&late), 9), Some(PRINTS));
    }
}

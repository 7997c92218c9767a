//! How many groups a member reads at once: many where they are short, and few where they are long or etcd takes long for them.

use super::group::Group;

/// How many at first.
const FIRST: usize = 16;

/// How many at most. Groups have up to 262,144 bytes in most cases, and 1,000,000 at the most.
const MOST: usize = 128;

/// About so many bytes are read at once.
const BYTES: usize = 1 << 20;

/// How many groups are read next.
#[derive(Debug)]
pub struct Portion(usize);

impl Default for Portion {
    fn default() -> Portion {
        Portion(FIRST)
    }
}

impl Portion {
    pub fn count(&self) -> usize {
        self.0
    }

    /// These were read.
    pub fn came(&mut self, groups: &[(u64, Group)]) {
        let bytes: usize = groups.iter().map(|(_, group)| group.length()).sum();
        if bytes > 2 * BYTES {
            self.0 = (self.0 / 2).max(1);
        } else if groups.len() >= self.0 && bytes < BYTES {
            self.0 = (self.0 * 2).min(MOST);
        }
    }

    /// None came in time.
    pub fn is_late(&mut self) {
        self.0 = (self.0 / 4).max(1);
    }
}

#[cfg(test)]
mod tests {
    use super::*;

    fn groups(count: usize, bytes: usize) -> Vec<(u64, Group)> {
        let group = Group { time: 0, moment: 0, calls: vec![(vec![0; bytes], vec![])] };
        (0..count as u64).map(|number| (number, group.clone())).collect()
    }

    #[test]
    fn short_groups_come_many_at_once() {
        let mut portion = Portion::default();
        portion.came(&groups(FIRST - 1, 100));
        assert_eq!(portion.count(), FIRST);
        for _ in 0..10 {
            portion.came(&groups(portion.count(), 100));
        }
        assert_eq!(portion.count(), MOST);
        for _ in 0..10 {
            portion.came(&groups(portion.count(), 900_000));
        }
        assert_eq!(portion.count(), 2);
    }

    #[test]
    fn where_none_comes_in_time_fewer_are_asked_for() {
        let mut portion = Portion::default();
        for _ in 0..10 {
            portion.is_late();
        }
        assert_eq!(portion.count(), 1);
        portion.came(&groups(1, 100));
        assert_eq!(portion.count(), 2);
    }
}

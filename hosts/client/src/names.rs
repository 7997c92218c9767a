//! Names of a directory on which a lease is held: those that were told, and how far they are known whole.

use crate::name::Name;
use std::collections::{BTreeMap, BTreeSet};
use std::ops::Bound;

/// Up to where all names are known.
#[derive(Clone, Debug, Default, PartialEq, Eq)]
enum Whole {
    /// Nowhere.
    #[default]
    None,
    /// Up to this one.
    Until(Name),
    /// To the end.
    All,
}

/// What is known of a directory's names.
#[derive(Debug, Default)]
pub(crate) struct Names {
    of: BTreeMap<Name, Option<u32>>,
    /// The nodes to which they lead.
    numbers: BTreeSet<u32>,
    whole: Whole,
    /// How often the server had to be asked for one.
    asked: u32,
    /// Whether the client may not list them.
    is_hidden: bool,
}

impl Names {
    /// Where a name leads, if that is known.
    pub fn find(&self, name: &Name) -> Option<Option<u32>> {
        match self.of.get(name) {
            Some(found) => Some(*found),
            None if self.knows(name) => Some(None),
            None => None,
        }
    }

    /// Whether all names up to this one are known.
    fn knows(&self, name: &Name) -> bool {
        match &self.whole {
            Whole::None => false,
            Whole::Until(last) => name <= last,
            Whole::All => true,
        }
    }

    /// Takes over where a name leads.
    pub fn put(&mut self, name: &Name, found: Option<u32>) {
        let before = self.of.insert(name.clone(), found);
        before.flatten().into_iter().for_each(|number| {
            self.numbers.remove(&number);
        });
        self.numbers.extend(found);
    }

    /// Takes over a list of names behind this one: whether it is the last one, too.
    pub fn put_list(&mut self, behind: Option<&Name>, names: &[(Name, u32)], is_last: bool) {
        names.iter().for_each(|(name, number)| self.put(name, Some(*number)));
        let goes_on = behind.map_or(true, |behind| self.knows(behind));
        if goes_on && is_last {
            self.whole = Whole::All;
        } else if let Some((last, _)) = names.last().filter(|(last, _)| goes_on && !self.knows(last)) {
            self.whole = Whole::Until(last.clone());
        }
    }

    /// The first names behind this one, at most so many, if all of them are known.
    pub fn list(&self, behind: Option<&Name>, most: usize) -> Option<Vec<(Name, u32)>> {
        if self.whole != Whole::All {
            return None;
        }
        let from = behind.map_or(Bound::Unbounded, Bound::Excluded);
        let names = self.of.range::<Name, _>((from, Bound::Unbounded));
        Some(names.filter_map(|(name, number)| Some((name.clone(), (*number)?))).take(most).collect())
    }

    /// The server is asked for a name. Whether names are to be listed for that, where the last list ended: a second question shows
    /// that more come.
    pub fn ask(&mut self) -> bool {
        self.asked = self.asked.saturating_add(1);
        self.asked > 1 && !self.is_hidden && self.whole != Whole::All
    }

    /// Behind which name the next list begins.
    pub fn end(&self) -> Option<Name> {
        match &self.whole {
            Whole::Until(last) => Some(last.clone()),
            _ => None,
        }
    }

    /// The client may not list them.
    pub fn hide(&mut self) {
        self.is_hidden = true;
    }

    /// Whether there is no name between these two.
    pub fn is_next(&self, name: &Name, behind: &Name) -> bool {
        let between = (Bound::Excluded(behind), Bound::Excluded(name));
        behind < name && !self.of.range::<Name, _>(between).any(|(_, number)| number.is_some())
    }

    /// Whether there is no node between these two.
    pub fn is_next_number(&self, number: u32, behind: u32) -> bool {
        behind < number && self.numbers.range((Bound::Excluded(behind), Bound::Excluded(number))).next().is_none()
    }

    /// The nodes behind a name, in the order of names.
    pub fn behind<'a>(&'a self, name: &'a Name) -> impl Iterator<Item = u32> + 'a {
        self.of.range::<Name, _>((Bound::Excluded(name), Bound::Unbounded)).filter_map(|(_, number)| *number)
    }

    /// The nodes behind one, in the order of numbers.
    pub fn behind_number(&self, number: u32) -> impl Iterator<Item = u32> + '_ {
        self.numbers.range((Bound::Excluded(number), Bound::Unbounded)).copied()
    }
}

#[cfg(test)]
mod tests {
    use super::*;

    fn name(text: &str) -> Name {
        Name::new(text.as_bytes()).unwrap()
    }

    #[test]
    fn a_name_that_was_not_listed_is_unknown() {
        let mut names = Names::default();
        assert_eq!(names.find(&name("a")), None);
        names.put_list(None, &[(name("b"), 5), (name("d"), 6)], false);
        assert_eq!((names.find(&name("a")), names.find(&name("b"))), (Some(None), Some(Some(5))));
        assert_eq!((names.find(&name("d")), names.find(&name("e"))), (Some(Some(6)), None));
        // There may be one between two lists.
        names.put_list(Some(&name("g")), &[(name("h"), 7)], true);
        assert_eq!((names.find(&name("e")), names.find(&name("h")), names.list(None, 9)), (None, Some(Some(7)), None));
        names.put_list(Some(&name("d")), &[(name("f"), 8), (name("h"), 7)], true);
        assert_eq!(names.find(&name("e")), Some(None));
        names.put(&name("b"), None);
        assert_eq!(names.list(None, 9), Some(vec![(name("d"), 6), (name("f"), 8), (name("h"), 7)]));
        assert_eq!(names.list(Some(&name("d")), 1), Some(vec![(name("f"), 8)]));
    }

    #[test]
    fn a_list_within_what_is_known_takes_nothing_back() {
        let mut names = Names::default();
        names.put_list(None, &[(name("a"), 2), (name("b"), 3), (name("c"), 4)], false);
        names.put_list(None, &[(name("a"), 2)], false);
        assert_eq!(names.find(&name("bb")), Some(None));
        assert_eq!(names.end(), Some(name("c")));
        names.put_list(Some(&name("c")), &[], true);
        assert_eq!(names.find(&name("z")), Some(None));
        names.put_list(None, &[(name("a"), 2)], false);
        assert_eq!(names.find(&name("z")), Some(None));
    }

    #[test]
    fn orders_are_those_of_names_and_of_numbers() {
        let mut names = Names::default();
        names.put_list(None, &[(name("1"), 5), (name("10"), 7), (name("2"), 6)], true);
        assert!(names.is_next(&name("10"), &name("1")) && !names.is_next(&name("2"), &name("1")));
        assert!(names.is_next_number(6, 5) && !names.is_next_number(7, 5) && !names.is_next_number(5, 6));
        assert_eq!(names.behind(&name("1")).collect::<Vec<_>>(), [7, 6]);
        assert_eq!(names.behind_number(5).collect::<Vec<_>>(), [6, 7]);
        names.put(&name("10"), None);
        assert!(names.is_next(&name("2"), &name("1")));
        assert_eq!(names.behind_number(5).collect::<Vec<_>>(), [6]);
    }
}

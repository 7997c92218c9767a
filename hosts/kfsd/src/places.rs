//! The places of the slower tiers, as far as kfsd knows which are in use.
//!
//! The desk says how many are free, and not which. So places are tried one behind another, and those that are in use are learned
//! from refusals. Each refusal takes a row of the docket: where they would be many, a tier counts as full.

/// How many refusals one free place may cost: a tier of which fewer places are free counts as full.
const SEARCH: u32 = 256;

/// Behind how many refusals in a row a tier rests, until another number of its places is free.
const TRIES: u32 = 2000;

/// A place of a tier.
#[derive(Clone, Copy, Debug, PartialEq, Eq)]
pub struct Spot {
    pub tier: u8,
    pub place: u32,
}

/// A tier as the desk tells of it.
#[derive(Clone, Copy, Debug, Default, PartialEq, Eq)]
pub struct Room {
    /// How many places it has, and how many of them are free.
    pub size: u32,
    pub free: u32,
}

/// The places of tiers 1 and 2.
#[derive(Debug, Default)]
pub struct Places([Tier; 2]);

#[derive(Debug, Default)]
struct Tier {
    /// As the desk has told it last.
    room: Room,
    /// How many are free, less those that were given out since.
    free: u32,
    /// A bit for each place that is in use or was given out, and how many these are. Some of them may be free by now.
    used: Vec<u64>,
    known: u32,
    /// The place that is tried next, and how many are passed over behind one that is in use.
    next: u32,
    step: u32,
    /// How many refusals there were in a row.
    tries: u32,
    rests: bool,
}

impl Places {
    /// The desk tells how the tiers stand. No place is given out then.
    pub fn stand(&mut self, rooms: [Room; 3]) {
        self.0.iter_mut().zip(&rooms[1..]).for_each(|(tier, room)| tier.stand(*room));
    }

    /// Whether there is a place to try.
    pub fn has_room(&self) -> bool {
        self.0.iter().any(Tier::has_room)
    }

    /// Gives out a place that may be free, one of tier 1 first.
    pub fn take(&mut self) -> Option<Spot> {
        let tiers = self.0.iter_mut().zip([1, 2]);
        tiers.filter(|(tier, _)| tier.has_room()).find_map(|(it, tier)| it.take().map(|place| Spot { tier, place }))
    }

    /// A place that was given out is in use.
    pub fn is_used(&mut self, spot: Spot) {
        if let Some(tier) = self.tier(spot) {
            tier.is_used();
        }
    }

    /// A place that was given out isn't needed.
    pub fn give_back(&mut self, spot: Spot) {
        if let Some(tier) = self.tier(spot) {
            tier.give_back(spot.place);
        }
    }

    /// A place that was given out was free.
    pub fn was_free(&mut self, spot: Spot) {
        if let Some(tier) = self.tier(spot) {
            (tier.tries, tier.step) = (0, 1);
        }
    }

    fn tier(&mut self, spot: Spot) -> Option<&mut Tier> {
        self.0.get_mut(usize::from(spot.tier).checked_sub(1)?)
    }
}

impl Tier {
    fn stand(&mut self, room: Room) {
        if room != self.room {
            (self.tries, self.rests) = (0, false);
        }
        if room.size != self.room.size || room.size - self.known < room.free {
            // Some that were in use are free by now.
            self.used = vec![0; room.size as usize / 64 + 1];
            (self.known, self.step) = (0, 1);
            self.next = self.next.min(room.size.saturating_sub(1));
        }
        (self.room, self.free) = (room, room.free);
    }

    fn has_room(&self) -> bool {
        let unknown = self.room.size - self.known;
        !self.rests && unknown > 0 && unknown <= self.free.saturating_mul(SEARCH)
    }

    fn take(&mut self) -> Option<u32> {
        let place = self.first_from(self.next).or_else(|| self.first_from(0))?;
        self.used[place as usize / 64] |= 1 << (place % 64);
        self.known += 1;
        self.free = self.free.saturating_sub(1);
        self.next = (place + 1) % self.room.size;
        Some(place)
    }

    /// The first place from this one on that isn't known to be in use.
    fn first_from(&self, place: u32) -> Option<u32> {
        let (first, before) = (place as usize / 64, (1u64 << (place % 64)) - 1);
        let words = self.used.iter().enumerate().skip(first);
        let found =
            words.map(|(at, word)| (at, if at == first { word | before } else { *word })).find(|(_, word)| *word != u64::MAX);
        let place = found.map(|(at, word)| at as u32 * 64 + word.trailing_ones());
        place.filter(|place| *place < self.room.size)
    }

    /// Places in use mostly stand one behind another, so more of them are passed over each time. They are tried in the next round.
    fn is_used(&mut self) {
        self.free += 1;
        self.next = (self.next + self.step) % self.room.size;
        self.step = (2 * self.step).min(self.room.size / 2 + 1);
        self.tries += 1;
        self.rests = self.tries == TRIES;
    }

    fn give_back(&mut self, place: u32) {
        self.used[place as usize / 64] &= !(1 << (place % 64));
        self.known -= 1;
        self.free += 1;
    }
}

#[cfg(test)]
mod tests {
    use super::*;

    fn rooms(tiers: [(u32, u32); 2]) -> [Room; 3] {
        let [one, two] = tiers.map(|(size, free)| Room { size, free });
        [Room { size: 9, free: 9 }, one, two]
    }

    fn taken(places: &mut Places, count: usize) -> Vec<(u8, u32)> {
        (0..count).map_while(|_| places.take()).map(|spot| (spot.tier, spot.place)).collect()
    }

    #[test]
    fn places_are_given_out_in_their_order_and_once() {
        let mut places = Places::default();
        assert!(!places.has_room() && places.take().is_none());
        places.stand(rooms([(70, 70), (3, 2)]));
        assert_eq!(taken(&mut places, 66).last(), Some(&(1, 65)));
        assert_eq!(taken(&mut places, 9), [(1, 66), (1, 67), (1, 68), (1, 69), (2, 0), (2, 1)]);
        assert!(!places.has_room());
        places.give_back(Spot { tier: 1, place: 64 });
        assert_eq!(taken(&mut places, 9), [(1, 64)]);
    }

    #[test]
    fn what_is_in_use_is_passed_over_and_not_tried_again() {
        let mut places = Places::default();
        places.stand(rooms([(1000, 750), (0, 0)]));
        // the first 250 places are in use
        let mut refused = 0;
        loop {
            let spot = places.take().unwrap();
            if spot.place >= 250 {
                places.was_free(spot);
                break;
            }
            places.is_used(spot);
            refused += 1;
        }
        assert!(refused < 10, "{refused}");
        let found = taken(&mut places, 1000);
        assert_eq!(found.len(), 749);
        assert!(!places.has_room());
        // each is another one, and those that were refused aren't among them
        let all: std::collections::HashSet<_> = found.iter().collect();
        assert_eq!(all.len(), 749);
        assert!(!all.contains(&(1, 0)));
    }

    #[test]
    fn a_full_tier_is_not_tried_until_places_are_free() {
        let mut places = Places::default();
        places.stand(rooms([(4, 0), (10_000, 9)]));
        // of so many places one that is free isn't found by trying
        assert!(!places.has_room());
        places.stand(rooms([(4, 1), (10_000, 9)]));
        for place in [0, 2, 1] {
            let spot = places.take().unwrap();
            assert_eq!(spot, Spot { tier: 1, place });
            places.is_used(spot);
        }
        assert_eq!(taken(&mut places, 9), [(1, 3)]);
        places.stand(rooms([(4, 0), (10_000, 9)]));
        assert!(!places.has_room());
        // one that was in use is free
        places.stand(rooms([(4, 1), (10_000, 9)]));
        assert!(places.has_room());
    }

    #[test]
    fn a_tier_rests_behind_many_refusals_until_its_count_changes() {
        let mut places = Places::default();
        places.stand(rooms([(65_536, 300), (65_536, 65_536)]));
        let mut refused = 0;
        while let Some(spot) = places.take().filter(|spot| spot.tier == 1) {
            places.is_used(spot);
            refused += 1;
        }
        assert_eq!(refused, TRIES);
        places.stand(rooms([(65_536, 300), (65_536, 65_536)]));
        assert_eq!(places.take().unwrap().tier, 2);
        places.stand(rooms([(65_536, 301), (65_536, 65_535)]));
        assert_eq!(places.take().unwrap().tier, 1);
    }

    #[test]
    fn tiers_of_any_size_have_all_their_places() {
        for size in [1, 63, 64, 65, 128, 129] {
            let mut places = Places::default();
            places.stand(rooms([(size, size), (0, 0)]));
            let found = taken(&mut places, 1000);
            assert_eq!(found, (0..size).map(|place| (1, place)).collect::<Vec<_>>());
        }
    }
}

//! Which blocks of which files are moved next, and to which places: the part of the moves that asks nobody.

use crate::places::{Places, Spot};
use std::collections::{HashMap, VecDeque};

/// How many blocks of a file may turn out not to be mapped. The rest of it stays where it is.
const HOLES: u32 = 64;

/// A block, and the place to which it goes.
#[derive(Clone, Copy, Debug, PartialEq, Eq)]
pub struct Move {
    pub node: u32,
    pub block: u32,
    pub to: Spot,
}

/// How a call of moves was answered.
#[derive(Debug, PartialEq, Eq)]
pub enum Said {
    Moved,
    /// This block isn't mapped, or is no block of a file.
    NoBlock(usize),
    /// This place is in use.
    Taken(usize),
    Else,
    /// The frame was refused, or nobody knows the answer.
    Nothing,
}

/// A file whose blocks go to calls now.
#[derive(Debug)]
struct Open {
    written: i64,
    /// How many blocks it has, and the first that isn't in a call yet.
    count: u32,
    next: u32,
    /// How many blocks are in calls that aren't answered.
    under_way: u32,
    holes: u32,
    /// Whether a block stays for want of a place.
    stays: bool,
}

impl Open {
    fn is_done(&self) -> bool {
        self.next == self.count && self.under_way == 0
    }
}

/// Moves of files, one behind another, each whole.
#[derive(Debug)]
pub struct Work<'a> {
    places: &'a mut Places,
    /// Those that aren't begun: number, when it was written, and how many blocks it has.
    files: VecDeque<(u32, i64, u32)>,
    open: HashMap<u32, Open>,
    /// The one whose blocks are put into calls.
    current: Option<u32>,
    /// How many blocks more are asked for.
    goal: u64,
    pub moved: usize,
    /// Those of which nothing is left to be moved, and when each was written.
    done: Vec<(u32, i64)>,
    is_stopped: bool,
}

impl Work<'_> {
    /// About so many blocks of these files. Each is begun while more are asked for.
    pub fn new(places: &mut Places, files: VecDeque<(u32, i64, u32)>, goal: u64) -> Work<'_> {
        let (open, done) = (HashMap::new(), Vec::new());
        Work { places, files, open, current: None, goal, moved: 0, done, is_stopped: false }
    }

    /// The moves of the next call, so many at most; none where there are no more now.
    pub fn next_call(&mut self, most: usize) -> Vec<Move> {
        let mut moves = Vec::new();
        while moves.len() < most && !self.is_stopped {
            let (node, block) = match self.next_block() {
                Some(found) => found,
                None => break,
            };
            match self.places.take() {
                Some(to) => moves.push(Move { node, block, to }),
                None => self.leave(node),
            }
        }
        moves
    }

    fn next_block(&mut self) -> Option<(u32, u32)> {
        while self.current.is_none() {
            if self.goal == 0 {
                return None;
            }
            let (node, written, count) = self.files.pop_front()?;
            if count == 0 {
                self.done.push((node, written));
                continue;
            }
            self.open.insert(node, Open { written, count, next: 0, under_way: 0, holes: 0, stays: false });
            self.current = Some(node);
        }
        let node = self.current?;
        let open = self.open.get_mut(&node)?;
        let block = open.next;
        open.next += 1;
        open.under_way += 1;
        if open.next == open.count {
            self.current = None;
        }
        self.goal = self.goal.saturating_sub(1);
        Some((node, block))
    }

    /// Takes over how moves were answered, where files have so many blocks by now. Answers those that are to be made again.
    pub fn apply(&mut self, mut moves: Vec<Move>, said: &Said, blocks_of: impl Fn(u32) -> u32) -> Vec<Move> {
        match *said {
            Said::Moved => {
                self.moved += moves.len();
                for one in moves.drain(..) {
                    self.places.was_free(one.to);
                    self.settle(one.node);
                }
            }
            Said::Taken(at) if at < moves.len() => self.place_anew(&mut moves, at),
            Said::NoBlock(at) if at < moves.len() => self.leave_out(&mut moves, at, blocks_of),
            _ => {
                self.stop();
                for one in moves.drain(..) {
                    self.places.give_back(one.to);
                    self.leave(one.node);
                }
            }
        }
        moves
    }

    /// The place of this move is in use, and those behind it may be, too: the moves from it on get others.
    fn place_anew(&mut self, moves: &mut Vec<Move>, at: usize) {
        self.places.is_used(moves[at].to);
        moves[at + 1..].iter().for_each(|one| self.places.give_back(one.to));
        for one in moves.split_off(at) {
            match self.places.take() {
                Some(to) => moves.push(Move { to, ..one }),
                None => self.leave(one.node),
            }
        }
    }

    /// The block of this move isn't mapped. Where the file has become shorter, or has many such blocks, the rest of it stays.
    fn leave_out(&mut self, moves: &mut Vec<Move>, at: usize, blocks_of: impl Fn(u32) -> u32) {
        let node = moves[at].node;
        let is_over = self.open.get_mut(&node).map_or(true, |open| {
            open.holes += 1;
            open.holes >= HOLES || blocks_of(node) < open.count
        });
        if let Some(open) = self.open.get_mut(&node).filter(|_| is_over) {
            open.count = open.next;
            self.current = self.current.filter(|current| *current != node);
        }
        let (mut kept, mut index) = (Vec::new(), 0..);
        for one in moves.drain(..) {
            let is_hole = index.next() == Some(at);
            if is_hole || (is_over && one.node == node) {
                self.places.give_back(one.to);
                self.settle(one.node);
            } else {
                kept.push(one);
            }
        }
        *moves = kept;
    }

    /// A block of a file is no longer in a call.
    fn settle(&mut self, node: u32) {
        if let Some(open) = self.open.get_mut(&node) {
            open.under_way -= 1;
            if open.is_done() {
                let (written, stays) = (open.written, open.stays);
                self.open.remove(&node);
                self.done.extend(Some((node, written)).filter(|_| !stays));
            }
        }
    }

    /// A block stays where it is, for want of a place. No more are moved now.
    fn leave(&mut self, node: u32) {
        self.is_stopped = true;
        if let Some(open) = self.open.get_mut(&node) {
            open.stays = true;
        }
        self.settle(node);
    }

    /// No more files are begun, nor blocks put into calls.
    pub fn stop(&mut self) {
        self.is_stopped = true;
    }

    pub fn is_stopped(&self) -> bool {
        self.is_stopped
    }

    /// The files of which nothing is left, and when each was written.
    pub fn take_done(&mut self) -> Vec<(u32, i64)> {
        std::mem::take(&mut self.done)
    }
}

#[cfg(test)]
mod tests {
    use super::*;
    use crate::places::Room;

    const TOGETHER: usize = 128;

    /// Places of which those of tier 1 are free, and none of tier 2.
    fn places(size: u32) -> Places {
        let (mut places, none) = (Places::default(), Room::default());
        places.stand([none, Room { size, free: size }, none]);
        places
    }

    fn shown(moves: &[Move]) -> Vec<(u32, u32, u32)> {
        moves.iter().map(|one| (one.node, one.block, one.to.place)).collect()
    }

    #[test]
    fn a_file_is_moved_around_what_is_in_the_way() {
        let mut places = places(5);
        let mut work = Work::new(&mut places, [(5, 50, 3)].into(), 9);
        let moves = work.next_call(TOGETHER);
        assert_eq!(shown(&moves), [(5, 0, 0), (5, 1, 1), (5, 2, 2)]);
        assert!(work.next_call(TOGETHER).is_empty());
        // behind the place that is in use one is passed over
        let moves = work.apply(moves, &Said::Taken(1), |_| 3);
        assert_eq!(shown(&moves), [(5, 0, 0), (5, 1, 4), (5, 2, 2)]);
        let moves = work.apply(moves, &Said::NoBlock(0), |_| 3);
        assert_eq!(shown(&moves), [(5, 1, 4), (5, 2, 2)]);
        assert!(work.take_done().is_empty());
        assert!(work.apply(moves, &Said::Moved, |_| 3).is_empty());
        assert_eq!((work.moved, work.take_done(), work.is_stopped()), (2, vec![(5, 50)], false));
        // what isn't needed, and what isn't known to be in use, is given out again
        let mut left: Vec<_> = std::iter::from_fn(|| places.take()).map(|spot| spot.place).collect();
        left.sort_unstable();
        assert_eq!(left, [0, 3]);
    }

    #[test]
    fn files_share_calls_and_are_moved_whole() {
        let mut places = places(1000);
        let files = [(5, 50, 1), (6, 60, 0), (7, 70, TOGETHER as u32 + 1), (8, 80, 1)];
        let mut work = Work::new(&mut places, files.into(), 2);
        let (first, second) = (work.next_call(TOGETHER), work.next_call(TOGETHER));
        assert_eq!((first.len(), shown(&first)[..2].to_vec()), (TOGETHER, vec![(5, 0, 0), (7, 0, 1)]));
        assert_eq!(second.len(), 2);
        // two blocks were asked for, so no other file is begun
        assert!(work.next_call(TOGETHER).is_empty());
        assert_eq!(work.take_done(), [(6, 60)]);
        work.apply(first, &Said::Moved, |_| 0);
        assert_eq!(work.take_done(), [(5, 50)]);
        work.apply(second, &Said::Moved, |_| 0);
        assert_eq!((work.take_done(), work.moved), (vec![(7, 70)], TOGETHER + 2));
    }

    #[test]
    fn a_file_that_has_become_shorter_is_over() {
        let mut places = places(1000);
        let mut work = Work::new(&mut places, [(5, 50, 300), (6, 60, 2)].into(), 1000);
        let (first, second) = (work.next_call(TOGETHER), work.next_call(TOGETHER));
        let again = work.apply(first, &Said::NoBlock(9), |_| 9);
        assert!(again.is_empty());
        // its other blocks aren't begun, and those that are under way are refused, too
        let third = work.next_call(TOGETHER);
        assert_eq!(shown(&third).iter().map(|it| (it.0, it.1)).collect::<Vec<_>>(), [(6, 0), (6, 1)]);
        assert!(work.apply(second, &Said::NoBlock(0), |_| 9).is_empty());
        assert_eq!(work.take_done(), [(5, 50)]);
        work.apply(third, &Said::Moved, |_| 2);
        assert_eq!((work.take_done(), work.moved), (vec![(6, 60)], 2));
        assert_eq!(std::iter::from_fn(|| places.take()).count(), 998);
    }

    #[test]
    fn of_a_file_with_many_holes_the_rest_stays() {
        let mut places = places(1000);
        let mut work = Work::new(&mut places, [(5, 50, 500)].into(), 500);
        let mut moves = work.next_call(TOGETHER);
        for count in 1..=HOLES as usize {
            assert_eq!(moves.len(), TOGETHER + 1 - count);
            moves = work.apply(moves, &Said::NoBlock(0), |_| 500);
        }
        assert!(moves.is_empty() && work.next_call(TOGETHER).is_empty());
        assert_eq!(work.take_done(), [(5, 50)]);
    }

    #[test]
    fn what_has_no_place_stays() {
        let mut places = places(3);
        let mut work = Work::new(&mut places, [(5, 50, 2), (6, 60, 2), (7, 70, 1)].into(), 9);
        let moves = work.next_call(TOGETHER);
        assert_eq!(shown(&moves), [(5, 0, 0), (5, 1, 1), (6, 0, 2)]);
        assert!(work.is_stopped() && work.next_call(TOGETHER).is_empty());
        work.apply(moves, &Said::Moved, |_| 2);
        assert_eq!(work.take_done(), [(5, 50)]);
        // nor does anything go on where the desk doesn't
        let mut places = self::places(9);
        let mut work = Work::new(&mut places, [(5, 50, 2)].into(), 9);
        let moves = work.next_call(TOGETHER);
        assert!(work.apply(moves, &Said::Else, |_| 2).is_empty());
        assert!(work.is_stopped() && work.take_done().is_empty() && work.moved == 0);
        assert_eq!(std::iter::from_fn(|| places.take()).count(), 9);
    }
}

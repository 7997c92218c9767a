//! How much the files of each owner take, and which logs would have that be more than it may.
//!
//! A file counts for its owner by its size, in whole blocks. Logs are looked at in the order in which they are sent, each by what
//! those before it have done. Where that isn't known yet and matters, a log waits for their answers.

use crate::bytes::Bytes;
use crate::calls::Told;
use crate::connection::Shared;
use crate::queue::{Batch, Call};
use std::collections::{HashMap, HashSet};

/// The bytes of a block.
const BLOCK: u64 = 4096;

/// The tag of a call that hands in a log with its plan.
const SUBMIT: u8 = 1;

/// What a file takes, and for whom.
#[derive(Clone, Copy, Debug, PartialEq, Eq)]
pub struct Held {
    owner: u32,
    /// 0 also where nothing is there.
    blocks: u32,
}

impl Held {
    const NOTHING: Held = Held { owner: 0, blocks: 0 };

    /// What a node of this owner and this size takes.
    pub fn new(owner: u32, size: u64) -> Held {
        let blocks = size / BLOCK + u64::from(size % BLOCK != 0);
        // A file has 2^20 at most, but a plan may say anything.
        Held { owner, blocks: u32::try_from(blocks).unwrap_or(u32::MAX) }
    }
}

/// A node, and what it takes once a log has landed.
type Row = (u32, Held);

/// Whether a call may be sent now.
#[derive(Clone, Copy, Debug, PartialEq, Eq)]
pub enum Ruling {
    Goes,
    /// That depends on calls that were sent before and aren't answered. Each answer may change it.
    Waits,
    /// Its log would have the files of an owner take more than they may.
    NoSpace,
}

/// What says which calls are sent.
pub trait Gate: Sync {
    /// Calls are looked at from now on, first those that had to wait before.
    fn begin(&self) {}

    /// Whether a call may be sent in the frame of this number.
    fn rule(&self, _call: &Call, _frame: u32) -> Ruling {
        Ruling::Goes
    }
}

/// All may go.
impl Gate for () {}

/// What the files of all owners take, and what the logs make of that which aren't answered.
#[derive(Debug, Default)]
pub struct Space {
    /// The files that aren't empty.
    files: HashMap<u32, Held>,
    /// How many blocks those of an owner take together.
    sums: HashMap<u32, u64>,
    /// The rows of the logs that were sent and aren't answered, by the numbers of their frames.
    under_way: HashMap<u32, Vec<Row>>,
    /// How many blocks these rows name together.
    coming: u64,
    /// The owners whose files calls are about that wait for answers. What is behind these and about the same owners waits, too.
    waited_for: HashSet<u32>,
}

impl Space {
    /// How many blocks the files of an owner take.
    pub fn of(&self, owner: u32) -> u64 {
        self.sums.get(&owner).copied().unwrap_or(0)
    }

    /// How many blocks a file reaches over; none of what is no file.
    pub fn blocks_of(&self, node: u32) -> u32 {
        self.files.get(&node).map_or(0, |held| held.blocks)
    }

    /// A node takes this from now on.
    pub fn put(&mut self, node: u32, held: Held) {
        let before = if held.blocks == 0 { self.files.remove(&node) } else { self.files.insert(node, held) };
        if let Some(before) = before {
            let left = self.of(before.owner).saturating_sub(before.blocks.into());
            self.sums.insert(before.owner, left);
        }
        if held.blocks != 0 {
            *self.sums.entry(held.owner).or_default() += u64::from(held.blocks);
        }
    }

    /// Takes over what a call has done, by its answer.
    pub fn made(&mut self, call: &[u8], answer: &[u8]) {
        if Told::of(answer) == Told::Landed {
            for (node, held) in rows_of(call).unwrap_or_default() {
                self.put(node, held);
            }
        }
    }

    /// Calls are looked at from now on, first those that had to wait before.
    pub fn begin(&mut self) {
        self.waited_for.clear();
    }

    /// Whether a call may be sent in the frame of this number, where an owner's files may take so many blocks; 0 where that isn't
    /// limited. One that goes is under way from now on.
    pub fn rule(&mut self, frame: u32, call: &[u8], limit: u64) -> Ruling {
        let rows = rows_of(call).unwrap_or_default();
        let ruling = if limit == 0 { Ruling::Goes } else { self.ruling(&rows, limit) };
        match ruling {
            Ruling::Goes if !rows.is_empty() => {
                self.coming += blocks_in(&rows);
                self.under_way.insert(frame, rows);
            }
            Ruling::Waits => {
                let touched = self.touched_by(rows.iter());
                self.waited_for.extend(touched);
            }
            _ => {}
        }
        ruling
    }

    /// The call in the frame of this number is answered.
    pub fn ended(&mut self, frame: u32, has_landed: bool) {
        if let Some(rows) = self.under_way.remove(&frame) {
            self.coming -= blocks_in(&rows);
            for (node, held) in rows.into_iter().filter(|_| has_landed) {
                self.put(node, held);
            }
        }
    }

    fn ruling(&self, rows: &[Row], limit: u64) -> Ruling {
        if !self.waited_for.is_empty() && !self.waited_for.is_disjoint(&self.touched_by(rows.iter())) {
            return Ruling::Waits;
        }
        // Files of others get no larger by it.
        let owners: HashSet<u32> = rows.iter().filter(|(_, held)| held.blocks != 0).map(|(_, held)| held.owner).collect();
        let named = self.coming + blocks_in(rows);
        if owners.iter().all(|owner| self.of(*owner) + named <= limit) {
            return Ruling::Goes;
        }
        let (most, touched, gained) =
            (self.most_with(rows), self.touched_by(self.under_way.values().flatten()), self.gained_by(rows));
        for owner in owners {
            if most.get(&owner).map_or(true, |most| *most <= limit) {
                continue;
            }
            if touched.contains(&owner) {
                return Ruling::Waits;
            }
            // Nothing of this owner's is under way, so this is what will be.
            let gained = gained.get(&owner).copied().unwrap_or(0);
            if gained > 0 && self.of(owner) + gained as u64 > limit {
                return Ruling::NoSpace;
            }
        }
        Ruling::Goes
    }

    /// How many blocks of a node count for this owner.
    fn counted(&self, node: u32, owner: u32) -> u32 {
        self.files.get(&node).filter(|held| held.owner == owner).map_or(0, |held| held.blocks)
    }

    /// The most that files of owners may take with these rows, whichever of the logs under way land.
    fn most_with(&self, rows: &[Row]) -> HashMap<u32, u64> {
        let mut greatest = HashMap::new();
        for (node, held) in self.under_way.values().flatten().chain(rows) {
            let most = greatest.entry((*node, held.owner)).or_insert_with(|| self.counted(*node, held.owner));
            *most = held.blocks.max(*most);
        }
        let mut found = HashMap::new();
        for ((node, owner), most) in greatest {
            *found.entry(owner).or_insert_with(|| self.of(owner)) += u64::from(most - self.counted(node, owner));
        }
        found
    }

    /// The owners whose files these rows make larger or smaller.
    fn touched_by<'a>(&self, rows: impl Iterator<Item = &'a Row>) -> HashSet<u32> {
        let of_row = |(node, held): &Row| {
            let before = self.files.get(node).map(|held| held.owner);
            before.into_iter().chain(Some(held.owner).filter(|_| held.blocks != 0))
        };
        rows.flat_map(of_row).collect()
    }

    /// How many blocks more the files of owners take with these rows.
    fn gained_by(&self, rows: &[Row]) -> HashMap<u32, i64> {
        let mut found = HashMap::new();
        for (node, held) in rows {
            if let Some(before) = self.files.get(node) {
                *found.entry(before.owner).or_default() -= i64::from(before.blocks);
            }
            *found.entry(held.owner).or_default() += i64::from(held.blocks);
        }
        found
    }
}

fn blocks_in(rows: &[Row]) -> u64 {
    rows.iter().map(|(_, held)| u64::from(held.blocks)).sum()
}

/// The node rows of the plan in a call; none where it hands in no log.
fn rows_of(call: &[u8]) -> Option<Vec<Row>> {
    let mut bytes = Bytes(call);
    if bytes.byte()? != SUBMIT {
        return None;
    }
    let (_client, _log) = (bytes.word()?, bytes.counted()?);
    let mut plan = Bytes(bytes.counted()?);
    let _head = plan.take(5)?;
    let (names, nodes, _pieces) = (plan.half()?, plan.half()?, plan.word()?);
    for _ in 0..names {
        let _directory = plan.word()?;
        let length = plan.byte()?;
        let _name_and_number = plan.take(usize::from(length) + 4)?;
    }
    (0..nodes).map(|_| row_in(&mut plan)).collect()
}

fn row_in(plan: &mut Bytes<'_>) -> Option<Row> {
    let (node, state) = (plan.word()?, plan.byte()?);
    if state == 0 {
        return Some((node, Held::NOTHING));
    }
    let (_mode, owner, _group_and_links) = (plan.half()?, plan.word()?, plan.take(6)?);
    Some((node, Held::new(owner, plan.long()?)))
}

impl Gate for Shared {
    fn begin(&self) {
        self.following.space().begin();
    }

    fn rule(&self, call: &Call, frame: u32) -> Ruling {
        let ruling = self.following.space().rule(frame, &call.body, self.limits().blocks_a_user);
        if ruling == Ruling::NoSpace {
            self.figures.answered_here.add(1);
            // The number is free again.
            if let Some(number) = call.number {
                self.following.outcomes.end(call.client, number, None);
            }
        }
        ruling
    }
}

impl Shared {
    /// The next calls for `kfs_serve`, but for those that would take too much space: these are refused.
    pub async fn next_batch(&self, most: usize) -> Option<Batch> {
        self.queue.next_by(most, self).await
    }
}

#[cfg(test)]
mod tests {
    use super::*;
    use crate::frames::HEAD;
    use crate::queue::{Answer, Queue};
    use std::sync::Mutex;
    use std::time::Duration;
    use tokio::time::timeout;
    use Ruling::{Goes, NoSpace, Waits};

    const YES: &[u8] = &[1, 0];

    /// The call that hands in a plan with these rows: a node, its owner, and how many blocks it has; none where it is gone.
    fn call(rows: &[(u32, u32, Option<u64>)]) -> Vec<u8> {
        let mut plan = b"KPLN\x01\0\x01".to_vec();
        plan.extend_from_slice(&(rows.len() as u16).to_be_bytes());
        plan.extend_from_slice(&[0, 0, 0, 1, 0, 0, 0, 1, 2, b'a', b'b', 0, 0, 0, 5]);
        for (node, owner, blocks) in rows {
            plan.extend_from_slice(&node.to_be_bytes());
            plan.push(u8::from(blocks.is_some()));
            if let Some(blocks) = blocks {
                plan.extend_from_slice(&[1, 0xa4]);
                plan.extend_from_slice(&owner.to_be_bytes());
                plan.extend_from_slice(&[0, 0, 0, 50, 0, 1]);
                plan.extend_from_slice(&(blocks * BLOCK).to_be_bytes());
            }
        }
        let mut call = vec![SUBMIT, 0, 0, 0, 7, 0, 0, 0, 1, 99];
        call.extend_from_slice(&(plan.len() as u32).to_be_bytes());
        call.extend_from_slice(&plan);
        call
    }

    /// What these files take, each a node, its owner, and its blocks.
    fn space(files: &[(u32, u32, u64)]) -> Space {
        let mut space = Space::default();
        files.iter().for_each(|(node, owner, blocks)| space.put(*node, Held::new(*owner, blocks * BLOCK)));
        space
    }

    #[test]
    fn sizes_count_in_whole_blocks() {
        let blocks = |size| Held::new(5, size).blocks;
        assert_eq!([0, 1, 4096, 4097, 1 << 32].map(blocks), [0, 1, 1, 2, 1 << 20]);
        assert_eq!(blocks(u64::MAX), u32::MAX);
    }

    #[test]
    fn landings_are_followed() {
        let mut space = space(&[(2, 5, 3), (3, 6, 4)]);
        assert_eq!((space.of(5), space.of(6), space.of(7)), (3, 4, 0));
        space.made(&call(&[(2, 5, Some(1)), (3, 6, None), (4, 6, Some(9))]), YES);
        assert_eq!((space.of(5), space.of(6)), (1, 9));
        space.made(&call(&[(2, 5, Some(8))]), &[2, 0]);
        space.made(&call(&[(2, 5, Some(8))])[..50], YES);
        space.made(&[4, 0, 0, 0, 0, 0, 0, 0, 1], YES);
        assert_eq!((space.of(5), space.of(6)), (1, 9));
        // its number is another owner's
        space.made(&call(&[(4, 5, Some(2)), (2, 5, Some(0))]), YES);
        assert_eq!((space.of(5), space.of(6), space.files.len()), (2, 0, 1));
    }

    #[test]
    fn a_call_that_is_cut_has_no_rows() {
        let whole = call(&[(2, 5, Some(1)), (3, 6, None)]);
        let rows = vec![(2, Held { owner: 5, blocks: 1 }), (3, Held::NOTHING)];
        assert_eq!(rows_of(&whole), Some(rows));
        for cut in 1..whole.len() {
            assert_eq!(rows_of(&whole[..whole.len() - cut]), None, "{cut}");
        }
    }

    #[test]
    fn what_is_over_the_limit_is_refused() {
        let mut space = space(&[(2, 5, 8), (3, 6, 20)]);
        assert_eq!(space.rule(1, &call(&[(4, 5, Some(2))]), 10), Goes);
        space.ended(1, true);
        assert_eq!(space.rule(2, &call(&[(2, 5, Some(9))]), 10), NoSpace);
        assert_eq!(space.rule(2, &call(&[(2, 5, Some(9))]), 0), Goes);
        space.ended(2, false);
        assert_eq!(space.of(5), 10);
        // what makes nobody's files larger goes, also of one who has too much
        assert_eq!(space.rule(3, &call(&[(3, 6, Some(20))]), 10), Goes);
        space.ended(3, true);
        assert_eq!(space.rule(4, &call(&[(3, 6, Some(7)), (9, 6, Some(13))]), 10), Goes);
        space.ended(4, true);
        assert_eq!(space.rule(5, &call(&[(3, 6, None), (9, 6, Some(21))]), 10), NoSpace);
        assert_eq!(space.rule(5, &call(&[(3, 6, None), (8, 7, Some(3))]), 10), Goes);
        space.ended(5, true);
        // one owner's room is none of another one's
        assert_eq!(space.rule(6, &call(&[(2, 5, None), (9, 6, Some(14))]), 10), NoSpace);
        assert_eq!((space.of(5), space.of(6), space.of(7), space.coming), (10, 13, 3, 0));
    }

    #[test]
    fn calls_under_way_are_counted() {
        let mut space = space(&[(2, 5, 4)]);
        let append = |blocks| call(&[(2, 5, Some(blocks))]);
        assert_eq!([1, 2, 3].map(|frame| space.rule(frame, &append(4 + u64::from(frame)), 7)), [Goes; 3]);
        // whether there is room depends on whether those land
        assert_eq!(space.rule(4, &call(&[(3, 5, Some(1))]), 7), Waits);
        space.ended(1, true);
        space.ended(2, false);
        space.begin();
        assert_eq!(space.rule(4, &call(&[(3, 5, Some(1))]), 7), Waits);
        // what is about the same owner's files waits behind it, and nothing else
        assert_eq!(space.rule(5, &call(&[(2, 5, None)]), 7), Waits);
        assert_eq!(space.rule(5, &call(&[(8, 6, Some(7))]), 7), Goes);
        space.ended(3, true);
        space.begin();
        assert_eq!(space.rule(4, &call(&[(3, 5, Some(1))]), 7), NoSpace);
        assert_eq!(space.rule(6, &call(&[(2, 5, Some(3))]), 7), Goes);
        assert_eq!(space.rule(4, &call(&[(3, 5, Some(1))]), 7), Waits);
        space.ended(6, true);
        space.ended(5, true);
        space.begin();
        assert_eq!(space.rule(4, &call(&[(3, 5, Some(1))]), 7), Goes);
    }

    #[test]
    fn no_order_of_calls_leads_over_the_limit() {
        let mut space = space(&[(2, 5, 10)]);
        // it goes in place of the other one, whose number may be given again
        assert_eq!(space.rule(1, &call(&[(2, 5, None), (3, 5, Some(10))]), 10), Goes);
        assert_eq!(space.rule(2, &call(&[(2, 5, Some(10))]), 10), Waits);
        space.ended(1, true);
        space.begin();
        assert_eq!(space.rule(2, &call(&[(2, 5, Some(10))]), 10), NoSpace);
        // it is cut, and made as long as it was
        assert_eq!(space.rule(3, &call(&[(3, 5, None)]), 10), Goes);
        assert_eq!(space.rule(4, &call(&[(3, 5, Some(10))]), 10), Goes);
        space.ended(3, true);
        assert_eq!(space.rule(5, &call(&[(4, 5, Some(1))]), 10), Waits);
        space.ended(4, true);
        space.begin();
        assert_eq!(space.rule(5, &call(&[(4, 5, Some(1))]), 10), NoSpace);
    }

    #[test]
    fn calls_in_random_orders_stay_within_the_limit() {
        let mut random = 1_u64;
        let mut next = |below: u64| {
            random = random.wrapping_mul(6_364_136_223_846_793_005).wrapping_add(1_442_695_040_888_963_407);
            (random >> 33) % below
        };
        let (mut space, mut sent, mut ruled) = (Space::default(), std::collections::VecDeque::new(), [0; 3]);
        for frame in 0..20_000 {
            let mut rows: Vec<(u32, u32, Option<u64>)> = Vec::new();
            for _ in 0..=next(3) {
                let node = next(6) as u32;
                if rows.iter().all(|(other, ..)| *other != node) {
                    rows.push((node, next(2) as u32, Some(next(6)).filter(|blocks| *blocks != 0)));
                }
            }
            space.begin();
            let ruling = space.rule(frame, &call(&rows), 12);
            ruled[ruling as usize] += 1;
            if ruling == Goes {
                sent.push_back(frame);
            }
            while sent.len() > 4 || (ruling == Waits && !sent.is_empty()) {
                let first = sent.pop_front().unwrap();
                space.ended(first, next(3) != 0);
            }
            let of = |owner| space.files.values().filter(move |held| held.owner == owner);
            let sum = |owner| of(owner).map(|held| u64::from(held.blocks)).sum::<u64>();
            assert_eq!([space.of(0), space.of(1)], [sum(0), sum(1)]);
            assert!(space.of(0) <= 12 && space.of(1) <= 12, "{} and {} behind {frame}", space.of(0), space.of(1));
        }
        assert!(ruled.iter().all(|count| *count > 1000), "{ruled:?}");
    }

    /// Refuses calls of three bytes, and has those of four wait so often.
    struct Slow(Mutex<u32>);

    impl Gate for Slow {
        fn begin(&self) {
            let mut left = self.0.lock().unwrap();
            *left = left.saturating_sub(1);
        }

        fn rule(&self, call: &Call, _frame: u32) -> Ruling {
            match call.body.len() {
                3 => NoSpace,
                4 if *self.0.lock().unwrap() > 0 => Waits,
                _ => Goes,
            }
        }
    }

    /// The clients of the next calls that a gate lets go, each with the length of its call; none where all wait.
    async fn sent(queue: &Queue, gate: &Slow) -> Option<Vec<(u32, usize)>> {
        let batch = timeout(Duration::from_millis(50), queue.next_by(usize::MAX, gate)).await.ok()??;
        batch.sent.iter().for_each(|one| queue.answered(one));
        Some(batch.sent.iter().map(|one| (one.client, one.length - HEAD)).collect())
    }

    #[tokio::test]
    async fn a_gate_refuses_calls_and_has_others_wait() {
        let (queue, gate) = (Queue::default(), Slow(Mutex::new(2)));
        let calls = [(7, 1), (7, 3), (8, 4), (8, 1), (9, 4), (7, 2)];
        let mut answers = calls.map(|(client, length)| queue.push_as(client, vec![9; length]));
        assert_eq!(sent(&queue, &gate).await.unwrap(), [(7, 1), (7, 2)]);
        assert_eq!((answers[1].try_recv(), queue.len()), (Ok(Answer::NoSpace), 3));
        // those that have waited are the first, each with what is behind it
        let _answer = queue.push_as(7, vec![9; 5]);
        let found = sent(&queue, &gate).await.unwrap();
        assert_eq!(found, [(8, 4), (8, 1), (9, 4), (7, 5)]);
        assert!(queue.is_empty() && sent(&queue, &gate).await.is_none());
    }

    #[tokio::test]
    async fn a_call_that_waits_is_looked_at_again() {
        let queue = Queue::default();
        let _first = queue.push_as(8, vec![9; 1]);
        let batch = queue.next(usize::MAX).await.unwrap();
        let gate = Slow(Mutex::new(3));
        // it is looked at when it comes, too
        let mut answer = queue.push_as(7, vec![9; 4]);
        let next = sent(&queue, &gate);
        tokio::pin!(next);
        assert!(timeout(Duration::from_millis(20), &mut next).await.is_err());
        queue.answered(&batch.sent[0]);
        assert_eq!(next.await.unwrap(), [(7, 4)]);
        assert!(answer.try_recv().is_err());
        // at the end none is forgotten
        let mut answer = queue.push_as(7, vec![9; 4]);
        assert_eq!(sent(&queue, &Slow(Mutex::new(9))).await, None);
        queue.give_up();
        assert_eq!(answer.try_recv(), Ok(Answer::NeverSent));
        assert!(queue.is_empty() && queue.next(usize::MAX).await.is_none());
    }
}

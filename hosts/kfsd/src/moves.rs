//! Blocks go from tier 0 to slower tiers where few of its places are free: those of the files that were written longest ago.

use crate::bytes::Bytes;
use crate::connection::Shared;
use crate::duties::found;
use crate::places::{Places, Room, Spot};
use crate::queue::Answer;
use crate::work::{Move, Said, Work};
use std::collections::VecDeque;
use std::sync::Arc;
use std::time::Duration;
use tokio::sync::oneshot;
use tokio::time::{sleep, timeout};
use tracing::info;

/// How fast blocks are moved. While `kfs_serve` makes a call nobody else is answered, so calls have fewer moves than the desk's 1,024.
/// Those that come together take two syncs of the disk.
struct Pace {
    /// How many moves a call has at most, and how many calls are under way at once.
    moves: usize,
    calls: usize,
}

/// While enough places are free, and where less than half of these are.
const CALM: Pace = Pace { moves: 64, calls: 1 };
const FAST: Pace = Pace { moves: 128, calls: 4 };

/// How many files are looked at, and how many of their blocks are moved, before kfsd asks again how many places are free.
const FILES: usize = 1024;
const BLOCKS: u64 = 4096;

const MIGRATE: u8 = 5;
const TIERS: u8 = 0x46;
const FOUND_TIERS: u8 = 8;

/// How often kfsd looks whether few places are free, where nothing told of that meanwhile.
const LOOK: Duration = Duration::from_secs(5);

/// How long it rests between two looks.
const REST: Duration = Duration::from_millis(100);

/// How far moves have come.
#[derive(Clone, Copy, Debug, PartialEq, Eq)]
enum Ended {
    /// So far as was asked for.
    AsAsked,
    /// No file is left to be moved.
    NoFiles,
    /// No place is left, or nobody has answered.
    NoPlaces,
    /// The desk refuses such moves.
    Refused,
}

/// Moves blocks until kfsd stops.
pub async fn move_on(shared: Arc<Shared>) {
    let mut stopping = shared.stopping.clone();
    let (mut places, mut halted) = (Places::default(), None);
    while !*stopping.borrow_and_update() {
        let percent = shared.duties().free_percent;
        if percent > 0 {
            make_room(&shared, &mut places, &mut halted, percent).await;
        }
        let waiting = async {
            tokio::select! {
                () = shared.following.is_short() => {}
                _ = stopping.changed() => {}
            }
        };
        // Whichever is first.
        let _ = timeout(LOOK, waiting).await;
        sleep(REST).await;
    }
}

/// Moves blocks where fewer of 100 places are free than should be, until twice as many are; or where a log had too few, until it has
/// as many as it needs. Where the desk has refused to go on, it is asked again once other numbers of places are free.
async fn make_room(shared: &Shared, places: &mut Places, halted: &mut Option<[Room; 3]>, percent: u8) {
    let (mut moved, mut aim) = (0, 0);
    while let Some(rooms) = rooms(shared).await {
        let (free, size) = (u64::from(rooms[0].free), u64::from(rooms[0].size));
        let least = size * u64::from(percent) / 100;
        shared.following.look_for(free, least);
        // What needs more than there are never has room.
        let needed = Some(shared.following.take_needed()).filter(|needed| *needed <= size).unwrap_or(0);
        aim = needed.max(if free < least { 2 * least } else { aim });
        if free >= aim || *halted == Some(rooms) || *shared.stopping.borrow() {
            break;
        }
        places.stand(rooms);
        let goal = (aim - free).min(BLOCKS);
        let (count, ended) = move_some(shared, places, goal).await;
        moved += count;
        *halted = (ended == Ended::Refused).then_some(rooms);
        if ended != Ended::AsAsked {
            break;
        }
        if goal < CALM.moves as u64 {
            // Others are written meanwhile, so that the next call has many moves, too. Where few places are free, it is made at once.
            let _ = timeout(REST, shared.following.is_short()).await;
        }
    }
    if moved > 0 {
        info!("{moved} blocks were moved to slower tiers");
    }
}

/// Moves about so many blocks, those of the oldest files. Tells how many were.
async fn move_some(shared: &Shared, places: &mut Places, goal: u64) -> (usize, Ended) {
    if !places.has_room() {
        return (0, Ended::NoPlaces);
    }
    let oldest = shared.following.times().oldest(FILES);
    let are_all = oldest.len() < FILES;
    let files = oldest.into_iter().map(|(node, written)| (node, written, blocks_of(shared, node)));
    let mut work = Work::new(places, files.collect(), goal);
    let is_refused = make(shared, &mut work).await;
    let ended = match (work.is_stopped(), work.moved) {
        _ if is_refused => Ended::Refused,
        (true, _) => Ended::NoPlaces,
        (_, 0) if are_all => Ended::NoFiles,
        _ => Ended::AsAsked,
    };
    (work.moved, ended)
}

/// Has moves made until there are no more now. Tells whether the desk refuses some of them for good.
async fn make(shared: &Shared, work: &mut Work<'_>) -> bool {
    let (mut under_way, mut is_refused) = (VecDeque::new(), false);
    loop {
        let pace = if shared.following.has_few() { FAST } else { CALM };
        while under_way.len() < pace.calls {
            let moves = work.next_call(pace.moves);
            if moves.is_empty() {
                break;
            }
            under_way.push_back(send(shared, moves));
        }
        for (node, written) in work.take_done() {
            shared.following.times().is_moved(node, written);
        }
        let (moves, answer): (Vec<Move>, oneshot::Receiver<Answer>) = match under_way.pop_front() {
            Some(first) => first,
            None => return is_refused,
        };
        let said = said_by(answer.await.ok());
        is_refused |= said == Said::Else;
        if said == Said::Moved {
            shared.figures.moved.add(moves.len());
            shared.following.gain(moves.len() as u64);
        }
        let again = work.apply(moves, &said, |node| blocks_of(shared, node));
        if !again.is_empty() {
            under_way.push_back(send(shared, again));
        }
        if *shared.stopping.borrow() {
            work.stop();
        }
    }
}

/// How many blocks a file reaches over; none of what is no file.
fn blocks_of(shared: &Shared, node: u32) -> u32 {
    shared.following.space().blocks_of(node)
}

/// How the tiers stand.
async fn rooms(shared: &Shared) -> Option<[Room; 3]> {
    let found = found(shared, vec![TIERS]).await?;
    let mut bytes = Bytes(&found);
    let are_tiers = bytes.byte()? == FOUND_TIERS;
    let mut room = || Some(Room { size: bytes.word()?, free: bytes.word()? });
    let rooms = [room()?, room()?, room()?];
    are_tiers.then_some(rooms)
}

/// Has moves made in one call.
fn send(shared: &Shared, moves: Vec<Move>) -> (Vec<Move>, oneshot::Receiver<Answer>) {
    let answer = shared.queue.push_own(call_of(&moves));
    (moves, answer)
}

fn said_by(answer: Option<Answer>) -> Said {
    match answer {
        Some(Answer::Said(reply)) => reply.answer().map_or(Said::Nothing, said_in),
        _ => Said::Nothing,
    }
}

fn call_of(moves: &[Move]) -> Vec<u8> {
    let mut body = vec![MIGRATE];
    body.extend_from_slice(&(moves.len() as u16).to_be_bytes());
    for Move { node, block, to: Spot { tier, place } } in moves {
        body.extend_from_slice(&node.to_be_bytes());
        body.extend_from_slice(&block.to_be_bytes());
        body.push(*tier);
        body.extend_from_slice(&place.to_be_bytes());
    }
    body
}

fn said_in(answer: &[u8]) -> Said {
    let mut bytes = Bytes(answer);
    match (bytes.byte(), bytes.half().map(u16::to_be_bytes), bytes.long()) {
        (Some(7), ..) => Said::Moved,
        (Some(9), Some([1, _reason]), Some(at)) => Said::NoBlock(at as usize),
        (Some(9), Some([3, _reason]), Some(at)) => Said::Taken(at as usize),
        _ => Said::Else,
    }
}

#[cfg(test)]
mod tests {
    use super::*;

    #[test]
    fn moves_are_as_the_desk_reads_them() {
        let one = Move { node: 5, block: 2, to: Spot { tier: 1, place: 258 } };
        assert_eq!(call_of(&[one]), [5, 0, 1, 0, 0, 0, 5, 0, 0, 0, 2, 1, 0, 0, 1, 2]);
        assert_eq!(said_in(&[7, 0, 0, 0, 1]), Said::Moved);
        assert_eq!(said_in(&[9, 3, 0, 0, 0, 0, 0, 0, 0, 0, 4, 0, 0, 0, 0]), Said::Taken(4));
        assert_eq!(said_in(&[9, 1, 0, 0, 0, 0, 0, 0, 0, 0, 0, 0, 0, 0, 0]), Said::NoBlock(0));
        assert_eq!(said_in(&[9, 5, 0, 0, 0, 0, 0, 0, 0, 0, 0, 0, 0, 0, 0]), Said::Else);
    }
}

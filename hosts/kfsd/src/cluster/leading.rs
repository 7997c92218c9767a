//! A leader: calls go to `kfs_serve`, what it has made goes into etcd, and then its answers go out.
//!
//! While a group is put, `kfs_serve` makes the next one. So its files may be ahead of etcd, by calls of which nobody has heard.

use super::base::{Base, Bases, Since};
use super::group::Group;
use super::replica::{bodies, Replica};
use super::volume::{Lead, Volume};
use super::{blocking, ClusterFault};
use crate::connection::Shared;
use crate::desk::{count_sent, hand_out, part_of, take_over};
use crate::frames::Reply;
use crate::queue::{Batch, Sent};
use crate::times;
use std::convert::Infallible;
use std::io::ErrorKind;
use std::time::{Duration, Instant};
use tokio::sync::mpsc::{channel, Receiver, Sender};
use tokio::sync::oneshot;
use tokio::time::{sleep, timeout};
use tracing::{info, warn};

/// How many bytes of frames go into one group, or one frame more.
const MOST: usize = 262_144;

/// How often the leader looks which groups may go from etcd.
const TRIM: Duration = Duration::from_secs(5);

/// What a leader works with.
#[derive(Clone, Copy, Debug)]
pub struct Leading<'a> {
    pub volume: &'a Volume,
    pub lead: &'a Lead,
    pub bases: &'a Bases,
    /// The random number of the volume.
    pub id: u64,
    /// How long the calls of a group may take.
    pub most: Duration,
}

/// What comes next for etcd.
enum Made {
    /// Calls that were made, and the frames that they came in, each with its reply.
    Calls(Group, Vec<(Sent, Reply)>),
    /// The state behind them is copied. The other end is told when it is kept.
    State(oneshot::Sender<Result<(), ClusterFault>>),
}

/// Tells how a state that was copied was kept. It comes at once where none was.
pub type Kept = oneshot::Receiver<Result<(), ClusterFault>>;

/// Waits until the last state that was copied is kept: the next copy takes its place.
pub async fn is_kept(kept: &mut Kept) -> Result<(), ClusterFault> {
    std::mem::replace(kept, oneshot::channel().1).await.unwrap_or(Ok(()))
}

/// Leads until the queue is closed and empty, from the group of this number on. Behind an error nobody is answered any more.
pub async fn lead(
    leading: &Leading<'_>,
    next: u64,
    state: (Since, Kept),
    replica: &mut Replica,
    shared: &Shared,
) -> Result<(), ClusterFault> {
    let (to, made) = channel(1);
    let making = make(leading, state, replica, to, shared);
    let working = async { tokio::try_join!(making, put(leading, next, made, shared)).map(drop) };
    tokio::select! {
        worked = working => worked,
        fault = renew(leading, shared) => Err(fault),
        never = trim(leading) => match never {},
    }
}

/// Has calls made, until there are none any more or nobody takes them.
async fn make(
    leading: &Leading<'_>,
    (mut since, mut under_way): (Since, Kept),
    replica: &mut Replica,
    to: Sender<Made>,
    shared: &Shared,
) -> Result<(), ClusterFault> {
    while let Some(Batch { bytes, sent }) = shared.next_batch(MOST).await {
        count_sent(&sent, shared);
        let began = Instant::now();
        let talking = timeout(leading.most, replica.talk(&bytes, sent.len())).await;
        let replies = talking.map_err(|_| ClusterFault::Hangs(leading.most.as_secs()))??;
        if replies.iter().zip(&sent).any(|(reply, one)| reply.number != one.number) {
            return Err(ClusterFault::Ended(ErrorKind::InvalidData.into()));
        }
        let parts: Vec<_> = sent.iter().zip(&replies).map(|(one, reply)| part_of(one, reply)).collect();
        shared.queue.measured(&parts, began.elapsed(), Duration::ZERO);
        let mut group = Group { time: times::now(), moment: shared.following.clock.now(), calls: vec![] };
        for (body, reply) in bodies(&bytes).into_iter().zip(&replies) {
            // What is refused, and what looks, changes nothing.
            group.calls.extend(reply.answer().map(|answer| (body.to_vec(), answer.to_vec())));
        }
        since.add(bytes.len());
        let said = sent.into_iter().zip(replies).collect();
        if to.send(Made::Calls(group, said)).await.is_err() {
            break;
        }
        if replica.is_nearly_full() {
            break;
        }
        if since.is_long() {
            is_kept(&mut under_way).await?;
            let (kept, next) = oneshot::channel();
            under_way = next;
            if replica.copy_state(leading.bases, &mut since).await? && to.send(Made::State(kept)).await.is_err() {
                break;
            }
        }
    }
    Ok(())
}

/// Puts what was made into etcd, each group behind the one before, and hands the answers out.
async fn put(leading: &Leading<'_>, mut next: u64, mut made: Receiver<Made>, shared: &Shared) -> Result<(), ClusterFault> {
    let mut moment = shared.following.clock.now();
    while let Some(made) = made.recv().await {
        let (group, said) = match made {
            Made::Calls(group, said) => (group, said),
            Made::State(kept) => {
                keep(leading, next, moment, shared).await?;
                // Where nothing is made any more nobody waits.
                let _ = kept.send(Ok(()));
                continue;
            }
        };
        if group.calls.is_empty() {
            shared.term.holds().await;
        } else {
            let began = Instant::now();
            leading.volume.put(leading.lead, next, &group).await?;
            // Meanwhile others gather.
            shared.queue.measured(&[], Duration::ZERO, began.elapsed());
            next += 1;
            moment = group.moment;
            shared.figures.group.set(next);
        }
        for (sent, reply) in said {
            take_over(&sent, &reply, group.time, shared);
            hand_out(sent, reply, shared);
        }
        // All of it is in etcd.
        drop(shared.following.take_unsaved());
    }
    Ok(())
}

/// Keeps the state that was copied: all groups that it stands for are in etcd.
async fn keep(leading: &Leading<'_>, next: u64, moment: u64, shared: &Shared) -> Result<(), ClusterFault> {
    let base = Base::now(leading.id, next, moment, &shared.following);
    let bases = leading.bases.clone();
    blocking(move || bases.keep(&base)).await?;
    leading.volume.tell_kept(next).await
}

/// Removes those groups from etcd now and then that are part of the states that two members keep.
async fn trim(leading: &Leading<'_>) -> Infallible {
    let mut first = 0;
    loop {
        sleep(TRIM).await;
        let number = match leading.volume.kept().await {
            Ok(kept) => kept.get(1).map_or(0, |(number, _)| *number),
            Err(fault) => {
                warn!("{fault}");
                continue;
            }
        };
        if number > first {
            match leading.volume.trim(leading.lead, number).await {
                Ok(()) => {
                    first = number;
                    info!("the groups before {number} are removed from etcd");
                }
                Err(fault) => warn!("{fault}"),
            }
        }
    }
}

/// Gives signs, and returns where this one leads no more, or may not.
async fn renew(leading: &Leading<'_>, shared: &Shared) -> ClusterFault {
    let Leading { volume, lead, .. } = leading;
    let most = lead.time * 2;
    let mut last = Instant::now();
    loop {
        let began = Instant::now();
        match volume.renew(lead, last + most).await {
            Ok(true) => {
                last = began;
                shared.term.lasts_until(began + span(lead));
            }
            Ok(false) => return ClusterFault::Lost,
            Err(fault) => {
                warn!("no sign is given: {fault}");
                return ClusterFault::Cut(most.as_secs());
            }
        }
        sleep(lead.time / 4).await;
    }
}

/// For how long behind a sign nobody else leads. The clock of this machine may be slower than another member's by a quarter.
fn span(lead: &Lead) -> Duration {
    lead.time * 3 / 4
}

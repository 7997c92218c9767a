//! How kfsd stands, as texts for `kfsctl`.

use crate::connection::Shared;
use crate::log;
use crate::wants::Want;
use serde::{Deserialize, Serialize};
use std::fmt::Write as _;
use std::sync::Arc;
use std::time::Instant;

/// How many leases are listed.
const LISTED: usize = 10_000;

/// What `kfsctl status` prints.
#[derive(Debug, Deserialize, Serialize)]
pub struct Status {
    /// Lines of the log that were dropped, since standard error wasn't read, couldn't be written, or was to have too many.
    #[serde(default)]
    pub log_lines_dropped: u64,
    pub kfs_serve: DeskStatus,
    pub desk: Standing,
    pub connections: ConnectionStatus,
    pub frames: FrameStatus,
    /// None where the desk is on this machine alone.
    pub volume: Option<VolumeStatus>,
    #[serde(default)]
    pub user: Vec<UserStatus>,
}

#[derive(Debug, Deserialize, Serialize)]
pub struct DeskStatus {
    pub process: u64,
    pub is_open: bool,
    pub starts: u64,
    pub waiting_calls: usize,
}

#[derive(Debug, Deserialize, Serialize)]
pub struct Standing {
    pub moment: u64,
    pub leases: usize,
    pub wanted_leases: usize,
    pub moved_blocks: u64,
}

#[derive(Debug, Deserialize, Serialize)]
pub struct ConnectionStatus {
    pub taken: u64,
    pub turned_away: u64,
    pub too_slow: u64,
}

#[derive(Debug, Deserialize, Serialize)]
pub struct FrameStatus {
    pub sent: u64,
    pub answered: u64,
    pub unknown: u64,
    pub answered_here: u64,
    pub own: u64,
    /// From a whole frame to the answer, and how much of that frames waited in line.
    pub mean_micros: u64,
    pub mean_waiting_micros: u64,
}

#[derive(Debug, Deserialize, Serialize)]
pub struct VolumeStatus {
    pub leads: bool,
    pub next_group: u64,
}

#[derive(Debug, Deserialize, Serialize)]
pub struct UserStatus {
    pub uid: u32,
    pub client: u32,
    pub connections: u32,
    pub frames_left: u64,
    pub bytes_left: u64,
    /// What the files that it owns take.
    pub blocks: u64,
}

/// How kfsd stands now.
pub fn status(shared: &Shared) -> Status {
    let (figures, rules) = (&shared.figures, Arc::clone(&shared.rules.borrow()));
    let user = rules.table.all().into_iter().map(|account| UserStatus {
        uid: account.user.uid,
        client: account.user.client,
        connections: account.connections(),
        frames_left: account.frames.left(),
        bytes_left: account.bytes.left(),
        blocks: shared.following.space().of(account.user.uid),
    });
    let micros = figures.times.sum().as_micros() as u64;
    Status {
        log_lines_dropped: log::dropped(),
        kfs_serve: DeskStatus {
            process: figures.process.get(),
            is_open: figures.opened.get() == 1,
            starts: figures.starts.get(),
            waiting_calls: shared.queue.len(),
        },
        desk: standing(shared),
        connections: ConnectionStatus {
            taken: figures.connections.get(),
            turned_away: figures.turned_away.get(),
            too_slow: figures.too_slow.get(),
        },
        frames: FrameStatus {
            sent: figures.sent.get(),
            answered: figures.answered.get(),
            unknown: figures.unknown.get(),
            answered_here: figures.answered_here.get(),
            own: figures.own.get(),
            mean_micros: micros.checked_div(figures.times.count()).unwrap_or(0),
            mean_waiting_micros: figures.waited.get().checked_div(figures.sent.get()).unwrap_or(0),
        },
        volume: shared
            .term
            .has_end()
            .then(|| VolumeStatus { leads: figures.opened.get() == 1, next_group: figures.group.get() }),
        user: user.collect(),
    }
}

fn standing(shared: &Shared) -> Standing {
    let following = &shared.following;
    let leases = following.leases().len();
    let wanted_leases = following.wants().all(Instant::now()).len();
    Standing { moment: following.clock.now(), leases, wanted_leases, moved_blocks: shared.figures.moved.get() }
}

/// A line for each user that may connect, and then one for each that is listed and may not.
pub fn users(shared: &Shared) -> String {
    let mut text = String::from("     uid   client connections frames_left bytes_left     blocks\n");
    for user in status(shared).user {
        let UserStatus { uid, client, connections, frames_left, bytes_left, blocks } = user;
        // Nothing is refused where a String is written to, here and below.
        let _ = writeln!(text, "{uid:>8} {client:>8} {connections:>11} {frames_left:>11} {bytes_left:>10} {blocks:>10}");
    }
    for user in shared.rules.borrow().table.strangers() {
        let _ = writeln!(text, "{:>8} {:>8} is kept out: the desk has no such client", user.uid, user.client);
    }
    text
}

/// A line for each lease, and then one for each that another client wants.
pub fn leases(shared: &Shared) -> String {
    let (now, following) = (shared.following.clock.now(), &shared.following);
    let mut text = String::from("    node   client kind  seconds\n");
    let leases = following.leases();
    for ((node, client), lease) in leases.all().take(LISTED) {
        let (kind, left) = (if lease.writes { "write" } else { "read" }, lease.end.saturating_sub(now));
        let _ = writeln!(text, "{node:>8} {client:>8} {kind:<5} {left:>7}");
    }
    if leases.len() > LISTED {
        let _ = writeln!(text, "and {} more", leases.len() - LISTED);
    }
    drop(leases);
    for (holder, want, since) in following.wants().all(Instant::now()) {
        let Want { by, node, .. } = want;
        let _ = writeln!(text, "client {by} has wanted node {node} of client {holder} for {} seconds", since.as_secs());
    }
    text
}

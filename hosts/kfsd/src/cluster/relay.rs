//! A member that doesn't lead takes connections all the same, and hands their bytes on to the one that does.

use super::peer::{connect_user, Credentials};
use super::tls::Stream;
use super::volume::Peer;
use crate::connection::Shared;
use crate::sockets::{take_all, Sockets};
use crate::thread;
use crate::users::Place;
use std::convert::Infallible;
use std::future::pending;
use std::io;
use std::sync::{Arc, Mutex, PoisonError};
use std::time::{Duration, Instant};
use tokio::io::copy_bidirectional;
use tokio::net::UnixStream;
use tokio::sync::watch;
use tokio::task::JoinSet;
use tokio::time::timeout;
use tracing::{debug, warn};

/// How long a connection waits for a leader.
const WAIT: Duration = Duration::from_secs(10);

/// How long a connection waits before it asks the same leader again.
const REST: Duration = Duration::from_millis(100);

/// How often it is told that a leader isn't believed.
const TELLING: Duration = Duration::from_secs(1);

/// Who leads; none where nobody does.
pub type Leader = watch::Receiver<Option<Peer>>;

/// What each connection that is handed on needs.
#[derive(Clone)]
struct Handing {
    own: Credentials,
    leader: Leader,
    /// When it was told last that a leader isn't believed.
    told: Arc<Mutex<Option<Instant>>>,
}

/// Takes connections until it is dropped. Those that it has end then, and where another one leads.
pub async fn relay(sockets: &Sockets, shared: &Arc<Shared>, leader: Leader, own: &Credentials) -> Infallible {
    let handing = Handing { own: own.clone(), leader, told: Arc::default() };
    let serve = |stream, place: Place| {
        let (uid, usage) = (place.account.user.uid, Arc::clone(&place.account.usage));
        thread::Shared::new(hand_on(stream, place, handing.clone()), uid, &shared.thread, &usage)
    };
    take_all(sockets, shared, &mut JoinSet::new(), serve).await
}

/// Hands the bytes of a connection on in both directions, as long as one and the same leads.
async fn hand_on(mut stream: UnixStream, place: Place, mut handing: Handing) {
    let uid = place.account.user.uid;
    let reached = timeout(WAIT, reach(&mut handing, uid)).await;
    let (peer, mut to) = match reached {
        Ok(reached) => reached,
        Err(_) => return,
    };
    tokio::select! {
        ended = copy_bidirectional(&mut stream, &mut to) => if let Err(fault) = ended {
            debug!("a connection of user {uid} has ended: {fault}");
        },
        _ = another(&mut handing.leader, &peer) => {}
    }
}

impl Handing {
    /// Tells why the leader isn't reached: aloud where it is there, and isn't believed.
    fn tell(&self, uid: u32, peer: &Peer, fault: &io::Error) {
        debug!("a connection of user {uid} waits for another leader than {}: {fault}", peer.name);
        let mut told = self.told.lock().unwrap_or_else(PoisonError::into_inner);
        let is_due = told.map_or(true, |last| last.elapsed() >= TELLING);
        if is_due && fault.kind() == io::ErrorKind::PermissionDenied {
            *told = Some(Instant::now());
            warn!("{}, where member {} was when it began to lead, isn't believed: {fault}", peer.address, peer.name);
        }
    }
}

/// A connection of a user to the leader, and which that is, once there is one that takes it.
async fn reach(handing: &mut Handing, uid: u32) -> (Peer, Stream) {
    loop {
        let peer = known(&mut handing.leader).await;
        let connected = tokio::select! {
            connected = connect_user(&peer, &handing.own, uid) => connected,
            _ = another(&mut handing.leader, &peer) => continue,
        };
        match connected {
            Ok(to) => return (peer, to),
            Err(fault) => handing.tell(uid, &peer, &fault),
        }
        // It has ended, and another one leads soon.
        let _ = timeout(REST, another(&mut handing.leader, &peer)).await;
    }
}

/// The leader, once there is one.
async fn known(leader: &mut Leader) -> Peer {
    loop {
        if let Some(peer) = &*leader.borrow_and_update() {
            return peer.clone();
        }
        if leader.changed().await.is_err() {
            pending::<()>().await;
        }
    }
}

/// Returns when this one leads no more.
async fn another(leader: &mut Leader, peer: &Peer) {
    while leader.borrow_and_update().as_ref() == Some(peer) {
        if leader.changed().await.is_err() {
            return;
        }
    }
}

//! What kfsd does by itself: it tells the desk the moment, and asks it how it stands.

use crate::asking::settle;
use crate::bytes::Bytes;
use crate::calls::tick;
use crate::connection::Shared;
use crate::frames::{CHECKPOINT, CHECKPOINT_MADE, STATE};
use crate::queue::Answer;
use std::sync::Arc;
use std::time::Duration;
use tokio::time::sleep;

/// How often kfsd looks whether a lease has ended.
const LOOK: Duration = Duration::from_millis(500);

/// Ticks where a lease's end has come, and now and then while one is live, until kfsd stops. A desk without leases needs no
/// tick, and so its disk may rest.
pub async fn tick_on(shared: Arc<Shared>) {
    let mut stopping = shared.stopping.clone();
    while !*stopping.borrow_and_update() {
        let due = shared.following.leases().tick_due(shared.following.clock.now(), shared.duties().tick_seconds);
        if let Some(moment) = due {
            // Where nobody knows the answer, the leases are read anew, and the next look finds out.
            let _ = shared.queue.push_first(tick(moment)).await;
        }
        tokio::select! {
            () = sleep(LOOK) => {}
            changed = stopping.changed() => if changed.is_err() {
                return;
            },
        }
    }
    // The moment goes on from here at the next start.
    let last = shared.following.leases().tick_due(shared.following.clock.now(), 0);
    if let Some(moment) = last {
        let _ = shared.queue.push_own(tick(moment)).await;
    }
}

/// Looks at leases that another client wants and whose own may not have them any more, without end.
pub async fn look_on(shared: Arc<Shared>) {
    loop {
        let doubt = shared.following.next_doubt().await;
        settle(&shared, doubt).await;
    }
}

/// How the desk stands, as it says.
#[derive(Clone, Copy, Debug, PartialEq, Eq)]
pub struct State {
    /// How many rows the docket has.
    pub rows: u32,
    /// How many places of each tier are free.
    pub free: [u32; 3],
}

/// What stands behind the tag of a look-up's reply; none where the desk has refused it, or has ended.
pub async fn found(shared: &Shared, look_up: Vec<u8>) -> Option<Vec<u8>> {
    match shared.queue.push_own(look_up).await {
        Ok(Answer::Said(reply)) => reply.found().map(<[u8]>::to_vec),
        _ => None,
    }
}

/// Asks the desk how it stands.
pub async fn state(shared: &Shared) -> Option<State> {
    let found = found(shared, vec![STATE]).await?;
    let mut bytes = Bytes(&found);
    let is_state = bytes.byte()? == 2;
    let _moment = bytes.long()?;
    let rows = bytes.word()?;
    let free = [bytes.word()?, bytes.word()?, bytes.word()?];
    is_state.then_some(State { rows, free })
}

/// Has the journal begun anew. Answers whether it was.
pub async fn checkpoint(shared: &Shared) -> bool {
    found(shared, vec![CHECKPOINT]).await.as_deref() == Some(&[CHECKPOINT_MADE])
}

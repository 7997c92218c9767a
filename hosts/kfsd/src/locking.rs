//! Questions for locks, as connections ask them: the desk tells what the client may do with the node.

use crate::asking::{node_at, Instead};
use crate::connection::Shared;
use crate::frames::{reply, Found, Refusal, LOCK};
use crate::locks::{Ask, How, Line, Verdict};
use crate::users::{Account, User};
use std::sync::Arc;
use std::time::Instant;

/// How often a node is looked at, where nodes go meanwhile.
const LOOKS: u32 = 4;

/// The bits of a class by which it may read or write.
const READ_OR_WRITE: u16 = 0o6;

/// The locks of a connection, which go with it.
pub struct Locking {
    shared: Arc<Shared>,
    pub line: Line,
}

impl Locking {
    pub fn new(shared: &Arc<Shared>, client: u32) -> Locking {
        Locking { shared: Arc::clone(shared), line: shared.following.locks().connect(client) }
    }
}

impl Drop for Locking {
    fn drop(&mut self) {
        let line = self.line;
        self.shared.following.with_locks(|locks| locks.end(line));
    }
}

/// Whether a user owns a node, is privileged, or may read or write it. The first class that holds counts, as at the desk.
fn may_lock(user: &User, node: &Found) -> bool {
    if user.privileged || node.owner == user.uid {
        return true;
    }
    let is_of_group = node.group == user.gid || user.groups.contains(&node.group);
    let bits = if is_of_group { node.mode >> 3 } else { node.mode };
    bits & READ_OR_WRITE != 0
}

/// The whole reply to a question for a lock.
pub async fn lock(shared: Arc<Shared>, account: Arc<Account>, line: Line, number: u32, ask: Ask) -> Vec<u8> {
    match verdict_of(&shared, &account.user, line, &ask).await {
        Ok(verdict) => {
            // Where another one may lead by now, it has other locks.
            shared.term.holds().await;
            let mut said = vec![LOCK];
            said.extend(verdict.bytes());
            reply(number, &said)
        }
        Err(instead) => instead.reply(number),
    }
}

async fn verdict_of(shared: &Shared, user: &User, line: Line, ask: &Ask) -> Result<Verdict, Instead> {
    let following = &shared.following;
    for _ in 0..LOOKS {
        let gone = following.locks().gone_so_far();
        if !ask.needs_right() {
            break;
        }
        match node_at(shared, user.client, ask.node).await? {
            None => return Ok(Verdict::NoNode),
            Some(node) if !may_lock(user, &node) => return Ok(Verdict::NotAllowed),
            // It may have gone behind the look-up.
            Some(_) if following.locks().gone_so_far() != gone => {}
            Some(_) => break,
        }
    }
    let sets = ask.needs_right() && ask.how != How::Test;
    if sets && following.note_locker(user.client).await.is_err() {
        // kfsd ends where it can't keep what it has to.
        return Err(Instead::Refused(Refusal::Stopping));
    }
    Ok(following.with_locks(|locks| locks.ask(line, ask, Instant::now())))
}

#[cfg(test)]
mod tests {
    use super::*;

    #[test]
    fn the_first_class_that_holds_counts() {
        let user = User { uid: 5, gid: 6, client: 7, groups: vec![8], privileged: false, grant: [1, 0] };
        let may = |mode, owner, group| may_lock(&user, &Found { is_file: true, mode, owner, group });
        assert!(may(0, 5, 1), "the owner");
        assert!(may(0o020, 1, 6) && may(0o040, 1, 8) && !may(0o707, 1, 8), "its group");
        assert!(may(0o004, 1, 1) && may(0o002, 1, 1) && !may(0o771, 1, 1), "others");
        assert!(may_lock(&User { privileged: true, ..user }, &Found { is_file: true, mode: 0, owner: 1, group: 1 }));
    }
}

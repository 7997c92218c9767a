//! What kfsd asks the desk in a client's name before it answers the client: whose a node is on which something is set, and where
//! the path of a lease leads.
//!
//! The desk gives a lease by path to whoever may search the directories. Then one who may do nothing with a node would keep its
//! owner from it. So kfsd finds the node, and asks for the lease by its number, for which the desk asks permission on the node.

use crate::calls::{drop_of, lease_by_number, lease_by_path, marks_call, time_call, Marking, Setting, Told, Why, Wish};
use crate::connection::Shared;
use crate::following::Doubt;
use crate::frames::{name_look_up, node_in, node_look_up, number_in, Found, Given, HowSet, Refusal, Reply};
use crate::queue::Answer;
use crate::users::{Account, User};
use std::sync::Arc;
use tokio::sync::oneshot;

const ROOT: u32 = 1;

/// Who isn't its owner removes only its own files from a directory with this bit.
const STICKY: u16 = 0o1000;

/// The most bytes of a name.
const NAME: usize = 255;

/// What the client is told in place of what it asked for.
#[derive(Debug)]
pub enum Instead {
    Refused(Refusal),
    /// What stands behind the head of the desk's reply.
    Said(Vec<u8>),
}

impl Instead {
    /// The whole reply to the frame of this number.
    pub fn reply(&self, number: u32) -> Vec<u8> {
        match self {
            Instead::Refused(refusal) => refusal.reply(number),
            Instead::Said(said) => crate::frames::reply(number, said),
        }
    }
}

/// The reply of the desk to a frame of kfsd's, or what is told where there is none.
async fn said_by(answer: oneshot::Receiver<Answer>) -> Result<Reply, Instead> {
    match answer.await {
        Ok(Answer::Said(said)) => Ok(said),
        Ok(Answer::NeverSent) => Err(Instead::Refused(Refusal::Stopping)),
        Ok(Answer::NoSpace) => Err(Instead::Refused(Refusal::NoSpace)),
        Err(_) => Err(Instead::Refused(Refusal::Unknown)),
    }
}

/// How the desk answers a call.
async fn told_by(answer: oneshot::Receiver<Answer>) -> Result<Told, Instead> {
    let said = said_by(answer).await?;
    said.answer().map(Told::of).ok_or(Instead::Said(said.said))
}

/// The node of this number; none within where there is none.
pub async fn node_at(shared: &Shared, client: u32, number: u32) -> Result<Option<Found>, Instead> {
    let said = said_by(shared.queue.push_as(client, node_look_up(number))).await?;
    said.found().and_then(node_in).ok_or(Instead::Said(said.said))
}

/// Sets something on a node, where the client may. The desk tells who owns it, and keeps what is set among its calls.
pub async fn set_on(shared: Arc<Shared>, account: Arc<Account>, node: u32, given: Given) -> Result<HowSet, Instead> {
    let user = &account.user;
    let found = said_by(shared.queue.push_look(user.client, node)).await?;
    match found.found().and_then(node_in) {
        None => return Err(Instead::Said(found.said)),
        Some(None) => return Ok(HowSet::NoNode),
        Some(Some(found)) if found.owner != user.uid && !user.privileged => return Ok(HowSet::NotOwner),
        Some(Some(_)) => {}
    }
    match given {
        Given::Time(time) => set_time(&shared, node, time).await,
        Given::Marks(marks) => set_marks(&shared, node, Marking { marks, born: found.born().unwrap_or(0) }).await,
    }
}

async fn set_time(shared: &Shared, node: u32, time: i64) -> Result<HowSet, Instead> {
    let is_first = shared.following.times().of(node).is_none();
    told_by(shared.queue.push_own(time_call(node, Setting { time, is_first }))).await?;
    Ok(HowSet::Set)
}

async fn set_marks(shared: &Shared, node: u32, set: Marking) -> Result<HowSet, Instead> {
    told_by(shared.queue.push_own(marks_call(node, set))).await?;
    // Where it is gone meanwhile, another one may have its number.
    let is_same = shared.following.times().of(node).map_or(false, |stamp| stamp.born == set.born);
    Ok(if is_same { HowSet::Set } else { HowSet::NoNode })
}

/// Where a path leads, and the directory with its last name.
#[derive(Clone, Copy, Debug, PartialEq, Eq)]
struct Place {
    node: u32,
    directory: Option<u32>,
}

/// The names of a path; none where it is no path.
fn names_of(path: &[u8]) -> Option<Vec<&[u8]>> {
    let is_name = |name: &&[u8]| !matches!(*name, b"" | b"." | b"..") && name.len() <= NAME && !name.contains(&0);
    match path {
        b"/" => Some(vec![]),
        [b'/', rest @ ..] => {
            let names: Vec<_> = rest.split(|byte| *byte == b'/').collect();
            names.iter().all(is_name).then_some(names)
        }
        _ => None,
    }
}

/// Where a path leads, by look-ups of the client; none where it leads nowhere, or the client may not go there.
async fn place_of(shared: &Shared, client: u32, path: &[u8]) -> Result<Option<Place>, Instead> {
    let names = match names_of(path) {
        Some(names) => names,
        None => return Ok(None),
    };
    let mut place = Place { node: ROOT, directory: None };
    for name in names {
        let said = said_by(shared.queue.push_as(client, name_look_up(place.node, name))).await?;
        match said.found().map(number_in) {
            None => return Err(Instead::Said(said.said)),
            Some(None) => return Ok(None),
            Some(Some(node)) => place = Place { node, directory: Some(place.node) },
        }
    }
    Ok(Some(place))
}

/// What a client may do with a node.
#[derive(Clone, Copy, Debug, PartialEq, Eq)]
enum Right {
    Has,
    HasNot,
    NoNode,
}

/// What the desk would answer to a lease by number: it tells for one that has ended before it begins, and gives none.
fn asked_right(client: u32, writes: bool, node: u32) -> Vec<u8> {
    lease_by_number(&Wish { client, writes, end: 0, node: Some(node) }, node)
}

fn right_in(told: Told) -> Right {
    match told {
        Told::NoLease(Why::Past) => Right::Has,
        Told::NoLease(Why::NoSuchNode) => Right::NoNode,
        _ => Right::HasNot,
    }
}

async fn right_of(shared: &Shared, client: u32, writes: bool, node: u32) -> Result<Right, Instead> {
    Ok(right_in(told_by(shared.queue.push_as(client, asked_right(client, writes, node))).await?))
}

/// Whether a user may remove a file from the directory that its path goes through (POSIX.1-2017, unlink()). For that it needs a
/// lease, also where it may not write the file.
async fn may_remove(shared: &Shared, user: &User, place: Place) -> Result<bool, Instead> {
    let directory = match place.directory {
        Some(directory) => directory,
        None => return Ok(false),
    };
    match (node_at(shared, user.client, place.node).await?, node_at(shared, user.client, directory).await?) {
        (Some(node), Some(above)) if node.is_file && (above.mode & STICKY == 0 || above.owner == user.uid) => {
            Ok(right_of(shared, user.client, true, directory).await? == Right::Has)
        }
        _ => Ok(false),
    }
}

/// The call that is made for a lease by path, and the node that is meant.
#[derive(Debug)]
pub struct Leasing {
    pub body: Vec<u8>,
    pub node: u32,
}

/// What becomes of a call for a lease by path.
pub async fn leasing_of(shared: &Shared, user: &User, wish: &Wish, path: &[u8]) -> Result<Leasing, Instead> {
    loop {
        // Where the path has changed meanwhile it is looked up again.
        if let Some(leasing) = leasing_now(shared, user, wish, path).await? {
            return Ok(leasing);
        }
    }
}

async fn leasing_now(shared: &Shared, user: &User, wish: &Wish, path: &[u8]) -> Result<Option<Leasing>, Instead> {
    let client = user.client;
    let place = match place_of(shared, client, path).await? {
        Some(place) => place,
        None => return fault_of(shared, wish, path).await,
    };
    let by_number = Leasing { body: lease_by_number(wish, place.node), node: place.node };
    if !wish.writes {
        return Ok(Some(by_number));
    }
    match right_of(shared, client, true, place.node).await? {
        Right::NoNode => Ok(None),
        Right::HasNot if may_remove(shared, user, place).await? => {
            Ok(Some(Leasing { body: lease_by_path(wish, path), ..by_number }))
        }
        // The desk refuses it, where it may not be.
        _ => Ok(Some(by_number)),
    }
}

/// Has the desk say what is wrong with a path, by a lease that it can't give. None where nothing is any more.
async fn fault_of(shared: &Shared, wish: &Wish, path: &[u8]) -> Result<Option<Leasing>, Instead> {
    let said = said_by(shared.queue.push_as(wish.client, lease_by_path(&Wish { end: 0, ..*wish }, path))).await?;
    match said.answer().map(Told::of) {
        Some(Told::NoLease(Why::Past)) => Ok(None),
        _ => Err(Instead::Said(said.said)),
    }
}

/// Gives a lease up in the name of its client, where that may not have it by the node's number and another one wants it: bits
/// were taken from the client meanwhile, or it has the lease to remove the file.
pub async fn settle(shared: &Shared, doubt: Doubt) {
    let Doubt { node, holder } = doubt;
    let lease = shared.following.leases().of(node, holder);
    let writes = match lease {
        Some(lease) => lease.writes,
        None => return,
    };
    // What another one waits for doesn't wait for the holder's own calls.
    let told = told_by(shared.queue.push_for(holder, asked_right(holder, writes, node))).await;
    if matches!(told, Ok(Told::NoLease(Why::NotAllowed))) {
        // Where nobody knows the answer, the next want finds out.
        let _ = said_by(shared.queue.push_for(holder, drop_of(holder, node))).await;
    }
}

#[cfg(test)]
mod tests {
    use super::*;

    #[test]
    fn paths_are_names_with_a_slash_before_each() {
        assert_eq!(names_of(b"/"), Some(vec![]));
        assert_eq!(names_of(b"/a/bc"), Some(vec![&b"a"[..], b"bc"]));
        let long = [&b"/"[..], &[b'a'; NAME + 1]].concat();
        for path in [&b""[..], b"a", b"//", b"/a/", b"/a//b", b"/.", b"/a/..", b"/a\0", &long] {
            assert_eq!(names_of(path), None, "{}", path.escape_ascii());
        }
    }
}

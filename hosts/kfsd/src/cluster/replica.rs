//! A `kfs_serve` that is given the groups of a volume. What it answers has to be what the leader's has answered.

use super::base::{Bases, Since};
use super::group::Group;
use super::{blocking, ClusterFault};
use crate::docket::three_quarters;
use crate::frames::{read_reply, Head, Reply, CHECKPOINT, HEAD};
use crate::log;
use crate::users::FRONT;
use std::ffi::OsString;
use std::fs;
use std::io::{self, ErrorKind};
use std::path::{Path, PathBuf};
use std::process::Stdio;
use std::time::Duration;
use tokio::io::{AsyncWriteExt, BufReader};
use tokio::process::{Child, ChildStdin, ChildStdout, Command};
use tokio::time::timeout;
use tracing::warn;

/// The folder of its files, in kfsd's own or another one. What is in it goes at each start.
pub const FOLDER: &str = "replica";

/// How long it may take to end once its input has.
const LAST_MOMENT: Duration = Duration::from_secs(20);

/// The tags of calls that are the front's. In all others the client stands behind the tag.
const TICK: u8 = 4;
const MIGRATE: u8 = 5;

/// The process and its pipes.
#[derive(Debug)]
pub struct Replica {
    child: Child,
    to: ChildStdin,
    from: BufReader<ChildStdout>,
    /// The number of the next frame.
    number: u32,
    /// How many rows its docket has, and may have.
    rows: u32,
    most: u32,
    /// The folder of its files.
    folder: PathBuf,
}

/// Begins a folder without files in another one: what an earlier kfsd has left may have calls that etcd hasn't.
pub fn begin_anew(parent: &Path) -> io::Result<PathBuf> {
    let folder = parent.join(FOLDER);
    match fs::remove_dir_all(&folder) {
        Err(fault) if fault.kind() != ErrorKind::NotFound => return Err(fault),
        _ => {}
    }
    fs::create_dir(&folder)?;
    Ok(folder)
}

impl Replica {
    /// Starts a process whose docket may have so many rows, and waits until it has opened its files.
    pub async fn start(program: &Path, words: &[OsString], most: u32, folder: PathBuf) -> Result<Replica, ClusterFault> {
        let failed = |fault| ClusterFault::Process(program.to_path_buf(), fault);
        let mut child = Command::new(program)
            .args(words)
            .stdin(Stdio::piped())
            .stdout(Stdio::piped())
            .stderr(Stdio::piped())
            .kill_on_drop(true)
            .spawn()
            .map_err(failed)?;
        log::tell_of(child.stderr.take());
        let (to, from) = match (child.stdin.take(), child.stdout.take()) {
            (Some(to), Some(from)) => (to, BufReader::new(from)),
            _ => return Err(failed(ErrorKind::BrokenPipe.into())),
        };
        let mut replica = Replica { child, to, from, number: 0, rows: 0, most, folder };
        // An empty frame is refused and changes nothing.
        let head = Head { length: 0, number: FRONT, from: FRONT };
        replica.talk(&head.bytes(), 1).await?;
        Ok(replica)
    }

    /// Its number among the system's processes.
    pub fn process(&self) -> u64 {
        self.child.id().map_or(0, u64::from)
    }

    /// Sends frames, and reads as many replies as there are frames.
    pub async fn talk(&mut self, frames: &[u8], count: usize) -> Result<Vec<Reply>, ClusterFault> {
        let Replica { to, from, .. } = self;
        let writing = to.write_all(frames);
        let reading = async {
            let mut replies = Vec::with_capacity(count);
            while replies.len() < count {
                match read_reply(from).await? {
                    Some(reply) => replies.push(reply),
                    None => return Err(ErrorKind::UnexpectedEof.into()),
                }
            }
            Ok(replies)
        };
        tokio::pin!(reading);
        // Where its input is closed, it says why by its end.
        let replies = tokio::select! {
            replies = &mut reading => replies,
            Ok(()) = writing => reading.await,
        };
        let replies = replies.map_err(ClusterFault::Ended)?;
        self.rows = replies.iter().filter_map(Reply::position).max().unwrap_or(self.rows);
        Ok(replies)
    }

    /// Whether its docket is to be begun anew, as each start does.
    pub fn is_nearly_full(&self) -> bool {
        self.rows >= three_quarters(self.most)
    }

    /// Makes the calls of groups, all of them at once. Each has to have the answer that it had.
    pub async fn feed(&mut self, groups: &[(u64, Group)]) -> Result<(), ClusterFault> {
        let calls =
            || groups.iter().flat_map(|(number, group)| group.calls.iter().enumerate().map(move |call| (*number, call)));
        let mut frames = Vec::new();
        for (number, (_, (call, _))) in calls() {
            let from = from_of(call).ok_or(ClusterFault::BadGroup(number))?;
            // Bodies have at most 16,777,216 bytes.
            frames.extend_from_slice(&Head { length: call.len() as u32, number: self.number, from }.bytes());
            frames.extend_from_slice(call);
            self.number = self.number.wrapping_add(1);
        }
        let replies = self.talk(&frames, calls().count()).await?;
        for (reply, (number, (place, (_, answer)))) in replies.iter().zip(calls()) {
            if reply.answer() != Some(answer) {
                return Err(ClusterFault::Differs { number, place, theirs: answer.clone(), own: reply.said.clone() });
            }
        }
        Ok(())
    }

    /// Has it begin its journal anew, and copies the state that it begins with. False where it refuses that. Groups count anew.
    pub async fn copy_state(&mut self, bases: &Bases, since: &mut Since) -> Result<bool, ClusterFault> {
        let head = Head { length: 1, number: FRONT, from: FRONT };
        let replies = self.talk(&[&head.bytes()[..], &[CHECKPOINT]].concat(), 1).await?;
        if replies.iter().any(|reply| reply.found().is_none()) {
            warn!("no state is kept: kfs_serve refuses to begin its journal anew");
            since.begin_anew(0);
            return Ok(false);
        }
        let (bases, folder) = (bases.clone(), self.folder.clone());
        since.begin_anew(blocking(move || bases.copy(&folder)).await?);
        Ok(true)
    }

    /// Ends it by the end of its input.
    pub async fn end(self) {
        let Replica { mut child, to, from, .. } = self;
        drop((to, from));
        // Where it doesn't end in time it is killed: nobody reads its files any more.
        let _ = timeout(LAST_MOMENT, child.wait()).await;
    }
}

/// Who sends a call.
fn from_of(call: &[u8]) -> Option<u32> {
    match *call {
        [TICK | MIGRATE, ..] => Some(FRONT),
        [_, a, b, c, d, ..] => Some(u32::from_be_bytes([a, b, c, d])),
        _ => None,
    }
}

/// The bodies of the frames that stand one behind another in these bytes.
pub fn bodies(mut frames: &[u8]) -> Vec<&[u8]> {
    let mut found = Vec::new();
    while let Some(head) = frames.get(..HEAD).and_then(|head| head.try_into().ok()) {
        let end = HEAD + Head::of(head).length as usize;
        match frames.get(HEAD..end) {
            Some(body) => found.push(body),
            None => break,
        }
        frames = &frames[end..];
    }
    found
}

#[cfg(test)]
mod tests {
    use super::*;

    #[test]
    fn a_call_says_who_sends_it() {
        assert_eq!(from_of(&[2, 0, 0, 1, 0, 9]), Some(256));
        assert_eq!(from_of(&[TICK, 0, 0, 1, 0]), Some(FRONT));
        assert_eq!(from_of(&[MIGRATE]), Some(FRONT));
        assert_eq!(from_of(&[2, 0, 0]), None);
    }

    #[test]
    fn bodies_are_cut_from_frames() {
        let head = |length| Head { length, number: 1, from: 7 }.bytes().to_vec();
        let frames = [head(2), vec![8, 9], head(0), head(1), vec![5]].concat();
        assert_eq!(bodies(&frames), [&[8, 9][..], &[], &[5]]);
        assert_eq!(bodies(&frames[..frames.len() - 1]), [&[8, 9][..], &[]]);
    }
}

//! A member of a volume: it makes the calls of all groups, and leads where nobody does.

use super::base::{Base, Bases, Since};
use super::leading::{self, Kept, Leading};
use super::origin::Origin;
use super::peer::{self, Credentials};
use super::portion::Portion;
use super::relay::relay;
use super::replica::{begin_anew, Replica};
use super::volume::{Lead, Peer, Seen, Sign, Volume};
use super::{blocking, ClusterFault, Settings};
use crate::calls::Note;
use crate::config::Config;
use crate::connection::Shared;
use crate::folder::{look_at_owner, Folder, Found};
use crate::outcomes::Finder;
use crate::queue::Queue;
use crate::sockets::Sockets;
use std::ffi::OsString;
use std::fs;
use std::io;
use std::path::{Path, PathBuf};
use std::sync::Arc;
use std::time::{Duration, Instant};
use tokio::net::TcpListener;
use tokio::sync::{oneshot, watch};
use tokio::task::JoinSet;
use tokio::time::sleep;
use tracing::{debug, info, warn};

/// How long a member waits before it looks for groups again.
const POLL: Duration = Duration::from_millis(50);

/// How long it waits where etcd doesn't answer, or nobody gives it a state.
const REST: Duration = Duration::from_millis(200);

/// A kfsd of a volume.
#[derive(Debug)]
pub struct Member {
    settings: Settings,
    volume: Arc<Volume>,
    origin: Origin,
    own: Credentials,
    bases: Bases,
    /// Where other members ask.
    listener: Arc<TcpListener>,
    /// Where clients connect, and where kfsctl does.
    socket: PathBuf,
    control: PathBuf,
    program: PathBuf,
    folder: Folder,
    /// Where the files of `kfs_serve` are, where that is another folder. It is locked, too.
    elsewhere: Option<Folder>,
    rows: u32,
}

/// What a member knows of the groups before the next one.
#[derive(Debug)]
struct Follower {
    next: u64,
    finder: Finder,
    /// The moment of the last group.
    moment: u64,
    /// How much there was since a state was copied.
    since: Since,
    /// How the last state that was copied is kept.
    kept: Kept,
}

/// The last sign of a leader.
#[derive(Debug)]
struct Watch {
    sign: Sign,
    /// Since when no later one was seen here.
    since: Instant,
    /// The term of etcd's own leader, and since when no later one was seen.
    term: i64,
    elected: Instant,
}

impl Member {
    /// Finds the volume in etcd, or begins it as the configuration says, with the lines of these clients. Waits until etcd answers.
    pub async fn join(settings: &Settings, config: &Config, folder: Folder, clients: &str) -> Result<Member, ClusterFault> {
        let own = Credentials::of(settings)?;
        let listener = TcpListener::bind(settings.peer).await.map_err(|fault| ClusterFault::Peer(settings.peer, fault))?;
        let volume = Arc::new(Volume::new(settings)?);
        let wanted = Origin::new(config.tiers, clients).map_err(ClusterFault::Folder)?.text();
        let origin = loop {
            match begin(&volume, &wanted, config, &folder).await {
                Err(ClusterFault::Etcd(fault)) => {
                    warn!("{fault}");
                    sleep(REST).await;
                }
                other => break other?,
            }
        };
        Ok(Member {
            settings: settings.clone(),
            volume,
            origin: Origin::of(&origin).ok_or(ClusterFault::Unread("the origin"))?,
            own,
            bases: Bases::new(folder.path()),
            listener: Arc::new(listener),
            socket: config.socket.clone(),
            control: config.control.clone(),
            program: config.program.clone(),
            elsewhere: settings.replica_folder.as_deref().map(lock_other).transpose()?,
            folder,
            rows: config.rows,
        })
    }

    /// The lines of the clients that the volume was begun with.
    pub fn clients(&self) -> &str {
        &self.origin.clients
    }

    /// Follows the volume until nobody leads it, and leads then, until the queue is closed and empty. `ready` becomes true when
    /// this one leads.
    pub async fn run(self, shared: &Arc<Shared>, ready: &watch::Sender<bool>) -> Result<(), ClusterFault> {
        let (tell, leader) = watch::channel(None);
        let sockets = Sockets::bind(&self.socket, &self.control);
        let sockets = sockets.map_err(|fault| ClusterFault::Socket(fault.to_string()))?;
        let mut serving = JoinSet::new();
        let (listener, own, bases) = (Arc::clone(&self.listener), self.own.clone(), self.bases.clone());
        serving.spawn(peer::serve(listener, own, bases, Arc::clone(shared)));
        let followed = tokio::select! {
            followed = self.follow(shared, &tell) => followed?,
            never = relay(&sockets, shared, leader, &self.own) => match never {},
            () = turned_away(&shared.queue) => return Ok(()),
        };
        drop(sockets);
        self.lead(followed, shared, ready).await
    }

    /// Makes the calls of groups until this one leads.
    async fn follow(
        &self,
        shared: &Shared,
        leader: &watch::Sender<Option<Peer>>,
    ) -> Result<(Replica, Follower, Lead), ClusterFault> {
        self.have_state(leader).await?;
        let (mut replica, mut follower) = self.begin(shared).await?;
        info!("{} follows volume {} from group {} on", self.settings.member, self.settings.volume, follower.next);
        let (mut watch, mut portion) = (Watch::new(), Portion::default());
        let mut seen = self.look(follower.next, &mut portion).await?;
        loop {
            watch.see(&seen);
            if *leader.borrow() != seen.leader {
                let who = seen.leader.as_ref().map_or("nobody", |peer| &peer.address);
                debug!("{who} leads, and group {} of {} is next here", follower.next, seen.next);
                leader.send_replace(seen.leader.clone());
            }
            if !seen.groups.is_empty() {
                seen = self.make(seen, &mut portion, &mut replica, &mut follower, shared).await?;
                continue;
            }
            let is_free = seen.leader.is_none() || watch.is_over(self.settings.lease());
            if is_free && follower.next == seen.next {
                if let Some(lead) = self.ask_to_lead(&follower, &watch).await? {
                    return Ok((replica, follower, lead));
                }
            }
            sleep(POLL).await;
            seen = self.look(follower.next, &mut portion).await?;
        }
    }

    /// Looks how the volume stands, once etcd answers.
    async fn look(&self, from: u64, portion: &mut Portion) -> Result<Seen, ClusterFault> {
        loop {
            match self.volume.look(from, portion.count()).await {
                Err(ClusterFault::Etcd(fault)) => warn!("{fault}"),
                other => {
                    let seen = other?;
                    portion.came(&seen.groups);
                    return Ok(seen);
                }
            }
            portion.is_late();
            sleep(REST).await;
        }
    }

    /// Makes the calls of groups, and looks for those behind them meanwhile: at once where there are some, and else not before others
    /// have come together, so that they take one read of etcd and one sync.
    async fn make(
        &self,
        seen: Seen,
        portion: &mut Portion,
        replica: &mut Replica,
        follower: &mut Follower,
        shared: &Shared,
    ) -> Result<Seen, ClusterFault> {
        let behind = follower.next + seen.groups.len() as u64;
        let looking = async {
            if !seen.has_more() {
                sleep(POLL).await;
            }
            self.look(behind, portion).await
        };
        let (made, later) = tokio::join!(replica.feed(&seen.groups), looking);
        made?;
        seen.groups.iter().for_each(|(number, group)| follower.take(*number, group, shared));
        debug!("group {} is next", follower.next);
        self.keep_state(replica, follower, shared).await?;
        if replica.is_nearly_full() {
            return Err(ClusterFault::Docket);
        }
        later
    }

    /// Becomes the leader, where no other one does, and etcd answers.
    async fn ask_to_lead(&self, follower: &Follower, watch: &Watch) -> Result<Option<Lead>, ClusterFault> {
        debug!("the last sign of a leader is {:.1?} old: this one asks to lead", watch.since.elapsed());
        match self.volume.lead(follower.next, watch.sign, self.settings.lease()).await {
            Err(ClusterFault::Etcd(fault)) => {
                warn!("{fault}");
                Ok(None)
            }
            other => other,
        }
    }

    /// Sees to it that the state that is kept here, or the beginning, and the groups of etcd lead to now.
    async fn have_state(&self, leader: &watch::Sender<Option<Peer>>) -> Result<(), ClusterFault> {
        loop {
            let number = self.own_base()?.map_or(0, |base| base.number);
            match self.volume.look(number, 1).await {
                Ok(seen) => {
                    leader.send_replace(seen.leader);
                    return Ok(());
                }
                Err(ClusterFault::Gap(_)) => self.fetch(number).await?,
                Err(ClusterFault::Etcd(fault)) => {
                    warn!("{fault}");
                    sleep(REST).await;
                }
                Err(fault) => return Err(fault),
            }
        }
    }

    /// What stands beside the state that is kept here.
    fn own_base(&self) -> Result<Option<Base>, ClusterFault> {
        let base = match self.bases.read() {
            Err(fault) if fault.kind() == io::ErrorKind::InvalidData => {
                warn!("{}: {fault}", self.folder.path().display());
                None
            }
            other => other.map_err(ClusterFault::Folder)?,
        };
        match base {
            Some(base) if base.volume != self.origin.volume => Err(ClusterFault::Another(self.folder.path().to_path_buf())),
            other => Ok(other),
        }
    }

    /// Has another member send its state, where one has a later one than this.
    async fn fetch(&self, number: u64) -> Result<(), ClusterFault> {
        let kept = match self.volume.kept().await {
            Err(ClusterFault::Etcd(fault)) => {
                warn!("{fault}");
                vec![]
            }
            other => other?,
        };
        for (_, peer) in kept.into_iter().filter(|(its, peer)| *its > number && peer.name != self.settings.member) {
            let address = &peer.address;
            if let Err(fault) = peer::fetch(&peer, &self.own, &self.bases).await {
                warn!("no state comes from {address}: {fault}");
                continue;
            }
            let base = self.bases.read_part().map_err(ClusterFault::Folder)?;
            if base.volume == self.origin.volume && base.number > number {
                info!("the state before group {} has come from {address}", base.number);
                return self.bases.keep_whole().map_err(ClusterFault::Folder);
            }
        }
        warn!("etcd has no groups behind the state that is kept here, and no other member has sent its state");
        sleep(REST * 5).await;
        Ok(())
    }

    /// Starts `kfs_serve` with the state that is kept, or as at the first start. What its files were before goes.
    async fn begin(&self, shared: &Shared) -> Result<(Replica, Follower), ClusterFault> {
        let base = self.own_base()?;
        let folder = self.elsewhere.as_ref().unwrap_or(&self.folder).path();
        let folder = begin_anew(folder).map_err(ClusterFault::Folder)?;
        let clients = folder.join("clients");
        fs::write(&clients, &self.origin.clients).map_err(ClusterFault::Folder)?;
        let mut words: Vec<OsString> = vec!["new".into(), folder.clone().into(), self.rows.to_string().into()];
        let since = Since::new(self.settings.state_bytes, self.bases.length());
        let mut follower = Follower { next: 0, finder: Finder::default(), moment: 0, since, kept: oneshot::channel().1 };
        if let Some(base) = base {
            let (bases, to) = (self.bases.clone(), folder.clone());
            blocking(move || bases.put(&to)).await?;
            words[0] = "open".into();
            follower = Follower { next: base.number, moment: base.moment, ..follower };
            base.recall(&folder, &shared.following).map_err(ClusterFault::Folder)?;
        } else {
            words.push(clients.into());
            words.extend(self.origin.tiers.iter().map(|blocks| blocks.to_string().into()));
        }
        shared.figures.group.set(follower.next);
        self.volume.tell_kept(follower.next).await?;
        Ok((Replica::start(&self.program, &words, self.rows, folder).await?, follower))
    }

    /// Has a state kept, where there were many groups since the last one. Groups are made meanwhile.
    async fn keep_state(&self, replica: &mut Replica, follower: &mut Follower, shared: &Shared) -> Result<(), ClusterFault> {
        if !follower.since.is_long() {
            return Ok(());
        }
        leading::is_kept(&mut follower.kept).await?;
        if replica.copy_state(&self.bases, &mut follower.since).await? {
            let number = follower.next;
            let base = Base::now(self.origin.volume, number, follower.moment, &shared.following);
            let (bases, volume) = (self.bases.clone(), Arc::clone(&self.volume));
            let (kept, next) = oneshot::channel();
            follower.kept = next;
            tokio::spawn(async move {
                let keeping = async {
                    blocking(move || bases.keep(&base)).await?;
                    volume.tell_kept(number).await
                };
                // It is heard with the next state. Where there is none any more nobody waits.
                let _ = kept.send(keeping.await);
            });
        }
        Ok(())
    }

    /// Leads until the queue is closed and empty.
    async fn lead(
        self,
        (mut replica, follower, lead): (Replica, Follower, Lead),
        shared: &Arc<Shared>,
        ready: &watch::Sender<bool>,
    ) -> Result<(), ClusterFault> {
        info!("{} leads volume {} from group {} on", self.settings.member, self.settings.volume, follower.next);
        let moment = shared.following.leases().moment.max(follower.moment);
        shared.following.clock.go_on_from(moment);
        shared.figures.process.set(replica.process());
        shared.figures.opened.set(1);
        ready.send_replace(true);
        let leading = Leading {
            volume: &self.volume,
            lead: &lead,
            bases: &self.bases,
            id: self.origin.volume,
            most: Duration::from_secs(self.settings.hang_seconds),
        };
        let Follower { next, since, kept, .. } = follower;
        let led = leading::lead(&leading, next, (since, kept), &mut replica, shared).await;
        let led = led.and_then(|()| if replica.is_nearly_full() { Err(ClusterFault::Docket) } else { Ok(()) });
        shared.figures.opened.set(0);
        // Its key goes at once. What it has sent before that it was told of, or it is refused.
        self.volume.end(&lead).await;
        match &led {
            Ok(()) => replica.end().await,
            // It may never end by itself, so it is killed.
            Err(_) => drop(replica),
        }
        debug!("group {} is next", shared.figures.group.get());
        led
    }
}

/// What a volume was begun with. Where it isn't there it is begun with this, and there may be no desk and no state in the folder.
async fn begin(volume: &Volume, wanted: &str, config: &Config, folder: &Folder) -> Result<String, ClusterFault> {
    let has_files = folder.files().map_err(ClusterFault::Folder)? != Found::None;
    let has_desk = has_files || Bases::new(folder.path()).is_there();
    if volume.origin().await?.is_none() {
        if has_desk {
            return Err(ClusterFault::Unused(folder.path().to_path_buf()));
        }
        // What is in etcd stays there.
        config.check_first().map_err(ClusterFault::First)?;
    }
    volume.begin(wanted, 0).await
}

/// Locks another folder than kfsd's own.
fn lock_other(path: &Path) -> Result<Folder, ClusterFault> {
    let failed = |fault| ClusterFault::Path(path.to_path_buf(), fault);
    let taken = || failed(io::Error::new(io::ErrorKind::AlreadyExists, "another kfsd has it"));
    look_at_owner(path).map_err(failed)?;
    Folder::lock(path).map_err(failed)?.ok_or_else(taken)
}

/// Takes the questions of `kfsctl`, which a member that doesn't lead has no answer to, until the queue is closed.
async fn turned_away(queue: &Queue) {
    while let Some(batch) = queue.next(0).await {
        drop(batch);
    }
}

impl Watch {
    fn new() -> Watch {
        let now = Instant::now();
        Watch { sign: Sign::default(), since: now, term: 0, elected: now }
    }

    /// Takes what was seen. It counts from when etcd told it: calls may have been made here since.
    fn see(&mut self, seen: &Seen) {
        if self.sign != seen.sign {
            (self.sign, self.since) = (seen.sign, seen.when);
        }
        if self.term < seen.term {
            (self.term, self.elected) = (seen.term, seen.when);
            debug!("etcd has an own leader of term {}, or seeks one", seen.term);
        }
    }

    /// Whether a leader that others wait for so long would have given another sign. Where etcd has just found a leader of its own, one
    /// may not have been able to.
    fn is_over(&self, time: Duration) -> bool {
        self.since.elapsed() >= time && self.elected.elapsed() >= time / 4
    }
}

impl Follower {
    /// Takes over what a group has done.
    fn take(&mut self, number: u64, group: &super::group::Group, shared: &Shared) {
        let following = &shared.following;
        for (call, answer) in &group.calls {
            following.answered(&Note::of(call), answer, group.time);
            following.space().made(call, answer);
            if let Some(outcome) = self.finder.next(call, answer) {
                following.outcomes.end(outcome.client, outcome.number, Some(answer));
            }
        }
        self.since.add(group.length());
        // All of it is in etcd.
        drop(following.take_unsaved());
        self.moment = group.moment;
        self.next = number + 1;
        shared.figures.group.set(self.next);
    }
}

#[cfg(test)]
mod tests {
    use super::*;

    #[test]
    fn a_sign_counts_from_when_etcd_told_it() {
        let (lease, mut watch) = (Duration::from_secs(2), Watch::new());
        let told = |sign, millis| {
            let when = Instant::now() - Duration::from_millis(millis);
            Seen { when, leader: None, sign: Sign { leader: 1, sign }, term: 5, next: 0, groups: vec![] }
        };
        watch.see(&told(2, 1900));
        assert!(!watch.is_over(lease));
        watch.see(&told(3, 2100));
        assert!(watch.is_over(lease));
        // the same sign, told again
        watch.see(&told(3, 0));
        assert!(watch.is_over(lease));
        watch.see(&told(4, 0));
        assert!(!watch.is_over(lease));
        // etcd has just found a leader of its own
        watch.see(&Seen { term: 6, ..told(5, 2100) });
        watch.see(&Seen { term: 7, ..told(5, 0) });
        assert!(!watch.is_over(lease));
    }
}

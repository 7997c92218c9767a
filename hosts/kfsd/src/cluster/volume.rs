//! A volume in etcd: who leads it, and its groups, each under a number of its own without a gap.
//!
//! All that a leader puts is put only while the leader's key is as it has put it itself. So nothing comes once another one leads, also
//! what was sent before that.
//!
//! A leader gives signs. A member that sees no new one for the time of a lease, by its own clock, takes the key over, and only where etcd
//! has no later sign. So neither clocks of etcd nor an election there make a leader's time longer.

use super::etcd::{Do, Done, Etcd, EtcdFault, If, Row};
use super::group::{Group, Held, PART};
use super::origin::random;
use super::{ClusterFault, Settings};
use std::cmp::Reverse;
use std::net::SocketAddr;
use std::time::{Duration, Instant};
use tracing::warn;

/// How long a look may take, and how long a group or a part of one may take to be put.
const LOOK: Duration = Duration::from_secs(3);
const PUT: Duration = Duration::from_secs(30);

/// How long an end that is told may take. Where it isn't told, others wait for the time of a lease.
const LAST: Duration = Duration::from_millis(500);

/// How many members a volume has at most.
pub(super) const MEMBERS: usize = 1000;

/// What stands before the name of each volume that there is.
pub(super) const INDEX: &str = "kfsd-volumes/";

/// A volume, as one member sees it.
#[derive(Debug)]
pub struct Volume {
    etcd: Etcd,
    name: String,
    prefix: String,
    member: String,
    /// Where the others reach this member.
    address: SocketAddr,
}

/// A member, as others find it.
#[derive(Clone, Debug, PartialEq, Eq)]
pub struct Peer {
    pub name: String,
    /// Where it is.
    pub address: String,
}

/// How a volume stands.
#[derive(Debug)]
pub struct Seen {
    /// When etcd had answered that.
    pub when: Instant,
    /// The member that leads it.
    pub leader: Option<Peer>,
    pub sign: Sign,
    /// The term of etcd's own leader. Before a new one there was none, so no sign could be given.
    pub term: i64,
    /// The number of the next group that is put.
    pub next: u64,
    /// Some groups from the one that was asked for on.
    pub groups: Vec<(u64, Group)>,
}

/// What shows that a leader is there: it changes with each leader, and with each sign of one.
#[derive(Clone, Copy, Debug, Default, PartialEq, Eq)]
pub struct Sign {
    /// The revisions at which the leader's key, and its sign, were put last; 0 where they aren't there.
    pub(super) leader: i64,
    pub(super) sign: i64,
}

/// What a leader has.
#[derive(Clone, Copy, Debug)]
pub struct Lead {
    /// The revision at which it has put its key.
    revision: i64,
    /// How long others wait behind its last sign.
    pub time: Duration,
}

impl Seen {
    /// Whether groups are in etcd behind those that were read.
    pub fn has_more(&self) -> bool {
        self.groups.last().map_or(false, |(number, _)| number + 1 < self.next)
    }
}

impl Volume {
    /// The volume of these settings.
    pub fn new(settings: &Settings) -> Result<Volume, ClusterFault> {
        Ok(Volume {
            etcd: Etcd::of(settings)?,
            name: settings.volume.clone(),
            prefix: format!("kfsd/{}", settings.volume),
            member: settings.member.clone(),
            address: settings.peer,
        })
    }

    fn key(&self, name: &str) -> String {
        format!("{}/{name}", self.prefix)
    }

    fn group(&self, number: u64) -> String {
        format!("{}/group/{number:016x}", self.prefix)
    }

    fn part(&self, number: u64, part: u32) -> String {
        format!("{}/part/{number:016x}/{part:08x}", self.prefix)
    }

    /// What the volume was begun with; none where it isn't there.
    pub async fn origin(&self) -> Result<Option<String>, ClusterFault> {
        let done = self.etcd.transact(&[], &[Do::Get(self.key("origin"))], &[], Instant::now() + LOOK).await?;
        first(&done, 0).map(|row| text_in(&row.value)).transpose()
    }

    /// What the volume was begun with. Where it isn't there, it is begun with this, and with this number for its first group. Where
    /// that isn't 0, this member keeps the state before it.
    pub async fn begin(&self, origin: &str, number: u64) -> Result<String, ClusterFault> {
        let (key, next) = (self.key("origin"), self.key("next"));
        let ifs = [If::PutAt(key.clone(), 0)];
        let mut puts = vec![
            Do::Put(format!("{INDEX}{}", self.name), vec![]),
            Do::Put(key.clone(), origin.into()),
            Do::Put(next, text_of(number)),
        ];
        if number > 0 {
            puts.push(self.keeps(number));
        }
        puts.push(Do::Get(key.clone()));
        let done = self.etcd.transact(&ifs, &puts, &[Do::Get(key)], Instant::now() + LOOK).await?;
        let found = done.found.into_iter().flatten().next().ok_or(EtcdFault::Nonsense("no origin is found"))?;
        text_in(&found.value)
    }

    /// Looks who leads, and for so many groups from a number on at most.
    pub async fn look(&self, from: u64, most: usize) -> Result<Seen, ClusterFault> {
        let groups = Do::Range(self.group(from), self.key("group0"), most);
        let steps = [Do::Get(self.key("leader")), Do::Get(self.key("sign")), Do::Get(self.key("next")), groups];
        let done = self.etcd.look(&steps, Instant::now() + LOOK).await?;
        match self.seen(from, done).await {
            // The member of etcd that has answered may be behind the others.
            Err(ClusterFault::Ahead { .. } | ClusterFault::Gap(_) | ClusterFault::Unread(_)) => {
                let done = self.etcd.transact(&[], &steps, &[], Instant::now() + LOOK).await?;
                self.seen(from, done).await
            }
            other => other,
        }
    }

    async fn seen(&self, from: u64, done: Done) -> Result<Seen, ClusterFault> {
        let when = Instant::now();
        let next = number_in(&done, 2).ok_or(ClusterFault::Unread("the number of the next group"))?;
        if next < from {
            return Err(ClusterFault::Ahead { own: from, next });
        }
        let leader = first(&done, 0).and_then(leader_of);
        let revision = |step| first(&done, step).map_or(0, |row| row.revision);
        let sign = Sign { leader: revision(0), sign: revision(1) };
        let mut groups = Vec::new();
        for (number, row) in (from..next).zip(done.found.get(3).into_iter().flatten()) {
            if row.key != self.group(number) {
                return Err(ClusterFault::Gap(number));
            }
            groups.push((number, self.read(number, &row.value).await?));
        }
        if groups.is_empty() && from < next {
            return Err(ClusterFault::Gap(from));
        }
        Ok(Seen { when, leader, sign, term: done.term, next, groups })
    }

    /// The group of a row, with its parts.
    async fn read(&self, number: u64, row: &[u8]) -> Result<Group, ClusterFault> {
        let wrong = || ClusterFault::BadGroup(number);
        match Held::of(row).ok_or_else(wrong)? {
            Held::Here(bytes) => Group::of(bytes).ok_or_else(wrong),
            Held::InParts(count) => {
                let mut bytes = Vec::new();
                for part in 0..count {
                    let get = [Do::Get(self.part(number, part))];
                    let done = self.etcd.transact(&[], &get, &[], Instant::now() + LOOK).await?;
                    bytes.extend_from_slice(&first(&done, 0).ok_or_else(wrong)?.value);
                }
                Group::of(&bytes).ok_or_else(wrong)
            }
        }
    }

    /// Becomes the leader, where this is the number of the next group, and this was the last sign of any leader. Others wait for so long
    /// behind each sign then.
    pub async fn lead(&self, next: u64, last: Sign, time: Duration) -> Result<Option<Lead>, ClusterFault> {
        let key = self.key("leader");
        let ifs = [
            If::PutAt(key.clone(), last.leader),
            If::PutAt(self.key("sign"), last.sign),
            If::Is(self.key("next"), text_of(next)),
        ];
        // No other attempt has this number.
        let own = random().map_err(ClusterFault::Folder)?;
        let value = format!("{} {} {own:016x}", self.member, self.address).into_bytes();
        let put = [Do::Put(key.clone(), value.clone()), Do::Get(key.clone())];
        let done = self.etcd.transact_soon(&ifs, &put, &[Do::Get(key)], Instant::now() + LOOK).await?;
        // Where an answer was lost, the key is there already.
        let row = first(&done, usize::from(done.was_so)).filter(|row| row.value == value);
        Ok(row.map(|row| Lead { revision: row.revision, time }))
    }

    /// Says that this member keeps a state that stands for all groups before this number. Where etcd doesn't answer, it is said with
    /// the next one.
    pub async fn tell_kept(&self, number: u64) -> Result<(), ClusterFault> {
        match self.etcd.transact(&[], &[self.keeps(number)], &[], Instant::now() + LOOK).await {
            Err(fault @ EtcdFault::Unreached(_)) => warn!("{fault}"),
            other => drop(other?),
        }
        Ok(())
    }

    fn keeps(&self, number: u64) -> Do {
        Do::Put(self.key(&format!("base/{}", self.member)), format!("{number:016x} {}", self.address).into())
    }

    /// What all members keep: the number of each state and where it is, the latest first.
    pub async fn kept(&self) -> Result<Vec<(u64, Peer)>, ClusterFault> {
        let range = [Do::Range(self.key("base/"), self.key("base0"), MEMBERS)];
        let done = self.etcd.transact(&[], &range, &[], Instant::now() + LOOK).await?;
        let wrong = || ClusterFault::Unread("the number of a state");
        let name = |row: &Row| row.key.rsplit('/').next().map(str::to_string);
        let one = |row: &Row| Some((number_of(row)?, Peer { name: name(row)?, address: second_word(row)?.to_string() }));
        let rows = done.found.iter().flatten();
        let mut found = rows.map(|row| one(row).ok_or_else(wrong)).collect::<Result<Vec<_>, _>>()?;
        found.sort_by_key(|(number, _)| Reverse(*number));
        Ok(found)
    }

    /// Removes the groups before this number, where this one leads still.
    pub async fn trim(&self, lead: &Lead, number: u64) -> Result<(), ClusterFault> {
        let removals = [Do::Remove(self.group(0), self.group(number)), Do::Remove(self.part(0, 0), self.part(number, 0))];
        self.etcd.transact(&[self.leads(lead)], &removals, &[], Instant::now() + LOOK).await?;
        Ok(())
    }

    /// Gives a leader's sign. Answers whether it leads still.
    pub async fn renew(&self, lead: &Lead, end: Instant) -> Result<bool, EtcdFault> {
        let sign = Do::Put(self.key("sign"), self.member.clone().into());
        Ok(self.etcd.transact_soon(&[self.leads(lead)], &[sign], &[], end).await?.was_so)
    }

    /// Leads no more.
    pub async fn end(&self, lead: &Lead) {
        let key = self.key("leader");
        let behind = format!("{key}\0");
        // Else others wait for the time of a lease.
        let _ = self.etcd.transact_soon(&[self.leads(lead)], &[Do::Remove(key, behind)], &[], Instant::now() + LAST).await;
    }

    /// Puts the group of a number, all of it. Behind an error nobody says whether it is there.
    pub async fn put(&self, lead: &Lead, number: u64, group: &Group) -> Result<(), ClusterFault> {
        let bytes = group.bytes();
        if bytes.len() < PART {
            return self.put_row(lead, number, Held::Here(&bytes)).await;
        }
        let mut count = 0;
        for part in bytes.chunks(PART) {
            let put = [Do::Put(self.part(number, count), part.to_vec())];
            let done = self.etcd.transact(&[self.leads(lead)], &put, &[], Instant::now() + PUT).await?;
            if !done.was_so {
                return Err(ClusterFault::Lost);
            }
            count += 1;
        }
        self.put_row(lead, number, Held::InParts(count)).await
    }

    fn leads(&self, lead: &Lead) -> If {
        If::PutAt(self.key("leader"), lead.revision)
    }

    async fn put_row(&self, lead: &Lead, number: u64, held: Held<'_>) -> Result<(), ClusterFault> {
        let (leader, next) = (self.key("leader"), self.key("next"));
        let ifs = [self.leads(lead), If::Is(next.clone(), text_of(number))];
        let puts = [Do::Put(self.group(number), held.row()), Do::Put(next.clone(), text_of(number + 1))];
        let done = self.etcd.transact(&ifs, &puts, &[Do::Get(leader), Do::Get(next)], Instant::now() + PUT).await?;
        let is_own = || first(&done, 0).map_or(false, |row| row.revision == lead.revision);
        // Where this one leads still, nobody else can have put a group: an answer was lost.
        if done.was_so || (is_own() && number_in(&done, 1) == Some(number + 1)) {
            return Ok(());
        }
        Err(ClusterFault::Lost)
    }
}

/// The first row that a step has read.
fn first(done: &Done, step: usize) -> Option<&Row> {
    done.found.get(step)?.first()
}

/// The number in the first row that a step has read.
fn number_in(done: &Done, step: usize) -> Option<u64> {
    number_of(first(done, step)?)
}

/// The number that a value is, or begins with.
pub(super) fn number_of(row: &Row) -> Option<u64> {
    u64::from_str_radix(std::str::from_utf8(&row.value).ok()?.split(' ').next()?, 16).ok()
}

/// A value's second word.
pub(super) fn second_word(row: &Row) -> Option<&str> {
    std::str::from_utf8(&row.value).ok()?.split(' ').nth(1)
}

/// The member that a leader's key names.
fn leader_of(row: &Row) -> Option<Peer> {
    let name = std::str::from_utf8(&row.value).ok()?.split(' ').next()?.to_string();
    Some(Peer { name, address: second_word(row)?.to_string() })
}

/// The text of an origin.
fn text_in(value: &[u8]) -> Result<String, ClusterFault> {
    String::from_utf8(value.to_vec()).map_err(|_| ClusterFault::Unread("the origin"))
}

/// A number as the value of a key.
fn text_of(number: u64) -> Vec<u8> {
    format!("{number:016x}").into_bytes()
}

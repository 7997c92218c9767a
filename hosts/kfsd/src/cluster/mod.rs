//! A desk on several machines: each has a kfsd and all groups, and one of them leads, which etcd decides.
//!
//! The leader puts each group into etcd before it answers. The others make the same calls, and compare the answers. Begin with
//! `run` in `member.rs`; docs/CLUSTER.md is for those who run it.

pub mod base;
pub mod beginning;
pub mod door;
pub mod etcd;
pub mod group;
pub mod http;
pub mod leading;
pub mod listing;
pub mod member;
pub mod origin;
pub mod peer;
pub mod portion;
pub mod proof;
pub mod relay;
pub mod replica;
pub mod secret;
pub mod term;
pub mod tls;
pub mod volume;

use self::etcd::EtcdFault;
use self::http::HTTPS;
use self::tls::{name_of, EtcdTls, PeerTls};
use crate::config::ConfigFault;
use serde::{Deserialize, Serialize};
use std::io;
use std::net::SocketAddr;
use std::path::PathBuf;
use std::time::Duration;
use thiserror::Error;

/// Why a kfsd is no member of a volume any more.
#[derive(Debug, Error)]
pub enum ClusterFault {
    #[error(transparent)]
    Etcd(#[from] EtcdFault),
    #[error("this kfsd leads no more: another one has taken over")]
    Lost,
    #[error("etcd wasn't reached for {0} seconds, so another kfsd may lead by now")]
    Cut(u64),
    #[error(
        "call {place} of group {number} was answered {theirs:02x?} at the leader, and here kfs_serve says {own:02x?}: \
         the two desks differ"
    )]
    Differs { number: u64, place: usize, theirs: Vec<u8>, own: Vec<u8> },
    #[error(
        "group {0} isn't in etcd any more, and this kfsd hasn't made its calls: a new start has another member send its state"
    )]
    Gap(u64),
    #[error("etcd is at group {next}, and this kfsd has seen {own}: etcd has lost some")]
    Ahead { own: u64, next: u64 },
    #[error("group {0} in etcd isn't one")]
    BadGroup(u64),
    #[error("in etcd {0} can't be read")]
    Unread(&'static str),
    #[error("kfs_serve isn't understood, or has ended: {0}")]
    Ended(io::Error),
    #[error("kfs_serve hasn't made the calls of a group in {0} seconds")]
    Hangs(u64),
    #[error("the docket of kfs_serve has three quarters of its rows: the next start begins it anew")]
    Docket,
    #[error("{0} can't be run: {1}")]
    Process(PathBuf, io::Error),
    #[error("the folder: {0}")]
    Folder(io::Error),
    #[error("{0}: {1}")]
    Path(PathBuf, io::Error),
    #[error("{0}")]
    Secret(io::Error),
    #[error(transparent)]
    First(ConfigFault),
    #[error("{0}")]
    Socket(String),
    #[error("{0}: {1}")]
    Peer(SocketAddr, io::Error),
    #[error("the state in {0} is of another volume that has had this name: where it isn't needed any more, remove it")]
    Another(PathBuf),
    #[error("volume {0} is there already: it goes on from the states that its members keep")]
    Begun(String),
    #[error("{0} has a state of another volume, before group {1}: where it isn't needed any more, remove it")]
    Kept(PathBuf, u64),
    #[error("a volume can't begin with the desk in {0}: {1}")]
    NoDesk(PathBuf, String),
    #[error("{0} has a desk, and the volume isn't there: begin it with that desk (--begin-with), or move it away")]
    Unused(PathBuf),
}

impl ClusterFault {
    /// The exit status: 5 where a new start makes it a member again, 6 where someone has to look first, and else 1.
    pub fn status(&self) -> u8 {
        match self {
            ClusterFault::Lost | ClusterFault::Cut(_) | ClusterFault::Hangs(_) => 5,
            ClusterFault::Gap(_) | ClusterFault::Ended(_) | ClusterFault::Docket => 5,
            ClusterFault::Etcd(EtcdFault::Unreached(_)) => 5,
            ClusterFault::Differs { .. } | ClusterFault::BadGroup(_) | ClusterFault::Unread(_) => 6,
            ClusterFault::Ahead { .. } | ClusterFault::Etcd(_) | ClusterFault::Folder(_) => 6,
            ClusterFault::Another(_) => 6,
            ClusterFault::Begun(_) | ClusterFault::Kept(..) | ClusterFault::NoDesk(..) | ClusterFault::Unused(_) => 1,
            ClusterFault::Process(..) | ClusterFault::Path(..) | ClusterFault::Peer(..) | ClusterFault::Socket(_) => 1,
            ClusterFault::Secret(_) | ClusterFault::First(_) => 1,
        }
    }
}

/// Does what may take long with files, beside all else.
async fn blocking<T: Send + 'static>(work: impl FnOnce() -> io::Result<T> + Send + 'static) -> Result<T, ClusterFault> {
    let worked = tokio::task::spawn_blocking(work).await;
    worked.unwrap_or_else(|fault| Err(fault.into())).map_err(ClusterFault::Folder)
}

/// The table `[cluster]` of a configuration.
#[derive(Clone, Debug, Deserialize, Serialize, PartialEq, Eq)]
#[serde(deny_unknown_fields)]
pub struct Settings {
    /// The members of etcd, each a host and a port, with `https://` before them where they are asked with TLS.
    pub etcd: Vec<String>,
    /// Who kfsd is to etcd, and the file with the password; both of them or none.
    pub etcd_user: Option<String>,
    pub etcd_password_file: Option<PathBuf>,
    /// The name of the volume.
    pub volume: String,
    /// The name of this kfsd, which no other one of the volume has.
    pub member: String,
    /// How long others wait behind the last sign of a leader.
    #[serde(default = "lease_seconds")]
    pub lease_seconds: u64,
    /// Where the other members reach this one.
    pub peer: SocketAddr,
    /// The file with the key that all members know.
    pub key_file: PathBuf,
    /// Where the files of `kfs_serve` are; kfsd's own folder where it isn't there. They go at each start, so it may be in memory.
    pub replica_folder: Option<PathBuf>,
    /// A state is kept behind groups of so many bytes, or of half of the last one's where those are more.
    #[serde(default = "state_bytes")]
    pub state_bytes: u64,
    /// A leader gives up where `kfs_serve` takes longer than this for the calls of a group.
    #[serde(default = "hang_seconds")]
    pub hang_seconds: u64,
    /// The certificates of etcd, and of the members; none where TLS isn't used.
    pub etcd_tls: Option<EtcdTls>,
    pub peer_tls: Option<PeerTls>,
}

/// Whether a text may be the name of a volume or of a member.
fn is_name(text: &str) -> bool {
    let is_right = |byte: u8| byte.is_ascii_alphanumeric() || matches!(byte, b'-' | b'_' | b'.');
    !text.is_empty() && text.len() <= 255 && text.bytes().all(is_right)
}

/// The host of an endpoint of etcd; none where it is no host with a port.
fn host_of(endpoint: &str) -> Option<&str> {
    let address = endpoint.strip_prefix(HTTPS).unwrap_or(endpoint);
    let is_right = |byte: u8| byte.is_ascii_alphanumeric() || b"-.[]:".contains(&byte);
    let (host, port) = address.rsplit_once(':')?;
    let port: u16 = port.parse().ok()?;
    (address.bytes().all(is_right) && !host.is_empty() && port != 0).then_some(host)
}

fn hang_seconds() -> u64 {
    60
}

fn lease_seconds() -> u64 {
    2
}

fn state_bytes() -> u64 {
    4 << 20
}

impl Settings {
    /// How long others wait behind the last sign of a leader.
    pub fn lease(&self) -> Duration {
        Duration::from_secs(self.lease_seconds)
    }

    /// Why they aren't taken.
    pub fn fault(&self) -> Option<&'static str> {
        if self.etcd.is_empty() || self.etcd.iter().any(|endpoint| host_of(endpoint).is_none()) {
            return Some("cluster.etcd has no address, or one without a port");
        }
        if !is_name(&self.volume) || !is_name(&self.member) {
            return Some("names of a volume and of a member have letters, digits, and the signs - _ . alone");
        }
        if self.lease_seconds == 0 || self.hang_seconds == 0 {
            return Some("cluster.lease_seconds and cluster.hang_seconds are 1 at least");
        }
        if self.etcd_user.is_some() != self.etcd_password_file.is_some() {
            return Some("of cluster.etcd_user and cluster.etcd_password_file one is there without the other");
        }
        if self.peer_tls.is_some() && name_of(&self.member).is_none() {
            return Some("with cluster.peer_tls the member's name is one that a certificate may have, as a host has it");
        }
        self.etcd_tls_fault()
    }

    /// What is wrong with TLS to etcd.
    fn etcd_tls_fault(&self) -> Option<&'static str> {
        let is_asked = |endpoint: &String| endpoint.starts_with(HTTPS);
        let tls = match &self.etcd_tls {
            None if self.etcd.iter().any(is_asked) => return Some("https:// of cluster.etcd needs cluster.etcd_tls"),
            None => return None,
            Some(tls) => tls,
        };
        if !self.etcd.iter().all(is_asked) {
            return Some("with cluster.etcd_tls each address of cluster.etcd begins with https://");
        }
        if tls.certificate.is_some() != tls.private_key.is_some() {
            return Some("cluster.etcd_tls has a certificate without a private key, or the other way round");
        }
        let hosts = self.etcd.iter().filter_map(|endpoint| host_of(endpoint));
        let is_right = |host| name_of(tls.name.as_deref().unwrap_or(host)).is_some();
        let is_wrong = !hosts.into_iter().all(is_right);
        is_wrong.then_some("cluster.etcd_tls.name is needed where an address of cluster.etcd has no name of a host")
    }
}

#[cfg(test)]
mod tests {
    use super::*;

    #[test]
    fn wrong_settings_are_told() {
        let right = Settings {
            etcd: vec!["127.0.0.1:2379".into()],
            volume: "a-1".into(),
            member: "b".into(),
            lease_seconds: 2,
            peer: ([127, 0, 0, 1], 9470).into(),
            key_file: "/etc/key".into(),
            replica_folder: None,
            state_bytes: 1,
            hang_seconds: 1,
            etcd_user: None,
            etcd_password_file: None,
            etcd_tls: None,
            peer_tls: None,
        };
        assert_eq!(right.fault(), None);
        for endpoint in ["127.0.0.1", "http://127.0.0.1:2379", "", "a b:1"] {
            assert!(Settings { etcd: vec![endpoint.into()], ..right.clone() }.fault().is_some(), "{endpoint}");
        }
        for name in ["", "a/b", "a b", "\u{e4}"] {
            assert!(Settings { volume: name.into(), ..right.clone() }.fault().is_some(), "{name}");
            assert!(Settings { member: name.into(), ..right.clone() }.fault().is_some(), "{name}");
        }
        assert!(Settings { etcd: vec![], ..right.clone() }.fault().is_some());
        assert!(Settings { lease_seconds: 0, ..right.clone() }.fault().is_some());
        assert!(Settings { hang_seconds: 0, ..right.clone() }.fault().is_some());
        assert!(Settings { etcd_user: Some("kfsd".into()), ..right.clone() }.fault().is_some());
        assert!(Settings { etcd: vec!["https://127.0.0.1:2379".into()], ..right }.fault().is_some());
    }

    /// The settings of a table without what each one has.
    fn settings(etcd: &str, member: &str, tls: &str) -> Settings {
        let text = format!("etcd = [{etcd}]\nvolume = 'v'\nmember = '{member}'\npeer = '127.0.0.1:1'\nkey_file = '/k'\n{tls}");
        toml::from_str(&text).unwrap()
    }

    #[test]
    fn tls_has_names() {
        let etcd_tls = |more: &str| format!("[etcd_tls]\nauthority = '/a'\n{more}");
        let is_right = |etcd: &str, tls: &str| settings(etcd, "a", tls).fault().is_none();
        assert!(is_right("'https://one.example:1', 'https://two.example:1'", &etcd_tls("")));
        assert!(!is_right("'https://one.example:1', 'two.example:1'", &etcd_tls("")));
        assert!(!is_right("'https://127.0.0.1:1'", &etcd_tls("")) && !is_right("'https://[::1]:1'", &etcd_tls("")));
        assert!(is_right("'https://127.0.0.1:1'", &etcd_tls("name = 'etcd'")));
        assert!(!is_right("'https://127.0.0.1:1'", &etcd_tls("name = '127.0.0.1'")));
        assert!(!is_right("'https://one.example:1'", &etcd_tls("certificate = '/c'")));
        assert!(is_right("'https://one.example:1'", &etcd_tls("certificate = '/c'\nprivate_key = '/k'")));
        assert!(!is_right("'one.example:1'", &etcd_tls("")));
        let peer_tls = "[peer_tls]\nauthority = '/a'\ncertificate = '/c'\nprivate_key = '/k'";
        assert!(is_right("'one.example:1'", peer_tls));
        assert!(settings("'one.example:1'", "10.0.0.1", peer_tls).fault().is_some());
    }
}

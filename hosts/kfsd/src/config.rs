//! The file that an administrator writes.

use crate::clients::wrong_one;
use crate::cluster::Settings;
use crate::frames::{BODY_LIMIT, FOUND_BYTES};
use crate::users::{User, UsersFault};
use serde::{Deserialize, Serialize};
use std::net::SocketAddr;
use std::path::{Path, PathBuf};
use std::time::Duration;
use thiserror::Error;

/// What a head and the bookkeeping of a frame count for, beside its body.
pub const FRAME_COST: u32 = 256;

/// The most blocks of a tier (docs/FORMATS.md).
const BLOCKS_LIMIT: u32 = 65_536;

/// Why a configuration isn't taken.
#[derive(Debug, Error)]
pub enum ConfigFault {
    #[error("{0} can't be read: {1}")]
    Unread(PathBuf, std::io::Error),
    #[error("{0}: {1}")]
    Toml(PathBuf, toml::de::Error),
    #[error("the configuration: {0}")]
    Limit(&'static str),
    #[error("socket and control are one path")]
    OneSocket,
    #[error("figures: {0} is no address of this machine alone, as 127.0.0.1 is")]
    NotLocal(SocketAddr),
    #[error(transparent)]
    Users(#[from] UsersFault),
    #[error("tier {0} has {1} blocks: {BLOCKS_LIMIT} are the most")]
    Tier(usize, u32),
    #[error("a desk can't begin with user {0}: {1}")]
    First(u32, String),
}

/// The whole file.
#[derive(Clone, Debug, Deserialize, Serialize)]
#[serde(deny_unknown_fields)]
pub struct Config {
    /// Where clients connect.
    pub socket: PathBuf,
    /// Where `kfsctl` connects.
    pub control: PathBuf,
    /// Where figures for Prometheus are told: an address of this machine alone. None where it isn't there.
    pub figures: Option<SocketAddr>,
    /// The folder of the two files, which kfsd has for itself.
    pub folder: PathBuf,
    /// The program `kfs_serve`.
    pub program: PathBuf,
    /// How many blocks of 4 KiB each tier has, for the first start.
    pub tiers: [u32; 3],
    /// How many rows the docket may have.
    #[serde(default = "most_rows")]
    pub rows: u32,
    #[serde(default)]
    pub limits: Limits,
    #[serde(default)]
    pub duties: Duties,
    #[serde(default, rename = "user")]
    pub users: Vec<User>,
    /// Where the desk is one of several alike. None where it is on this machine alone.
    pub cluster: Option<Settings>,
}

fn most_rows() -> u32 {
    u32::MAX
}

/// What clients may take, and how long they may take for it.
#[derive(Clone, Copy, Debug, Deserialize, Serialize, PartialEq, Eq)]
#[serde(default, deny_unknown_fields)]
pub struct Limits {
    /// Connections of a user.
    pub connections_a_user: u32,
    /// The longest body. A longer one is passed over and refused.
    pub frame_bytes: u32,
    /// Frames of a connection, and of a user, that have come and whose replies aren't written yet.
    pub frames_a_connection: u32,
    pub frames_a_user: u32,
    /// Bytes of a connection, and of a user, in frames that come or wait for `kfs_serve`.
    pub bytes_a_connection: u32,
    pub bytes_a_user: u32,
    /// Blocks of 4,096 bytes that the files of a user may take; 0 where that isn't limited.
    pub blocks_a_user: u64,
    /// Calls of a user a second. More of them wait.
    pub calls_a_second: u32,
    /// How long a frame may take from its first byte to its last.
    pub frame_seconds: u64,
    /// How long a reply may wait for its reader.
    pub reply_seconds: u64,
    /// How long a stop may wait for what is under way.
    pub stop_seconds: u64,
}

/// What kfsd does by itself.
#[derive(Clone, Copy, Debug, Deserialize, Serialize, PartialEq, Eq)]
#[serde(default, deny_unknown_fields)]
pub struct Duties {
    /// How long the desk may be without a tick while a lease is live.
    pub tick_seconds: u64,
    /// How long a lease may live; 0 where that isn't limited.
    pub lease_seconds: u64,
    /// How long a lease is renewed that another client wants.
    pub wanted_seconds: u64,
    /// Whether the journal is begun anew at a stop, so that the next start is a short one.
    pub checkpoint_at_stop: bool,
    /// Of 100 places of tier 0, how many should be free: else blocks go to slower tiers. 0 where none ever goes.
    pub free_percent: u8,
}

impl Duties {
    fn check(&self) -> Result<(), ConfigFault> {
        if self.free_percent > 50 {
            return Err(ConfigFault::Limit("free_percent is 50 at most"));
        }
        if self.wanted_seconds == 0 || self.tick_seconds == 0 {
            return Err(ConfigFault::Limit("tick_seconds and wanted_seconds are 1 at least"));
        }
        Ok(())
    }
}

impl Default for Duties {
    fn default() -> Duties {
        Duties { tick_seconds: 60, lease_seconds: 3600, wanted_seconds: 30, checkpoint_at_stop: true, free_percent: 10 }
    }
}

impl Default for Limits {
    fn default() -> Limits {
        Limits {
            connections_a_user: 256,
            frame_bytes: 4 << 20,
            frames_a_connection: 64,
            frames_a_user: 1024,
            bytes_a_connection: 8 << 20,
            bytes_a_user: 32 << 20,
            blocks_a_user: 0,
            calls_a_second: 20_000,
            frame_seconds: 30,
            reply_seconds: 30,
            stop_seconds: 20,
        }
    }
}

impl Limits {
    /// How long a frame may take.
    pub fn frame_time(&self) -> Duration {
        Duration::from_secs(self.frame_seconds)
    }

    /// How long a reply may wait.
    pub fn reply_time(&self) -> Duration {
        Duration::from_secs(self.reply_seconds)
    }

    /// How long a stop may wait.
    pub fn stop_time(&self) -> Duration {
        Duration::from_secs(self.stop_seconds)
    }

    fn check(&self) -> Result<(), ConfigFault> {
        let longest = self.frame_bytes.saturating_add(FRAME_COST).max(FOUND_BYTES);
        let wrong = [
            (self.connections_a_user == 0, "no connection is allowed"),
            (self.frames_a_connection == 0 || self.frames_a_user == 0, "no frame is allowed"),
            (self.calls_a_second == 0, "no call is allowed"),
            (self.frame_bytes > BODY_LIMIT, "frame_bytes is over 16,777,216"),
            (self.bytes_a_connection < longest, "bytes_a_connection is less than a longest frame and 256, or than 66,560"),
            (self.bytes_a_user < longest, "bytes_a_user is less than a longest frame and 256, or than 66,560"),
            (self.frame_seconds == 0 || self.reply_seconds == 0, "no time is left for a frame or a reply"),
        ];
        match wrong.iter().find(|(is_wrong, _)| *is_wrong) {
            Some((_, why)) => Err(ConfigFault::Limit(why)),
            None => Ok(()),
        }
    }
}

impl Config {
    /// The configuration in a file.
    pub fn read(path: &Path) -> Result<Config, ConfigFault> {
        let text = std::fs::read_to_string(path).map_err(|fault| ConfigFault::Unread(path.to_path_buf(), fault))?;
        Config::of_text(&text, path)
    }

    pub(crate) fn of_text(text: &str, path: &Path) -> Result<Config, ConfigFault> {
        let config: Config = toml::from_str(text).map_err(|fault| ConfigFault::Toml(path.to_path_buf(), fault))?;
        config.limits.check()?;
        config.duties.check()?;
        if config.socket == config.control {
            return Err(ConfigFault::OneSocket);
        }
        if let Some(address) = config.figures.filter(|address| !address.ip().is_loopback()) {
            return Err(ConfigFault::NotLocal(address));
        }
        if let Some(fault) = config.cluster.as_ref().and_then(Settings::fault) {
            return Err(ConfigFault::Limit(fault));
        }
        if let Some((tier, blocks)) = config.tiers.into_iter().enumerate().find(|(_, blocks)| *blocks > BLOCKS_LIMIT) {
            return Err(ConfigFault::Tier(tier, blocks));
        }
        crate::users::check(&config.users)?;
        Ok(config)
    }

    /// Looks whether a desk can begin with these users. At one that is there, who can't be a client is kept out.
    pub fn check_first(&self) -> Result<(), ConfigFault> {
        match wrong_one(&self.users) {
            Some((uid, why)) => Err(ConfigFault::First(uid, why)),
            None => Ok(()),
        }
    }
}

#[cfg(test)]
mod tests {
    use super::*;

    const SMALL: &str = r#"
        socket = "/run/s"
        control = "/run/c"
        folder = "/var/lib/kfsd"
        program = "/usr/lib/kfs_serve"
        tiers = [4, 16, 64]
        [[user]]
        uid = 1000
        gid = 1000
        client = 7
        grant = [2, 99]
    "#;

    fn read(text: &str) -> Result<Config, ConfigFault> {
        Config::of_text(text, Path::new("kfsd.toml"))
    }

    #[test]
    fn what_is_left_out_has_its_default() {
        let config = read(SMALL).unwrap();
        assert_eq!(config.rows, u32::MAX);
        assert_eq!(config.limits, Limits::default());
        assert_eq!(config.duties, Duties::default());
        assert_eq!(config.users[0].groups, Vec::<u32>::new());
        assert!(!config.users[0].privileged);
    }

    #[test]
    fn the_default_limits_are_right() {
        assert!(Limits::default().check().is_ok());
    }

    #[test]
    fn an_unknown_name_is_refused() {
        assert!(matches!(read(&format!("sockets = 1\n{SMALL}")), Err(ConfigFault::Toml(..))));
        assert!(matches!(read(&format!("{SMALL}\nprivilege = true")), Err(ConfigFault::Toml(..))));
    }

    #[test]
    fn figures_are_told_on_this_machine_alone() {
        assert!(matches!(read(&format!("figures = \"0.0.0.0:9469\"\n{SMALL}")), Err(ConfigFault::NotLocal(_))));
        assert!(read(&format!("figures = \"[::1]:9469\"\n{SMALL}")).unwrap().figures.is_some());
    }

    #[test]
    fn limits_below_a_frame_are_refused() {
        let text = format!("{SMALL}\n[limits]\nframe_bytes = 100000\nbytes_a_user = 100255");
        assert!(matches!(read(&text), Err(ConfigFault::Limit(_))));
        let text = format!("{SMALL}\n[limits]\nframe_bytes = 100000\nbytes_a_user = 100256");
        assert!(read(&text).is_ok());
    }

    #[test]
    fn tiers_and_users_of_a_first_start_are_told_by_name() {
        assert!(read(&SMALL.replace("16, 64", "65536, 64")).is_ok());
        let fault = read(&SMALL.replace("16, 64", "65537, 64")).unwrap_err().to_string();
        assert_eq!(fault, "tier 1 has 65537 blocks: 65536 are the most");
        let with = |client: u32, grant: &str| {
            let text = format!("{SMALL}\n[[user]]\nuid = 1001\ngid = 1\nclient = {client}\ngrant = {grant}");
            read(&text).and_then(|config| config.check_first()).map_err(|fault| fault.to_string())
        };
        assert_eq!(with(8, "[100, 65536]"), Ok(()));
        assert_eq!(with(8, "[1, 0]"), Ok(()));
        for (client, grant, why) in [
            (8, "[99, 100]", "a desk can't begin with user 1001: its grant has numbers of client 7"),
            (8, "[0, 1]", "a desk can't begin with user 1001: its grant begins at 0, or ends above 65,536"),
            (8, "[100, 65537]", "a desk can't begin with user 1001: its grant begins at 0, or ends above 65,536"),
            (7, "[100, 101]", "user 1001: client 7 is there twice"),
        ] {
            assert_eq!(with(client, grant), Err(why.to_string()), "{client} {grant}");
        }
    }
}

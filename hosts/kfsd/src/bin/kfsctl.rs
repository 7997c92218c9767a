//! Asks a running kfsd.

#![forbid(unsafe_code)]

use anyhow::{bail, Context, Result};
use clap::{Parser, Subcommand};
use kfsd::cluster::etcd::Etcd;
use kfsd::cluster::listing::volumes;
use kfsd::config::Config;
use kfsd::folder::{copy, FILES};
use kfsd::status::Status;
use std::collections::hash_map::RandomState;
use std::fs::DirBuilder;
use std::hash::{BuildHasher, Hasher};
use std::io::{Read, Write};
use std::os::unix::fs::DirBuilderExt;
use std::os::unix::net::UnixStream;
use std::path::{Path, PathBuf};
use std::process::{Command, ExitStatus, Stdio};
use std::thread::sleep;
use std::time::{Duration, Instant};
use tokio::runtime::Builder;

/// How long an answer may take.
const TIME: Duration = Duration::from_secs(60);

/// Asks a running kfsd.
#[derive(Debug, Parser)]
#[command(version)]
struct Words {
    /// The socket that its configuration calls `control`.
    #[arg(long, default_value = "/run/kfsd/control")]
    control: PathBuf,
    #[command(subcommand)]
    asked: Asked,
}

#[derive(Debug, Subcommand)]
enum Asked {
    /// Prints what runs, who is connected, and counts since the start.
    Status,
    /// Prints a line for each user that may connect.
    Users,
    /// Prints a line for each lease, and for each that another client wants.
    Leases,
    /// Prints how many places of each tier are free, and how many rows the docket has.
    Free,
    /// Has the journal begun anew, with the state of now.
    Checkpoint,
    /// Copies the two files of a desk, also while it is in use, and has the copy opened, which looks at all of it.
    Fsck {
        /// The folder of the two files.
        #[arg(long)]
        folder: PathBuf,
        /// The program kfs_serve.
        #[arg(long, default_value = "/usr/lib/kfsd/kfs_serve")]
        program: PathBuf,
    },
    /// Prints a line for each volume in etcd: who leads it, its groups there, and what its members keep.
    Volumes {
        /// The members of etcd, each a host and a port, with commas between them.
        #[arg(long, value_delimiter = ',', required_unless_present = "config", conflicts_with = "config")]
        etcd: Vec<String>,
        /// The configuration of a member: etcd is asked as that does, with its user and its certificates.
        #[arg(long)]
        config: Option<PathBuf>,
    },
    /// Prints a line now and then: calls a second, and what waits.
    Watch {
        /// Seconds between two lines.
        #[arg(long, default_value_t = 1)]
        seconds: u64,
        /// How many lines; without it there is no end.
        #[arg(long)]
        count: Option<u64>,
    },
}

fn main() -> Result<()> {
    let words = Words::parse();
    let question = match words.asked {
        Asked::Status => "status",
        Asked::Users => "users",
        Asked::Leases => "leases",
        Asked::Free => "free",
        Asked::Checkpoint => "checkpoint",
        Asked::Fsck { folder, program } => return fsck(&folder, &program),
        Asked::Volumes { etcd, config } => {
            let etcd = config.map_or_else(|| Ok(Etcd::open(&etcd)), |config| etcd_of(&config))?;
            return print(&Builder::new_current_thread().enable_all().build()?.block_on(volumes(&etcd))?);
        }
        Asked::Watch { seconds, count } => return watch(&words.control, Duration::from_secs(seconds), count),
    };
    print(&ask(&words.control, question)?)
}

/// etcd as a configuration has it.
fn etcd_of(config: &Path) -> Result<Etcd> {
    let settings = Config::read(config)?.cluster.context("the configuration has no table [cluster]")?;
    Ok(Etcd::of(&settings)?)
}

fn print(text: &str) -> Result<()> {
    std::io::stdout().write_all(text.as_bytes())?;
    Ok(())
}

/// How often a copy is made anew: where the journal was begun anew meanwhile, it may not be whole.
const COPIES: u32 = 5;

/// Looks at a copy of the files, in a folder of its own that goes.
fn fsck(folder: &Path, program: &Path) -> Result<()> {
    let room = make_room()?;
    let found = (1..=COPIES).find_map(|at| match open_copy(folder, program, &room) {
        Ok(status) if !status.success() && at < COPIES => None,
        found => Some(found),
    });
    std::fs::remove_dir_all(&room)?;
    match found {
        Some(Ok(status)) if status.success() => print("the files are those of a desk whose image breaks no rule\n"),
        Some(Ok(status)) => bail!("kfs_serve doesn't open a copy of the files: {status} (PROTOCOL.md)"),
        Some(Err(fault)) => Err(fault),
        None => bail!("no copy was made"),
    }
}

/// Makes a folder for a copy. Nobody knows its name before, so nobody stands in its way.
fn make_room() -> Result<PathBuf> {
    let room = std::env::temp_dir().join(format!("kfsctl-{:016x}", RandomState::new().build_hasher().finish()));
    DirBuilder::new().mode(0o700).create(&room).with_context(|| room.display().to_string())?;
    Ok(room)
}

/// Copies the files, and has them opened with no frame.
fn open_copy(folder: &Path, program: &Path, room: &Path) -> Result<ExitStatus> {
    for name in FILES {
        copy(&folder.join(name), &room.join(name))?;
    }
    let mut opened = Command::new(program);
    opened.arg("open").arg(room).arg(u32::MAX.to_string()).stdin(Stdio::null()).stdout(Stdio::null());
    opened.status().with_context(|| program.display().to_string())
}

/// The answer to a question.
fn ask(control: &Path, question: &str) -> Result<String> {
    let mut stream = UnixStream::connect(control).with_context(|| control.display().to_string())?;
    stream.set_read_timeout(Some(TIME))?;
    stream.write_all(format!("{question}\n").as_bytes())?;
    let mut text = String::new();
    stream.read_to_string(&mut text)?;
    match text.strip_prefix("# ") {
        Some(why) => bail!("kfsd: {}", why.trim_end()),
        None => Ok(text),
    }
}

fn status(control: &Path) -> Result<(Instant, Status)> {
    Ok((Instant::now(), toml::from_str(&ask(control, "status")?)?))
}

/// Prints so many lines, with so long between them.
fn watch(control: &Path, time: Duration, count: Option<u64>) -> Result<()> {
    print("calls/s unknown waiting connections leases wanted starts\n")?;
    let mut before = status(control)?;
    for _ in 0..count.unwrap_or(u64::MAX) {
        sleep(time);
        let now = status(control)?;
        print(&line(&before.1, &now.1, now.0 - before.0))?;
        before = now;
    }
    Ok(())
}

fn line(before: &Status, now: &Status, time: Duration) -> String {
    let calls = now.frames.answered.saturating_sub(before.frames.answered) as f64 / time.as_secs_f64();
    let unknown = now.frames.unknown.saturating_sub(before.frames.unknown);
    let connections: u32 = now.user.iter().map(|user| user.connections).sum();
    format!(
        "{calls:>7.0} {unknown:>7} {:>7} {connections:>11} {:>6} {:>6} {:>6}\n",
        now.kfs_serve.waiting_calls, now.desk.leases, now.desk.wanted_leases, now.kfs_serve.starts
    )
}

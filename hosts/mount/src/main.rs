//! The program kfs-mount.

#![forbid(unsafe_code)]

use anyhow::{bail, ensure, Context, Result};
use kfs_client::connection::Connection;
use kfs_client::ending::Ending;
use kfs_client::leftover::Leftover;
use kfs_client::memory::Memory;
use kfs_client::program::Program;
use kfs_client::{Client, Desk, Options, Session};
use kfs_mount::attributes::AGE;
use kfs_mount::background::{say_mounted, start, Log};
use kfs_mount::fusermount::User;
use kfs_mount::mounting::{resolved, text_of, Mounted, Wanted};
use kfs_mount::serving::serve;
use kfs_mount::volume::Volume;
use kfs_mount::words::Words;
use nix::sys::signal::{SigSet, Signal};
use nix::unistd::{geteuid, getuid, setegid, seteuid, Gid, Uid};
use std::collections::BTreeSet;
use std::os::unix::net::UnixStream;
use std::path::{Path, PathBuf};
use std::process::ExitCode;
use std::time::Duration;
use std::{env, fs, thread};

/// How long programs' calls wait while kfsd isn't there, or doesn't answer, all together. Behind that each fails at once until it is.
const AGAIN: Duration = Duration::from_secs(60);
/// How long it waits for another client's lease: longer than one lives, so that who has vanished is waited for.
const PATIENCE: Duration = Duration::from_secs(90);

/// Whether who has started this process wants a signal ignored, as nohup(1) does. One that is read isn't ignored any more.
fn is_ignored(signal: Signal) -> Result<bool> {
    let status = fs::read_to_string("/proc/self/status")?;
    let mask = status.lines().find_map(|line| line.strip_prefix("SigIgn:")).context("no SigIgn in /proc/self/status")?;
    Ok(u64::from_str_radix(mask.trim(), 16)? >> (signal as u32 - 1) & 1 == 1)
}

/// Has SIGTERM and SIGINT end what waits. What is told to read when they come is ready then.
fn end_on_signals() -> Result<(Ending, UnixStream)> {
    let mut set = SigSet::empty();
    [Signal::SIGTERM, Signal::SIGINT].into_iter().for_each(|signal| set.add(signal));
    if !is_ignored(Signal::SIGHUP)? {
        set.add(Signal::SIGHUP);
    }
    set.thread_block()?;
    let (ending, (to, from)) = (Ending::default(), UnixStream::pair()?);
    let of_signals = ending.clone();
    thread::Builder::new().spawn(move || {
        let _which = set.wait();
        of_signals.begin();
        // The other end has come to its end, too.
        drop(to);
    })?;
    Ok((ending, from))
}

/// The folder for a log that can't be handed in.
fn keeping_folder(words: &Words) -> PathBuf {
    let of_user = || Some(Path::new(&env::var_os("XDG_STATE_HOME")?).join("kfs-mount"));
    let of_home = || Some(Path::new(&env::var_os("HOME")?).join(".local/state/kfs-mount"));
    let of_all = || PathBuf::from("/var/lib/kfs-mount");
    match &words.keep {
        Some(folder) => folder.clone(),
        None if getuid().is_root() => of_all(),
        None => of_user().or_else(of_home).unwrap_or_else(of_all),
    }
}

/// Hands in what earlier mounts have left, and removes their files.
fn hand_in_again<D: Desk>(volume: &mut Volume<D>, files: &[(PathBuf, Leftover)]) -> Result<()> {
    for (path, left) in files {
        let lost =
            volume.take_leftover(left).with_context(|| format!("{} stays, since it can't be handed in", path.display()))?;
        eprintln!("kfs-mount: {} calls of {} are done, and {lost} are lost", left.count() - lost, path.display());
        as_superuser(|| fs::remove_file(path))?.with_context(|| format!("{} has to be removed", path.display()))?;
    }
    Ok(())
}

/// Reads what earlier mounts have left.
fn leftovers(words: &Words) -> Result<Vec<(PathBuf, Leftover)>> {
    let read = |path: &PathBuf| -> Result<(PathBuf, Leftover)> {
        let bytes = fs::read(path).with_context(|| format!("{}", path.display()))?;
        let left = Leftover::of_bytes(&bytes);
        Ok((path.clone(), left.with_context(|| format!("{} isn't what a mount has left", path.display()))?))
    };
    words.again.iter().map(read).collect()
}

/// A tree that is to be served.
struct Tree<D> {
    desk: D,
    client: Client,
    wanted: Wanted,
    words: Words,
    left: Vec<(PathBuf, Leftover)>,
    /// Where there is something to read once a signal has come.
    ends: UnixStream,
}

impl<D: Desk> Tree<D> {
    /// Mounts it, and serves the kernel until it is told to stop.
    fn serve(self, log: &mut Log) -> Result<ExitCode> {
        let Tree { desk, client, wanted, words, left, ends } = self;
        for (path, left) in &left {
            ensure!(left.client() == client.number, "{} is of client {}", path.display(), left.client());
        }
        let mut mounted =
            as_superuser(|| Mounted::new(wanted))?.with_context(|| format!("{} can't be mounted", words.at().display()))?;
        let options = Options { patience: PATIENCE, age: AGE, ..Options::default() };
        let mut volume = Volume::new(Session::new(desk, client, options));
        hand_in_again(&mut volume, &left)?;
        if words.stays {
            *log = as_superuser(|| Log::behind(words.log.as_deref()))??;
        }
        say_mounted(words.stays)?;
        let served = serve(&mut mounted.device, &ends, &mut volume);
        if let Err(errno) = volume.close() {
            match as_superuser(|| volume.keep_log(&keeping_folder(&words)))? {
                Ok(Some(path)) => bail!("the last log isn't handed in ({errno}). {} has it, for --again", path.display()),
                Ok(None) => bail!("the last log isn't kept: {errno}"),
                Err(fault) => bail!("the last log is lost ({errno}), since no file takes it: {fault}"),
            }
        }
        served?;
        Ok(ExitCode::SUCCESS)
    }
}

/// Does what the superuser may, where this process is it, and goes on as the user that it is.
fn as_superuser<T>(function: impl FnOnce() -> T) -> Result<T> {
    if !getuid().is_root() {
        return Ok(function());
    }
    let user = geteuid();
    seteuid(Uid::from_raw(0))?;
    let done = function();
    seteuid(user)?;
    Ok(done)
}

/// The client that the words tell of. Without a server that gives it any, it has all numbers but the root's.
fn client_of(words: &Words) -> Result<Client> {
    let mut client = Client::of_process(words.client.unwrap_or(1), [2, 65_536])?;
    let own = User { uid: client.uid, gid: client.gid };
    client.uid = words.uid.unwrap_or(client.uid);
    client.gid = words.gid.unwrap_or(client.gid);
    client.groups = words.groups.clone();
    let is_own = own == User { uid: client.uid, gid: client.gid };
    ensure!(is_own || getuid().is_root(), "only the superuser mounts for another user or group");
    Ok(client)
}

/// Takes over who the client is at the server. Words that say something else would have each log refused.
fn take_row(client: &mut Client, words: &Words, desk: &Connection) -> Result<()> {
    (client.number, client.grant) = (desk.client(), desk.grant());
    let row = match desk.row() {
        Some(row) => row,
        None => return Ok(()),
    };
    let is_group = words.gid.map_or(true, |gid| gid == row.gid);
    ensure!(is_group, "--gid {}: client {} has the group {} there", client.gid, client.number, row.gid);
    let told: BTreeSet<u32> = words.groups.iter().copied().collect();
    let due: BTreeSet<u32> = row.groups.iter().copied().collect();
    ensure!(told.is_empty() || told == due, "--group: client {} has the groups {:?} there", client.number, row.groups);
    (client.uid, client.gid, client.groups) = (row.uid, row.gid, row.groups.clone());
    client.is_privileged = row.is_privileged;
    Ok(())
}

/// What is to be mounted.
fn wanted_of(words: &Words, client: &Client) -> Result<Wanted> {
    Ok(Wanted {
        at: resolved(words.at()).with_context(|| format!("{} isn't there", words.at().display()))?,
        source: words.source().map_or_else(|| "kfs".into(), text_of),
        user: User { uid: client.uid, gid: client.gid },
        is_for_all: words.allow_other,
        flags: words.flags,
        is_by_helper: words.fusermount || !getuid().is_root(),
    })
}

/// Does what the words say. Where this goes into the background, the process that stays says why it doesn't.
fn run(words: Words, log: &mut Log) -> Result<ExitCode> {
    if words.goes_to_background() {
        return Ok(if start()? { ExitCode::SUCCESS } else { ExitCode::FAILURE });
    }
    let (mut client, left) = (client_of(&words)?, leftovers(&words)?);
    let wanted = wanted_of(&words, &client)?;
    let (ending, ends) = end_on_signals()?;
    if let Some(path) = &words.socket {
        // It is connected to again, from another folder maybe.
        let path = resolved(path).with_context(|| format!("{} isn't there", path.display()))?;
        if getuid().is_root() {
            // kfsd asks the kernel who connects.
            setegid(Gid::from_raw(client.gid))?;
            seteuid(Uid::from_raw(client.uid))?;
        }
        let mut desk = match words.client {
            Some(number) => Connection::open(&path, number)?,
            None => Connection::open_as_told(&path)?,
        };
        desk.set_again(AGAIN);
        desk.set_ending(ending);
        take_row(&mut client, &words, &desk)?;
        let wanted = Wanted { user: User { uid: client.uid, gid: client.gid }, ..wanted };
        return Tree { desk, client, wanted, words, left, ends }.serve(log);
    }
    match &words.program {
        Some(path) => {
            let desk = Program::start(path, [65_536, 16, 16], std::slice::from_ref(&client))?;
            Tree { desk, client, wanted, words, left, ends }.serve(log)
        }
        None => Tree { desk: Memory::new(client.clone()), client, wanted, words, left, ends }.serve(log),
    }
}

/// A fault with its causes, each said once: some say their cause by themselves.
fn text_of_fault(fault: &anyhow::Error) -> String {
    fault.chain().map(ToString::to_string).fold(String::new(), |text, cause| match text {
        text if text.is_empty() => cause,
        text if text.contains(&cause) => text,
        text => format!("{text}: {cause}"),
    })
}

fn main() -> ExitCode {
    let mut log = Log::default();
    let ended = Words::of_process().map_err(anyhow::Error::from).and_then(|words| run(words, &mut log));
    let status = ended.unwrap_or_else(|fault| {
        eprintln!("kfs-mount: {}", text_of_fault(&fault));
        ExitCode::FAILURE
    });
    log.end();
    status
}

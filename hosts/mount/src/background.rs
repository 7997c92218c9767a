//! A process that stays while who has started it goes on, and where it says what it has to say.

use crate::mounting::text_of;
use nix::unistd::{dup2, setsid};
use std::env;
use std::fs::OpenOptions;
use std::io::{self, BufRead, BufReader, Write};
use std::os::unix::io::AsRawFd;
use std::os::unix::net::{UnixDatagram, UnixStream};
use std::path::{Path, PathBuf};
use std::process::{Command, Stdio};
use std::thread::{self, JoinHandle};

/// The line by which a process says on standard output that the tree is mounted.
pub const MOUNTED: &str = "mounted";
/// Where the system's log listens, and what a line there begins with: daemon.warning.
const SYSTEM_LOG: &str = "/dev/log";
const PRIORITY: &str = "<28>";

/// The descriptors of standard output and standard error.
const OUTPUT: i32 = 1;
const ERROR: i32 = 2;

/// Starts this program once more, with a word by which it stays. Returns whether it has mounted; if not, it has said why.
pub fn start() -> io::Result<bool> {
    let mut child = Command::new(env::current_exe()?)
        .args(env::args_os().skip(1))
        .arg("--stays")
        .stdin(Stdio::null())
        .stdout(Stdio::piped())
        .spawn()?;
    let said = child.stdout.take().map(BufReader::new).map_or(Ok(String::new()), |mut output| {
        let mut line = String::new();
        output.read_line(&mut line).map(|_count| line)
    })?;
    if said.trim_end() == MOUNTED {
        return Ok(true);
    }
    child.wait()?;
    Ok(false)
}

/// Where lines on standard error go: where they went from the start, if nothing else is said.
#[derive(Debug, Default)]
pub struct Log {
    thread: Option<JoinHandle<()>>,
}

impl Log {
    /// They go to a file from now on, or else to the system's log. This process has no terminal then, and no folder.
    pub fn behind(file: Option<&Path>) -> io::Result<Log> {
        // Who leads a group of processes can't leave it, and has none to leave then.
        let _ = setsid();
        let log = match file {
            Some(path) => {
                dup2(OpenOptions::new().create(true).append(true).open(path)?.as_raw_fd(), ERROR)?;
                Log::default()
            }
            None => {
                let (reader, writer) = UnixStream::pair()?;
                dup2(writer.as_raw_fd(), ERROR)?;
                Log { thread: Some(thread::spawn(move || hand_on(reader))) }
            }
        };
        env::set_current_dir("/")?;
        Ok(log)
    }

    /// Waits until all that was said is handed on.
    pub fn end(self) {
        if let (Some(thread), Ok(nowhere)) = (self.thread, OpenOptions::new().write(true).open("/dev/null")) {
            if dup2(nowhere.as_raw_fd(), ERROR).is_ok() {
                let _ = thread.join();
            }
        }
    }
}

/// Hands lines on to the system's log. Those for which it has no room are lost: nobody waits for it.
fn hand_on(reader: UnixStream) {
    let socket = match UnixDatagram::unbound() {
        Ok(socket) if socket.set_nonblocking(true).is_ok() => socket,
        _ => return,
    };
    for line in BufReader::new(reader).split(b'\n').flatten() {
        let text = String::from_utf8_lossy(&line);
        let text = text.strip_prefix("kfs-mount: ").unwrap_or(&text);
        let _ = socket.send_to(format!("{PRIORITY}kfs-mount[{}]: {text}", std::process::id()).as_bytes(), SYSTEM_LOG);
    }
}

/// Says that the tree is mounted: on standard output, which is closed then where this stays in the background, and to systemd,
/// where it asks for that.
pub fn say_mounted(stays: bool) -> io::Result<()> {
    println!("{MOUNTED}");
    io::stdout().flush()?;
    if stays {
        dup2(OpenOptions::new().write(true).open("/dev/null")?.as_raw_fd(), OUTPUT)?;
    }
    if let Some(path) = env::var_os("NOTIFY_SOCKET").map(PathBuf::from) {
        let told = UnixDatagram::unbound()?.send_to(b"READY=1", &path);
        told.map_err(|fault| io::Error::new(fault.kind(), format!("{}: {fault}", text_of(&path))))?;
    }
    Ok(())
}

//! Mounts by fusermount3, a program that runs as the superuser and mounts for whoever owns the folder (fuse3 of Debian).

use nix::cmsg_space;
use nix::fcntl::OFlag;
use nix::fcntl::{fcntl, FcntlArg};
use nix::sys::socket::{recvmsg, ControlMessageOwned, MsgFlags, UnixAddr};
use nix::unistd::{close, dup3, getuid};
use std::fs::{File, OpenOptions};
use std::io::{self, ErrorKind, IoSliceMut};
use std::os::unix::io::{AsRawFd, OwnedFd, RawFd};
use std::os::unix::net::UnixStream;
use std::os::unix::process::CommandExt;
use std::path::Path;
use std::process::Command;

const PROGRAM: &str = "fusermount3";
/// Where it is told which of its descriptors leads back to who has started it.
const DESCRIPTOR: &str = "_FUSE_COMMFD";

/// A user, and its group.
#[derive(Clone, Copy, Debug, PartialEq, Eq)]
pub struct User {
    pub uid: u32,
    pub gid: u32,
}

/// The program, as this user. Only the superuser can start it as another one.
fn command(user: User) -> Command {
    let mut command = Command::new(PROGRAM);
    if getuid().is_root() {
        command.uid(user.uid).gid(user.gid);
    }
    command
}

/// Runs it. What it says is the fault.
fn run(command: &mut Command) -> io::Result<()> {
    let ended = command.output().map_err(|fault| match fault.kind() {
        ErrorKind::NotFound => io::Error::new(ErrorKind::NotFound, "fusermount3 isn't there (the package fuse3 has it)"),
        _ => fault,
    })?;
    if ended.status.success() {
        return Ok(());
    }
    let said = String::from_utf8_lossy(&ended.stderr);
    Err(io::Error::new(ErrorKind::Other, format!("{} ({})", said.trim(), ended.status)))
}

/// Mounts at a folder. Returns where the kernel asks.
pub fn mount(at: &Path, options: &str, user: User) -> io::Result<File> {
    let (mine, its) = UnixStream::pair()?;
    // Its standard input is what it answers by: every other descriptor is closed when a program is started.
    run(command(user).args(["-o", options, "--"]).arg(at).env(DESCRIPTOR, "0").stdin(OwnedFd::from(its)))?;
    let received = receive(&mine)?;
    let device = as_file(received);
    close(received)?;
    device
}

/// Takes the mount at a folder away, also while it is used.
pub fn unmount(at: &Path, user: User) -> io::Result<()> {
    run(command(user).args(["-u", "-z", "--"]).arg(at))
}

/// The descriptor that comes.
fn receive(from: &UnixStream) -> io::Result<RawFd> {
    let (mut byte, mut space) = ([0], cmsg_space!([RawFd; 1]));
    let mut bytes = [IoSliceMut::new(&mut byte)];
    let said = recvmsg::<UnixAddr>(from.as_raw_fd(), &mut bytes, Some(&mut space), MsgFlags::MSG_CMSG_CLOEXEC)?;
    let received = said.cmsgs().find_map(|message| match message {
        ControlMessageOwned::ScmRights(descriptors) => descriptors.first().copied(),
        _ => None,
    });
    received.ok_or_else(|| io::Error::new(ErrorKind::UnexpectedEof, "fusermount3 has sent no descriptor"))
}

/// A descriptor as a file from which nobody waits to read. A file that is there gets it: to make one of a number is unsafe.
fn as_file(descriptor: RawFd) -> io::Result<File> {
    let file = OpenOptions::new().read(true).write(true).open("/dev/null")?;
    dup3(descriptor, file.as_raw_fd(), OFlag::O_CLOEXEC)?;
    fcntl(file.as_raw_fd(), FcntlArg::F_SETFL(OFlag::O_RDWR | OFlag::O_NONBLOCK))?;
    Ok(file)
}

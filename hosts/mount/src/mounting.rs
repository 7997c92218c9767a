//! How the tree gets into the system's.

use crate::fusermount::{self, User};
use crate::words::names_of;
use nix::errno::Errno;
use nix::libc::O_NONBLOCK;
use nix::mount::{mount, umount2, MntFlags, MsFlags};
use nix::sys::statfs::statfs;
use nix::unistd::{geteuid, getuid, seteuid, Uid};
use std::fs::{self, File, OpenOptions};
use std::io;
use std::os::unix::ffi::{OsStrExt, OsStringExt};
use std::os::unix::fs::OpenOptionsExt;
use std::os::unix::io::AsRawFd;
use std::os::unix::process::CommandExt;
use std::path::{Path, PathBuf};
use std::process::Command;

/// The type of these mounts, as the system shows it.
const TYPE: &str = "fuse.kfs";

/// What is mounted where, and how.
#[derive(Clone, Debug)]
pub struct Wanted {
    pub at: PathBuf,
    /// What the system shows as the mount's source.
    pub source: String,
    pub user: User,
    /// Whether other users may come in.
    pub is_for_all: bool,
    pub flags: MsFlags,
    /// Whether fusermount3 mounts.
    pub is_by_helper: bool,
}

/// A mount, which goes when this is dropped.
#[derive(Debug)]
pub struct Mounted {
    /// Where the kernel asks. Who reads there when it has nothing to ask is told so.
    pub device: File,
    wanted: Wanted,
}

impl Mounted {
    /// Mounts a tree of a user at a folder. Without the helper the superuser alone may.
    pub fn new(wanted: Wanted) -> io::Result<Mounted> {
        while unmount_dead(&wanted)? {}
        let device = if wanted.is_by_helper { by_helper(&wanted)? } else { by_system(&wanted)? };
        Ok(Mounted { device, wanted })
    }
}

/// What the kernel is told in any case: permission is checked by the modes.
fn common_options(wanted: &Wanted) -> String {
    let others = if wanted.is_for_all { ",allow_other" } else { "" };
    format!("default_permissions{others}")
}

fn by_system(wanted: &Wanted) -> io::Result<File> {
    let device = OpenOptions::new().read(true).write(true).custom_flags(O_NONBLOCK).open("/dev/fuse")?;
    let (fd, User { uid, gid }) = (device.as_raw_fd(), wanted.user);
    let words = format!("fd={fd},rootmode=40000,user_id={uid},group_id={gid},{}", common_options(wanted));
    let flags = MsFlags::MS_NOSUID | MsFlags::MS_NODEV | wanted.flags;
    mount(Some(wanted.source.as_str()), &wanted.at, Some(TYPE), flags, Some(words.as_str()))?;
    Ok(device)
}

fn by_helper(wanted: &Wanted) -> io::Result<File> {
    // A comma stands between options, so one in a name is marked.
    let source = wanted.source.replace('\\', "\\\\").replace(',', "\\,");
    let subtype = TYPE.trim_start_matches("fuse.");
    let flags: String = names_of(wanted.flags).map(|name| format!(",{name}")).collect();
    let options = format!("nosuid,nodev,fsname={source},subtype={subtype},{}{flags}", common_options(wanted));
    fusermount::mount(&wanted.at, &options, wanted.user)
}

/// Takes a mount away, also while it is used.
fn unmount(wanted: &Wanted) -> io::Result<()> {
    if getuid().is_root() {
        // It may be another user by now.
        seteuid(Uid::from_raw(0))?;
    }
    if wanted.is_by_helper {
        return fusermount::unmount(&wanted.at, wanted.user);
    }
    umount2(&wanted.at, MntFlags::MNT_DETACH).map_err(io::Error::from)
}

impl Drop for Mounted {
    fn drop(&mut self) {
        // It may be gone by now.
        let _ = unmount(&self.wanted);
    }
}

// ---- Mounts whose process has gone

/// A path with no link in the folders above its last name, which isn't asked for: there a dead mount may be.
pub fn resolved(path: &Path) -> io::Result<PathBuf> {
    let name = match path.file_name() {
        Some(name) => name,
        None => return path.canonicalize(),
    };
    let above = path.parent().filter(|above| !above.as_os_str().is_empty()).unwrap_or_else(|| Path::new("."));
    Ok(above.canonicalize()?.join(name))
}

/// Takes away a mount of a kfs-mount that has gone. Returns whether there was one.
fn unmount_dead(wanted: &Wanted) -> io::Result<bool> {
    let owner = match owner_of(&fs::read_to_string("/proc/self/mountinfo")?, &wanted.at) {
        Some(owner) => owner,
        None => return Ok(false),
    };
    if !is_dead(&wanted.at, owner) {
        return Ok(false);
    }
    // Who isn't the superuser has it unmounted by the helper, whoever has mounted it.
    unmount(&Wanted { is_by_helper: !getuid().is_root(), ..wanted.clone() })?;
    Ok(true)
}

/// The user of the uppermost mount at a folder, if kfs-mount has made it.
fn owner_of(table: &str, at: &Path) -> Option<User> {
    let last = table.lines().rev().filter_map(Row::of).find(|row| row.at == at)?;
    last.owner.filter(|_| last.kind == TYPE)
}

/// Whether a mount's process has gone. Its blocks are asked for: headers may be kept still.
fn is_dead(at: &Path, owner: User) -> bool {
    match statfs(at) {
        // Of another one's mount the kernel tells the superuser nothing.
        Ok(_) => geteuid().is_root() && is_dead_to(at, owner),
        Err(errno) => errno == Errno::ENOTCONN,
    }
}

/// Whether it has to a user, by what stat(1) says.
fn is_dead_to(at: &Path, owner: User) -> bool {
    let ended = Command::new("stat").arg("-f").arg("--").arg(at).env("LC_ALL", "C").uid(owner.uid).gid(owner.gid).output();
    ended.map_or(false, |ended| String::from_utf8_lossy(&ended.stderr).contains(Errno::ENOTCONN.desc()))
}

/// What a row of the table of mounts says.
#[derive(Debug, PartialEq, Eq)]
struct Row<'a> {
    at: PathBuf,
    kind: &'a str,
    owner: Option<User>,
}

impl<'a> Row<'a> {
    /// The row of a line of `/proc/self/mountinfo` (proc(5)).
    fn of(line: &'a str) -> Option<Row<'a>> {
        let (head, rest) = line.split_once(" - ")?;
        let mut fields = rest.split(' ');
        let (kind, options) = (fields.next()?, fields.nth(1)?);
        let number = |name| options.split(',').find_map(|option| option.strip_prefix(name)?.parse().ok());
        let owner = number("user_id=").zip(number("group_id=")).map(|(uid, gid)| User { uid, gid });
        Some(Row { at: unescaped(head.split(' ').nth(4)?), kind, owner })
    }
}

/// A path in which some bytes are told by three octal digits.
fn unescaped(text: &str) -> PathBuf {
    let mut parts = text.split('\\');
    let mut bytes = parts.next().unwrap_or_default().as_bytes().to_vec();
    for part in parts {
        let (digits, rest) = part.split_at(part.len().min(3));
        bytes.extend(u8::from_str_radix(digits, 8).ok());
        bytes.extend_from_slice(rest.as_bytes());
    }
    PathBuf::from(std::ffi::OsString::from_vec(bytes))
}

/// The text by which a path is shown.
pub fn text_of(path: &Path) -> String {
    String::from_utf8_lossy(path.as_os_str().as_bytes()).into_owned()
}

#[cfg(test)]
mod tests {
    use super::*;

    #[test]
    fn the_uppermost_mount_is_found() {
        let table = "36 35 98:0 / /mnt rw,noatime master:1 - ext4 /dev/root rw\n\
                     37 36 0:44 / /a\\040b\\134 rw - fuse.kfs kfs rw,user_id=1000,group_id=1\n\
                     38 36 0:45 / /c rw - fuse.kfs kfs rw,user_id=1001,group_id=1\n\
                     39 38 0:46 / /c rw - tmpfs none rw\n";
        assert_eq!(owner_of(table, Path::new("/a b\\")), Some(User { uid: 1000, gid: 1 }));
        assert_eq!(owner_of(table, Path::new("/c")), None);
        assert_eq!(owner_of(table, Path::new("/mnt")), None);
        assert_eq!(owner_of("what is this", Path::new("/mnt")), None);
    }

    #[test]
    fn the_last_name_of_a_path_is_not_asked_for() {
        assert_eq!(resolved(Path::new("/proc/self/../nothing/")).ok(), Some(PathBuf::from("/proc/nothing")));
        assert_eq!(resolved(Path::new("/")).ok(), Some(PathBuf::from("/")));
        assert!(resolved(Path::new("/nothing/at")).is_err());
    }
}

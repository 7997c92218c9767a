//! The folder of a desk: its two files, the list of its clients, and the lock that keeps other daemons out.

use crate::cluster::base;
use nix::errno::Errno;
use nix::fcntl::{fcntl, flock, FcntlArg, FdFlag, FlockArg, OFlag};
use nix::unistd::geteuid;
use std::fs::{self, File, OpenOptions};
use std::io::{self, Write};
use std::os::unix::fs::{MetadataExt, OpenOptionsExt};
use std::os::unix::io::AsRawFd;
use std::path::{Path, PathBuf};

/// The files of `kfs_serve`.
pub const FILES: [&str; 2] = ["first.kdjl", "second.kdjl"];

/// The file of clients that `kfs_serve` reads, and the one that becomes it.
const CLIENTS: &str = "clients";
const PART: &str = "clients.part";

/// Which of the two files are there.
#[derive(Clone, Copy, Debug, PartialEq, Eq)]
pub enum Found {
    None,
    /// This one.
    One(&'static str),
    Both,
}

/// A folder that is locked.
#[derive(Debug)]
pub struct Folder {
    path: PathBuf,
    /// The lock. `kfs_serve` inherits it, so it is free only when both have ended.
    _lock: File,
}

impl Folder {
    /// Locks a folder; none where another daemon has it, or the `kfs_serve` of one that was killed.
    pub fn lock(path: &Path) -> io::Result<Option<Folder>> {
        for name in [CLIENTS, PART, base::NAME, base::PART] {
            is_there(&path.join(name))?;
        }
        let lock = open(&path.join("lock"), OpenOptions::new().create(true).truncate(false).write(true).mode(0o600))?;
        match flock(lock.as_raw_fd(), FlockArg::LockExclusiveNonblock) {
            Ok(()) => {}
            Err(Errno::EWOULDBLOCK) => return Ok(None),
            Err(errno) => return Err(errno.into()),
        }
        // A process that is started keeps it open.
        fcntl(lock.as_raw_fd(), FcntlArg::F_SETFD(FdFlag::empty()))?;
        Ok(Some(Folder { path: path.to_path_buf(), _lock: lock }))
    }

    /// Where it is.
    pub fn path(&self) -> &Path {
        &self.path
    }

    /// The file of clients that `kfs_serve` reads.
    pub fn clients_path(&self) -> PathBuf {
        self.path.join(CLIENTS)
    }

    /// Which of the two files are there.
    pub fn files(&self) -> io::Result<Found> {
        let [first, second] = FILES;
        Ok(match (is_there(&self.path.join(first))?, is_there(&self.path.join(second))?) {
            (false, false) => Found::None,
            (true, false) => Found::One(first),
            (false, true) => Found::One(second),
            (true, true) => Found::Both,
        })
    }

    /// Puts the lines of clients in place for `kfs_serve`, so that a crash leaves the old ones or these.
    pub fn keep_clients(&self, lines: &str) -> io::Result<()> {
        let part = self.path.join(PART);
        // What a crash has left.
        if is_there(&part)? {
            fs::remove_file(&part)?;
        }
        let mut file = OpenOptions::new().create_new(true).write(true).mode(0o600).open(&part)?;
        file.write_all(lines.as_bytes())?;
        file.sync_all()?;
        fs::rename(&part, self.clients_path())?;
        File::open(&self.path)?.sync_all()
    }
}

/// Whether a regular file is there. Anything else is refused: a link leads elsewhere, and a fifo is waited for.
pub fn is_there(path: &Path) -> io::Result<bool> {
    match fs::symlink_metadata(path) {
        Ok(found) if found.is_file() => Ok(true),
        Ok(_) => Err(not_regular(path)),
        Err(fault) if fault.kind() == io::ErrorKind::NotFound => Ok(false),
        Err(fault) => Err(at(path, fault)),
    }
}

/// Opens a regular file, or makes it where the options say so. No link is followed, and nothing is waited for.
pub fn open(path: &Path, options: &mut OpenOptions) -> io::Result<File> {
    is_there(path)?;
    let file = options.custom_flags((OFlag::O_NOFOLLOW | OFlag::O_NONBLOCK).bits()).open(path);
    let file = file.map_err(|fault| at(path, fault))?;
    // Another one may stand there by now.
    if file.metadata()?.is_file() {
        Ok(file)
    } else {
        Err(not_regular(path))
    }
}

/// Copies a regular file, for the owner of the copy alone.
pub fn copy(from: &Path, to: &Path) -> io::Result<()> {
    let mut from = open(from, OpenOptions::new().read(true))?;
    let mut copy = open(to, OpenOptions::new().create(true).truncate(true).write(true).mode(0o600))?;
    io::copy(&mut from, &mut copy).map(drop).map_err(|fault| at(to, fault))
}

fn not_regular(path: &Path) -> io::Error {
    io::Error::new(io::ErrorKind::InvalidInput, format!("{} isn't a regular file", path.display()))
}

/// A fault with the path of the file at fault.
pub fn at(path: &Path, fault: io::Error) -> io::Error {
    io::Error::new(fault.kind(), format!("{}: {fault}", path.display()))
}

/// Looks whether nobody but root and kfsd's own user may write a folder: who else does may put anything in the files' place.
pub fn look_at_owner(path: &Path) -> io::Result<()> {
    let found = fs::metadata(path)?;
    let (owner, own, mode) = (found.uid(), geteuid().as_raw(), found.mode() & 0o7777);
    let refused = |why| Err(io::Error::new(io::ErrorKind::PermissionDenied, why));
    if owner != own && owner != 0 {
        return refused(format!("it belongs to user {owner}, and kfsd runs as user {own}: it has to be root's or kfsd's own"));
    }
    if mode & 0o022 != 0 {
        return refused(format!("others than its owner may write it (its mode is {mode:o}): see to it that they may not"));
    }
    Ok(())
}

#[cfg(test)]
pub mod tests {
    use super::*;
    use nix::sys::stat::Mode;
    use nix::unistd::mkfifo;
    use std::fs::Permissions;
    use std::os::unix::fs::{symlink, PermissionsExt};
    use std::sync::atomic::{AtomicU32, Ordering};

    static COUNT: AtomicU32 = AtomicU32::new(0);

    /// A folder of the test's own, removed at the end.
    pub struct Room(pub PathBuf);

    impl Room {
        pub fn new(name: &str) -> Room {
            let count = COUNT.fetch_add(1, Ordering::Relaxed);
            let path = std::env::temp_dir().join(format!("kfsd-{name}-{}-{count}", std::process::id()));
            fs::create_dir(&path).unwrap();
            Room(path)
        }
    }

    impl Drop for Room {
        fn drop(&mut self) {
            let _ = fs::remove_dir_all(&self.0);
        }
    }

    #[test]
    fn one_at_a_time_has_a_folder() {
        let room = Room::new("lock");
        let folder = Folder::lock(&room.0).unwrap();
        assert!(folder.is_some());
        assert!(Folder::lock(&room.0).unwrap().is_none());
        drop(folder);
        assert!(Folder::lock(&room.0).unwrap().is_some());
    }

    #[test]
    fn files_are_regular_ones() {
        let room = Room::new("files");
        let folder = Folder::lock(&room.0).unwrap().unwrap();
        let [first, second] = FILES;
        assert_eq!(folder.files().unwrap(), Found::None);
        fs::write(room.0.join(second), "").unwrap();
        assert_eq!(folder.files().unwrap(), Found::One(second));
        symlink("/dev/null", room.0.join(first)).unwrap();
        assert!(folder.files().unwrap_err().to_string().contains("first.kdjl isn't a regular file"));
        fs::remove_file(room.0.join(first)).unwrap();
        fs::write(room.0.join(first), "").unwrap();
        assert_eq!(folder.files().unwrap(), Found::Both);
    }

    #[test]
    fn clients_are_put_where_no_link_leads() {
        let room = Room::new("clients");
        let folder = Folder::lock(&room.0).unwrap().unwrap();
        fs::write(room.0.join("other"), "other").unwrap();
        fs::write(room.0.join(PART), "what a crash has left").unwrap();
        folder.keep_clients("client 1\n").unwrap();
        assert_eq!(fs::read_to_string(folder.clients_path()).unwrap(), "client 1\n");
        symlink(room.0.join("other"), room.0.join(PART)).unwrap();
        assert!(folder.keep_clients("client 2\n").is_err());
        assert_eq!(fs::read_to_string(room.0.join("other")).unwrap(), "other");
        drop(folder);
        assert!(Folder::lock(&room.0).is_err());
        fs::remove_file(room.0.join(PART)).unwrap();
        for name in [CLIENTS, "lock", base::NAME] {
            drop(fs::remove_file(room.0.join(name)));
            mkfifo(&room.0.join(name), Mode::S_IRWXU).unwrap();
            assert!(Folder::lock(&room.0).unwrap_err().to_string().ends_with(&format!("{name} isn't a regular file")));
            fs::remove_file(room.0.join(name)).unwrap();
        }
    }

    #[test]
    fn a_folder_that_others_may_write_is_told() {
        let room = Room::new("owner");
        for (mode, is_right) in [(0o700, true), (0o755, true), (0o775, false), (0o702, false), (0o1777, false)] {
            fs::set_permissions(&room.0, Permissions::from_mode(mode)).unwrap();
            assert_eq!(look_at_owner(&room.0).is_ok(), is_right, "{mode:o}");
        }
    }
}

//! The words of kfs-mount: its own, and those that mount(8) hands to the helper of a file system.

use clap::Parser;
use nix::mount::MsFlags;
use std::path::{Path, PathBuf};

/// Mounts a desk's tree for one user.
#[derive(Clone, Debug, Parser)]
#[clap(version, override_usage = "kfs-mount MOUNTPOINT [WORDS]\n       kfs-mount SOURCE MOUNTPOINT [-o OPTIONS] [WORDS]")]
pub struct Words {
    /// The folder where it is mounted. In front of it may stand the socket of kfsd: then this goes into the background.
    #[clap(required = true, num_args = 1..=2, value_name = "PLACE")]
    places: Vec<PathBuf>,
    /// The socket of kfsd.
    #[clap(long, group = "server")]
    pub socket: Option<PathBuf>,
    /// The program `kfs`, which keeps nothing.
    #[clap(long, group = "server")]
    pub program: Option<PathBuf>,
    /// The number of the client at the desk. kfsd tells it where it isn't said.
    #[clap(long)]
    pub client: Option<u32>,
    /// The user whose mount it is.
    #[clap(long)]
    pub uid: Option<u32>,
    /// Its group.
    #[clap(long)]
    pub gid: Option<u32>,
    /// Its other groups, as the desk has them.
    #[clap(long = "group")]
    pub groups: Vec<u32>,
    /// Lets other users of this machine in, as the modes say.
    #[clap(long)]
    pub allow_other: bool,
    /// Mounts by fusermount3, as it does for who isn't the superuser.
    #[clap(long)]
    pub fusermount: bool,
    /// Stays in the foreground, where SOURCE is told, too.
    #[clap(long)]
    foreground: bool,
    /// In the background, writes what it says to this file in place of the system's log.
    #[clap(long)]
    pub log: Option<PathBuf>,
    /// The folder for a log that can't be handed in at the end.
    #[clap(long)]
    pub keep: Option<PathBuf>,
    /// A file with such a log, to be handed in now.
    #[clap(long)]
    pub again: Vec<PathBuf>,
    /// Options as those of fstab(5), with commas between them.
    #[clap(short)]
    options: Vec<String>,
    /// The type of the file system, of which mount(8) tells. It isn't read.
    #[clap(short = 't', hide = true)]
    _type: Option<String>,
    /// What mount(8) hands on, and changes nothing here.
    #[clap(short = 's', hide = true)]
    _is_sloppy: bool,
    #[clap(short = 'n', hide = true)]
    _writes_no_table: bool,
    #[clap(short = 'v', hide = true)]
    _is_verbose: bool,
    /// This is the process that stays in the background.
    #[clap(long, hide = true)]
    pub stays: bool,
    /// Flags of the mount, by its options.
    #[clap(skip = MsFlags::empty())]
    pub flags: MsFlags,
}

/// What isn't taken.
#[derive(Clone, Debug, PartialEq, Eq)]
pub enum WordFault {
    /// An option that this hasn't.
    Unknown(String),
    /// An option whose value isn't a number, or isn't there.
    Value(String),
    /// A socket that is told twice, or beside another server.
    TwoServers,
}

impl std::error::Error for WordFault {}

impl std::fmt::Display for WordFault {
    fn fmt(&self, out: &mut std::fmt::Formatter<'_>) -> std::fmt::Result {
        match self {
            WordFault::Unknown(option) => write!(out, "there is no option {option}"),
            WordFault::Value(option) => write!(out, "the option {option} needs a number or a path"),
            WordFault::TwoServers => write!(out, "SOURCE is the socket: neither --socket nor --program goes with it"),
        }
    }
}

/// Options that are flags of a mount, also for fusermount3: by which name each is set, and by which it is unset.
const FLAGS: [(&str, &str, MsFlags); 5] = [
    ("ro", "rw", MsFlags::MS_RDONLY),
    ("noexec", "exec", MsFlags::MS_NOEXEC),
    ("sync", "async", MsFlags::MS_SYNCHRONOUS),
    ("dirsync", "", MsFlags::MS_DIRSYNC),
    ("noatime", "atime", MsFlags::MS_NOATIME),
];

/// Options of fstab(5) that change nothing here. A tree has no devices, no files that run as their owner, and no times of reading.
const IGNORED: &str =
    "defaults auto noauto user nouser users owner group _netdev nofail dev nodev suid nosuid default_permissions \
    silent loud lazytime nolazytime strictatime nostrictatime relatime norelatime diratime nodiratime";

/// The names of the flags that are set, as fusermount3 takes them.
pub fn names_of(flags: MsFlags) -> impl Iterator<Item = &'static str> {
    FLAGS.into_iter().filter(move |(_, _, flag)| flags.contains(*flag)).map(|(name, _, _)| name)
}

impl Words {
    /// The words of this process, with what its options say.
    pub fn of_process() -> Result<Words, WordFault> {
        Words::parse().with_options()
    }

    fn with_options(mut self) -> Result<Words, WordFault> {
        let options = std::mem::take(&mut self.options);
        for option in options.iter().flat_map(|list| list.split(',')).filter(|option| !option.is_empty()) {
            self.take(option)?;
        }
        if let Some(source) = self.source() {
            let source = source.to_path_buf();
            if self.socket.is_some() || self.program.is_some() {
                return Err(WordFault::TwoServers);
            }
            self.socket = Some(source);
        }
        Ok(self)
    }

    /// Takes an option.
    fn take(&mut self, option: &str) -> Result<(), WordFault> {
        if IGNORED.split(' ').any(|name| name == option)
            || ["x-", "X-", "comment=", "user="].iter().any(|start| option.starts_with(start))
        {
            return Ok(());
        }
        if let Some((name, _, flag)) = FLAGS.into_iter().find(|(name, unset, _)| [*name, *unset].contains(&option)) {
            self.flags.set(flag, name == option);
            return Ok(());
        }
        let (name, value) = option.split_once('=').unwrap_or((option, ""));
        let number = || value.parse().map_err(|_| WordFault::Value(option.into()));
        match name {
            "client" => self.client = Some(number()?),
            "uid" => self.uid = Some(number()?),
            "gid" => self.gid = Some(number()?),
            "group" => self.groups.push(number()?),
            "log" if value.is_empty() => return Err(WordFault::Value(option.into())),
            "log" => self.log = Some(value.into()),
            "allow_other" if value.is_empty() => self.allow_other = true,
            "fusermount" if value.is_empty() => self.fusermount = true,
            _ => return Err(WordFault::Unknown(option.into())),
        }
        Ok(())
    }

    /// What stands in front of the folder.
    pub fn source(&self) -> Option<&Path> {
        (self.places.len() == 2).then(|| self.places[0].as_path())
    }

    /// The folder where the tree is to be mounted.
    pub fn at(&self) -> &Path {
        &self.places[self.places.len() - 1]
    }

    /// Whether this process is to start one that stays, and to end.
    pub fn goes_to_background(&self) -> bool {
        self.source().is_some() && !self.foreground && !self.stays
    }
}

#[cfg(test)]
mod tests {
    use super::*;

    fn words(words: &[&str]) -> Result<Words, WordFault> {
        Words::try_parse_from([&["kfs-mount"], words].concat()).unwrap().with_options()
    }

    #[test]
    fn a_line_of_fstab_is_taken() {
        let options =
            "rw,client=7,uid=1000,gid=1001,group=5,group=6,allow_other,_netdev,nofail,noatime,dev,suid,x-systemd.automount";
        let it = words(&["/run/kfsd/socket", "/mnt", "-o", options]).unwrap();
        assert_eq!((it.client, it.uid, it.gid, it.groups.as_slice()), (Some(7), Some(1000), Some(1001), &[5, 6][..]));
        assert_eq!((it.at(), it.socket.as_deref()), (Path::new("/mnt"), Some(Path::new("/run/kfsd/socket"))));
        assert!(it.allow_other && it.goes_to_background() && !it.fusermount);
        assert_eq!(it.flags, MsFlags::MS_NOATIME);
        assert_eq!(words(&["s", "/mnt", "-o", "ro,noexec,exec"]).unwrap().flags, MsFlags::MS_RDONLY);
        assert_eq!(names_of(MsFlags::MS_RDONLY | MsFlags::MS_NOATIME).collect::<Vec<_>>(), ["ro", "noatime"]);
    }

    #[test]
    fn a_folder_alone_stays_in_the_foreground() {
        let it = words(&["/mnt", "--socket", "s", "--group", "5"]).unwrap();
        assert!(!it.goes_to_background() && it.source().is_none());
        assert!(!words(&["s", "/mnt", "--foreground"]).unwrap().goes_to_background());
        assert!(!words(&["s", "/mnt", "--stays"]).unwrap().goes_to_background());
    }

    #[test]
    fn what_is_no_option_is_refused() {
        assert_eq!(words(&["s", "/mnt", "-o", "rw,what"]).unwrap_err(), WordFault::Unknown("what".into()));
        assert_eq!(words(&["s", "/mnt", "-o", "uid=root"]).unwrap_err(), WordFault::Value("uid=root".into()));
        assert_eq!(words(&["s", "/mnt", "-o", "allow_other=1"]).unwrap_err(), WordFault::Unknown("allow_other=1".into()));
        assert_eq!(words(&["s", "/mnt", "--socket", "t"]).unwrap_err(), WordFault::TwoServers);
        assert!(Words::try_parse_from(["kfs-mount"]).is_err() && Words::try_parse_from(["kfs-mount", "a", "b", "c"]).is_err());
    }
}

//! A connection through kfsd to `kfs_serve`, and the program `kfs` beside it: random logs are answered alike.
//!
//! hosts/test names the programs: KFSD, KFS_SERVE and KFS_PROGRAM. What the socket can't show yet is looked up in the program.

mod common;

use common::chance::Chance;
use common::program_path;
use kfs_client::connection::{Connection, Unconnected};
use kfs_client::desk::{Answer, Desk, LeaseKind, LeaseRefusal, Unanswered, Wanted, Wish};
use kfs_client::node::ROOT;
use kfs_client::program::Program;
use kfs_client::{Client, Header, Kind, Name, Options, Session, Shown, Unshown};
use std::fs;
use std::os::unix::fs::MetadataExt;
use std::path::PathBuf;
use std::process::{Child, Command};
use std::thread::sleep;
use std::time::{Duration, Instant};

fn variable(name: &str) -> String {
    std::env::var(name).unwrap_or_else(|_| panic!("{name} names a program (hosts/test sets it)"))
}

fn own_uid() -> u32 {
    fs::metadata("/proc/self").unwrap().uid()
}

/// A kfsd with a folder of its own, in which this user is client 7.
struct Daemon {
    room: PathBuf,
    child: Child,
}

impl Daemon {
    fn start(name: &str) -> Daemon {
        let room = std::env::temp_dir().join(format!("kfs-client-{name}-{}", std::process::id()));
        fs::create_dir_all(room.join("desk")).unwrap();
        let (at, uid) = (room.display(), own_uid());
        let config = format!(
            "socket = \"{at}/socket\"\ncontrol = \"{at}/control\"\nfolder = \"{at}/desk\"\nprogram = \"{}\"\n\
             tiers = [4096, 16, 16]\n[[user]]\nuid = {uid}\ngid = {uid}\nclient = 7\ngrant = [2, 999]\n",
            variable("KFS_SERVE")
        );
        fs::write(room.join("kfsd.toml"), config).unwrap();
        let child = Command::new(variable("KFSD")).arg("--config").arg(room.join("kfsd.toml")).spawn().unwrap();
        let daemon = Daemon { room, child };
        let until = Instant::now() + Duration::from_secs(30);
        while !daemon.socket().exists() {
            assert!(Instant::now() < until, "kfsd makes no socket");
            sleep(Duration::from_millis(10));
        }
        daemon
    }

    fn socket(&self) -> PathBuf {
        self.room.join("socket")
    }
}

impl Drop for Daemon {
    fn drop(&mut self) {
        let _ = self.child.kill();
        let _ = self.child.wait();
        let _ = fs::remove_dir_all(&self.room);
    }
}

/// Both, asked together. Each answer must be the other's.
struct Beside {
    connection: Connection,
    program: Program,
    submissions: u64,
}

impl Shown for Beside {
    fn header(&mut self, number: u32) -> Result<Option<Header>, Unshown> {
        let due = self.program.header(number)?;
        match self.connection.header(number) {
            // An older server has no look-ups.
            Err(Unshown::NoSuchLookUp) => {}
            found => assert_eq!(found?, due, "node {number}"),
        }
        Ok(due)
    }

    fn find(&mut self, directory: u32, name: &Name) -> Result<Option<u32>, Unshown> {
        self.program.find(directory, name)
    }

    fn list(&mut self, directory: u32, behind: Option<&Name>, most: usize) -> Result<Vec<(Name, u32)>, Unshown> {
        self.program.list(directory, behind, most)
    }

    fn read(&mut self, number: u32, start: u64, most: usize) -> Result<Vec<u8>, Unshown> {
        self.program.read(number, start, most)
    }
}

impl Desk for Beside {
    fn lease(&mut self, wanted: &Wanted) -> Result<Result<(), LeaseRefusal>, Unanswered> {
        let (found, due) = (self.connection.lease(wanted)?, self.program.lease(wanted)?);
        assert_eq!(found, due, "{wanted:?}");
        Ok(found)
    }

    fn drop_lease(&mut self, number: u32) -> Result<Result<(), LeaseRefusal>, Unanswered> {
        let (found, due) = (self.connection.drop_lease(number)?, self.program.drop_lease(number)?);
        assert_eq!(found, due, "{number}");
        Ok(found)
    }

    fn submit(&mut self, log: &[u8], plan: &[u8]) -> Result<Answer, Unanswered> {
        let (found, due) = (self.connection.submit(log, plan)?, self.program.submit(log, plan)?);
        assert_eq!(found, due);
        self.submissions += 1;
        Ok(found)
    }

    fn moment(&mut self) -> Result<u64, Unanswered> {
        self.connection.moment()
    }

    fn wanted_by_others(&mut self) -> Result<Vec<Wish>, Unanswered> {
        self.connection.wanted_by_others()
    }
}

fn beside(daemon: &Daemon) -> Session<Beside> {
    let connection = Connection::open(&daemon.socket(), 7).unwrap();
    let uid = own_uid();
    let grant = connection.grant();
    let client = Client { number: 7, uid, gid: uid, groups: vec![], is_privileged: false, grant };
    let program = Program::start(program_path(), [4096, 16, 16], std::slice::from_ref(&client)).unwrap();
    Session::new(Beside { connection, program, submissions: 0 }, client, Options::default())
}

#[test]
fn a_session_through_the_socket_is_answered_as_by_the_program() {
    let daemon = Daemon::start("beside");
    let mut session = beside(&daemon);
    assert_eq!(session.draft().client().grant, [2, 999]);
    let mut chance = Chance(1);
    let mut directories = vec![ROOT];
    for _ in 0..300 {
        let directory = *chance.of(&directories);
        let name = Name::new(format!("n{}", chance.below(12)).as_bytes()).unwrap();
        // What fails, fails before it is handed in.
        let _ = match chance.below(6) {
            0 => session.create(directory, &name, Kind::Directory, 0o755).map(|number| directories.push(number)),
            1 => session.unlink(directory, &name, Kind::File),
            2 => session.rename(directory, &name, *chance.of(&directories), &Name::new(b"moved").unwrap()),
            3 => session.give_up(directory),
            _ => session.create(directory, &name, Kind::File, 0o644).and_then(|number| {
                let length = 1 + chance.below(5000) as usize;
                session.write(number, chance.below(9000), &chance.bytes(length)).map(|_| ())
            }),
        };
        if chance.percent(10) {
            session.sync().unwrap();
        }
    }
    session.close().unwrap();
    assert!(session.desk().submissions > 20, "{}", session.desk().submissions);
    // Wrong bytes are told as such.
    assert!(matches!(session.desk().submit(b"KLOG", b"").unwrap(), Answer::Wrong(_)));
    let log = kfs_client::Log::new(8);
    assert!(matches!(session.desk().submit(log.as_bytes(), b"").unwrap(), Answer::Wrong(_)));
}

#[test]
fn a_connection_that_broke_is_made_anew() {
    let daemon = Daemon::start("anew");
    let mut connection = Connection::open(&daemon.socket(), 7).unwrap();
    let wanted = Wanted { number: ROOT, path: None, kind: LeaseKind::Write, end: 9 };
    assert_eq!(connection.lease(&wanted).unwrap(), Ok(()));
    connection.break_off();
    assert_eq!(connection.drop_lease(ROOT).unwrap(), Ok(()));
    assert_eq!(connection.drop_lease(ROOT).unwrap(), Err(LeaseRefusal::NoneHeld));
    assert_eq!(connection.lease(&Wanted { end: 0, ..wanted.clone() }).unwrap(), Err(LeaseRefusal::Past));
    assert_eq!(connection.lease(&Wanted { number: 500, ..wanted }).unwrap(), Err(LeaseRefusal::NoSuchNode));
    assert!(matches!(Connection::open(&daemon.socket(), 8), Err(Unconnected::Another(Some(7)))));
    assert!(matches!(Connection::open(&daemon.room.join("none"), 7), Err(Unconnected::Socket(_))));
}

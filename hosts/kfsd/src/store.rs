//! What kfsd itself keeps: a file of SQLite beside the files of the desk.

use crate::bytes::Bytes;
use crate::folder::{at, is_there, open};
use crate::times::{Known, Landed, Stamp};
use rusqlite::{params, Connection, OpenFlags};
use std::collections::{BTreeSet, HashMap, VecDeque};
use std::fs::{self, OpenOptions, Permissions};
use std::io;
use std::os::unix::fs::{OpenOptionsExt, PermissionsExt};
use std::path::Path;
use thiserror::Error;

/// The file's name in the folder of the desk.
pub const NAME: &str = "kfsd.sqlite";

/// Who may read and write it: its owner.
const MODE: u32 = 0o600;

/// What becomes of a numbered call that has been answered.
#[derive(Clone, Debug, PartialEq, Eq)]
pub struct Outcome {
    pub client: u32,
    pub number: u64,
    /// The answer without its position.
    pub answer: Vec<u8>,
}

/// Changes that are kept together.
#[derive(Debug, Default)]
pub struct Changes {
    pub outcomes: Vec<Outcome>,
    /// The client and the number of those that are forgotten.
    pub forgotten: Vec<(u32, u64)>,
    /// When nodes were changed; none where they are gone.
    pub stamps: HashMap<u32, Option<Stamp>>,
    /// What is known of all landings that these stamps are of.
    pub landed: Landed,
}

impl Changes {
    /// Whether there is nothing to keep.
    pub fn is_empty(&self) -> bool {
        self.outcomes.is_empty() && self.forgotten.is_empty() && self.stamps.is_empty()
    }
}

/// The open file.
#[derive(Debug)]
pub struct Store {
    connection: Connection,
    /// Whether there was a desk in the folder, by the file and since.
    had_desk: bool,
    /// Whether changes were lost, since they couldn't be kept. No others are kept then.
    has_failed: bool,
}

const TABLES: &str = "
    PRAGMA journal_mode = WAL;
    PRAGMA synchronous = FULL;
    CREATE TABLE IF NOT EXISTS outcome (
        serial INTEGER PRIMARY KEY, client INTEGER NOT NULL, number INTEGER NOT NULL, answer BLOB NOT NULL,
        UNIQUE (client, number)
    );
    CREATE TABLE IF NOT EXISTS stamp (
        node INTEGER PRIMARY KEY, modified INTEGER NOT NULL, changed INTEGER NOT NULL, moved INTEGER NOT NULL
    );
    CREATE TABLE IF NOT EXISTS locker (client INTEGER PRIMARY KEY);
    CREATE TABLE IF NOT EXISTS running (is_running INTEGER NOT NULL);
    CREATE TABLE IF NOT EXISTS time (node INTEGER PRIMARY KEY, modified INTEGER NOT NULL);
    CREATE TABLE IF NOT EXISTS desk (was_open INTEGER NOT NULL);
    CREATE TABLE IF NOT EXISTS landed (born INTEGER NOT NULL, prints BLOB NOT NULL);
";

/// Columns of a stamp that a file of an older kfsd lacks.
const LATER: [&str; 2] = ["born", "marks"];

/// What only a desk leaves. A file of an older kfsd doesn't say itself that there was one.
const TRACES: &str = "
    SELECT EXISTS (SELECT * FROM desk) OR EXISTS (SELECT * FROM outcome) OR EXISTS (SELECT * FROM stamp) OR EXISTS (SELECT * FROM time)
";

/// Why the file can't be opened.
#[derive(Debug, Error)]
pub enum StoreFault {
    #[error("kfsd.sqlite: {0}")]
    Sqlite(#[from] rusqlite::Error),
    #[error(transparent)]
    Io(#[from] io::Error),
}

/// Sees to it that the file and those beside it are regular ones and their owner's alone. SQLite gives those that it makes
/// the mode of the file.
fn guard(folder: &Path) -> io::Result<()> {
    open(&folder.join(NAME), OpenOptions::new().create(true).truncate(false).write(true).mode(MODE))?;
    for name in [NAME.to_string(), format!("{NAME}-wal"), format!("{NAME}-shm")] {
        let path = folder.join(name);
        if is_there(&path)? {
            let file = open(&path, OpenOptions::new().read(true))?;
            file.set_permissions(Permissions::from_mode(MODE)).map_err(|fault| at(&path, fault))?;
        }
    }
    Ok(())
}

impl Store {
    /// Opens the file in a folder, or makes it.
    pub fn open(folder: &Path) -> Result<Store, StoreFault> {
        guard(folder)?;
        // Of the whole path no part may be a link then.
        let folder = fs::canonicalize(folder)?;
        let connection =
            Connection::open_with_flags(folder.join(NAME), OpenFlags::default() | OpenFlags::SQLITE_OPEN_NOFOLLOW)?;
        connection.execute_batch(TABLES)?;
        add_columns(&connection)?;
        let had_desk = connection.query_row(TRACES, [], |row| row.get(0))?;
        Ok(Store { connection, had_desk, has_failed: false })
    }

    /// Whether a desk was open in the folder.
    pub fn had_desk(&self) -> bool {
        self.had_desk
    }

    /// Says that a desk is open in the folder. Behind the answer this is on the disk.
    pub fn note_desk(&mut self) -> rusqlite::Result<()> {
        let all = self.connection.transaction()?;
        let count: u32 = all.query_row("SELECT count(*) FROM desk", [], |row| row.get(0))?;
        if count == 0 {
            all.execute("INSERT INTO desk (was_open) VALUES (1)", [])?;
        }
        all.commit()?;
        self.had_desk = true;
        Ok(())
    }

    /// All outcomes, those first that were kept first.
    pub fn outcomes(&self) -> rusqlite::Result<Vec<Outcome>> {
        let mut rows = self.connection.prepare("SELECT client, number, answer FROM outcome ORDER BY serial")?;
        let found = rows.query_map([], |row| {
            Ok(Outcome { client: row.get(0)?, number: row.get::<_, i64>(1)? as u64, answer: row.get(2)? })
        })?;
        found.collect()
    }

    /// What is known of landings.
    pub fn known(&self) -> rusqlite::Result<Known> {
        let mut rows = self.connection.prepare("SELECT born, prints FROM landed")?;
        let found =
            rows.query_map([], |row| Ok(Landed { born: row.get(0)?, prints: prints_in(&row.get::<_, Vec<u8>>(1)?) }))?;
        let landed = found.last().transpose()?.unwrap_or_default();
        Ok(Known { stamps: self.stamps()?, landed })
    }

    fn stamps(&self) -> rusqlite::Result<Vec<(u32, Stamp)>> {
        let text = "
            SELECT node, stamp.modified, changed, moved, time.modified, born, marks FROM stamp LEFT JOIN time USING (node)
        ";
        let mut rows = self.connection.prepare(text)?;
        let found = rows.query_map([], |row| {
            let (modified, changed, moved) = (row.get(1)?, row.get(2)?, row.get(3)?);
            let (set, born, marks) = (row.get(4)?, row.get(5)?, row.get(6)?);
            Ok((row.get(0)?, Stamp { modified, changed, moved, set, born, marks }))
        })?;
        found.collect()
    }

    /// The clients that may have locks.
    pub fn lockers(&self) -> rusqlite::Result<BTreeSet<u32>> {
        let mut rows = self.connection.prepare("SELECT client FROM locker")?;
        let found = rows.query_map([], |row| row.get(0))?;
        found.collect()
    }

    /// One more client may have locks; no other ones than these, where they are told. Behind the answer this is on the disk.
    pub fn keep_lockers(&mut self, client: u32, all: Option<&BTreeSet<u32>>) -> rusqlite::Result<()> {
        let kept = self.connection.transaction()?;
        if let Some(all) = all {
            kept.execute("DELETE FROM locker", [])?;
            for client in all {
                kept.execute("INSERT OR REPLACE INTO locker (client) VALUES (?)", [client])?;
            }
        }
        kept.execute("INSERT OR REPLACE INTO locker (client) VALUES (?)", [client])?;
        kept.commit()
    }

    /// Says that kfsd runs, and answers whether the one before ended without saying that it had kept all.
    pub fn begin(&mut self) -> rusqlite::Result<bool> {
        let all = self.connection.transaction()?;
        let count: u32 = all.query_row("SELECT count(*) FROM running", [], |row| row.get(0))?;
        if count == 0 {
            all.execute("INSERT INTO running (is_running) VALUES (1)", [])?;
        }
        all.commit()?;
        Ok(count > 0)
    }

    /// Says that all is kept.
    pub fn end(&mut self) -> rusqlite::Result<()> {
        self.connection.execute("DELETE FROM running", [])?;
        Ok(())
    }

    /// Keeps changes: behind the answer they are on the disk, all of them.
    pub fn keep(&mut self, changes: &Changes) -> rusqlite::Result<()> {
        if self.has_failed {
            return Err(rusqlite::Error::InvalidQuery);
        }
        let kept = if changes.is_empty() { Ok(()) } else { self.put(changes) };
        self.has_failed = kept.is_err();
        kept
    }

    fn put(&mut self, changes: &Changes) -> rusqlite::Result<()> {
        let all = self.connection.transaction()?;
        {
            let mut put = all.prepare("INSERT OR REPLACE INTO outcome (client, number, answer) VALUES (?, ?, ?)")?;
            for outcome in &changes.outcomes {
                // SQLite's numbers are signed: the bits are kept.
                put.execute(params![outcome.client, outcome.number as i64, outcome.answer])?;
            }
            let mut take = all.prepare("DELETE FROM outcome WHERE client = ? AND number = ?")?;
            for (client, number) in &changes.forgotten {
                take.execute(params![client, *number as i64])?;
            }
            put_stamps(&all, &changes.stamps)?;
            if !changes.stamps.is_empty() {
                put_landed(&all, &changes.landed)?;
            }
        }
        all.commit()
    }
}

/// Adds what a file of an older kfsd lacks. What isn't known of a stamp is 0.
fn add_columns(connection: &Connection) -> rusqlite::Result<()> {
    let mut rows = connection.prepare("SELECT name FROM pragma_table_info('stamp')")?;
    let there = rows.query_map([], |row| row.get(0))?.collect::<rusqlite::Result<Vec<String>>>()?;
    for name in LATER.iter().filter(|name| !there.iter().any(|it| it == *name)) {
        connection.execute_batch(&format!("ALTER TABLE stamp ADD COLUMN {name} INTEGER NOT NULL DEFAULT 0"))?;
    }
    Ok(())
}

/// The prints that these bytes are.
fn prints_in(bytes: &[u8]) -> VecDeque<u64> {
    let mut bytes = Bytes(bytes);
    std::iter::from_fn(|| bytes.long()).collect()
}

fn put_landed(all: &Connection, landed: &Landed) -> rusqlite::Result<()> {
    let prints: Vec<u8> = landed.prints.iter().flat_map(|print| print.to_be_bytes()).collect();
    all.execute("DELETE FROM landed", [])?;
    all.execute("INSERT INTO landed (born, prints) VALUES (?, ?)", params![landed.born, prints])?;
    Ok(())
}

fn put_stamps(all: &Connection, stamps: &HashMap<u32, Option<Stamp>>) -> rusqlite::Result<()> {
    let mut put =
        all.prepare("INSERT OR REPLACE INTO stamp (node, modified, changed, moved, born, marks) VALUES (?, ?, ?, ?, ?, ?)")?;
    let mut take = all.prepare("DELETE FROM stamp WHERE node = ?")?;
    let mut set = all.prepare("INSERT OR REPLACE INTO time (node, modified) VALUES (?, ?)")?;
    let mut unset = all.prepare("DELETE FROM time WHERE node = ?")?;
    for (node, stamp) in stamps {
        match stamp {
            Some(stamp) => put.execute(params![node, stamp.modified, stamp.changed, stamp.moved, stamp.born, stamp.marks])?,
            None => take.execute(params![node])?,
        };
        match stamp.and_then(|stamp| stamp.set) {
            Some(time) => set.execute(params![node, time])?,
            None => unset.execute(params![node])?,
        };
    }
    Ok(())
}

#[cfg(test)]
mod tests {
    use super::*;
    use crate::folder::tests::Room;
    use std::os::unix::fs::symlink;

    fn outcome(client: u32, number: u64) -> Outcome {
        Outcome { client, number, answer: vec![1, 0] }
    }

    #[test]
    fn who_may_have_locks_is_noted() {
        let room = Room::new("store-lockers");
        let mut store = Store::open(&room.0).unwrap();
        for client in [7, 8, 7] {
            store.keep_lockers(client, None).unwrap();
        }
        assert_eq!(Store::open(&room.0).unwrap().lockers().unwrap(), [7, 8].into());
        store.keep_lockers(9, Some(&[8].into())).unwrap();
        assert_eq!(store.lockers().unwrap(), [8, 9].into());
    }

    #[test]
    fn what_is_kept_is_there_at_the_next_opening() {
        let room = Room::new("store");
        let mut store = Store::open(&room.0).unwrap();
        let outcomes = vec![outcome(7, u64::MAX), outcome(8, 1), outcome(7, 2)];
        store.keep(&Changes { outcomes: outcomes.clone(), ..Changes::default() }).unwrap();
        drop(store);
        let mut store = Store::open(&room.0).unwrap();
        assert_eq!(store.outcomes().unwrap(), outcomes);
        store
            .keep(&Changes { outcomes: vec![outcome(7, 3)], forgotten: vec![(7, u64::MAX), (9, 1)], ..Changes::default() })
            .unwrap();
        assert_eq!(store.outcomes().unwrap(), [outcome(8, 1), outcome(7, 2), outcome(7, 3)]);
    }

    #[test]
    fn a_desk_is_noted_and_leaves_traces() {
        let (room, other) = (Room::new("desk"), Room::new("other"));
        let mut store = Store::open(&room.0).unwrap();
        store.begin().unwrap();
        drop(store);
        // a first start that was cut short
        let mut store = Store::open(&room.0).unwrap();
        assert!(!store.had_desk());
        store.note_desk().unwrap();
        assert!(store.had_desk());
        drop(store);
        assert!(Store::open(&room.0).unwrap().had_desk());
        let mut older = Store::open(&other.0).unwrap();
        older.keep(&Changes { outcomes: vec![outcome(7, 1)], ..Changes::default() }).unwrap();
        drop(older);
        assert!(Store::open(&other.0).unwrap().had_desk());
    }

    #[test]
    fn the_files_are_their_owners_alone() {
        let room = Room::new("modes");
        let mode_of = |name: &str| fs::metadata(room.0.join(name)).unwrap().permissions().mode() & 0o777;
        fs::write(room.0.join(NAME), "").unwrap();
        fs::set_permissions(room.0.join(NAME), Permissions::from_mode(0o644)).unwrap();
        let mut store = Store::open(&room.0).unwrap();
        store.note_desk().unwrap();
        for name in ["kfsd.sqlite", "kfsd.sqlite-wal", "kfsd.sqlite-shm"] {
            assert_eq!(mode_of(name), MODE, "{name}");
        }
        drop(store);
        fs::rename(room.0.join(NAME), room.0.join("other")).unwrap();
        symlink("other", room.0.join(NAME)).unwrap();
        assert!(Store::open(&room.0).unwrap_err().to_string().ends_with("kfsd.sqlite isn't a regular file"));
    }

    #[test]
    fn a_file_of_an_older_kfsd_is_opened() {
        let room = Room::new("older");
        let older = Connection::open(room.0.join(NAME)).unwrap();
        older.execute_batch("
            CREATE TABLE stamp (node INTEGER PRIMARY KEY, modified INTEGER NOT NULL, changed INTEGER NOT NULL, moved INTEGER NOT NULL);
            INSERT INTO stamp VALUES (5, 6, 7, 8);
        ").unwrap();
        drop(older);
        let stamp = Stamp { modified: 6, changed: 7, moved: 8, set: None, born: 0, marks: 0 };
        for _ in 0..2 {
            let store = Store::open(&room.0).unwrap();
            assert_eq!(store.known().unwrap(), Known { stamps: vec![(5, stamp)], landed: Landed::default() });
        }
        let mut store = Store::open(&room.0).unwrap();
        let later = Stamp { born: 9, marks: 1, ..stamp };
        store.keep(&Changes { stamps: HashMap::from([(5, Some(later))]), ..Changes::default() }).unwrap();
        drop(store);
        assert_eq!(Store::open(&room.0).unwrap().known().unwrap().stamps, [(5, later)]);
    }

    #[test]
    fn stamps_are_kept_and_taken() {
        let room = Room::new("stamps");
        let set = |time| Some(time).filter(|time| *time == 6);
        let stamp = |time| {
            let (born, marks) = (time + 2, time as u8);
            Some(Stamp { modified: time, changed: time + 1, moved: time - 1, set: set(time), born, marks })
        };
        let mut store = Store::open(&room.0).unwrap();
        assert!(!store.begin().unwrap());
        let stamps = HashMap::from([(1, stamp(5)), (u32::MAX, stamp(6)), (3, None)]);
        let landed = |print| Landed { born: print as i64 + 9, prints: [print, u64::MAX].into() };
        store.keep(&Changes { stamps, landed: landed(1), ..Changes::default() }).unwrap();
        let stamps = HashMap::from([(1, None)]);
        store.keep(&Changes { stamps, landed: landed(2), ..Changes::default() }).unwrap();
        // without stamps there was no landing
        store.keep(&Changes { outcomes: vec![outcome(7, 1)], landed: landed(3), ..Changes::default() }).unwrap();
        drop(store);
        let mut store = Store::open(&room.0).unwrap();
        assert_eq!(store.known().unwrap(), Known { stamps: vec![(u32::MAX, stamp(6).unwrap())], landed: landed(2) });
        assert!(store.begin().unwrap());
        store.end().unwrap();
        assert!(!store.begin().unwrap());
    }
}

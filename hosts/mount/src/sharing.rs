//! What the desk has no entry for, and what is shared all the same: the groups of directories, modes that come later, and names
//! that an earlier mount has left.

use crate::handles::HIDDEN;
use crate::volume::Volume;
use kfs_client::{Desk, Header, Kind, Name};
use nix::errno::Errno;

/// The bit of a directory's mode by which what is made in it gets its group.
pub const SET_GROUP: u16 = 0o2000;
/// The bits by which an owner reads, and by which it reads and writes.
const READ: u16 = 0o400;
pub(crate) const OWNERS: u16 = 0o600;

impl<D: Desk> Volume<D> {
    // ---- Groups of directories

    /// Whether what is made in a directory gets its group.
    pub(crate) fn gives_group(&self, id: u64, number: u32) -> bool {
        let of_server = || self.session.stamp(number).map_or(false, |stamp| stamp.gives_group);
        self.marks.get(&id).copied().unwrap_or_else(of_server)
    }

    /// What is new in a directory gets its group where that is so, and the client is in it. A directory passes it on.
    pub(crate) fn inherit(&mut self, directory: u64, at: u32, number: u32, kind: Kind) -> Result<(), Errno> {
        if !self.gives_group(directory, at) {
            return Ok(());
        }
        let group = self.session.header(at).map_err(|failure| self.told(&failure))?.gid;
        let client = self.session.draft().client();
        if group != client.gid && (client.is_privileged || client.is_in(group)) {
            self.session.change_group(number, group).map_err(|failure| self.told(&failure))?;
        }
        if kind == Kind::Directory {
            let id = self.nodes.id(number);
            self.marks.insert(id, true);
        }
        Ok(())
    }

    /// The owner sets whether what is made in a directory gets its group. The server keeps it once it knows the directory.
    pub(crate) fn set_gives_group(&mut self, id: u64, number: u32, gives: bool) -> Result<(), Errno> {
        if gives == self.gives_group(id, number) {
            return Ok(());
        }
        self.marks.insert(id, gives);
        self.sync()
    }

    /// All was handed in: the server is told what it doesn't keep yet. What it refuses isn't so.
    pub(crate) fn hand_marks_in(&mut self) -> Result<(), Errno> {
        for (id, gives) in self.marks.drain().collect::<Vec<_>>() {
            if let Ok(number) = self.nodes.number(id) {
                let is_set = self.session.desk().set_gives_group(number, gives);
                is_set.map_err(|fault| fault.errno())?;
            }
        }
        Ok(())
    }

    // ---- Modes that come later

    /// Files get the modes that they have for programs, where their owner can read them then. Whoever writes to one that is open
    /// has it back before.
    pub(crate) fn give_late_modes(&mut self) -> Result<(), Errno> {
        for (id, mode) in self.handles.late_modes() {
            if mode & READ == 0 {
                continue;
            }
            if let Ok(number) = self.meant(id) {
                self.session.change_mode(number, mode).map_err(|failure| self.told(&failure))?;
                self.handles.note_late_mode(id, true);
            }
        }
        Ok(())
    }

    /// An open file is written to whose owner can't write it any more.
    pub(crate) fn take_late_mode_back(&mut self, id: u64, number: u32) -> Result<(), Errno> {
        if let Some(mode) = self.handles.mode_had(id) {
            self.session.change_mode(number, mode | OWNERS).map_err(|failure| self.told(&failure))?;
            self.handles.note_late_mode(id, false);
        }
        Ok(())
    }

    // ---- Names that were left

    /// Of names that are listed, those of hidden files that a killed mount of this user has left are removed.
    pub(crate) fn remove_left(&mut self, directory: u32, names: &mut Vec<(Name, u32)>) {
        let left = names.iter().filter(|(name, _)| name.as_bytes().starts_with(HIDDEN.as_bytes()));
        let left: Vec<_> = left.filter(|(name, _)| !self.handles.has_hidden(directory, name)).cloned().collect();
        let uid = self.session.draft().client().uid;
        for (name, number) in left {
            let is_own = |header: Header| !header.is_directory() && header.uid == uid;
            let is_left = self.session.header(number).map_or(false, is_own);
            if is_left && self.session.unlink(directory, &name, Kind::File).is_ok() {
                names.retain(|(other, _)| *other != name);
            }
        }
    }
}

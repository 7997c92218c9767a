//! Calls that change the tree: new nodes, names, and headers.

use crate::attributes::{now, Form, Shape, Times};
use crate::links::link_bytes;
use crate::sharing::{OWNERS, SET_GROUP};
use crate::special::Forms;
use crate::volume::{is_gone, named, Volume};
use kfs_client::{Desk, Header, Kind, Name};
use nix::errno::Errno;
use std::time::Duration;

/// The bits of a mode that a log can say, and the two that it can't.
const MODE: u32 = 0o1777;
const SET_USER: u32 = 0o4000;
/// The mode of a link's file.
const LINK_FILE_MODE: u16 = 0o755;

/// What is to be changed of a node's header.
#[derive(Clone, Copy, Debug, Default)]
pub struct Attributes {
    pub mode: Option<u32>,
    pub uid: Option<u32>,
    pub gid: Option<u32>,
    pub size: Option<u64>,
    pub read: Option<Duration>,
    pub written: Option<Duration>,
}

impl<D: Desk> Volume<D> {
    pub fn create(&mut self, directory: u64, name: &[u8], mode: u32) -> Result<(u64, Shape), Errno> {
        let mode = (mode & MODE) as u16;
        // A log writes what it has created, whatever its mode. A later one needs the bits, and so do look-ups.
        let late_mode = Some(mode).filter(|mode| mode & OWNERS != OWNERS);
        let given = if late_mode.is_some() { mode | OWNERS } else { mode };
        let (id, _) = self.make(directory, name, Kind::File, given)?;
        self.handles.open(id);
        self.handles.set_late_mode(id, late_mode);
        Ok((id, self.shape(id)?))
    }

    /// Makes a file or a directory.
    pub fn make(&mut self, directory: u64, name: &[u8], kind: Kind, mode: u16) -> Result<(u64, Shape), Errno> {
        let (at, name) = (self.meant(directory)?, named(name)?);
        let number = self.session.create(at, &name, kind, mode).map_err(|failure| self.told(&failure))?;
        self.nodes.renew(number);
        self.clocks.create(number);
        self.clocks.write(at);
        self.forms.note(number, Form::Plain);
        self.inherit(directory, at, number, kind)?;
        let (id, shape) = self.shape_of(number)?;
        self.note_memory(id, name.as_bytes());
        Ok((id, shape))
    }

    pub fn make_directory(&mut self, directory: u64, name: &[u8], mode: u32) -> Result<(u64, Shape), Errno> {
        self.make(directory, name, Kind::Directory, (mode & MODE) as u16)
    }

    /// Makes a link: a file that others can't write.
    pub fn make_link(&mut self, directory: u64, name: &[u8], target: &[u8]) -> Result<(u64, Shape), Errno> {
        let bytes = link_bytes(target).ok_or(Errno::ENAMETOOLONG)?;
        let (id, _) = self.make(directory, name, Kind::File, LINK_FILE_MODE)?;
        let number = self.meant(id)?;
        self.session.write(number, 0, &bytes).map_err(|failure| self.told(&failure))?;
        Ok((id, self.shape(id)?))
    }

    /// Changes a header. An owner can't be changed, and a file never runs as its owner.
    pub fn set_attributes(&mut self, id: u64, wanted: &Attributes) -> Result<Shape, Errno> {
        let Shape { header, form } = self.shape(id)?;
        if form == Form::Link && (wanted.mode.is_some() || wanted.size.is_some()) {
            return Err(Errno::EOPNOTSUPP);
        }
        if matches!(wanted.uid, Some(uid) if uid != header.uid) || matches!(wanted.mode, Some(mode) if mode & SET_USER != 0) {
            return Err(Errno::EPERM);
        }
        if let Some(shape) = self.removed.get_mut(&id) {
            // Nobody finds it any more.
            shape.header.mode = wanted.mode.map_or(shape.header.mode, |mode| (mode & MODE) as u16);
            return Ok(*shape);
        }
        let number = self.meant(id)?;
        if let Some(mode) = wanted.mode {
            self.change_mode(id, number, (mode & MODE) as u16)?;
            if header.is_directory() {
                self.set_gives_group(id, number, mode & u32::from(SET_GROUP) != 0)?;
            }
        }
        if let Some(gid) = wanted.gid.filter(|gid| *gid != header.gid) {
            self.session.change_group(number, gid).map_err(|failure| self.told(&failure))?;
            self.clocks.change(number);
        }
        if let Some(size) = wanted.size {
            self.take_late_mode_back(id, number)?;
            self.truncate(number, size)?;
        }
        if wanted.read.is_some() || wanted.written.is_some() {
            let times = self.clocks.of(number);
            let (read, written) = (wanted.read.unwrap_or(times.read), wanted.written.unwrap_or(times.written));
            self.clocks.set(number, Times { read, written, changed: now() });
        }
        self.shape(id)
    }

    /// Changes a mode; of a file that is open with the last close, where the owner couldn't read or write it then.
    fn change_mode(&mut self, id: u64, number: u32, mode: u16) -> Result<(), Errno> {
        let late_mode = Some(mode).filter(|mode| self.handles.is_open(id) && mode & OWNERS != OWNERS);
        let given = if late_mode.is_some() { mode | OWNERS } else { mode };
        self.session.change_mode(number, given).map_err(|failure| self.told(&failure))?;
        self.handles.set_late_mode(id, late_mode);
        self.clocks.change(number);
        Ok(())
    }

    pub fn link(&mut self, id: u64, directory: u64, name: &[u8]) -> Result<Shape, Errno> {
        let (number, at) = (self.meant(id)?, self.meant(directory)?);
        self.session.link(number, at, &named(name)?).map_err(|failure| self.told(&failure))?;
        self.clocks.write(at);
        self.clocks.change(number);
        self.shape(id)
    }

    pub fn unlink(&mut self, directory: u64, name: &[u8], kind: Kind) -> Result<(), Errno> {
        let (at, name) = (self.meant(directory)?, named(name)?);
        let (number, header) = self.find(at, &name).map_err(|failure| self.told(&failure))?;
        let id = self.identify(number);
        if kind == Kind::File && self.is_to_hide(id, number, &header)? {
            self.hide(id, number, at, &name)?;
        } else {
            self.session.unlink(at, &name, kind).map_err(|failure| self.told(&failure))?;
            self.note_removed(id, number, header);
        }
        self.clocks.write(at);
        self.clocks.change(number);
        Ok(())
    }

    /// A name of a node has gone. A directory, a FIFO or a socket may be open without this mount being told: who has it open, or
    /// stands in it, has it until the kernel forgets it.
    fn note_removed(&mut self, id: u64, number: u32, header: Header) {
        let form = self.forms.known(number);
        if header.is_directory() || (form != Form::Plain && header.links <= 1) {
            self.removed.insert(id, Forms::shape(Header { links: 0, ..header }, form));
        }
        self.forms.unlink(number, &header);
    }

    /// Whether a file that loses this name is open, and has no other by now.
    fn is_to_hide(&mut self, id: u64, number: u32, header: &Header) -> Result<bool, Errno> {
        if header.is_directory() || !self.handles.is_open(id) {
            return Ok(false);
        }
        let header = self.session.header_of_now(number).map_err(|failure| self.told(&failure))?;
        Ok(header.links == 1)
    }

    /// Gives an open file a name that goes with its last close.
    fn hide(&mut self, id: u64, number: u32, directory: u32, name: &Name) -> Result<(), Errno> {
        let hidden = named(self.handles.hidden_name(number).as_bytes())?;
        self.session.rename(directory, name, directory, &hidden).map_err(|failure| self.told(&failure))?;
        self.handles.hide(id, directory, hidden);
        Ok(())
    }

    /// Removes a file whose last open descriptor was closed. Another client may have removed it before.
    pub(crate) fn remove_hidden(&mut self, directory: u32, name: &Name) -> Result<(), Errno> {
        match self.session.unlink(directory, name, Kind::File) {
            Err(failure) if is_gone(&failure) => Ok(()),
            removed => removed.map_err(|failure| self.told(&failure)),
        }
    }

    /// Renames. Where nothing may be replaced, what has the new name stays.
    pub fn rename(&mut self, from: u64, name: &[u8], to: u64, new_name: &[u8], replaces: bool) -> Result<(), Errno> {
        let (from, name, to, new_name) = (self.meant(from)?, named(name)?, self.meant(to)?, named(new_name)?);
        let (moved, header) = self.find(from, &name).map_err(|failure| self.told(&failure))?;
        let there = match self.find(to, &new_name) {
            Ok(there) => Some(there),
            Err(failure) if failure.errno() == Errno::ENOENT => None,
            Err(failure) => return Err(self.told(&failure)),
        };
        let replaced =
            there.filter(|(number, _)| *number != moved).map(|(number, header)| (self.identify(number), number, header));
        match (there, replaced) {
            (Some(_), _) if !replaces => return Err(Errno::EEXIST),
            (_, Some((id, number, other))) if !header.is_directory() && self.is_to_hide(id, number, &other)? => {
                self.hide(id, number, to, &new_name)?;
            }
            _ => {}
        }
        self.session.rename(from, &name, to, &new_name).map_err(|failure| self.told(&failure))?;
        if let Some((id, number, header)) = replaced {
            self.note_removed(id, number, header);
        }
        [from, to].into_iter().for_each(|directory| self.clocks.write(directory));
        // What is replaced may have other names.
        [Some(moved), there.map(|(number, _)| number)].into_iter().flatten().for_each(|number| self.clocks.change(number));
        Ok(())
    }
}

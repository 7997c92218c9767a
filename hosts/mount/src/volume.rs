//! The calls of a file system over a session: what the desk has no entry for is done here, as far as one mount can.

use crate::attributes::{now, Clocks, Form, Shape};
use crate::handles::{Closed, Handles, List, Seen};
use crate::links::{target_of, LENGTH};
use crate::locking::Locking;
use crate::nodes::{Nodes, ROOT};
use crate::sharing::SET_GROUP;
use crate::special::{self, Forms};
use kfs_client::client::Access;
use kfs_client::desk::Blocks;
use kfs_client::leftover::Leftover;
use kfs_client::{Desk, Failure, Fault, HandInFault, Header, Name, Reason, Session};
use nix::errno::Errno;
use std::collections::HashMap;
use std::fs::{self, OpenOptions};
use std::io::{self, Write};
use std::os::unix::fs::{DirBuilderExt, OpenOptionsExt};
use std::os::unix::io::RawFd;
use std::path::{Path, PathBuf};
use std::time::{Duration, Instant};

/// The mode that a link is shown with.
const LINK_MODE: u16 = 0o777;
/// How a file is opened (`O_ACCMODE`, `O_WRONLY`, `O_RDWR`, `O_TRUNC`, `O_APPEND`).
const ACCESS: u32 = 0o3;
pub(crate) const WRITE_ONLY: u32 = 0o1;
const READ_AND_WRITE: u32 = 0o2;
const TRUNCATE: u32 = 0o1000;
const APPEND: u32 = 0o2000;
/// Of a file with fewer bytes they are read when it is opened.
const FEW_BYTES: u64 = 65_536;
/// How often a name is looked up that led to a node which went meanwhile.
const LOOKS: u32 = 4;

/// What the kernel has of a file's bytes.
#[derive(Clone, Copy, Debug, PartialEq, Eq)]
pub(crate) enum Kept {
    /// All that it has it was told under a lease that was held without a gap since then; where there is none it has nothing.
    Since(Option<u64>),
    /// Some it was told without a lease.
    Mixed,
}

/// How a file is opened.
#[derive(Clone, Copy, Debug, PartialEq, Eq)]
pub struct Opened {
    /// The kernel may keep the bytes that it has of it: a lease has kept others from changing it since it was opened before.
    pub keeps: bool,
    /// The kernel asks for each read and write: where the end of the file is, at which bytes are put, it doesn't know.
    pub is_direct: bool,
    /// The kernel has another size of it.
    pub is_resized: bool,
}

/// What has been written.
#[derive(Clone, Copy, Debug, PartialEq, Eq)]
pub struct Written {
    pub count: usize,
    /// The bytes stand elsewhere than the kernel takes them to.
    pub is_elsewhere: bool,
}

/// A tree that is mounted. Nodes are told by their ids.
#[derive(Debug)]
pub struct Volume<D> {
    pub(crate) session: Session<D>,
    pub clocks: Clocks,
    pub handles: Handles,
    pub(crate) nodes: Nodes,
    /// Directories that were removed here and that the kernel has still: they have no names.
    pub(crate) removed: HashMap<u64, Shape>,
    /// What the next who asks that all is kept is told: calls were lost since, and nobody was told.
    owed: Option<Errno>,
    /// What the kernel has of the bytes of each file.
    pub(crate) kept: HashMap<u64, Kept>,
    pub locking: Locking,
    /// What is a socket or a FIFO.
    pub forms: Forms,
    /// Directories of which the server doesn't know yet whether they give their group.
    pub(crate) marks: HashMap<u64, bool>,
    telling: Telling,
    /// Whether the kernel is told once it has to look names up anew.
    tells_losses: bool,
}

/// What was told people last on standard error.
#[derive(Debug, Default)]
struct Telling(Option<(String, Instant)>);

impl Telling {
    /// How long the same isn't told again.
    const PAUSE: Duration = Duration::from_secs(60);

    fn tell(&mut self, text: String) {
        let is_new = self.0.as_ref().map_or(true, |(last, at)| *last != text || at.elapsed() >= Self::PAUSE);
        if is_new {
            eprintln!("kfs-mount: {text}");
            self.0 = Some((text, Instant::now()));
        }
    }

    /// Tells why a log isn't kept. Returns whether calls are lost.
    fn tell_fault(&mut self, fault: &HandInFault) -> bool {
        self.tell(format!("a log isn't kept: {fault}"));
        match fault {
            HandInFault::Refused { lost, .. } => {
                lost.iter().for_each(|call| eprintln!("kfs-mount: lost: {call}"));
                !lost.is_empty()
            }
            _ => false,
        }
    }
}

fn writes(flags: u32) -> bool {
    matches!(flags & ACCESS, WRITE_ONLY | READ_AND_WRITE)
}

/// Whether who opens a file so puts bytes behind its last one.
pub fn appends(flags: u32) -> bool {
    flags & APPEND != 0 && writes(flags)
}

/// Whether a node isn't there any more.
pub(crate) fn is_gone(failure: &Failure) -> bool {
    let entry = matches!(failure, Failure::Entry { fault: Fault::Refused(Reason::NoSuchNode), .. });
    entry || matches!(failure, Failure::Missing(Reason::NoSuchNode))
}

impl<D: Desk> Volume<D> {
    /// A volume over a session.
    pub fn new(session: Session<D>) -> Volume<D> {
        Volume {
            session,
            clocks: Clocks::default(),
            handles: Handles::default(),
            nodes: Nodes::default(),
            removed: HashMap::new(),
            owed: None,
            kept: HashMap::new(),
            forms: Forms::default(),
            marks: HashMap::new(),
            telling: Telling::default(),
            tells_losses: false,
            locking: Locking::default(),
        }
    }

    /// The server, for tests.
    #[cfg(test)]
    pub fn desk(&mut self) -> &mut D {
        self.session.desk()
    }

    /// What is due now and then. What fails is tried again; who asks next that all is kept is told of calls that are lost.
    pub fn poll(&mut self) {
        if let Err(failure) = self.session.poll() {
            let _nobody_asked = self.told(&failure);
        }
    }

    /// What others want now is given up.
    pub fn hear(&mut self) {
        if let Err(failure) = self.session.hear() {
            let _nobody_asked = self.told(&failure);
        }
    }

    /// Where it can be waited for that others want something.
    pub fn news(&mut self) -> Option<RawFd> {
        self.session.desk().news()
    }

    /// The number that POSIX has for a failure. Whoever made the calls that are lost by it may be another than who is told of it
    /// now: so the next who asks that all is kept is told, too. By `ESTALE` the kernel looks the names anew that led to the node.
    pub(crate) fn told(&mut self, failure: &Failure) -> Errno {
        match failure {
            Failure::HandIn(fault) if self.telling.tell_fault(fault) => self.owed = Some(failure.errno()),
            Failure::Lease(..) => self.telling.tell(format!("a lease isn't to be had: {failure}")),
            _ => {}
        }
        if is_gone(failure) {
            Errno::ESTALE
        } else {
            failure.errno()
        }
    }

    /// Who asks next that all is kept is told that it isn't, and people are told why.
    pub(crate) fn owe(&mut self, text: String, errno: Errno) {
        self.telling.tell(text);
        self.owed = Some(errno);
    }

    /// The next request begins.
    pub fn begin_request(&mut self) {
        self.session.begin_together();
    }

    /// The kernel has forgotten a node.
    pub fn forget(&mut self, id: u64) {
        self.removed.remove(&id);
        self.kept.remove(&id);
        self.forget_memory(id);
    }

    /// Hands all in, and gives all leases up.
    pub fn close(&mut self) -> Result<(), Errno> {
        self.session.close().map_err(|failure| self.told(&failure))
    }

    /// Hands in what an earlier mount has left. Returns how many of its entries can't be done any more.
    pub fn take_leftover(&mut self, left: &Leftover) -> Result<usize, Errno> {
        let lost = self.session.take_leftover(left).map_err(|failure| self.told(&failure))?;
        lost.iter().for_each(|call| eprintln!("kfs-mount: lost: {call}"));
        Ok(lost.len())
    }

    /// Keeps the log in a new file of a folder, and tells which; none where the log is empty.
    pub fn keep_log(&self, folder: &Path) -> io::Result<Option<PathBuf>> {
        let left = match self.session.leftover() {
            Some(left) => left,
            None => return Ok(None),
        };
        fs::DirBuilder::new().recursive(true).mode(0o700).create(folder)?;
        let path = folder.join(format!("client-{}-{}.left", left.client(), now().as_millis()));
        let mut file = OpenOptions::new().write(true).create_new(true).mode(0o600).open(&path)?;
        file.write_all(&left.to_bytes())?;
        file.sync_all()?;
        Ok(Some(path))
    }

    /// Hands all in. Where a lease was lost, and another client has it, that one is waited for.
    pub fn sync(&mut self) -> Result<(), Errno> {
        self.give_late_modes()?;
        if let Err(fault) = self.session.sync_patiently() {
            self.telling.tell_fault(&fault);
            return Err(fault.errno());
        }
        self.hand_marks_in()?;
        self.owed.take().map_or(Ok(()), Err)
    }

    /// How many blocks there are, and how many of them are free: where that isn't told, as many as a tier has at most.
    pub fn blocks(&mut self) -> Result<Blocks, Errno> {
        let blocks = self.session.desk().blocks().map_err(|fault| fault.errno())?;
        Ok(blocks.unwrap_or(Blocks { all: 65_536, free: 65_536, slower_all: 0, slower_free: 0 }))
    }

    /// A descriptor is closed. Where room is scarce the log is handed in, so that who has written hears whether it has room.
    pub fn flush(&mut self, id: u64, handle: u64) -> Result<(), Errno> {
        if !self.handles.take_written(handle) {
            return Ok(());
        }
        let number = match self.nodes.number(id) {
            Ok(number) => number,
            // Nothing of it is in the log any more.
            Err(_) => return Ok(()),
        };
        if self.session.is_scarce(number).map_err(|failure| self.told(&failure))? {
            self.sync()?;
        }
        Ok(())
    }

    // ---- Which node is meant

    /// The number of a node that a call changes. Where others may give it to a later node, that one isn't changed.
    pub(crate) fn meant(&mut self, id: u64) -> Result<u32, Errno> {
        if self.removed.contains_key(&id) {
            return Err(Errno::ENOENT);
        }
        let number = self.nodes.number(id)?;
        if let Some(born) = self.nodes.born(number) {
            self.session.mean(number, born);
        }
        Ok(number)
    }

    /// The id of a node that was shown.
    pub(crate) fn identify(&mut self, number: u32) -> u64 {
        // Of what the log has made the server knows nothing yet.
        if !self.session.draft().has_changed(number) {
            let born = self.session.stamp(number).map_or(0, |stamp| stamp.born);
            if born != 0 && self.nodes.tell_born(number, born) {
                self.clocks.forget(number);
            }
        }
        self.nodes.id(number)
    }

    /// What was shown of a node's number was shown of this node: it has the number still, by what the server told last.
    fn confirm(&mut self, id: u64, number: u32) -> Result<(), Errno> {
        if self.identify(number) == id {
            Ok(())
        } else {
            Err(Errno::ESTALE)
        }
    }

    /// The same, where names were shown, and the server wasn't asked for the directory behind them.
    fn confirm_directory(&mut self, id: u64, number: u32) -> Result<(), Errno> {
        let is_others = !self.session.draft().client().is_granted(number) && id != ROOT;
        if is_others && self.session.stamp(number).is_some() && self.since(number)?.is_none() {
            self.session.header_of_now(number).map_err(|failure| self.told(&failure))?;
        }
        self.confirm(id, number)
    }

    fn since(&mut self, number: u32) -> Result<Option<u64>, Errno> {
        self.session.held_since(number).map_err(|failure| self.told(&failure))
    }

    // ---- Reads

    /// A node as it is shown: a link with its target's length, a file with the mode that it gets later, and without a hidden
    /// name.
    fn shown(&mut self, id: u64, number: u32, header: Header) -> Result<Shape, Errno> {
        let links = header.links - u16::from(self.handles.is_hidden(id));
        if let Some(target) = self.target(number, &header)? {
            let header = Header { mode: LINK_MODE, size: target.len() as u64, links, ..header };
            return Ok(Shape { header, form: Form::Link });
        }
        self.nodes.tell_size(number, header.size);
        let mode = self.handles.late_mode(id).unwrap_or(header.mode);
        let mode = if header.is_directory() && self.gives_group(id, number) { mode | SET_GROUP } else { mode };
        let form = self.form(number, &header)?;
        Ok(Forms::shape(Header { mode, links, ..header }, form))
    }

    /// Whether a node is a socket or a FIFO. To those who can't read it it stays what it was.
    fn form(&mut self, number: u32, header: &Header) -> Result<Form, Errno> {
        if !Forms::may_be(header) {
            return Ok(self.forms.note(number, Form::Plain));
        }
        match self.session.read(number, 0, special::LENGTH as usize) {
            Ok(bytes) => Ok(self.forms.note(number, special::form_of(&bytes))),
            Err(failure) => match self.told(&failure) {
                Errno::EACCES => Ok(self.forms.known(number)),
                Errno::ESTALE => Ok(Form::Plain),
                errno => Err(errno),
            },
        }
    }

    /// The target of a link, where the node is one and can be read.
    fn target(&mut self, number: u32, header: &Header) -> Result<Option<Vec<u8>>, Errno> {
        if header.is_directory() || header.size != LENGTH {
            return Ok(None);
        }
        match self.session.read(number, 0, LENGTH as usize) {
            Ok(bytes) => Ok(target_of(&bytes)),
            Err(failure) => match self.told(&failure) {
                // It may be a link to those who can read it, and it isn't there any more.
                Errno::EACCES | Errno::ESTALE => Ok(None),
                errno => Err(errno),
            },
        }
    }

    /// A node, as the kernel is told of it.
    pub fn shape(&mut self, id: u64) -> Result<Shape, Errno> {
        if let Some(shape) = self.removed.get(&id) {
            return Ok(*shape);
        }
        match self.shape_now(id) {
            Err(Errno::ESTALE) => {
                let Seen { shape, .. } = self.handles.seen(id).ok_or(Errno::ESTALE)?;
                Ok(Shape { header: Header { links: 0, ..shape.header }, ..*shape })
            }
            found => found,
        }
    }

    fn shape_now(&mut self, id: u64) -> Result<Shape, Errno> {
        let number = self.nodes.number(id)?;
        let header = self.session.header(number).map_err(|failure| self.told(&failure))?;
        self.confirm(id, number)?;
        self.shown(id, number, header)
    }

    /// The node that has a number now.
    pub fn shape_of(&mut self, number: u32) -> Result<(u64, Shape), Errno> {
        let header = self.session.header(number).map_err(|failure| self.told(&failure))?;
        let id = self.identify(number);
        Ok((id, self.shown(id, number, header)?))
    }

    pub fn lookup(&mut self, directory: u64, name: &[u8]) -> Result<(u64, Shape), Errno> {
        if self.removed.contains_key(&directory) {
            return Err(Errno::ENOENT);
        }
        let at = self.nodes.number(directory)?;
        let (number, header) = self.find(at, &named(name)?).map_err(|failure| self.told(&failure))?;
        self.confirm_directory(directory, at)?;
        let id = self.identify(number);
        self.note_memory(id, name);
        Ok((id, self.shown(id, number, header)?))
    }

    /// Where a name leads. A node that went meanwhile may have made room for another one of the name.
    pub(crate) fn find(&mut self, directory: u32, name: &Name) -> Result<(u32, Header), Failure> {
        for _ in 1..LOOKS {
            match self.session.lookup(directory, name) {
                Err(failure) if is_gone(&failure) => drop(self.session.header_of_now(directory)?),
                found => return found,
            }
        }
        self.session.lookup(directory, name)
    }

    pub fn read_link(&mut self, id: u64) -> Result<Vec<u8>, Errno> {
        let number = self.nodes.number(id)?;
        let header = self.session.header(number).map_err(|failure| self.told(&failure))?;
        let target = self.target(number, &header)?;
        self.confirm(id, number)?;
        target.ok_or(Errno::EINVAL)
    }

    /// All names of a directory, as a list that stays while it is read.
    pub fn open_list(&mut self, id: u64) -> Result<u64, Errno> {
        if self.removed.contains_key(&id) {
            return Ok(self.handles.open_list(List::default()));
        }
        let number = self.nodes.number(id)?;
        let before = self.since(number)?;
        let mut names = self.session.list(number, None, usize::MAX).map_err(|failure| self.told(&failure))?;
        self.remove_left(number, &mut names);
        self.confirm_directory(id, number)?;
        let since = self.since(number)?.filter(|since| Some(*since) == before);
        Ok(self.handles.open_list(List { names, since }))
    }

    /// Whether the kernel may keep names of a directory that it is told now: it is told once others may change them.
    pub fn keeps_names(&mut self, directory: u64) -> bool {
        let number = self.nodes.number(directory);
        self.tells_losses && number.and_then(|number| self.since(number)).map_or(false, |since| since.is_some())
    }

    /// The same of a list that was made before.
    pub fn keeps_list(&mut self, directory: u64, handle: u64) -> bool {
        let since = self.nodes.number(directory).and_then(|number| self.since(number)).unwrap_or(None);
        self.tells_losses && since.is_some() && since == self.handles.list_since(handle)
    }

    /// Has this called before others may change names of which the kernel keeps some.
    pub fn tell_losses(&mut self, told: impl FnMut() + Send + 'static) {
        self.tells_losses = true;
        self.session.tell_losses(told);
    }

    /// The headers of these nodes are wanted now.
    pub fn expect(&mut self, numbers: impl Iterator<Item = u32>) {
        self.session.headers_ahead(numbers);
    }

    /// The number of the directory above.
    pub fn parent(&self, directory: u32) -> u32 {
        self.session.draft().paths().parent(directory).unwrap_or(directory)
    }

    pub fn read(&mut self, id: u64, start: u64, most: usize) -> Result<Vec<u8>, Errno> {
        match self.read_now(id, start, most) {
            // Another client has removed it.
            Err(Errno::ESTALE) => {
                let seen = self.handles.seen(id).and_then(|seen| seen.bytes.as_ref()).ok_or(Errno::ESTALE)?;
                let from = usize::try_from(start).unwrap_or(usize::MAX).min(seen.len());
                Ok(seen[from..from.saturating_add(most).min(seen.len())].to_vec())
            }
            read => read,
        }
    }

    fn read_now(&mut self, id: u64, start: u64, most: usize) -> Result<Vec<u8>, Errno> {
        let number = self.nodes.number(id)?;
        let bytes = self.session.read(number, start, most).map_err(|failure| self.told(&failure))?;
        self.confirm(id, number)?;
        self.look_at_locks(number)?;
        self.note_kept(id, number)?;
        Ok(bytes)
    }

    /// The kernel gets more bytes of a file, which it reads or writes.
    fn note_kept(&mut self, id: u64, number: u32) -> Result<(), Errno> {
        let since = self.since(number)?;
        let kept = self.kept.entry(id).or_insert(Kept::Mixed);
        *kept = match *kept {
            // The kernel had none of them.
            Kept::Since(None) if since.is_some() => Kept::Since(since),
            Kept::Since(before) if before == since && since.is_some() => Kept::Since(before),
            _ => Kept::Mixed,
        };
        Ok(())
    }

    pub fn access(&mut self, id: u64, mask: u32) -> Result<(), Errno> {
        if self.removed.contains_key(&id) {
            return Ok(());
        }
        let number = self.nodes.number(id)?;
        for access in [Access::Read, Access::Write, Access::Search] {
            if mask & access as u32 != 0 {
                self.session.access(number, access).map_err(|failure| self.told(&failure))?;
            }
        }
        self.session.header(number).map_err(|failure| self.told(&failure))?;
        self.confirm(id, number)
    }

    // ---- Files that are open

    /// Opens a file, as it is now.
    pub fn open(&mut self, id: u64, flags: u32) -> Result<Opened, Errno> {
        let number = self.meant(id)?;
        // Whether it may be read the kernel has asked. Who writes is told now, and not when the log is handed in.
        let is_new = self.session.draft().has_created(number);
        if !is_new && writes(flags) {
            self.access(id, Access::Write as u32)?;
        }
        if flags & TRUNCATE != 0 {
            self.truncate(number, 0)?;
        }
        let header = self.session.header_of_now(number).map_err(|failure| self.told(&failure))?;
        self.confirm(id, number)?;
        let is_resized = self.nodes.has_other_size(number, header.size);
        let (since, is_direct) = (self.since(number)?, appends(flags) || !self.may_map(id));
        let keeps = since.is_some() && self.kept.get(&id) == Some(&Kept::Since(since));
        let reads = flags & ACCESS != WRITE_ONLY && header.size < FEW_BYTES && !keeps && !header.is_directory();
        let bytes = match header.size {
            0 if reads => Some(Vec::new()),
            _ if reads => Some(self.bytes_of_now(id, number)?),
            _ => None,
        };
        self.handles.open(id);
        self.handles.see(id, Shape { header, form: Form::Plain }, bytes);
        if !keeps {
            self.kept.insert(id, Kept::Since(since));
        }
        Ok(Opened { keeps: keeps && !is_direct, is_direct, is_resized })
    }

    /// All bytes of a short file, which is opened. Where it is gone by now its name leads elsewhere, and is looked up anew.
    fn bytes_of_now(&mut self, id: u64, number: u32) -> Result<Vec<u8>, Errno> {
        let bytes = self.session.read_to_open(number, FEW_BYTES as usize).map_err(|failure| self.told(&failure))?;
        self.confirm(id, number)?;
        Ok(bytes)
    }

    pub fn close_file(&mut self, id: u64) -> Result<(), Errno> {
        let Closed { late_mode, hidden } = self.handles.close(id);
        if !self.handles.is_open(id) {
            self.unmap(id);
        }
        if let Some((directory, name)) = hidden {
            return self.remove_hidden(directory, &name);
        }
        match (late_mode, self.meant(id)) {
            (Some(mode), Ok(number)) => self.session.change_mode(number, mode).map_err(|failure| self.told(&failure)),
            _ => Ok(()),
        }
    }

    /// Writes bytes at an offset, or behind the last byte of the file.
    pub fn write(&mut self, id: u64, offset: u64, bytes: &[u8], flags: u32) -> Result<Written, Errno> {
        let number = self.meant(id)?;
        self.look_at_locks(number)?;
        self.take_late_mode_back(id, number)?;
        self.session.make_room(bytes.len()).map_err(|failure| self.told(&failure))?;
        let written = match flags & APPEND {
            0 => self.session.write(number, offset, bytes).map(|count| (offset, count)),
            _ => self.session.append(number, bytes),
        };
        let (at, count) = written.map_err(|failure| self.told(&failure))?;
        self.look_at_locks(number)?;
        self.note_kept(id, number)?;
        self.clocks.write(number);
        let is_elsewhere = at != offset;
        if is_elsewhere {
            // What the kernel keeps of the file it may have put at another place.
            self.nodes.forget_size(number);
            self.kept.insert(id, Kept::Mixed);
        } else {
            self.nodes.grow(number, at.saturating_add(count as u64));
        }
        Ok(Written { count, is_elsewhere })
    }

    pub(crate) fn truncate(&mut self, number: u32, size: u64) -> Result<(), Errno> {
        self.look_at_locks(number)?;
        self.session.truncate(number, size).map_err(|failure| self.told(&failure))?;
        self.nodes.forget_size(number);
        self.clocks.write(number);
        Ok(())
    }
}

pub(crate) fn named(bytes: &[u8]) -> Result<Name, Errno> {
    Name::new(bytes).map_err(|fault| Failure::from(fault).errno())
}

#[cfg(test)]
mod tests {
    use super::*;
    use crate::changes::Attributes;
    use kfs_client::desk::{Answer, LeaseRefusal, Unanswered, Wanted, Wish};
    use kfs_client::log::ENTRY_LIMIT;
    use kfs_client::memory::Memory;
    use kfs_client::{Client, Kind, Options, Shown, Unshown};

    fn client() -> Client {
        Client { number: 7, uid: 1000, gid: 1000, groups: vec![], is_privileged: false, grant: [2, 99] }
    }

    /// Whether the kernel keeps bytes when it opens a file.
    fn keeps<D: Desk>(volume: &mut Volume<D>, file: u64, flags: u32) -> Result<bool, Errno> {
        volume.open(file, flags).map(|opened| opened.keeps)
    }

    fn volume() -> Volume<Memory> {
        Volume::new(Session::new(Memory::new(client()), client(), Options::default()))
    }

    /// A server that refuses the first entry of each log that has so many.
    struct Refusing(Memory, usize);

    impl Shown for Refusing {
        fn header(&mut self, number: u32) -> Result<Option<Header>, Unshown> {
            self.0.header(number)
        }

        fn find(&mut self, directory: u32, name: &Name) -> Result<Option<u32>, Unshown> {
            self.0.find(directory, name)
        }

        fn list(&mut self, directory: u32, behind: Option<&Name>, most: usize) -> Result<Vec<(Name, u32)>, Unshown> {
            self.0.list(directory, behind, most)
        }

        fn read(&mut self, number: u32, start: u64, most: usize) -> Result<Vec<u8>, Unshown> {
            self.0.read(number, start, most)
        }
    }

    impl Desk for Refusing {
        fn lease(&mut self, wanted: &Wanted) -> Result<Result<(), LeaseRefusal>, Unanswered> {
            self.0.lease(wanted)
        }

        fn drop_lease(&mut self, number: u32) -> Result<Result<(), LeaseRefusal>, Unanswered> {
            self.0.drop_lease(number)
        }

        fn submit(&mut self, log: &[u8], plan: &[u8]) -> Result<Answer, Unanswered> {
            let count = kfs_client::Log::read(log).map_or(0, |(_, log)| log.len());
            match count == self.1 {
                true => Ok(Answer::Entry(0, Reason::NoWrite)),
                false => self.0.submit(log, plan),
            }
        }

        fn moment(&mut self) -> Result<u64, Unanswered> {
            self.0.moment()
        }

        fn wanted_by_others(&mut self) -> Result<Vec<Wish>, Unanswered> {
            self.0.wanted_by_others()
        }
    }

    #[test]
    fn a_call_that_is_lost_is_told_to_who_asks_that_all_is_kept() {
        let desk = Refusing(Memory::new(client()), ENTRY_LIMIT);
        let mut volume = Volume::new(Session::new(desk, client(), Options::default()));
        let (file, _) = volume.create(1, b"a", 0o644).unwrap();
        volume.sync().unwrap();
        for at in 0..ENTRY_LIMIT as u64 {
            volume.write(file, 3 * at, b"x", 0).unwrap();
        }
        // The log is full. What is lost by it was another's call, maybe.
        let chmod = Attributes { mode: Some(0o600), ..Attributes::default() };
        assert_eq!(volume.set_attributes(file, &chmod), Err(Errno::EIO));
        assert_eq!(volume.sync(), Err(Errno::EIO));
        assert_eq!(volume.sync(), Ok(()));
        assert_eq!(volume.read(file, 0, 5).unwrap(), b"\0\0\0x\0");
    }

    #[test]
    fn a_file_that_is_open_outlives_its_name() {
        let mut volume = volume();
        let (file, _) = volume.create(1, b"a", 0o644).unwrap();
        volume.write(file, 0, b"abc", 0).unwrap();
        volume.unlink(1, b"a", Kind::File).unwrap();
        assert_eq!(volume.lookup(1, b"a"), Err(Errno::ENOENT));
        volume.sync().unwrap();
        assert_eq!(volume.read(file, 0, 9).unwrap(), b"abc");
        assert_eq!(volume.shape(file).unwrap().header.links, 0);
        volume.close_file(file).unwrap();
        assert_eq!(volume.shape(file), Err(Errno::ESTALE));
    }

    #[test]
    fn a_file_that_is_replaced_while_it_is_open_does_too() {
        let mut volume = volume();
        let (old, _) = volume.create(1, b"a", 0o644).unwrap();
        let (new, _) = volume.create(1, b"b", 0o644).unwrap();
        assert_eq!(volume.rename(1, b"b", 1, b"a", false), Err(Errno::EEXIST));
        volume.rename(1, b"b", 1, b"a", true).unwrap();
        assert_eq!(volume.lookup(1, b"a").unwrap().0, new);
        volume.write(old, 0, b"old", 0).unwrap();
        volume.close_file(old).unwrap();
        volume.sync().unwrap();
        assert_eq!(volume.shape(old), Err(Errno::ESTALE));
    }

    #[test]
    fn bytes_are_kept_while_a_lease_is() {
        let mut volume = volume();
        let (file, _) = volume.create(1, b"a", 0o644).unwrap();
        volume.close_file(file).unwrap();
        volume.sync().unwrap();
        assert_eq!(keeps(&mut volume, file, 0), Ok(false));
        (0..3).for_each(|_| assert!(volume.read(file, 0, 9).unwrap().is_empty()));
        // The lease came meanwhile, so bytes from before it may be there.
        assert_eq!(keeps(&mut volume, file, 0), Ok(false));
        assert_eq!(keeps(&mut volume, file, 0), Ok(true));
        volume.session.give_up(file as u32).unwrap();
        assert_eq!(keeps(&mut volume, file, 0), Ok(false));
        assert!(volume.read(file, 0, 9).unwrap().is_empty());
        assert_eq!(keeps(&mut volume, file, 0), Ok(false));
        // A long read takes one at once.
        let (file, _) = volume.make(1, b"b", Kind::File, 0o644).unwrap();
        volume.sync().unwrap();
        assert_eq!(keeps(&mut volume, file, 0), Ok(false));
        assert!(volume.read(file, 0, 65_536).unwrap().is_empty());
        assert_eq!(keeps(&mut volume, file, 0), Ok(true));
    }

    #[test]
    fn bytes_that_were_written_under_an_earlier_lease_are_forgotten() {
        let mut volume = volume();
        let (file, _) = volume.create(1, b"a", 0o644).unwrap();
        volume.close_file(file).unwrap();
        volume.sync().unwrap();
        assert_eq!(keeps(&mut volume, file, WRITE_ONLY), Ok(false));
        volume.write(file, 0, b"abc", 0).unwrap();
        // The kernel has what it wrote, and a lease has kept others from changing it.
        assert_eq!(keeps(&mut volume, file, 0), Ok(true));
        volume.session.give_up(file as u32).unwrap();
        assert_eq!(keeps(&mut volume, file, WRITE_ONLY), Ok(false));
        volume.write(file, 0, b"def", 0).unwrap();
        volume.session.give_up(file as u32).unwrap();
        // Another client may change them now. What is read is told under a new lease, and isn't all that the kernel has.
        assert_eq!(volume.read(file, 0, 65_536).unwrap(), b"def");
        assert_eq!(keeps(&mut volume, file, 0), Ok(false));
    }

    #[test]
    fn what_is_open_for_writing_stays_so() {
        let mut volume = volume();
        let (file, shape) = volume.create(1, b"a", 0o444).unwrap();
        assert_eq!(shape.header.mode, 0o444);
        volume.sync().unwrap();
        volume.write(file, 0, b"abc", 0).unwrap();
        volume.close_file(file).unwrap();
        volume.sync().unwrap();
        assert_eq!(volume.shape(file).unwrap().header.mode, 0o444);
        assert_eq!(keeps(&mut volume, file, WRITE_ONLY), Err(Errno::EACCES));
    }

    #[test]
    fn a_link_is_a_file_of_the_desk() {
        let mut volume = volume();
        let (link, shape) = volume.make_link(1, b"l", b"../a").unwrap();
        assert_eq!((shape.form, shape.header.size, shape.header.mode), (Form::Link, 4, 0o777));
        volume.sync().unwrap();
        assert_eq!(volume.read_link(link).unwrap(), b"../a");
        assert_eq!(volume.session.header(link as u32).unwrap().size, LENGTH);
        let (file, _) = volume.create(1, b"a", 0o644).unwrap();
        volume.write(file, 0, &[b' '; LENGTH as usize], 0).unwrap();
        assert_eq!(volume.read_link(file), Err(Errno::EINVAL));
        assert_eq!(volume.make_link(1, b"m", &[b'x'; 1025]).unwrap_err(), Errno::ENAMETOOLONG);
    }

    #[test]
    fn what_is_not_there_is_refused() {
        let mut volume = volume();
        let (file, _) = volume.create(1, b"a", 0o644).unwrap();
        let owner = Attributes { uid: Some(1), ..Attributes::default() };
        assert_eq!(volume.set_attributes(file, &owner), Err(Errno::EPERM));
        let as_owner = Attributes { mode: Some(0o4755), ..Attributes::default() };
        assert_eq!(volume.set_attributes(file, &as_owner), Err(Errno::EPERM));
        let mode = Attributes { mode: Some(0o2700), ..Attributes::default() };
        assert_eq!(volume.set_attributes(file, &mode).unwrap().header.mode, 0o700);
    }
}

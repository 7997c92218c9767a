//! Requests of the kernel, one after another.

use crate::attributes::{attribute_reply, entry, now, type_bits, Form, Shape};
use crate::changes::Attributes;
use crate::nodes::number_of;
use crate::protocol::{forget_header, forget_names, forgets_names, init_reply, Operation, Reply, Request, REQUEST};
use crate::special;
use crate::telling::{put_reply, Teller};
use crate::volume::{appends, Volume};
use kfs_client::desk::Blocks;
use kfs_client::looks::Looks;
use kfs_client::node::GREATEST_NUMBER;
use kfs_client::{Desk, Kind};
use nix::errno::Errno;
use nix::poll::{poll, PollFd, PollFlags};
use std::fs::File;
use std::io::{self, Read, Write};
use std::os::unix::io::{AsRawFd, RawFd};
use std::os::unix::net::UnixStream;
use std::time::{Duration, Instant};

/// How often it is heard what others want, where requests come without a pause.
const HEARING: Duration = Duration::from_millis(2);
/// After how long what is due is done.
const PAUSE: Duration = Duration::from_millis(100);
/// How long what is being told is waited for at the end.
const LAST_TOLD: Duration = Duration::from_secs(5);
/// For how long the next request is looked for behind an answer, before this sleeps until it comes.
const LONGEST_LOOK: Duration = Duration::from_micros(50);
/// How many bytes a name takes in a list at least, with what it leads to.
const LISTED: usize = 160;
/// The flags of an open by which the kernel asks for each read and write (`FOPEN_DIRECT_IO`), and keeps the bytes that it has
/// (`FOPEN_KEEP_CACHE`).
const ASKS_ALWAYS: u32 = 1;
const KEEPS_BYTES: u32 = 1 << 1;
/// The flag of a Rename that replaces nothing.
const REPLACES_NOTHING: u32 = 1;

/// Answers the kernel until the tree is unmounted, or there is something to read at `ends`.
pub fn serve<D: Desk>(device: &mut File, ends: &UnixStream, volume: &mut Volume<D>) -> io::Result<()> {
    let mut bytes = vec![0; REQUEST];
    let (mut polled, mut heard, mut looks) = (Instant::now(), Instant::now(), Looks::new(LONGEST_LOOK));
    let (mut teller, mut ended) = (Teller::new(device)?, None);
    loop {
        // Also where requests come without a pause.
        if polled.elapsed() >= PAUSE {
            volume.poll();
            polled = Instant::now();
            if has_ended(device, ends, None, Duration::ZERO)? {
                ended.get_or_insert_with(Instant::now);
            }
        }
        if heard.elapsed() >= HEARING {
            volume.hear();
            volume.poll_locks().into_iter().try_for_each(|told| teller.tell(told))?;
            heard = Instant::now();
        }
        // What the thread tells may wait for an answer.
        if ended.map_or(false, |since: Instant| !teller.is_busy() || since.elapsed() >= LAST_TOLD) {
            return Ok(());
        }
        match device.read(&mut bytes) {
            Ok(count) => {
                looks.found();
                answer(device, &mut teller, volume, &bytes[..count])?;
                looks.begin();
            }
            Err(fault) => match fault.raw_os_error().map(Errno::from_i32) {
                Some(Errno::ENODEV) => return Ok(()),
                Some(Errno::EAGAIN) if looks.goes_on() => {}
                Some(Errno::EAGAIN) => {
                    if has_ended(device, ends, volume.news(), PAUSE)? {
                        ended.get_or_insert_with(Instant::now);
                    }
                }
                // The caller has given up meanwhile.
                Some(Errno::ENOENT | Errno::EINTR) => {}
                _ => return Err(fault),
            },
        }
    }
}

/// Waits for a request, the end, or news. Returns whether the end has come.
fn has_ended(device: &File, ends: &UnixStream, news: Option<RawFd>, most: Duration) -> io::Result<bool> {
    let (device, ends) = (device.as_raw_fd(), ends.as_raw_fd());
    let mut waits: Vec<PollFd> = [device, ends].into_iter().chain(news).map(|it| PollFd::new(it, PollFlags::POLLIN)).collect();
    match poll(&mut waits, most.as_millis() as i32) {
        Ok(0) | Err(Errno::EINTR) => Ok(false),
        Ok(_) => Ok(waits[1].revents().map_or(false, |events| !events.is_empty())),
        Err(errno) => Err(errno.into()),
    }
}

/// Answers a request, where it has an answer.
fn answer<D: Desk>(device: &mut File, teller: &mut Teller, volume: &mut Volume<D>, bytes: &[u8]) -> io::Result<()> {
    let mut request = match Request::of(bytes) {
        Ok(request) => request,
        Err(_) => return Ok(()),
    };
    if is_without_answer(volume, &mut request) {
        return Ok(());
    }
    if Request::of(bytes).map_or(false, forgets_names) {
        let mut device = device.try_clone()?;
        // Where the tree isn't mounted any more, the kernel keeps no names.
        volume.tell_losses(move || drop(device.write(&forget_names().0)));
    }
    let (unique, node) = (request.unique, request.node);
    volume.begin_request();
    let told = match request.operation {
        Operation::Interrupt => volume.interrupt(&mut request),
        Operation::GetLock | Operation::SetLock | Operation::SetLockWaiting => volume.lock(&mut request),
        _ => {
            let mut is_changed = false;
            let answer = answer_of(volume, &mut request, &mut is_changed);
            if is_changed {
                // Before the answer, so that who goes on behind it is told of the node as it is. The kernel may not have it any more.
                let _not_known = device.write(&forget_header(node).0);
            }
            return put_reply(device, unique, &answer);
        }
    };
    told.map_or(Ok(()), |told| teller.tell(told))
}

/// Takes over what the kernel tells, and wants no answer to. Whether it was that.
fn is_without_answer<D: Desk>(volume: &mut Volume<D>, request: &mut Request<'_>) -> bool {
    match request.operation {
        Operation::Forget => volume.forget(request.node),
        Operation::ForgetSome => {
            let count = request.word().and_then(|count| request.skip(4).map(|()| count)).unwrap_or(0);
            for _ in 0..count {
                match (request.long(), request.long()) {
                    (Ok(id), Ok(_times)) => volume.forget(id),
                    _ => break,
                }
            }
        }
        Operation::Destroy => {}
        _ => return false,
    }
    true
}

/// The answer to a request, and whether the kernel has something else of the node's header than what is so.
fn answer_of<D: Desk>(volume: &mut Volume<D>, request: &mut Request<'_>, is_changed: &mut bool) -> Result<Reply, Errno> {
    let node = request.node;
    match request.operation {
        Operation::Init => init_reply(request, volume.begin_locking()),
        Operation::Lookup => {
            let found = volume.lookup(node, request.text()?)?;
            Ok(entry_reply(volume, node, found))
        }
        Operation::GetAttributes => {
            let shape = volume.shape(node)?;
            Ok(attribute_reply(node, &shape, &volume.clocks))
        }
        Operation::SetAttributes => {
            let wanted = wanted_attributes(request)?;
            let shape = volume.set_attributes(node, &wanted)?;
            Ok(attribute_reply(node, &shape, &volume.clocks))
        }
        Operation::StatFileSystem => volume.blocks().map(file_system_reply),
        Operation::Sync => volume.sync().map(|()| Reply::default()),
        Operation::Flush => {
            let handle = request.clone().long()?;
            volume.flush_locks(request)?;
            volume.flush(node, handle).map(|()| Reply::default())
        }
        Operation::Access => {
            let mask = request.word()?;
            volume.access(node, mask).map(|()| Reply::default())
        }
        Operation::OpenDirectory | Operation::ReleaseDirectory => open_directory(volume, request),
        Operation::ReadDirectory => read_directory(volume, request, false),
        Operation::ReadDirectoryPlus => read_directory(volume, request, true),
        Operation::Open | Operation::Create | Operation::Read | Operation::Write | Operation::Release => {
            answer_of_file(volume, request, is_changed)
        }
        Operation::ReadLink => volume.read_link(node).map(Reply),
        Operation::Other(_) => Err(Errno::ENOSYS),
        _ => answer_of_names(volume, request),
    }
}

/// The answer to a request that changes names.
fn answer_of_names<D: Desk>(volume: &mut Volume<D>, request: &mut Request<'_>) -> Result<Reply, Errno> {
    let node = request.node;
    match request.operation {
        Operation::MakeNode => {
            let mode = request.word()?;
            request.skip(12)?;
            let (form, mode) = (Form::of_mode(mode).ok_or(Errno::EPERM)?, (mode & 0o1777) as u16);
            let found = match form {
                Form::Plain => volume.make(node, request.text()?, Kind::File, mode)?,
                _ => special::make(volume, node, request.text()?, form, mode)?,
            };
            Ok(entry_reply(volume, node, found))
        }
        Operation::MakeDirectory => {
            let (mode, _umask) = (request.word()?, request.word()?);
            let found = volume.make_directory(node, request.text()?, mode)?;
            Ok(entry_reply(volume, node, found))
        }
        Operation::SymbolicLink => {
            let (name, target) = (request.text()?, request.text()?);
            let found = volume.make_link(node, name, target)?;
            Ok(entry_reply(volume, node, found))
        }
        Operation::Unlink => volume.unlink(node, request.text()?, Kind::File).map(|()| Reply::default()),
        Operation::RemoveDirectory => volume.unlink(node, request.text()?, Kind::Directory).map(|()| Reply::default()),
        Operation::Rename | Operation::RenameWithFlags => {
            let to = request.long()?;
            let has_flags = request.operation == Operation::RenameWithFlags;
            let flags = if has_flags { request.long()? as u32 } else { 0 };
            if flags & !REPLACES_NOTHING != 0 {
                return Err(Errno::EINVAL);
            }
            let (name, new_name) = (request.text()?, request.text()?);
            volume.rename(node, name, to, new_name, flags == 0).map(|()| Reply::default())
        }
        Operation::Link => {
            let id = request.long()?;
            let shape = volume.link(id, node, request.text()?)?;
            Ok(entry_reply(volume, node, (id, shape)))
        }
        _ => Err(Errno::ENOSYS),
    }
}

/// The answer to a request of a file that is open, or is to be.
fn answer_of_file<D: Desk>(volume: &mut Volume<D>, request: &mut Request<'_>, is_changed: &mut bool) -> Result<Reply, Errno> {
    let node = request.node;
    match request.operation {
        Operation::Open => {
            let opened = volume.open(node, request.word()?)?;
            *is_changed = opened.is_resized;
            let keeps = if opened.keeps { KEEPS_BYTES } else { 0 };
            Ok(open_reply(volume.locking.next_handle(), if opened.is_direct { ASKS_ALWAYS } else { keeps }))
        }
        Operation::Create => {
            let (flags, mode) = (request.word()?, request.word()?);
            request.skip(8)?;
            let found = volume.create(node, request.text()?, mode)?;
            let mut reply = entry_reply(volume, node, found);
            let (handle, is_direct) = (volume.locking.next_handle(), appends(flags) || !volume.may_map(found.0));
            reply.bytes(&open_reply(handle, if is_direct { ASKS_ALWAYS } else { 0 }).0);
            Ok(reply)
        }
        Operation::Read => {
            let (_handle, start, most) = (request.long()?, request.long()?, request.word()?);
            volume.read(node, start, most as usize).map(Reply)
        }
        Operation::Write => {
            let (handle, start, count) = (request.long()?, request.long()?, request.word()?);
            let (_write_flags, _owner, flags, _padding) = (request.word()?, request.long()?, request.word()?, request.word()?);
            let written = volume.write(node, start, request.bytes(count as usize)?, flags)?;
            *is_changed = written.is_elsewhere;
            volume.handles.note_written(handle);
            let mut reply = Reply::default();
            reply.word(written.count as u32).word(0);
            Ok(reply)
        }
        _ => {
            volume.release_locks(request)?;
            volume.close_file(node).map(|()| Reply::default())
        }
    }
}

/// What the kernel is told of a node by a name of a directory.
fn entry_reply<D: Desk>(volume: &mut Volume<D>, directory: u64, (id, shape): (u64, Shape)) -> Reply {
    let mut reply = Reply::default();
    let keeps_name = volume.keeps_names(directory);
    entry(id, &shape, keeps_name, &volume.clocks, &mut reply);
    reply
}

/// `fuse_open_out`: a handle and flags. Without a flag the kernel forgets the bytes that it has of a file when it is opened.
fn open_reply(handle: u64, flags: u32) -> Reply {
    let mut reply = Reply::default();
    reply.long(handle).word(flags).word(0);
    reply
}

/// `fuse_kstatfs`: blocks, and nodes, of which a desk has so many at most. How many of these are free nobody tells.
fn file_system_reply(blocks: Blocks) -> Reply {
    let mut reply = Reply::default();
    let (all, free) = (blocks.all.saturating_add(blocks.slower_all), blocks.free.saturating_add(blocks.slower_free));
    reply.long(all.into()).long(free.into()).long(free.into());
    reply.long(GREATEST_NUMBER.into()).long(GREATEST_NUMBER.into());
    reply.word(4096).word(255).word(4096).word(0).zeros(24);
    reply
}

/// `fuse_setattr_in`.
fn wanted_attributes(request: &mut Request<'_>) -> Result<Attributes, Errno> {
    let valid = request.word()?;
    request.skip(12)?;
    let size = request.long()?;
    request.skip(8)?;
    let (read, written, _changed) = (request.long()?, request.long()?, request.long()?);
    let (read_rest, written_rest, _changed_rest) = (request.word()?, request.word()?, request.word()?);
    let mode = request.word()?;
    request.skip(4)?;
    let (uid, gid) = (request.word()?, request.word()?);
    let time = |seconds, rest, given: u32, is_now: u32| match valid & (given | is_now) {
        0 => None,
        bits if bits & is_now != 0 => Some(now()),
        _ => Some(Duration::new(seconds, rest)),
    };
    Ok(Attributes {
        mode: Some(mode).filter(|_| valid & 1 != 0),
        uid: Some(uid).filter(|_| valid & 2 != 0),
        gid: Some(gid).filter(|_| valid & 4 != 0),
        size: Some(size).filter(|_| valid & 8 != 0),
        read: time(read, read_rest, 16, 128),
        written: time(written, written_rest, 32, 256),
    })
}

fn open_directory<D: Desk>(volume: &mut Volume<D>, request: &mut Request<'_>) -> Result<Reply, Errno> {
    if request.operation == Operation::OpenDirectory {
        return volume.open_list(request.node).map(|handle| open_reply(handle, 0));
    }
    volume.handles.close_list(request.long()?);
    Ok(Reply::default())
}

/// The name at an offset of a list, which begins with the directory itself and the one above.
fn listed<D: Desk>(volume: &Volume<D>, handle: u64, directory: u64, offset: u64) -> Option<(Vec<u8>, u32)> {
    match offset {
        0 => Some((b".".to_vec(), number_of(directory))),
        1 => Some((b"..".to_vec(), volume.parent(number_of(directory)))),
        _ => {
            let (name, number) = volume.handles.list(handle).get(usize::try_from(offset - 2).ok()?)?;
            Some((name.as_bytes().to_vec(), *number))
        }
    }
}

/// Names of a directory from an offset on, as many as fit; with what they lead to, where that is asked for.
fn read_directory<D: Desk>(volume: &mut Volume<D>, request: &mut Request<'_>, is_plus: bool) -> Result<Reply, Errno> {
    let (handle, offset, most) = (request.long()?, request.long()?, request.word()? as usize);
    let mut reply = Reply::default();
    let next = volume.handles.list(handle).iter().skip((offset as usize).saturating_sub(2)).take(most / LISTED);
    let next: Vec<u32> = next.map(|(_, number)| *number).collect();
    volume.expect(next.into_iter());
    let keeps_names = volume.keeps_list(request.node, handle);
    let mut at = offset;
    while let Some((text, number)) = listed(volume, handle, request.node, at) {
        at += 1;
        let length = (24 + text.len() + 7) / 8 * 8 + if is_plus { 128 } else { 0 };
        if reply.0.len() + length > most {
            break;
        }
        let is_own = matches!(text.as_slice(), b"." | b"..");
        let shown =
            if text == b"." { volume.shape(request.node).map(|shape| (request.node, shape)) } else { volume.shape_of(number) };
        let (id, shape) = match shown {
            Ok(shown) => shown,
            // A name that went since the list was made leads nowhere.
            Err(Errno::ESTALE) => continue,
            // Of a name that nobody could be asked about it isn't said that it isn't there. It is asked for again, and told then.
            Err(_) if !reply.0.is_empty() => break,
            Err(errno) => return Err(errno),
        };
        if is_plus && is_own {
            reply.zeros(128);
        } else if is_plus {
            volume.note_memory(id, &text);
            entry(id, &shape, keeps_names, &volume.clocks, &mut reply);
        }
        reply.long(number.into()).long(at).word(text.len() as u32).word(type_bits(&shape) >> 12).bytes(&text);
        reply.zeros((8 - text.len() % 8) % 8);
    }
    Ok(reply)
}

#[cfg(test)]
mod tests {
    use super::*;
    use kfs_client::desk::{Answer, LeaseRefusal, Unanswered, Wanted, Wish};
    use kfs_client::memory::Memory;
    use kfs_client::{Client, Header, Name, Options, Session, Shown, Unshown};

    /// A server that doesn't tell of one node, and has lost another.
    struct Silent {
        memory: Memory,
        silent_of: u32,
        lost: u32,
    }

    impl Shown for Silent {
        fn header(&mut self, number: u32) -> Result<Option<Header>, Unshown> {
            match number {
                _ if number == self.silent_of => Err(Unshown::Gone(io::ErrorKind::TimedOut.into())),
                _ if number == self.lost => Ok(None),
                _ => self.memory.header(number),
            }
        }

        fn find(&mut self, directory: u32, name: &Name) -> Result<Option<u32>, Unshown> {
            self.memory.find(directory, name)
        }

        fn list(&mut self, directory: u32, behind: Option<&Name>, most: usize) -> Result<Vec<(Name, u32)>, Unshown> {
            self.memory.list(directory, behind, most)
        }

        fn read(&mut self, number: u32, start: u64, most: usize) -> Result<Vec<u8>, Unshown> {
            self.memory.read(number, start, most)
        }
    }

    impl Desk for Silent {
        fn lease(&mut self, wanted: &Wanted) -> Result<Result<(), LeaseRefusal>, Unanswered> {
            self.memory.lease(wanted)
        }

        fn drop_lease(&mut self, number: u32) -> Result<Result<(), LeaseRefusal>, Unanswered> {
            self.memory.drop_lease(number)
        }

        fn submit(&mut self, log: &[u8], plan: &[u8]) -> Result<Answer, Unanswered> {
            self.memory.submit(log, plan)
        }

        fn moment(&mut self) -> Result<u64, Unanswered> {
            self.memory.moment()
        }

        fn wanted_by_others(&mut self) -> Result<Vec<Wish>, Unanswered> {
            self.memory.wanted_by_others()
        }
    }

    /// The offsets of the names that are told behind an offset, or the error.
    fn offsets(volume: &mut Volume<Silent>, handle: u64, offset: u64) -> Result<Vec<u64>, Errno> {
        let mut bytes = Reply::default();
        bytes.word(80).word(28).long(9).long(1).zeros(16).long(handle).long(offset).word(4096);
        let reply = read_directory(volume, &mut Request::of(&bytes.0).unwrap(), false)?.0;
        let (mut at, mut found) = (0, Vec::new());
        while at < reply.len() {
            found.push(u64::from_ne_bytes(reply[at + 8..at + 16].try_into().unwrap()));
            let length = u32::from_ne_bytes(reply[at + 16..at + 20].try_into().unwrap()) as usize;
            at += (24 + length + 7) / 8 * 8;
        }
        Ok(found)
    }

    #[test]
    fn a_name_of_which_nobody_tells_is_not_left_out() {
        let client = Client { number: 7, uid: 1000, gid: 1000, groups: vec![], is_privileged: false, grant: [2, 99] };
        let desk = Silent { memory: Memory::new(client.clone()), silent_of: 0, lost: 0 };
        let mut volume = Volume::new(Session::new(desk, client, Options::default()));
        let files = [&b"a"[..], b"b", b"c"].map(|name| volume.make(1, name, Kind::File, 0o644).unwrap().0);
        volume.close().unwrap();
        let handle = volume.open_list(1).unwrap();
        assert_eq!(offsets(&mut volume, handle, 0), Ok(vec![1, 2, 3, 4, 5]));
        volume.desk().lost = number_of(files[0]);
        volume.begin_request();
        assert_eq!(offsets(&mut volume, handle, 0), Ok(vec![1, 2, 4, 5]));
        volume.desk().silent_of = number_of(files[1]);
        volume.begin_request();
        assert_eq!(offsets(&mut volume, handle, 0), Ok(vec![1, 2]));
        assert_eq!(offsets(&mut volume, handle, 2), Err(Errno::EIO));
        volume.desk().silent_of = 0;
        assert_eq!(offsets(&mut volume, handle, 2), Ok(vec![4, 5]));
    }
}

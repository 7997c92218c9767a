//! The digest desk, for Rust hosts: safe types over the C functions of `include/kfs.h`.
//!
//! A `Desk` is owned by one thread at a time; put it behind a mutex. A `View` and a `Verdict` may go to
//! other threads, so that they judge beside each other.

mod raw;

pub use raw::{Fault, Lease, Move, Node};
use raw::Handle;
use std::fmt;

/// Why a call has no answer.
#[derive(Clone, Copy, Debug, PartialEq, Eq)]
pub enum Error {
    /// Memory was refused. The desk is as it was.
    NoMemory,
    /// The docket is full. The desk is as it was.
    Full,
    /// There is no such node, name, block or plan.
    Nothing,
    /// The node is a directory, and the call is for files.
    Directory,
    /// Refused, for this fault where the call tells one.
    Refused(Fault),
}

impl fmt::Display for Error {
    fn fmt(&self, f: &mut fmt::Formatter<'_>) -> fmt::Result {
        match self {
            Error::NoMemory => f.write_str("memory"),
            Error::Full => f.write_str("full"),
            Error::Nothing => f.write_str("nothing there"),
            Error::Directory => f.write_str("a directory"),
            Error::Refused(fault) => write!(f, "refused: {} {} at {}", fault.code, fault.reason, fault.index),
        }
    }
}

impl std::error::Error for Error {}

const SHORT: u32 = 5;

/// The most bytes of an answer.
const ANSWER_LIMIT: usize = 20;

/// The status of a call as a result.
fn checked(status: u32, fault: Fault) -> Result<(), Error> {
    match status {
        0 => Ok(()),
        1 => Err(Error::NoMemory),
        2 => Err(Error::Full),
        3 => Err(Error::Nothing),
        4 => Err(Error::Refused(fault)),
        8 => Err(Error::Directory),
        // The types below keep these from coming: a handle closed, a wrong one, a short buffer.
        other => unreachable!("status {other}"),
    }
}

fn done(status: u32) -> Result<(), Error> {
    checked(status, Fault::default())
}

/// A client: its numbers, and those that it may give to new nodes.
#[derive(Clone, Debug)]
pub struct Client {
    pub number: u32,
    pub uid: u32,
    pub gid: u32,
    pub groups: Vec<u32>,
    pub privileged: bool,
    pub grant: std::ops::RangeInclusive<u32>,
}

/// The rows and the groups of clients.
fn rows(clients: &[Client]) -> (Vec<raw::ClientRow>, Vec<u32>) {
    let mut groups = Vec::new();
    let rows = clients.iter().map(|client| {
        let start = groups.len() as u32;
        groups.extend_from_slice(&client.groups);
        raw::ClientRow {
            number: client.number,
            uid: client.uid,
            gid: client.gid,
            first: *client.grant.start(),
            last: *client.grant.end(),
            groups_start: start,
            groups_count: client.groups.len() as u32,
            privileged: client.privileged,
        }
    });
    (rows.collect(), groups)
}

/// The answer to a submission. `position` is its row of the docket.
#[derive(Clone, Copy, Debug, PartialEq, Eq)]
pub enum Reply {
    /// Landed; `need` blocks were written.
    Yes { position: u32, rejudged: bool, need: u64 },
    /// Refused; the tree is as it was.
    No { position: u32, rejudged: bool, fault: Fault },
    /// Right, but tier 0 has too few free places.
    NoRoom { position: u32, rejudged: bool, need: u64, free: u32 },
}

impl From<raw::Reply> for Reply {
    fn from(reply: raw::Reply) -> Reply {
        let raw::Reply { kind, position, rejudged, need, free, fault } = reply;
        match kind {
            0 => Reply::Yes { position, rejudged, need },
            1 => Reply::No { position, rejudged, fault },
            _ => Reply::NoRoom { position, rejudged, need, free },
        }
    }
}

/// What a handle holds is freed with it.
struct Held(Handle);

// SAFETY: what a handle holds may go to another thread: crates/kfs_c proves `Send` of it.
unsafe impl Send for Held {}

impl Drop for Held {
    fn drop(&mut self) {
        // SAFETY: the handle is this one's own, and borrowed for the call.
        unsafe { raw::kfs_close(&mut self.0) }
    }
}

/// A commit server for one image.
pub struct Desk(Held);

/// A desk's state at some moment, to be judged against.
pub struct View(Held);

/// The verdict on a submission, to be landed.
pub struct Verdict(Held);

// SAFETY, of all calls below: a slice's pointer isn't null, and pointer and length are one slice's,
// which is borrowed for the call. So is each handle, mutably, and each place for a reply.

impl Desk {
    /// Opens a desk with a new image of three tiers, in blocks, and a docket of at most `limit` rows.
    pub fn open(sizes: [u32; 3], clients: &[Client], limit: u32) -> Result<Desk, Error> {
        let (rows, groups) = rows(clients);
        let (mut held, mut fault) = (Held(Handle::EMPTY), Fault::default());
        let status = unsafe {
            raw::kfs_open(
                &mut held.0, sizes[0], sizes[1], sizes[2], rows.as_ptr(), rows.len(), groups.as_ptr(), groups.len(),
                limit, &mut fault,
            )
        };
        checked(status, fault).map(|()| Desk(held))
    }

    /// Opens a desk with an image that `save` gave.
    pub fn load(image: &[u8], clients: &[Client], limit: u32) -> Result<Desk, Error> {
        let (rows, groups) = rows(clients);
        let (mut held, mut fault) = (Held(Handle::EMPTY), Fault::default());
        let status = unsafe {
            raw::kfs_load(
                &mut held.0, image.as_ptr(), image.len(), rows.as_ptr(), rows.len(), groups.as_ptr(), groups.len(),
                limit, &mut fault,
            )
        };
        checked(status, fault).map(|()| Desk(held))
    }

    /// A desk that goes on with an image that `save` gave, these clients, and the leases that they hold at this
    /// moment, ascending by node and then by client. The docket is empty.
    pub fn resume(
        image: &[u8], clients: &[Client], leases: &[Lease], moment: u64, limit: u32,
    ) -> Result<Desk, Error> {
        let (rows, groups) = rows(clients);
        let (mut held, mut fault) = (Held(Handle::EMPTY), Fault::default());
        let status = unsafe {
            raw::kfs_resume(
                &mut held.0, image.as_ptr(), image.len(), rows.as_ptr(), rows.len(), groups.as_ptr(), groups.len(),
                leases.as_ptr(), leases.len(), moment, limit, &mut fault,
            )
        };
        checked(status, fault).map(|()| Desk(held))
    }

    /// A desk that goes on where another one stood, from the bytes of its state. The docket is empty.
    pub fn restore(state: &[u8], limit: u32) -> Result<Desk, Error> {
        let (mut held, mut fault) = (Held(Handle::EMPTY), Fault::default());
        let status = unsafe { raw::kfs_restore(&mut held.0, state.as_ptr(), state.len(), limit, &mut fault) };
        checked(status, fault).map(|()| Desk(held))
    }

    /// Makes the call that the bytes spell, and gives its answer's bytes. `Refused`: the bytes are no call.
    pub fn call(&mut self, call: &[u8]) -> Result<Vec<u8>, Error> {
        let (mut answer, mut len, mut fault) = ([0; ANSWER_LIMIT], 0, Fault::default());
        let status = unsafe {
            raw::kfs_call(
                &mut self.0 .0, call.as_ptr(), call.len(), answer.as_mut_ptr(), answer.len(), &mut len, &mut fault,
            )
        };
        checked(status, fault).map(|()| answer[..len].to_vec())
    }

    /// Judges a client's log and plan against the state now, and lands them.
    pub fn submit(&mut self, client: u32, log: &[u8], plan: &[u8]) -> Result<Reply, Error> {
        let mut reply = raw::Reply::default();
        done(unsafe {
            raw::kfs_submit(&mut self.0 .0, client, log.as_ptr(), log.len(), plan.as_ptr(), plan.len(), &mut reply)
        })?;
        Ok(reply.into())
    }

    /// Makes the plan of a client's log against the state now, and submits both. Where there is none, the reply
    /// tells the fault of the log.
    pub fn submit_log(&mut self, client: u32, log: &[u8]) -> Result<Reply, Error> {
        let mut reply = raw::Reply::default();
        done(unsafe { raw::kfs_do(&mut self.0 .0, client, log.as_ptr(), log.len(), &mut reply) })?;
        Ok(reply.into())
    }

    /// A view of the state now.
    pub fn look(&mut self) -> Result<View, Error> {
        let mut view = Held(Handle::EMPTY);
        done(unsafe { raw::kfs_look(&mut self.0 .0, &mut view.0) })?;
        Ok(View(view))
    }

    /// Lands a verdict. It is judged again only where what it rests on has changed.
    pub fn land(&mut self, mut verdict: Verdict) -> Result<Reply, Error> {
        let mut reply = raw::Reply::default();
        done(unsafe { raw::kfs_land(&mut self.0 .0, &mut verdict.0 .0, &mut reply) })?;
        Ok(reply.into())
    }

    /// Leases the node at the path to the client, up to the moment `end`. The node's number, or why not.
    pub fn lease(&mut self, client: u32, path: &[u8], write: bool, end: u64) -> Result<Result<u64, Fault>, Error> {
        self.act(|handle, reply| unsafe {
            raw::kfs_lease(handle, client, path.as_ptr(), path.len(), write, end, reply)
        })
    }

    /// Leases the node with this number to the client, up to the moment `end`, without a path. The number, or why not.
    pub fn lease_at(
        &mut self, client: u32, number: u32, write: bool, end: u64,
    ) -> Result<Result<u64, Fault>, Error> {
        self.act(|handle, reply| unsafe { raw::kfs_lease_at(handle, client, number, write, end, reply) })
    }

    /// Ends the client's lease on the node.
    pub fn drop_lease(&mut self, client: u32, number: u32) -> Result<Result<u64, Fault>, Error> {
        self.act(|handle, reply| unsafe { raw::kfs_drop(handle, client, number, reply) })
    }

    /// Goes to the moment.
    pub fn tick(&mut self, moment: u64) -> Result<Result<u64, Fault>, Error> {
        self.act(|handle, reply| unsafe { raw::kfs_tick(handle, moment, reply) })
    }

    /// Moves blocks to other places, all of them or none. How many, or why not.
    pub fn migrate(&mut self, moves: &[Move]) -> Result<Result<u64, Fault>, Error> {
        self.act(|handle, reply| unsafe { raw::kfs_migrate(handle, moves.as_ptr(), moves.len(), reply) })
    }

    fn act(&mut self, call: impl FnOnce(*mut Handle, *mut raw::Act) -> u32) -> Result<Result<u64, Fault>, Error> {
        let mut reply = raw::Act::default();
        done(call(&mut self.0 .0, &mut reply))?;
        Ok(if reply.done { Ok(reply.number) } else { Err(reply.fault) })
    }

    /// The header of a node.
    pub fn node(&mut self, number: u32) -> Result<Node, Error> {
        let mut node = Node::default();
        done(unsafe { raw::kfs_node(&mut self.0 .0, number, &mut node) })?;
        Ok(node)
    }

    /// The number to which a name of the directory leads.
    pub fn find(&mut self, directory: u32, name: &[u8]) -> Result<u32, Error> {
        let mut number = 0;
        done(unsafe { raw::kfs_find(&mut self.0 .0, directory, name.as_ptr(), name.len(), &mut number) })?;
        Ok(number)
    }

    /// The names of a directory, in order, with the numbers that they lead to.
    pub fn names(&mut self, directory: u32) -> Result<Vec<(Vec<u8>, u32)>, Error> {
        let mut names: Vec<(Vec<u8>, u32)> = Vec::new();
        loop {
            let after = names.last().map_or(&[][..], |last| &last.0[..]);
            let (mut name, mut len, mut number) = ([0; 255], 0, 0);
            let status = unsafe {
                raw::kfs_name(
                    &mut self.0 .0, directory, after.as_ptr(), after.len(), name.as_mut_ptr(), name.len(), &mut len,
                    &mut number,
                )
            };
            match done(status) {
                Ok(()) => names.push((name[..len].to_vec(), number)),
                Err(Error::Nothing) => return Ok(names),
                Err(error) => return Err(error),
            }
        }
    }

    /// Reads bytes of a file into the buffer, from `start` on. How many.
    pub fn read(&mut self, number: u32, start: u64, buffer: &mut [u8]) -> Result<usize, Error> {
        let mut count = 0;
        done(unsafe {
            raw::kfs_read(&mut self.0 .0, number, start, buffer.as_mut_ptr(), buffer.len(), &mut count)
        })?;
        Ok(count)
    }

    /// The tier and the place of a block of a file.
    pub fn place(&mut self, number: u32, block: u32) -> Result<(u8, u32), Error> {
        let (mut tier, mut place) = (0, 0);
        done(unsafe { raw::kfs_place(&mut self.0 .0, number, block, &mut tier, &mut place) })?;
        Ok((tier, place))
    }

    /// How many places of the tier hold no block.
    pub fn free(&mut self, tier: u8) -> Result<u32, Error> {
        let mut count = 0;
        done(unsafe { raw::kfs_free(&mut self.0 .0, tier, &mut count) })?;
        Ok(count)
    }

    /// How many rows the docket has.
    pub fn docket_len(&mut self) -> Result<u32, Error> {
        let mut count = 0;
        done(unsafe { raw::kfs_docket_len(&mut self.0 .0, &mut count) })?;
        Ok(count)
    }

    /// The image as bytes.
    pub fn save(&mut self) -> Result<Vec<u8>, Error> {
        self.bytes(|handle, buffer, room, len| unsafe { raw::kfs_save(handle, buffer, room, len) })
    }

    /// The state as bytes: moment, clients, leases and image, without the docket.
    pub fn state(&mut self) -> Result<Vec<u8>, Error> {
        self.bytes(|handle, buffer, room, len| unsafe { raw::kfs_state(handle, buffer, room, len) })
    }

    /// The plan of a client's log, against the state now.
    pub fn plan(&mut self, client: u32, log: &[u8]) -> Result<Vec<u8>, Error> {
        self.bytes(|handle, buffer, room, len| unsafe {
            raw::kfs_plan(handle, client, log.as_ptr(), log.len(), buffer, room, len)
        })
    }

    /// Bytes whose length is asked for first.
    fn bytes(&mut self, call: impl Fn(*mut Handle, *mut u8, usize, *mut usize) -> u32) -> Result<Vec<u8>, Error> {
        let mut bytes = Vec::new();
        loop {
            let mut len = 0;
            match call(&mut self.0 .0, bytes.as_mut_ptr(), bytes.len(), &mut len) {
                SHORT => bytes.resize(len, 0),
                status => {
                    done(status)?;
                    bytes.truncate(len);
                    return Ok(bytes);
                }
            }
        }
    }
}

/// What a client may ask of a node.
#[derive(Clone, Copy, Debug, PartialEq, Eq)]
pub enum Access {
    /// To look a name of the directory up.
    FindName = 1,
    /// To list the directory's names.
    ListNames = 2,
    /// To read the file's bytes.
    ReadBytes = 3,
}

impl View {
    /// Whether the client may do so with the node. `Refused` with a `KFS_MAY_` code where it may not.
    pub fn may(&mut self, access: Access, client: u32, number: u32) -> Result<(), Error> {
        let mut fault = Fault::default();
        let status = unsafe { raw::kfs_may(&mut self.0 .0, access as u32, client, number, &mut fault) };
        checked(status, fault)
    }

    /// Judges a client's log and plan against the view. Touches no desk.
    pub fn judge(&mut self, client: u32, log: &[u8], plan: &[u8]) -> Result<Verdict, Error> {
        let mut verdict = Held(Handle::EMPTY);
        done(unsafe {
            raw::kfs_judge(
                &mut self.0 .0, client, log.as_ptr(), log.len(), plan.as_ptr(), plan.len(), &mut verdict.0,
            )
        })?;
        Ok(Verdict(verdict))
    }
}

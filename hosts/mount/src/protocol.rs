//! Requests of the kernel and replies to it, as bytes of /dev/fuse (include/uapi/linux/fuse.h, version 7.31). Numbers are in the
//! machine's own order.

use nix::errno::Errno;

/// The version that is spoken.
pub const MAJOR: u32 = 7;
pub const MINOR: u32 = 31;
/// The most bytes of a Write, and of what a Read asks for.
pub const MOST_BYTES: u32 = 1 << 20;
/// How many bytes a request has at most.
pub const REQUEST: usize = (MOST_BYTES as usize) + 65_536;
/// How many bytes stand before what a request says.
const HEAD: usize = 40;

/// What a reply to the first request says that is wanted: a Truncate with an open, long writes, names with what they lead to. Not
/// reads that nobody waits for: behind these the kernel tells of a close late, and a file that is removed then was still open.
pub const WANTED: u32 = 1 << 3 | 1 << 5 | 1 << 13 | 1 << 14 | 1 << 22;

/// And where locks hold between mounts: to be asked for those of fcntl() and of flock().
pub const LOCKS: u32 = 1 << 1 | 1 << 10;

/// The codes of messages that the kernel hasn't asked for: `FUSE_NOTIFY_INVAL_INODE`, and `FUSE_NOTIFY_INC_EPOCH`.
const INVALID_NODE: u32 = 2;
const INVALID_NAMES: u32 = 8;
/// The first version of the kernel's protocol that has the latter (Linux 6.16).
const NAMES_MINOR: u32 = 44;

/// What the kernel asks for.
#[derive(Clone, Copy, Debug, PartialEq, Eq)]
pub enum Operation {
    Lookup,
    Forget,
    ForgetSome,
    GetAttributes,
    SetAttributes,
    ReadLink,
    SymbolicLink,
    MakeNode,
    MakeDirectory,
    Unlink,
    RemoveDirectory,
    Rename,
    RenameWithFlags,
    Link,
    Open,
    Read,
    Write,
    StatFileSystem,
    Release,
    Sync,
    Flush,
    GetLock,
    SetLock,
    SetLockWaiting,
    Init,
    OpenDirectory,
    ReadDirectory,
    ReadDirectoryPlus,
    ReleaseDirectory,
    Access,
    Create,
    Interrupt,
    Destroy,
    /// Something that isn't there.
    Other(u32),
}

impl Operation {
    fn of(code: u32) -> Operation {
        match code {
            1 => Operation::Lookup,
            2 => Operation::Forget,
            3 => Operation::GetAttributes,
            4 => Operation::SetAttributes,
            5 => Operation::ReadLink,
            6 => Operation::SymbolicLink,
            8 => Operation::MakeNode,
            9 => Operation::MakeDirectory,
            10 => Operation::Unlink,
            11 => Operation::RemoveDirectory,
            12 => Operation::Rename,
            13 => Operation::Link,
            14 => Operation::Open,
            15 => Operation::Read,
            16 => Operation::Write,
            17 => Operation::StatFileSystem,
            18 => Operation::Release,
            // of a file, of a directory, of all
            20 | 30 | 50 => Operation::Sync,
            25 => Operation::Flush,
            26 => Operation::Init,
            27 => Operation::OpenDirectory,
            28 => Operation::ReadDirectory,
            29 => Operation::ReleaseDirectory,
            31 => Operation::GetLock,
            32 => Operation::SetLock,
            33 => Operation::SetLockWaiting,
            34 => Operation::Access,
            35 => Operation::Create,
            36 => Operation::Interrupt,
            38 => Operation::Destroy,
            42 => Operation::ForgetSome,
            44 => Operation::ReadDirectoryPlus,
            45 => Operation::RenameWithFlags,
            other => Operation::Other(other),
        }
    }
}

/// A request, whose fields are read one after another.
#[derive(Clone, Debug)]
pub struct Request<'a> {
    pub operation: Operation,
    /// The kernel's number for it.
    pub unique: u64,
    /// The id of the node that it is about.
    pub node: u64,
    rest: &'a [u8],
}

impl<'a> Request<'a> {
    /// The request that these bytes are.
    pub fn of(bytes: &'a [u8]) -> Result<Request<'a>, Errno> {
        let mut head = Request { operation: Operation::Other(0), unique: 0, node: 0, rest: bytes };
        let _length = head.word()?;
        let operation = Operation::of(head.word()?);
        let (unique, node) = (head.long()?, head.long()?);
        Ok(Request { operation, unique, node, rest: bytes.get(HEAD..).ok_or(Errno::EIO)? })
    }

    fn array<const N: usize>(&mut self) -> Result<[u8; N], Errno> {
        let taken = self.rest.get(..N).and_then(|bytes| bytes.try_into().ok()).ok_or(Errno::EIO)?;
        self.rest = &self.rest[N..];
        Ok(taken)
    }

    pub fn word(&mut self) -> Result<u32, Errno> {
        Ok(u32::from_ne_bytes(self.array()?))
    }

    pub fn long(&mut self) -> Result<u64, Errno> {
        Ok(u64::from_ne_bytes(self.array()?))
    }

    /// Passes so many bytes over.
    pub fn skip(&mut self, count: usize) -> Result<(), Errno> {
        self.rest = self.rest.get(count..).ok_or(Errno::EIO)?;
        Ok(())
    }

    /// The bytes up to the next zero byte.
    pub fn text(&mut self) -> Result<&'a [u8], Errno> {
        let end = self.rest.iter().position(|byte| *byte == 0).ok_or(Errno::EIO)?;
        let text = &self.rest[..end];
        self.rest = &self.rest[end + 1..];
        Ok(text)
    }

    /// So many bytes.
    pub fn bytes(&mut self, count: usize) -> Result<&'a [u8], Errno> {
        let taken = self.rest.get(..count).ok_or(Errno::EIO)?;
        self.rest = &self.rest[count..];
        Ok(taken)
    }
}

/// Bytes that are put one behind another.
#[derive(Debug, Default)]
pub struct Reply(pub Vec<u8>);

impl Reply {
    pub fn short(&mut self, number: u16) -> &mut Reply {
        self.0.extend_from_slice(&number.to_ne_bytes());
        self
    }

    pub fn word(&mut self, number: u32) -> &mut Reply {
        self.0.extend_from_slice(&number.to_ne_bytes());
        self
    }

    pub fn long(&mut self, number: u64) -> &mut Reply {
        self.0.extend_from_slice(&number.to_ne_bytes());
        self
    }

    pub fn bytes(&mut self, bytes: &[u8]) -> &mut Reply {
        self.0.extend_from_slice(bytes);
        self
    }

    pub fn zeros(&mut self, count: usize) -> &mut Reply {
        self.0.resize(self.0.len() + count, 0);
        self
    }
}

/// What stands before a reply to a request. One that is refused says nothing else.
pub fn reply_head(unique: u64, answer: &Result<Reply, Errno>) -> Reply {
    let (error, length) = match answer {
        Ok(reply) => (0, reply.0.len()),
        Err(errno) => (-(*errno as i32), 0),
    };
    let mut head = Reply::default();
    head.word(16 + length as u32).word(error as u32).long(unique);
    head
}

/// A message that the kernel hasn't asked for: it looks up each name anew that it has.
pub fn forget_names() -> Reply {
    let mut notice = Reply::default();
    notice.word(16).word(INVALID_NAMES).long(0);
    notice
}

/// Whether the kernel whose first request this is knows that message.
pub fn forgets_names(mut request: Request<'_>) -> bool {
    let (major, minor) = (request.word(), request.word());
    request.operation == Operation::Init && major == Ok(MAJOR) && minor.map_or(false, |minor| minor >= NAMES_MINOR)
}

/// A message that the kernel hasn't asked for: what it knows of a node's header isn't so any more. It asks for it when it is wanted.
pub fn forget_header(id: u64) -> Reply {
    let mut notice = Reply::default();
    // No bytes are meant where their first place is below 0.
    notice.word(16 + 24).word(INVALID_NODE).long(0).long(id).long(u64::MAX).long(0);
    notice
}

/// The same of all its bytes, too.
pub fn forget_node(id: u64) -> Reply {
    let mut notice = Reply::default();
    notice.word(16 + 24).word(INVALID_NODE).long(0).long(id).long(0).long(0);
    notice
}

/// The answer to the first request.
pub fn init_reply(request: &mut Request<'_>, has_locks: bool) -> Result<Reply, Errno> {
    let (major, _minor) = (request.word()?, request.word()?);
    let (read_ahead, flags) = (request.word()?, request.word()?);
    let mut reply = Reply::default();
    if major != MAJOR {
        return Err(Errno::EPROTO);
    }
    reply.word(MAJOR).word(MINOR).word(read_ahead).word(flags & (WANTED | if has_locks { LOCKS } else { 0 }));
    // how much may be under way in the background, the longest write, the grain of times, the most pages of a request
    reply.short(64).short(48).word(MOST_BYTES).word(1).short((MOST_BYTES / 4096) as u16).short(0);
    reply.zeros(32);
    Ok(reply)
}

#[cfg(test)]
mod tests {
    use super::*;

    #[test]
    fn a_request_is_read_field_by_field() {
        let mut bytes = Reply::default();
        bytes.word(48).word(1).long(9).long(1).zeros(16).bytes(b"name\0");
        let mut request = Request::of(&bytes.0).unwrap();
        assert_eq!((request.operation, request.unique, request.node), (Operation::Lookup, 9, 1));
        assert_eq!(request.text().unwrap(), b"name");
        assert_eq!(request.word(), Err(Errno::EIO));
        assert!(Request::of(&bytes.0[..39]).is_err());
    }

    #[test]
    fn a_refusal_is_a_negative_number() {
        let head = reply_head(9, &Err(Errno::ENOENT)).0;
        assert_eq!((head.len(), &head[..4]), (16, &16u32.to_ne_bytes()[..]));
        assert_eq!(i32::from_ne_bytes(head[4..8].try_into().unwrap()), -2);
        assert_eq!(reply_head(9, &Ok(Reply(vec![7; 3]))).0[..4], 19u32.to_ne_bytes());
    }

    #[test]
    fn the_first_answer_has_64_bytes() {
        let mut bytes = Reply::default();
        bytes.word(104).word(26).long(2).zeros(24).word(7).word(45).word(131_072).word(u32::MAX);
        assert!(forgets_names(Request::of(&bytes.0).unwrap()));
        bytes.0[44] = 43;
        assert!(!forgets_names(Request::of(&bytes.0).unwrap()));
        for (has_locks, due) in [(false, WANTED), (true, WANTED | LOCKS)] {
            let reply = init_reply(&mut Request::of(&bytes.0).unwrap(), has_locks).unwrap();
            assert_eq!(reply.0.len(), 64);
            assert_eq!(reply.0[12..16], due.to_ne_bytes());
        }
    }
}

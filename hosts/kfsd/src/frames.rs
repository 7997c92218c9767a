//! Frames and replies (docs/PROTOCOL.md), and what kfsd itself refuses (docs/KFSD.md).

use crate::calls::Note;
use crate::locks::Ask;
use crate::times::Stamp;
use crate::users::User;
use crate::wants::News;
use std::io;
use tokio::io::{AsyncRead, AsyncReadExt};

/// The most bytes of a body that `kfs_serve` keeps.
pub const BODY_LIMIT: u32 = 16_777_216;

/// The bytes of a frame's head, and of a reply's.
pub const HEAD: usize = 12;
pub const REPLY_HEAD: usize = 8;

/// The most bytes that a look-up finds, but for its tags.
const FOUND_LIMIT: u32 = 65_536;

/// How many bytes a look-up and its reply may take.
pub const FOUND_BYTES: u32 = FOUND_LIMIT + 1024;

/// The most bytes behind the head of a reply.
pub const REPLY_LIMIT: u32 = FOUND_LIMIT + 1024;

/// The tag of a reply with an answer: a position (4), and what the desk says.
const ANSWERED: u8 = 1;

/// The tag of a reply to a look-up.
const FOUND: u8 = 3;

/// The tag of a reply that refuses.
const REFUSED: u8 = 2;

/// The tags of look-ups: where a name leads; those whose replies may be long, of names, bytes, leases and plans; and those that
/// are the front's.
const FIND: u8 = 0x43;
pub const NAMES: u8 = 0x44;
pub const READ: u8 = 0x45;
pub const LEASES: u8 = 0x47;
pub const PLAN: u8 = 0x48;
pub const STATE: u8 = 0x41;
pub const CHECKPOINT: u8 = 0x42;

/// What is found where a checkpoint was asked for and is made.
pub const CHECKPOINT_MADE: u8 = 3;

/// The front of a reply that refuses a call since the docket is full.
pub const FULL: [u8; 2] = [REFUSED, 7];

/// The tag of a body that asks kfsd who the client is. It is never forwarded.
const HELLO: u8 = 0xf0;

/// The tag of kfsd's answer to it.
const WELCOME: u8 = 0xf0;

/// The tag of a body that asks kfsd for the moment, and of the answer.
const MOMENT: u8 = 0xf1;

/// The tag before a number (8) and a call: the call is made once under this number. Without a call it asks how it ended.
const NUMBERED: u8 = 0xf2;

/// The tag before a serial (8): asks which leases of the client others want, behind that serial. And the answer's.
const WANTED: u8 = 0xf3;

/// The tag before a node (4): asks when it was changed. And the answer's.
const TIMES: u8 = 0xf4;

/// The tag before a node (4) and a time (8): its owner sets when it was modified. And the answer's.
const SET_TIME: u8 = 0xf5;

/// The tag before a question for a lock, and the answer's.
pub const LOCK: u8 = 0xf7;
/// The tag before a node (4): its header, and what kfsd keeps of it.
const STAMPED: u8 = 0xf6;

/// The tag before a node (4) and marks (1): its owner sets its marks. And the answer's.
const SET_MARKS: u8 = 0xf8;

/// The tag of a look-up of a node's header, and of what it finds.
const NODE: u8 = 0x40;
const FOUND_NODE: u8 = 1;
const FILE: u8 = 1;

/// How many bytes a reply that has found a node has behind its head.
const HEADER: usize = 23;

/// The tag of what the look-up of a name finds.
const FOUND_NAME: u8 = 5;

/// How many bytes stand before the call.
pub const NUMBERED_HEAD: usize = 9;

/// What stands for the position in an answer that is told again.
const NO_POSITION: [u8; 4] = [0xff; 4];

/// What stands before a body.
#[derive(Clone, Copy, Debug, PartialEq, Eq)]
pub struct Head {
    pub length: u32,
    pub number: u32,
    pub from: u32,
}

impl Head {
    /// The head that these bytes are.
    pub fn of(bytes: [u8; HEAD]) -> Head {
        let [l0, l1, l2, l3, n0, n1, n2, n3, f0, f1, f2, f3] = bytes;
        Head {
            length: u32::from_be_bytes([l0, l1, l2, l3]),
            number: u32::from_be_bytes([n0, n1, n2, n3]),
            from: u32::from_be_bytes([f0, f1, f2, f3]),
        }
    }

    /// Its bytes.
    pub fn bytes(&self) -> [u8; HEAD] {
        let mut bytes = [0; HEAD];
        bytes[..4].copy_from_slice(&self.length.to_be_bytes());
        bytes[4..8].copy_from_slice(&self.number.to_be_bytes());
        bytes[8..].copy_from_slice(&self.from.to_be_bytes());
        bytes
    }
}

/// Why a frame is refused without `kfs_serve`. Codes below 128 are those of docs/PROTOCOL.md, and the others kfsd's own.
#[derive(Clone, Copy, Debug, PartialEq, Eq)]
pub enum Refusal {
    /// The body is longer than the limit.
    TooLong = 1,
    /// The input ended within the frame, behind its head.
    CutShort = 2,
    /// The frame, or the call in it, names another client, or the call is the front's.
    NotYours = 5,
    /// The frame was given to `kfs_serve`, which ended before it answered: made or not, nobody says. Ask again.
    Unknown = 128,
    /// kfsd ends, and the frame was never given to `kfs_serve`: nothing was done.
    Stopping = 129,
    /// No such user is listed. The connection ends.
    Unlisted = 130,
    /// The user has as many connections as it may. The connection ends.
    TooMany = 131,
    /// The lease would live for longer than any may. Nothing was done.
    TooFar = 132,
    /// The call of this number is under way. Ask again.
    UnderWay = 133,
    /// No call of this number has been made, or so many others since that it is forgotten.
    NotThere = 134,
    /// Another client has wanted the lease for long, so it isn't renewed. Nothing was done.
    Wanted = 135,
    /// The user is listed, and the desk has no such client. The connection ends.
    NoClient = 136,
    /// The log would have the files of a user take more than they may. Nothing was done.
    NoSpace = 137,
}

impl Refusal {
    /// The whole reply to the frame of this number.
    pub fn reply(self, number: u32) -> Vec<u8> {
        reply(number, &[REFUSED, self as u8, 0, 0, 0, 0])
    }
}

/// A whole reply, with this behind its head.
pub fn reply(number: u32, said: &[u8]) -> Vec<u8> {
    let mut bytes = Vec::with_capacity(REPLY_HEAD + said.len());
    // What is said has at most `REPLY_LIMIT` bytes.
    bytes.extend_from_slice(&(said.len() as u32).to_be_bytes());
    bytes.extend_from_slice(&number.to_be_bytes());
    bytes.extend_from_slice(said);
    bytes
}

/// The reply to a hello: the client's number, the first and last number of its grant, and who it is.
pub fn welcome(number: u32, user: &User) -> Vec<u8> {
    let mut said = vec![WELCOME];
    for word in [user.client, user.grant[0], user.grant[1], user.uid, user.gid] {
        said.extend_from_slice(&word.to_be_bytes());
    }
    said.push(user.privileged.into());
    // There are 16 at most.
    said.extend_from_slice(&(user.groups.len() as u16).to_be_bytes());
    user.groups.iter().for_each(|group| said.extend_from_slice(&group.to_be_bytes()));
    reply(number, &said)
}

/// The reply with an answer that was given before, or may have been.
pub fn told_again(number: u32, answer: &[u8]) -> Vec<u8> {
    reply(number, &said_again(answer))
}

/// What stands behind the head of that reply.
pub fn said_again(answer: &[u8]) -> Vec<u8> {
    let mut said = vec![ANSWERED];
    said.extend_from_slice(&NO_POSITION);
    said.extend_from_slice(answer);
    said
}

/// The reply that tells the moment, and how many seconds a lease may live; 0 where that isn't limited.
pub fn moment(number: u32, now: u64, longest: u64) -> Vec<u8> {
    let mut said = vec![MOMENT];
    for long in [now, longest] {
        said.extend_from_slice(&long.to_be_bytes());
    }
    reply(number, &said)
}

/// The reply that tells what is new for a client: leases of it that others want, and locks for which it waits; and the serial of the
/// last of them. No path is told: how the other one leads to the node is its own business, and may name what the holder may not
/// search.
pub fn wanted(number: u32, behind: u64, wants: &[News]) -> Vec<u8> {
    let mut said = vec![WANTED];
    said.extend_from_slice(&wants.last().map_or(behind, |want| want.serial).to_be_bytes());
    // There are 64 at most.
    said.extend_from_slice(&(wants.len() as u16).to_be_bytes());
    for want in wants {
        said.extend_from_slice(&want.by.to_be_bytes());
        said.extend_from_slice(&want.node.to_be_bytes());
        said.extend_from_slice(&(want.what as u16).to_be_bytes());
    }
    reply(number, &said)
}

/// The reply that tells when a node was changed, as far as kfsd knows.
pub fn times(number: u32, stamp: Option<Stamp>) -> Vec<u8> {
    let mut said = vec![TIMES, u8::from(stamp.is_some())];
    for time in stamp.iter().flat_map(|stamp| [stamp.told(), stamp.changed]) {
        said.extend_from_slice(&time.to_be_bytes());
    }
    reply(number, &said)
}

/// What a client sets on a node that it owns.
#[derive(Clone, Copy, Debug, PartialEq, Eq)]
pub enum Given {
    /// When it was modified.
    Time(i64),
    Marks(u8),
}

/// Why that is set or isn't.
#[derive(Clone, Copy, Debug, PartialEq, Eq)]
pub enum HowSet {
    NoNode = 0,
    Set = 1,
    /// The client neither owns the node nor is privileged.
    NotOwner = 2,
}

impl Given {
    /// The reply that tells how that ended.
    pub fn reply(self, number: u32, how: HowSet) -> Vec<u8> {
        let tag = match self {
            Given::Time(_) => SET_TIME,
            Given::Marks(_) => SET_MARKS,
        };
        reply(number, &[tag, how as u8])
    }
}

/// The look-up of a node's header.
pub fn node_look_up(node: u32) -> Vec<u8> {
    let mut body = vec![NODE];
    body.extend_from_slice(&node.to_be_bytes());
    body
}

/// What such a look-up has found of a node.
#[derive(Clone, Copy, Debug, PartialEq, Eq)]
pub struct Found {
    pub is_file: bool,
    pub mode: u16,
    pub owner: u32,
    pub group: u32,
}

/// The node in what such a look-up has found: none within where there is no such node.
pub fn node_in(found: &[u8]) -> Option<Option<Found>> {
    match *found {
        [FOUND_NODE, 0] => Some(None),
        [FOUND_NODE, kind, m, n, a, b, c, d, g0, g1, g2, g3, ..] => {
            let (mode, owner) = (u16::from_be_bytes([m, n]), u32::from_be_bytes([a, b, c, d]));
            Some(Some(Found { is_file: kind == FILE, mode, owner, group: u32::from_be_bytes([g0, g1, g2, g3]) }))
        }
        _ => None,
    }
}

/// The look-up of a name in a directory.
pub fn name_look_up(directory: u32, name: &[u8]) -> Vec<u8> {
    let mut body = vec![FIND];
    body.extend_from_slice(&directory.to_be_bytes());
    body.extend_from_slice(name);
    body
}

/// The node to which the name leads in what such a look-up has found; none where it leads nowhere, or the client may not look.
pub fn number_in(found: &[u8]) -> Option<u32> {
    match *found {
        [FOUND_NAME, 1, a, b, c, d] => Some(u32::from_be_bytes([a, b, c, d])),
        _ => None,
    }
}

/// What a body asks for, as far as kfsd looks into it.
#[derive(Clone, Copy, Debug, PartialEq, Eq)]
pub enum Asked {
    /// Who the client is. kfsd answers.
    Hello,
    /// The moment. kfsd answers.
    Moment,
    /// Which leases others want, behind this serial. kfsd answers when there is one, or after a while.
    Wants(u64),
    /// When this node was changed. kfsd answers.
    Times(u32),
    /// The owner of this node sets something on it. kfsd answers, and asks the desk before.
    Set(u32, Given),
    /// The header of this node, and what kfsd keeps of it.
    Stamped(u32),
    /// A lock. kfsd answers, and asks the desk before.
    Lock(Ask),
    /// How the call of this number ended. kfsd answers.
    Outcome(u64),
    /// A call of this client.
    Of(u32),
    /// A call of this client, under this number.
    Numbered(u32, u64),
    /// A call that is the front's alone.
    OfFront,
    /// Something else, of which `kfs_serve` decides.
    Other,
}

impl Asked {
    /// What kfsd follows of a look-up whose reply it adds to.
    pub fn look(self) -> Option<Note> {
        match self {
            Asked::Stamped(node) => Some(Note::Look(node)),
            _ => None,
        }
    }
}

/// Looks at the tag of a body, and at the client behind it.
pub fn asked(body: &[u8]) -> Asked {
    match *body {
        [HELLO] => Asked::Hello,
        [MOMENT] => Asked::Moment,
        [WANTED, s0, s1, s2, s3, s4, s5, s6, s7] => Asked::Wants(u64::from_be_bytes([s0, s1, s2, s3, s4, s5, s6, s7])),
        [TIMES, a, b, c, d] => Asked::Times(u32::from_be_bytes([a, b, c, d])),
        [SET_TIME, a, b, c, d, t0, t1, t2, t3, t4, t5, t6, t7] => {
            let time = i64::from_be_bytes([t0, t1, t2, t3, t4, t5, t6, t7]);
            Asked::Set(u32::from_be_bytes([a, b, c, d]), Given::Time(time))
        }
        [LOCK, ref question @ ..] => Ask::of(question).map_or(Asked::Other, Asked::Lock),
        [STAMPED, a, b, c, d] => Asked::Stamped(u32::from_be_bytes([a, b, c, d])),
        [SET_MARKS, a, b, c, d, marks] => Asked::Set(u32::from_be_bytes([a, b, c, d]), Given::Marks(marks)),
        [NUMBERED, n0, n1, n2, n3, n4, n5, n6, n7, ref call @ ..] => {
            let number = u64::from_be_bytes([n0, n1, n2, n3, n4, n5, n6, n7]);
            match asked(call) {
                _ if call.is_empty() => Asked::Outcome(number),
                Asked::Of(client) => Asked::Numbered(client, number),
                _ => Asked::OfFront,
            }
        }
        [1 | 2 | 3 | 6, a, b, c, d, ..] => Asked::Of(u32::from_be_bytes([a, b, c, d])),
        [4 | 5 | STATE | CHECKPOINT, ..] => Asked::OfFront,
        _ => Asked::Other,
    }
}

/// Whether a body is a look-up, which changes nothing. What is no call isn't made either.
pub fn is_look_up(body: &[u8]) -> bool {
    matches!(body.first(), Some(tag) if *tag >= NODE)
}

/// A look-up of rows may ask for so many bytes at once, and is asked again for those behind them: so long nobody else is answered.
const ROWS_AT_ONCE: u32 = 16_384;

/// Has a look-up of names or leases ask for no more than may be asked for at once.
pub fn shorten(body: &mut [u8]) {
    if let [NAMES | LEASES, _, _, _, _, a, b, c, d, ..] = body {
        let limit = u32::from_be_bytes([*a, *b, *c, *d]).min(ROWS_AT_ONCE);
        [*a, *b, *c, *d] = limit.to_be_bytes();
    }
}

/// How many bytes the reply to a body may have, where they are many: those that a look-up asks for.
pub fn found_in(body: &[u8]) -> u32 {
    let asked = match *body {
        [PLAN, ..] => FOUND_LIMIT,
        [NAMES | LEASES, _, _, _, _, a, b, c, d, ..] => u32::from_be_bytes([a, b, c, d]),
        // The count is its last field.
        [READ, .., a, b, c, d] => u32::from_be_bytes([a, b, c, d]),
        _ => 0,
    };
    asked.min(FOUND_LIMIT)
}

/// A reply of `kfs_serve`.
#[derive(Clone, Debug, PartialEq, Eq)]
pub struct Reply {
    pub number: u32,
    /// What stands behind the head.
    pub said: Vec<u8>,
}

impl Reply {
    /// What a look-up has found; none where the frame is refused, or was a call.
    pub fn found(&self) -> Option<&[u8]> {
        match self.said.as_slice() {
            [FOUND, found @ ..] => Some(found),
            _ => None,
        }
    }

    /// When the node was made that was found, where that stands behind its header.
    pub fn born(&self) -> Option<i64> {
        let born = self.said.get(HEADER..HEADER + 8)?;
        born.try_into().ok().map(i64::from_be_bytes)
    }

    /// Puts what is kept of a node behind its header. Where there is no such node, or the frame is refused, the reply stays.
    pub fn add(&mut self, stamp: Option<Stamp>) {
        if !matches!(*self.said, [FOUND, FOUND_NODE, kind, ..] if kind != 0) {
            return;
        }
        let times = stamp.map_or([0; 3], |stamp| [stamp.born, stamp.told(), stamp.changed]);
        times.iter().for_each(|time| self.said.extend_from_slice(&time.to_be_bytes()));
        self.said.push(stamp.map_or(0, |stamp| stamp.marks));
    }

    /// The answer, without its position; none where the frame is refused.
    pub fn answer(&self) -> Option<&[u8]> {
        answer_in(&self.said)
    }

    /// The position of the answer.
    pub fn position(&self) -> Option<u32> {
        match *self.said.as_slice() {
            [ANSWERED, a, b, c, d, ..] => Some(u32::from_be_bytes([a, b, c, d])),
            _ => None,
        }
    }
}

/// The answer in what stands behind a reply's head, without its position; none where the frame is refused, or looked.
pub fn answer_in(said: &[u8]) -> Option<&[u8]> {
    match said {
        [ANSWERED, _, _, _, _, answer @ ..] => Some(answer),
        _ => None,
    }
}

/// The next reply, or none where the output ends.
pub async fn read_reply(from: &mut (impl AsyncRead + Unpin)) -> io::Result<Option<Reply>> {
    let mut head = [0; REPLY_HEAD];
    if from.read(&mut head[..1]).await? == 0 {
        return Ok(None);
    }
    from.read_exact(&mut head[1..]).await?;
    let [l0, l1, l2, l3, n0, n1, n2, n3] = head;
    let length = u32::from_be_bytes([l0, l1, l2, l3]);
    if length == 0 || length > REPLY_LIMIT {
        return Err(io::Error::new(io::ErrorKind::InvalidData, format!("a reply of {length} bytes")));
    }
    let mut said = vec![0; length as usize];
    from.read_exact(&mut said).await?;
    Ok(Some(Reply { number: u32::from_be_bytes([n0, n1, n2, n3]), said }))
}

#[cfg(test)]
mod tests {
    use super::*;

    #[test]
    fn a_head_is_twelve_bytes() {
        let head = Head { length: 17, number: 1, from: 7 };
        assert_eq!(head.bytes(), [0, 0, 0, 17, 0, 0, 0, 1, 0, 0, 0, 7]);
        assert_eq!(Head::of(head.bytes()), head);
    }

    #[test]
    fn a_refusal_is_as_the_protocol_has_it() {
        assert_eq!(Refusal::NotYours.reply(2), [0, 0, 0, 6, 0, 0, 0, 2, 2, 5, 0, 0, 0, 0]);
        assert_eq!(Refusal::Unknown.reply(2)[9], 0x80);
    }

    #[test]
    fn owners_are_read_from_bodies() {
        for tag in [1, 2, 3, 6] {
            assert_eq!(asked(&[tag, 0, 0, 1, 0, 9, 9]), Asked::Of(256));
            assert_eq!(asked(&[tag, 0, 0, 1]), Asked::Other);
        }
        assert_eq!(asked(&[4]), Asked::OfFront);
        assert_eq!(asked(&[5, 0]), Asked::OfFront);
        assert_eq!(asked(&[STATE]), Asked::OfFront);
        assert_eq!(asked(&[CHECKPOINT, 0]), Asked::OfFront);
        assert_eq!(asked(&[READ, 0, 0, 0, 5]), Asked::Other);
        assert_eq!(asked(&[]), Asked::Other);
        assert_eq!(asked(&[7, 0, 0, 0, 1]), Asked::Other);
        assert_eq!(asked(&[HELLO]), Asked::Hello);
        assert_eq!(asked(&[MOMENT]), Asked::Moment);
        assert_eq!(asked(&[NUMBERED, 0, 0, 0, 0, 0, 0, 1, 0]), Asked::Outcome(256));
        assert_eq!(asked(&[NUMBERED, 0, 0, 0, 0, 0, 0, 1, 0, 1, 0, 0, 0, 7]), Asked::Numbered(7, 256));
        for call in [4, HELLO, NUMBERED] {
            assert_eq!(asked(&[NUMBERED, 0, 0, 0, 0, 0, 0, 1, 0, call]), Asked::OfFront);
        }
        assert_eq!(asked(&[NUMBERED, 0]), Asked::Other);
        assert_eq!(asked(&[WANTED, 0, 0, 0, 0, 0, 0, 1, 0]), Asked::Wants(256));
        assert_eq!(asked(&[WANTED]), Asked::Other);
        assert_eq!(asked(&[TIMES, 0, 0, 1, 0]), Asked::Times(256));
        let set = [&[SET_TIME, 0, 0, 1, 0][..], &[0xff; 8]].concat();
        assert_eq!((asked(&set), asked(&set[..12])), (Asked::Set(256, Given::Time(-1)), Asked::Other));
        assert_eq!((asked(&[STAMPED, 0, 0, 1, 0]), asked(&[STAMPED, 0, 0, 1])), (Asked::Stamped(256), Asked::Other));
        let marks = [SET_MARKS, 0, 0, 1, 0, 7];
        assert_eq!((asked(&marks), asked(&marks[..5])), (Asked::Set(256, Given::Marks(7)), Asked::Other));
        assert_eq!(asked(&[HELLO, 0]), Asked::Other);
        let lock = [&[LOCK, 0, 0, 1, 0][..], &[0; 31]].concat();
        assert!(matches!(asked(&lock), Asked::Lock(question) if question.node == 256));
        assert_eq!(asked(&lock[..35]), Asked::Other);
    }

    #[test]
    fn nodes_and_names_are_looked_up() {
        assert_eq!(node_look_up(256), [0x40, 0, 0, 1, 0]);
        let found = [&[1, 2, 1, 0xff, 0, 0, 1, 0][..], &[9; 14]].concat();
        assert_eq!(node_in(&found), Some(Some(Found { is_file: false, mode: 0x1ff, owner: 256, group: 0x0909_0909 })));
        assert_eq!((node_in(&[1, 0]), node_in(&[4, 1]), node_in(&[])), (Some(None), None, None));
        assert_eq!(name_look_up(256, b"a"), [0x43, 0, 0, 1, 0, b'a']);
        assert_eq!((number_in(&[5, 1, 0, 0, 1, 0]), number_in(&[5, 0]), number_in(&[4, 5])), (Some(256), None, None));
    }

    #[test]
    fn what_is_kept_of_a_node_stands_behind_its_header() {
        let header = [&[FOUND, FOUND_NODE, 2][..], &[9; 20]].concat();
        let after = |said: &[u8], stamp| {
            let mut reply = Reply { number: 1, said: said.to_vec() };
            reply.add(stamp);
            reply.said
        };
        assert_eq!(after(&header, None), [&header[..], &[0; 25]].concat());
        let stamp = Stamp { modified: 2, changed: 3, moved: 0, set: Some(-1), born: 258, marks: 1 };
        let kept = [&[0, 0, 0, 0, 0, 0, 1, 2][..], &[0xff; 8], &[0, 0, 0, 0, 0, 0, 0, 3, 1]].concat();
        let whole = after(&header, Some(stamp));
        assert_eq!(whole, [&header[..], &kept].concat());
        assert_eq!(Reply { number: 1, said: whole }.born(), Some(258));
        assert_eq!(Reply { number: 1, said: header }.born(), None);
        for said in [&[FOUND, FOUND_NODE, 0][..], &[REFUSED, 3, 0, 0, 0, 0], &[FOUND, 4, 1]] {
            assert_eq!(after(said, Some(stamp)), said);
        }
    }

    #[test]
    fn a_client_is_told_who_it_is() {
        let user = User { uid: 1, gid: 2, client: 7, groups: vec![3, 256], privileged: true, grant: [4, 5] };
        let words = |words: &[u32]| words.iter().flat_map(|word| word.to_be_bytes()).collect::<Vec<_>>();
        let said = [vec![WELCOME], words(&[7, 4, 5, 1, 2]), vec![1, 0, 2], words(&[3, 256])].concat();
        assert_eq!(welcome(9, &user), reply(9, &said));
    }

    #[test]
    fn long_replies_are_foreseen() {
        assert_eq!(found_in(&[READ, 0, 0, 0, 5, 0, 0, 0, 0, 0, 0, 1, 0]), 256);
        assert_eq!(found_in(&[READ, 0, 0, 0, 5, 0, 0, 0, 0, 1, 0, 0, 0]), FOUND_LIMIT);
        assert_eq!(found_in(&[NAMES, 0, 0, 0, 5, 0, 0, 1, 4, b'a']), 260);
        assert_eq!(found_in(&[LEASES, 0, 0, 0, 5, 0, 0, 1, 4]), 260);
        assert_eq!(found_in(&[READ, 0, 0]), 0);
        assert_eq!(found_in(&[PLAN]), FOUND_LIMIT);
        assert_eq!(found_in(&[1; 20]), 0);
    }

    #[test]
    fn rows_are_asked_for_a_part_at_a_time() {
        let short = |mut body: Vec<u8>| {
            shorten(&mut body);
            body
        };
        assert_eq!(short(vec![NAMES, 0, 0, 0, 5, 0, 1, 0, 0, b'a']), [NAMES, 0, 0, 0, 5, 0, 0, 0x40, 0, b'a']);
        assert_eq!(short(vec![LEASES, 0, 0, 0, 5, 0, 0, 1, 4]), [LEASES, 0, 0, 0, 5, 0, 0, 1, 4]);
        for other in [vec![NAMES, 0, 0, 0, 5, 0xff, 0xff, 0xff], vec![READ; 20], vec![]] {
            assert_eq!(short(other.clone()), other);
        }
    }

    #[tokio::test]
    async fn replies_are_cut_from_a_stream() {
        let mut stream: &[u8] = &[0, 0, 0, 2, 0, 0, 0, 9, 1, 5, 0, 0, 0, 1, 0];
        let reply = read_reply(&mut stream).await.unwrap().unwrap();
        assert_eq!(reply, Reply { number: 9, said: vec![1, 5] });
        assert!(read_reply(&mut stream).await.is_err());
        let mut long: &[u8] = &[0xff; 8];
        assert!(read_reply(&mut long).await.is_err());
        let mut none: &[u8] = &[];
        assert!(read_reply(&mut none).await.unwrap().is_none());
    }
}

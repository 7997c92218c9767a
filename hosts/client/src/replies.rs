//! What replies of kfsd tell (docs/PROTOCOL.md, docs/KFSD.md).

use crate::desk::{Answer, Blocks, LeaseRefusal, RowPart, Unanswered, Wrong};
use crate::entry::Kind;
use crate::fault::Reason;
use crate::locks::{Conflict, LockAnswer, LockKind};
use crate::name::Name;
use crate::node::Header;
use crate::shown::{FoundAhead, Stamp, Unshown};

/// The body that asks kfsd who the client is, and the tag of its answer.
pub(crate) const HELLO: u8 = 0xf0;
/// The same of the moment.
pub(crate) const MOMENT: u8 = 0xf1;
/// The body that asks for a lock, and the tag of its answer.
pub(crate) const LOCK: u8 = 0xf7;
/// The first bytes of what they find: of a header, of why the client may not ask, of a name, of names, of bytes, and of places.
const FOUND_NODE: u8 = 1;
const FOUND_FAULT: u8 = 4;
const FOUND_NAME: u8 = 5;
const FOUND_NAMES: u8 = 6;
pub(crate) const FOUND_BYTES: u8 = 7;
const FOUND_PLACES: u8 = 8;
/// How many bytes a header takes with its tag.
const HEADER: usize = 22;
/// The mark of a directory that gives its group to what is made in it.
const GIVES_GROUP: u8 = 1;
/// The tag of the answer to who sets the marks of a node.
const MARKED: u8 = 0xf8;
/// The tags of replies.
const ANSWERED: u8 = 1;
const REFUSED: u8 = 2;
const FOUND: u8 = 3;

/// What a reply tells.
#[derive(Clone, Debug, PartialEq, Eq)]
pub(crate) enum Reply {
    /// The bytes of an answer.
    Answered(Vec<u8>),
    /// What a look-up has found.
    Found(Vec<u8>),
    /// The code of a refusal.
    Refused(u8),
    /// The client, its grant, and the rest of its row, where kfsd tells it.
    Welcome(u32, [u32; 2], Option<Row>),
    /// The moment, and for how many moments a lease may live at most; 0 for ever.
    Moment(u64, u64),
    /// Whether the marks of a node are set, by kfsd's number.
    Marked(u8),
    /// What is said to a question for a lock.
    Lock(LockAnswer),
}

/// Who a client is at the server.
#[derive(Clone, Debug, PartialEq, Eq)]
pub struct Row {
    /// Its user.
    pub uid: u32,
    /// Its group.
    pub gid: u32,
    /// Whether permission bits don't bind it.
    pub is_privileged: bool,
    /// Its other groups.
    pub groups: Vec<u32>,
}

/// Fields of a reply, read one after another. None where they end early.
struct Fields<'a>(&'a [u8]);

impl Fields<'_> {
    fn array<const N: usize>(&mut self) -> Option<[u8; N]> {
        let taken = self.0.get(..N)?.try_into().ok()?;
        self.0 = &self.0[N..];
        Some(taken)
    }

    fn byte(&mut self) -> Option<u8> {
        self.array::<1>().map(|[byte]| byte)
    }

    fn short(&mut self) -> Option<u16> {
        self.array().map(u16::from_be_bytes)
    }

    fn word(&mut self) -> Option<u32> {
        self.array().map(u32::from_be_bytes)
    }

    fn long(&mut self) -> Option<u64> {
        self.array().map(u64::from_be_bytes)
    }
}

pub(crate) fn reply_of(said: &[u8]) -> Option<Reply> {
    let (tag, rest) = said.split_first()?;
    let mut fields = Fields(rest);
    let reply = match *tag {
        ANSWERED => Reply::Answered(rest.to_vec()),
        FOUND => Reply::Found(rest.to_vec()),
        REFUSED => Reply::Refused(fields.byte()?),
        HELLO => Reply::Welcome(fields.word()?, [fields.word()?, fields.word()?], row_in(&mut fields)),
        MOMENT => Reply::Moment(fields.long()?, fields.long()?),
        MARKED => Reply::Marked(fields.byte()?),
        LOCK => Reply::Lock(lock_answer(&mut fields)?),
        _ => return None,
    };
    Some(reply)
}

/// The row of a client behind its grant. An earlier kfsd tells none.
fn row_in(fields: &mut Fields<'_>) -> Option<Row> {
    let (uid, gid, is_privileged) = (fields.word()?, fields.word()?, fields.byte()? == 1);
    let count = fields.short()?;
    let groups = (0..count).map(|_| fields.word()).collect::<Option<Vec<u32>>>()?;
    Some(Row { uid, gid, is_privileged, groups })
}

fn lock_answer(fields: &mut Fields<'_>) -> Option<LockAnswer> {
    let answer = match fields.byte()? {
        0 => LockAnswer::Granted,
        1 => LockAnswer::Conflicts(conflict(fields)?),
        2 => LockAnswer::Deadlock,
        3 => LockAnswer::TooMany,
        4 => LockAnswer::NotYet,
        5 => LockAnswer::NoSuchNode,
        6 => LockAnswer::NotAllowed,
        _ => return None,
    };
    Some(answer)
}

fn conflict(fields: &mut Fields<'_>) -> Option<Conflict> {
    let kind = match fields.byte()? {
        0 => LockKind::Read,
        1 => LockKind::Write,
        2 => LockKind::Unlock,
        _ => return None,
    };
    Some(Conflict { kind, first: fields.long()?, last: fields.long()?, pid: fields.word()? })
}

/// Whether kfsd refuses the connection, whatever was asked.
pub(crate) fn is_unwelcome(said: &[u8]) -> bool {
    matches!(said, [REFUSED, 130 | 131 | 136, ..])
}

/// What a look-up has found that was asked for ahead. What is refused is asked for again by who wants it.
pub(crate) fn found_ahead(said: &[u8]) -> FoundAhead {
    let found = match said.split_first() {
        Some((&FOUND, found)) => found,
        _ => return FoundAhead::Nothing,
    };
    match found.first() {
        Some(&FOUND_BYTES) => FoundAhead::Bytes(found[1..].to_vec()),
        Some(&FOUND_NODE) => found_header(found).map_or(FoundAhead::Nothing, FoundAhead::Header),
        _ => FoundAhead::Nothing,
    }
}

/// What the reply to a call tells.
pub(crate) fn answer_in(reply: Reply, body: &[u8]) -> Result<Told, Unanswered> {
    match reply {
        Reply::Answered(bytes) => told_of(&bytes).ok_or_else(|| nonsense(body).into()),
        Reply::Refused(1) => Err(Unanswered::TooLong),
        Reply::Refused(5) => Err(Unanswered::NotYours),
        Reply::Refused(6 | 7) => Err(Unanswered::NoMemory),
        Reply::Refused(128) => Err(Unanswered::Unknown),
        Reply::Refused(129) => Err(Unanswered::Stopping),
        Reply::Refused(132) => Ok(Told::TooFar),
        Reply::Refused(133) => Err(Unanswered::Unknown),
        Reply::Refused(135) => Ok(Told::Wanted),
        Reply::Refused(137) => Ok(Told::Of(Answer::NoSpace)),
        _ => Err(nonsense(body).into()),
    }
}

/// What an answer tells.
#[derive(Clone, Copy, Debug, PartialEq, Eq)]
pub(crate) enum Told {
    /// Of a submission.
    Of(Answer),
    /// A lease is granted, or given up.
    Leased(u32),
    /// It isn't.
    Unleased(LeaseRefusal),
    /// Nor is it here: kfsd refuses an end that is too far away, and one that another client has wanted for long.
    TooFar,
    Wanted,
}

/// The bytes of an answer (docs/FORMATS.md, "Answers of a desk").
pub(crate) fn told_of(bytes: &[u8]) -> Option<Told> {
    let mut fields = Fields(bytes);
    let _position = fields.word()?;
    let told = match fields.byte()? {
        1 => Told::Of(Answer::Yes),
        2 => {
            let _rejudged = fields.byte()?;
            Told::Of(submission_fault(&mut fields)?)
        }
        3 => {
            let _rejudged = fields.byte()?;
            Told::Of(Answer::NoRoom { need: fields.long()?, free: fields.word()? })
        }
        4 | 5 => Told::Leased(fields.word()?),
        8 => Told::Unleased(lease_fault(&mut fields)?),
        _ => return None,
    };
    Some(told)
}

/// The numbers of a fault are those of include/kfs.h.
fn submission_fault(fields: &mut Fields<'_>) -> Option<Answer> {
    let (code, reason, index, detail) = (fields.byte()?, fields.byte()?, fields.long()? as usize, fields.word()?);
    let answer = match (code, reason) {
        (1, _) => Answer::Wrong(Wrong::UnknownClient),
        (2, _) => Answer::Wrong(Wrong::Log),
        (3, _) => Answer::Wrong(Wrong::Client),
        (4, _) => Answer::Wrong(Wrong::Plan),
        (5, _) => Answer::Entry(index, Reason::of_code(reason, detail)?),
        (6, 1) => Answer::Row(RowPart::Names, index),
        (6, 2) => Answer::Row(RowPart::Nodes, index),
        (6, 3) => Answer::Row(RowPart::Pieces, index),
        _ => return None,
    };
    Some(answer)
}

fn lease_fault(fields: &mut Fields<'_>) -> Option<LeaseRefusal> {
    let (code, _reason, _index, detail) = (fields.byte()?, fields.byte()?, fields.long()?, fields.word()?);
    let refusal = match code {
        1 => LeaseRefusal::UnknownClient,
        2 | 3 | 4 | 10 => LeaseRefusal::NoSuchNode,
        5 | 11 => LeaseRefusal::NotAllowed,
        6 => LeaseRefusal::Past,
        7 => LeaseRefusal::Held(detail),
        8 => LeaseRefusal::NoneHeld,
        _ => return None,
    };
    Some(refusal)
}

/// The header that a look-up has found, or none where there is no such node. None at all where the bytes are no such answer.
pub(crate) fn found_header(bytes: &[u8]) -> Option<Option<Header>> {
    let mut fields = Fields(bytes);
    let (found, state) = (fields.byte()?, fields.byte()?);
    let kind = match (found, state) {
        (FOUND_NODE, 0) => return Some(None),
        (FOUND_NODE, 1) => Kind::File,
        (FOUND_NODE, 2) => Kind::Directory,
        _ => return None,
    };
    let (mode, uid, gid) = (fields.short()?, fields.word()?, fields.word()?);
    Some(Some(Header { kind, mode, uid, gid, links: fields.short()?, size: fields.long()? }))
}

/// What kfsd keeps of a node, behind the header in what it has found. None where there is no such node.
pub(crate) fn found_stamp(bytes: &[u8]) -> Option<Stamp> {
    let mut fields = Fields(bytes.get(HEADER..)?);
    let (born, modified, changed) = (fields.long()?, fields.long()? as i64, fields.long()? as i64);
    Some(Stamp { born, modified, changed, gives_group: fields.byte()? & GIVES_GROUP != 0 })
}

/// Where a name leads that was looked up.
pub(crate) fn found_name(bytes: &[u8]) -> Option<Option<u32>> {
    let mut fields = Fields(bytes);
    match (fields.byte()?, fields.byte()?) {
        (FOUND_NAME, 0) => Some(None),
        (FOUND_NAME, 1) => Some(Some(fields.word()?)),
        _ => None,
    }
}

/// Names that were looked up, and whether there are more behind them.
pub(crate) fn found_names(bytes: &[u8]) -> Option<(Vec<(Name, u32)>, bool)> {
    let mut fields = Fields(bytes);
    let (found, has_more) = (fields.byte()?, fields.byte()?);
    if found != FOUND_NAMES || has_more > 1 {
        return None;
    }
    let mut names = Vec::new();
    while !fields.0.is_empty() {
        let (number, length) = (fields.word()?, usize::from(fields.byte()?));
        let name = Name::new(fields.0.get(..length)?).ok()?;
        fields.0 = &fields.0[length..];
        names.push((name, number));
    }
    // Who has more to tell has told something.
    (has_more == 0 || !names.is_empty()).then_some((names, has_more == 1))
}

/// How many places the tiers have, and how many of them are free.
pub(crate) fn found_places(bytes: &[u8]) -> Option<Blocks> {
    let mut fields = Fields(bytes);
    if fields.byte()? != FOUND_PLACES {
        return None;
    }
    let mut tier = || Some((fields.word()?, fields.word()?));
    let [(all, free), (second, second_free), (third, third_free)] = [tier()?, tier()?, tier()?];
    Some(Blocks { all, free, slower_all: second.saturating_add(third), slower_free: second_free.saturating_add(third_free) })
}

/// What a look-up has found; none where there is no such node, or it is one of the other kind.
pub(crate) fn found_in(reply: Reply) -> Result<Option<Vec<u8>>, Unshown> {
    match reply {
        Reply::Found(found) => match found[..] {
            [FOUND_FAULT, 2..=4] => Ok(None),
            [FOUND_FAULT, _] => Err(Unshown::NotAllowed),
            _ => Ok(Some(found)),
        },
        _ => Ok(None),
    }
}

pub(crate) fn nonsense(body: &[u8]) -> Unshown {
    Unshown::Nonsense(format!("frame with tag {}", body.first().copied().unwrap_or(0)))
}

#[cfg(test)]
mod tests {
    use super::*;

    #[test]
    fn answers_are_those_of_the_formats() {
        assert_eq!(told_of(&[0, 0, 0, 0, 4, 0, 0, 0, 1]), Some(Told::Leased(1)));
        assert_eq!(told_of(&[0, 0, 0, 9, 1, 0, 0, 0, 0, 0, 0, 0, 0, 1]), Some(Told::Of(Answer::Yes)));
        let no_lease = [0, 0, 0, 9, 2, 0, 5, 15, 0, 0, 0, 0, 0, 0, 0, 3, 0, 0, 0, 8];
        assert_eq!(told_of(&no_lease), Some(Told::Of(Answer::Entry(3, Reason::NoLease(8)))));
        assert_eq!(told_of(&no_lease[..19]), None);
        let held = [0, 0, 0, 9, 8, 7, 0, 0, 0, 0, 0, 0, 0, 0, 0, 0, 0, 0, 8];
        assert_eq!(told_of(&held), Some(Told::Unleased(LeaseRefusal::Held(8))));
        assert_eq!(told_of(&[0, 0, 0, 1, 6, 0]), None);
    }

    #[test]
    fn names_are_those_of_the_protocol() {
        let name = |text: &str| Name::new(text.as_bytes()).unwrap();
        assert_eq!(found_name(&[5, 0]), Some(None));
        assert_eq!(found_name(&[5, 1, 0, 0, 1, 0]), Some(Some(256)));
        assert_eq!(found_name(&[5, 1, 0]), None);
        let two = [6, 1, 0, 0, 0, 5, 1, b'a', 0, 0, 0, 6, 2, b'b', b'c'];
        assert_eq!(found_names(&two), Some((vec![(name("a"), 5), (name("bc"), 6)], true)));
        assert_eq!(found_names(&[6, 0]), Some((vec![], false)));
        assert_eq!(found_names(&[6, 1]), None);
        assert_eq!(found_names(&two[..14]), None);
    }

    #[test]
    fn headers_are_those_of_plans() {
        let bytes = [1, 1, 1, 0xa4, 0, 0, 3, 0xe8, 0, 0, 3, 0xe9, 0, 2, 0, 0, 0, 1, 0, 0, 0, 0];
        let header = Header { kind: Kind::File, mode: 0o644, uid: 1000, gid: 1001, links: 2, size: 1 << 32 };
        assert_eq!(found_header(&bytes), Some(Some(header)));
        assert_eq!(found_header(&[1, 0]), Some(None));
        assert_eq!(found_header(&bytes[..21]), None);
        let mut told = bytes.to_vec();
        assert_eq!(found_stamp(&told), None);
        for time in [1u64 << 60, 5, 6] {
            told.extend_from_slice(&time.to_be_bytes());
        }
        told.push(1);
        let stamp = Stamp { born: 1 << 60, modified: 5, changed: 6, gives_group: true };
        assert_eq!((found_header(&told), found_stamp(&told)), (Some(Some(header)), Some(stamp)));
        assert_eq!((found_stamp(&told[..46]), found_stamp(&[1, 0])), (None, None));
    }

    #[test]
    fn a_row_stands_behind_the_grant() {
        let mut said = vec![HELLO];
        for word in [7u32, 2, 99] {
            said.extend_from_slice(&word.to_be_bytes());
        }
        assert_eq!(reply_of(&said), Some(Reply::Welcome(7, [2, 99], None)));
        for word in [1000u32, 50] {
            said.extend_from_slice(&word.to_be_bytes());
        }
        said.extend_from_slice(&[1, 0, 2, 0, 0, 0, 8, 0, 0, 0, 9]);
        let row = Row { uid: 1000, gid: 50, is_privileged: true, groups: vec![8, 9] };
        assert_eq!(reply_of(&said), Some(Reply::Welcome(7, [2, 99], Some(row))));
    }
}

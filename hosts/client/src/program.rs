//! The program `kfs run` as a server of one process, for tests and first trials: nothing is kept, and all clients are one's own.

use crate::client::Client;
use crate::desk::{Answer, Desk, LeaseKind, LeaseRefusal, RowPart, Unanswered, Wanted, Wish, Wrong};
use crate::entry::Kind;
use crate::fault::Reason;
use crate::name::Name;
use crate::node::{Header, ROOT};
use crate::paths::Paths;
use crate::shown::{Shown, Unshown};
use std::ffi::OsStr;
use std::fmt::Write as _;
use std::io::{self, BufRead, BufReader, Write};
use std::process::{Child, ChildStdin, ChildStdout, Command, Stdio};

/// The most bytes that a line `read` shows.
const READ_LIMIT: usize = 65_536;

/// The program, with a desk that is begun.
#[derive(Debug)]
pub struct Program {
    child: Child,
    to: ChildStdin,
    from: BufReader<ChildStdout>,
    /// The client for which calls are made.
    client: u32,
    moment: u64,
}

/// Bytes as hexadecimal text, as a line has them.
pub fn hex(bytes: &[u8]) -> String {
    if bytes.is_empty() {
        return "-".into();
    }
    let mut text = String::with_capacity(bytes.len() * 2);
    for byte in bytes {
        // Nothing is refused where a String is written to.
        let _ = write!(text, "{byte:02x}");
    }
    text
}

/// The bytes that hexadecimal text stands for.
pub fn unhex(text: &str) -> Option<Vec<u8>> {
    if text == "-" {
        return Some(Vec::new());
    }
    let digits: Option<Vec<u8>> = text.chars().map(|digit| digit.to_digit(16).map(|digit| digit as u8)).collect();
    let digits = digits.filter(|digits| digits.len() % 2 == 0)?;
    Some(digits.chunks(2).map(|pair| pair[0] << 4 | pair[1]).collect())
}

fn nonsense(line: &str) -> Unshown {
    Unshown::Nonsense(line.chars().take(80).collect())
}

impl Program {
    /// Starts the program at this path with a new image and these clients. Calls are the first one's.
    pub fn start(path: impl AsRef<OsStr>, tiers: [u32; 3], clients: &[Client]) -> Result<Program, Unshown> {
        let mut child = Command::new(path).arg("run").stdin(Stdio::piped()).stdout(Stdio::piped()).spawn()?;
        let (to, from) = match (child.stdin.take(), child.stdout.take()) {
            (Some(to), Some(from)) => (to, BufReader::new(from)),
            _ => return Err(nonsense("the program has no pipes")),
        };
        let client = clients.first().map_or(0, |client| client.number);
        let mut program = Program { child, to, from, client, moment: 0 };
        let mut lines = vec![format!("new {} {} {}", tiers[0], tiers[1], tiers[2])];
        lines.extend(clients.iter().map(line_of));
        lines.push(format!("begin {}", u32::MAX));
        for line in lines {
            match program.ask(&line)?.as_str() {
                "ok" => {}
                other => return Err(nonsense(other)),
            }
        }
        Ok(program)
    }

    /// Calls are this client's from now on.
    pub fn act_for(&mut self, client: u32) {
        self.client = client;
    }

    /// The reply to a line.
    pub fn ask(&mut self, line: &str) -> io::Result<String> {
        self.ask_bytes(line.as_bytes())
    }

    fn ask_bytes(&mut self, line: &[u8]) -> io::Result<String> {
        self.to.write_all(line)?;
        self.to.write_all(b"\n")?;
        self.to.flush()?;
        let mut reply = String::new();
        if self.from.read_line(&mut reply)? == 0 {
            return Err(io::ErrorKind::UnexpectedEof.into());
        }
        reply.truncate(reply.trim_end_matches('\n').len());
        Ok(reply)
    }

    /// The plan that the program makes of a log, if it makes one.
    pub fn plan(&mut self, log: &[u8]) -> Result<Option<Vec<u8>>, Unshown> {
        let reply = self.ask(&format!("plan {} {}", self.client, hex(log)))?;
        match reply.strip_prefix("plan ") {
            Some("none") => Ok(None),
            Some(text) => Ok(Some(unhex(text).ok_or_else(|| nonsense(&reply))?)),
            None => Err(nonsense(&reply)),
        }
    }

    /// A path to a node, sought in all of the tree.
    fn path_to(&mut self, number: u32) -> Result<Option<Vec<u8>>, Unshown> {
        let mut paths = Paths::default();
        let mut left = vec![ROOT];
        while let Some(directory) = left.pop() {
            for (name, found) in self.list(directory, None, usize::MAX)? {
                paths.see(directory, &name, found);
                if self.header(found)?.map_or(false, |header| header.is_directory()) {
                    left.push(found);
                }
            }
        }
        Ok(paths.path(number))
    }

    /// Asks for a lease by this path alone. A path with a space is none of a line.
    pub fn lease_by_path(&mut self, wanted: &Wanted, path: &[u8]) -> Result<Result<(), LeaseRefusal>, Unanswered> {
        if path.contains(&b' ') {
            return Ok(Err(LeaseRefusal::NotAllowed));
        }
        let kind = match wanted.kind {
            LeaseKind::Read => 'r',
            LeaseKind::Write => 'w',
        };
        let mut line = format!("lease {} ", self.client).into_bytes();
        line.extend_from_slice(path);
        line.extend_from_slice(format!(" {kind} {}", wanted.end).as_bytes());
        self.lease_answer(&line, wanted.number)
    }

    fn lease_answer(&mut self, line: &[u8], number: u32) -> Result<Result<(), LeaseRefusal>, Unanswered> {
        let reply = self.ask_bytes(line)?;
        let words: Vec<&str> = reply.split(' ').collect();
        match words[..] {
            [_, "leased" | "dropped", found] if found == number.to_string() => Ok(Ok(())),
            [_, "leased", other] => {
                let other = other.parse().map_err(|_| nonsense(&reply))?;
                Ok(Err(LeaseRefusal::Elsewhere(other)))
            }
            [_, "refused", name] => lease_refusal(name).map(Err).ok_or_else(|| nonsense(&reply).into()),
            ["full" | "memory"] => Err(Unanswered::NoMemory),
            _ => Err(nonsense(&reply).into()),
        }
    }
}

impl Drop for Program {
    fn drop(&mut self) {
        // It may have ended by itself.
        let _ = self.child.kill();
        let _ = self.child.wait();
    }
}

/// The line of a client.
fn line_of(client: &Client) -> String {
    let Client { number, uid, gid, groups, is_privileged, grant: [first, last] } = client;
    let mut line = format!("client {number} {uid} {gid} {} {first} {last}", u8::from(*is_privileged));
    groups.iter().for_each(|group| line.push_str(&format!(" {group}")));
    line
}

/// What stands in brackets behind a name.
fn detail(text: &str) -> Option<u32> {
    text.split_once('(')?.1.trim_end_matches(')').parse().ok()
}

fn lease_refusal(text: &str) -> Option<LeaseRefusal> {
    let refusal = match text.split('(').next()? {
        "UnknownClient" => LeaseRefusal::UnknownClient,
        "BadPath" | "NotDirectory" | "NoSuchName" => LeaseRefusal::NoSuchNode,
        "NoSearch" => LeaseRefusal::NotAllowed,
        "Past" => LeaseRefusal::Past,
        "LeaseHeld" => LeaseRefusal::Held(detail(text)?),
        "NoLeaseHeld" => LeaseRefusal::NoneHeld,
        _ => return None,
    };
    Some(refusal)
}

/// The reason of this name, as a reply has it.
pub fn reason_named(text: &str) -> Option<Reason> {
    let number = detail(text).unwrap_or(0);
    (1..=17).filter_map(|code| Reason::of_code(code, number)).find(|reason| reason.to_string() == text)
}

/// The answer to a submission, as a reply has it.
fn answer_of(reply: &str) -> Option<Answer> {
    let words: Vec<&str> = reply.split(' ').collect();
    let number = |text: &str| text.split_once('=')?.1.parse::<u64>().ok();
    let answer = match words[1..] {
        ["yes", ..] => Answer::Yes,
        ["noroom", _, need, free] => Answer::NoRoom { need: number(need)?, free: number(free)? as u32 },
        ["no", _, "entry", index, name] => Answer::Entry(index.parse().ok()?, reason_named(name)?),
        ["no", _, "plan", name] if name.starts_with("Names(") => Answer::Row(RowPart::Names, detail(name)? as usize),
        ["no", _, "plan", name] if name.starts_with("Nodes(") => Answer::Row(RowPart::Nodes, detail(name)? as usize),
        ["no", _, "plan", name] if name.starts_with("Pieces(") => Answer::Row(RowPart::Pieces, detail(name)? as usize),
        ["no", _, "client", "unknown"] => Answer::Wrong(Wrong::UnknownClient),
        ["no", _, "client", "wrong"] => Answer::Wrong(Wrong::Client),
        ["no", _, "log", _] => Answer::Wrong(Wrong::Log),
        ["no", _, "plan", _] => Answer::Wrong(Wrong::Plan),
        _ => return None,
    };
    Some(answer)
}

/// The header that a line of `node` has.
fn header_of(words: &[&str]) -> Option<Header> {
    let (kind, mode, rest) = match words {
        ["node", _, "file", mode, rest @ ..] => (Kind::File, mode, rest),
        ["node", _, "dir", mode, rest @ ..] => (Kind::Directory, mode, rest),
        _ => return None,
    };
    let mode = u16::from_str_radix(mode, 8).ok()?;
    let numbers: Option<Vec<u64>> = rest.iter().map(|word| word.parse().ok()).collect();
    match numbers?[..] {
        [uid, gid, links, size] => Some(Header { kind, mode, uid: uid as u32, gid: gid as u32, links: links as u16, size }),
        _ => None,
    }
}

fn name_of(word: &str) -> Option<(Name, u32)> {
    let (name, number) = word.split_once(':')?;
    Some((Name::new(&unhex(name)?).ok()?, number.parse().ok()?))
}

impl Shown for Program {
    fn header(&mut self, number: u32) -> Result<Option<Header>, Unshown> {
        let reply = self.ask(&format!("node {number}"))?;
        if reply == "none" {
            return Ok(None);
        }
        let words: Vec<&str> = reply.split(' ').collect();
        header_of(&words).map(Some).ok_or_else(|| nonsense(&reply))
    }

    fn find(&mut self, directory: u32, name: &Name) -> Result<Option<u32>, Unshown> {
        let all = self.list(directory, None, usize::MAX)?;
        Ok(all.into_iter().find(|(other, _)| other == name).map(|(_, number)| number))
    }

    fn list(&mut self, directory: u32, behind: Option<&Name>, most: usize) -> Result<Vec<(Name, u32)>, Unshown> {
        let reply = self.ask(&format!("list {directory}"))?;
        let names: Option<Vec<(Name, u32)>> = reply.split(' ').skip(2).map(name_of).collect();
        let names = names.ok_or_else(|| nonsense(&reply))?;
        Ok(names.into_iter().filter(|(name, _)| behind.map_or(true, |behind| name > behind)).take(most).collect())
    }

    fn read(&mut self, number: u32, start: u64, most: usize) -> Result<Vec<u8>, Unshown> {
        let mut bytes = Vec::new();
        while bytes.len() < most {
            let (at, length) = (start + bytes.len() as u64, (most - bytes.len()).min(READ_LIMIT));
            let reply = self.ask(&format!("read {number} {at} {length}"))?;
            let more = reply.strip_prefix("bytes ").and_then(unhex).ok_or_else(|| nonsense(&reply))?;
            let is_end = more.len() < length;
            bytes.extend(more);
            if is_end {
                break;
            }
        }
        Ok(bytes)
    }
}

impl Desk for Program {
    /// A line asks by path alone: by the one that is known, or else by one that is sought.
    fn lease(&mut self, wanted: &Wanted) -> Result<Result<(), LeaseRefusal>, Unanswered> {
        let known = match &wanted.path {
            Some(path) => self.lease_by_path(wanted, path)?,
            None => Err(LeaseRefusal::NoSuchNode),
        };
        if !matches!(known, Err(LeaseRefusal::NoSuchNode)) {
            return Ok(known);
        }
        match self.path_to(wanted.number)? {
            Some(path) => self.lease_by_path(wanted, &path),
            None => Ok(known),
        }
    }

    fn drop_lease(&mut self, number: u32) -> Result<Result<(), LeaseRefusal>, Unanswered> {
        let line = format!("drop {} {number}", self.client);
        self.lease_answer(line.as_bytes(), number)
    }

    fn submit(&mut self, log: &[u8], plan: &[u8]) -> Result<Answer, Unanswered> {
        let reply = self.ask(&format!("submit {} {} {}", self.client, hex(log), hex(plan)))?;
        match reply.as_str() {
            "full" | "memory" => Err(Unanswered::NoMemory),
            _ => answer_of(&reply).ok_or_else(|| nonsense(&reply).into()),
        }
    }

    fn moment(&mut self) -> Result<u64, Unanswered> {
        Ok(self.moment)
    }

    fn wanted_by_others(&mut self) -> Result<Vec<Wish>, Unanswered> {
        Ok(Vec::new())
    }
}

"""What the tools on kept desks share: calls from seeds, the steps in which they are made, and the parts of their programs."""
import random
from typing import NamedTuple

from fuzzing.calls import CallMaker
from fuzzing.codec import DIRECTORY, Header, RawImage, RawNode, encode_image, number_bytes

# What each of the programs stands on.
USES = "kfs_image kfs_fsck kfs_mode kfs_desk kfs_call kfs_call_desk kfs_journal kfs_kept"

# A desk of a state's bytes, and what is shown of it and of its answers.
DESKS = r"""//! A desk that begins with the bytes of a state, and what it shows, as bytes.
ghost use Rattle.std.specs.Prelude.{◌≡◌, IfSome, None};
ghost use Rattle.kfs_desk.specs.Opening.{begin_fault};

use kfs_call::{AnswerRow, ClientRow, decode_state, encode_answer};
use kfs_call_desk::{CallFault, Called, encode_desk, restore_alone, told};
use kfs_desk::Desk;
use kfs_fsck::fsck;
use kfs_image::{Image, decode_image};
use kfs_mode::Client;
use std::alloc::{Allocator, Global};
use std::thread::Threads;

/// How many rows a docket has room for.
pub const LIMIT: u32 = u32::MAX;

fn client_of(row: &ClientRow) -> Option<Client> {
    let groups = row.groups.as_slice();
    Client::new(row.number, row.uid, row.gid, groups, row.privileged, row.first, row.last).ok()
}

fn image_of<A: Allocator + Copy>(rt: &(impl Threads + Sync), alloc: A, bytes: &[u8]) -> Option<Image<A>> {
    let raw = decode_image(alloc, bytes).ok()?;
    match fsck(rt, alloc, raw) {
        Ok(image) => Some(image),
        Err(_) => None,
    }
}

/// The clients of a state.
pub fn clients_of<A: Allocator + Copy>(alloc: A, state: &[u8]) -> Option<Vec<Client, A>> {
    let rows = decode_state(alloc, state).ok()?;
    let mut clients = Vec::new(alloc);
    for row in rows.clients.as_slice() {
        clients.push(client_of(row)?).ok()?;
    }
    Some(clients)
}

/// A desk with the clients and the image of a state. It has no lease.
pub fn begun<A: Allocator + Copy>(rt: &(impl Threads + Sync), alloc: A, state: &[u8]) -> Option<Desk<A>>
    ensures { IfSome result (λ desk. begin_fault desk.state.clients ≡ None) }
{
    let image = decode_state(alloc, state).ok()?.image;
    match Desk::begin(alloc, image_of(rt, alloc, image)?, clients_of(alloc, state)?, LIMIT) {
        Ok(desk) => Some(desk),
        Err(_) => None,
    }
}

/// A desk that goes on from where this one stands, with the clients of a state.
pub fn with_clients(alloc: Global, desk: &Desk<Global>, state: &[u8]) -> Option<Desk<Global>> {
    let clients = clients_of(alloc, state)?;
    let bytes = encode_desk(alloc, desk.image(), &clients, desk.leases()).ok()?;
    restore_alone(alloc, &bytes, LIMIT).ok()
}

/// The desk's state as bytes.
pub fn saved<A: Allocator + Copy>(alloc: A, desk: &Desk<A>) -> Option<Vec<u8, A>> {
    encode_desk(alloc, desk.image(), desk.clients(), desk.leases()).ok()
}

/// The answer's bytes behind its row, none for bytes that are no call. `None` for any other fault.
pub fn answer(alloc: Global, answer: &Result<Called, CallFault>) -> Option<Vec<u8>> {
    match answer {
        Ok(called) => {
            let row = AnswerRow { position: 0, told: told(called) };
            let bytes = encode_answer(alloc, &row).ok()?;
            Vec::from_slice(alloc, bytes.get(4..)?).ok()
        }
        Err(CallFault::BadCall(_)) => Some(Vec::new(alloc)),
        Err(_) => None,
    }
}
"""

# A kept desk on some disk. What is to hold of it goes with it, so no loop has to say it.
KEEPER = r"""//! A kept desk.
ghost use Rattle.std.specs.Prelude.{◌≡◌, None};
ghost use Rattle.kfs_desk.specs.Opening.{begin_fault};
ghost use Rattle.kfs_journal.specs.Disk.{Only};
ghost use Rattle.kfs_journal.specs.Journal.{AreEmpty};
ghost use Rattle.kfs_kept.specs.Keeping.{IsKept};

use crate::desks::{LIMIT, answer, clients_of, saved};
use kfs_desk::Desk;
use kfs_journal::Disk;
use kfs_kept::{Early, Kept, OpenFault};
use std::alloc::Global;
use std::thread::Threads;

/// A kept desk.
#[derive(Drop)]
pub struct Keeper<D: Disk + Drop> {
    alloc: Global,
    kept: Kept<Global, D>,
    ghost is_kept: { IsKept D.seen D.may_leave kept },
}

/// What files are opened as.
#[derive(Drop)]
pub enum Found<D: Disk + Drop> {
    /// No journal was made on them.
    Nothing,
    Kept(Keeper<D>),
}

impl<D: Disk + Drop> Keeper<D> {
    /// A desk that is kept on new files.
    pub fn begin(alloc: Global, desk: Desk<Global>, disk: D) -> Option<Keeper<D>>
        requires beside { begin_fault desk.state.clients ≡ None }
        requires empty { AreEmpty (D.seen disk) }
        requires durable { Only (D.seen disk) (D.may_leave disk) }
    {
        match Kept::create(alloc, desk, disk) {
            Ok(kept) => Some(Keeper { alloc, kept }),
            Err(_) => None,
        }
    }

    /// What files with these bytes are opened as. `None` where they aren't opened for another reason than that there is no
    /// journal.
    pub fn open(rt: &(impl Threads + Sync), alloc: Global, disk: D, first: &[u8], second: &[u8]) -> Option<Found<D>>
        requires bytes { D.seen disk ≡ (first.now, second.now) }
        requires durable { Only (D.seen disk) (D.may_leave disk) }
    {
        match Kept::open(rt, alloc, disk, first, second, LIMIT) {
            Ok(kept) => Some(Found::Kept(Keeper { alloc, kept })),
            Err(back) => match back.why {
                OpenFault::Empty | OpenFault::NotAJournal => Some(Found::Nothing),
                _ => None,
            },
        }
    }

    /// Makes calls as one group, and adds each answer.
    pub fn group(&mut self, calls: &[&[u8]], answers: &mut Vec<Vec<u8>>) -> Option<()> {
        let alloc = self.alloc;
        let made = self.kept.call_all(alloc, calls, &Early::none(alloc)).ok()?;
        for it in &made {
            answers.push(answer(alloc, it)?).ok()?;
        }
        Some(())
    }

    /// Makes calls as one group, and counts those that are answered.
    pub fn count(&mut self, calls: &[&[u8]]) -> Option<usize> {
        let made = self.kept.call_all(self.alloc, calls, &Early::none(self.alloc)).ok()?;
        let mut count = 0usize;
        for it in &made {
            if it.is_ok() {
                count = count.saturating_add(1);
            }
        }
        Some(count)
    }

    pub fn checkpoint(&mut self) -> Option<()> {
        self.kept.checkpoint(self.alloc).ok()
    }

    /// Goes on with the clients of a state, which are others than its own.
    pub fn admit(&mut self, rt: &(impl Threads + Sync), state: &[u8]) -> Option<()> {
        let clients = clients_of(self.alloc, state)?;
        self.kept.admit(rt, self.alloc, &clients, LIMIT).ok()?.then_some(())
    }

    /// Begins a checkpoint that is made in steps.
    pub fn begin_checkpoint(&mut self) -> Option<()> {
        self.kept.begin_checkpoint(self.alloc).ok()
    }

    /// Goes on with it: true where it is finished, or none is under way.
    pub fn step_checkpoint(&mut self, most: usize) -> Option<bool> {
        self.kept.step_checkpoint(most).ok()
    }

    /// The state as bytes.
    pub fn saved(&self) -> Option<Vec<u8>> {
        saved(self.alloc, self.kept.desk()?)
    }

    pub fn disk(&self) -> &D {
        self.kept.disk()
    }
}
"""

# The steps of a run, as `step_bytes` writes them.
STEPS = r"""//! The steps of a run, read from bytes: 0 is a checkpoint, 1 a group with its count and each call behind its length, 2 begins a
//! checkpoint in steps, 3 makes a step of it of so many bytes, and 4 goes on with the clients of a state, which stands behind its length.
use std::alloc::Global;

/// What is done next.
#[derive(Drop)]
pub enum Step<'a> {
    Checkpoint,
    Group(Vec<&'a [u8]>),
    Begin,
    Next(usize),
    Admit(&'a [u8]),
}

/// A call, or a state with whose clients the desk goes on.
#[derive(Clone, Copy)]
pub enum Event<'a> {
    Call(&'a [u8]),
    Admit(&'a [u8]),
}

fn number(bytes: &[u8]) -> Option<(usize, &[u8])> {
    match bytes {
        [a, b, c, d, rest @ ..] => Some((u32::from_be_bytes([*a, *b, *c, *d]) as usize, rest)),
        _ => None,
    }
}

fn long(bytes: &[u8]) -> Option<(&[u8], &[u8])> {
    let (count, rest) = number(bytes)?;
    if rest.len() < count {
        return None;
    }
    Some((&rest[..count], &rest[count..]))
}

fn group(alloc: Global, bytes: &[u8]) -> Option<(Step<'_>, &[u8])> {
    let (count, mut rest) = number(bytes)?;
    let mut calls = Vec::new(alloc);
    for _ in 0..count {
        let (call, behind) = long(rest)?;
        calls.push(call).ok()?;
        rest = behind;
    }
    Some((Step::Group(calls), rest))
}

/// The first step, and what stands behind it.
fn first(alloc: Global, bytes: &[u8]) -> Option<(Step<'_>, &[u8])> {
    match bytes {
        [0, rest @ ..] => Some((Step::Checkpoint, rest)),
        [1, rest @ ..] => group(alloc, rest),
        [2, rest @ ..] => Some((Step::Begin, rest)),
        [3, rest @ ..] => {
            let (most, behind) = number(rest)?;
            Some((Step::Next(most), behind))
        }
        [4, rest @ ..] => {
            let (state, behind) = long(rest)?;
            Some((Step::Admit(state), behind))
        }
        _ => None,
    }
}

/// All steps. Each has a byte at least.
pub fn all(alloc: Global, bytes: &[u8]) -> Option<Vec<Step<'_>>> {
    let mut steps = Vec::new(alloc);
    let mut rest = bytes;
    for _ in 0..bytes.len() {
        if rest.is_empty() {
            break;
        }
        let (step, behind) = first(alloc, rest)?;
        steps.push(step).ok()?;
        rest = behind;
    }
    Some(steps)
}

/// The calls of all groups, and the lists of clients, one behind the other.
pub fn events<'a>(alloc: Global, steps: &[Step<'a>]) -> Option<Vec<Event<'a>>> {
    let mut events = Vec::new(alloc);
    for step in steps {
        match step {
            Step::Group(group) => {
                for call in group {
                    events.push(Event::Call(*call)).ok()?;
                }
            }
            Step::Admit(state) => events.push(Event::Admit(*state)).ok()?,
            _ => {}
        }
    }
    Some(events)
}
"""

# What a desk answers that isn't kept.
PLAIN = r"""//! What a desk that isn't kept answers, and where it stands.
use crate::desks::{answer, begun, saved, with_clients};
use crate::steps::Event;
use kfs_call_desk::call;
use kfs_desk::Desk;
use std::alloc::Global;
use std::thread::Threads;

/// The answers, none of bytes where clients are new, and the states as bytes before the first and after each.
#[derive(Drop)]
pub struct Plain {
    pub answers: Vec<Vec<u8>>,
    pub states: Vec<Vec<u8>>,
}

fn make(alloc: Global, desk: &mut Desk<Global>, event: Event<'_>) -> Option<Vec<u8>> {
    match event {
        Event::Call(bytes) => answer(alloc, &call(alloc, desk, bytes)),
        Event::Admit(state) => {
            *desk = with_clients(alloc, desk, state)?;
            Some(Vec::new(alloc))
        }
    }
}

pub fn ask(rt: &(impl Threads + Sync), alloc: Global, state: &[u8], events: &[Event<'_>]) -> Option<Plain> {
    let mut desk = begun(rt, alloc, state)?;
    let mut answers = Vec::new(alloc);
    let mut states = Vec::new(alloc);
    states.push(saved(alloc, &desk)?).ok()?;
    for event in events {
        answers.push(make(alloc, &mut desk, *event)?).ok()?;
        states.push(saved(alloc, &desk)?).ok()?;
    }
    Some(Plain { answers, states })
}
"""

PARTS = {"src/desks.rt": DESKS, "src/keeper.rt": KEEPER, "src/steps.rt": STEPS, "src/plain.rt": PLAIN}


def fresh_image(sizes):
    return encode_image(RawImage(2, sizes, [RawNode(1, Header(DIRECTORY, 0o777, 0, 0, 1, 0))], [], []))


def client_bytes(words):
    number, uid, gid, privileged, first, last, *groups = map(int, words)
    numbers = [(number, 4), (uid, 4), (gid, 4), (privileged, 1), (first, 4), (last, 4), (len(groups), 1), *((it, 4) for it in groups)]
    return b"".join(number_bytes(*it) for it in numbers)


def state_of(lines):
    """Returns the bytes of the state in which a session's opening lines begin a desk."""
    image, clients = None, []
    for line in lines:
        word, *words = line.decode().split(" ")
        if word == "new":
            image = fresh_image(tuple(map(int, words)))
        elif word == "image":
            image = bytes.fromhex(words[0])
        elif word == "client":
            clients.append(client_bytes(words))
    header = b"KDSK\x01" + number_bytes(0, 8) + number_bytes(len(clients), 4) + number_bytes(0, 4)
    return header + b"".join(clients) + image


def made(seed, count):
    """Returns the lines that open a session, and calls as lines in hexadecimal, `-` for no bytes."""
    lines = CallMaker(seed).script(count)
    return [line for line in lines if not line.startswith(b"call ")], [line[5:] for line in lines if line.startswith(b"call ")]


def call_bytes(line):
    return b"" if line == b"-" else bytes.fromhex(line.decode())


def opening(seed, count):
    """Returns the lines that open a session, and just so many calls as bytes."""
    asked = count + count // 2 + 10
    while True:
        opening_lines, lines = made(seed, asked)
        if len(lines) >= count:
            return opening_lines, [call_bytes(it) for it in lines[:count]]
        asked *= 2


def exactly(seed, count):
    """Returns the bytes of a state, and just so many calls as bytes."""
    lines, calls = opening(seed, count)
    return state_of(lines), calls


def with_new_clients(seed, count, checkpoints):
    """Returns the bytes of a state, and the steps of so many calls, among them one that goes on with all clients of whom the state has
    but the last one; their order may be another one. Calls of that client are refused before it."""
    lines, calls = opening(seed, count)
    chance = random.Random(f"clients {seed}")
    clients = [line for line in lines if line.startswith(b"client ")]
    others = [line for line in lines if not line.startswith(b"client ")]
    steps = in_steps(seed, calls, checkpoints)
    steps.insert(chance.randrange(len(steps) + 1), Admit(state_of(chance.sample(clients, len(clients)) + others)))
    return state_of(clients[:-1] + others), steps


# Steps of a run that are no group: a checkpoint, and the beginning of one in steps. A number is a step of it, of so many bytes.
CHECKPOINT, BEGIN = None, "begin"
# A step that goes on with the clients of a state.
Admit = NamedTuple("Admit", [("state", bytes)])
STEP_SIZES = (64, 256, 1_024, 4_096)
ALL_BYTES = 1 << 24


def calls_of(step):
    return step if isinstance(step, list) else []


def with_steps(chance, groups):
    """Returns groups with a checkpoint in steps that begins before them, goes on behind each, and is finished behind the last."""
    steps = [BEGIN]
    for group in groups:
        steps += [group, chance.choice(STEP_SIZES)]
    # one for what is left of the state, and one for the records
    return [*steps, ALL_BYTES, ALL_BYTES]


def in_steps(seed, calls, checkpoints, most=6):
    """Returns the calls in groups, as lists of them, and so many checkpoints between groups, every other one in steps."""
    chance, steps, at = random.Random(f"steps {seed}"), [], 0
    while at < len(calls):
        count = chance.randrange(1, most + 1)
        steps.append(calls[at : at + count])
        at += count
    between = range(1, len(steps))
    places = [0, *sorted(chance.sample(between, min(checkpoints, len(between)))), len(steps)]
    made = steps[: places[1]]
    for index, place in enumerate(places[1:-1]):
        groups = steps[place : places[index + 2]]
        made += [CHECKPOINT, *groups] if index % 2 else with_steps(chance, groups)
    return made


def step_bytes(step):
    """Returns a step as the programs read it: a group has its count, and each call behind its length."""
    if step is CHECKPOINT:
        return b"\0"
    if step is BEGIN:
        return b"\x02"
    if isinstance(step, int):
        return b"\x03" + number_bytes(step, 4)
    if isinstance(step, Admit):
        return b"\x04" + number_bytes(len(step.state), 4) + step.state
    return b"\x01" + number_bytes(len(step), 4) + b"".join(number_bytes(len(call), 4) + call for call in step)

"""A program that keeps its calls on the two files of a folder, what it is due to answer, and what it may be opened as."""
import contextlib
import hashlib
import operator
import os
import random
import shutil
import subprocess
import sys
import threading
import time

from benchmarks import put_files
from kept_parts import USES, calls_of, exactly, in_steps, step_bytes

FILES_USE = f"{USES} kfs_journal_files hex"
NAMES = ("first.kdjl", "second.kdjl")

# `kept FOLDER STATE` opens the files of the folder, or makes them with this state, and writes `ready STATE`, or `nothing` where a
# crash has left no journal. Then it reads steps to the end of its input. Each answer is a line `= ANSWER`, written once its group is
# kept, each checkpoint, the beginning of one in steps and each of its steps a line `checkpoint`, and at the end it writes `end STATE`. `plain STATE` asks a desk that isn't kept.
PROGRAM = r"""//! A kept desk on the files of a folder: makes calls, and writes each answer once it is kept.
#![tactic(auto)]

mod desks;
mod keeper;
mod plain;
mod steps;

use desks::begun;
use keeper::{Found, Keeper};
use kfs_journal_files::{OpenedFiles, Pair, RawDisk, create_files, open_files};
use std::io::Read;
use std::thread::Threads;
use std::{env, fs, io};
use steps::Step;

fn failed() -> io::Error {
    io::Error::from(io::ErrorKind::InvalidData)
}

fn due<T: Drop>(found: Option<T>) -> io::Result<T> {
    match found {
        Some(it) => Ok(it),
        None => Err(failed()),
    }
}

fn say(rt: &HostRuntime, word: &str, bytes: &[u8]) -> io::Result<()> {
    let text = hex::encode(rt.alloc(), bytes)?;
    println!(rt; "{word} {text}")
}

/// A desk that is kept on new files. Where these can't be made, a crash has left one or both.
fn made(rt: &HostRuntime, threads: &(impl Threads + Sync), folder: &str, state: &[u8]) -> Option<Found<RawDisk<Pair>>> {
    match create_files(rt, folder) {
        Ok(disk) => Some(Found::Kept(Keeper::begin(rt.alloc(), begun(threads, rt.alloc(), state)?, disk)?)),
        Err(_) => Some(Found::Nothing),
    }
}

fn find(rt: &HostRuntime, threads: &(impl Threads + Sync), folder: &str, state: &[u8]) -> Option<Found<RawDisk<Pair>>> {
    match open_files(rt, folder) {
        Ok(opened) => {
            let OpenedFiles { disk, first, second } = opened;
            Keeper::open(threads, rt.alloc(), disk, &first, &second)
        }
        Err(_) => made(rt, threads, folder, state),
    }
}

fn make(rt: &HostRuntime, keeper: &mut Keeper<RawDisk<Pair>>, step: &Step<'_>) -> io::Result<()> {
    match step {
        Step::Checkpoint => {
            due(keeper.checkpoint())?;
            println!(rt; "checkpoint")
        }
        Step::Begin => {
            due(keeper.begin_checkpoint())?;
            println!(rt; "checkpoint")
        }
        Step::Next(most) => {
            due(keeper.step_checkpoint(*most))?;
            println!(rt; "checkpoint")
        }
        // None is asked for here.
        Step::Admit(_) => Err(failed()),
        Step::Group(calls) => {
            let mut answers = Vec::new(rt.alloc());
            due(keeper.group(calls, &mut answers))?;
            for answer in &answers {
                say(rt, "=", answer)?;
            }
            Ok(())
        }
    }
}

fn serve<I: Read>(rt: &HostRuntime, keeper: &mut Keeper<RawDisk<Pair>>, reader: &mut I) -> io::Result<()> {
    say(rt, "ready", &due(keeper.saved())?)?;
    let mut bytes = Vec::new(rt.alloc());
    reader.read_to_end(&mut bytes)?;
    for step in &due(steps::all(rt.alloc(), &bytes))? {
        make(rt, keeper, step)?;
    }
    say(rt, "end", &due(keeper.saved())?)
}

fn kept<I: Read>(rt: &HostRuntime, threads: &(impl Threads + Sync), words: (&str, &str), reader: &mut I) -> io::Result<()> {
    let (folder, name) = words;
    let state = fs::read(rt, name)?;
    match due(find(rt, threads, folder, &state))? {
        Found::Nothing => println!(rt; "nothing"),
        Found::Kept(keeper) => {
            let mut keeper = keeper;
            serve(rt, &mut keeper, reader)
        }
    }
}

fn asked<I: Read>(rt: &HostRuntime, threads: &(impl Threads + Sync), name: &str, reader: &mut I) -> io::Result<()> {
    let state = fs::read(rt, name)?;
    let mut bytes = Vec::new(rt.alloc());
    reader.read_to_end(&mut bytes)?;
    let steps = due(steps::all(rt.alloc(), &bytes))?;
    let calls = due(steps::events(rt.alloc(), &steps))?;
    let plain = due(plain::ask(threads, rt.alloc(), &state, &calls))?;
    for answer in &plain.answers {
        say(rt, "=", answer)?;
    }
    for state in &plain.states {
        say(rt, "state", state)?;
    }
    Ok(())
}

fn main(rt: HostRuntime) -> io::Result<()> {
    let words: Vec<String> = env::args(&rt)?.collect(rt.alloc())?;
    match words.as_slice() {
        [_, mode, folder, name] if mode.as_str() == "kept" => kept(&rt, &rt, (folder, name), &mut rt.stdin()),
        [_, mode, name] if mode.as_str() == "plain" => asked(&rt, &rt, name, &mut rt.stdin()),
        _ => Ok(()),
    }
}
"""


def mark_of(word):
    return hashlib.sha256(word).digest()


class Due:
    """What calls are answered by a desk that isn't kept, and marks of its states before the first call and after each."""

    def __init__(self, program, state, calls):
        ran = subprocess.run([program, "plain", state], input=step_bytes(calls), stdout=subprocess.PIPE, check=True)
        lines = ran.stdout.split(b"\n")[:-1]
        self.calls, self.answers = calls, lines[: len(calls)]
        self.states = [mark_of(line[6:]) for line in lines[len(calls) :]]

    def places(self, state, among):
        """Returns after how many calls, of these counts, the desk may stand that shows this state."""
        return [place for place in among if self.states[place] == mark_of(state)]


def ends_of(place, steps):
    """Returns after how many calls the desk stands at first, and after each step."""
    ends = [place]
    for step in steps:
        ends.append(ends[-1] + len(calls_of(step)))
    return ends


class Lines:
    """What a process has written that began at a place and was given steps: whole lines."""

    def __init__(self, due, place, steps, lines):
        self.ends, self.steps, self.place = ends_of(place, steps), steps, place
        self.state_at_end, self.checkpoints = None, 0
        for line in lines:
            word, _, rest = line.partition(b" ")
            if word == b"=" and line != due.answers[self.place]:
                sys.exit(f"call {self.place}: {line!r}, and not {due.answers[self.place]!r}")
            self.place += word == b"="
            self.checkpoints += word == b"checkpoint"
            if word == b"end":
                self.state_at_end = rest

    def step(self):
        """Returns the index of the step that was under way, their count where all were done."""
        done, left = 0, self.checkpoints
        while done < len(self.steps) and self.ends[done + 1] <= self.place and (isinstance(self.steps[done], list) or left):
            left -= not isinstance(self.steps[done], list)
            done += 1
        return done

    def allowed(self):
        """Returns after how many calls the desk may stand: at the end of the last step that has answered, or at that of the next."""
        at_end = min(end for end in self.ends if end >= self.place)
        above = [end for end in self.ends if end > at_end]
        return {at_end, *above[:1]} if at_end == self.place else {at_end}




def kill_soon(run, process):
    """Kills the process about its opening. A timer's thread comes too late for that."""
    end = time.perf_counter() + run.chance.uniform(0, run.opening)
    while time.perf_counter() < end:
        pass
    process.kill()
    return threading.Timer(0, process.kill)


def kill_later(run, process):
    """Has the process killed at any moment; so a run is killed several times."""
    return threading.Timer(run.chance.uniform(0, run.longest / 2), process.kill)


class FilesRun:
    """Calls of a seed, made by one process after another on the files of a folder, each killed at random but the last."""

    # How many kills there were, in openings and in checkpoints; how many calls were found unanswered, and how many answers came.
    FIGURES = [operator.attrgetter(name) for name in ("kills", "openings", "checkpoints", "found", "answered")]

    def __init__(self, program, room, seed, calls):
        self.program, self.folder, self.state = program, f"{room}/{seed}", f"{room}/{seed}.state"
        self.seed, self.chance = seed, random.Random(f"kills {seed}")
        state, asked = exactly(seed, calls)
        put_files(room, {f"{seed}.state": state})
        self.due = Due(program, self.state, asked)
        self.kills = self.openings = self.checkpoints = self.found = self.answered = 0
        self.begin()
        # The least time of an opening so far, and that of a whole run.
        self.opening = self.longest = 600
        self.process(None)

    def begin(self):
        """Begins with no files. No journal has been seen yet."""
        shutil.rmtree(self.folder, ignore_errors=True)
        os.mkdir(self.folder)
        self.allowed, self.least, self.is_begun = {0}, 0, False

    def once(self):
        """Has all calls made on new files."""
        self.begin()
        while not self.process(self.chance.choice([kill_soon, kill_later, kill_later])):
            pass

    def process(self, killer):
        """Runs a process that is killed, where there is a killer. Returns whether it has made all calls."""
        words = [self.program, "kept", self.folder, self.state]
        with subprocess.Popen(words, stdin=subprocess.PIPE, stdout=subprocess.PIPE) as process:
            began = time.monotonic()
            timer = killer(self, process) if killer else threading.Timer(600, process.kill)
            timer.start()
            first = process.stdout.readline()
            if killer != kill_soon and first.endswith(b"\n"):
                self.opening = min(self.opening, time.monotonic() - began)
            place = self.opened(first) if first.endswith(b"\n") else None
            steps = self.steps_from(place)
            with contextlib.suppress(BrokenPipeError):
                process.stdin.write(b"".join(map(step_bytes, steps)))
                process.stdin.close()
            rest = process.stdout.read()
            timer.cancel()
        if not killer:
            self.longest = time.monotonic() - began
        return self.ended(process.returncode, place, steps, rest.split(b"\n")[:-1])

    def steps_from(self, place):
        """Returns the steps of the calls from that place on."""
        if place is None:
            return []
        calls = self.due.calls[place:]
        return in_steps(f"{self.seed} {self.chance.random()}", calls, 1 + len(calls) // 20, 12)

    def opened(self, line):
        """Returns after how many calls the desk stands, by the first line. None where there is no journal, before one was seen."""
        word, _, state = line.strip().partition(b" ")
        if word == b"nothing" and not self.is_begun:
            self.begin()
            return None
        places = self.due.places(state, sorted(self.allowed)) if word == b"ready" else []
        if not places:
            sys.exit(f"seed {self.seed}: opened as {word.decode()}, and not as the state after {sorted(self.allowed)} calls")
        self.is_begun = True
        self.found += places[-1] - self.least
        return places[-1]

    def ended(self, status, place, steps, lines):
        """Takes what a process has written. Returns whether it has made all calls."""
        if status not in (0, -9):
            sys.exit(f"seed {self.seed}: exit status {status}")
        self.kills += status == -9
        if place is None:
            self.openings += status == -9
            return False
        wrote = Lines(self.due, place, steps, lines)
        self.answered += wrote.place - place
        self.allowed, self.least = wrote.allowed(), wrote.place
        if wrote.state_at_end is not None:
            if not self.due.places(wrote.state_at_end, [len(self.due.calls)]):
                sys.exit(f"seed {self.seed}: the state at the end is another")
            return True
        at = wrote.step()
        self.checkpoints += at < len(steps) and not isinstance(steps[at], list)
        return False

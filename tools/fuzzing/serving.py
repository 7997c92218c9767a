"""Compares the server of a kept desk with the reference, frame by frame."""
import collections
import concurrent.futures
import os
import subprocess
import sys
import tempfile

from .frames import FRONT, FrameSession, frames_of, opening_and_calls, reply_text

TOP = os.path.dirname(os.path.dirname(os.path.dirname(os.path.realpath(__file__))))
sys.path.insert(0, f"{TOP}/hosts/python")
from frames import frame, replies  # noqa: E402

# The frame whose head alone comes, at the end: its number, and how long its body is said to be.
CUT, CUT_LENGTH = 0xFFFFFFFF, 17


def run_once(program, judges, room, first, limit, data):
    """Has the program answer the bytes. Returns its exit status and its replies."""
    os.mkdir(room)
    with open(f"{room}/clients", "wb") as it:
        it.write(b"".join(line + b"\n" for line in first if line.startswith(b"client ")))
    sizes = next(line for line in first[::-1] if line.startswith(b"new ")).decode().split(" ")[1:]
    words = [program, "new", room, str(limit), f"{room}/clients", *sizes, *(["--judges", str(judges)] if judges else [])]
    ran = subprocess.run(words, input=data, stdout=subprocess.PIPE, check=False)
    found, left = replies(ran.stdout)
    if left:
        sys.exit(f"bytes that are no reply: {left[:40].hex()}")
    return ran.returncode, found


def kind_of(due):
    """In which way a frame is answered: of a denial with its reason, and of a plan whether there is one."""
    words = due.split("(")[0].split(" ")
    is_said = words[0] == "denied" or words[1:] in (["none"], ["longer"])
    return words[1] if due[0].isdigit() else " ".join(words[:2]) if is_said else words[0]


def one_seed(program, judges, seed, lines):
    """Returns how many frames a seed has, in which ways they are answered, and the first that is answered otherwise."""
    first, limit, calls = opening_and_calls(seed, lines)
    numbers = [int(line.split(b" ")[1]) for line in first if line.startswith(b"client ")]
    frames = list(frames_of(seed, numbers, calls))
    data = b"".join(frame(at, sender, body) for at, (sender, body) in enumerate(frames))
    cut = frame(CUT, [*numbers, FRONT][0], bytes(CUT_LENGTH))[: 12 + seed % CUT_LENGTH]
    with tempfile.TemporaryDirectory(prefix="frames-") as room:
        status, found = run_once(program, judges, f"{room}/desk", first, limit, data + cut)
    session, kinds = FrameSession(), collections.Counter()
    for line in [*first, b"begin %d" % limit]:
        session.expected(line)
    if status or len(found) != len(frames) + 1:
        return len(frames), kinds, f"status {status}, and {len(found)} replies to {len(frames) + 1} frames"
    for at, ((sender, body), reply) in enumerate(zip(frames, found)):
        said = reply_text(reply)
        due = session.due(sender, body, said)
        kinds[kind_of(due)] += 1
        if (reply.number, said) != (at, due):
            return at, kinds, f"frame {at} of client {sender}, {body[:60].hex()}: {said}, and not {due}"
    if found[-1].number != CUT or reply_text(found[-1]) != "CutShort":
        return len(frames), kinds, f"the frame that is cut: {found[-1]}"
    return len(frames), kinds, None


def compare(asked, program):
    """Prints in which ways frames were answered. Returns seeds, how many frames each has, and what is wrong of it."""
    seeds, kinds = range(asked.first, asked.first + asked.scripts), collections.Counter()
    with concurrent.futures.ProcessPoolExecutor(asked.jobs) as pool:
        found = list(pool.map(one_seed, [program] * len(seeds), [asked.judges] * len(seeds), seeds, [asked.lines] * len(seeds)))
    for _, some, _ in found:
        kinds.update(some)
    print(", ".join(f"{kind} {count}" for kind, count in kinds.most_common()))
    return [(seed, count, wrong) for seed, (count, _, wrong) in zip(seeds, found)]

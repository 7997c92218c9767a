"""Stands before a kfs_serve in tests: it copies the two files at each start, and takes new clients for one that doesn't.

Where the words have `--clients FILE`, and the program doesn't know them, that begins the journal anew. The state then goes into the
other file with the rows of the new clients, as kfs_serve writes a new state: a kill leaves the old clients or all. Then the program
opens the files.
"""
import ctypes
import os
import signal
import struct
import subprocess
import sys
import time

FRONT, CHECKPOINT = 0xFFFFFFFF, b"\x42"
HEAD, NAMES = 21, ("first.kdjl", "second.kdjl")
DIE_WITH_PARENT = 1


def refuse(why):
    print(f"stand_in: {why}", file=sys.stderr)
    sys.exit(1)


def rows_of(path):
    """The clients of a file, by number: each a row of a state, with its grant."""
    found = {}
    with open(path, encoding="ascii") as it:
        for line in it.read().splitlines():
            word, *rest = line.split(" ")
            if word != "client":
                refuse(f"no client: {line}")
            number, uid, gid, privilege, first, last, *groups = map(int, rest)
            if number in found:
                refuse(f"client {number} is there twice")
            found[number] = (struct.pack(f">IIIBIIB{len(groups)}I", number, uid, gid, privilege, first, last, len(groups), *groups), first, last)
    taken = set()
    for number, (_, first, last) in found.items():
        numbers = set(range(first, last + 1))
        if first == 0 or last > 65_536 or taken & numbers:
            refuse(f"the grant of client {number}")
        taken |= numbers
    return found


def counting(folder):
    """The file that counts: its number, its state, and the path of the other one."""
    found = []
    for name, other in (NAMES, NAMES[::-1]):
        with open(f"{folder}/{name}", "rb") as it:
            data = it.read()
        if data[:4] == b"KDJL" and data[12] == 1:
            length = int.from_bytes(data[13:HEAD], "big")
            found.append((int.from_bytes(data[4:12], "big"), data[HEAD : HEAD + length], f"{folder}/{other}"))
    return max(found)


def rows_in(state):
    """The rows of the clients in a state."""
    at, found = HEAD, []
    for _ in range(int.from_bytes(state[13:17], "big")):
        end = at + 22 + 4 * state[at + 21]
        found.append(state[at:end])
        at = end
    return found


def with_clients(state, rows):
    """The state with these clients in place of its own, which have to be among them and come first."""
    own = rows_in(state)
    at = HEAD + sum(map(len, own))
    listed = [row for row, _, _ in rows.values()]
    if any(row not in listed for row in own):
        refuse("a client of the desk is another one, or isn't listed")
    if len(own) == len(listed):
        return None
    new = [row for row in listed if row not in own]
    return state[:13] + struct.pack(">I", len(listed)) + state[17:HEAD] + b"".join(own + new) + state[at:]


def put(path, number, state):
    with open(path, "wb") as it:
        for at, data in ((0, b""), (0, b"KDJL" + struct.pack(">QB", number, 0)), (13, struct.pack(">Q", len(state)) + state + b"\0"), (12, b"\1")):
            it.seek(at)
            it.write(data)
            it.flush()
            os.fsync(it.fileno())


def admit(program, folder, limit, path):
    rows = rows_of(path)
    if with_clients(counting(folder)[1], rows) is None:
        return
    anew = struct.pack(">III", 1, 0, FRONT) + CHECKPOINT
    status = subprocess.run([program, "open", folder, limit], input=anew, stdout=subprocess.PIPE, check=False, preexec_fn=die_with_parent).returncode
    if status != 0:
        sys.exit(status)
    number, state, other = counting(folder)
    put(other, number + 1, with_clients(state, rows))


def die_with_parent():
    """Nobody is left with the files where the one that is started here is killed."""
    ctypes.CDLL(None).prctl(DIE_WITH_PARENT, signal.SIGKILL)


def keep_copies(folder, history):
    """Copies the files as they are at a start, when nobody writes them."""
    place = f"{history}/{time.time_ns()}-{os.getpid()}"
    os.mkdir(place)
    for name in NAMES:
        if os.path.exists(f"{folder}/{name}"):
            with open(f"{folder}/{name}", "rb") as it, open(f"{place}/{name}", "wb") as copy:
                copy.write(it.read())


def run(program, history, is_needed, words):
    """Does what these words ask for, by the program."""
    if len(words) > 1:
        keep_copies(words[1], history)
    if is_needed and "--clients" in words:
        at = words.index("--clients")
        path = words[at + 1]
        del words[at : at + 2]
        if len(words) != 3 or words[0] != "open":
            sys.exit(2)
        admit(program, words[1], words[2], path)
    os.execv(program, [program, *words])

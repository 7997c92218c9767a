"""What one user has synced another user's mount shows as docs/CLIENT.md promises, while that one reads files in order: so headers, bytes
and names are kept and asked for ahead.
"""
import contextlib
import os
import random
import time

import beside
from mounts import USER, can_mount, has_look_ups, make_shared, mounted_for
from running import Daemon, user

FILES, SIZE, LONG, ROUNDS, STEPS = 60, 100, 3_000_000, 30, 12
# Names and headers are seen behind so many seconds.
SEEN = 1.0


def put(path, offset, data):
    """Writes bytes, and syncs them."""
    it = os.open(path, os.O_WRONLY)
    os.pwrite(it, data, offset)
    os.fsync(it)
    os.close(it)


def make(path, data):
    it = os.open(path, os.O_WRONLY | os.O_CREAT, 0o644)
    os.write(it, data)
    os.fsync(it)
    os.close(it)


def whole(path):
    with open(path, "rb", buffering=0) as it:
        parts = []
        while part := it.read(65_536):
            parts.append(part)
        return b"".join(parts)


def bytes_are_seen(mine, theirs, due, chance, index):
    """This user reads on in order, and the other one changes a file before its turn, and one behind it."""
    first = chance.randrange(FILES - STEPS - 1)
    for at in range(first, first + STEPS):
        assert whole(f"{mine}/{at:02}") == due[at], at
        for other in (at + 1, chance.randrange(FILES)):
            if chance.random() < 0.2:
                due[other] = b"%4d" % index * (SIZE // 4)
                put(f"{theirs}/{other:02}", 0, due[other])
    at = chance.randrange(LONG - 4)
    data = b"%4d" % index
    due["long"][at : at + 4] = data
    put(f"{theirs}/long", at, data)
    assert whole(f"{mine}/long") == due["long"], "long"


def names_are_seen(mine, theirs, names, index):
    """The other user makes, renames, and takes names away, and changes a mode."""
    for at in range(3):
        assert not os.path.exists(f"{mine}/new{index}-{at}")
        make(f"{theirs}/new{index}-{at}", b"x")
        names.add(f"new{index}-{at}")
    os.rename(f"{theirs}/new{index}-0", f"{theirs}/moved{index}")
    os.unlink(f"{theirs}/new{index}-1")
    names -= {f"new{index}-0", f"new{index}-1"}
    names.add(f"moved{index}")
    mode = 0o600 | index % 8
    os.chmod(f"{theirs}/{index:02}", mode)
    put(f"{theirs}/{index:02}", SIZE, b"more" * index)
    beside.sync(theirs)
    time.sleep(SEEN)
    found = os.stat(f"{mine}/{index:02}")
    assert (found.st_mode & 0o777, found.st_size) == (mode, SIZE + 4 * index), index
    assert os.path.exists(f"{mine}/moved{index}") and not os.path.exists(f"{mine}/new{index}-0")
    assert set(os.listdir(mine)) == names
    os.truncate(f"{theirs}/{index:02}", SIZE)
    os.chmod(f"{theirs}/{index:02}", 0o644)
    beside.sync(theirs)
    time.sleep(SEEN)


def changes_are_seen(made):
    """Bytes are seen by who opens a file behind the other user's fsync(), and names and headers a second later."""
    if not can_mount():
        return
    users = [user(USER + at, 7 + at, (2 + at * 20_000, 1 + (at + 1) * 20_000)) for at in range(2)]
    chance = random.Random(1)
    with Daemon(*made, users=users, tiers=(4096, 16, 16)).start() as daemon:
        if not has_look_ups(daemon):
            return
        with contextlib.ExitStack() as stack:
            mine, theirs = (stack.enter_context(mounted_for(daemon, it)) + "/shared" for it in users)
            make_shared(os.path.dirname(mine))
            due = {at: b"made" * (SIZE // 4) for at in range(FILES)}
            for at in range(FILES):
                make(f"{theirs}/{at:02}", due[at])
            due["long"] = bytearray(os.urandom(LONG))
            make(f"{theirs}/long", due["long"])
            names = {*(f"{at:02}" for at in range(FILES)), "long"}
            time.sleep(SEEN)
            for index in range(ROUNDS):
                bytes_are_seen(mine, theirs, due, chance, index)
                if index % 5 == 0:
                    names_are_seen(mine, theirs, names, index)
        print(f"    {ROUNDS} rounds")


TESTS = [changes_are_seen]

"""Much load with kills, and what is in the files at the end beside what a model makes of the same calls."""
import contextlib
import os
import random
import struct
import subprocess
import threading
import time
import tomllib

from killing import Shared
from replaying import Follower, looked_up, of_image, recorded, replayed, same
from running import lease, user

from benchmarks import NameRow, plan_of
from fuzzing.codec import DIRECTORY, FILE, Create, Header, Log, NodeRow, Piece, Write, decode_image, encode_log
from fuzzing.images import finding

# As many numbers has a connection (kfsload), and a user two more.
NUMBERS, OF_A_USER = 5, 2
SHARED_SIZE = 8192
FOR_EVER = 1 << 62
YES, LEASED, DROPPED = 1, 4, 5


def load_users(count, connections):
    """Users with numbers for a directory, a file that their connections share, and those of the connections."""
    each = OF_A_USER + NUMBERS * -(-connections // count)
    return [user(4000 + at, 100 + at, (2 + at * each, 1 + (at + 1) * each)) for at in range(count)]


def submit(client, log, plan):
    return struct.pack(">BII", 1, client, len(log)) + log + struct.pack(">I", len(plan)) + plan


def make_directory(daemon, it):
    """Has a user make a directory of its own in the root with a file in it, and lease both."""
    client, number, name = it["client"], it["grant"][0], b"d%d" % it["client"]
    connection, shared = daemon.connect(client), number + 1
    entries = [Create(1, name, number, DIRECTORY, 0o755), Create(number, b"shared", shared, FILE, 0o644), Write(shared, 0, bytes(SHARED_SIZE))]
    rows = [NodeRow(number, Header(DIRECTORY, 0o755, it["uid"], it["gid"], 1, 0)), NodeRow(shared, Header(FILE, 0o644, it["uid"], it["gid"], 1, SHARED_SIZE))]
    plan = plan_of([NameRow(1, name, number), NameRow(number, b"shared", shared)], rows, [Piece(shared, 0, SHARED_SIZE, (2, 0))])
    calls = [lease(client, FOR_EVER, writes=True), submit(client, encode_log(Log(1, client, entries)), plan), struct.pack(">BII", 3, client, 1)]
    calls += [struct.pack(">BIBQI", 6, client, 1, FOR_EVER, at) for at in (number, shared)]
    for call, due in zip(calls, (LEASED, YES, DROPPED, LEASED, LEASED)):
        reply = connection.ask(1, call)
        assert reply.answer[4] == due, (client, call, reply)
    connection.close()


def prepare(daemon):
    """Makes the directories, and writes what kfsload reads of users."""
    firsts = [it["grant"][0] for it in daemon.users]
    with open(f"{daemon.room}/users.toml", "w", encoding="ascii") as file:
        for it, first, other in zip(daemon.users, firsts, firsts[1:] + firsts[:1]):
            make_directory(daemon, it)
            file.write(f"[[user]]\nuid = {it['uid']}\ngid = {it['gid']}\nclient = {it['client']}\ndirectory = {first}\nfirst = {first + OF_A_USER}\n")
            file.write(f"shared = {first + 1}\nothers = {other + 1}\n")


def start_load(daemon, *words):
    """Starts kfsload, whose figures go to a file."""
    with open(f"{daemon.room}/said", "wb") as said:
        command = [f"{daemon.binaries}/kfsload", "--socket", f"{daemon.room}/socket", "--users", f"{daemon.room}/users.toml", *map(str, words)]
        return subprocess.Popen(command, stdout=said)


def said_by(daemon):
    """The figures of a load that has ended."""
    with open(f"{daemon.room}/said", "rb") as said:
        return tomllib.load(said)["figures"]


def image_in(folder):
    """The image of the state that the file which counts begins with."""
    found = []
    for name in ("first.kdjl", "second.kdjl"):
        with open(f"{folder}/{name}", "rb") as it:
            data = it.read()
        if data[:4] == b"KDJL" and data[12] == 1:
            length = int.from_bytes(data[13:21], "big")
            found.append((int.from_bytes(data[4:12], "big"), data[21 : 21 + length]))
    _, state = max(found)
    assert state[:5] == b"KDSK\x01"
    clients, leases = struct.unpack(">II", state[13:21])
    at = 21
    for _ in range(clients):
        at += 22 + 4 * state[at + 21]
    return decode_image(state[at + 17 * leases :])


class Sizes(threading.Thread):
    """Looks at the memory of kfsd and kfs_serve while a load runs."""

    def __init__(self, daemon):
        super().__init__(daemon=True)
        self.room, self.found, self.is_over, self.process = daemon, [], threading.Event(), None

    def run(self):
        began = time.monotonic()
        while not self.is_over.wait(0.25):
            with contextlib.suppress(Exception):
                self.found.append((time.monotonic() - began, self.room.resident(), serve_resident(self.room)))

    def parts(self, at, count=4):
        """The median and the most that were seen in each part of the time, in MiB."""
        size = max(1, -(-len(self.found) // count))
        parts = [sorted(it[at] >> 20 for it in self.found[first : first + size]) for first in range(0, len(self.found), size)]
        return ", ".join(f"{part[len(part) // 2]} to {part[-1]}" for part in parts)


def serve_resident(daemon):
    """The memory of kfs_serve, a child of kfsd."""
    with open(f"/proc/{daemon.process.pid}/task/{daemon.process.pid}/children", encoding="ascii") as it:
        children = it.read().split()
    children += [child for task in os.listdir(f"/proc/{daemon.process.pid}/task") for child in children_of(daemon.process.pid, task)]
    with open(f"/proc/{children[0]}/statm", encoding="ascii") as it:
        return int(it.read().split()[1]) * os.sysconf("SC_PAGE_SIZE")


def children_of(process, task):
    with open(f"/proc/{process}/task/{task}/children", encoding="ascii") as it:
        return it.read().split()


def kill_on(daemon, running, kills, kfsd_kills, share, chance):
    """Kills kfs_serve and kfsd so often, spread over what `share` tells is done of 1. Returns how often it did."""
    moments = sorted([(chance.uniform(0.03, 0.95), False) for _ in range(kills)] + [(chance.uniform(0.03, 0.95), True) for _ in range(kfsd_kills)])
    done = [0, 0]
    for moment, is_kfsd in moments:
        while share() < moment and running.poll() is None:
            time.sleep(0.01)
        if running.poll() is not None:
            break
        if is_kfsd:
            daemon.process.kill()
            daemon.process.wait()
            daemon.start()
        else:
            daemon.kill_desk()
        done[is_kfsd] += 1
    return done


def share_of(daemon, seconds, calls):
    """Tells how much of a load is done, by its calls or by its time."""
    began, path = time.monotonic(), f"{daemon.room}/progress"

    def share():
        if calls is None:
            return (time.monotonic() - began) / seconds
        with contextlib.suppress(FileNotFoundError, ValueError), open(path, encoding="ascii") as it:
            return int(it.read()) / calls
        return 0

    return share


def compare(daemon, follower):
    """Replays what the journal has had, and looks whether each answer was the one that is due, whether each call of the load was
    made once, and whether kfsd and the files show what the model has. Returns how many calls the model has made, and of how many files."""
    shown = looked_up(daemon)
    follower.end()
    daemon.ask("checkpoint")
    assert daemon.stop()[0] == 0
    image = image_in(daemon.folder)
    assert finding(image) is None, finding(image)
    command = [f"{daemon.binaries}/kfsctl", "fsck", "--folder", daemon.folder, "--program", daemon.program]
    subprocess.run(command, check=True, capture_output=True)
    model, numbered = replayed(f"{daemon.room}/copy", daemon.users, daemon.tiers)
    answered = recorded(f"{daemon.room}/record")
    assert numbered.made.keys() == answered.keys(), f"{len(answered.keys() - numbered.made.keys())} answered calls weren't made, and {len(numbered.made.keys() - answered.keys())} others were"
    assert numbered.made == answered, "a call was answered otherwise than the journal has it"
    due = model.all()
    same(shown, due)
    same(of_image(image), due)
    return model.count, len(due[2])


def load_with_kills(made, connections, users, seconds, kills, kfsd_kills, calls=None):
    """Has so many connections make calls of all kinds while kfs_serve and kfsd are killed, and looks at what is there at the end."""
    limits = {"connections_a_user": -(-connections // users) + 8}
    with Shared(*made, users=load_users(users, connections), tiers=(4 * NUMBERS * connections, 16, 16), **limits).start() as daemon:
        # a journal of much load takes long to open, beside other work
        daemon.patience = max(daemon.patience, seconds / 4)
        follower = Follower(daemon.folder, f"{daemon.room}/copy")
        follower.start()
        prepare(daemon)
        sizes, chance = Sizes(daemon), random.Random(connections)
        sizes.start()
        words = ["--mixed", "--record", f"{daemon.room}/record", "--progress", f"{daemon.room}/progress"]
        running = start_load(daemon, "--connections", connections, "--seconds", seconds, *words, *(["--calls", calls] if calls else []))
        try:
            done = kill_on(daemon, running, kills, kfsd_kills, share_of(daemon, seconds, calls), chance)
            assert running.wait(timeout=seconds + 600) == 0, "a call was answered otherwise than is right"
        finally:
            running.kill()
        sizes.is_over.set()
        figures, unknown = said_by(daemon), daemon.status()["frames"]["unknown"]
        print(f"    {figures['answered']} calls of {connections} connections in {figures['seconds']:.0f} s, {figures['again']} handed in again; {done[0]} kills of kfs_serve and {done[1]} of kfsd")
        print(f"    memory in quarters of the time, {len(sizes.found)} times looked at, median to most: kfsd {sizes.parts(1)} MiB; kfs_serve {sizes.parts(2)} MiB", flush=True)
        began = time.monotonic()
        count, files = compare(daemon, follower)
        print(f"    a model made the {count} calls of the journal in {time.monotonic() - began:.0f} s, with the answers that it has; it was begun anew {follower.renewals} times")
        print(f"    each answered call was made once; {files} files are there, in the image and as kfsd shows them, as the model has them; since the last start {unknown} calls were answered Unknown")
        assert done == [kills, kfsd_kills]
        return figures


def load_under_kills(made):
    """200 connections of 50 users with 10,000 calls, 6 kills of kfs_serve and 3 of kfsd: each call is done once, and the tree is that of a model."""
    # by calls: where a new start takes long, there are all kills still
    load_with_kills(made, 200, 50, 300, 6, 3, 10_000)


TESTS = [load_under_kills]

"""The files of a user take no more space than it may: whoever writes them, on however many connections, and through each start."""
import contextlib
import errno
import itertools
import os
import random
import re
import struct
import subprocess
import threading
import time
import urllib.request

from figuring import free_address
from killing import YES
from limiting import desk_stands_still
from living import reload
from loading import image_in
from looking import has_look_ups, said
from machines import Cluster
from mounts import as_user, can_mount, make_shared, mounted_for
from running import Daemon, Gone, frame, frames, numbered, user

from benchmarks import log_of, plan_of, zero
from fuzzing.codec import BLOCK, DIRECTORY, FILE, Chmod, Create, Header, NameRow, NodeRow, Rename, Truncate, Unlink, Write
from fuzzing.images import finding, tree_of

NO_SPACE = ("NoSpace", 0)
# Unknown, Stopping and UnderWay, as replies say it.
UNKNOWN = (b"\x02\x80", b"\x02\x81", b"\x02\x85")
GROUP, LIMIT, KILLS = 50, 10, 8
USERS = [user(1000, 7, (2, 999), GROUP), user(1001, 8, (1000, 1999), GROUP)]
ENDLESS = 1 << 40
# Each numbered call has its own, whoever makes it.
NUMBERS = itertools.count(1000)


class Owner:
    """A user with a directory of its own in the root, and files in it, each named by its number."""

    def __init__(self, daemon, client, is_new=True, cluster=None):
        it = next(it for it in daemon.users if it["client"] == client)
        self.daemon, self.client, self.uid, self.directory = daemon, client, it["uid"], it["grant"][0]
        self.connection, self.cluster = daemon.connect(client), cluster
        if is_new:
            self.take(1)
            assert self.has_done([Create(1, b"of-%d" % client, self.directory, DIRECTORY, 0o755)])
            assert self.ask(struct.pack(">BII", 3, client, 1)).answer[4] == 5
            self.take(self.directory)

    def take(self, number):
        """Takes a lease for writing."""
        reply = self.ask(struct.pack(">BIBQI", 6, self.client, 1, ENDLESS, number))
        assert reply.answer and reply.answer[4] == 4, reply

    def said(self, body):
        """What stands behind the head of the reply to a frame. It is asked again while nobody knows it, also of another one that leads by then."""
        while True:
            with contextlib.suppress(Gone, OSError):
                self.connection.send(1, body)
                _, found = self.connection.next()
                if found[:2] not in UNKNOWN:
                    return found
            time.sleep(0.02)
            self.connect()

    def connect(self):
        """Connects anew, where there are several that may lead."""
        if self.cluster:
            self.connection.close()
            self.cluster.wait_for(lambda: self.cluster.connect_or_none(self.client))
            self.connection = self.cluster.connect_or_none(self.client) or self.connection

    def ask(self, body):
        return frames.reply_of(1, self.said(body))

    def call(self, entries):
        """The call that hands these entries in, with the plan that the desk itself makes of them."""
        log = log_of(entries, self.client)
        found = self.said(b"\x48" + log)
        assert found[:3] == b"\x03\x0a\x01", found
        return submission(log, found[3:], self.client)

    def has_done(self, entries):
        """Whether they land. Else they would take too much."""
        return is_done(self.ask(numbered(next(NUMBERS), self.call(entries))))

    def made(self, number, blocks):
        """The entries that make a file of so many blocks."""
        return [Create(self.directory, b"%d" % number, number, FILE, 0o664), Truncate(number, blocks * BLOCK)]

    def make(self, number, blocks):
        """Makes such a file, and takes a lease on it. False where that is refused."""
        is_made = self.has_done(self.made(number, blocks))
        if is_made:
            self.take(number)
        return is_made

    def gone(self, number):
        return [Unlink(self.directory, b"%d" % number, FILE)]

    def blocks(self):
        return blocks_of(self.daemon, self.client)


def is_done(reply):
    assert reply.refusal == NO_SPACE or reply.refusal is None and reply.answer[4] == YES, reply
    return reply.refusal is None


def submission(log, plan, client):
    return struct.pack(">BII", 1, client, len(log)) + log + struct.pack(">I", len(plan)) + plan


def blocks_of(daemon, client):
    """How many blocks a user's files take, as kfsd says."""
    return next(it["blocks"] for it in daemon.status()["user"] if it["client"] == client)


def blocks_in(daemon):
    """The same of each owner, as the state of the desk says."""
    assert daemon.ask("checkpoint")
    raw = image_in(daemon.folder)
    assert finding(raw) is None
    found = {}
    for it in tree_of(raw).nodes.values():
        found[it.uid] = found.get(it.uid, 0) + -(-it.size // BLOCK)
    return found


def are_right(daemon):
    """Looks whether kfsd counts what there is."""
    found = blocks_in(daemon)
    told = {it["uid"]: it["blocks"] for it in daemon.status()["user"]}
    assert told == {uid: found.get(uid, 0) for uid in told}, (told, found)
    return told


@contextlib.contextmanager
def with_limit(made, limit=LIMIT, kind=Daemon, **more):
    """A daemon at which the files of a user may take so many blocks; none where kfs_serve is too old."""
    with kind(*made, users=USERS, blocks_a_user=limit, **more) as daemon:
        daemon.start()
        yield daemon if has_look_ups(daemon) else None


def a_full_user_harms_nobody(made):
    """Up to its limit a user makes files, and no more. What is refused wasn't done. Another user goes on, and so does who makes room."""
    with with_limit(made) as daemon:
        if daemon is None:
            return
        seven, eight = Owner(daemon, 7), Owner(daemon, 8)
        assert seven.make(3, 6) and seven.make(4, 4) and seven.blocks() == LIMIT
        sent, kept = daemon.status()["frames"]["sent"], len(daemon.kept())
        assert not seven.has_done(seven.made(5, 1)) and not seven.has_done([Truncate(4, 4 * BLOCK + 1)])
        # a sparse file counts by its size
        assert not seven.has_done([Truncate(3, 1 << 32)]) and not seven.has_done([Write(3, 1 << 30, b"x")])
        # the look-ups for the plans alone
        assert daemon.status()["frames"]["sent"] == sent + 4 and len(daemon.kept()) == kept
        assert eight.make(1001, LIMIT) and not eight.has_done(eight.made(1002, 1))
        # what takes no more goes: bytes in the place of others, a mode, an empty file, a file that is cut
        assert seven.has_done([Write(3, 0, b"x" * BLOCK)]) and seven.has_done([Chmod(3, 0o600)]) and seven.make(5, 0)
        assert seven.has_done([Truncate(3, 5 * BLOCK)]) and seven.blocks() == 9
        assert seven.has_done([Write(5, 0, b"x")]) and not seven.has_done([Write(5, 1, b"x" * BLOCK)])
        # one file goes, and another one takes its room: behind that, and in the same log
        assert seven.has_done(seven.gone(3)) and seven.blocks() == 5 and seven.make(6, 5)
        assert seven.has_done(seven.gone(6) + seven.made(7, 5)) and not seven.has_done(seven.gone(7) + seven.made(8, 6))
        seven.take(7)
        # a file is put in place of another one
        assert seven.has_done([Truncate(4, BLOCK)]) and seven.make(9, 3)
        assert seven.has_done([Rename(seven.directory, b"9", seven.directory, b"7")]) and seven.blocks() == 5
        assert are_right(daemon) == {1000: 5, 1001: LIMIT}
        lines = [line.split() for line in daemon.ask("users").splitlines()]
        assert [lines[0][-1], lines[1][-1], lines[2][-1]] == ["blocks", "5", str(LIMIT)], lines


def a_number_is_free_again(made):
    """A numbered call that is refused for want of space wasn't made: its number asks for nothing, and is of use once there is room."""
    with with_limit(made) as daemon:
        if daemon is None:
            return
        seven = Owner(daemon, 7)
        assert seven.make(3, LIMIT)
        call = seven.call(seven.made(4, 1))
        for _ in range(3):
            assert seven.connection.ask(1, numbered(5, call)).refusal == NO_SPACE
        assert seven.connection.ask(1, numbered(5)).refusal == ("NotThere", 0)
        assert seven.has_done([Truncate(3, BLOCK)])
        assert [is_done(seven.connection.ask(1, numbered(5, call))) for _ in range(3)] == [True] * 3
        assert are_right(daemon)[1000] == 2


def files_of_others_count_for_their_owners(made):
    """Who may write another one's file by its group fills that one's space, and is refused where it is full. It may cut the file."""
    with with_limit(made) as daemon:
        if daemon is None:
            return
        seven, eight = Owner(daemon, 7), Owner(daemon, 8)
        assert seven.make(3, 8)
        assert seven.connection.ask(1, struct.pack(">BII", 3, 7, 3)).answer[4] == 5
        eight.take(3)
        assert eight.has_done([Write(3, 8 * BLOCK, b"x")]) and (seven.blocks(), eight.blocks()) == (9, 0)
        assert not eight.has_done([Truncate(3, 11 * BLOCK)]) and not eight.has_done([Truncate(3, 11 * BLOCK), *eight.made(1001, 1)])
        assert eight.make(1001, LIMIT) and eight.has_done([Truncate(3, 10 * BLOCK)])
        assert not seven.has_done(seven.made(4, 1)) and eight.has_done([Truncate(3, 2 * BLOCK)]) and seven.make(4, 8)
        assert are_right(daemon) == {1000: LIMIT, 1001: LIMIT}


def in_thread(work, *words):
    """Begins it in a thread. What it returns or raises comes with the result of what is returned here."""
    found = []

    def run():
        try:
            found.append((work(*words), None))
        except BaseException as fault:  # noqa: BLE001
            found.append((None, fault))

    thread = threading.Thread(target=run)
    thread.start()

    def result():
        thread.join()
        result, fault = found[0]
        if fault is not None:
            raise fault
        return result

    return result


def landed(connection, calls):
    """How many of these calls land that are sent at once. The others are refused for want of space."""
    connection.socket.sendall(b"".join(frame(at, connection.client, call) for at, call in enumerate(calls)))
    return sum(is_done(connection.reply()) for _ in calls)


def many_connections_at_once(made):
    """Two users send 20 calls at once on each of 8 connections, each for a file of three blocks: as many land as there is room for, and no more."""
    limit, each = 100, 3
    with with_limit(made, limit) as daemon:
        if daemon is None:
            return
        owners = [Owner(daemon, 7), Owner(daemon, 8)]
        working = []
        for it in owners:
            for at in range(8):
                numbers = range(it.directory + 1 + 20 * at, it.directory + 21 + 20 * at)
                working.append((it, it.daemon.connect(it.client), [it.call(it.made(number, each)) for number in numbers]))
        with desk_stands_still(daemon):
            results = [(it, in_thread(landed, connection, calls)) for it, connection, calls in working]
            time.sleep(0.3)
        for it in owners:
            count = sum(result() for owner, result in results if owner is it)
            assert count == limit // each, count
        assert set(are_right(daemon).values()) == {limit // each * each}


def remade(owner, number, blocks):
    """The call that makes a file anew whose number is free by then: the desk has no plan for that yet."""
    size = blocks * BLOCK
    log = log_of(owner.made(number, blocks), owner.client)
    row = NodeRow(number, Header(FILE, 0o664, owner.uid, GROUP, 1, size))
    return submission(log, plan_of([NameRow(owner.directory, b"%d" % number, number)], [row], [zero(number, 0, size)]), owner.client)


def landed_of(connection, calls):
    """Which of these calls land that are sent at once."""
    connection.socket.sendall(b"".join(frame(at, connection.client, call) for at, call in enumerate(calls)))
    return [is_done(connection.reply()) for _ in calls]


def calls_sent_at_once(made):
    """Each of several calls under way is judged by what those before it have done: none leads over the limit by what another one gives up."""
    for limit, due in ((0, [True] * 3), (LIMIT, [True, False, False])):
        with with_limit(made, limit) as daemon:
            if daemon is None:
                return
            seven = Owner(daemon, 7)
            assert seven.make(3, LIMIT)
            # another file takes its room, and then it is made once more
            calls = [seven.call(seven.gone(3) + seven.made(4, LIMIT)), remade(seven, 3, LIMIT), seven.call(seven.made(5, 1))]
            assert landed_of(seven.connection, calls) == due
            assert are_right(daemon)[1000] == (LIMIT if limit else 2 * LIMIT + 1)
    with with_limit(made) as daemon:
        seven = Owner(daemon, 7)
        assert seven.make(3, LIMIT - 1)
        # room that is made counts at once, and so does what is taken of it
        calls = [seven.call(seven.gone(3)), *(seven.call(seven.made(number, 3)) for number in range(4, 9))]
        assert landed_of(seven.connection, calls) == [True, True, True, True, False, False]
        assert are_right(daemon)[1000] == 9


def wrong_plans_take_no_space(made):
    """A user names another one's files in plans without end that are wrong. That one's own logs are refused for nothing of it."""
    with with_limit(made) as daemon:
        if daemon is None:
            return
        seven, is_over, counts = Owner(daemon, 7), threading.Event(), [0, 0]
        rows = [NodeRow(number, Header(FILE, 0o644, 1000, GROUP, 1, LIMIT // 2 * BLOCK)) for number in (3, 4, 900)]
        wrong = [submission(log_of([Chmod(3, 0o644)], 8), plan_of([], [row]), 8) for row in rows]

        def flood(connection):
            while not is_over.is_set():
                connection.socket.sendall(b"".join(frame(at, 8, call) for at, call in enumerate(wrong * 10)))
                for _ in range(30):
                    reply = connection.reply()
                    counts[reply.refusal == NO_SPACE] += 1
                    assert reply.refusal == NO_SPACE or reply.answer[4] != YES, reply

        results = [in_thread(flood, connection) for connection in [daemon.connect(8) for _ in range(4)]]
        try:
            began, turns = time.monotonic(), 0
            while time.monotonic() - began < 5:
                assert seven.make(3, LIMIT // 2) and seven.make(4, LIMIT - LIMIT // 2)
                assert not seven.has_done(seven.made(5, 1)) and seven.has_done(seven.gone(3) + seven.gone(4))
                turns += 1
        finally:
            is_over.set()
            ended = [result() for result in results]
        assert ended and min(counts) > 0
        print(f"    {turns} times to the limit and back beside {counts[0]} wrong plans that were judged and {counts[1]} that weren't")
        assert are_right(daemon) == {1000: 0, 1001: 0}


def new_limits_hold_at_once(made):
    """More is of use at once. Who has more than a new limit keeps it, and takes no more; none is no limit."""
    with with_limit(made) as daemon:
        if daemon is None:
            return
        seven = Owner(daemon, 7)
        assert seven.make(3, LIMIT) and not seven.has_done(seven.made(4, 2))
        daemon.limits["blocks_a_user"] = LIMIT + 2
        reload(daemon)
        assert f"blocks_a_user is {LIMIT + 2} and was {LIMIT}" in daemon.said()
        assert seven.make(4, 2) and not seven.has_done(seven.made(5, 1))
        daemon.limits["blocks_a_user"] = 3
        reload(daemon)
        assert not seven.has_done(seven.made(5, 1)) and seven.has_done([Chmod(3, 0o640)]) and seven.has_done([Truncate(3, 8 * BLOCK)])
        assert seven.has_done(seven.gone(4) + seven.made(5, 1)) and seven.blocks() == 9
        assert not seven.has_done([Truncate(3, 9 * BLOCK)]) and seven.has_done(seven.gone(3)) and seven.make(6, 2)
        assert not seven.has_done(seven.made(7, 1))
        del daemon.limits["blocks_a_user"]
        reload(daemon)
        assert seven.make(7, 1 << 20) and are_right(daemon)[1000] == 3 + (1 << 20)


def space_outlives_starts(made):
    """What files take is counted anew from the journal, from a state, and from both: behind each stop and kill the limit is the same."""
    def kill(daemon):
        daemon.process.kill()
        daemon.process.wait()

    with with_limit(made, LIMIT, figures=free_address()) as daemon:
        if daemon is None:
            return
        seven, due = Owner(daemon, 7), 0
        ends = [lambda: daemon.stop(), lambda: kill(daemon), lambda: daemon.ask("checkpoint") and kill(daemon), lambda: daemon.stop(), lambda: daemon.stop()]
        for at, end in enumerate(ends):
            assert seven.make(3 + at, 2)
            due += 2
            if at == 3:
                daemon.duties["checkpoint_at_stop"] = True
                reload(daemon)
            end()
            daemon.start()
            seven = Owner(daemon, 7, is_new=False)
            assert seven.blocks() == due, (at, seven.blocks())
        assert not seven.has_done(seven.made(50, 1)) and seven.has_done(seven.gone(5)) and seven.make(50, 2)
        assert not seven.has_done([Truncate(50, 2 * BLOCK + 1)]) and are_right(daemon)[1000] == LIMIT
        with urllib.request.urlopen(f"http://{daemon.figures}/metrics", timeout=30) as it:
            assert 'kfsd_user_blocks{uid="1000",client="7"} 10' in it.read().decode()


def space_under_kills(made):
    """Two users make, cut and remove files by numbered calls while kfs_serve is killed 8 times: no user ever has more than it may, and kfsd counts right."""
    with with_limit(made, 40) as daemon:
        if daemon is None:
            return
        owners, is_over, counts = [Owner(daemon, 7), Owner(daemon, 8)], threading.Event(), [0, 0]

        def churn(owner):
            chance, there = random.Random(owner.client), set()
            while not is_over.is_set():
                number = owner.directory + chance.randint(1, 20)
                blocks = chance.randint(0, 12)
                entries = owner.made(number, blocks) if number not in there else chance.choice([owner.gone(number), [Truncate(number, blocks * BLOCK)]])
                is_made = owner.has_done(entries)
                counts[is_made] += 1
                if is_made and isinstance(entries[0], Create):
                    there.add(number)
                    owner.take(number)
                elif is_made and isinstance(entries[0], Unlink):
                    there.discard(number)

        results = [in_thread(churn, it) for it in owners]
        try:
            for _ in range(KILLS):
                time.sleep(0.4)
                daemon.kill_desk()
                assert all(it["blocks"] <= 40 for it in daemon.status()["user"])
            time.sleep(0.4)
        finally:
            is_over.set()
            ended = [result() for result in results]
        assert ended and min(counts) > KILLS, counts
        told = are_right(daemon)
        assert all(blocks <= 40 for blocks in told.values()) and daemon.status()["kfs_serve"]["starts"] == KILLS + 1
        print(f"    {counts[1]} logs landed and {counts[0]} were refused, with {KILLS} kills")


def space_of_a_volume(made):
    """On several machines the leader keeps to the limit, and so does each one that leads behind it, also from a state that it has kept."""
    with Cluster(made, {"state_bytes": 500}, users=USERS, blocks_a_user=LIMIT) as cluster:
        leader = cluster.leader()
        if not has_look_ups(leader):
            return
        seven = Owner(leader, 7, cluster=cluster)
        assert seven.make(3, 6) and seven.make(4, 4) and not seven.has_done(seven.made(5, 1)) and seven.has_done(seven.gone(4))
        for number in range(5, 9):
            leader.process.kill()
            leader, _ = cluster.another_leads()
            cluster.wait_for(lambda: blocks_of_volume(cluster, 7) == number + 1)
            assert not seven.has_done(seven.made(number, LIMIT - number)) and seven.make(number, 1)
        assert not seven.has_done([Truncate(3, 7 * BLOCK)]) and not seven.has_done(seven.made(9, 1))
        cluster.wait_for(lambda: blocks_of_volume(cluster, 7) == LIMIT)
        assert any(re.search("from group [1-9]", it.said()) for it in cluster.machines)


def blocks_of_volume(cluster, client):
    """How many blocks a user's files take, as the member says that leads; none where nobody does."""
    for it in cluster.machines:
        with contextlib.suppress(OSError, subprocess.SubprocessError):
            if it.status()["volume"]["leads"]:
                return blocks_of(it, client)
    return None


def fault_of(call, *words):
    """The number of the fault of a call; none where it goes well."""
    try:
        call(*words)
    except OSError as fault:
        return fault.errno
    return None


def filled(folder):
    """As a user: fills a file until there is no space, is told so, and makes room again."""
    big, small, sparse = (f"{folder}/shared/{name}" for name in ("big", "small", "sparse"))
    file = os.open(big, os.O_CREAT | os.O_WRONLY)
    faults = [fault_of(os.write, file, b"x" * 65_536) for _ in range(100)]
    assert set(faults) == {None, errno.EDQUOT} and faults[:16] == [None] * 16, faults
    assert fault_of(os.fsync, file) == errno.EDQUOT
    assert fault_of(os.close, file) in (None, errno.EDQUOT)
    os.unlink(big)
    write_all(small, 16)
    file = os.open(sparse, os.O_CREAT | os.O_WRONLY)
    os.ftruncate(file, 1 << 30)
    assert fault_of(os.fsync, file) == errno.EDQUOT
    os.ftruncate(file, 5)
    os.fsync(file)
    os.close(file)


def write_all(path, blocks):
    """As a user: a file of so many blocks, which is kept."""
    with open(path, "wb", buffering=0) as it:
        for _ in range(blocks):
            it.write(b"y" * BLOCK)
        os.fsync(it.fileno())


def a_mount_is_told(made):
    """Through a mount a full user is told EDQUOT, where it writes or syncs. Behind a removal it writes on, and another user isn't touched by it."""
    if not can_mount():
        return
    users = [user(1000, 7, (2, 999)), user(1001, 8, (1000, 1999))]
    with Daemon(*made, users=users, tiers=(4096, 64, 64), blocks_a_user=512).start() as daemon:
        if not has_look_ups(daemon):
            return
        with mounted_for(daemon, users[0]) as one, mounted_for(daemon, users[1]) as other:
            make_shared(one)
            as_user(filled, one, user=1000)
            as_user(write_all, f"{other}/shared/other", 500, user=1001)
        assert are_right(daemon) == {1000: 17, 1001: 500}


TESTS = [a_full_user_harms_nobody, a_number_is_free_again, files_of_others_count_for_their_owners, many_connections_at_once, calls_sent_at_once,
         wrong_plans_take_no_space, new_limits_hold_at_once, space_outlives_starts, space_under_kills, space_of_a_volume, a_mount_is_told]

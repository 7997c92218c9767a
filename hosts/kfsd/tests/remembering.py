"""What a user can make kfsd keep, kind by kind: it is counted, and it is little."""
import struct
import time

import frames
from leasing import FOR_EVER, LEASED, by_number, by_path, does, drop
from running import READY, Daemon, lease, lease_by_path, numbered, pretender, user

from fuzzing.codec import DIRECTORY, FILE, Create, Log, Rename, encode_log

USERS = [user(1000, 7, (2, 4999)), user(1001, 8)]
MIB = 1 << 20
# What the allocator may hold back, and a few tables.
SLACK = 3 * MIB


def grows_by(daemon, work, most):
    """Does some work, and looks how much more kfsd has then."""
    before = daemon.resident()
    work()
    time.sleep(0.2)
    more = daemon.resident() - before
    print(f"    {more >> 10} KiB more, where {most >> 10} may be")
    assert more <= most, more


def leases_by_many_paths(made):
    """A directory is renamed and leased by its new path of 20,000 bytes, again and again: no path stays."""
    depth, name = 80, b"n" * 250
    with Daemon(*made, users=USERS, tiers=(512, 8, 8)).start() as daemon:
        seven = daemon.connect(7)
        assert by_number(seven, 1) == 1
        does(seven, Create(1, b"a0", 2, DIRECTORY, 0o755))
        assert by_number(seven, 2) == 2
        for at in range(depth):
            does(seven, Create(2 + at, name, 3 + at, DIRECTORY, 0o755))
            assert by_number(seven, 3 + at) == 3 + at
        inner = b"/" + b"/".join([name] * depth)

        def work():
            for at in range(400):
                does(seven, Rename(1, b"a%d" % at, 1, b"a%d" % (at + 1)))
                assert by_path(seven, b"/a%d" % (at + 1) + inner) == 2 + depth
            for node in range(1, 3 + depth):
                drop(seven, node)

        work_once = [by_path(seven, b"/a0" + inner)]
        assert work_once == [2 + depth]
        grows_by(daemon, work, SLACK)
        assert daemon.status()["desk"]["leases"] == 0


def leases_and_wants(made):
    """2,000 leases, and as many that another client wants, by number and by paths of 4,000 bytes."""
    depth, name = 16, b"n" * 250
    with Daemon(*made, users=USERS, tiers=(512, 8, 8)).start() as daemon:
        seven, eight = daemon.connect(7), daemon.connect(8)
        for above, node in zip((1, *range(4000, 4000 + depth)), range(4000, 4000 + depth)):
            assert by_number(seven, above) == above
            does(seven, Create(above, name, node, DIRECTORY, 0o755))
        last, path = 3999 + depth, b"/" + b"/".join([name] * depth) + b"/f%d"
        assert by_number(seven, last) == last
        for first in range(0, 2000, 500):
            does(seven, *[Create(last, b"f%d" % at, 2 + at, FILE, 0o666) for at in range(first, first + 500)])

        def work():
            for at in range(2000):
                assert by_number(seven, 2 + at) == 2 + at
            for at in range(2000):
                call = lease(8, FOR_EVER, 2 + at, True) if at % 2 else lease_by_path(8, FOR_EVER, path % at, True)
                assert eight.ask(1, call).answer[4] != LEASED

        grows_by(daemon, work, SLACK)
        assert daemon.status()["desk"]["wanted_leases"] == 1024

        def ask():
            asking = [daemon.connect(7) for _ in range(60)]
            for it in asking:
                for number in range(16):
                    it.send(number, b"\xf3" + bytes(8))
            time.sleep(1)
            return asking

        # an answer has 651 bytes at most
        grows_by(daemon, lambda: held.extend(ask()), SLACK + 60 * 16 * 1024)


held = []


def frames_that_wait(made):
    """Logs whose plans have a row for each 22 bytes take what their bytes take, and what is sent of them twice that."""
    row = b"".join(struct.pack(">IQQB", 2 + at % 2, at, 1, 2) for at in range(8192))
    plan = b"KPLN\x01" + struct.pack(">HHI", 0, 0, 8192 * 18) + row * 18
    call = struct.pack(">BII", 1, 7, 4) + b"KLOG" + struct.pack(">I", len(plan)) + plan
    with pretender(Daemon(*made, stop_seconds=1), READY + "time.sleep(1000)").start() as daemon:
        waiting = []

        def work():
            for _ in range(8):
                waiting.append(daemon.connect(7))
                waiting[-1].send(1, call)
            daemon.wait_for(lambda: daemon.status()["kfs_serve"]["waiting_calls"] >= 7)

        grows_by(daemon, work, 10 * len(call) + SLACK)


def answers_of_numbered_calls(made):
    """20,000 numbered calls leave 4,096 answers."""
    with Daemon(*made, users=USERS).start() as daemon:
        seven = daemon.connect(7)

        def work():
            for at in range(20_000):
                seven.send(1, numbered(at, lease(7, 0)))
                if at % 50 == 49:
                    assert all(seven.reply().answer for _ in range(50))

        grows_by(daemon, work, SLACK)


def plans_that_nobody_reads(made):
    """The reply to a plan counts as many bytes as it may have, so few of them wait for one who doesn't read."""
    with Daemon(*made, users=USERS, tiers=(512, 8, 8), bytes_a_connection=4_300_000, bytes_a_user=4_300_000).start() as daemon:
        log = encode_log(Log(1, 7, [Create(1, b"f" * 200 + b"%d" % at, 2 + at, FILE, 0o644) for at in range(250)]))
        asking = []

        def work():
            for _ in range(10):
                asking.append(daemon.connect(7))
                asking[-1].socket.settimeout(0.3)
                try:
                    for number in range(64):
                        asking[-1].send(number, frames.plan(log))
                except TimeoutError:
                    pass

        # 640 plans of 62,000 bytes would be 40 MB
        grows_by(daemon, work, 2 * 4_300_000 + SLACK)
        assert daemon.connect(8).ask(1, lease(8, 10)).answer


TESTS = [leases_by_many_paths, leases_and_wants, frames_that_wait, answers_of_numbered_calls, plans_that_nobody_reads]

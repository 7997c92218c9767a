"""kfsd tells when nodes were changed."""
import struct
import time

from killing import YES, submission
from running import READY, Daemon, lease, lease_by_path, numbered, pretender, user

from benchmarks import FILE, file_gone, files_made, log_of, node, plan_of, put
from fuzzing.codec import Chmod, Write

USERS = [user(1000, 7, (2, 999)), user(1001, 8)]


def submit(log, plan, client=7):
    return struct.pack(">BII", 1, client, len(log)) + log + struct.pack(">I", len(plan)) + plan


def written(number):
    """The call that writes two bytes to an empty file."""
    return submit(log_of([Write(number, 0, b"ab")]), plan_of([], [node(number, 2)], [put(number, 0, 2, 0, 0)]))


def moded(number, size, mode):
    return submit(log_of([Chmod(number, mode)]), plan_of([], [node(number, size, FILE, mode)]))


def times(connection, number):
    """When a node's bytes and anything of it were changed, in seconds since 1970; none where that isn't known."""
    connection.send(1, b"\xf4" + struct.pack(">I", number))
    _, said = connection.next()
    assert said[0] == 0xF4 and len(said) == (18 if said[1] else 2), said
    return tuple(it / 1e9 for it in struct.unpack(">qq", said[2:])) if said[1] else None


class Now:
    """The time during which something happens, and what the clocks that are read between may say."""

    def __enter__(self):
        self.began = time.time()
        return self

    def __exit__(self, *_):
        self.ended = time.time()

    def has(self, moment):
        return self.began - 0.01 <= moment <= self.ended + 0.01


def done(connection, call):
    with Now() as now:
        reply = connection.ask(1, call)
        assert reply.answer[4] == YES, reply
    return now


def landings_are_stamped(made):
    """A Create stamps file and directory, a Write both times of the file, a Chmod one; an Unlink leaves none. A refused log stamps nothing."""
    with Daemon(*made, users=USERS).start() as daemon:
        seven = daemon.connect(7)
        assert seven.ask(0, lease(7, 1 << 40, writes=True)).answer
        assert times(seven, 1) is None and times(seven, 2) is None
        now = done(seven, submit(*files_made([b"a", b"b"])))
        stamps = times(seven, 1) + times(seven, 2) + times(seven, 3)
        assert all(now.has(it) for it in stamps), stamps
        for number in (2, 3):
            assert seven.ask(0, struct.pack(">BIBQI", 6, 7, 1, 1 << 40, number)).answer[4] == 4
        time.sleep(0.05)
        now = done(seven, written(2))
        assert all(now.has(it) for it in times(seven, 2)) and not now.has(times(seven, 1)[0]), times(seven, 2)
        before = times(seven, 2)
        time.sleep(0.05)
        now = done(seven, moded(2, 2, 0o600))
        assert times(seven, 2)[0] == before[0] and now.has(times(seven, 2)[1]) and times(seven, 2)[1] > before[1]
        assert daemon.connect(8).ask(1, submit(*files_made([b"c"], 9), client=8)).answer[4] == 2
        assert times(seven, 9) is None
        now = done(seven, submit(*file_gone(b"b", 3)))
        assert times(seven, 3) is None and now.has(times(seven, 1)[0])
        shown = times(seven, 1), times(seven, 2)
        assert daemon.stop()[0] == 0
        daemon.start()
        assert (times(daemon.connect(7), 1), times(daemon.connect(7), 2)) == shown
        assert times(daemon.connect(7), 3) is None


NO_NODE, SET, NOT_OWNER = 0, 1, 2
UNKNOWN = bytes([2, 128, 0, 0, 0, 0])


def set_time(connection, number, seconds):
    """Has a client set when a node was modified. Returns how that ended. Where kfs_serve has ended meanwhile, it asks again."""
    said = UNKNOWN
    while said == UNKNOWN:
        connection.send(1, b"\xf5" + struct.pack(">Iq", number, seconds * 1_000_000_000))
        _, said = connection.next()
    assert said[0] == 0xF5 and len(said) == 2, said
    return said[1]


def owners_set_times(made):
    """The owner of a node sets when it was modified, and who is privileged; nobody else. It lasts until its bytes are changed, and is there behind kills."""
    users = [*USERS, {**user(1002, 9), "privileged": True}]
    with Daemon(*made, users=users).start() as daemon:
        seven, eight, nine = (daemon.connect(client) for client in (7, 8, 9))
        assert seven.ask(0, lease(7, 1 << 40, writes=True)).answer
        landed = done(seven, submit(*files_made([b"a", b"b"])))
        with Now() as now:
            assert set_time(seven, 2, -5) == SET
        assert times(seven, 2)[0] == -5 and now.has(times(seven, 2)[1])
        assert set_time(eight, 3, 7) == NOT_OWNER and set_time(seven, 1, 7) == NOT_OWNER and set_time(seven, 9, 7) == NO_NODE
        assert landed.has(times(eight, 3)[0]) and times(eight, 9) is None
        assert set_time(nine, 3, 1 << 33) == SET and times(seven, 3)[0] == 1 << 33
        assert set_time(nine, 1, 77) == SET and times(seven, 1)[0] == 77
        # of all that is set, what was answered is there behind a kill of kfsd, and of kfs_serve
        for seconds in range(20, 25):
            assert set_time(seven, 2, seconds) == SET
            daemon.process.kill()
            daemon.process.wait()
            daemon.start()
            seven = daemon.connect(7)
            assert (times(seven, 2)[0], times(seven, 3)[0], times(seven, 1)[0]) == (seconds, 1 << 33, 77)
            daemon.kill_desk()
            assert times(seven, 2)[0] == seconds
        for number in (1, 2, 3):
            call = struct.pack(">BIBQI", 6, 7, 1, 1 << 40, number)
            # kfs_serve may end with it under way, the last time
            answer = seven.ask(0, call).answer or seven.ask(0, call).answer
            assert answer[4] == 4
        done(seven, moded(2, 0, 0o600))
        assert times(seven, 2)[0] == 24
        now = done(seven, submit(log_of([Write(2, 0, b"ab")]), plan_of([], [node(2, 2, FILE, 0o600)], [put(2, 0, 2, 0, 0)])))
        assert now.has(times(seven, 2)[0])
        done(seven, submit(*file_gone(b"b", 3)))
        assert times(seven, 3) is None and set_time(seven, 3, 9) == NO_NODE
        done(seven, submit(*files_made([b"c"], 3)))
        assert times(seven, 3)[0] > 1_000_000_000
        assert set_time(seven, 2, 9) == SET and daemon.stop()[0] == 0
        daemon.start()
        assert times(daemon.connect(7), 2)[0] == 9


def leases_on_what_is_gone_end(made):
    """kfsctl lists no lease on a node that was taken out."""
    with Daemon(*made, users=USERS).start() as daemon:
        seven = daemon.connect(7)
        assert seven.ask(0, lease(7, 1 << 40, writes=True)).answer
        done(seven, submit(*files_made([b"a"])))
        assert seven.ask(0, lease_by_path(7, 1 << 40, b"/a", writes=True)).answer[4] == 4
        assert daemon.status()["desk"]["leases"] == 2
        done(seven, submit(*file_gone(b"a", 2)))
        assert daemon.status()["desk"]["leases"] == 1
        daemon.kill_desk()
        daemon.wait_for(lambda: daemon.status()["kfs_serve"]["is_open"])
        assert daemon.status()["desk"]["leases"] == 1


def stamps_outlive_kills(made):
    """Behind a kill of kfsd no node has an older time than its landing, nor a later one than the next start."""
    with Daemon(*made, users=USERS).start() as daemon:
        landed = {}
        assert daemon.connect(7).ask(0, lease(7, 1 << 40, writes=True)).answer
        for turn in range(3):
            seven = daemon.connect(7)
            for at in range(10 * turn, 10 * turn + 10):
                landed[2 + at] = done(seven, submission(at)).began
            seven.send(1, submission(990 + turn))
            time.sleep(0.02)
            daemon.process.kill()
            daemon.process.wait()
            daemon.start()
            now, seven = time.time(), daemon.connect(7)
            assert all(began <= times(seven, number)[0] + 0.01 and times(seven, number)[0] <= now for number, began in landed.items())
        # one that nobody has been told of
        made_too = [at for at in range(3) if seven.ask(1, submission(990 + at)).answer[4] != YES]
        assert all(times(seven, 992 + at) for at in made_too)


def stamps_of_calls_left_by_kfs_serve(made):
    """kfs_serve is killed with submissions under way: each that has landed has a time."""
    with Daemon(*made, users=USERS).start() as daemon:
        seven = daemon.connect(7)
        assert seven.ask(0, lease(7, 1 << 40, writes=True)).answer
        landed = 0
        for at in range(0, 100, 5):
            for each in range(at, at + 5):
                seven.send(1, numbered(each, submission(each)))
            if at % 20 == 10:
                daemon.kill_desk()
            replies = [seven.reply() for _ in range(5)]
            for each, reply in zip(range(at, at + 5), replies):
                if reply.answer is None:
                    assert reply.refusal == ("Unknown", 0) and times(seven, 2 + each) is None
                else:
                    landed += 1
                    assert reply.answer[4] == YES and times(seven, 2 + each)
        assert landed >= 80, landed


def a_time_of_nothing(made):
    """A desk that never answers stamps nothing."""
    with pretender(Daemon(*made, users=USERS, stop_seconds=1), READY + "time.sleep(1000)").start() as daemon:
        seven, other = daemon.connect(7), daemon.connect(7)
        seven.send(1, submission(1))
        daemon.wait_for(lambda: daemon.status()["frames"]["sent"] == 1)
        assert times(other, 1) is None


TESTS = [landings_are_stamped, owners_set_times, leases_on_what_is_gone_end, stamps_outlive_kills, stamps_of_calls_left_by_kfs_serve, a_time_of_nothing]

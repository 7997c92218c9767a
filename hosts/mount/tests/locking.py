"""Locks hold between mounts of different users over kfsd: flock(), fcntl(), and what sqlite3 makes of them."""
import contextlib
import errno
import fcntl
import mmap  # noqa: F401
import os
import signal
import sqlite3
import struct
import time

import beside
from mounts import SOON, USER, can_mount, in_child, make_shared, mounted_by, unmount, wait, words_for
from running import Daemon, user

USERS = [user(USER + at, 7 + at, (2 + at * 20_000, 1 + (at + 1) * 20_000)) for at in range(3)]
# How long nothing is set behind a start of kfsd that wasn't there before, and some more.
GRACE = 10
# How many rows each user puts into a database.
ROWS = int(os.environ.get("LOCKED_ROWS", "200"))
READ, WRITE, UNLOCK = fcntl.F_RDLCK, fcntl.F_WRLCK, fcntl.F_UNLCK


class Process:
    """A process of a user, that does one thing behind another and tells what came of it."""

    def __init__(self, uid):
        (told, self.to), (self.told, tells) = os.pipe(), os.pipe()
        self.number = in_child(self.serve, told, tells, user=uid)
        os.close(told)
        os.close(tells)
        self.left = b""

    def serve(self, told, tells):
        os.close(self.to)
        signal.signal(signal.SIGUSR1, interrupted)
        files = {}
        with os.fdopen(told, "rb", buffering=0) as lines:
            for line in lines:
                try:
                    said = repr(eval(line, {"files": files, **globals()}))
                except OSError as fault:
                    said = f"errno.{errno.errorcode[fault.errno]}"
                os.write(tells, said.encode() + b"\n")

    def begin(self, what):
        os.write(self.to, what.encode() + b"\n")

    def end(self, seconds=SOON):
        """What came of it."""
        until = time.monotonic() + seconds
        os.set_blocking(self.told, False)
        while b"\n" not in self.left:
            with contextlib.suppress(BlockingIOError):
                self.left += os.read(self.told, 4096)
            assert time.monotonic() < until, "nothing came"
            time.sleep(0.002)
        line, _, self.left = self.left.partition(b"\n")
        return eval(line)

    def has_ended(self):
        with contextlib.suppress(BlockingIOError):
            os.set_blocking(self.told, False)
            self.left += os.read(self.told, 4096)
        return b"\n" in self.left

    def do(self, what):
        self.begin(what)
        return self.end()

    def open(self, path, name="a"):
        said = self.do(f"files.setdefault({name!r}, os.open({path!r}, os.O_RDWR)) and None")
        assert said is None, errno.errorcode.get(said, said)

    def close(self):
        for it in (self.to, self.told):
            os.close(it)
        # it may wait for what never comes where a test has failed
        os.kill(self.number, signal.SIGKILL)
        wait(self.number)


def interrupted(_signal, _frame):
    """Without this Python makes the call again."""
    raise InterruptedError(errno.EINTR, "a signal")


def flock(kind, name="a"):
    return f"fcntl.flock(files[{name!r}], {kind})"


def lock(kind, first=0, count=0, name="a", waits=False):
    """A lock of fcntl()."""
    return f"set_lock(files[{name!r}], {kind}, {first}, {count}, {waits})"


def set_lock(file, kind, first, count, waits):
    fcntl.fcntl(file, fcntl.F_SETLKW if waits else fcntl.F_SETLK, struct.pack("hhqqi", kind, os.SEEK_SET, first, count, 0))


def seen_lock(name="a", first=0, count=0, kind=WRITE):
    return f"get_lock(files[{name!r}], {kind}, {first}, {count})"


def get_lock(file, kind, first, count):
    """The lock that is in the way: its kind, first byte, and how many; no more where there is none."""
    found = struct.unpack("hhqqi", fcntl.fcntl(file, fcntl.F_GETLK, struct.pack("hhqqi", kind, os.SEEK_SET, first, count, 0)))
    return None if found[0] == UNLOCK else (found[0], found[2], found[3])


@contextlib.contextmanager
def mounts_of(made, users=USERS[:2], **more):
    """A daemon, the mounts of users, and the folder of all in each."""
    with Daemon(*made, users=users, tiers=(4096, 16, 16), **more).start() as daemon:
        with contextlib.ExitStack() as stack:
            mounts = [stack.enter_context(mounted_by(*words_for(daemon, it), uid=it["uid"])) for it in users]
            make_shared(mounts[0][0])
            with open(f"{mounts[0][0]}/shared/a", "wb") as it:
                os.chmod(it.fileno(), 0o666)
                os.fsync(it.fileno())
            yield daemon, [f"{folder}/shared" for folder, _ in mounts], [process for _, process in mounts]


@contextlib.contextmanager
def processes_of(folders, users=USERS):
    """A process of each user, which has the file `a` of the folder of all open."""
    with contextlib.ExitStack() as stack:
        found = [stack.enter_context(contextlib.closing(Process(it["uid"]))) for it, _ in zip(users, folders)]
        for process, folder in zip(found, folders):
            process.open(f"{folder}/a")
        yield found


def flocks_hold(made):
    """A lock by flock() keeps another user's off, shared or exclusive, until it is given up, or its file is closed."""
    if not can_mount():
        return
    with mounts_of(made) as (_daemon, folders, _), processes_of(folders) as (mine, other):
        assert mine.do(flock(fcntl.LOCK_EX)) is None
        assert other.do(flock(fcntl.LOCK_EX | fcntl.LOCK_NB)) == errno.EAGAIN
        assert other.do(flock(fcntl.LOCK_SH | fcntl.LOCK_NB)) == errno.EAGAIN
        # the two kinds don't see each other
        assert other.do(lock(WRITE)) is None
        assert mine.do(flock(fcntl.LOCK_SH)) is None
        assert other.do(flock(fcntl.LOCK_SH | fcntl.LOCK_NB)) is None
        assert mine.do(flock(fcntl.LOCK_EX | fcntl.LOCK_NB)) == errno.EAGAIN
        # who waits gets it once the other one gives it up
        mine.begin(flock(fcntl.LOCK_EX))
        time.sleep(0.5)
        assert not mine.has_ended()
        assert other.do(flock(fcntl.LOCK_UN)) is None
        assert mine.end() is None
        other.begin(flock(fcntl.LOCK_SH))
        time.sleep(0.3)
        assert not other.has_ended()
        assert mine.do("os.close(files.pop('a'))") is None
        assert other.end() is None


def ranges_hold(made):
    """A lock by fcntl() keeps another user's off its bytes alone, and F_GETLK tells of it. It goes with any close of its process."""
    if not can_mount():
        return
    with mounts_of(made) as (_daemon, folders, _), processes_of(folders) as (mine, other):
        assert mine.do(lock(WRITE, 10, 10)) is None and mine.do(lock(READ, 100)) is None
        assert other.do(lock(READ, 19, 1)) == errno.EAGAIN and other.do(lock(WRITE, 20, 80)) is None
        assert other.do(lock(READ, 1 << 40, 5)) is None and other.do(lock(WRITE, 1 << 40, 5)) == errno.EAGAIN
        assert other.do(seen_lock(first=0, count=100)) == (WRITE, 10, 10)
        assert other.do(seen_lock(first=30)) == (READ, 100, 0) and mine.do(seen_lock(first=99, count=1)) == (WRITE, 20, 80)
        assert mine.do(lock(UNLOCK, 12, 3)) is None
        assert other.do(lock(WRITE, 12, 3)) is None and other.do(lock(WRITE, 11, 1)) == errno.EAGAIN
        other.begin(lock(WRITE, 5, 15, waits=True))
        time.sleep(0.3)
        assert not other.has_ended()
        mine.open(f"{folders[0]}/a", "b")
        assert mine.do("os.close(files['b'])") is None
        assert other.end() is None
        # an own one of the open file goes with that alone
        assert other.do(lock(UNLOCK)) is None
        mine.open(f"{folders[0]}/a", "c")
        own = struct.pack("hhqqi", WRITE, os.SEEK_SET, 0, 0, 0)
        assert mine.do(f"fcntl.fcntl(files['c'], 37, {own!r}) and None") is None
        assert other.do(lock(READ)) == errno.EAGAIN
        assert mine.do("os.close(files['a'])") is None and other.do(lock(READ)) == errno.EAGAIN
        assert mine.do("os.close(files['c'])") is None
        until = time.monotonic() + SOON
        while other.do(lock(WRITE)) is not None:
            assert time.monotonic() < until


def who_waits_goes_on(made):
    """A lock that is waited for is had by an unlock, and by the death of the other mount; a signal ends the wait. A circle is refused."""
    if not can_mount():
        return
    with mounts_of(made, USERS) as (_daemon, folders, mounts), processes_of(folders) as (mine, other, third):
        assert mine.do(lock(WRITE, 0, 5)) is None and other.do(lock(WRITE, 5, 5)) is None
        other.begin(lock(WRITE, 0, 5, waits=True))
        time.sleep(0.3)
        # its mount goes on meanwhile
        assert os.listdir(folders[1]) == ["a"] and not other.has_ended()
        os.kill(other.number, signal.SIGUSR1)
        assert other.end() == errno.EINTR
        assert other.do(seen_lock(first=0, count=5)) == (WRITE, 0, 5)
        other.begin(lock(WRITE, 0, 5, waits=True))
        time.sleep(0.3)
        assert mine.do(lock(WRITE, 5, 5, waits=True)) == errno.EDEADLK
        assert not other.has_ended()
        assert mine.do(lock(UNLOCK, 0, 5)) is None and other.end() is None
        # its mount dies
        third.begin(lock(WRITE, 0, 10, waits=True))
        mine.begin(flock(fcntl.LOCK_SH))
        time.sleep(0.3)
        assert mine.end() is None and not third.has_ended()
        mounts[1].kill()
        assert third.end() is None
        mounts[1].wait()
        unmount(os.path.dirname(folders[1]))
        mounts[1].send_signal, mounts[1].wait = (lambda *_: None), (lambda *_: 0)


def locks_outlive_kfsd(made):
    """A lock is held behind a kill of kfsd, and nobody else gets it in between; a new one is had when those that had some had their time."""
    if not can_mount():
        return
    with mounts_of(made) as (daemon, folders, _), processes_of(folders) as (mine, other):
        assert mine.do(lock(WRITE, 0, 5)) is None and mine.do(flock(fcntl.LOCK_EX)) is None
        other.begin(lock(WRITE, 0, 5, waits=True))
        time.sleep(0.3)
        daemon.process.kill()
        daemon.process.wait()
        daemon.start()
        began = time.monotonic()
        # it isn't known before whether somebody had it
        assert other.has_ended() is False
        said = mine.do("os.pwrite(files['a'], b'mine', 0)")
        assert said == 4, said
        while time.monotonic() < began + GRACE + 3:
            assert not other.has_ended()
            time.sleep(0.1)
        assert mine.do(lock(UNLOCK, 0, 5)) is None
        assert other.end() is None
        assert other.do("os.pread(files['a'], 4, 0)") == b"mine"
        assert other.do(flock(fcntl.LOCK_EX | fcntl.LOCK_NB)) == errno.EAGAIN


def who_was_away_has_lost_it(made):
    """A mount that stands still while kfsd starts anew has lost its lock: it reads and writes that file no more until it gives the lock up."""
    if not can_mount():
        return
    with mounts_of(made, duties={"lease_seconds": 4, "wanted_seconds": 1}) as (daemon, folders, mounts), processes_of(folders) as (mine, other):
        assert mine.do("os.pwrite(files['a'], b'before', 0)") == 6 and mine.do("os.fsync(files['a'])") is None
        assert mine.do(lock(WRITE)) is None and mine.do("os.pread(files['a'], 9, 0)") == b"before"
        # it isn't handed in before the lock is lost, and never is behind that
        assert mine.do("os.pwrite(files['a'], b'stale', 0)") == 5
        mounts[0].send_signal(signal.SIGSTOP)
        daemon.process.kill()
        daemon.process.wait()
        daemon.start()
        other.begin(lock(WRITE, waits=True))
        assert other.end() is None
        assert other.do("os.pwrite(files['a'], b'behind', 0)") == 6
        mounts[0].send_signal(signal.SIGCONT)
        until = time.monotonic() + SOON
        while (said := mine.do("os.pread(files['a'], 9, 0)")) != errno.EIO:
            assert said == b"stalee" and time.monotonic() < until, said
        assert mine.do("os.pwrite(files['a'], b'lost', 0)") == errno.EIO
        assert mine.do(lock(READ, 0, 1)) == errno.EIO
        assert mine.do(lock(UNLOCK)) is None
        mine.begin(lock(WRITE, waits=True))
        assert other.do(lock(UNLOCK)) is None
        assert mine.end() is None and mine.do("os.pread(files['a'], 9, 0)") == b"behind"
        assert mine.do("os.fsync(files['a'])") == errno.EIO and mine.do("os.fsync(files['a'])") is None
        assert mine.do(lock(UNLOCK)) is None and other.do(lock(READ, waits=True)) is None
        assert other.do("os.pread(files['a'], 9, 0)") == b"behind"


def what_was_written_is_seen(made):
    """Who gets a lock finds all that was written under it before, also what the kernel has kept, and by mmap()."""
    if not can_mount():
        return
    with mounts_of(made) as (_daemon, folders, _), processes_of(folders) as both:
        assert both[0].do("os.pwrite(files['a'], bytes(8), 0)") == 8 and both[0].do("os.fsync(files['a'])") is None
        for one in both:
            # behind a lock it is as long as it is
            assert one.do(lock(READ, waits=True)) is None
            assert one.do("files.setdefault('map', mmap.mmap(files['a'], 8, prot=mmap.PROT_READ)) and None") is None
            assert one.do("files['map'][:]") == bytes(8)
            assert one.do(lock(UNLOCK)) is None
        for index in range(40):
            one = both[index % 2]
            assert one.do(lock(WRITE, waits=True)) is None
            assert one.do("int.from_bytes(os.pread(files['a'], 8, 0), 'big')") == index, index
            assert one.do("int.from_bytes(files['map'][:], 'big')") == index, index
            assert one.do("os.fstat(files['a']).st_size") == 8 + index
            assert one.do(f"os.pwrite(files['a'], ({index} + 1).to_bytes(8, 'big') + bytes({index} + 1), 0)") == 9 + index
            assert one.do(lock(UNLOCK)) is None


def put_rows(path, uid, count, answered):
    """A user puts rows into a database, and tells each that was answered."""
    base = sqlite3.connect(path, timeout=SOON * 4, isolation_level=None)
    for index in range(count):
        base.execute("insert into rows values (?, ?)", (uid, index))
        os.write(answered, f"{uid} {index}\n".encode())
    base.close()


def a_database(path, mode):
    base = sqlite3.connect(path, isolation_level=None)
    assert base.execute(f"pragma journal_mode = {mode}").fetchone()[0] == mode
    base.execute("create table rows (uid integer, number integer)")
    base.close()
    os.chmod(path, 0o666)
    beside.sync(path)


def made_base(folder, mode):
    path = f"{folder}/base"
    assert wait(in_child(a_database, path, mode, user=USER)) == 0
    return path


def begin_rows(folder, it, count):
    """A user begins to put rows. Its process, and where it tells those that were answered."""
    answered, tells = os.pipe()
    child = in_child(put_rows, f"{folder}/base", it["uid"], count, tells, user=it["uid"])
    os.close(tells)
    return child, os.fdopen(answered)


def end_rows(begun):
    """How processes have ended, and all rows that were answered, in order."""
    said = [line.split() for _, lines in begun for line in lines]
    [lines.close() for _, lines in begun]
    return [wait(child) for child, _ in begun], sorted((int(uid), int(number)) for uid, number in said)


def check_base(path, uid, tells):
    base = sqlite3.connect(path, timeout=SOON)
    os.write(tells, repr((base.execute("pragma integrity_check").fetchall(), base.execute("select uid, number from rows").fetchall())).encode() + b"\n")
    base.close()


def rows_in(path, it):
    answered, tells = os.pipe()
    child = in_child(check_base, path, it["uid"], tells, user=it["uid"])
    os.close(tells)
    with os.fdopen(answered) as lines:
        found = eval(lines.readline())
    assert wait(child) == 0
    return found


def are_rows(folders, users, due):
    """A database is whole, and has the rows that were answered, by what each user sees."""
    for folder, it in zip(folders, users):
        integrity, rows = rows_in(f"{folder}/base", it)
        assert integrity == [("ok",)] and sorted(rows) == due, (integrity, len(rows), len(due))


def databases_lose_nothing(made):
    """Two users put rows into one database at once, over a mount each: each row that was answered is there."""
    if not can_mount():
        return
    with mounts_of(made) as (_daemon, folders, _):
        made_base(folders[0], "delete")
        began = time.monotonic()
        statuses, due = end_rows([begin_rows(folder, it, ROWS) for folder, it in zip(folders, USERS)])
        took = time.monotonic() - began
        assert statuses == [0, 0] and len(due) == 2 * ROWS, (statuses, len(due))
        are_rows(folders, USERS, due)
        print(f"    {2 * ROWS} rows, {took / ROWS / 2 * 1000:.0f} ms each")


def one_mount_shares_memory(made):
    """With a log beside the database (WAL) processes of sqlite3 share memory. Those of one mount do; one of a second mount is refused, and loses no row."""
    if not can_mount():
        return
    with mounts_of(made) as (_daemon, folders, _):
        made_base(folders[0], "wal")
        statuses, due = end_rows([begin_rows(folders[0], USERS[0], ROWS // 4) for _ in range(2)])
        assert statuses == [0, 0], statuses
        are_rows(folders, USERS, due)
        child, lines = begin_rows(folders[0], USERS[0], ROWS)
        first = lines.readline()
        second, none = end_rows([begin_rows(folders[1], USERS[1], 1)])
        assert (second, none) == ([1], []), (second, none)
        statuses, more = end_rows([(child, lines)])
        assert statuses == [0], statuses
        # it may once the other mount has closed it
        statuses, last = end_rows([begin_rows(folders[1], USERS[1], ROWS // 4)])
        assert statuses == [0], statuses
        are_rows(folders, USERS, sorted([*due, tuple(map(int, first.split())), *more, *last]))


TESTS = [flocks_hold, ranges_hold, who_waits_goes_on, locks_outlive_kfsd, who_was_away_has_lost_it, what_was_written_is_seen, databases_lose_nothing, one_mount_shares_memory]

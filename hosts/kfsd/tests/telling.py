"""A log that can't be written, or that nobody reads."""
import contextlib
import fcntl
import os
import signal
import time

from running import HELLO, READY, Daemon, lease, pretender

# The least that a pipe may hold.
PAGE = 4096


def begin(daemon, told):
    """Starts it with this standard error, and waits until clients may connect."""
    daemon.begin(told)
    daemon.wait_for(lambda: os.path.exists(f"{daemon.room}/socket"))
    time.sleep(0.2)
    return daemon


def has_it_tell(daemon, count):
    """Has it tell so many lines, and looks whether it answers all the while."""
    for _ in range(count):
        daemon.process.send_signal(signal.SIGHUP)
        with contextlib.closing(daemon.connect(7)) as seven:
            began = time.monotonic()
            seven.send(1, HELLO)
            assert seven.next()[1][:1] == HELLO and time.monotonic() - began < 4


@contextlib.contextmanager
def pipe():
    """The two ends of a pipe that holds as little as may be."""
    ends = os.pipe()
    fcntl.fcntl(ends[1], fcntl.F_SETPIPE_SZ, PAGE)
    try:
        yield ends
    finally:
        for end in ends:
            with contextlib.suppress(OSError):
                os.close(end)


def a_log_on_a_full_disk(made):
    """What can't be written is counted, and all else goes on."""
    with open("/dev/full", "wb") as full, Daemon(*made) as daemon:
        begin(daemon, full)
        has_it_tell(daemon, 3)
        assert daemon.status()["log_lines_dropped"] >= 4
        assert daemon.connect(7).ask(1, lease(7, 10)).answer
        assert daemon.stop()[0] == 0


def a_log_whose_reader_is_gone(made):
    """The same where the reader of a pipe has ended."""
    with pipe() as (from_it, to), Daemon(*made) as daemon:
        begin(daemon, to)
        os.close(from_it)
        has_it_tell(daemon, 3)
        assert daemon.status()["log_lines_dropped"] >= 3
        assert daemon.stop()[0] == 0


def a_log_that_nobody_reads(made):
    """A full pipe holds nobody up, neither a stop. Once it is read the lines that still wait come."""
    with pipe() as (from_it, to), Daemon(*made, users=None) as daemon:
        begin(daemon, to)
        has_it_tell(daemon, 200)
        assert daemon.status()["log_lines_dropped"] == 0
        said = b""
        while said.count(b"read anew") < 200:
            said += os.read(from_it, PAGE)
        # far more than may wait
        end = time.monotonic() + 60
        while daemon.status()["log_lines_dropped"] == 0:
            has_it_tell(daemon, 100)
            assert time.monotonic() < end
        status, time_taken = daemon.stop()
        assert status == 0 and time_taken < 10, (status, time_taken)


def last_words_that_nobody_reads(made):
    """kfs_serve says why it ends, and isn't held up by a full pipe: its status is heard."""
    script = READY + "sys.stdin.buffer.read(12); sys.stderr.write('spoiled ' * 100 + '\\n'); sys.stderr.flush(); sys.exit(3)"
    with pipe() as (_, to), pretender(Daemon(*made), script) as daemon:
        os.set_blocking(to, False)
        with contextlib.suppress(BlockingIOError):
            while True:
                os.write(to, b"x")
        os.set_blocking(to, True)
        begin(daemon, to)
        daemon.connect(7).send(1, lease(7, 10))
        assert daemon.ended() == 3
    with pretender(Daemon(*made), script).start() as daemon:
        daemon.connect(7).send(1, lease(7, 10))
        assert daemon.ended() == 3 and "kfs_serve says: spoiled" in daemon.said()


TESTS = [a_log_on_a_full_disk, a_log_whose_reader_is_gone, a_log_that_nobody_reads, last_words_that_nobody_reads]

"""Connections that hang harm none but themselves."""
import contextlib
import os
import signal
import socket
import statistics
import struct
import threading
import time

from running import READY, SOON, Daemon, frame, lease, pretender

# How much memory kfsd may have in a run, with some of it for the allocator.
MEMORY = 160 << 20
CALLS = 300
# 20 frames of 4 MiB go through 32 MiB seven at a time, and each seven have 2 seconds.
SLOWEST = 12


def latencies(connection, first):
    """How long each of some calls takes, one after another, in seconds."""
    found = []
    for at in range(CALLS):
        began = time.monotonic()
        assert connection.ask(at, lease(connection.client, first + at)).answer
        found.append(time.monotonic() - began)
    return found


def compare(name, before, during):
    """Says both, and that the calls are about as fast: this is a machine that others use, so the bound is wide."""
    middles = [1e6 * statistics.median(it) for it in (before, during)]
    late = [1e6 * sorted(it)[int(0.99 * CALLS)] for it in (before, during)]
    print(f"    {name}: median {middles[0]:.0f} us alone, {middles[1]:.0f} us beside them; 99 of 100 in {late[0]:.0f} and {late[1]:.0f} us")
    assert middles[1] < 5 * middles[0] + 50_000, "others' calls have become slow"


def fill(connection, data):
    """Sends as much as is taken within a while, again and again, and reads nothing. Returns how many bytes."""
    count = 0
    connection.socket.settimeout(0.3)
    with contextlib.suppress(TimeoutError):
        while count < 64 << 20:
            count += connection.socket.send(data)
    return count


def are_ended(daemon, connections, data):
    """Whether all connections of the first user have ended. Those that haven't send what is taken at once."""
    for it in connections:
        it.socket.settimeout(0)
        with contextlib.suppress(OSError):
            it.socket.send(data)
    return daemon.status()["user"][0]["connections"] == 0


def readers_that_never_read(made):
    """8 connections send calls and never read. They stop being read, others go on, and they are ended."""
    with Daemon(*made, reply_seconds=3, frames_a_user=256).start() as daemon:
        other = daemon.connect(9)
        before = latencies(other, 10)
        hanging = [daemon.connect(7) for _ in range(8)]
        data = b"".join(frame(number, 7, lease(7, 10)) for number in range(1000))
        taken = [fill(it, data) for it in hanging]
        compare("readers that never read", before, latencies(other, 10_000))
        # a socket's buffers hold much; kfsd itself holds what the limits say
        assert max(taken) < 8 << 20, taken
        assert daemon.resident() < MEMORY, daemon.resident()
        # where all replies went into a socket's buffers nothing is late, so they send more
        daemon.wait_for(lambda: are_ended(daemon, hanging, data))
        assert daemon.status()["connections"]["too_slow"] >= 1
        daemon.wait_for(lambda: daemon.frames_left() == 256)
        assert daemon.status()["user"][0]["bytes_left"] == 32 << 20
        assert daemon.connect(7).ask(1, lease(7, 10)).answer


def a_slow_reader(made):
    """A connection reads a byte now and then. Another one's calls go on, and at last it has all of its replies, in order."""
    with Daemon(*made, frames_a_connection=8).start() as daemon:
        slow, other = daemon.connect(7), daemon.connect(9)
        slow.socket.sendall(b"".join(frame(number, 7, lease(7, 10)) for number in range(500)))
        for at in range(100):
            slow.left += slow.socket.recv(1)
            assert other.ask(at, lease(9, 10)).answer
        assert [slow.next()[0] for _ in range(500)] == list(range(500))


def long_frames_that_never_end(made):
    """20 connections begin a frame of 4 MiB and send little of it: only their own user waits, until they are ended."""
    with Daemon(*made, frame_seconds=2).start() as daemon:
        other = daemon.connect(9)
        before = latencies(other, 10)
        hanging = [daemon.connect(7) for _ in range(20)]
        for it in hanging:
            it.socket.sendall(struct.pack(">III", 4 << 20, 1, 7) + bytes(10))
        daemon.wait_for(lambda: daemon.status()["user"][0]["bytes_left"] < 5 << 20)
        compare("frames that never end", before, latencies(other, 10_000))
        assert daemon.resident() < MEMORY
        began = time.monotonic()
        # those that waited for room behind the first ones have their own time
        for it in hanging:
            assert it.is_ended()
        assert time.monotonic() - began < SLOWEST
        daemon.wait_for(lambda: daemon.status()["user"][0]["bytes_left"] == 32 << 20)


def a_byte_now_and_then(made):
    """Connections that send a byte every half second are ended when the frame's time is over."""
    with Daemon(*made, frame_seconds=2).start() as daemon:
        other = daemon.connect(9)
        hanging = [daemon.connect(7) for _ in range(50)]
        began = time.monotonic()
        is_ended = False
        while not is_ended:
            assert time.monotonic() - began < 10, "it goes on for ever"
            for it in hanging:
                with contextlib.suppress(OSError):
                    it.socket.send(b"\x00")
            assert other.ask(1, lease(9, 10)).answer
            time.sleep(0.5)
            is_ended = daemon.status()["user"][0]["connections"] == 0
        assert daemon.status()["connections"]["too_slow"] == 50


def gone_in_the_middle(made):
    """500 connections go in the middle of a head, of a body, or with replies under way. Nothing is left of them."""
    with Daemon(*made).start() as daemon:
        other = daemon.connect(9)
        whole = frame(1, 7, lease(7, 10))
        for at in range(500):
            it = daemon.connect(7)
            it.socket.sendall(whole * (at % 3) + whole[: at % len(whole)])
            it.close()
            if at % 50 == 0:
                assert other.ask(1, lease(9, 10)).answer
        daemon.wait_for(lambda: daemon.status()["user"][0]["connections"] == 0)
        daemon.wait_for(lambda: daemon.frames_left() == 1024)
        assert daemon.status()["user"][0]["bytes_left"] == 32 << 20
        assert daemon.status()["kfs_serve"]["starts"] == 1


def idle_ones(made):
    """Two users have 1,000 idle connections each, and a third one doesn't notice."""
    with Daemon(*made, connections_a_user=1000).start() as daemon:
        other = daemon.connect(9)
        before, small = latencies(other, 10), daemon.resident()
        idle = [daemon.connect(7 + at % 2) for at in range(2000)]
        daemon.wait_for(lambda: daemon.status()["connections"]["taken"] == 2001)
        compare("2,000 idle connections", before, latencies(other, 10_000))
        each = (daemon.resident() - small) / len(idle)
        print(f"    an idle connection takes about {each / 1024:.0f} KiB")
        assert each < 64 << 10
        assert idle[-1].ask(1, lease(idle[-1].client, 10)).answer


def busy(daemon, data):
    """A process that has as many frames under way as it may, until it is ended."""
    child = os.fork()
    if child:
        return child
    it = daemon.connect(7)
    it.socket.settimeout(None)
    threading.Thread(target=lambda: [it.socket.recv(65536) for _ in iter(int, 1)], daemon=True).start()
    with contextlib.suppress(OSError):
        while True:
            it.socket.sendall(data)
    os._exit(0)


def one_with_much_to_do(made):
    """A user whose processes have all under way that they may: another one's calls go between them."""
    with Daemon(*made).start() as daemon:
        other = daemon.connect(9)
        before = latencies(other, 10)
        # a submission of a log that is none: its bytes are kept and refused
        data = frame(1, 7, struct.pack(">BII", 1, 7, 60_000) + bytes(60_000) + bytes(4))
        children = [busy(daemon, data) for _ in range(3)]
        try:
            daemon.wait_for(lambda: daemon.status()["frames"]["sent"] > CALLS + 50)
            compare("a user with frames of 60 kB without end", before, latencies(other, 10_000))
            assert daemon.resident() < MEMORY
        finally:
            for child in children:
                os.kill(child, signal.SIGKILL)
                os.waitpid(child, 0)


def connecting_on(daemon, uid):
    """A process that connects as a user and goes in the middle of a frame, again and again, until it is ended."""
    child = os.fork()
    if child:
        return child
    os.setuid(uid)
    while True:
        with contextlib.suppress(OSError), socket.socket(socket.AF_UNIX) as it:
            it.connect(f"{daemon.room}/socket")
            it.send(frame(1, 7, lease(7, 10))[:-3])


def came(daemon):
    """How many connections have come, whether they were taken or not."""
    found = daemon.status()["connections"]
    return found["taken"] + found["turned_away"]


def connecting_times(daemon):
    """How long a new connection and a call take, some times one after another."""
    times = []
    for at in range(20):
        began = time.monotonic()
        it = daemon.connect(9)
        assert it.ask(at, lease(9, 10 + at)).answer
        times.append(time.monotonic() - began)
        it.close()
    return times


def those_who_come_and_go(made):
    """A listed user and a stranger connect without end, two processes each. Another one's new connections are taken and answered."""
    with Daemon(*made).start() as daemon:
        daemon.patience = 5 * SOON
        alone = max(connecting_times(daemon))
        for uid in (1000, 4242):
            before = came(daemon)
            children = [connecting_on(daemon, uid) for _ in range(2)]
            try:
                # on a machine with much else to do they don't come fast
                daemon.wait_for(lambda: came(daemon) > before + 2000)
                times = connecting_times(daemon)
                print(f"    beside connections of user {uid} without end a connection and a call took {1e3 * statistics.median(times):.0f} ms, at most {1e3 * max(times):.0f} ms; alone at most {1e3 * alone:.0f} ms")
                assert max(times) < 5 + 10 * alone, times
            finally:
                for child in children:
                    os.kill(child, signal.SIGKILL)
                    os.waitpid(child, 0)


def settled(daemon, read):
    """What a figure is once it doesn't change any more."""
    before, now = None, read(daemon.status())
    while before != now:
        time.sleep(0.3)
        before, now = now, read(daemon.status())
    return now


def frames_are_limited(made):
    """At a desk that never answers: so many frames of a connection and of a user are under way, and those of another user beside."""
    with pretender(Daemon(*made, frames_a_connection=10, frames_a_user=15, stop_seconds=1), READY + "time.sleep(1000)").start() as daemon:
        mine = [daemon.connect(7) for _ in range(2)]
        data = b"".join(frame(number, 7, lease(7, 10)) for number in range(100))
        mine[0].socket.sendall(data)
        assert settled(daemon, lambda status: status["frames"]["sent"]) == 10
        mine[1].socket.sendall(data)
        assert settled(daemon, lambda status: status["frames"]["sent"]) == 15
        assert daemon.frames_left() == 0
        other = daemon.connect(9)
        other.send(1, lease(9, 10))
        assert settled(daemon, lambda status: status["frames"]["sent"]) == 16
        # gone, they have their places until the desk has answered, or has ended
        for it in mine:
            it.close()
        time.sleep(0.5)
        assert daemon.frames_left() == 0
        daemon.kill_desk()
        assert other.reply().refusal == ("Unknown", 0)
        daemon.wait_for(lambda: daemon.status()["user"][0]["connections"] == 0)
        # what was read meanwhile is at the next process
        daemon.wait_for(lambda: daemon.said().count("kfs_serve is ready") == 2)
        settled(daemon, lambda status: status["frames"]["sent"])
        daemon.kill_desk()
        daemon.wait_for(lambda: daemon.frames_left() == 15)


def bytes_are_limited(made):
    """At a desk that reads nothing: so many bytes of a connection and of a user wait in kfsd, and it takes no more."""
    limits = {"frame_bytes": 100_000, "bytes_a_connection": 200_000, "bytes_a_user": 300_000, "frames_a_user": 100, "stop_seconds": 1}
    with pretender(Daemon(*made, **limits), READY + "time.sleep(1000)").start() as daemon:
        data = frame(1, 7, bytes(50_000 - 12))
        cost = len(data) - 12 + 256
        mine = [daemon.connect(7) for _ in range(3)]
        taken = [fill(mine[0], data)]
        # the window takes two frames; of the rest three fit
        assert settled(daemon, lambda status: status["frames"]["sent"]) == 2
        assert daemon.status()["user"][0]["bytes_left"] == 300_000 - 3 * cost
        taken += [fill(it, data) for it in mine[1:]]
        assert settled(daemon, lambda status: status["kfs_serve"]["waiting_calls"]) == 5
        # less than a frame is left
        assert daemon.status()["user"][0]["bytes_left"] == 300_000 - 5 * cost
        assert max(taken) < 1 << 20, taken


TESTS = [frames_are_limited, bytes_are_limited, readers_that_never_read, a_slow_reader, long_frames_that_never_end, a_byte_now_and_then, gone_in_the_middle, idle_ones, those_who_come_and_go, one_with_much_to_do]

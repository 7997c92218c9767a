"""Limits and duties that are read anew: less harms nobody's answer, more is of use at once, and a wrong file changes nothing."""
import contextlib
import os
import random
import signal
import time

from hanging import settled
from killing import USERS, Client, Shared, answered_by, look, run_with_kills, say
from living import reload
from machines import Cluster
from running import READY, Daemon, children_of, frame, lease, pretender, user

TOO_LONG, TOO_MANY, TOO_FAR = ("TooLong", 0), ("TooMany", 0), ("TooFar", 0)
# No limit on the bytes of a user may be less.
LEAST = 66_560
CHANGES = 30


@contextlib.contextmanager
def desk_stands_still(daemon):
    """Has kfs_serve answer nothing for a while."""
    held = children_of(daemon.process.pid)
    for it in held:
        signal.pidfd_send_signal(it, signal.SIGSTOP)
    try:
        yield
    finally:
        for it in held:
            with contextlib.suppress(ProcessLookupError):
                signal.pidfd_send_signal(it, signal.SIGCONT)
            os.close(it)


def sent(daemon):
    """How many frames kfs_serve has been given, once that doesn't change any more."""
    return settled(daemon, lambda status: status["frames"]["sent"])


def calls(client, numbers):
    return b"".join(frame(number, client, lease(client, 1000 + number)) for number in numbers)


def are_answered(connection, numbers):
    replies = [connection.reply() for _ in numbers]
    assert [it.number for it in replies] == list(numbers) and all(it.answer for it in replies), replies


def fewer_frames(made):
    """60 calls are under way where 4 may be from then on: each is answered, in order. Behind them 4 are under way at once, or what is left of them."""
    with Daemon(*made).start() as daemon:
        seven, other = daemon.connect(7), daemon.connect(7)
        with desk_stands_still(daemon):
            seven.socket.sendall(calls(7, range(60)))
            assert sent(daemon) == 60
            daemon.limits = {"frames_a_connection": 3, "frames_a_user": 4}
            reload(daemon)
            assert "frames_a_connection is 3 and was 64; frames_a_user is 4 and was 1024" in daemon.said()
            assert daemon.frames_left() == 0
            seven.socket.sendall(calls(7, range(60, 80)))
            other.socket.sendall(calls(7, range(20)))
            assert sent(daemon) == 60, "more than 4 are under way, and one more was taken"
        are_answered(seven, range(80))
        are_answered(other, range(20))
        daemon.wait_for(lambda: daemon.frames_left() == 4)
        with desk_stands_still(daemon):
            seven.socket.sendall(calls(7, range(80, 100)))
            assert sent(daemon) == 103
            other.socket.sendall(calls(7, range(20, 40)))
            assert sent(daemon) == 104
        are_answered(seven, range(80, 100))
        are_answered(other, range(20, 40))
        assert daemon.status()["kfs_serve"]["starts"] == 1


def fewer_bytes(made):
    """A frame of 4 MB is half there, and another one waits for room, where 66,560 bytes are allowed from then on: both are answered."""
    long = lease(7, 10) + bytes(4_000_000)
    with Daemon(*made, bytes_a_connection=5_000_000, bytes_a_user=5_000_000).start() as daemon:
        seven, other = daemon.connect(7), daemon.connect(7)
        data = frame(1, 7, long)
        seven.socket.sendall(data[:2_000_000])
        daemon.wait_for(lambda: daemon.status()["user"][0]["bytes_left"] < 1_000_000)
        other.socket.sendall(data[:12])
        # it has come as far as the head, or is taken for the long one that it is no more
        time.sleep(0.3)
        daemon.limits = {"frame_bytes": 1000, "bytes_a_connection": LEAST, "bytes_a_user": LEAST}
        reload(daemon)
        assert daemon.status()["user"][0]["bytes_left"] == 0
        seven.socket.sendall(data[2_000_000:])
        assert seven.reply().refusal == ("Trailing", 0)
        other.socket.sendall(data[12:])
        assert other.reply().refusal == ("Trailing", 0)
        assert seven.ask(2, lease(7, 10) + bytes(1000)).refusal == TOO_LONG
        assert seven.is_ended() and daemon.connect(7).ask(3, lease(7, 10)).answer
        daemon.wait_for(lambda: daemon.status()["user"][0]["bytes_left"] == LEAST)


def more_is_of_use_at_once(made):
    """At a desk that never answers, and with frames that wait already: more frames, bytes and connections are taken without a new connection."""
    few = {"frames_a_connection": 2, "frames_a_user": 3, "connections_a_user": 2, "stop_seconds": 1}
    with pretender(Daemon(*made, **few), READY + "time.sleep(1000)").start() as daemon:
        mine = [daemon.connect(7) for _ in range(2)]
        for it in mine:
            it.socket.sendall(calls(7, range(50)))
        assert sent(daemon) == 3 and daemon.connect(7).reply().refusal == TOO_MANY
        daemon.limits["frames_a_user"] = 4
        reload(daemon)
        assert sent(daemon) == 4
        daemon.limits |= {"frames_a_user": 100, "frames_a_connection": 30, "connections_a_user": 3}
        reload(daemon)
        assert sent(daemon) == 60
        third = daemon.connect(7)
        third.socket.sendall(calls(7, range(50)))
        assert sent(daemon) == 90
    few = {"frame_bytes": 60_000, "bytes_a_connection": 70_000, "bytes_a_user": 70_000, "stop_seconds": 1}
    with pretender(Daemon(*made, **few), READY + "time.sleep(1000)").start() as daemon:
        waiting = []
        for _ in range(3):
            waiting.append(daemon.connect(7))
            waiting[-1].socket.settimeout(0.3)
            with contextlib.suppress(TimeoutError):
                waiting[-1].socket.sendall(frame(1, 7, bytes(50_000)) * 4)
        # two are in the window of what is sent, and one waits
        assert sent(daemon) == 2 and daemon.status()["kfs_serve"]["waiting_calls"] == 1
        daemon.limits |= {"bytes_a_user": 250_000}
        reload(daemon)
        assert settled(daemon, lambda status: status["kfs_serve"]["waiting_calls"]) == 3, "one of each connection"
        daemon.limits |= {"bytes_a_connection": 250_000}
        reload(daemon)
        assert settled(daemon, lambda status: status["kfs_serve"]["waiting_calls"]) == 4


def fewer_connections(made):
    """Three connections of a user stay where one may be from then on, and no other one is taken until one is left."""
    with Daemon(*made).start() as daemon:
        mine = [daemon.connect(7) for _ in range(3)]
        assert all(it.ask(1, lease(7, 10)).answer for it in mine)
        daemon.limits = {"connections_a_user": 1}
        reload(daemon)
        assert all(it.ask(2, lease(7, 11)).answer for it in mine)
        assert daemon.connect(7).reply().refusal == TOO_MANY and daemon.connect(8).ask(1, lease(8, 10)).answer
        for it in mine[:2]:
            it.close()
        daemon.wait_for(lambda: daemon.status()["user"][0]["connections"] == 1)
        assert daemon.connect(7).reply().refusal == TOO_MANY
        mine[2].close()
        daemon.wait_for(lambda: daemon.status()["user"][0]["connections"] == 0)
        assert daemon.connect(7).ask(1, lease(7, 12)).answer


def other_times(made):
    """A shorter time for frames holds for the next one, also of a connection that is there."""
    with Daemon(*made).start() as daemon:
        seven = daemon.connect(7)
        assert seven.ask(1, lease(7, 10)).answer
        daemon.limits = {"frame_seconds": 1}
        reload(daemon)
        # up to its first byte there is no limit
        time.sleep(1.5)
        assert seven.ask(2, lease(7, 10)).answer
        seven.socket.sendall(frame(1, 7, lease(7, 10))[:20])
        assert seven.is_ended() and daemon.status()["connections"]["too_slow"] == 1


def duties_are_read_anew(made):
    """How long a lease may live, and whether the journal is begun anew at a stop."""
    with Daemon(*made).start() as daemon:
        seven = daemon.connect(7)
        now, longest = seven.moment()
        assert longest == 0 and seven.ask(1, lease(7, now + 5000)).answer
        daemon.duties |= {"lease_seconds": 100, "checkpoint_at_stop": True}
        reload(daemon)
        assert "checkpoint_at_stop is true and was false; lease_seconds is 100 and was 0" in daemon.said()
        now, longest = seven.moment()
        assert longest == 100 and seven.ask(2, lease(7, now + 200)).refusal == TOO_FAR and seven.ask(3, lease(7, now + 50)).answer
        assert len(daemon.kept()) == 2
        assert daemon.stop()[0] == 0
        assert daemon.kept() == []


def a_wrong_file_changes_nothing(made):
    """Of a file with something wrong nothing is taken, also not what is right. What waits for a new start is named, and the rest is taken."""
    with Daemon(*made, frames_a_connection=2).start() as daemon:
        seven, users = daemon.connect(7), list(daemon.users)
        wrong = [({"frame_bytes": 1 << 25}, users, "frame_bytes is over"), ({"frames_a_user": 0}, users, "no frame is allowed"), ({"frames": 1}, users, "unknown field"),
                 ({"connections_a_user": 1 << 30}, users, "files may be open"), ({}, [*users, users[0]], "is there twice")]
        for limits, others, why in wrong:
            daemon.limits, daemon.users = {"frames_a_connection": 9, "frames_a_user": 5} | limits, others
            reload(daemon)
            assert "the configuration stays as it is: " in daemon.said() and why in daemon.said().splitlines()[-1], daemon.said()[-500:]
            assert daemon.frames_left() == 1024
        daemon.users = users
        with desk_stands_still(daemon):
            seven.socket.sendall(calls(7, range(9)))
            assert sent(daemon) == 2
        are_answered(seven, range(9))
        daemon.limits, daemon.tiers, daemon.figures = {"frames_a_user": 5}, (64, 64, 128), "127.0.0.1:1"
        reload(daemon)
        assert "is read anew: frames_a_connection is 64 and was 2; frames_a_user is 5 and was 1024" in daemon.said()
        daemon.wait_for(lambda: "for the next start, since the configuration has it otherwise: tiers, figures" in daemon.said())
        assert daemon.frames_left() == 5
        reload(daemon)
        assert "is read anew: nothing has changed" in daemon.said()


def limits_change_under_load(made):
    """30 times other limits while 8 users have calls under way: each is answered, no connection ends, and none is made twice."""
    with Shared(*made, users=USERS).start() as daemon:
        chance = random.Random(CHANGES)

        def change():
            frames = chance.choice([1, 2, 5, 64])
            daemon.limits = {"frames_a_connection": frames, "frames_a_user": chance.choice([1, 3, 1024]), "bytes_a_connection": chance.choice([LEAST, 8 << 20]), "frame_bytes": chance.choice([100, 60_000])}
            daemon.limits |= {"bytes_a_user": chance.choice([LEAST, 32 << 20]), "connections_a_user": chance.choice([1, 256]), "reply_seconds": chance.choice([5, 30])}
            reload(daemon)

        clients = run_with_kills(daemon, CHANGES, change)
        assert all(it.gone == 0 and it.unknown == 0 for it in clients)
        assert daemon.stop()[0] == 0
        look(daemon, clients, answered_by(clients))
        say(f"{CHANGES} other limits", clients)


def members_read_it_anew(made):
    """On several machines the leader and a standby read it anew, each its own. Who is new is kept out: a volume's clients are fixed."""
    with Cluster(made) as cluster:
        leader = cluster.leader()
        standby = next(it for it in cluster.machines if it is not leader)
        seven = standby.connect(7)
        assert seven.ask(1, lease(7, 10)).answer
        for it in (leader, standby):
            it.users, it.limits = [*it.users, user(1003, 10, (500, 599))], {"frames_a_user": 77}
            reload(it)
            assert "is read anew: frames_a_user is 77 and was 1024; users: with 1003" in it.said()
            assert "user 1003 is kept out" in it.said() and "the volume's clients were fixed" in it.said()
            assert it.connect(10).reply().refusal == ("NoClient", 0)
        assert leader.frames_left() == 77 and standby.frames_left() == 77
        assert seven.ask(2, lease(7, 11)).answer and standby.connect(8).ask(1, lease(8, 10)).answer


TESTS = [members_read_it_anew, fewer_frames, fewer_bytes, more_is_of_use_at_once, fewer_connections, other_times, duties_are_read_anew, a_wrong_file_changes_nothing, limits_change_under_load]

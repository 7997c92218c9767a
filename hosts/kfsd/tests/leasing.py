"""Leases by path ask for permission, as those by number do; none is kept from who may have it; and nothing of a path is kept."""
import struct
import time

import frames
from living import reload
from running import Daemon, frame, lease, lease_by_path, numbered, user

from fuzzing.codec import DIRECTORY, FILE, Chmod, Create, Log, Unlink, encode_log

YES, LEASED, DROPPED, REFUSED = 1, 4, 5, 8
NO_SUCH_NAME, NOT_DIRECTORY, NO_SEARCH, PAST, HELD, NOT_ALLOWED = 3, 4, 5, 6, 7, 11
FOR_EVER = 1 << 40
FOUND = 3
USERS = [user(1000, 7, (2, 999)), user(1001, 8, (1000, 1999)), user(1002, 9, (2000, 2999))]


def does(connection, *entries, version=1):
    """Has a log of these entries made, by the plan that the desk makes of it. It lands."""
    log = encode_log(Log(version, connection.client, list(entries)))
    connection.send(90, frames.plan(log))
    number, said = connection.next()
    assert number == 90 and said[:3] == bytes([FOUND, 0x0A, 1]), said[:16]
    plan = said[3:]
    reply = connection.ask(91, struct.pack(">BII", 1, connection.client, len(log)) + log + struct.pack(">I", len(plan)) + plan)
    assert reply.answer[4] == YES, reply


def drop(connection, node):
    assert connection.ask(92, struct.pack(">BII", 3, connection.client, node)).answer[4] == DROPPED


def leased(reply):
    """The node of a lease that is granted, or the code and the index of the fault."""
    tag, rest = reply.answer[4], reply.answer[5:]
    if tag == LEASED:
        return int.from_bytes(rest, "big")
    assert tag == REFUSED, reply
    return (rest[0], int.from_bytes(rest[2:10], "big"))


def by_path(connection, path, writes=True, end=FOR_EVER):
    return leased(connection.ask(93, lease_by_path(connection.client, end, path, writes)))


def by_number(connection, node, writes=True, end=FOR_EVER):
    return leased(connection.ask(94, lease(connection.client, end, node, writes)))


def rows_of(daemon):
    return [line.split() for line in daemon.ask("leases").splitlines()[1:] if not line.startswith("client")]


def made_by(seven):
    """A directory `home` of client 7 alone, with a file, and a directory `open` for all, with a file."""
    assert by_number(seven, 1) == 1
    does(seven, Create(1, b"home", 2, DIRECTORY, 0o700), Create(2, b"f", 3, FILE, 0o600), Create(1, b"open", 4, DIRECTORY, 0o777), Create(4, b"f", 5, FILE, 0o600))
    drop(seven, 1)


def no_lease_without_permission(made):
    """Who may do nothing with a directory or a file gets no lease on it by its path, to read or to write; its owner does, and keeps it."""
    with Daemon(*made, users=USERS).start() as daemon:
        seven, eight = daemon.connect(7), daemon.connect(8)
        made_by(seven)
        for writes in (True, False):
            assert by_path(eight, b"/home", writes) == (NOT_ALLOWED, 0) == by_number(eight, 2, writes)
            assert by_path(eight, b"/home/f", writes)[0] == NO_SEARCH
        assert by_path(eight, b"/open/f", False) == (NOT_ALLOWED, 0)
        assert not rows_of(daemon)
        assert by_path(seven, b"/home") == 2 and by_path(seven, b"/home/f") == 3
        for _ in range(3):
            assert by_path(eight, b"/home")[0] == NOT_ALLOWED
        # nor does it want it
        assert daemon.status()["desk"]["wanted_leases"] == 0
        does(seven, Create(2, b"g", 6, FILE, 0o600))


def a_lease_to_remove_stands_in_nobodys_way(made):
    """Who may remove a file from its directory gets a lease on it by path, and loses it once its owner asks. In a directory with the sticky bit it gets none."""
    with Daemon(*made, users=USERS).start() as daemon:
        seven, eight = daemon.connect(7), daemon.connect(8)
        made_by(seven)
        assert by_number(eight, 5) == (NOT_ALLOWED, 0)
        assert by_path(eight, b"/open/f") == 5
        daemon.wait_for(lambda: by_number(seven, 5) == 5)
        assert [row[:2] for row in rows_of(daemon)] == [["5", "7"]]
        # the owner's stays, and is wanted
        assert by_path(eight, b"/open/f") == (HELD, 0)
        assert daemon.status()["desk"]["wanted_leases"] == 1
        drop(seven, 5)
        assert by_path(eight, b"/open/f") == 5 and by_number(eight, 4) == 4
        does(eight, Unlink(4, b"f", FILE))
        assert by_number(seven, 4)[0] == HELD
        drop(eight, 4)
        assert by_number(seven, 4) == 4
        does(seven, Create(4, b"g", 6, FILE, 0o600))
        does(seven, Chmod(4, 0o1777), version=2)
        drop(seven, 4)
        assert by_path(eight, b"/open/g") == (NOT_ALLOWED, 0)


def a_lease_ends_with_the_right_to_it(made):
    """A client that may write a file no more loses its lease on it once another one wants it."""
    with Daemon(*made, users=USERS).start() as daemon:
        seven, eight = daemon.connect(7), daemon.connect(8)
        assert by_number(seven, 1) == 1
        does(seven, Create(1, b"f", 2, FILE, 0o666))
        drop(seven, 1)
        assert by_number(eight, 2) == 2
        assert by_number(seven, 2)[0] == HELD
        # it may write it still
        time.sleep(0.3)
        assert [row[:2] for row in rows_of(daemon)] == [["2", "8"]]
        drop(eight, 2)
        assert by_number(seven, 2) == 2
        does(seven, Chmod(2, 0o644))
        drop(seven, 2)
        assert by_number(eight, 2) == (NOT_ALLOWED, 0)
        assert by_number(eight, 2, False) == 2
        assert by_number(seven, 2)[0] == HELD
        time.sleep(0.3)
        assert by_number(seven, 2)[0] == HELD, "who may read it keeps its lease to read"


def faults_of_paths_are_the_desks(made):
    """What is wrong with a path is told as the desk tells it, with its place; and a numbered one is told again."""
    with Daemon(*made, users=USERS).start() as daemon:
        seven, eight = daemon.connect(7), daemon.connect(8)
        made_by(seven)
        cases = {b"/home/x": (NO_SUCH_NAME, 1), b"/x/y": (NO_SUCH_NAME, 0), b"/home/f/x": (NOT_DIRECTORY, 2), b"": (2, 0), b"home": (2, 0), b"//": (2, 0), b"/home/": (2, 0), b"/" + b"a" * 256: (2, 0)}
        for path, fault in cases.items():
            assert by_path(seven, path) == fault, (path, by_path(seven, path))
        assert by_path(eight, b"/home/f") == (NO_SEARCH, 1)
        assert by_path(seven, b"/home", end=0) == (PAST, 0) and by_path(seven, b"/x", end=0) == (NO_SUCH_NAME, 0)
        for number, path, found in ((1, b"/home", 2), (2, b"/x", (NO_SUCH_NAME, 0))):
            for _ in range(2):
                assert leased(seven.ask(1, numbered(number, lease_by_path(7, FOR_EVER, path, True)))) == found
            assert leased(seven.ask(1, numbered(number))) == found
        # a name that comes to be is found by the next call, and not by the one before
        assert by_number(seven, 1) == 1
        does(seven, Create(1, b"x", 9, FILE, 0o600))
        assert leased(seven.ask(1, numbered(2, lease_by_path(7, FOR_EVER, b"/x", True)))) == (NO_SUCH_NAME, 0)
        assert by_path(seven, b"/x") == 9
        # bytes that are no call are refused as ever
        assert seven.ask(1, lease_by_path(7, 10, b"/") + b"x").refusal == ("Trailing", 0)
        assert seven.ask(1, lease_by_path(7, 10, b"/home")[:-1]).refusal[0] == "BadField"


def calls_keep_their_order(made):
    """Behind a lease by path a client's calls on the same connection are made with it, though nobody waits for the answer."""
    with Daemon(*made, users=USERS).start() as daemon:
        seven = daemon.connect(7)
        made_by(seven)
        for at in range(20):
            log = encode_log(Log(1, 7, [Create(2, b"n%d" % at, 10 + at, FILE, 0o600)]))
            seven.send(1, frames.plan(log))
            plan = seven.next()[1][3:]
            call = struct.pack(">BII", 1, 7, len(log)) + log + struct.pack(">I", len(plan)) + plan
            seven.socket.sendall(frame(1, 7, lease_by_path(7, FOR_EVER, b"/home", True)) + frame(2, 7, call) + frame(3, 7, struct.pack(">BII", 3, 7, 2)))
            assert [seven.reply().answer[4] for _ in range(3)] == [LEASED, YES, DROPPED]


def a_want_is_found_whichever_way_either_asked(made):
    """A lease that was asked for by number or by path isn't renewed, by either, once another client has wanted it by either."""
    ways = [by_number, lambda it, node, *rest, **named: by_path(it, b"/", *rest, **named)]
    with Daemon(*made, users=USERS, duties={"wanted_seconds": 2}).start() as daemon:
        seven, eight = daemon.connect(7), daemon.connect(8)
        for held in ways:
            for wanted in ways:
                assert held(seven, 1) == 1
                began = time.monotonic()
                while time.monotonic() - began < 2.2:
                    assert wanted(eight, 1)[0] == HELD
                    time.sleep(0.1)
                for renewed in (lease(7, FOR_EVER, writes=True), lease_by_path(7, FOR_EVER, b"/", True)):
                    assert seven.ask(1, renewed).refusal == ("Wanted", 0)
                drop(seven, 1)
                assert wanted(eight, 1) == 1
                drop(eight, 1)


def what_was_answered_is_told_again(made):
    """A numbered lease that was granted is told again while another client has wanted it for long, and where no lease may end as late any more."""
    with Daemon(*made, users=USERS, duties={"wanted_seconds": 1}).start() as daemon:
        seven, eight = daemon.connect(7), daemon.connect(8)
        call = numbered(1, lease(7, seven.moment()[0] + 500, writes=True))
        assert leased(seven.ask(1, call)) == 1
        began = time.monotonic()
        while time.monotonic() - began < 1.5:
            assert by_number(eight, 1)[0] == HELD
            time.sleep(0.1)
        assert seven.ask(2, lease(7, FOR_EVER, writes=True)).refusal == ("Wanted", 0)
        assert seven.ask(2, numbered(2, lease(7, FOR_EVER, writes=True))).refusal == ("Wanted", 0)
        assert leased(seven.ask(3, call)) == 1
        daemon.duties["lease_seconds"] = 10
        reload(daemon)
        assert seven.ask(4, lease(7, FOR_EVER)).refusal == ("TooFar", 0)
        assert leased(seven.ask(5, call)) == 1
        # what was refused wasn't done, and its number is free
        assert seven.ask(6, numbered(2)).refusal == ("NotThere", 0)


def no_path_is_told_or_kept(made):
    """The holder of a lease hears no path of who wants it, which may have names that it may not see. Many long paths leave nothing in kfsd."""
    with Daemon(*made, users=USERS).start() as daemon:
        seven, eight = daemon.connect(7), daemon.connect(8)
        assert by_number(seven, 1) == 1
        does(seven, Create(1, b"secret", 2, DIRECTORY, 0o700), Create(2, b"f", 3, FILE, 0o666))
        assert by_path(seven, b"/secret/f") == 3
        drop(seven, 3)
        assert by_number(eight, 3) == 3
        assert by_path(seven, b"/secret/f")[0] == HELD
        eight.send(9, b"\xf3" + bytes(8))
        said = eight.next()[1]
        assert struct.unpack(">HIIH", said[9:]) == (1, 7, 3, 0), said
        # a serial that an earlier kfsd told whose clock went a day before
        eight.send(9, b"\xf3" + struct.pack(">Q", int.from_bytes(said[1:9], "big") + (86_400 << 20)))
        began = time.monotonic()
        assert struct.unpack(">HIIH", eight.next()[1][9:]) == (1, 7, 3, 0) and time.monotonic() - began < 5


TESTS = [no_lease_without_permission, a_lease_to_remove_stands_in_nobodys_way, a_lease_ends_with_the_right_to_it, faults_of_paths_are_the_desks, calls_keep_their_order, a_want_is_found_whichever_way_either_asked, what_was_answered_is_told_again, no_path_is_told_or_kept]

"""Locks of files between the clients of a desk: by one connection each as a client makes them, with the frame f7."""
import struct
import time

from machines import Cluster
from running import Daemon, lease, user
from timing import done, moded, submit
from wanting import ask_for_wants

from benchmarks import file_gone, files_made

USERS = [user(1000, 7, (2, 999)), user(1001, 8, (1000, 1999)), user(1002, 9)]
END = 0xFFFFFFFFFFFFFFFF
RANGE, WHOLE = 0, 1
READ, WRITE, UNLOCK = 0, 1, 2
TEST, SET, WAIT, AGAIN, GIVE_UP = range(5)
GRANTED, CONFLICTS, DEADLOCK, TOO_MANY, NOT_YET, NO_NODE, NOT_ALLOWED = range(7)
# How long nothing is set behind a start that wasn't there before.
GRACE = 10
LIMIT = 4096


def question(node, kind, first=0, last=END, how=SET, owner=1, style=RANGE, pid=5):
    return b"\xf7" + struct.pack(">IQIBBQQB", node, owner, pid, style, kind, first, last, how)


def verdict(said):
    """The result, and where it conflicts the kind, the range and the process."""
    assert said[0] == 0xF7, said
    if said[1] != CONFLICTS:
        assert len(said) == 2, said
        return said[1]
    return (said[1], *struct.unpack(">BQQI", said[2:]))


def lock(connection, node, kind, *words, **more):
    connection.send(3, question(node, kind, *words, **more))
    number, said = connection.next()
    assert number == 3
    return verdict(said)


def files(connection, names, first=2):
    """Makes files, which others may read."""
    client = connection.client
    assert connection.ask(0, lease(client, 1 << 40, writes=True)).answer[4] == 4
    done(connection, submit(*files_made(names, first), client=client))


def two_connections_exclude_each_other(made):
    """Ranges of two clients, and of two connections of one, conflict; what the owner has isn't in its own way. A test tells the process of the same connection alone."""
    with Daemon(*made, users=USERS).start() as daemon:
        seven, more, eight, nine = (daemon.connect(client) for client in (7, 7, 8, 9))
        files(seven, [b"a", b"b"])
        assert lock(seven, 2, WRITE, 10, 19) == GRANTED
        for other in (more, eight):
            assert lock(other, 2, READ, 19, 30) == (CONFLICTS, WRITE, 10, 19, 0)
            assert lock(other, 2, READ, 20, 30) == GRANTED
        assert lock(seven, 2, READ, 0, END, TEST, owner=2) == (CONFLICTS, WRITE, 10, 19, 5)
        assert lock(seven, 2, WRITE, 0, 19) == GRANTED
        assert lock(seven, 3, WRITE) == GRANTED and lock(seven, 2, WRITE, style=WHOLE) == GRANTED
        assert lock(eight, 2, READ, how=TEST, style=WHOLE) == (CONFLICTS, WRITE, 0, END, 0)
        assert lock(seven, 2, UNLOCK, 5, 14) == GRANTED and lock(eight, 2, WRITE, 5, 14) == GRANTED
        assert lock(nine, 99, READ) == NO_NODE and lock(nine, 99, UNLOCK) == GRANTED
        # its connection ends, and all that it had
        seven.close()
        daemon.wait_for(lambda: lock(eight, 3, WRITE) == GRANTED)
        assert lock(eight, 2, WRITE, how=TEST, style=WHOLE) == GRANTED
        assert lock(eight, 2, WRITE, 0, 19) == GRANTED


def who_may_not_reach_a_node_locks_it_not(made):
    """Without a bit of its class a client gets no lock; the owner does without any. Those of a node go with it."""
    with Daemon(*made, users=USERS).start() as daemon:
        seven, eight = daemon.connect(7), daemon.connect(8)
        files(seven, [b"a", b"b"])
        assert seven.ask(0, lease(7, 1 << 40, 2, True)).answer[4] == 4
        done(seven, moded(2, 0, 0o070))
        for how in (TEST, SET, WAIT, AGAIN):
            assert lock(eight, 2, READ, how=how) == NOT_ALLOWED
        assert lock(eight, 2, UNLOCK) == GRANTED and lock(eight, 2, WRITE, how=GIVE_UP) == GRANTED
        assert lock(seven, 2, WRITE) == GRANTED
        done(seven, moded(2, 0, 0o004))
        assert lock(eight, 2, READ) == (CONFLICTS, WRITE, 0, END, 0)
        assert lock(seven, 3, WRITE) == GRANTED
        assert seven.ask(0, lease(7, 1 << 40, 3, True)).answer[4] == 4
        done(seven, submit(*file_gone(b"b", 3)))
        assert lock(eight, 3, READ) == NO_NODE
        done(seven, submit(*files_made([b"b"], 3)))
        assert lock(eight, 3, WRITE) == GRANTED


def news(connection):
    """What is told of locks: the nodes."""
    _, said = connection.next()
    count = int.from_bytes(said[9:11], "big")
    found = [struct.unpack(">IIH", said[at : at + 10]) for at in range(11, 11 + 10 * count, 10)]
    assert len(said) == 11 + 10 * count and all(kind == 1 for _by, _node, kind in found), said
    return int.from_bytes(said[1:9], "big"), [(by, node) for by, node, _kind in found]


def who_waits_is_told(made):
    """f3 tells the client that waits when its way is freed, by an unlock and by the end of a connection; a circle is refused."""
    with Daemon(*made, users=USERS).start() as daemon:
        seven, eight, listening = daemon.connect(7), daemon.connect(8), daemon.connect(8)
        files(seven, [b"a", b"b"])
        assert lock(seven, 2, WRITE) == GRANTED and lock(eight, 3, WRITE) == GRANTED
        assert lock(eight, 2, READ, how=WAIT)[0] == CONFLICTS
        assert lock(seven, 3, READ, how=WAIT) == DEADLOCK
        assert lock(seven, 3, READ)[0] == CONFLICTS
        ask_for_wants(listening)
        assert lock(seven, 2, UNLOCK) == GRANTED
        serial, found = news(listening)
        assert found == [(8, 2)], found
        assert lock(eight, 2, READ, how=WAIT) == GRANTED
        assert lock(seven, 3, WRITE, how=WAIT)[0] == CONFLICTS and lock(seven, 3, WRITE, how=GIVE_UP) == GRANTED
        # another connection of the same client waits, and the holder's ends
        other = daemon.connect(8)
        assert lock(other, 3, WRITE, how=WAIT)[0] == CONFLICTS
        ask_for_wants(listening, serial)
        eight.close()
        later, found = news(listening)
        assert found == [(8, 3)] and later > serial, (found, later)
        assert lock(other, 3, WRITE, how=WAIT) == GRANTED


def a_client_has_so_many(made):
    """A client has 4,096 locks over all of its connections, and others have theirs. Each costs kfsd no more memory than docs/KFSD.md says."""
    with Daemon(*made, users=USERS).start() as daemon:
        seven, more, eight = daemon.connect(7), daemon.connect(7), daemon.connect(8)
        files(seven, [b"a", b"b"])
        before = daemon.resident()
        for at in range(LIMIT):
            connection = (seven, more)[at % 2]
            connection.send(3, question(2, READ, 2 * at, 2 * at))
            assert verdict(connection.next()[1]) == GRANTED, at
        assert lock(seven, 3, READ) == TOO_MANY and lock(more, 2, READ, END, END) == TOO_MANY
        assert daemon.resident() - before < 400 * LIMIT
        assert lock(eight, 3, READ) == GRANTED
        more.close()
        daemon.wait_for(lambda: lock(seven, 3, READ) == GRANTED)


def behind_a_start_those_had_come_first(made):
    """Behind a kill of kfsd nothing is set for a while but what a client had. What another one has set since isn't set again."""
    with Daemon(*made, users=USERS).start() as daemon:
        seven = daemon.connect(7)
        files(seven, [b"a", b"b"])
        assert lock(seven, 2, WRITE) == GRANTED and lock(seven, 3, WRITE) == GRANTED
        daemon.process.kill()
        daemon.process.wait()
        daemon.start()
        began = time.monotonic()
        seven, eight = daemon.connect(7), daemon.connect(8)
        assert lock(eight, 2, READ) == NOT_YET and lock(eight, 2, READ, how=TEST) == NOT_YET and lock(eight, 2, UNLOCK) == GRANTED
        assert lock(seven, 2, WRITE, how=AGAIN) == GRANTED
        assert lock(eight, 2, READ, how=AGAIN) == (CONFLICTS, WRITE, 0, END, 0) == lock(eight, 2, READ, how=TEST)
        daemon.kill_desk()
        while (said := lock_or_again(eight, 3)) == NOT_YET:
            time.sleep(0.2)
        assert said == GRANTED and GRACE - 2 < time.monotonic() - began
        # it holds behind the end of kfs_serve, too
        assert lock(eight, 2, READ) == (CONFLICTS, WRITE, 0, END, 0)
        assert lock(eight, 3, UNLOCK) == GRANTED
        assert lock(seven, 3, WRITE, how=AGAIN) == (CONFLICTS, UNLOCK, 0, END, 0)


def lock_or_again(connection, node):
    """The same, asked again where kfs_serve has ended."""
    while True:
        connection.send(3, question(node, WRITE))
        _, said = connection.next()
        if said[:2] != bytes([2, 128]):
            return verdict(said)


def granted(connection, node, kind=WRITE):
    """Asks for a lock until a start isn't in its way any more."""
    while (said := lock(connection, node, kind)) == NOT_YET:
        time.sleep(0.2)
    return said


def the_next_leader_knows_none(made):
    """In a cluster a connection over any member has its locks at the leader. The next one sets those again that there were, before others."""
    with Cluster(made, users=USERS) as cluster:
        leader = cluster.leader()
        seven = leader.connect(7)
        files(seven, [b"a"])
        assert lock(seven, 2, WRITE, how=TEST) == NOT_YET
        assert granted(seven, 2) == GRANTED
        beside = cluster.in_order(leader)[1].connect(8)
        assert lock(beside, 2, READ) == (CONFLICTS, WRITE, 0, END, 0)
        leader.process.kill()
        leader, _ = cluster.another_leads()
        seven, eight = leader.connect(7), leader.connect(8)
        assert lock(eight, 2, READ) == NOT_YET and lock(seven, 2, WRITE, how=AGAIN) == GRANTED
        assert granted(eight, 2, READ) == (CONFLICTS, WRITE, 0, END, 0)
        seven.close()
        leader.wait_for(lambda: lock(eight, 2, WRITE) == GRANTED)


TESTS = [two_connections_exclude_each_other, who_may_not_reach_a_node_locks_it_not, who_waits_is_told, a_client_has_so_many, behind_a_start_those_had_come_first, the_next_leader_knows_none]

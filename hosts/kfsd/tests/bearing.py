"""kfsd tells who a client is, when a node was made, and what its owner has marked it with."""
import sqlite3
import struct

from machines import Cluster
from running import HELLO, Daemon, Gone, frame, lease, lease_by_path, numbered, user
from timing import UNKNOWN, done, moded, submit, times, written

from benchmarks import file_gone, files_made

USERS = [user(1000, 7, (2, 999)), user(1001, 8), {**user(1002, 9, gid=50), "groups": [60, 70000], "privileged": True}]
NO_NODE, SET, NOT_OWNER = 0, 1, 2
NODE, STAMPED, MARKS = 0x40, 0xF6, 0xF8
HEADER, KEPT = 23, 25


def said(connection, body):
    """What stands behind the head of a reply, once kfs_serve has answered."""
    found = UNKNOWN
    while found == UNKNOWN:
        connection.send(5, body)
        number, found = connection.next()
        assert number == 5
    return found


def stamped(connection, number):
    """What kfsd keeps of a node: when it was made, modified and changed, and its marks; None where there is no such node. Its header is as the look-up has it."""
    found = said(connection, struct.pack(">BI", STAMPED, number))
    header = said(connection, struct.pack(">BI", NODE, number))
    if header == b"\x03\x01\x00":
        assert found == header, found
        return None
    assert len(found) == HEADER + KEPT and found[:HEADER] == header, (found, header)
    return struct.unpack(">qqqB", found[HEADER:])


def born(connection, number):
    return stamped(connection, number)[0]


def mark(connection, number, marks):
    found = said(connection, struct.pack(">BIB", MARKS, number, marks))
    assert found[0] == MARKS and len(found) == 2, found
    return found[1]


def leased(connection, number=1):
    answer = said(connection, lease(connection.client, 1 << 40, node=number, writes=True))
    assert answer[5] == 4, answer


def removed(connection, name, number):
    """Takes a file out. Whose lease it needs it gets by the path."""
    assert connection.ask(0, lease_by_path(connection.client, 1 << 40, b"/" + name, writes=True)).answer[4] == 4
    done(connection, submit(*file_gone(name, number)))


def clients_are_told_who_they_are(made):
    """Each of three users is told its client, grant, uid, gid, privilege and groups, as the configuration has them."""
    with Daemon(*made, users=USERS).start() as daemon:
        for it in USERS:
            groups, grant = it.get("groups", []), it["grant"]
            words = struct.pack(">BIIIII", 0xF0, it["client"], *grant, it["uid"], it["gid"])
            rest = struct.pack(">BH", it.get("privileged", False), len(groups)) + b"".join(struct.pack(">I", group) for group in groups)
            assert said(daemon.connect(it["client"]), HELLO) == words + rest


def nodes_are_born(made):
    """A node has a mark of its birth, and another one than an earlier node of its number. It stays while the node does."""
    with Daemon(*made, users=USERS).start() as daemon:
        seven, eight = daemon.connect(7), daemon.connect(8)
        leased(seven)
        # of the root nothing is known
        assert stamped(seven, 1) == (0, 0, 0, 0) and stamped(seven, 2) is None
        done(seven, submit(*files_made([b"a", b"b", b"c"])))
        first = [born(seven, number) for number in (2, 3, 4)]
        assert min(first) > 0, first
        assert stamped(seven, 2)[1:3] == seven.times(2) and stamped(seven, 1)[0] == 0
        for number in (2, 3, 4):
            leased(seven, number)
        done(seven, written(2))
        done(seven, moded(2, 2, 0o600))
        assert born(seven, 2) == first[0] and stamped(seven, 2)[1] < stamped(seven, 2)[2] and stamped(eight, 2) == stamped(seven, 2)
        assert seven.ask(0, submit(*files_made([b"a"], 9))).answer[4] == 2
        removed(seven, b"b", 3)
        assert stamped(seven, 3) is None
        done(seven, submit(*files_made([b"b"], 3)))
        assert born(seven, 3) not in (0, first[1]) and [born(seven, number) for number in (2, 4)] == [first[0], first[2]]
        assert said(seven, struct.pack(">BIB", STAMPED, 2, 0))[:2] == b"\x02\x03"


def look_ups_and_landings_keep_their_order(made):
    """What is told of a node is as it was at its place among the frames of a connection that come at once."""
    with Daemon(*made, users=USERS).start() as daemon:
        seven = daemon.connect(7)
        leased(seven)
        look, create, remove = struct.pack(">BI", STAMPED, 2), submit(*files_made([b"a"])), submit(*file_gone(b"a", 2))
        bodies = [look, create, look, lease_by_path(7, 1 << 40, b"/a", writes=True), remove, look, create, look, look]
        seven.socket.sendall(b"".join(frame(at, 7, body) for at, body in enumerate(bodies)))
        found = [seven.next()[1] for _ in bodies]
        assert [found[at][5] for at in (1, 3, 4, 6)] == [1, 4, 1, 1], found
        assert found[0] == found[5] == b"\x03\x01\x00"
        first, second = (struct.unpack(">qqqB", found[at][HEADER:]) for at in (2, 7))
        assert first[1] == first[2] < second[2] and 0 not in (first[0], second[0]) and first[0] != second[0] and found[7] == found[8]


def kept_births(daemon):
    """The birth of each node, as kfsd keeps it."""
    with sqlite3.connect(f"file:{daemon.folder}/kfsd.sqlite?mode=ro", uri=True) as store:
        return dict(store.execute("SELECT node, born FROM stamp WHERE born > 0"))


def kill(daemon):
    daemon.process.kill()
    daemon.process.wait()


def births_outlive_kills(made):
    """Behind kills of kfs_serve and kfsd all is told of nodes as before, though their calls stand in the journal still. A number that is given again just before a kill has another birth."""
    with Daemon(*made, users=USERS).start() as daemon:
        for turn in range(3):
            seven, first = daemon.connect(7), 2 + 10 * turn
            leased(seven)
            names = [b"f%d" % number for number in range(first, first + 5)]
            done(seven, submit(*files_made(names, first)))
            numbers = range(2, first + 5)
            before = {number: stamped(seven, number) for number in numbers}
            daemon.kill_desk()
            assert {number: stamped(seven, number) for number in numbers} == before
            daemon.wait_for(lambda: kept_births(daemon) == {number: it[0] for number, it in before.items() if it})
            assert turn != 1 or daemon.stop()[0] == 0
            kill(daemon)
            daemon.start()
            seven = daemon.connect(7)
            assert {number: stamped(seven, number) for number in numbers} == before
            leased(seven)
            removed(seven, names[0], first)
            done(seven, submit(*files_made(names[:1], first)))
            again = born(seven, first)
            kill(daemon)
            daemon.start()
            seven = daemon.connect(7)
            after = {number: stamped(seven, number) for number in numbers}
            assert after.pop(first)[0] == again not in (0, before[first][0])
            del before[first]
            assert after == before


def births_of_calls_left_by_kfs_serve(made):
    """kfs_serve is killed while files are made and removed under one number. A file that was told of has its birth for as long as it is there, and none behind it has."""
    with Daemon(*made, users=USERS).start() as daemon:
        seven, gone, count = daemon.connect(7), {0}, 0
        leased(seven)
        for turn in range(60):
            for body in (submit(*files_made([b"a"])), struct.pack(">BI", STAMPED, 2), lease_by_path(7, 1 << 40, b"/a", writes=True), submit(*file_gone(b"a", 2))):
                seven.send(1, body)
            if turn % 6 == 5:
                daemon.kill_desk()
            found = [seven.next()[1] for _ in range(4)][1]
            told = struct.unpack(">qqqB", found[HEADER:])[0] if len(found) == HEADER + KEPT else None
            left = stamped(seven, 2)
            assert told not in gone, (turn, told)
            assert told is None or left is None or left[0] == told, (turn, told, left)
            if left is not None:
                assert left[0] not in gone, (turn, left)
                leased(seven, 2)
                done(seven, submit(*file_gone(b"a", 2)))
            gone |= {it for it in (told, left and left[0]) if it}
            count += told is not None
        assert count >= 30, count


def owners_mark_nodes(made):
    """The owner of a node marks it, and who is privileged; nobody else. A mark is there behind kills once it is answered, and goes with its node."""
    with Daemon(*made, users=USERS).start() as daemon:
        seven, eight, nine = (daemon.connect(client) for client in (7, 8, 9))
        leased(seven)
        done(seven, submit(*files_made([b"a", b"b"])))
        before = stamped(seven, 2)
        assert mark(seven, 2, 1) == SET
        assert stamped(eight, 2)[:2] == before[:2] and stamped(eight, 2)[3] == 1 and stamped(eight, 2)[2] > before[2]
        assert mark(eight, 2, 0) == NOT_OWNER and mark(seven, 1, 1) == NOT_OWNER and mark(seven, 9, 1) == NO_NODE
        assert mark(nine, 1, 0x81) == SET and stamped(seven, 1)[3] == 0x81 and mark(nine, 3, 5) == SET
        for turn in range(5):
            assert mark(seven, 2, turn) == SET
            before = {number: stamped(seven, number) for number in (2, 3)}
            kill(daemon)
            daemon.start()
            seven = daemon.connect(7)
            assert [stamped(seven, number)[3] for number in (1, 2, 3)] == [0x81, turn, 5]
            daemon.kill_desk()
            assert [stamped(seven, number)[3] for number in (1, 2, 3)] == [0x81, turn, 5]
        leased(seven)
        leased(seven, 2)
        done(seven, written(2))
        done(seven, moded(2, 2, 0o600))
        assert stamped(seven, 2)[3] == 4 and times(seven, 2)[0] > 1_000_000_000
        removed(seven, b"a", 2)
        assert mark(seven, 2, 1) == NO_NODE and stamped(seven, 2) is None
        done(seven, submit(*files_made([b"c"], 2)))
        assert stamped(seven, 2)[3] == 0
        assert daemon.stop()[0] == 0
        daemon.start()
        assert [stamped(daemon.connect(8), number)[3] for number in (1, 2, 3)] == [0x81, 0, 5]
        assert said(daemon.connect(7), struct.pack(">BI", MARKS, 2))[:2] == b"\x02\x03"


class Leader:
    """A connection of client 7 to whichever machine leads. A frame that wasn't answered is sent again, so calls have numbers."""

    client = 7

    def __init__(self, cluster):
        self.cluster, self.connection, self.frame, self.calls = cluster, None, None, 0

    def send(self, number, body):
        if body[0] < NODE:
            self.calls += 1
            body = numbered(self.calls, body)
        self.frame = number, body

    def next(self):
        while True:
            try:
                self.connection = self.connection or self.cluster.leader().connect(7)
                self.connection.send(*self.frame)
                number, found = self.connection.next()
                if found[:2] not in (b"\x02\x80", b"\x02\x81", b"\x02\x85"):
                    return number, found
            except (Gone, OSError):
                self.connection = None

    def done(self, call):
        found = said(self, call)
        assert found[5] in (1, 4), found


def machines_tell_the_same(made):
    """Behind a stop and a kill of the leader another machine tells the same of each node, and a number that is given again has another birth."""
    with Cluster(made, users=USERS) as cluster:
        seven = Leader(cluster)
        leased(seven)
        seven.done(submit(*files_made([b"a", b"b"])))
        assert mark(seven, 3, 1) == SET and said(seven, HELLO)[13:21] == struct.pack(">II", 1000, 1000)
        shown = [stamped(seven, number) for number in (1, 2, 3)]
        assert shown[1][0] > 0 and shown[2][0] > 0 and shown[2][3] == 1
        for is_killed in (False, True):
            leader = cluster.leader()
            leader.is_wanted = False
            if is_killed:
                kill(leader)
            else:
                assert leader.stop()[0] == 0
            cluster.another_leads()
            assert [stamped(seven, number) for number in (1, 2, 3)] == shown
            leader.begin()
        leased(seven)
        seven.done(lease_by_path(7, 1 << 40, b"/a", writes=True))
        seven.done(submit(*file_gone(b"a", 2)))
        assert stamped(seven, 2) is None
        seven.done(submit(*files_made([b"a"])))
        assert born(seven, 2) not in (0, shown[1][0])


TESTS = [
    clients_are_told_who_they_are, nodes_are_born, look_ups_and_landings_keep_their_order, births_outlive_kills, births_of_calls_left_by_kfs_serve, owners_mark_nodes, machines_tell_the_same,
]

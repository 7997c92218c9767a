"""Who isn't a member of a volume, and tries to be one: other users of its machines. What they hear is of no use, and others are served meanwhile."""
import contextlib
import json
import os
import re
import shutil
import statistics
import struct
import subprocess
import sys
import time

from clustering import Own, calls_of, ends_alike
from hanging import came, connecting_on, connecting_times
from machines import CLIENTS_PORT, KFSD_PORT, NAMES, PASSWORD, VOLUME, Authority, Cluster
from running import HERE, SOON, frame, lease, lease_by_path, numbered
from stranger import USER as STRANGER

# What a member says before the other end has proved the key: which volume's member it is it doesn't say.
GREETING = re.compile(rb"\0\0KFSM\x02.{32}\x01[abc]", re.DOTALL)
# What stands in calls of users here, and in nothing else.
MARK = b"/a-path-of-nobody-else"
# How long a new connection of a user may take beside those who have no right to any, on a busy machine.
AT_MOST = 2.5


def stranger(machine, *words):
    """Starts a stranger's process on a machine."""
    words = ["ip", "netns", "exec", machine.space, sys.executable, f"{HERE}/stranger.py", *map(str, words)]
    return subprocess.Popen(words, stdout=subprocess.PIPE, stderr=subprocess.DEVNULL, text=True)


@contextlib.contextmanager
def beginning(machine, first, what, *words):
    """Has a stranger's process run until the end, once it has said that it is there."""
    it = stranger(machine, what, *words)
    try:
        assert bytes.fromhex(it.stdout.readline()) == first
        yield it
    finally:
        it.kill()
        it.wait()


def said_to(machine, place, first, then=b""):
    """What a member's port answers a stranger on a machine up to the end."""
    it = stranger(machine, "say", place.address, KFSD_PORT, first.hex(), then.hex())
    said, _ = it.communicate(timeout=SOON)
    assert it.returncode == 0
    return bytes.fromhex(said)


def as_member(machine, place, key, caller, data, listener=None):
    """What one that knows the key says as a member, and what it is answered."""
    words = (key.hex(), VOLUME, caller, listener or place.name, data.hex())
    it = stranger(machine, "member", place.address, KFSD_PORT, *words)
    said, _ = it.communicate(timeout=SOON)
    return [bytes.fromhex(line) for line in said.split()] if it.returncode == 0 else None


def key_of(cluster):
    with open(f"{cluster.room}/key", "rb") as it:
        return it.read()


def connections_at(machines):
    """Connections of users to these, each with a call; where one begins to lead its socket isn't there for a moment."""
    found = []
    for machine in machines:
        for client in (7, 8, 9):
            with contextlib.suppress(OSError):
                it = machine.connect(client)
                it.send(1, lease_by_path(client, 10, MARK))
                found.append(it)
    return found


def heard_in_place_of(leader, others, how, wait):
    """What a stranger hears at the port of a leader that was killed so long ago, until another one leads, while users connect to the others."""
    leader.is_wanted = False
    leader.process.kill()
    leader.process.wait()
    time.sleep(wait)
    with beginning(leader, b"bound", "listen", leader.address, KFSD_PORT, how, others[0].address) as it:
        connections = []
        for _ in range(6):
            connections += connections_at(others)
            time.sleep(0.3)
        leader.cluster.another_leads()
        for connection in connections:
            connection.close()
        time.sleep(0.2)
        it.kill()
        return [bytes.fromhex(line) for line in it.stdout.read().split()]


def a_stranger_in_place_of_a_leader(made):
    """A stranger takes the port of each leader that is killed, until another one leads: it hears names and nonces, and they open no other port."""
    with Cluster(made) as cluster:
        key, killed, heard = key_of(cluster), set(), []
        for at, how in enumerate(("silent", "garbage", "echo", "between") * 3):
            leader = cluster.leader()
            others = [it for it in cluster.machines if it is not leader]
            wait = (0, 0.5, 0, 1)[(at + at // 4) % 4]
            found = heard_in_place_of(leader, others, how, wait)
            assert found or wait, "nobody has connected"
            heard += found
            killed.add(leader.name)
            follows = leader.said().count("follows volume")
            leader.begin()
            cluster.wait_for(lambda machine=leader, count=follows: machine.said().count("follows volume") > count)
            if len(killed) == len(NAMES) and how == "between":
                break
        assert killed == set(NAMES)
        assert any(re.search("WARN .*isn't believed: it hasn't proved that it is member", it.said()) for it in cluster.machines)
        assert not [it for it in heard if key in it], "the key was heard"
        for it in heard:
            assert not [uid for uid in (1000, 1001, 1002) if struct.pack(">I", uid) in it] and MARK not in it, it
            assert GREETING.fullmatch(it), it
        question = b"\x02" + struct.pack(">I", 1000) + frame(1, 7, numbered(1, lease(7, 10)))
        for machine in cluster.machines:
            for first in heard[:: max(1, len(heard) // 5)]:
                for then in (b"@" + question, os.urandom(32) + question, first[7:39] + question):
                    # a nonce and an answer of its own, and nothing behind them
                    assert len(said_to(machine, machine, first, then)) == 64
        assert lease(7, 10) not in dict(calls_of(ends_alike(cluster)))
        print(f"    {len(heard)} connections to a stranger in place of {len(killed)} leaders")


def a_stranger_in_place_of_a_kept_state(made):
    """A stranger takes the port of a member that etcd says keeps the latest state: a member without one asks there, and says nothing."""
    with Cluster(made, settings={"state_bytes": 20_000}) as cluster:
        leader = cluster.leader()
        other, third = (it for it in cluster.machines if it is not leader)
        assert leader.connect(7).ask(1, struct.pack(">BII", 1, 7, 2_000_000) + bytes(2_000_004)).answer is not None
        cluster.wait_for(lambda: "are removed from etcd" in leader.said())
        for it in (other, third):
            it.is_wanted = False
            assert it.stop()[0] == 0
        shutil.rmtree(third.folder)
        os.mkdir(third.folder, 0o700)
        with beginning(other, b"bound", "listen", other.address, KFSD_PORT, "between", leader.address) as it:
            row = f"{1 << 40:016x} {other.address}:{KFSD_PORT}"
            assert cluster.etcdctl("put", f"kfsd/{VOLUME}/base/{other.name}", row).returncode == 0
            third.begin()
            third.wait_for(lambda: f"has come from {leader.address}" in third.said())
            it.kill()
            heard = [bytes.fromhex(line) for line in it.stdout.read().split()]
        assert heard and all(GREETING.fullmatch(it) for it in heard), heard
        assert f"no state comes from {other.address}" in third.said()
        other.begin()
        ends_alike(cluster)


def a_stranger_at_a_members_port(made):
    """Connections of a stranger to each member's port: silent, senseless, of an older kfsd, and what a member has said before. Users are served meanwhile."""
    with Cluster(made) as cluster:
        key, leader = key_of(cluster), cluster.leader()
        other, third = (it for it in cluster.machines if it is not leader)
        question = b"\x02" + struct.pack(">I", 1000) + frame(5, 7, numbered(9, lease(7, 1 << 40)))
        sent, told = as_member(third, leader, key, "c", question)
        assert len(told) > 64 and told[64 + 4 : 64 + 8] == struct.pack(">I", 5), told
        # the same bytes once more, all of them, and as far as they go before an answer
        asked = frame(6, 7, numbered(9))
        assert len(said_to(leader, leader, sent)) == 64 and len(said_to(leader, leader, sent[:41], sent[41:])) == 64
        assert len(said_to(other, other, sent[:41], sent[41:73] + b"\x02" + struct.pack(">I", 1000) + asked)) == 64
        # what is right but for a name, the key, or the volume
        assert as_member(third, leader, key, "c", question, listener=other.name) is None
        assert as_member(third, leader, bytes(32), "c", question) is None
        for first in (b"\0\x20" + key[:1] * 32 + b"\x02" + struct.pack(">I", 0), b"GET / HTTP/1.1\r\n\r\n", os.urandom(4000), b"\0\0KFSM\x03" + bytes(99), b"\0\0KFSM\x02" + bytes(32) + b"\x03a/b"):
            assert said_to(third, leader, first) == b"", first
        cluster.wait_for(lambda: "it is a kfsd of an older version" in leader.said() or "refused" in leader.said())
        slowest = 0
        for machine in (leader, other):
            before, began = len(machine.said()), time.monotonic()
            with beginning(third, b"held", "hold", machine.address, KFSD_PORT, 1100):
                for place in (other, third):
                    times = connecting_times(place)
                    slowest = max(slowest, *times)
            lines = re.findall("port for members.*", machine.said()[before:])
            assert len(lines) <= time.monotonic() - began + 2, lines
        assert slowest < AT_MOST, slowest
        lines = leader.said()
        for _ in range(60):
            assert said_to(third, leader, b"\0\x20" + bytes(40)) == b""
        assert leader.said()[len(lines) :].count("older version") < 60
        print(f"    beside 1,100 silent connections a user's new one at another member, and a call, took at most {1e3 * slowest:.0f} ms")


def etcd_asks_who_it_is(made):
    """etcd with users: a volume works, also behind new starts of its members and of leaders, and who doesn't know the password reads nothing."""
    with Cluster(made, is_guarded=True) as cluster:
        leader, own = cluster.leader(), Own(cluster)
        assert own.answer(1, lease(7, 10))[0][4] == 4
        text = json.dumps({"key": "a2ZzZC8=", "range_end": "a2ZzZDA="}).encode()
        request = b"POST /v3/kv/range HTTP/1.0\r\nContent-Length: %d\r\n\r\n%b" % (len(text), text)
        it = stranger(leader, "say", leader.address, CLIENTS_PORT, request.hex(), "")
        answer = bytes.fromhex(it.communicate(timeout=SOON)[0])
        assert b"user name is empty" in answer and b"kvs" not in answer, answer
        words = [*cluster.etcdctl_words(leader.endpoint), "get", "--prefix", "kfsd/"]
        words[words.index("--user") + 1] = "kfsd:another"
        assert subprocess.run(words, check=False, capture_output=True).returncode != 0
        # a member of etcd that was started anew knows none of the tokens that it gave
        for machine in cluster.machines:
            machine.kill_etcd()
            machine.start_etcd()
            cluster.wait_for(lambda: cluster.etcdctl("endpoint", "health").returncode == 0)
            assert own.answer(2 + NAMES.index(machine.name), lease(7, 11))[0][4] == 4
        cluster.leader().process.kill()
        cluster.another_leads()
        assert own.answer(9, lease(7, 12))[0][4] == 4
        assert not [it for it in cluster.machines if PASSWORD in it.said()]
        words = ["ip", "netns", "exec", leader.space, f"{leader.binaries}/kfsctl", "volumes"]
        said = subprocess.run([*words, "--config", f"{leader.room}/kfsd.toml"], check=True, capture_output=True, text=True, timeout=SOON).stdout
        assert said.splitlines()[1].split()[:2] == [VOLUME, cluster.leader().name], said
        assert subprocess.run([*words, "--etcd", leader.endpoint], check=False, capture_output=True, timeout=SOON).returncode != 0
        ends_alike(cluster)


def tls_between_all(made):
    """With certificates: a volume works, long calls are handed on, states are sent, and who has no certificate of the authority reaches no port."""
    with Cluster(made, settings={"state_bytes": 20_000}, has_tls=True) as cluster:
        leader, key = cluster.leader(), key_of(cluster)
        other, third = (it for it in cluster.machines if it is not leader)
        seven = other.connect(7)
        assert seven.ask(1, numbered(5, lease(7, 1 << 40, writes=True))).answer[4] == 4
        call = struct.pack(">BII", 1, 7, 2_000_000) + bytes(2_000_004)
        assert seven.ask(2, numbered(6, call)).answer is not None
        assert as_member(third, leader, key, "c", b"\x02" + struct.pack(">I", 1000)) is None
        it = stranger(third, "say", leader.address, CLIENTS_PORT, b"POST /v3/kv/range HTTP/1.0\r\n\r\n".hex(), "")
        assert b"kvs" not in bytes.fromhex(it.communicate(timeout=SOON)[0])
        assert third.stop()[0] == 0
        shutil.rmtree(third.folder)
        os.mkdir(third.folder, 0o700)
        cluster.wait_for(lambda: "are removed from etcd" in leader.said())
        third.begin()
        third.wait_for(lambda: "has come from" in third.said())
        leader.process.kill()
        cluster.another_leads()
        assert Own(cluster).answer(5, b"")[0][4] == 4
        ends_alike(cluster)


def begin_again(machine, certificate):
    """Starts a member anew with another certificate, until it follows."""
    machine.is_wanted = False
    if machine.process.poll() is None:
        assert machine.stop()[0] == 0
    count = machine.said().count("follows volume")
    machine.certificate = certificate
    machine.begin()
    machine.wait_for(lambda: machine.said().count("follows volume") > count)


def certificates_of_others(made):
    """A member that knows the key, and whose certificate another authority has signed, is handed to by nobody and hands on to nobody; nor is a leader
    believed whose certificate has another member's name."""
    with Cluster(made, has_tls=True) as cluster:
        leader = cluster.leader()
        other, third = (it for it in cluster.machines if it is not leader)
        right = third.certificate
        room = f"{cluster.room}/others"
        os.mkdir(room)
        begin_again(third, {**Authority(room).sign("third", f"DNS:{third.name}"), "authority": cluster.authority.own})
        connection = third.connect(7)
        connection.send(1, lease(7, 10))
        assert connection.is_ended()
        begin_again(third, cluster.authority.sign("somebody", f"DNS:{leader.name}"))
        assert third.connect(7).ask(1, lease(7, 10)).answer
        other.is_wanted = leader.is_wanted = False
        assert other.stop()[0] == 0 and leader.stop()[0] == 0
        assert cluster.another_leads()[0] is third
        begin_again(other, other.certificate)
        connection = other.connect(7)
        connection.send(1, lease(7, 10))
        assert connection.is_ended() and "CertNotValidForName" in other.said()
        begin_again(leader, leader.certificate)
        begin_again(third, right)
        assert Own(cluster).answer(1, lease(7, 11))[0]
        ends_alike(cluster)


def limits_where_connections_are_handed_on(made):
    """Users and strangers connect without end to a member that hands connections on: it counts and paces them as a leader does, and others are served."""
    with Cluster(made, connections_a_user=40) as cluster:
        leader = cluster.leader()
        other = next(it for it in cluster.machines if it is not leader)
        held = [other.connect(7) for _ in range(40)]
        assert all(it.ask(1, lease(7, 10)).answer for it in held)
        assert other.connect(7).reply().refusal == ("TooMany", 0)
        counts = [it.status()["connections"] for it in (other, leader)]
        assert counts[0]["taken"] >= 40 and counts[0]["turned_away"] == 1 and counts[1]["taken"] >= 40, counts
        # those that are handed on have their places at the leader, too
        assert leader.connect(7).reply().refusal == ("TooMany", 0)
        for it in held:
            it.close()
        alone = max(connecting_times(other))
        for uid in (1000, 4242):
            before, began, taken = came(other), time.monotonic(), leader.status()["connections"]["taken"]
            children = [connecting_on(other, uid) for _ in range(2)]
            try:
                cluster.wait_for(lambda count=before: came(other) > count + 2000)
                times = connecting_times(other)
                seconds = time.monotonic() - began
                # 100 of a user, and 500 refusals, are at once
                handed_on = (leader.status()["connections"]["taken"] - taken - 100) / seconds
                refused = (came(other) - before) / seconds
                print(f"    beside connections of user {uid} without end, {refused:.0f} a second, a connection and a call took {1e3 * statistics.median(times):.0f} ms, at most {1e3 * max(times):.0f} ms; alone at most {1e3 * alone:.0f} ms")
                assert max(times) < 5 + 10 * alone, times
                assert handed_on < 1_100 and (uid == 1000 or refused < 55_000), (handed_on, refused)
            finally:
                for child in children:
                    os.kill(child, 9)
                    os.waitpid(child, 0)
        ends_alike(cluster)


TESTS = [a_stranger_in_place_of_a_leader, a_stranger_in_place_of_a_kept_state, a_stranger_at_a_members_port, etcd_asks_who_it_is, tls_between_all, certificates_of_others, limits_where_connections_are_handed_on]
assert STRANGER not in (1000, 1001, 1002)

"""Three machines with etcd and kfsd each, and their faults: no answered call is lost, none is made twice, and all desks are the same."""
import collections
import contextlib
import os
import random
import re
import shutil
import signal
import struct
import tempfile
import threading
import time

from killing import FILES, NO, USERS, YES, answered_by, run_with_kills, say, submission
from machines import FILES as DESK_FILES
from machines import LOST, NETWORK, Cluster, Machine, state_now
from numbering import AGAIN, UNDER_WAY, UNKNOWN, Numbering, bare
from running import FRONT, FRONTS, Gone, children_of, frame, lease, numbered, user

from frames import Server  # noqa: I001

# kfsd ends with it where its desk differs from the leader's.
DIFFERS = 6
TICK, MIGRATE = 4, 5


# ---- What is in etcd, and what the files stand for

def raw_groups_of(cluster):
    """The bytes of all groups without time and moment, also of those that were removed. Each was put once, in the order of their numbers."""
    parts, found = {}, []
    for _, key, value in cluster.puts():
        if key.startswith("part/"):
            parts[key] = value
        if key.startswith("group/"):
            number = int(key.rpartition("/")[2], 16)
            assert number == cluster.first + len(found), f"group {number} comes behind {len(found)} groups"
            whole = value[1:] if value[0] == 1 else b"".join(parts[f"part/{number:016x}/{at:08x}"] for at in range(int.from_bytes(value[1:], "big")))
            found.append(whole[16:])
    assert cluster.first + len(found) == cluster.next()
    return found


def groups_of(cluster):
    """All groups by their numbers: the calls of each, with their answers."""
    return {number: calls_in(group) for number, group in enumerate(raw_groups_of(cluster), cluster.first)}


def calls_in(data):
    at, found = 0, []
    while at < len(data):
        end = at + 4 + int.from_bytes(data[at : at + 4], "big")
        found.append((data[at + 4 : end], data[end + 1 : end + 1 + data[end]]))
        at = end + 1 + data[end]
    assert at == len(data)
    return found


def image_in(state):
    """The image of a state, without moment, clients and leases."""
    clients, leases = struct.unpack(">II", state[13:21])
    at = 21
    for _ in range(clients):
        at += 22 + 4 * state[at + 21]
    return state[at + 17 * leases :]


def states_by_etcd(cluster, groups, numbers, begun_with=None):
    """The states behind so many groups, of a kfs_serve that was given nothing else, or the files that the volume was begun with."""
    machine, found, due = cluster.machines[0], {}, []
    with tempfile.TemporaryDirectory(prefix="kfsd-replay-") as room:
        most = str((1 << 32) - 1)
        if begun_with:
            for name in DESK_FILES:
                shutil.copy(f"{begun_with}/{name}", room)
            server = Server([machine.program, "open", room, most])
        else:
            server = Server([machine.program, "new", room, most, f"{machine.replica}/clients", *map(str, machine.tiers)])
        for number in range(cluster.first, max(numbers) + 1):
            if number in numbers:
                found[number] = state_now(server, room)
            for call, answer in groups.get(number, ()):
                due.append(answer)
                server.send(frame(1, FRONT if call[0] in (TICK, MIGRATE) else int.from_bytes(call[1:5], "big"), call))
            if len(due) > 500 or number + 1 in numbers:
                assert [it.answer[4:] for it in server.receive(len(due))] == due
                due = []
        assert server.close() == 0
    return found


def ends_alike(cluster, begun_with=None):
    """Stops all, and looks whether each has the state of the groups that it has seen, and all have one image. Returns all groups."""
    cluster.settle()
    groups = groups_of(cluster)
    # One that has just begun to follow says how far it has come.
    seen = {it: int(re.findall(r"group (\d+)(?: of \d+)? is next", it.said())[-1]) for it in cluster.machines}
    assert max(seen.values()) == cluster.next()
    due = states_by_etcd(cluster, groups, set(seen.values()), begun_with)
    with tempfile.TemporaryDirectory(prefix="kfsd-states-") as room:
        states = {it: it.state(room) for it in cluster.machines}
    for it, state in states.items():
        assert state == due[seen[it]], f"{it.name} has another state than that of its {seen[it]} groups"
    assert len({image_in(state) for state in states.values()}) == 1
    return groups


def is_look(call):
    """Whether it is kfsd's own look whether a client may have a lease: it asks for one that has ended before it begins."""
    return call[0] == 6 and call[6:14] == bytes(8)


def calls_of(groups):
    """The calls of clients in their order, each with its answer."""
    return [it for number in sorted(groups) for it in groups[number] if it[0][0] not in FRONTS and not is_look(it[0])]


def each_is_made_once(groups, clients):
    """Of the calls that were answered each is in these groups, once; and so is at most each one that was sent."""
    counts = collections.Counter(call for call, _ in calls_of(groups))
    assert max(counts.values()) == 1, "a numbered call was made twice"
    answered = bare(answered_by(clients))
    lost = [call for call in answered if not counts[call]]
    assert not lost, f"{len(lost)} of {len(answered)} answered calls are lost"
    assert set(counts) <= {call for it in clients for call in bare(it.sent)}


class Calling(Numbering):
    most = 30_000


def run_with_faults(cluster, faults, fault):
    """Lets clients work while there are so many faults. Returns them, and how long each fault kept them from being answered."""
    waits = []

    def one():
        waits.append(fault())

    clients = run_with_kills(cluster, faults, one, Calling, lambda *_: worked(cluster))
    return clients, waits


def worked(cluster, count=20):
    """Lets the clients go on for so many groups. Who calls it has the lock, and has it again behind it."""
    last, end = cluster.next() + count, time.monotonic() + 60
    while cluster.next() < last:
        assert time.monotonic() < end, "no call is answered"
        cluster.look_after()
        cluster.lock.release()
        time.sleep(0.1)
        cluster.lock.acquire()


# ---- Tests

def a_standby_takes_over(made):
    """The leader is told to stop: another one knows all that was answered, the outcomes of numbered calls among it. Then it is killed."""
    with Cluster(made) as cluster:
        first = cluster.leader()
        assert sum(it.leads() for it in cluster.machines) == 1
        seven = first.connect(7)
        answer = seven.ask(1, numbered(5, lease(7, 1 << 40, writes=True))).answer
        assert answer[4] == 4 and seven.ask(2, numbered(6, submission(0))).answer[4] == YES
        moment, began = seven.moment()[0], time.monotonic()
        assert first.stop()[0] == 0
        second, quick = cluster.another_leads()
        seven = second.connect(7)
        assert seven.ask(1, numbered(5)).answer == AGAIN + answer[4:]
        assert seven.ask(2, submission(0)).answer[4] == NO and seven.ask(3, numbered(7, submission(1))).answer[4] == YES
        assert moment <= seven.moment()[0] <= moment + (time.monotonic() - began) + 1
        assert second.connect(8).ask(1, lease(8, 100, writes=True)).answer[4] == 8
        seven.send(4, struct.pack(">BIq", 0xF5, 2, -5))
        assert seven.next() == (4, bytes([0xF5, 1]))
        told = seven.times(2)
        assert told is not None
        second.process.kill()
        third, took = cluster.another_leads()
        assert third.connect(7).ask(1, numbered(7)).answer[4] == YES
        assert third.connect(7).times(2) == told
        first.begin()
        ends_alike(cluster)
        print(f"    told to stop, another one led {quick:.1f} s behind its end; killed, {took:.1f} s")


def connections_are_handed_on(made):
    """A member that doesn't lead hands connections on, each as its user's. They end where another one leads, and at the same path there is the next."""
    with Cluster(made) as cluster:
        leader = cluster.leader()
        other, third = (it for it in cluster.machines if it is not leader)
        seven, eight = other.connect(7), third.connect(8)
        assert seven.ask(1, numbered(5, lease(7, 1 << 40, writes=True))).answer[4] == 4
        assert eight.ask(1, lease(8, 10, writes=True)).answer[4] == 8 and eight.ask(2, lease(7, 10), sender=7).refusal == ("NotYours", 0)
        assert other.stranger(12345).reply().refusal == ("Unlisted", 0)
        burst = b"".join(frame(at, 7, numbered(100 + at, lease(7, (1 << 40) + at))) for at in range(50))
        seven.socket.sendall(burst)
        assert [seven.reply().number for _ in range(50)] == list(range(50))
        assert leader.status()["frames"]["answered"] >= 52
        # whoever doesn't lead tells how it stands, and has no answer of the desk
        assert leader.status()["volume"] == {"leads": True, "next_group": cluster.next()}
        assert other.status()["volume"]["leads"] is False and "refuses it" in other.refused("free")
        assert seven.ask(1, numbered(6, lease(7, 1 << 40))).answer[4] == 4
        leader.process.kill()
        assert seven.is_ended() and eight.is_ended()
        cluster.another_leads()
        for it in (other, third):
            answer, _ = Own(it).answer(5, lease(7, 1 << 40, writes=True))
            assert answer[:4] == AGAIN
        name, who, address, first, count, *members = cluster.volumes().splitlines()[1].split()
        assert (name, who, int(first), int(count)) == ("volume", cluster.leader().name, 0, cluster.next()) and address.startswith(NETWORK)
        assert " ".join(members) == "a 0, b 0, c 0"
        ends_alike(cluster)


def two_volumes_beside_each_other(made):
    """Two volumes on the same machines, over one etcd: each has its leader, its calls and its desk."""
    with Cluster(made) as cluster, contextlib.ExitStack() as held:
        others = [held.enter_context(Machine(cluster, it.name, made, volume="another", port=9471)) for it in cluster.machines]
        for it in others:
            it.begin()
        cluster.wait_for(lambda: any(it.leads() for it in others))
        assert cluster.leader().connect(7).ask(1, numbered(5, lease(7, 1 << 40, writes=True))).answer[4] == 4
        leader = next(it for it in others if it.leads())
        assert leader.connect(8).ask(1, numbered(5, lease(8, 1 << 40, writes=True))).answer[4] == 4
        assert leader.connect(7).ask(1, numbered(5)).refusal == ("NotThere", 0)
        lines = [line.split() for line in cluster.volumes().splitlines()[1:]]
        assert [line[:2] for line in lines] == [["another", leader.name], ["volume", cluster.leader().name]], lines
        leader.process.kill()
        cluster.wait_for(lambda: any(it.leads() for it in others if it is not leader))
        second = next(it for it in others if it.leads())
        assert second.connect(8).ask(1, numbered(5)).answer[:4] == AGAIN
        assert cluster.leader().connect(7).ask(2, numbered(5)).answer[:4] == AGAIN
        ends_alike(cluster)


def a_new_standby_fetches_a_state(made):
    """Groups that two members keep a state of are removed. One that was away for long, and one without files, begin with a state of another one."""
    with Cluster(made, settings={"state_bytes": 20_000}, users=USERS) as cluster:
        leader = cluster.leader()
        away, other = (it for it in cluster.machines if it is not leader)
        cluster.wait_for(lambda: len(cluster.rows("base/")) == 3)
        assert away.stop()[0] == 0
        clients = [Calling(cluster, it["client"]) for it in USERS]
        try:
            for it in clients:
                it.thread.start()
            with cluster.lock:
                cluster.wait_for(lambda: "are removed from etcd" in leader.said())
                worked(cluster)
                assert int(cluster.rows("group/", "--limit=1")[0][0].rpartition("/")[2], 16) > 0
                away.begin()
                away.wait_for(lambda: "has come from" in away.said())
                worked(cluster)
                assert other.stop()[0] == 0
                shutil.rmtree(other.folder)
                os.mkdir(other.folder, 0o700)
                other.begin()
                other.wait_for(lambda: "has come from" in other.said())
                worked(cluster)
                leader.process.kill()
                cluster.another_leads()
                worked(cluster)
        finally:
            for it in clients:
                it.is_over.set()
            for it in clients:
                it.thread.join()
        assert not [it.fault for it in clients if it.fault]
        each_is_made_once(ends_alike(cluster), clients)
        say("states were fetched", clients)


def leaders_killed(made):
    """The leader is killed 6 times under load of 8 users, who send again what wasn't answered."""
    with Cluster(made, users=USERS) as cluster:

        def kill():
            leader = cluster.leader()
            leader.process.kill()
            leader.process.wait()
            return cluster.another_leads()[1]

        clients, waits = run_with_faults(cluster, 6, kill)
        each_is_made_once(ends_alike(cluster), clients)
        say("6 kills of the leader", clients)
        print(f"    another one led after {' '.join(f'{it:.1f}' for it in sorted(waits))} s")


def leaders_cut_off(made):
    """The leader's machine loses its wire 3 times under load, and has it back. Its kfsd stops, and follows again."""
    with Cluster(made, users=USERS) as cluster:

        def cut():
            leader, count = cluster.leader(), len(cluster.leader().statuses)
            leader.cut(True)
            wait = cluster.another_leads()[1]
            cluster.wait_for(lambda: len(leader.statuses) > count)
            assert leader.statuses[-1] == LOST
            leader.cut(False)
            return wait

        clients, waits = run_with_faults(cluster, 3, cut)
        each_is_made_once(ends_alike(cluster), clients)
        say("3 leaders cut off", clients)
        print(f"    another one led after {' '.join(f'{it:.1f}' for it in sorted(waits))} s")


def leaders_that_stand_still(made):
    """The leader's kfsd and kfs_serve stand still for longer than its lease, with calls and look-ups before it. It answers none of them when it goes on."""
    with Cluster(made, users=USERS) as cluster:

        def stand():
            leader, began = cluster.leader(), time.monotonic()
            held = leader.connect(20)
            leader.stand_still()
            held.send(1, numbered(1 << 60))
            held.send(2, numbered((1 << 60) + round(began * 1000), lease(20, 1 << 41)))
            wait = cluster.another_leads()[1]
            count = len(leader.statuses)
            leader.go_on()
            said = []
            try:
                while True:
                    said.append(held.reply())
            except Gone:
                pass
            assert all(it.refusal in (UNKNOWN, ("Stopping", 0)) for it in said), said
            cluster.wait_for(lambda: len(leader.statuses) > count)
            assert leader.statuses[-1] == LOST
            return wait

        clients, waits = run_with_faults(cluster, 3, stand)
        groups = ends_alike(cluster)
        assert lease(20, 1 << 41) not in dict(calls_of(groups)), "a call was made behind the end of a lease"
        each_is_made_once(groups, clients)
        say("3 leaders stood still", clients)
        print(f"    another one led after {' '.join(f'{it:.1f}' for it in sorted(waits))} s")


def a_kfs_serve_that_hangs(made):
    """The leader's kfs_serve stands still with a call in hand. The leader gives its key up, another one leads, and the call is made once."""
    with Cluster(made, settings={"hang_seconds": 2}) as cluster:
        leader, other = cluster.leader(), Own(cluster)
        assert other.answer(1, lease(7, 10))[0][4] == 4
        (child,) = children_of(leader.process.pid)
        signal.pidfd_send_signal(child, signal.SIGSTOP)
        os.close(child)
        held, count = leader.connect(7), len(leader.statuses)
        began = time.monotonic()
        held.send(1, numbered(2, lease(7, 11)))
        with contextlib.suppress(Gone):
            assert held.reply().refusal == UNKNOWN
        cluster.another_leads()
        took = time.monotonic() - began
        cluster.wait_for(lambda: len(leader.statuses) > count)
        assert leader.statuses[-1] == LOST and "hasn't made the calls of a group in 2 seconds" in leader.said()
        assert other.answer(2, lease(7, 11))[0][4] == 4
        counts = collections.Counter(call for call, _ in calls_of(ends_alike(cluster)))
        assert counts[lease(7, 11)] == 1
        print(f"    another one led {took:.1f} s behind the call that hung, of which it was given 2")


def members_of_etcd_killed(made):
    """A member of etcd is killed 3 times under load, the one that the leader asks first among them, and started again."""
    with Cluster(made, users=USERS) as cluster:
        chance = random.Random(7)

        def kill():
            machine = chance.choice([cluster.leader(), *cluster.machines])
            machine.kill_etcd()
            began = time.monotonic()
            cluster.leader()
            worked(cluster, 1)
            wait = time.monotonic() - began
            machine.start_etcd()
            cluster.wait_for(lambda: cluster.etcdctl("endpoint", "health").returncode == 0)
            return wait

        clients, waits = run_with_faults(cluster, 3, kill)
        each_is_made_once(ends_alike(cluster), clients)
        say("3 members of etcd killed", clients)
        print(f"    calls went on after {' '.join(f'{it:.1f}' for it in sorted(waits))} s; kfsd ended {sum(len(it.statuses) for it in cluster.machines)} times")


def files_created_once_on_machines(made):
    """200 files are created while the leader is killed 4 times: each is answered Yes, and is in each image once."""
    with Cluster(made, users=[user(1000, 7, (2, 999)), user(1001, 8)]) as cluster:
        assert cluster.leader().connect(7).ask(0, lease(7, 1 << 40, writes=True)).answer
        is_over, faults, own = threading.Event(), [], Own(cluster)

        def kill_now_and_then():
            try:
                for _ in range(4):
                    with cluster.lock:
                        worked(cluster)
                        leader = cluster.leader()
                        leader.process.kill()
                        leader.process.wait()
                        cluster.another_leads()
            except BaseException as fault:  # noqa: BLE001
                faults.append(fault)
            is_over.set()

        killing = threading.Thread(target=kill_now_and_then)
        killing.start()
        again, at = 0, 0
        while at < FILES or not is_over.is_set():
            answer, count = own.answer(at, submission(at))
            assert answer[4] == YES, (at, answer, count)
            again += count > 1
            at += 1
        killing.join()
        assert not faults, faults[0]
        counts = collections.Counter(call for call, _ in calls_of(ends_alike(cluster)))
        assert all(counts[submission(it)] == 1 for it in range(at))
        print(f"    {again} of {at} files were asked for again, and each was created once")


def connected(place):
    """A connection of client 7 to a machine, or to any of several; none where none is taken."""
    if isinstance(place, Cluster):
        with place.lock:
            return place.connect_or_none(7)
    try:
        return place.connect(7)
    except OSError:
        return None


class Own:
    """A connection of client 7 to a machine, or to any of several, kept as long as it lasts: who connects waits for the lock."""

    def __init__(self, place):
        self.place, self.connection = place, None

    def answer(self, number, call):
        """The answer to a numbered call, and how often it was asked for."""
        for count in range(1, 1000):
            self.connection = self.connection or connected(self.place)
            try:
                reply = self.connection.ask(1, numbered(number, call)) if self.connection else None
            except (Gone, OSError):
                reply = self.connection = None
            if reply and reply.answer is not None:
                return reply.answer, count
            assert reply is None or reply.refusal in (UNKNOWN, UNDER_WAY, ("Stopping", 0)), reply
            time.sleep(0.02)
        raise AssertionError("no answer comes")


def long_calls_go_in_parts(made):
    """Calls that are longer than a value of etcd may be are put in parts, and made by all."""
    with Cluster(made) as cluster:
        calls = [struct.pack(">BII", 1, 7, length) + bytes(length) + bytes(4) for length in (999_900, 999_901, 3_500_000)]
        own = Own(cluster)
        for at, call in enumerate(calls):
            # beside much other work it is asked for again
            assert own.answer(at, call)[0][4] == NO
        leader = cluster.leader()
        leader.process.kill()
        cluster.another_leads()
        assert all(own.answer(at, b"")[0][4] == NO for at in range(3))
        assert [call for call, _ in calls_of(ends_alike(cluster))] == calls
        # with its marker and the answers the second one has 10^6 bytes
        assert len({key for _, key, _ in cluster.puts() if key.startswith("part/")}) == 5


def a_desk_that_differs_stops(made):
    """A standby whose answer isn't the leader's says so, and ends with a status of its own."""
    with Cluster(made) as cluster:
        leader = cluster.leader()
        assert leader.connect(7).ask(1, lease(7, 10)).answer[4] == 4
        other = next(it for it in cluster.machines if it is not leader)
        assert other.stop()[0] == 0
        key, value = cluster.rows("group/")[0]
        # The node of the lease is another one.
        changed = value[:-1] + bytes([value[-1] ^ 1])
        assert cluster.etcdctl("put", key, data=changed).returncode == 0
        other.begin()
        other.is_wanted = False
        assert other.ended() == DIFFERS and "the two desks differ" in other.said()
        assert leader.connect(7).ask(2, lease(7, 11)).answer[4] == 4


TESTS = [
    a_standby_takes_over, connections_are_handed_on, two_volumes_beside_each_other, a_new_standby_fetches_a_state, leaders_killed, leaders_cut_off, leaders_that_stand_still, a_kfs_serve_that_hangs, members_of_etcd_killed, files_created_once_on_machines, long_calls_go_in_parts,
    a_desk_that_differs_stops,
]

"""A history of calls and look-ups over three machines and their faults: it has to be one in which all was done one behind another."""
import random
import threading
import time

from clustering import calls_of, ends_alike, worked
from killing import YES, submission
from machine_loads import slow_disks
from machines import Cluster
from numbering import UNDER_WAY, UNKNOWN
from running import Gone, lease, numbered, user

from frames import LeadsTo, find  # noqa: I001

CREATOR = 7
USERS = [user(1000, CREATOR, (2, 60_000)), *(user(4000 + at, 20 + at) for at in range(18)), user(5000, 90)]
READER = 90


class Client:
    """A client with one call under way, each asked for again until it is answered."""

    def __init__(self, cluster, client, most):
        self.cluster, self.client, self.most = cluster, client, most
        self.connection, self.chance = None, random.Random(client)
        # each call with the times at which it was begun and answered, and its answer
        self.done, self.count = [], 0
        self.again, self.fault = 0, None
        self.thread = threading.Thread(target=self.run)

    def run(self):
        try:
            while not self.is_through() and not self.cluster.is_over.is_set():
                self.one()
        except BaseException as fault:  # noqa: BLE001
            self.fault = fault

    def is_through(self):
        """Whether it has made its calls, and there is no fault any more."""
        return len(self.done) >= self.most and self.cluster.is_quiet.is_set()

    def one(self):
        call = lease(self.client, self.count + 1)
        self.until_answered(call, numbered(self.count, call))
        self.count += 1

    def until_answered(self, call, body):
        """Asks until there is an answer, or all is over."""
        began = time.monotonic()
        while not self.cluster.is_over.is_set():
            reply = self.ask(body)
            if reply is not None and reply.refusal is None:
                self.done.append((began, time.monotonic(), call, reply.answer))
                return reply.answer
            assert reply is None or reply.refusal in (UNKNOWN, UNDER_WAY, ("Stopping", 0)), reply
            self.again += 1
            time.sleep(0.01)
        return None

    def ask(self, body):
        """The reply; none where the connection ends before."""
        try:
            if self.connection is None:
                with self.cluster.lock:
                    self.connection = self.cluster.connect_or_none(self.client)
            return self.connection.ask(1, body) if self.connection else None
        except (Gone, OSError):
            self.connection.close()
            self.connection = None
            return None


class Creator(Client):
    """Creates one file behind another."""

    def one(self):
        call = submission(self.count)
        answer = self.until_answered(call, numbered(1_000_000 + self.count, call))
        if answer is not None:
            assert answer[4] == YES, answer
            self.cluster.created = self.count = self.count + 1


class Reader(Client):
    """Looks for the last file of which it is known that it was created, and for one that nobody has begun to create."""

    def one(self):
        last = self.cluster.created
        found = self.until_answered(None, find(1, b"file%d" % (last - 1))) if last else None
        assert found is None or found == LeadsTo(1 + last), f"file {last - 1} isn't there: {found}"
        far = self.until_answered(None, find(1, b"file%d" % (last + 1000)))
        assert far is None or far == LeadsTo(None), far


def kill(cluster):
    leader = cluster.leader()
    leader.process.kill()
    leader.process.wait()
    cluster.another_leads()


def cut(cluster):
    leader, count = cluster.leader(), len(cluster.leader().statuses)
    leader.cut(True)
    cluster.another_leads()
    cluster.wait_for(lambda: len(leader.statuses) > count)
    leader.cut(False)


def stand_still(cluster):
    leader = cluster.leader()
    leader.stand_still()
    cluster.another_leads()
    leader.go_on()


def kill_etcd(cluster):
    machine = random.choice(cluster.machines)
    machine.kill_etcd()
    worked(cluster, 1)
    machine.start_etcd()
    cluster.wait_for(lambda: cluster.etcdctl("endpoint", "health").returncode == 0)


def slow(cluster):
    slow_disks(cluster, random.Random())


def faults_of(kills, cuts, stands, etcd_kills, slows):
    """So many faults of each kind."""
    return {kill: kills, cut: cuts, stand_still: stands, kill_etcd: etcd_kills, slow: slows}


def is_serial(calls, clients):
    """Looks whether the order of the calls in etcd is one in which each was done between its beginning and its answer, with this answer."""
    place = {call: at for at, (call, _) in enumerate(calls)}
    assert len(place) == len(calls), "a call was made twice"
    answered = sorted((place[call], began, ended, answer) for it in clients for began, ended, call, answer in it.done if call is not None)
    latest = 0
    for at, began, ended, answer in answered:
        assert answer[4:] == calls[at][1], "a call has another answer in etcd than its client has"
        # one that was begun behind the end of this one stands before it
        assert latest <= ended, "two calls stand in the wrong order"
        latest = max(latest, began)
    return len(answered)


def history(made, most, faults, **settings):
    """Lets 20 clients make so many calls each or more, beside so many faults of each kind. Prints what was seen."""
    began = time.monotonic()
    with Cluster(made, settings=settings, users=USERS, tiers=(8192, 64, 64)) as cluster:
        cluster.is_over, cluster.is_quiet, cluster.created = threading.Event(), threading.Event(), 0
        assert cluster.leader().connect(CREATOR).ask(1, lease(CREATOR, 1 << 40, writes=True)).answer[4] == 4
        kinds = {CREATOR: Creator, READER: Reader}
        clients = [kinds.get(it["client"], Client)(cluster, it["client"], most) for it in USERS]
        for it in clients:
            it.thread.start()
        try:
            chance = random.Random(most)
            order = [fault for fault, count in faults.items() for _ in range(count)]
            chance.shuffle(order)
            with cluster.lock:
                for fault in order:
                    worked(cluster, chance.randrange(5, 60))
                    fault(cluster)
                worked(cluster)
            cluster.is_quiet.set()
            while any(it.thread.is_alive() for it in clients[1:-1]) and not any(it.fault for it in clients):
                with cluster.lock:
                    cluster.look_after()
                time.sleep(0.2)
        finally:
            cluster.is_over.set()
            for it in clients:
                it.thread.join()
        lasted = time.monotonic() - began
        wrong = [it.fault for it in clients if it.fault]
        assert not wrong, wrong[0]
        groups = ends_alike(cluster)
        count = is_serial(calls_of(groups), clients)
        reads, again = len(clients[-1].done), sum(it.again for it in clients)
        ends = sum(len(it.statuses) for it in cluster.machines)
        print(f"    {count} calls and {reads} look-ups in {len(groups)} groups and {lasted:.0f} s are one serial history; {again} were asked for again, and kfsd ended {ends} times")


def one_serial_history(made):
    """20 clients with one call under way each, while leaders are killed, cut off and stand still, and a member of etcd is killed."""
    history(made, 300, {kill: 2, cut: 1, stand_still: 1, kill_etcd: 1})


TESTS = [one_serial_history]

"""Load on three machines and their faults, for long or for figures: hosts/load machines."""
import os
import random
import time

from clustering import image_in, raw_groups_of
from fuzzing.codec import decode_image
from fuzzing.images import finding
from loading import NUMBERS, load_users, prepare, said_by, start_load
from machines import Cluster
from moments import Moments
from replaying import of_image, recorded, replayed, same
from running import Daemon

# How long a fault stands, and the calls go on behind it.
BETWEEN = (0.5, 3)
COUNTS = (1, 10, 100, 1000)


class Part:
    """The users of a load whose clients connect to one machine."""

    def __init__(self, machine, users):
        self.room, self.binaries, self.users, self.machine = machine.room, machine.binaries, users, machine

    def connect(self, client):
        # where it begins to lead, its socket isn't there for a moment
        self.machine.cluster.wait_for(lambda: os.path.exists(f"{self.room}/socket"))
        return self.machine.connect(client)


def kill(cluster, _chance):
    leader, moments = cluster.leader(), Moments(cluster)
    leader.process.kill()
    leader.process.wait()
    cluster.another_leads()
    return moments.took()


def cut(cluster, _chance):
    leader, count, moments = cluster.leader(), len(cluster.leader().statuses), Moments(cluster)
    leader.cut(True)
    cluster.another_leads()
    cluster.wait_for(lambda: len(leader.statuses) > count)
    leader.cut(False)
    return moments.took()


def stand_still(cluster, _chance):
    leader, moments = cluster.leader(), Moments(cluster)
    leader.stand_still()
    cluster.another_leads()
    leader.go_on()
    return moments.took()


def kill_etcd(cluster, chance):
    machine, began, first = chance.choice(cluster.machines), time.monotonic(), cluster.next()
    machine.kill_etcd()
    cluster.wait_for(lambda: cluster.next() > first + 1)
    took = time.monotonic() - began
    machine.start_etcd()
    cluster.wait_for(lambda: cluster.etcdctl("endpoint", "health").returncode == 0)
    return took


def slow_disks(cluster, chance):
    """For some seconds a member of etcd or a kfs_serve stands still for a while, again and again."""
    began = time.monotonic()
    while time.monotonic() - began < 5:
        machine = chance.choice(cluster.machines)
        if machine.process.poll() is None:
            machine.hesitate(chance.uniform(0.05, 0.6))
        cluster.look_after()
    first = cluster.next()
    cluster.wait_for(lambda: cluster.next() > first + 1)
    return time.monotonic() - began - 5


def faults_of(kills, cuts, stands, etcd_kills, slows):
    """So many faults of each kind."""
    return {kill: kills, cut: cuts, stand_still: stands, kill_etcd: etcd_kills, slow_disks: slows}


def compare(cluster, parts, images):
    """Has a model make the calls of all groups. Each call that was answered has to be among them, once and with its answer, and the image to be
    the model's. Returns how many calls there are, and how many files."""
    with open(f"{cluster.room}/copy", "wb") as copy:
        for group in raw_groups_of(cluster):
            copy.write(len(group).to_bytes(4, "big") + group)
    model, numbered = replayed(f"{cluster.room}/copy", cluster.users, cluster.machines[0].tiers)
    answered = {}
    for it in parts:
        answered |= recorded(f"{it.room}/record")
    assert numbered.made == answered, "a call was lost, or answered otherwise than it was made"
    due = model.all()
    same(of_image(decode_image(images.pop())), due)
    return model.count, len(due[2])


def run(made, connections, calls, faults, seconds=None, is_watched=False, is_in_memory=False, **settings):
    """Has connections make so many calls of all kinds, a third of them at each machine, or calls for so many seconds, beside so many faults of each
    kind. Looks at all images at the end, and where all groups are watched at all calls."""
    users = load_users(30, connections)
    limits = {"connections_a_user": -(-connections // len(users)) + 8}
    with Cluster(made, settings=settings, is_watched=is_watched, is_in_memory=is_in_memory, users=users, tiers=(4 * NUMBERS * connections, 16, 16), **limits) as cluster:
        parts = [Part(machine, users[at::3]) for at, machine in enumerate(cluster.machines)]
        for it in parts:
            prepare(it)
        began, chance = time.monotonic(), random.Random(connections)
        most = ("--seconds", seconds) if seconds else ("--calls", calls // 3)
        loads = [start_load(it, "--connections", connections // 3, *most, "--mixed", "--record", f"{it.room}/record") for it in parts]
        try:
            took = with_faults(cluster, loads, faults, chance)
        finally:
            for it in loads:
                it.kill()
        lasted = time.monotonic() - began
        assert [it.returncode for it in loads] == [0, 0, 0], "a call was answered otherwise than is right"
        cluster.settle()
        images = {image_in(it.state(f"{cluster.room}/states")) for it in cluster.machines}
        assert len(images) == 1, "the images differ"
        assert all(finding(decode_image(it)) is None for it in images)
        figures = [said_by(it) for it in parts]
        answered, again = (sum(it[name] for it in figures) for name in ("answered", "again"))
        print(f"    {answered} calls of {connections} connections in {lasted:.0f} s, {again} handed in again; three images are the same, and keep the ten rules")
        for fault, times in took.items():
            if times:
                print(f"    {fault.__name__}: {len(times)} times; calls went on after {' '.join(f'{it:.1f}' for it in sorted(times))} s, in the middle {sorted(times)[len(times) // 2]:.1f}")
        print(f"    kfsd ended {sum(len(it.statuses) for it in cluster.machines)} times, and has removed the groups before {cluster_first(cluster)} of {cluster.next()}")
        if is_watched:
            count, files = compare(cluster, parts, images)
            print(f"    a model made the {count} calls with the same answers, each that was answered once, and has the {files} files of the image")


def with_faults(cluster, loads, faults, chance):
    """Waits for the end of loads, beside so many faults of each kind. Returns how long each kept calls from being answered."""
    order = [fault for fault, count in faults.items() for _ in range(count)]
    chance.shuffle(order)
    took = {fault: [] for fault in faults}
    for fault in order:
        sleep(cluster, chance.uniform(*BETWEEN))
        if all(it.poll() is not None for it in loads):
            break
        took[fault].append(fault(cluster, chance))
    while any(it.poll() is None for it in loads):
        sleep(cluster, 0.5)
    return took


def cluster_first(cluster):
    rows = cluster.rows("group/", "--limit=1")
    return int(rows[0][0].rpartition("/")[2], 16) if rows else cluster.next()


def sleep(cluster, seconds):
    end = time.monotonic() + seconds
    while time.monotonic() < end:
        cluster.look_after()
        time.sleep(0.1)


def figures(made, seconds, is_in_memory=False):
    """Prints how many calls a second connections make at a leader, and at a kfsd without etcd."""
    print("connections                calls/s    median 99 of 100      most, in microseconds")
    for connections in COUNTS:
        users = load_users(min(30, connections), connections)
        words = {"users": users, "tiers": (8192, 16, 16), "connections_a_user": 64}
        with Daemon(*made, **words).start() as alone:
            alone.cluster = alone
            show(connections, "alone", alone, users, seconds)
        with Cluster(made, is_watched=False, is_in_memory=is_in_memory, **words) as cluster:
            leader = cluster.leader()
            show(connections, "at the leader", leader, users, seconds)
        with Cluster(made, is_watched=False, is_in_memory=is_in_memory, **words) as cluster:
            leader = cluster.leader()
            show(connections, "handed on", next(it for it in cluster.machines if it is not leader), users, seconds)


def show(connections, name, machine, users, seconds):
    part = Part(machine, users)
    prepare(part)
    assert start_load(part, "--connections", connections, "--seconds", seconds).wait(timeout=seconds + 120) == 0
    found = said_by(part)
    print(f"{connections:>11} {name:<14} {found['calls_a_second']:>8.0f} {found['median_micros']:>9} {found['micros_of_99_in_100']:>9} {found['most_micros']:>9}", flush=True)


def load_on_machines(made):
    """90 connections of 30 users make 60,000 calls, a third of them at each machine, beside faults of each kind. The files of kfs_serve are in memory."""
    run(made, 90, 60_000, faults_of(2, 1, 1, 1, 1), is_watched=True, is_in_memory=True, state_bytes=300_000)


TESTS = [load_on_machines]

"""kfs-mount, tried with real programs and with random calls, each beside a tmpfs.

Its server is in memory (`Memory` of kfs-client), or the program `kfs`. It needs /dev/fuse and root; what is called runs as another
user. RANDOM_CALLS and RANDOM_SEED say how many random calls are made, and which.
"""
import contextlib
import os
import random
import signal
import struct
import subprocess
import sys
import tempfile
import time
import traceback

import beside
from clients import kfs_program
from programs import Due, differences, snapshot
from running import Daemon, children_of, user

HERE = os.path.dirname(os.path.realpath(__file__))
TOP = os.path.dirname(os.path.dirname(os.path.dirname(HERE)))
CRATE, OUT, REGISTRY = f"{TOP}/hosts/mount", f"{TOP}/hosts/client/out", "/usr/share/cargo/registry"
# KFS_MOUNT names another build.
MOUNT = os.environ.get("KFS_MOUNT", f"{OUT}/debug/kfs-mount")
USER = 1000
# For how many seconds a process is waited for that ends or begins: the machine may have much other work.
PATIENT = 300
SOON = 30
RANDOM_CALLS, RANDOM_SEED = (int(os.environ.get(name, value)) for name, value in (("RANDOM_CALLS", "10000"), ("RANDOM_SEED", "1")))
# How many files each user puts into the folder of all, and the seconds between kills, and behind which all is seen by all.
SHARED, BETWEEN_KILLS, SEEN_AFTER = 20, 4, 7
# For how many seconds a mount stands still at most, where its leases live for up to four; how often a user counts meanwhile, and behind
# which pause.
LATEST, COUNTED, COUNT_PAUSE = 6, 60, 0.3
# What is tried beside a hostile client, and its pauses in milliseconds.
BESIDE_HOSTILE, HOSTILE_PAUSE = ("git", "sqlite3", "make", "python3"), 10


def cargo(command, *rest):
    source = ["--config", f"{TOP}/hosts/debian.toml"] if os.path.isdir(REGISTRY) else []
    return ["cargo", command, *source, "--manifest-path", f"{CRATE}/Cargo.toml", "--target-dir", OUT, "-j", "1", "--quiet", *rest]


def is_there(word):
    return subprocess.run(["cargo", word, "--version"], check=False, capture_output=True).returncode == 0


@contextlib.contextmanager
def mounted_by(*words, uid=USER, gid=None):
    """A folder at which a tree is mounted, for a user, and the process that serves it. Others may come in, too, as its modes say."""
    with tempfile.TemporaryDirectory(prefix="kfs-mount-") as room:
        os.chmod(room, 0o755)
        folder = f"{room}/at"
        os.mkdir(folder)
        process = subprocess.Popen([MOUNT, folder, "--uid", str(uid), "--gid", str(uid if gid is None else gid), "--allow-other", *words], stdout=subprocess.PIPE, text=True)
        try:
            assert process.stdout.readline() == "mounted\n"
            yield folder, process
        finally:
            process.send_signal(signal.SIGTERM)
            status = process.wait(PATIENT)
            process.stdout.close()
        assert status == 0, status


@contextlib.contextmanager
def mounted(*words, uid=USER, gid=None):
    """The folder alone."""
    with mounted_by(*words, uid=uid, gid=gid) as (folder, _process):
        yield folder


def unmount(folder):
    """Takes away a mount whose process was killed."""
    subprocess.run(["umount", "--lazy", folder], check=True)


@contextlib.contextmanager
def tmpfs():
    """A folder of a tmpfs that is as the root of a new tree."""
    with tempfile.TemporaryDirectory(prefix="kfs-tmpfs-", dir="/dev/shm") as room:
        os.chmod(room, 0o755)
        folder = f"{room}/at"
        os.mkdir(folder)
        os.chmod(folder, 0o777)
        yield folder


def in_child(function, *words, user=None, groups=(), umask=0o022):
    """Calls a function in a process of its own, as a user if one is told, with other groups. Returns its number."""
    child = os.fork()
    if child:
        return child
    status = 1
    try:
        if user is not None:
            os.setgroups(groups)
            os.setgid(user)
            os.setuid(user)
            os.umask(umask)
        function(*words)
        status = 0
    except BaseException:
        traceback.print_exc(file=sys.stdout)
    sys.stdout.flush()
    os._exit(status)


def wait_if_ended(child):
    """Whether a process has ended by now, which must be well."""
    found, status = os.waitpid(child, os.WNOHANG)
    assert status == 0, f"a user's process has ended with status {os.waitstatus_to_exitcode(status)}"
    return found != 0


def wait(child):
    return os.waitstatus_to_exitcode(os.waitpid(child, 0)[1])


def as_user(function, *words, user=USER):
    """Calls a function as the user, in a process of its own, and waits for it."""
    assert wait(in_child(function, *words, user=user)) == 0


def can_mount():
    """Whether this machine has what a mount needs."""
    if os.path.exists("/dev/fuse"):
        return True
    print("    /dev/fuse isn't there: left out")
    return False


def a_mount(_made):
    """Its text has no warning, and its own tests go well."""
    if is_there("clippy"):
        subprocess.run(cargo("clippy", "--all-targets", "--", "-D", "warnings"), check=True)
    if is_there("fmt"):
        subprocess.run(["cargo", "fmt", "--manifest-path", f"{CRATE}/Cargo.toml", "--check"], check=True)
    subprocess.run(cargo("test"), check=True)
    subprocess.run(cargo("build"), check=True)


def real_programs(_made):
    """Programs say and leave on a mount what they do on a tmpfs."""
    if not can_mount():
        return
    with Due() as due:
        for at, (name, script) in enumerate(due.programs):
            began = time.monotonic()
            with mounted() as folder:
                count = due.compare(f"{folder}/work", script, USER)
            print(f"    {at} {name}: {count} paths alike ({time.monotonic() - began:.1f} s)", flush=True)


def has_look_ups(daemon):
    """Whether the server of this kfsd finds names."""
    with contextlib.closing(daemon.connect(7)) as it:
        it.send(1, b"\x43" + struct.pack(">I", 1) + b"a")
        return it.next()[1][:1] == b"\x03"


def share(folder, user, until, first=0):
    """A user makes files in a folder of all, with bytes of its own."""
    for index in range(first, until):
        path = f"{folder}/shared/{user}-{index}"
        # in bytes: the user may not read where codecs are
        with open(f"{path}.part", "wb", buffering=0) as it:
            it.write(b"%d %d\n" % (user, index) * index)
            os.fsync(it.fileno())
        os.rename(f"{path}.part", path)


def as_programs(due, folder, user):
    """What a user does: all programs, each compared with a tmpfs, and files in the folder of all."""
    for at, (name, script) in enumerate(due.programs):
        began = time.monotonic()
        count = due.compare(f"{folder}/{user}-{at}", script, user)
        print(f"    {user}, {at} {name}: {count} paths alike ({time.monotonic() - began:.1f} s)", flush=True)
    as_user(share, folder, user, SHARED, user=user)


def words_for(daemon, it):
    """What says whose mount it is at which daemon."""
    return "--socket", f"{daemon.room}/socket", "--client", str(it["client"])


def mounted_for(daemon, it):
    """The folder at which a user of a daemon has its mount."""
    return mounted(*words_for(daemon, it), uid=it["uid"])


def make_shared(folder):
    """Makes a folder that all may write to, and is kept."""
    os.mkdir(f"{folder}/shared")
    os.chmod(f"{folder}/shared", 0o777)
    beside.sync(f"{folder}/shared")


def kill_daemon(daemon):
    """Kills kfsd and kfs_serve at once."""
    children = children_of(daemon.process.pid)
    daemon.process.kill()
    for held in children:
        with contextlib.suppress(ProcessLookupError):
            signal.pidfd_send_signal(held, signal.SIGKILL)
        os.close(held)
    daemon.process.wait()


def are_shared(folder, users):
    """Looks whether the folder of all has what all have put there."""
    found = {}
    for name in os.listdir(f"{folder}/shared"):
        with open(f"{folder}/shared/{name}", "rb") as it:
            found[name] = it.read()
    assert found == {f"{it['uid']}-{index}": b"%d %d\n" % (it["uid"], index) * index for it in users for index in range(SHARED)}


def three_users(made):
    """Three users at once, each with a mount through kfsd: their programs do what they do on a tmpfs, and each sees what all have
    made, while kfs_serve and kfsd are killed, and behind that."""
    if not can_mount():
        return
    users = [user(USER + at, 7 + at, (2 + at * 20_000, 1 + (at + 1) * 20_000)) for at in range(3)]
    with Due() as due, Daemon(*made, users=users, tiers=(65_536, 16, 16)).start() as daemon:
        if not has_look_ups(daemon):
            print("    kfs_serve has no look-ups: left out")
            return
        daemon.patience = PATIENT
        began, kills = time.monotonic(), 0
        with contextlib.ExitStack() as stack:
            folders = [stack.enter_context(mounted_for(daemon, it)) for it in users]
            make_shared(folders[0])
            children = {in_child(as_programs, due, folder, it["uid"]) for folder, it in zip(folders, users)}
            while children:
                time.sleep(BETWEEN_KILLS)
                ended = {child for child in children if wait_if_ended(child)}
                children -= ended
                kills += 1
                if kills % 2:
                    daemon.kill_desk()
                else:
                    kill_daemon(daemon)
                    daemon.start()
            time.sleep(SEEN_AFTER)
            for folder in folders:
                are_shared(folder, users)
            due_trees = [snapshot(folder) for folder in folders]
        kill_daemon(daemon)
        daemon.start()
        with contextlib.ExitStack() as stack:
            for it, due_tree in zip(users, due_trees):
                differ = differences(snapshot(stack.enter_context(mounted_for(daemon, it))), due_tree)
                assert not differ, (it["uid"], len(differ), list(differ.items())[:5])
        print(f"    three users, {kills} kills, {len(due_trees[0])} paths ({time.monotonic() - began:.1f} s)")


def beside_a_hostile_client(made):
    """Two users' programs do what they do on a tmpfs, beside a client that takes leases on all and hands in what is wrong."""
    if not can_mount():
        return
    users = [user(0, 6, (2, 2)), *(user(USER + at, 7 + at, (100 + at * 20_000, 99 + (at + 1) * 20_000)) for at in range(3))]
    duties = {"lease_seconds": 4, "wanted_seconds": 1}
    with Due() as due, Daemon(*made, users=users, tiers=(65_536, 16, 16), duties=duties).start() as daemon:
        if not has_look_ups(daemon):
            return
        with mounted_for(daemon, users[0]) as folder:
            os.chmod(folder, 0o1777)
        due.programs = [each for each in due.programs if each[0] in BESIDE_HOSTILE]
        with contextlib.ExitStack() as stack:
            honest = users[1:3]
            folders = [stack.enter_context(mounted_for(daemon, it)) for it in honest]
            os.mkdir(f"{folders[0]}/shared")
            os.chmod(f"{folders[0]}/shared", 0o1777)
            beside.sync(f"{folders[0]}/shared")
            words = [f"{os.path.dirname(MOUNT)}/examples/hostile", f"{daemon.room}/socket", str(users[3]["client"]), str(HOSTILE_PAUSE)]
            hostile = subprocess.Popen(words, user=users[3]["uid"], group=users[3]["uid"], extra_groups=[], stdin=subprocess.PIPE, stdout=subprocess.PIPE, text=True)
            children = [in_child(as_programs, due, folder, it["uid"]) for folder, it in zip(folders, honest)]
            assert [wait(child) for child in children] == [0, 0]
            said, _ = hostile.communicate(timeout=SOON)
            print(said, end="")
            assert hostile.returncode == 0, hostile.returncode
            time.sleep(SEEN_AFTER)
            for folder in folders:
                are_shared(folder, honest)


def counted(index):
    """What stands in the file of a user that has counted so far."""
    return b"%d" % index * 30_000


def count_up(folder, user):
    """A user counts up in a file of its own, which it reads each time, and puts files into the folder of all."""
    own = f"{folder}/{user}-count"
    for index in range(COUNTED):
        with open(own, "wb", buffering=0) as it:
            it.write(counted(index))
            os.fsync(it.fileno())
        with open(own, "rb", buffering=0) as it:
            assert it.read() == counted(index)
        os.rename(own, f"{own}ed")
        os.rename(f"{own}ed", own)
        time.sleep(COUNT_PAUSE)
        if index % (COUNTED // SHARED) == 0:
            share(folder, user, index // (COUNTED // SHARED) + 1, index // (COUNTED // SHARED))


def late_mounts(made):
    """Mounts that stand still now and then for longer than their leases live: nothing that was synced is lost, and no call fails."""
    if not can_mount():
        return
    users = [user(USER + at, 7 + at, (2 + at * 20_000, 1 + (at + 1) * 20_000)) for at in range(3)]
    chance, stops = random.Random(1), 0
    with Daemon(*made, users=users, tiers=(4096, 16, 16), duties={"lease_seconds": 4, "wanted_seconds": 1}).start() as daemon:
        if not has_look_ups(daemon):
            return
        with contextlib.ExitStack() as stack:
            folders, processes = zip(*(stack.enter_context(mounted_by(*words_for(daemon, it), uid=it["uid"])) for it in users))
            make_shared(folders[0])
            children = {in_child(count_up, folder, it["uid"], user=it["uid"]) for folder, it in zip(folders, users)}
            while children:
                late = chance.choice(processes)
                late.send_signal(signal.SIGSTOP)
                time.sleep(chance.uniform(1, LATEST))
                late.send_signal(signal.SIGCONT)
                stops += 1
                time.sleep(1)
                children -= {child for child in children if wait_if_ended(child)}
            time.sleep(SEEN_AFTER)
            for folder in folders:
                are_shared(folder, users)
        with contextlib.ExitStack() as stack:
            for it in users:
                folder = stack.enter_context(mounted_for(daemon, it))
                are_shared(folder, users)
                for other in users:
                    with open(f"{folder}/{other['uid']}-count", "rb") as own:
                        assert own.read() == counted(COUNTED - 1)
        print(f"    three mounts, one of them stopped {stops} times")


def compare_calls(folder, other, count, seed, *more):
    """Random calls on a mount and on a tmpfs, and the trees that they leave."""
    as_user(beside.compare, folder, other, count, seed, *more)
    assert snapshot(folder) == snapshot(other)


def random_calls(_made):
    """Random calls have the same results and errors as on a tmpfs."""
    servers = [(), ("--program", kfs_program())] if can_mount() else []
    for words in servers:
        # No line of the program can say a path with a space.
        names = [name for name in beside.NAMES if not words or " " not in name]
        with tmpfs() as other, mounted(*words) as folder:
            compare_calls(folder, other, RANDOM_CALLS, RANDOM_SEED, names)


def random_calls_through_kfsd(made, count=RANDOM_CALLS, seed=RANDOM_SEED):
    """They have also through kfsd."""
    users = [user(USER, 7, (2, 65_000))]
    with Daemon(*made, users=users, tiers=(65_536, 16, 16)).start() as daemon:
        if can_mount() and has_look_ups(daemon):
            with tmpfs() as other, mounted_for(daemon, users[0]) as folder:
                # Of a directory that its client can't read nobody tells whether it is empty.
                compare_calls(folder, other, count, seed, beside.NAMES, [mode for mode in beside.MODES if mode & 0o400])


TESTS = [a_mount, real_programs, random_calls, random_calls_through_kfsd, late_mounts, three_users, beside_a_hostile_client]

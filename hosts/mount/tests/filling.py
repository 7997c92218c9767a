"""A desk that is full, a kfsd that isn't there, and what is left of a mount that is ended then."""
import contextlib
import errno
import os
import signal
import subprocess
import tempfile
import time

import beside
from mounts import MOUNT, PATIENT, SOON, USER, can_mount, has_look_ups, in_child, make_shared, mounted_for, unmount, wait, words_for
from running import Daemon, user

GRANT = 20_000
BLOCK, CHUNK = 4096, 100_000
# How often a full desk is emptied, and how many blocks its first tier has, and each of the others.
ROUNDS, FIRST, SLOWER = int(os.environ.get("FULL_ROUNDS", "2")), 1024, 512


def fault_of(call):
    try:
        call()
    except OSError as fault:
        return fault.errno
    return None


@contextlib.contextmanager
def desk_of(made, count, tiers, **more):
    """A daemon with small tiers, and the folder that users share, as each has it on a mount of its own."""
    users = [user(USER + at, 7 + at, (2 + at * GRANT, 1 + (at + 1) * GRANT)) for at in range(count)]
    with Daemon(*made, users=users, tiers=tiers, **more).start() as daemon:
        if not has_look_ups(daemon):
            yield None, []
            return
        with contextlib.ExitStack() as stack:
            folders = [stack.enter_context(mounted_for(daemon, it)) + "/shared" for it in users]
            make_shared(os.path.dirname(folders[0]))
            yield daemon, folders


def fill_on(folder, own, until):
    """Writes files until there is no room. Of each that was written, closed or synced without a fault all bytes are there later."""
    whole, data = [], os.urandom(CHUNK)
    for index in range(10_000):
        name, is_synced = f"{folder}/{own}-{index}", index % 3 == 0
        try:
            with open(name, "wb") as it:
                it.write(data)
                it.flush()
                if is_synced:
                    os.fsync(it.fileno())
        except OSError as fault:
            assert fault.errno == errno.ENOSPC, fault
            break
        whole.append(name)
    else:
        raise AssertionError("it was never full")
    # What others write may take the room of what was closed and not synced. It is there as soon as they have made some.
    for name in whole:
        assert beside.whole(name) == data, name
    with open(until, "w", encoding="utf-8") as it:
        it.write(str(len(whole)))


def empty(folder):
    for name in os.listdir(folder):
        os.unlink(f"{folder}/{name}")


def empty_on(folder, own):
    for name in os.listdir(folder):
        if name.startswith(f"{own}-"):
            os.unlink(f"{folder}/{name}")
    # So much is free now that a directory is made, and a file.
    os.mkdir(f"{folder}/made-{own}")
    os.rmdir(f"{folder}/made-{own}")
    beside.sync(folder)


def free_blocks(folder):
    return os.statvfs(folder).f_bfree


def a_full_desk_is_emptied(made):
    """Three users fill a desk at once, hear ENOSPC, and empty it by rm, again and again: nothing is stuck, and all is free then."""
    if not can_mount():
        return
    with desk_of(made, 3, (FIRST, SLOWER, SLOWER), duties={"free_percent": 25}) as (daemon, folders):
        if not daemon:
            return
        with tempfile.TemporaryDirectory() as room:
            os.chmod(room, 0o777)
            due = free_blocks(folders[0])
            assert due == FIRST + 2 * SLOWER, due
            for index in range(ROUNDS):
                children = [in_child(fill_on, folder, at, f"{room}/{at}", user=USER + at) for at, folder in enumerate(folders)]
                assert [wait(child) for child in children] == [0] * len(folders)
                counts = []
                for at in range(len(folders)):
                    with open(f"{room}/{at}", encoding="utf-8") as it:
                        counts.append(int(it.read()))
                # Nearly all was used: what one file takes may be free in each tier, and what logs have under way.
                assert sum(counts) * CHUNK > due * BLOCK // 2, counts
                children = [in_child(empty_on, folder, at, user=USER + at) for at, folder in enumerate(folders)]
                assert [wait(child) for child in children] == [0] * len(folders)
                for folder in folders:
                    beside.sync(folder)
                until = time.monotonic() + PATIENT
                while free_blocks(folders[0]) < due and time.monotonic() < until:
                    time.sleep(0.1)
                assert free_blocks(folders[0]) == due, (index, free_blocks(folders[0]))


def who_writes_hears_of_a_full_desk(made):
    """ENOSPC comes at write() or close(), and what is cut or removed then makes room for what comes behind."""
    if not can_mount():
        return
    with desk_of(made, 1, (64, 4, 4)) as (daemon, folders):
        if not daemon:
            return
        folder = folders[0]
        with open(f"{folder}/old", "wb") as it:
            it.write(bytes(50 * BLOCK))
        beside.sync(folder)
        written = os.open(f"{folder}/new", os.O_WRONLY | os.O_CREAT, 0o644)
        faults = [fault_of(lambda: os.write(written, bytes(10 * BLOCK))) for _ in range(20)]
        assert errno.ENOSPC in faults and set(faults) <= {None, errno.ENOSPC}, faults
        taken = faults.count(None) * 10 * BLOCK
        assert fault_of(lambda: os.close(written)) in (None, errno.ENOSPC)
        # All that was taken has room, or has it once the old file is cut.
        os.truncate(f"{folder}/old", 0)
        beside.sync(folder)
        assert os.stat(f"{folder}/new").st_size == taken > 0
        os.unlink(f"{folder}/old")
        os.unlink(f"{folder}/new")
        os.mkdir(f"{folder}/made")
        beside.sync(folder)
        with open(f"{folder}/again", "wb") as it:
            it.write(bytes(60 * BLOCK))
        beside.sync(folder)


@contextlib.contextmanager
def running(process):
    """A process that doesn't outlive a test."""
    with process:
        try:
            yield process
        finally:
            process.kill()


def started(daemon, it, folder, *more):
    return running(begun(daemon, it, folder, *more))


def begun(daemon, it, folder, *more):
    return subprocess.Popen([MOUNT, folder, *words_for(daemon, it), "--uid", str(it["uid"]), "--allow-other", *more], stdout=subprocess.PIPE, stderr=subprocess.PIPE, text=True)


def what_is_left_comes_back(made):
    """A mount that ends while kfsd isn't there ends at once, and keeps its log in a file. The next one hands it in."""
    if not can_mount():
        return
    it = user(USER, 7, (2, GRANT))
    with Daemon(*made, users=[it], tiers=(1024, 16, 16)).start() as daemon, tempfile.TemporaryDirectory(prefix="kfs-left-") as room:
        if not has_look_ups(daemon):
            return
        folder, kept = f"{room}/at", f"{room}/kept"
        os.mkdir(folder)
        with started(daemon, it, folder, "--keep", kept) as process:
            assert process.stdout.readline() == "mounted\n"
            with open(f"{folder}/before", "wb") as made_before:
                made_before.write(b"kept")
            beside.sync(folder)
            with open(f"{folder}/left", "wb") as left:
                left.write(b"left" * 1000)
            os.mkdir(f"{folder}/directory")
            os.rename(f"{folder}/before", f"{folder}/directory/moved")
            daemon.process.send_signal(signal.SIGSTOP)
            began = time.monotonic()
            process.send_signal(signal.SIGTERM)
            _out, said = process.communicate(timeout=PATIENT)
            assert process.returncode == 1 and "--again" in said, (process.returncode, said)
            assert time.monotonic() - began < SOON
        daemon.process.send_signal(signal.SIGCONT)
        [name] = os.listdir(kept)
        with started(daemon, it, folder, "--again", f"{kept}/{name}") as process:
            assert process.stdout.readline() == "mounted\n"
            assert beside.whole(f"{folder}/left") == b"left" * 1000
            assert beside.whole(f"{folder}/directory/moved") == b"kept"
            assert os.listdir(kept) == []
            process.send_signal(signal.SIGTERM)
            _out, said = process.communicate(timeout=PATIENT)
            # kfsd had read it by the end of the mount, and did it once it went on, or it is done now.
            assert process.returncode == 0 and "0 are lost" in said, said


def calls_are_answered_while_kfsd_is_away(made):
    """While kfsd stands still many calls together are told EIO within the time that a page names for all of them."""
    if not can_mount():
        return
    it = user(USER, 7, (2, GRANT))
    with Daemon(*made, users=[it], tiers=(1024, 16, 16)).start() as daemon, tempfile.TemporaryDirectory(prefix="kfs-away-") as room:
        if not has_look_ups(daemon):
            return
        folder = f"{room}/at"
        os.mkdir(folder)
        with started(daemon, it, folder, "--keep", f"{room}/kept") as process:
            assert process.stdout.readline() == "mounted\n"
            time.sleep(2)
            daemon.process.send_signal(signal.SIGSTOP)
            began = time.monotonic()
            faults = [fault_of(lambda: os.stat(f"{folder}/none{index}")) for index in range(30)]
            assert faults == [errno.EIO] * 30, faults
            # 60 seconds, and what this machine has else to do.
            assert time.monotonic() - began < 60 + SOON, time.monotonic() - began
            daemon.process.send_signal(signal.SIGCONT)
            until = time.monotonic() + PATIENT
            while fault_of(lambda: os.stat(f"{folder}/none")) != errno.ENOENT and time.monotonic() < until:
                time.sleep(0.1)
            assert fault_of(lambda: os.stat(f"{folder}/none")) == errno.ENOENT
            process.send_signal(signal.SIGTERM)
            process.communicate(timeout=PATIENT)
            assert process.returncode == 0


def numbers_are_given_again(made):
    """With all numbers in use, one that is removed is given to the next file at once, though the log has both."""
    if not can_mount():
        return
    it = user(USER, 7, (2, 9))
    with Daemon(*made, users=[it], tiers=(64, 4, 4)).start() as daemon:
        if not has_look_ups(daemon):
            return
        with mounted_for(daemon, it) as folder:
            names = [f"{folder}/{index}" for index in range(8)]
            for name in names:
                os.close(os.open(name, os.O_WRONLY | os.O_CREAT))
            assert fault_of(lambda: os.open(f"{folder}/more", os.O_WRONLY | os.O_CREAT)) == errno.ENOSPC
            for index in range(20):
                os.unlink(names[index % 8])
                os.close(os.open(names[index % 8], os.O_WRONLY | os.O_CREAT))
            assert sorted(os.listdir(folder)) == sorted(map(os.path.basename, names))


def words_that_are_wrong(made):
    """A mount that takes its user for another client than kfsd does isn't begun, and says why; what isn't said kfsd tells."""
    if not can_mount():
        return
    it, root = {**user(USER, 7, (2, 99)), "groups": [50]}, {**user(0, 9, (100, 199)), "privileged": True}
    with Daemon(*made, users=[it, root], tiers=(64, 4, 4)).start() as daemon, tempfile.TemporaryDirectory(prefix="kfs-words-") as room:
        if not has_look_ups(daemon):
            return
        os.mkdir(f"{room}/at")
        words = [MOUNT, f"{room}/at", "--socket", f"{daemon.room}/socket", "--allow-other"]
        wrong = {("--gid", "5"): "has the group 1000", ("--group", "51"): "has the groups [50]", ("--client", "8"): "another client: 7"}
        for more, due in wrong.items():
            ended = subprocess.run([*words, "--uid", str(USER), *more], check=False, capture_output=True, text=True, timeout=PATIENT)
            assert ended.returncode == 1 and due in ended.stderr, (more, ended)
        with running(subprocess.Popen([*words, "--uid", str(USER)], stdout=subprocess.PIPE, text=True)) as process:
            assert process.stdout.readline() == "mounted\n"
            with open(f"{room}/at/own", "wb", opener=lambda path, flags: os.open(path, flags, 0o600)) as own:
                own.write(b"own")
            os.chown(f"{room}/at/own", -1, 50)
            beside.sync(f"{room}/at")
            process.send_signal(signal.SIGTERM)
            assert process.wait(PATIENT) == 0
        # Who is privileged writes what is another's.
        with running(subprocess.Popen([*words, "--uid", "0"], stdout=subprocess.PIPE, text=True)) as process:
            assert process.stdout.readline() == "mounted\n"
            with open(f"{room}/at/own", "r+b") as own:
                own.write(b"any")
            beside.sync(f"{room}/at")
            assert beside.whole(f"{room}/at/own") == b"any"
            process.send_signal(signal.SIGTERM)
            assert process.wait(PATIENT) == 0


TESTS = [numbers_are_given_again, words_that_are_wrong, who_writes_hears_of_a_full_desk, a_full_desk_is_emptied, what_is_left_comes_back, calls_are_answered_while_kfsd_is_away]

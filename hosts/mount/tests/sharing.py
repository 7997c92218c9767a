"""What two users' mounts show each other where nothing lies between the calls: replaced files, appends, and what is removed while it is open."""
import contextlib
import errno
import os
import random
import time

import beside
from mounts import PATIENT, USER, can_mount, has_look_ups, in_child, make_shared, mounted_for, tmpfs, wait
from running import Daemon, user

# How often a file is replaced, read, and appended to; how many random changes are made.
REPLACED, READ, APPENDED, CHANGED = 60, 400, 60, int(os.environ.get("SHARED_CHANGES", "3000"))
GRANT = 20_000


@contextlib.contextmanager
def shared_by(made, count=2, tiers=(16_384, 16, 16), grant=GRANT):
    """The folder that users share, as each has it on a mount of its own, and the daemon."""
    users = [user(USER + at, 7 + at, (2 + at * grant, 1 + (at + 1) * grant)) for at in range(count)]
    with Daemon(*made, users=users, tiers=tiers).start() as daemon:
        if not has_look_ups(daemon):
            yield None, []
            return
        with contextlib.ExitStack() as stack:
            folders = [stack.enter_context(mounted_for(daemon, it)) + "/shared" for it in users]
            make_shared(os.path.dirname(folders[0]))
            yield daemon, folders


def put_new(folder, name, data):
    """Replaces a file by another one, as programs do that save."""
    with open(f"{folder}/{name}.new", "wb") as it:
        it.write(data)
        it.flush()
        os.fsync(it.fileno())
    os.rename(f"{folder}/{name}.new", f"{folder}/{name}")
    beside.sync(folder)


def version(index):
    return b"%06d" % index * (1 + index % 200)


def replace_on(folder):
    for index in range(1, REPLACED):
        put_new(folder, "conf", version(index))
        time.sleep(0.02)
    put_new(folder, "conf", b"end")


def read_on(folder):
    last, until = 0, time.monotonic() + PATIENT
    while time.monotonic() < until:
        with open(f"{folder}/conf", "rb") as it:
            found = it.read()
        if found == b"end":
            return
        index = int(found[:6])
        assert found == version(index), (index, len(found))
        assert index >= last, (index, last)
        last = index
    raise AssertionError("it was never replaced by the last one")


def a_replaced_file_is_whole(made):
    """Who reads a file that another user's mount replaces finds an earlier or a later one, whole: never none, an empty one or parts."""
    if not can_mount():
        return
    with shared_by(made) as (daemon, folders):
        if daemon:
            put_new(folders[0], "conf", version(0))
            children = [in_child(replace_on, folders[0], user=USER), in_child(read_on, folders[1], user=USER + 1)]
            assert [wait(child) for child in children] == [0, 0]


def the_next_open_shows_all(made):
    """Behind fsync() of one user the next open of another one shows the file as it is, longer, shorter, or another one."""
    if not can_mount():
        return
    with shared_by(made) as (daemon, folders):
        if not daemon:
            return
        chance = random.Random(2)
        for index in range(100):
            data = os.urandom(chance.choice([1, 100, 6000, 100_000]))
            how = index % 4
            if how == 0:
                put_new(folders[0], "it", data)
                due = data
            else:
                with open(f"{folders[0]}/it", ["", "ab", "r+b", "wb"][how]) as it:
                    if how == 2:
                        it.truncate(min(len(due), 5))
                    else:
                        it.write(data)
                    it.flush()
                    os.fsync(it.fileno())
                due = [b"", due + data, due[:5], data][how]
            assert beside.whole(f"{folders[1]}/it") == due, (index, how, len(due))
            assert os.stat(f"{folders[1]}/it").st_size == len(due)


def append_on(folder, own):
    for index in range(APPENDED):
        with open(f"{folder}/log", "a", encoding="utf-8") as it:
            it.write(f"{own} {index}\n")
            it.flush()
            os.fsync(it.fileno())


def no_line_is_lost(made):
    """Two users append lines to one file: each line is there once, and each user's in their order."""
    if not can_mount():
        return
    with shared_by(made) as (daemon, folders):
        if not daemon:
            return
        with open(f"{folders[0]}/log", "w", encoding="utf-8") as it:
            os.fchmod(it.fileno(), 0o666)
        beside.sync(folders[0])
        children = [in_child(append_on, folder, at, user=USER + at) for at, folder in enumerate(folders)]
        assert [wait(child) for child in children] == [0, 0]
        lines = beside.whole(f"{folders[0]}/log").decode().splitlines()
        assert lines == beside.whole(f"{folders[1]}/log").decode().splitlines()
        for at in range(len(folders)):
            assert [line for line in lines if line.startswith(f"{at} ")] == [f"{at} {index}" for index in range(APPENDED)], at


def fault_of(call):
    try:
        call()
    except OSError as fault:
        return errno.errorcode[fault.errno]
    return None


def give_again(folder, numbers):
    """Makes and removes files until each of these numbers is that of a new one. Returns their names."""
    again = {}
    for index in range(60):
        with open(f"{folder}/new{index}", "wb") as it:
            it.write(b"new %d" % index)
            os.fchmod(it.fileno(), 0o666)
        beside.sync(folder)
        again[os.stat(f"{folder}/new{index}").st_ino] = f"new{index}"
        if numbers <= set(again):
            return again
        if len(again) > 3:
            os.unlink(f"{folder}/{again.pop(next(other for other in again if other not in numbers))}")
            beside.sync(folder)
    raise AssertionError((numbers, again))


def an_open_file_leads_to_no_other(made):
    """A number that is given again leads no descriptor of another mount to the new file, to read, to write, or to look names up. What
    is short is read as it was."""
    if not can_mount():
        return
    # So few numbers are soon given again.
    with shared_by(made, grant=8) as (daemon, (mine, theirs)):
        if not daemon:
            return
        due = {"short": b"old", "long": b"old" * 50_000}
        for name, data in due.items():
            with open(f"{mine}/{name}", "wb") as it:
                it.write(data)
                os.fchmod(it.fileno(), 0o666)
        os.mkdir(f"{mine}/directory")
        beside.sync(mine)
        numbers = {os.stat(f"{mine}/{name}").st_ino for name in (*due, "directory")}
        short, long = (os.open(f"{theirs}/{name}", os.O_RDWR) for name in due)
        inside = os.open(f"{theirs}/directory", os.O_RDONLY)
        assert (os.pread(short, 9, 0), os.pread(long, 3, 0)) == (b"old", b"old")
        for name in due:
            os.unlink(f"{mine}/{name}")
        os.rmdir(f"{mine}/directory")
        beside.sync(mine)
        again = give_again(mine, numbers)
        now = {name: beside.whole(f"{mine}/{name}") for name in again.values()}
        assert os.pread(short, 4096, 0) == b"old"
        until = time.monotonic() + PATIENT
        # The kernel keeps headers for a while.
        while os.fstat(short).st_nlink > 0 and time.monotonic() < until:
            time.sleep(0.1)
        assert os.fstat(short).st_nlink == 0
        assert fault_of(lambda: os.pread(long, 4096, 120_000)) == "ESTALE"
        for descriptor in (short, long):
            assert fault_of(lambda: (os.pwrite(descriptor, b"wrong", 0), os.fsync(descriptor))) == "ESTALE"
            assert fault_of(lambda: os.ftruncate(descriptor, 0)) == "ESTALE"
            assert fault_of(lambda: os.fchmod(descriptor, 0o600)) == "ESTALE"
        assert fault_of(lambda: os.stat("x", dir_fd=inside)) in ("ESTALE", "ENOENT")
        assert fault_of(lambda: os.open("x", os.O_CREAT | os.O_WRONLY, 0o644, dir_fd=inside)) in ("ESTALE", "ENOENT")
        beside.sync(theirs)
        assert {name: beside.whole(f"{theirs}/{name}") for name in again.values()} == now
        assert {name: beside.whole(f"{mine}/{name}") for name in again.values()} == now
        for descriptor in (short, long, inside):
            os.close(descriptor)


def removed_directories_that_are_open(made):
    """A directory that was removed and is open has no name and no links, and nothing is made in it: as on a tmpfs."""
    if not can_mount():
        return
    with shared_by(made, 1) as (daemon, folders), tmpfs() as other:
        if not daemon:
            return
        told = [look_at_removed(folder) for folder in (other, folders[0])]
        assert told[0] == told[1], told


def look_at_removed(folder):
    os.mkdir(f"{folder}/gone", 0o755)
    inside = os.open(f"{folder}/gone", os.O_RDONLY)
    os.rmdir(f"{folder}/gone")
    told = [os.fstat(inside).st_nlink, os.listdir(inside), fault_of(lambda: os.stat("x", dir_fd=inside)), os.stat(".", dir_fd=inside).st_nlink]
    os.fchmod(inside, 0o700)
    told += [os.fstat(inside).st_mode, fault_of(lambda: os.open("x", os.O_CREAT | os.O_WRONLY, 0o644, dir_fd=inside))]
    told.append(fault_of(lambda: os.mkdir("x", dir_fd=inside)))
    os.close(inside)
    # The name is free.
    os.mkdir(f"{folder}/gone", 0o755)
    os.rmdir(f"{folder}/gone")
    return told


def change_both(both, at, index, chance):
    """One user's random change in both folders, synced; returns what came of it in each."""
    name, other = (f"f{chance.randrange(12)}" for _ in range(2))
    how, data = chance.randrange(6), b"%d" % index * chance.randrange(1, 300)

    def change(folder):
        path = f"{folder}/{name}"
        if how == 0:
            put_new(folder, name, data)
        elif how == 1:
            with open(path, "ab") as it:
                it.write(data)
        elif how == 2:
            os.truncate(path, index % 50)
        elif how == 3:
            os.unlink(path)
        elif how == 4:
            os.rename(path, f"{folder}/{other}")
        else:
            with open(path, "r+b") as it:
                it.seek(index % 100)
                it.write(data)
        beside.sync(folder)

    return [fault_of(lambda folder=folder: change(folder)) for folder in both[at]]


def look_both(folders):
    return [{name: beside.whole(f"{folder}/{name}") for name in sorted(os.listdir(folder))} for folder in folders]


def changes_without_a_pause(made):
    """Two users change the same files on two mounts and beside it on a tmpfs, with no pause between them: all comes out alike."""
    if not can_mount():
        return
    with shared_by(made) as (daemon, folders), tmpfs() as other:
        if not daemon:
            return
        chance, before = random.Random(3), os.umask(0)
        both = [(folder, other) for folder in folders]
        for index in range(CHANGED):
            found = change_both(both, index % 2, index, chance)
            assert found[0] == found[1], (index, found)
            name = f"f{chance.randrange(12)}"
            read = [fault_or_bytes(f"{folder}/{name}") for folder in both[1 - index % 2]]
            assert read[0] == read[1], (index, name, read)
        os.umask(before)
        found = look_both([*folders, other])
        assert found[0] == found[1] == found[2]
        print(f"    {CHANGED} changes")


def fault_or_bytes(path):
    try:
        return beside.whole(path)
    except OSError as fault:
        return errno.errorcode[fault.errno]


TESTS = [a_replaced_file_is_whole, the_next_open_shows_all, no_line_is_lost, an_open_file_leads_to_no_other, removed_directories_that_are_open, changes_without_a_pause]

"""The folder of a desk: what stands there, who may write it, and a desk that is gone."""
import contextlib
import os
import random
import shutil
import signal
import sqlite3
import stat
import time

from running import SOON, Daemon, children_of, lease, numbered, pretender

FILES = ("first.kdjl", "second.kdjl")
# What kfsd ends with where its configuration is wrong, and where the files are.
WRONG, FAILED = 1, 3


def ends(daemon, status, *words):
    """Starts it, and looks whether it ends by itself with this status and says this."""
    before = len(daemon.said())
    daemon.begin()
    found, said = daemon.ended(), daemon.said()[before:]
    assert found == status and all(word in said for word in words), (found, said)


def remove(daemon, *names):
    for name in names:
        os.remove(f"{daemon.folder}/{name}")


def a_desk_that_is_gone_is_told(made):
    """Where the two files of a desk are gone, or one of them, no new desk takes their place, neither while kfsd runs nor at a start. Put back, they are as they were."""
    with Daemon(*made).start() as daemon:
        copy = f"{daemon.room}/copy"
        assert daemon.connect(7).ask(1, lease(7, 10)).answer
        assert daemon.stop()[0] == 0
        shutil.copytree(daemon.folder, copy)
        daemon.start()
        answer = daemon.connect(7).ask(2, numbered(5, lease(7, 20))).answer
        remove(daemon, *FILES)
        daemon.kill_desk()
        assert daemon.ended() == FAILED and "has had a desk, and both first.kdjl and second.kdjl are gone" in daemon.said()
        ends(daemon, FAILED, "both first.kdjl and second.kdjl are gone", "empty folder")
        assert not set(FILES) & set(os.listdir(daemon.folder))
        # nothing of what is kept beside them was taken back
        with contextlib.closing(sqlite3.connect(f"{daemon.folder}/kfsd.sqlite")) as kept:
            assert kept.execute("SELECT client, answer FROM outcome").fetchall() == [(7, answer[4:])]
        for name in FILES:
            shutil.copy(f"{copy}/{name}", daemon.folder)
        for name in FILES:
            os.rename(f"{daemon.folder}/{name}", f"{daemon.room}/away")
            ends(daemon, FAILED, f"has had a desk, and {name} is gone")
            os.rename(f"{daemon.room}/away", f"{daemon.folder}/{name}")
        # another one's, as where a disk isn't mounted, is no desk's either
        remove(daemon, *FILES, "clients")
        ends(daemon, FAILED, "are gone")
        for name in FILES:
            shutil.copy(f"{copy}/{name}", daemon.folder)
        daemon.start()
        assert daemon.connect(7).ask(3, lease(7, 30)).answer
        assert daemon.stop()[0] == 0
        # without what kfsd itself keeps it goes on
        remove(daemon, "kfsd.sqlite")
        daemon.start()
        assert daemon.connect(7).ask(4, lease(7, 40)).answer
        remove(daemon, *FILES)
        daemon.kill_desk()
        assert daemon.ended() == FAILED


def a_file_that_goes_under_way_is_told(made):
    """One of the two files is removed while kfsd runs: the next start of kfs_serve says which one."""
    with Daemon(*made).start() as daemon:
        remove(daemon, "second.kdjl")
        daemon.kill_desk()
        assert daemon.ended() == FAILED and "has had a desk, and second.kdjl is gone" in daemon.said()


def a_desk_of_an_older_kfsd_is_told(made):
    """A file of an older kfsd that has answers is enough to know that there was a desk."""
    with Daemon(*made).start() as daemon:
        assert daemon.connect(7).ask(2, numbered(5, lease(7, 20))).answer
        assert daemon.stop()[0] == 0
        with contextlib.closing(sqlite3.connect(f"{daemon.folder}/kfsd.sqlite")) as kept:
            kept.execute("DROP TABLE desk")
            kept.commit()
        remove(daemon, *FILES)
        ends(daemon, FAILED, "are gone")


def a_first_start_that_was_cut_short(made):
    """What was never answered is no desk: the next start begins one, or names the files that have to go."""
    with Daemon(*made) as daemon:
        for name in ("clients", "clients.part", "lock"):
            with open(f"{daemon.folder}/{name}", "wb") as it:
                it.write(b"a crash has left this")
        daemon.start()
        assert daemon.connect(7).ask(1, lease(7, 10)).answer
    with pretender(Daemon(*made), "sys.exit(4)", makes=False) as daemon:
        ends(daemon, 4, "one after another")
        daemon.program = made[1]
        daemon.start()
        assert daemon.connect(7).ask(1, lease(7, 10)).answer
    for left in (FILES[:1], FILES[1:], FILES):
        with Daemon(*made) as daemon:
            for name in left:
                with open(f"{daemon.folder}/{name}", "wb") as it:
                    it.write(b"KDJL" + bytes(9))
            ends(daemon, FAILED, "a crash has cut the first start in", f"remove {' and '.join(left)}")
            assert set(left) <= set(os.listdir(daemon.folder))
            remove(daemon, *left)
            daemon.start()
            assert daemon.connect(7).ask(1, lease(7, 10)).answer


def kills_in_the_first_start(made):
    """kfsd and kfs_serve are killed at any moment of a first start. The next one serves, or names the files that have to go."""
    chance, told = random.Random(7), 0
    for _ in range(40):
        with Daemon(*made) as daemon:
            daemon.begin()
            time.sleep(chance.uniform(0, 0.15))
            children = children_of(daemon.process.pid)
            daemon.process.kill()
            daemon.process.wait()
            for held in children:
                with contextlib.suppress(ProcessLookupError):
                    signal.pidfd_send_signal(held, signal.SIGKILL)
                os.close(held)
            before = daemon.said().count("clients may connect")
            daemon.begin()
            while daemon.process.poll() is None and daemon.said().count("clients may connect") == before:
                time.sleep(0.01)
            if daemon.process.poll() is not None:
                told += 1
                assert daemon.process.returncode == FAILED and "a crash has cut the first start in" in daemon.said(), daemon.said()
                left = daemon.said().rpartition("remove ")[2].partition(",")[0].split(" and ")
                remove(daemon, *left)
                daemon.start()
            assert daemon.connect(7).ask(1, lease(7, 10)).answer
    print(f"    40 kills in first starts: {told} had files removed")


def what_is_no_file_is_told(made):
    """Where a fifo or a link stands at a name, kfsd says at which one, and waits for nothing."""
    names = {"first.kdjl": FAILED, "second.kdjl": FAILED, "kfsd.sqlite": FAILED, "kfsd.sqlite-wal": FAILED, "lock": WRONG, "clients": WRONG, "clients.part": WRONG, "base": WRONG}
    for name, status in names.items():
        with Daemon(*made) as daemon:
            path = f"{daemon.folder}/{name}"
            os.mkfifo(path)
            began = time.monotonic()
            ends(daemon, status, f"{path} isn't a regular file")
            assert time.monotonic() - began < SOON / 2
            os.remove(path)
            with open(f"{daemon.room}/other", "wb") as it:
                it.write(b"another's")
            os.symlink(f"{daemon.room}/other", path)
            ends(daemon, status, f"{path} isn't a regular file")
            with open(f"{daemon.room}/other", "rb") as it:
                assert it.read() == b"another's"
            os.remove(path)
            daemon.start()
            if name in FILES:
                os.remove(path)
                os.mkfifo(path)
                daemon.kill_desk()
                assert daemon.ended() == FAILED and f"{path} isn't a regular file" in daemon.said()


def a_folder_is_its_owners(made):
    """Who else may read the files, or write the folder, isn't let."""
    with Daemon(*made).start() as daemon:
        assert daemon.connect(7).ask(2, numbered(5, lease(7, 20))).answer
        modes = {name: stat.S_IMODE(os.stat(f"{daemon.folder}/{name}").st_mode) for name in os.listdir(daemon.folder)}
        assert set(modes) >= {"kfsd.sqlite", "kfsd.sqlite-wal", "kfsd.sqlite-shm", *FILES} and set(modes.values()) == {0o600}, modes
        assert daemon.stop()[0] == 0
        os.chmod(f"{daemon.folder}/kfsd.sqlite", 0o644)
        for mode in (0o770, 0o707, 0o1777):
            os.chmod(daemon.folder, mode)
            ends(daemon, WRONG, f"{daemon.folder}: others than its owner may write it (its mode is {mode:o})")
        os.chmod(daemon.folder, 0o755)
        os.chown(daemon.folder, 1000, 1000)
        ends(daemon, WRONG, f"{daemon.folder}: it belongs to user 1000")
        os.chown(daemon.folder, 0, 0)
        os.rename(daemon.folder, f"{daemon.room}/elsewhere")
        os.symlink("elsewhere", daemon.folder)
        daemon.start()
        assert stat.S_IMODE(os.stat(f"{daemon.folder}/kfsd.sqlite").st_mode) == 0o600


def a_damaged_count_is_told(made):
    """A count of clients that the state doesn't bear out is told with the file at fault."""
    with Daemon(*made).start() as daemon:
        assert daemon.stop()[0] == 0
        # within the counts of clients and of leases (docs/FORMATS.md)
        for place in (36, 40):
            with open(f"{daemon.folder}/first.kdjl", "r+b") as it:
                it.seek(place)
                it.write(b"\xc8")
                it.flush()
                ends(daemon, FAILED, f"{daemon.folder}/first.kdjl: its state is damaged")
                it.seek(place)
                it.write(b"\0")
        with open(f"{daemon.folder}/first.kdjl", "r+b") as it:
            it.truncate(25)
        ends(daemon, FAILED, "neither first.kdjl nor second.kdjl", "is whole")


TESTS = [
    a_desk_that_is_gone_is_told, a_file_that_goes_under_way_is_told, a_desk_of_an_older_kfsd_is_told, a_first_start_that_was_cut_short, kills_in_the_first_start,
    what_is_no_file_is_told, a_folder_is_its_owners, a_damaged_count_is_told,
]

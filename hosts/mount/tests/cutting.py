"""Power cuts in small: kfsd, kfs_serve and all mounts are killed at a random moment while two users work. What was synced before is
there behind that: transactions of sqlite3, commits that were pushed, and files of a folder of all.

Each round begins with what the cuts before have left, looks at it, works on, and ends with a cut. Before it, one part alone may be
killed and started anew.
"""
import contextlib
import os
import random
import signal
import sqlite3
import subprocess
import tempfile
import time

import beside
from mounts import MOUNT, PATIENT, in_child, kill_daemon, make_shared, unmount
from programs import GIT
from running import Daemon, user

USERS = [user(1000, 7, (2, 20_001)), user(1001, 8, (20_002, 40_000))]
TIERS = (32_768, 16, 16)
# How many cuts a folder of kfsd lives through.
CUTS_OF_ONE = 25
# The most seconds for which the users work before one.
LONGEST = 6
# How many seconds lie between two files of a user: each needs the lease on the folder of all.
PUT_PAUSE = 0.4
# As modes of a journal with which sqlite3 keeps what it has committed.
JOURNALS = {1000: ("wal", "full"), 1001: ("delete", "extra")}
TABLE = "create table if not exists t(a integer primary key, b)"
PUSH = """
cd {home}
for i in $(seq {first} 100000); do
    echo $i > clone/f$((i % 40)) && git -C clone add . && git -C clone commit --allow-empty -qm $i && git -C clone push -q origin main && sync b.git/refs/heads || exit 0
    echo git $(git -C clone rev-parse HEAD) || exit 0
done
"""
CLONE = """
cd {home}
if [ ! -d b.git ]; then git init -q --bare -b main b.git && git -C b.git config core.fsync all; fi
find b.git -name '*.lock' -delete
rm -rf clone && git clone -q b.git clone 2>&1 && cd clone && git checkout -q -B main && git config core.fsync all && git config gc.auto 0
git -C ../b.git fsck --full --strict && sync .
"""


class Told:
    """What one user has said to have synced."""

    def __init__(self):
        self.rows, self.commits, self.files = 0, [], set()

    def take(self, lines):
        for line in lines:
            kind, word = line.split()
            if kind == "row":
                self.rows = max(self.rows, int(word))
            elif kind == "git":
                self.commits.append(word)
            else:
                self.files.add(int(word))


def insert(folder, uid, pipe):
    """Commits rows, one after another."""
    with contextlib.suppress(sqlite3.Error, OSError):
        base = sqlite3.connect(f"{folder}/{uid}/rows.db", isolation_level=None, timeout=0)
        journal, level = JOURNALS[uid]
        base.execute(f"pragma journal_mode = {journal}")
        base.execute(f"pragma synchronous = {level}")
        base.execute(TABLE)
        (last,) = base.execute("select coalesce(max(a), 0) from t").fetchone()
        while True:
            last += 1
            base.execute("begin immediate")
            base.execute("insert into t values (?, ?)", (last, last * 7))
            base.execute("update t set b = b + 0 where a = ?", (last // 2,))
            base.execute("commit")
            os.write(pipe, b"row %d\n" % last)


def content(uid, index):
    return b"%d of %d\n" % (index, uid) * (index % 3000)


def put_files(folder, uid, first, pipe):
    """Puts files into the folder of all, each under another name at first."""
    with contextlib.suppress(OSError):
        for index in range(first, first + 100_000):
            path = f"{folder}/shared/{uid}-{index}"
            it = os.open(f"{path}.part", os.O_WRONLY | os.O_CREAT | os.O_TRUNC, 0o644)
            os.write(it, content(uid, index))
            os.fsync(it)
            os.close(it)
            os.rename(f"{path}.part", path)
            beside.sync(f"{folder}/shared")
            os.write(pipe, b"file %d\n" % index)
            time.sleep(PUT_PAUSE)


def as_user(uid, **more):
    return {"user": uid, "group": uid, "extra_groups": [], "cwd": "/", "env": {**os.environ, **GIT, "HOME": "/nonexistent"}, **more}


class Work:
    """What the users do between two cuts."""

    def __init__(self, folders, told):
        self.pipes, self.children = {}, []
        for uid, folder in folders.items():
            one, other = os.pipe()
            self.children.append(in_child(insert, folder, uid, other, user=uid))
            self.children.append(in_child(put_files, folder, uid, 1 + max(told[uid].files, default=0), other, user=uid))
            script = PUSH.format(home=f"{folder}/{uid}", first=1 + len(told[uid].commits))
            self.children.append(subprocess.Popen(["bash", "-c", script], stdout=other, stderr=subprocess.DEVNULL, start_new_session=True, **as_user(uid)))
            os.close(other)
            self.pipes[uid] = one

    def signal(self, signal_number):
        """Sends a signal to all processes of it. git has children in groups of its own."""
        for child in self.children:
            with contextlib.suppress(ProcessLookupError):
                if isinstance(child, int):
                    os.kill(child, signal_number)
                else:
                    os.killpg(child.pid, signal_number)

    def end(self, told):
        """Ends it, and takes what it has told."""
        self.signal(signal.SIGKILL)
        for child in self.children:
            if isinstance(child, int):
                os.waitpid(child, 0)
            else:
                child.wait()
        for uid, pipe in self.pipes.items():
            with os.fdopen(pipe, encoding="ascii") as it:
                # a line that was cut short says nothing
                told[uid].take([line for line in it if line.endswith("\n") and len(line.split()) == 2])


def look(folder, uid, told):
    """Looks whether what a user has synced is there, and what it had not is whole or not there."""
    home = f"{folder}/{uid}"
    words = ["sqlite3", f"{home}/rows.db", f"{TABLE}; pragma integrity_check; select count(*), coalesce(max(a), 0), coalesce(sum(b), 0) from t"]
    said = subprocess.run(words, check=True, capture_output=True, text=True, **as_user(uid)).stdout.split()
    count, greatest, total = (int(word) for word in said[1].split("|"))
    assert said[0] == "ok" and count == greatest and total == 7 * count * (count + 1) // 2, said
    assert count in (told.rows, told.rows + 1), f"{count} rows are there, and {told.rows} were committed"
    told.rows = count
    ran = subprocess.run(["bash", "-ec", CLONE.format(home=home)], check=False, capture_output=True, text=True, **as_user(uid))
    assert ran.returncode == 0, ran.stderr + ran.stdout
    there = set(subprocess.run(["git", "-C", f"{home}/b.git", "log", "--format=%H", "--all"], check=False, capture_output=True, text=True, **as_user(uid)).stdout.split())
    lost = [commit for commit in told.commits if commit not in there]
    assert not lost, f"{len(lost)} of {len(told.commits)} commits that were pushed are lost"
    for index in told.files:
        with open(f"{folder}/shared/{uid}-{index}", "rb") as it:
            assert it.read() == content(uid, index), (uid, index)
    for name in os.listdir(f"{folder}/shared"):
        owner, _, index = name.partition("-")
        if int(owner) == uid and not name.endswith(".part"):
            with open(f"{folder}/shared/{name}", "rb") as it:
                assert it.read() == content(uid, int(index)), name


def mount_all(daemon, room):
    """Mounts for all users."""
    folders, processes = {}, []
    for it in USERS:
        folder = folders[it["uid"]] = f"{room}/{it['uid']}"
        os.makedirs(folder, exist_ok=True)
        words = [MOUNT, folder, "--uid", str(it["uid"]), "--gid", str(it["uid"]), "--allow-other", "--socket", f"{daemon.room}/socket", "--client", str(it["client"])]
        with open(f"{room}/said", "ab") as said:
            processes.append(subprocess.Popen(words, stdout=subprocess.PIPE, stderr=said, text=True))
    for process in processes:
        assert process.stdout.readline() == "mounted\n"
    return folders, processes


def cut(daemon, folders, processes):
    """All is killed at once."""
    for process in processes:
        process.kill()
    kill_daemon(daemon)
    for process in processes:
        process.wait()
        process.stdout.close()
    for folder in folders.values():
        unmount(folder)


def one_round(daemon, room, told, chance):
    """Starts all, looks, lets the users work, and cuts. Returns what was killed before the cut."""
    daemon.start()
    folders, processes = mount_all(daemon, room)
    try:
        for uid, folder in folders.items():
            if not os.path.isdir(f"{folder}/shared"):
                make_shared(folder)
            if not os.path.isdir(f"{folder}/{uid}"):
                os.mkdir(f"{folder}/{uid}")
                os.chown(f"{folder}/{uid}", uid, uid)
        for uid, folder in folders.items():
            look(folder, uid, told[uid])
        work = Work(folders, told)
        try:
            time.sleep(chance.uniform(0.2, LONGEST))
            before = chance.choice(["nothing", "nothing", "kfs_serve", "both"])
            if before == "kfs_serve":
                daemon.kill_desk()
            elif before == "both":
                kill_daemon(daemon)
                daemon.start()
            time.sleep(0 if before == "nothing" else chance.uniform(0.2, 2))
        finally:
            # With the power all go at once: nobody says any more what a mount that is gone has let it believe.
            work.signal(signal.SIGSTOP)
            cut(daemon, folders, processes)
            work.end(told)
    except BaseException:
        with open(f"{room}/said", encoding="utf-8") as it:
            print(f"--- mounts\n{it.read()[-3000:]}---")
        for folder in folders.values():
            print(sorted(os.listdir(f"{folder}/shared"), key=lambda n: os.stat(f"{folder}/shared/{n}").st_ino)[-12:])
        cut(daemon, folders, [process for process in processes if process.poll() is None])
        raise
    return before


def cuts(made, count, seed=1):
    """So many cuts."""
    chance, done = random.Random(seed), 0
    totals = {"rows": 0, "commits": 0, "files": 0}
    while done < count:
        with tempfile.TemporaryDirectory(prefix="kfs-cuts-") as room, Daemon(*made, users=USERS, tiers=TIERS) as daemon:
            os.chmod(room, 0o755)
            daemon.patience = PATIENT
            told = {it["uid"]: Told() for it in USERS}
            for _ in range(min(CUTS_OF_ONE, count - done)):
                began = time.monotonic()
                before = one_round(daemon, room, told, chance)
                done += 1
                there = ", ".join(f"{it.rows} rows, {len(it.commits)} commits, {len(it.files)} files" for it in told.values())
                print(f"    cut {done}, {before} before it: {there} ({time.monotonic() - began:.1f} s)", flush=True)
            # what the last cut has left is looked at, too
            daemon.start()
            folders, processes = mount_all(daemon, room)
            try:
                for uid, folder in folders.items():
                    look(folder, uid, told[uid])
            finally:
                cut(daemon, folders, processes)
            for it in told.values():
                totals["rows"] += it.rows
                totals["commits"] += len(it.commits)
                totals["files"] += len(it.files)
    print(f"    {done} cuts: {totals}")

"""The calls of POSIX, with the errors and effects that it and Linux have for them: on a tmpfs, on a mount, and with two users' mounts.

What a call must say and leave stands in posix_cases.py, and holds on a tmpfs. How mounts differ stands here, with the row of
docs/CLIENT.md that says so.
"""
import contextlib
import os
import re
import subprocess
import tempfile
from dataclasses import dataclass

from mounts import TOP, can_mount, has_look_ups, in_child, mounted, wait, words_for
from running import Daemon, user
from posix_calls import clocks_of, effect, make_all, said
from posix_cases import LONG, own, paths, permissions, read_only

# Each user's number, its group, and its other groups.
USERS = {"owner": (1000, 1000, [1001]), "group": (2001, 1000, []), "other": (2002, 2002, [])}
WORD = re.compile(r"\b(" + "|".join(LONG) + r")\b")


# How mounts differ: a row of the table in docs/CLIENT.md, and what its cases give.
HERE = {
    "| chmod() with set-user-ID | `EPERM` | The bit is set |": {"chmod f 4755 by owner with f:f:644": "EPERM mode(f)=644"},
    "| chmod() of a file with set-group-ID | The bit is dropped | It is set |": {"chmod f 2644 by owner with f:f:644": "ok mode(f)=644"},
    "| link(), of a file with 1,024 names | `EMLINK` | A name more |": {"links f 1024 by owner with f:f:644": "EMLINK links(f)=1024"},
    "| mkdir(), rmdir(), rename() | A directory counts one link | Two, and one for each directory in it |": {
        "mkdir d 755 by owner with": "ok mode(d)=755 type(d)=d links(d)=1 c(.) m(.) uid(d)=1000 gid(d)=1000",
        "mkdir d/e 755 by owner with d:d:755": "ok links(d)=1 m(d) c(d) !m(.)",
        "rename d e/d by owner with d:d:755 d:e:755": "ok links(e)=1 links(.)=1",
        "rmdir d by owner with d:d:755": "ok gone(d)=True c(.) m(.) links(.)=1",
        "rmdir d by owner with d:d:755 d:d/e:755": "ENOTEMPTY links(d)=1",
    },
    "| open() with `O_TMPFILE` | `EOPNOTSUPP` | A file without a name |": {"open d rw+m by owner with d:d:755": "ENOTSUP"},
    "| read() | The time of reading stays | It changes, unless the mount says otherwise |": {"read f by owner with f:f:644:3": "ok xxx !c(f) !m(f) !a(f)"},
    "| renameat2() with `RENAME_EXCHANGE` | `EINVAL` | Both change their names |": {"renameat2 f g exchange by owner with f:f:644:3 f:g:644:5": "EINVAL size(f)=3 size(g)=5"},
    "| symlink(), to more than 1,024 bytes | `ENAMETOOLONG` | Up to 4,095 are taken |": {"symlink T1025 l by owner with": "ENAMETOOLONG size(l)=ENOENT", "symlink T4095 l by owner with": "ENAMETOOLONG size(l)=ENOENT"},
    "| truncate(), write(), beyond 2^32 bytes | `EFBIG` | The file is as long as that |": {"truncate f 4294967297 by owner with f:f:644:5": "EFBIG size(f)=5", "write f w x 4294967296 by owner with f:f:644": "EFBIG size(f)=0"},
}
IN_MEMORY = {
    "| chmod() of a directory with set-group-ID, without kfsd | The bit is dropped | It is set |": {"chmod d 2755 by owner with d:d:755": "ok mode(d)=755"},
    "| open(), mkdir() and others by another user, at a mount that lets it in | What is made belongs to the mount's user | To its maker |": {"open f w+c 644 by group with": "ok uid(f)=1000 gid(f)=1000", "open f w+c 644 by other with": "ok uid(f)=1000 gid(f)=1000"},
}
THROUGH_KFSD = {
    "| execve() of a program that its caller can't read | `EACCES` | It runs |": {"exec ./f by owner with x:f:111:true": "EACCES"},
    "| rmdir(), rename(), of a directory that its caller can't read | `EACCES`, unless this mount has made it | It is removed, or replaced |": {
        "rename d e by owner with d:d:755 d:e:0": "EACCES gone(d)=False", "rmdir d by owner with d:d:0": "EACCES gone(d)=False", "rmdir d by owner with d:d:300": "EACCES gone(d)=False"
    },
    "| stat() of a FIFO or a socket that its caller can't read | A file, unless this mount has shown what it is | What it is |": {"lstat p by owner with p:p:200": "ok type(p)=-"},
}


@dataclass(frozen=True)
class Case:
    """What is there before, who makes which call, what is said of it, and what it leaves."""

    made: str
    who: str
    call: str
    due: str
    leaves: str = ""

    @property
    def name(self):
        return " ".join(f"{self.call} by {self.who} with {self.made}".split())

    @property
    def whole(self):
        return f"{self.due} {self.leaves}".strip().replace("  ", " ")


ALL = list(dict.fromkeys(Case(*words) for words in (*paths(), *permissions(), *own())))
READ_ONLY = [Case(*words) for words in read_only()]


@contextlib.contextmanager
def acting_as(who):
    """Calls in here are this user's."""
    uid, gid, groups = USERS[who]
    os.setgroups(groups)
    os.setegid(gid)
    os.seteuid(uid)
    try:
        yield
    finally:
        os.seteuid(0)
        os.setegid(0)
        os.setgroups([])


def long_names(text):
    return WORD.sub(lambda found: LONG[found[0]], text)


def prepare(case, folder):
    """Makes the folder of a case, and what it begins with. This process stands there then."""
    with acting_as("owner"):
        os.mkdir(folder)
        os.chmod(folder, 0o777)
    os.chdir(folder)
    with acting_as("owner"):
        make_all(long_names(case.made))


def make_call(case, other):
    """Makes the call. Returns what is said of it."""
    line = long_names(case.call).replace("OTHER", f"{other}/elsewhere")
    with acting_as(case.who):
        return said(line)


def outcome(case, other):
    """What a case gives here, as its line has it."""
    before = clocks_of(case.leaves)
    answer = make_call(case, other)
    return " ".join([answer, *(effect(word, before) for word in case.leaves.split())])


@contextlib.contextmanager
def tmpfs():
    with tempfile.TemporaryDirectory(prefix="kfs-posix-") as room:
        os.chmod(room, 0o755)
        os.mkdir(f"{room}/at")
        subprocess.run(["mount", "-t", "tmpfs", "-o", "mode=777,size=64m", "none", f"{room}/at"], check=True)
        try:
            yield f"{room}/at"
        finally:
            subprocess.run(["umount", "--lazy", f"{room}/at"], check=True)


def outcomes(cases, folder, other):
    """What cases give in a folder where all has been there from the start."""
    found = {}
    for at, case in enumerate(cases):
        prepare(case, f"{folder}/{at}")
        found[case.name] = outcome(case, other)
    os.chdir("/")
    return found


def read_only_outcomes(cases, folder, other):
    """What they give where the tree is mounted for reading alone, behind what they begin with."""
    for at, case in enumerate(cases):
        prepare(case, f"{folder}/{at}")
    os.chdir("/")
    subprocess.run(["mount", "-i", "-o", "remount,ro", folder], check=True)
    found = {}
    for at, case in enumerate(cases):
        os.chdir(f"{folder}/{at}")
        found[case.name] = outcome(case, other)
    os.chdir("/")
    return found


GRANT = 20_000


def daemon_users():
    """Each user as kfsd has it."""
    return {who: {**user(uid, 7 + at, (2 + at * GRANT, 1 + (at + 1) * GRANT), gid=gid), "groups": groups} for at, (who, (uid, gid, groups)) in enumerate(USERS.items())}


def mounted_as(daemon, it):
    groups = [word for group in it["groups"] for word in ("--group", str(group))]
    return mounted(*words_for(daemon, it), *groups, uid=it["uid"], gid=it["gid"])


def outcomes_through_kfsd(cases, daemon, other):
    """What cases give, each at a mount of its user that hasn't made what is there. The owner's mount that has is gone by then."""
    users, found = daemon_users(), {}
    with mounted_as(daemon, users["owner"]) as folder:
        for at, case in enumerate(cases):
            prepare(case, f"{folder}/{at}")
        os.chdir("/")
    for who in USERS:
        with mounted_as(daemon, users[who]) as folder:
            for at, case in enumerate(cases):
                if case.who == who:
                    os.chdir(f"{folder}/{at}")
                    found[case.name] = outcome(case, other)
            os.chdir("/")
    return found


def compare(cases, found, differ):
    """Each case gives what it must, or how the mount differs."""
    due = {case.name: case.whole for case in cases} | {name: text for told in differ.values() for name, text in told.items()}
    assert len(due) == len(cases), "two cases have one name, or a difference is none of a case"
    wrong = [f"{name[:300]}: {found[name]}, and not {text}" for name, text in due.items() if found[name] != text]
    assert not wrong, "\n".join([f"{len(wrong)} of {len(cases)}", *wrong[:40]])


def are_told():
    """Each difference stands in the page on clients."""
    with open(f"{TOP}/docs/CLIENT.md", encoding="utf-8") as page:
        text = page.read()
    for told in (HERE, IN_MEMORY, THROUGH_KFSD):
        for row in told:
            assert row in text, row


def in_memory():
    os.umask(0)
    with tmpfs() as other:
        for function, cases, differ in ((outcomes, ALL, HERE | IN_MEMORY), (read_only_outcomes, READ_ONLY, {})):
            with tmpfs() as folder:
                compare(cases, function(cases, folder, other), {})
            with mounted("--group", "1001") as folder:
                compare(cases, function(cases, folder, other), differ)


def through_kfsd(made):
    os.umask(0)
    with tmpfs() as other, Daemon(*made, users=daemon_users().values(), tiers=(65_536, 16, 16), duties={"lease_seconds": 60}).start() as daemon:
        if has_look_ups(daemon):
            compare(ALL, outcomes_through_kfsd(ALL, daemon, other), HERE | THROUGH_KFSD)


def calls_of_posix(_made):
    """Each call's errors and effects, on a tmpfs and on a mount in memory."""
    are_told()
    if can_mount():
        assert wait(in_child(in_memory)) == 0
        print(f"    {len(ALL)} cases, and {len(READ_ONLY)} of a tree for reading alone")


def calls_of_posix_through_kfsd(made):
    """They are the same through kfsd, where each user has a mount of its own, which begins behind what is there."""
    if can_mount():
        assert wait(in_child(through_kfsd, made)) == 0
        print(f"    {len(ALL)} cases of {len(USERS)} users")


TESTS = [calls_of_posix, calls_of_posix_through_kfsd]

"""What users share in one folder: the group of a directory, repositories of git, a Maildir; modes that come late, and names that a killed
mount has left."""
import contextlib
import mailbox
import os
import stat
import subprocess
import tempfile
import time

import beside
from mounts import PATIENT, USER, can_mount, has_look_ups, in_child, mounted_by, mounted_for, unmount, wait, words_for
from running import Daemon, user

# The group that all are in, and how many numbers each user has.
GROUP, GRANT = 50, 15_000
# How many commits and letters each user makes.
COMMITS, LETTERS = int(os.environ.get("SHARED_COMMITS", "6")), int(os.environ.get("SHARED_LETTERS", "20"))


def members(count):
    return [{**user(USER + at, 7 + at, (2 + at * GRANT, 1 + (at + 1) * GRANT)), "groups": [GROUP]} for at in range(count)]


@contextlib.contextmanager
def shared_by(made, count):
    """The folder of a group, as each of its members has it on a mount of its own, and the daemon."""
    users = members(count)
    with Daemon(*made, users=users, tiers=(16_384, 16, 16)).start() as daemon:
        if not has_look_ups(daemon):
            yield None, []
            return
        with contextlib.ExitStack() as stack:
            folders = [stack.enter_context(mounted_for(daemon, it)) + "/group" for it in users]
            assert wait(in_child(make_group, folders[0], user=USER, groups=[GROUP])) == 0
            yield daemon, folders


def make_group(folder):
    os.mkdir(folder)
    os.chown(folder, -1, GROUP)
    os.chmod(folder, 0o2775)
    beside.sync(folder)


def as_member(function, at, *words):
    """Calls a function as one of the members, in a process of its own."""
    return in_child(function, *words, user=USER + at, groups=[GROUP], umask=0o002)


def shown(path):
    it = os.stat(path)
    return it.st_gid, stat.S_IMODE(it.st_mode)


def make_below(folder):
    os.mkdir(f"{folder}/below")
    os.mkdir(f"{folder}/below/deeper")
    with open(f"{folder}/below/file", "w", encoding="utf-8") as it:
        it.write("of the group")
    beside.sync(folder)
    assert shown(f"{folder}/below") == shown(f"{folder}/below/deeper") == (GROUP, 0o2775)
    assert shown(f"{folder}/below/file") == (GROUP, 0o664)


def use_below(folder):
    until = time.monotonic() + PATIENT
    # Headers are kept for a while.
    while shown(f"{folder}/below") != (GROUP, 0o2775) and time.monotonic() < until:
        time.sleep(0.1)
    assert shown(f"{folder}/below") == shown(f"{folder}/below/deeper") == (GROUP, 0o2775)
    with open(f"{folder}/below/file", "a", encoding="utf-8") as it:
        it.write(", written by another member")
    with open(f"{folder}/below/deeper/own", "w", encoding="utf-8") as it:
        it.write("own")
    assert shown(f"{folder}/below/deeper/own") == (GROUP, 0o664)
    beside.sync(folder)


def drop_bit(folder):
    os.chmod(f"{folder}/below", 0o775)
    os.mkdir(f"{folder}/below/plain")
    beside.sync(folder)
    assert shown(f"{folder}/below") == (GROUP, 0o775)
    assert shown(f"{folder}/below/plain") == (os.getgid(), 0o775)


def groups_are_passed_on(made):
    """What is made in a directory of set-group-ID gets its group, a directory the bit as well; other mounts and a new start show it."""
    if not can_mount():
        return
    with shared_by(made, 2) as (daemon, folders):
        if not daemon:
            return
        assert wait(as_member(make_below, 0, folders[0])) == 0
        assert wait(as_member(use_below, 1, folders[1])) == 0
        daemon.kill_desk()
        daemon.process.kill()
        daemon.process.wait()
        daemon.start()
        assert wait(as_member(use_below, 1, folders[1])) == 0
        assert wait(as_member(drop_bit, 0, folders[0])) == 0


def git_said(*words, where):
    """Runs git, which has each user take the repositories of others."""
    with tempfile.NamedTemporaryFile("w", suffix=".gitconfig") as config:
        config.write("[safe]\n\tdirectory = *\n[user]\n\tname = it\n\temail = it@localhost\n")
        config.flush()
        return subprocess.run(["git", *words], cwd=where, env={**os.environ, "GIT_CONFIG_GLOBAL": config.name}, check=False, capture_output=True, text=True)


def git(*words, where):
    said = git_said(*words, where=where)
    assert said.returncode == 0, (words, said.stdout, said.stderr)
    return said.stdout


def begin_repository(folder):
    git("init", "--quiet", "--bare", "--shared=group", f"{folder}/all.git", where=folder)
    git("clone", "--quiet", f"{folder}/all.git", f"{folder}/first", where=folder)
    with open(f"{folder}/first/begun", "w", encoding="utf-8") as it:
        it.write("begun\n")
    git("add", ".", where=f"{folder}/first")
    git("commit", "--quiet", "-m", "begun", where=f"{folder}/first")
    git("push", "--quiet", "origin", "HEAD:refs/heads/all", where=f"{folder}/first")
    beside.sync(folder)


def commit_on(folder, own):
    mine = f"{folder}/of-{own}"
    git("clone", "--quiet", "--branch", "all", f"{folder}/all.git", mine, where=folder)
    for index in range(COMMITS):
        with open(f"{mine}/{own}-{index}", "w", encoding="utf-8") as it:
            it.write(f"{own} {index}\n" * 100)
        git("add", ".", where=mine)
        git("commit", "--quiet", "-m", f"{own} {index}", where=mine)
        for _ in range(100):
            git("pull", "--quiet", "--rebase", "origin", "all", where=mine)
            pushed = git_said("push", "--quiet", "origin", "HEAD:refs/heads/all", where=mine)
            if pushed.returncode == 0:
                break
            assert "rejected" in pushed.stderr or "lock" in pushed.stderr, pushed.stderr
        else:
            raise AssertionError("others were always first")
    beside.sync(folder)


def letters_on(folder, own):
    box = mailbox.Maildir(f"{folder}/mail", create=False)
    for index in range(LETTERS):
        box.add(f"From: {own}\nSubject: {own} {index}\n\n{'text ' * 200}\n".encode())
    beside.sync(folder)


def begin_mail(folder):
    mailbox.Maildir(f"{folder}/mail")
    for at in ("", "/cur", "/new", "/tmp"):
        os.chmod(f"{folder}/mail{at}", 0o2775)
    beside.sync(folder)


def read_all(folder, count):
    box = mailbox.Maildir(f"{folder}/mail", create=False)
    found = sorted(line.decode()[9:] for key in box.keys() for line in box.get_bytes(key).split(b"\n") if line.startswith(b"Subject: "))
    assert found == sorted(f"{own} {index}" for own in range(count) for index in range(LETTERS)), len(found)
    git("fsck", "--strict", where=f"{folder}/all.git")
    commits = git("log", "--format=%s", "all", where=f"{folder}/all.git").split("\n")
    assert sorted(filter(None, commits)) == sorted(["begun", *(f"{own} {index}" for own in range(count) for index in range(COMMITS))]), commits


def three_share_a_repository_and_mail(made):
    """Three users push to one repository that git shares with a group, and put letters into one Maildir, all at once: all is there."""
    if not can_mount():
        return
    with shared_by(made, 3) as (daemon, folders):
        if not daemon:
            return
        for begin in (begin_repository, begin_mail):
            assert wait(as_member(begin, 0, folders[0])) == 0
        children = [as_member(call, at, folder, at) for at, folder in enumerate(folders) for call in (commit_on, letters_on)]
        assert [wait(child) for child in children] == [0] * len(children)
        for at, folder in enumerate(folders):
            assert wait(as_member(read_all, at, folder, len(folders))) == 0


def modes_come_with_fsync(made):
    """A file that is made without write permission, and synced while it is open, has its mode for others, and is written on."""
    if not can_mount():
        return
    it = members(1)[0]
    with Daemon(*made, users=[it], tiers=(1024, 16, 16)).start() as daemon:
        if not has_look_ups(daemon):
            return
        with mounted_by(*words_for(daemon, it), uid=it["uid"]) as (folder, process):
            written = os.open(f"{folder}/kept", os.O_WRONLY | os.O_CREAT | os.O_EXCL, 0o444)
            os.write(written, b"first")
            os.fsync(written)
            os.write(written, b", second")
            os.fsync(written)
            # Nothing comes behind that.
            process.kill()
            process.wait()
            with contextlib.suppress(OSError):
                os.close(written)
            unmount(folder)
            process.send_signal, process.wait = (lambda *_: None), (lambda *_: 0)
        with mounted_for(daemon, it) as folder:
            assert stat.S_IMODE(os.stat(f"{folder}/kept").st_mode) == 0o444
            assert beside.whole(f"{folder}/kept") == b"first, second"


def what_a_killed_mount_hid_is_removed(made):
    """A file that was removed while it was open has a hidden name. Behind a kill of the mount the user's next one removes that when it is seen."""
    if not can_mount():
        return
    it = members(1)[0]
    with Daemon(*made, users=[it], tiers=(1024, 16, 16)).start() as daemon:
        if not has_look_ups(daemon):
            return
        with mounted_by(*words_for(daemon, it), uid=it["uid"]) as (folder, process):
            os.mkdir(f"{folder}/directory")
            opened = os.open(f"{folder}/directory/gone", os.O_WRONLY | os.O_CREAT, 0o644)
            os.write(opened, b"gone")
            os.unlink(f"{folder}/directory/gone")
            os.fsync(opened)
            process.kill()
            process.wait()
            with contextlib.suppress(OSError):
                os.close(opened)
            unmount(folder)
            process.send_signal, process.wait = (lambda *_: None), (lambda *_: 0)
        with mounted_for(daemon, it) as folder:
            assert os.listdir(f"{folder}/directory") == []
            os.rmdir(f"{folder}/directory")
            beside.sync(folder)
            assert os.listdir(folder) == []


TESTS = [groups_are_passed_on, three_share_a_repository_and_mail, modes_come_with_fsync, what_a_killed_mount_hid_is_removed]

"""How kfs-mount mounts: for ordinary users by fusermount3, by mount(8) and lines of fstab, over a dead mount, in the background.

Each test is in a process with mounts and devices of its own, so that nothing is left on the machine.
"""
import contextlib
import ctypes
import errno
import os
import re
import shutil
import signal
import socket
import stat
import subprocess
import tempfile
import time

from mounts import CRATE, MOUNT, PATIENT, TOP, USER, can_mount, has_look_ups, in_child, wait, words_for
from running import Daemon, user

CLONE_NEWNS = 0x20000
# Devices that programs need: their names, and their numbers.
DEVICES = {"fuse": (10, 229), "null": (1, 3), "urandom": (1, 9), "zero": (1, 5)}
OTHER = 2002
LIBC = ctypes.CDLL(None, use_errno=True)


def ran(*words, **more):
    """A program that has ended: its status and what it has said."""
    return subprocess.run(words, check=False, capture_output=True, text=True, timeout=PATIENT, **more)


def as_ordinary(uid=USER):
    return {"user": uid, "group": uid, "extra_groups": []}


def with_own_mounts():
    """From now on mounts and devices are this process' own. Each user may mount."""
    assert LIBC.unshare(CLONE_NEWNS) == 0, os.strerror(ctypes.get_errno())
    os.umask(0)
    for words in (["--make-rprivate", "/"], ["-t", "tmpfs", "-o", "mode=755", "none", "/dev"]):
        subprocess.run(["mount", *words], check=True)
    for name, numbers in DEVICES.items():
        os.mknod(f"/dev/{name}", stat.S_IFCHR | 0o666, os.makedev(*numbers))
    os.umask(0o022)
    # fusermount3 asks for the names of users.
    shutil.copy("/etc/passwd", "/dev/passwd")
    with open("/dev/passwd", "a", encoding="utf-8") as it:
        it.writelines(f"kfs{uid}:x:{uid}:{uid}::/:/bin/sh\n" for uid in (USER, OTHER))
    subprocess.run(["mount", "--bind", "/dev/passwd", "/etc/passwd"], check=True)


def in_own_mounts(function, *words):
    def call():
        with_own_mounts()
        function(*words)
    assert wait(in_child(call)) == 0


@contextlib.contextmanager
def place(uid=USER):
    """A folder of a user."""
    with tempfile.TemporaryDirectory(prefix="kfs-mounting-") as room:
        os.chmod(room, 0o755)
        os.mkdir(f"{room}/at")
        os.chown(f"{room}/at", uid, uid)
        yield f"{room}/at"


def mounts_at(folder):
    """What is mounted at a folder: type, source and options of each."""
    with open("/proc/self/mountinfo", encoding="utf-8") as table:
        rows = [line.split(" - ") for line in table]
    return [rest.split() for head, rest in rows if head.split()[4] == folder]


def until(condition):
    """Waits until something is so."""
    end = time.monotonic() + PATIENT
    while not condition():
        assert time.monotonic() < end, "it isn't so"
        time.sleep(0.02)


@contextlib.contextmanager
def started(*words, program=(MOUNT,), **more):
    """A kfs-mount in the foreground that has mounted."""
    process = subprocess.Popen([*program, *words], stdout=subprocess.PIPE, text=True, **more)
    try:
        assert process.stdout.readline() == "mounted\n"
        yield process
    finally:
        if process.poll() is None:
            process.send_signal(signal.SIGTERM)
        process.wait(PATIENT)
        process.stdout.close()


def act(uid, function, *words):
    """Calls a function as a user."""
    assert wait(in_child(function, *words, user=uid)) == 0


def put(path, data):
    with open(path, "wb", buffering=0) as it:
        it.write(data)


def refused(path):
    """That a user is kept out."""
    with contextlib.suppress(PermissionError):
        os.listdir(path)
        raise AssertionError(path)


# ---- Ordinary users

def for_ordinary_users():
    with place() as folder:
        with started(folder, **as_ordinary()) as process:
            (kind, source, options), = mounts_at(folder)
            assert (kind, source) == ("fuse.kfs", "kfs") and f"user_id={USER},group_id={USER},default_permissions" in options, options
            assert "allow_other" not in options
            act(USER, put, f"{folder}/a", b"hello")
            act(OTHER, refused, folder)
        assert process.returncode == 0 and not mounts_at(folder)
        wrong = {
            ("--allow-other",): "allow_other only allowed if 'user_allow_other' is set",
            ("--uid", str(OTHER)): "only the superuser mounts for another user",
        }
        for words, said in wrong.items():
            ended = ran(MOUNT, folder, *words, **as_ordinary())
            assert ended.returncode == 1 and said in ended.stderr and not mounts_at(folder), ended
        ended = ran(MOUNT, folder, **as_ordinary(OTHER))
        assert ended.returncode == 1 and "fusermount3: user has no write access to mountpoint" in ended.stderr, ended
        others_where_the_machine_says_so(folder)
        # By root, for a user who owns the folder.
        with started(folder, "--fusermount", "--uid", str(USER), "--gid", str(USER)) as process:
            assert f"user_id={USER}" in mounts_at(folder)[0][2]
            act(USER, put, f"{folder}/a", b"hello")
        assert process.returncode == 0 and not mounts_at(folder)


def others_where_the_machine_says_so(folder):
    with tempfile.NamedTemporaryFile("w", suffix=".conf") as conf:
        conf.write("user_allow_other\n")
        conf.flush()
        os.chmod(conf.name, 0o644)
        subprocess.run(["mount", "--bind", conf.name, "/etc/fuse.conf"], check=True)
        with started(folder, "--allow-other", **as_ordinary()):
            assert "allow_other" in mounts_at(folder)[0][2]
            act(OTHER, os.listdir, folder)
        subprocess.run(["umount", "/etc/fuse.conf"], check=True)


def ordinary_users(_made):
    """Who isn't the superuser mounts by fusermount3, which passes on why not."""
    if can_mount():
        in_own_mounts(for_ordinary_users)


def ordinary_through_kfsd(made):
    """kfsd sees such a mount as the user who has made it."""
    users = [user(USER, 7, (2, 99)), user(OTHER, 8, (100, 199))]
    with Daemon(*made, users=users).start() as daemon, contextlib.ExitStack() as stack:
        if not has_look_ups(daemon):
            return
        mine, theirs = (stack.enter_context(place(it["uid"])) for it in users)
        for folder, it in zip((mine, theirs), users):
            stack.enter_context(started(folder, *words_for(daemon, it), **as_ordinary(it["uid"])))
        act(USER, put_for_all, f"{mine}/a")
        act(OTHER, are_owners, f"{theirs}/a", USER)
        ended = ran(MOUNT, mine, *words_for(daemon, users[1]), **as_ordinary())
        assert ended.returncode == 1 and "client" in ended.stderr, ended


def put_for_all(path):
    with open(path, "wb", buffering=0) as it:
        it.write(b"hello")
        os.fsync(it.fileno())


def are_owners(path, uid):
    with open(path, "rb") as it:
        assert it.read() == b"hello"
    assert os.stat(path).st_uid == uid


def ordinary_users_through_kfsd(made):
    """kfsd sees it as that user."""
    if can_mount():
        in_own_mounts(ordinary_through_kfsd, made)


# ---- Words

def words_of_page(_made):
    """The man page has each word and each option, and groff finds nothing wrong. Both ways of mounting take all options."""
    with open(f"{CRATE}/kfs-mount.8", encoding="ascii") as page:
        text = page.read().replace("\\-", "-")
    with open(f"{CRATE}/src/words.rs", encoding="utf-8") as source:
        source = source.read()
    words = re.findall(r"^ +(?:-\w, )?(--[a-z-]+|-[a-z])\b", ran(MOUNT, "--help").stdout, re.MULTILINE)
    flags = re.findall(r'^    \("(\w+)", "(\w*)", MsFlags', source, re.MULTILINE)
    ignored = re.findall(r"\w+", re.search(r'const IGNORED: &str =\s*"([^"]*)"', source)[1])
    assert len(words) > 10 and len(flags) > 4 and len(ignored) > 20, (words, flags, ignored)
    options = [name for pair in flags for name in pair if name] + ignored
    missing = [word for word in words + options if not re.search(rf"(?<![\w-]){word}(?![\w-])", text)]
    assert not missing, missing
    if shutil.which("groff"):
        wrong = subprocess.run(["groff", "-man", "-ww", "-Tutf8", "-z", f"{CRATE}/kfs-mount.8"], check=True, capture_output=True).stderr
        assert not wrong, wrong
    if can_mount():
        in_own_mounts(take_all, ",".join(options))


def awaits_hangup(process):
    """Whether a process reads SIGHUP, and so has it blocked."""
    with open(f"/proc/{process}/status", encoding="ascii") as it:
        mask = next(line for line in it if line.startswith("SigBlk:")).split()[1]
    return bool(int(mask, 16) >> (signal.SIGHUP - 1) & 1)


def hangups(_made):
    """SIGHUP ends it, unless who starts it says that it is ignored."""
    def call():
        with place() as folder:
            with started(folder) as process:
                assert awaits_hangup(process.pid)
                process.send_signal(signal.SIGHUP)
                assert process.wait(PATIENT) == 0 and not mounts_at(folder)
            with started(folder, program=("nohup", MOUNT)) as process:
                assert not awaits_hangup(process.pid)
                process.send_signal(signal.SIGHUP)
                process.send_signal(signal.SIGTERM)
                assert process.wait(PATIENT) == 0 and not mounts_at(folder)
    if can_mount():
        in_own_mounts(call)


def take_all(options):
    with place() as folder:
        for words in ((), ("--fusermount",)):
            with started(folder, *words, "--uid", str(USER), "--gid", str(USER), "-o", f"{options},ro,noexec") as process:
                assert ran("findmnt", "-n", "-o", "OPTIONS", folder).stdout.startswith("ro,nosuid,nodev,noexec")
            assert process.returncode == 0


# ---- mount(8) and fstab

class Table:
    """A table of file systems with one line, and what is mounted by it."""

    def __init__(self, daemon, folder, options="_netdev"):
        self.folder, self.path, self.log = folder, f"{os.path.dirname(folder)}/fstab", f"{os.path.dirname(folder)}/log"
        self.source = f"{daemon.room}/socket"
        common = f"client=7,uid={USER},gid={USER},allow_other,{options}"
        with open(self.path, "w", encoding="utf-8") as it:
            it.write(f"{self.source} {folder} fuse.{MOUNT} {common} 0 0\n")

    def mount(self):
        return ran("mount", "-T", self.path, self.folder)

    def processes(self):
        """The numbers of the processes that serve the folder."""
        return [int(line) for line in ran("pgrep", "-f", f"{MOUNT} .*{self.folder}.*--stays").stdout.split()]


def by_lines(made):
    with Daemon(*made, users=[user(USER, 7, (2, 99))]).start() as daemon, place() as folder:
        if not has_look_ups(daemon):
            return
        table = Table(daemon, folder)
        ended = table.mount()
        # The tree is there once mount(8) has ended.
        assert ended.returncode == 0 and ended.stderr == "", ended
        (kind, source, options), = mounts_at(folder)
        assert (kind, source) == ("fuse.kfs", table.source) and "allow_other" in options
        act(USER, put, f"{folder}/a", b"hello")
        assert ran("mount", "-a", "-T", table.path).returncode == 0 and len(mounts_at(folder)) == 1
        process, = table.processes()
        assert os.readlink(f"/proc/{process}/cwd") == "/" and os.getsid(process) == process
        assert ran("umount", folder).returncode == 0
        until(lambda: not table.processes())
        read_only_by_line(daemon, folder)
        by_line_for_users(daemon, folder)
        faults_by_line(daemon, folder)


def by_line_for_users(daemon, folder):
    """With `user` in the line the user mounts and unmounts."""
    with tempfile.NamedTemporaryFile("w", suffix=".fstab") as table:
        table.write(f"{daemon.room}/socket {folder} fuse.{MOUNT} client=7,user,noauto,_netdev 0 0\n")
        table.flush()
        os.chmod(table.name, 0o644)
        subprocess.run(["mount", "--bind", table.name, "/etc/fstab"], check=True)
        ended = ran("mount", folder, **as_ordinary())
        assert ended.returncode == 0, ended
        (_, source, options), = mounts_at(folder)
        assert source == f"{daemon.room}/socket" and f"user_id={USER}" in options, (source, options)
        act(USER, take, f"{folder}/a", b"hello")
        ended = ran("umount", folder, **as_ordinary())
        assert ended.returncode == 0 and not mounts_at(folder), ended
        subprocess.run(["umount", "/etc/fstab"], check=True)


def read_only_by_line(daemon, folder):
    """What was written is there, and nothing else gets there."""
    assert Table(daemon, folder, "ro,noatime,noexec,nofail,x-a=b").mount().returncode == 0
    with open(f"{folder}/a", "rb") as it:
        assert it.read() == b"hello"
    with contextlib.suppress(OSError):
        put(f"{folder}/b", b"")
        raise AssertionError("it is written")
    assert ran("findmnt", "-n", "-o", "OPTIONS", folder).stdout.startswith("ro,nosuid,nodev,noexec,noatime")
    assert ran("umount", folder).returncode == 0


def faults_by_line(daemon, folder):
    for options, said in (("what=1", "there is no option what=1"), ("uid=7", "listed"), ("client=x", "client=x")):
        ended = Table(daemon, folder, options).mount()
        assert ended.returncode != 0 and "kfs-mount: " in ended.stderr and said in ended.stderr, ended
        ended = ran(MOUNT, f"{daemon.room}/socket", folder, "-o", options)
        assert ended.returncode == 1 and ended.stderr.startswith("kfs-mount: "), ended
    ended = ran(MOUNT, "/nothing/there", folder)
    assert ended.returncode == 1 and "/nothing/there" in ended.stderr, ended
    ended = ran(MOUNT, f"{daemon.room}/socket", f"{folder}/nothing/at")
    assert ended.returncode == 1 and not mounts_at(folder), ended


def lines_of_fstab(made):
    """mount(8) mounts by a line of fstab, once, and ends when the tree is there. Faults are told."""
    if can_mount():
        in_own_mounts(by_lines, made)


def fill(path):
    """A user's file gets longer than it may."""
    with open(path, "wb", buffering=0) as it:
        it.write(b"x" * 4096 * 2)
        try:
            os.fsync(it.fileno())
        except OSError as fault:
            assert fault.errno == errno.EDQUOT, fault
            return
    raise AssertionError("there was room")


def log_of(daemon, folder, hear, *words):
    """What a mount in the background says of a log that isn't kept."""
    assert ran(MOUNT, f"{daemon.room}/socket", folder, "-o", f"client=7,uid={USER},gid={USER}", *words).returncode == 0
    act(USER, fill, f"{folder}/a")
    said = hear()
    act(USER, os.unlink, f"{folder}/a")
    assert ran("umount", folder).returncode == 0
    until(lambda: not Table(daemon, folder).processes())
    return said


def in_background(made):
    with Daemon(*made, users=[user(USER, 7, (2, 99))], blocks_a_user=1).start() as daemon, place() as folder:
        if not has_look_ups(daemon):
            return
        log = f"{os.path.dirname(folder)}/log"

        def whole():
            until(lambda: os.path.exists(log) and "isn't kept" in read(log))
            return read(log)

        assert "kfs-mount: " in log_of(daemon, folder, whole, "--log", log)
        with contextlib.closing(socket.socket(socket.AF_UNIX, socket.SOCK_DGRAM)) as system:
            system.bind("/dev/log")
            os.chmod("/dev/log", 0o666)
            system.settimeout(PATIENT)
            said = log_of(daemon, folder, lambda: system.recv(9999).decode())
        assert said.startswith("<28>kfs-mount[") and "isn't kept" in said, said


def read(path):
    with open(path, encoding="utf-8") as it:
        return it.read()


def background(made):
    """In the background it tells what it has to say to a file or to the system's log."""
    if can_mount():
        in_own_mounts(in_background, made)


def served_line(room, program, folder):
    """What hosts/serve says mounts its tree."""
    words = [f"{TOP}/hosts/serve", f"{room}/desk", "--program", program]
    with subprocess.Popen(words, stdout=subprocess.PIPE, stderr=subprocess.DEVNULL, text=True) as serving:
        try:
            line = serving.stdout.readline().split()
            until(lambda: os.path.exists(f"{room}/desk/socket"))
            assert line[0].endswith("/kfs-mount") and "MOUNTPOINT" in line, line
            with started(*(folder if word == "MOUNTPOINT" else word for word in line[1:])):
                assert os.statvfs(folder).f_blocks == 3 * 65_536
        finally:
            serving.terminate()
            serving.wait(PATIENT)


def line_of_serve(made):
    """The line that hosts/serve says mounts the tree of its desk."""
    def call():
        with place() as folder, tempfile.TemporaryDirectory(prefix="kfsd-serve-") as room:
            served_line(room, made[1], folder)
    if can_mount():
        in_own_mounts(call)


def told_to_systemd(folder):
    path = f"{os.path.dirname(folder)}/notify"
    with contextlib.closing(socket.socket(socket.AF_UNIX, socket.SOCK_DGRAM)) as system:
        system.bind(path)
        system.settimeout(PATIENT)
        with started(folder, env={**os.environ, "NOTIFY_SOCKET": path}):
            assert system.recv(99) == b"READY=1"
            assert mounts_at(folder)


def systemd(_made):
    """It tells systemd when the tree is mounted."""
    def call():
        with place() as folder:
            told_to_systemd(folder)
    if can_mount():
        in_own_mounts(call)


# ---- Dead mounts

def over_dead_ones():
    with place() as folder:
        own = [{}, as_ordinary(), {}, as_ordinary()]
        words = ["--uid", str(USER), "--gid", str(USER)]
        for more in own:
            with started(folder, *words, **more) as process:
                assert len(mounts_at(folder)) == 1
                act(USER, put, f"{folder}/a", b"hello")
                process.kill()
        assert len(mounts_at(folder)) == 1
        # One that is alive stays, below another one.
        subprocess.run(["umount", "--lazy", folder], check=True)
        with started(folder, *words), started(folder, *words):
            assert len(mounts_at(folder)) == 2
        assert not mounts_at(folder)


def dead_mounts(_made):
    """Where a killed one was mounted another one mounts, and the dead mount has gone."""
    if can_mount():
        in_own_mounts(over_dead_ones)


# ---- Sockets and FIFOs

def listen(path):
    with contextlib.closing(socket.socket(socket.AF_UNIX)) as it:
        it.bind(path)
        it.listen()
        mine, _ = it.accept()
        mine.sendall(mine.recv(9)[::-1])
        mine.close()


def talk(path):
    with contextlib.closing(socket.socket(socket.AF_UNIX)) as it:
        until(lambda: it.connect_ex(path) == 0)
        it.sendall(b"hello")
        assert it.recv(9) == b"olleh"


def take(path, data):
    with open(path, "rb", buffering=0) as it:
        assert it.read() == data


def by_names(folder):
    with started(folder, "--uid", str(USER), "--gid", str(USER), "--allow-other"):
        children = [in_child(listen, f"{folder}/s", user=USER), in_child(talk, f"{folder}/s", user=USER)]
        assert [wait(child) for child in children] == [0, 0]
        act(USER, os.mkfifo, f"{folder}/p")
        children = [in_child(take, f"{folder}/p", b"hello" * 99, user=USER), in_child(put, f"{folder}/p", b"hello" * 99, user=USER)]
        assert [wait(child) for child in children] == [0, 0]
        act(USER, os.chmod, f"{folder}/p", 0o640)
        act(USER, os.rename, f"{folder}/p", f"{folder}/q")
        assert stat.filemode(os.lstat(f"{folder}/q").st_mode) == "prw-r-----"
        assert ran("ls", "-F", folder).stdout.split() == ["q|", "s="]
        assert ran("rm", "-f", f"{folder}/q", f"{folder}/s", **as_ordinary()).returncode == 0
        assert not os.listdir(folder)


def sockets_and_fifos(_made):
    """Two processes meet by a socket and by a FIFO."""
    def call():
        with place() as folder:
            by_names(folder)
    if can_mount():
        in_own_mounts(call)


def seen_by_two(made):
    users = [user(USER, 7, (2, 99)), user(OTHER, 8, (100, 199))]
    with Daemon(*made, users=users).start() as daemon, contextlib.ExitStack() as stack:
        if not has_look_ups(daemon):
            return
        mine, theirs = (stack.enter_context(place(it["uid"])) for it in users)
        for folder, it in zip((mine, theirs), users):
            stack.enter_context(started(folder, *words_for(daemon, it), "--uid", str(it["uid"]), "--gid", str(it["uid"]), "--allow-other"))
        for name, mode in (("p", 0o644), ("q", 0o600)):
            act(USER, os.mkfifo, f"{mine}/{name}", mode)
        act(USER, put_for_all, f"{mine}/a")
        assert stat.filemode(os.lstat(f"{theirs}/p").st_mode) == "prw-r--r--"
        assert stat.filemode(os.lstat(f"{theirs}/q").st_mode) == "-rw-------"


def fifos_of_another_user(made):
    """Who can read a FIFO's file is shown a FIFO, and who can't a file."""
    if can_mount():
        in_own_mounts(seen_by_two, made)


TESTS = [words_of_page, hangups, ordinary_users, ordinary_users_through_kfsd, lines_of_fstab, background, line_of_serve, systemd, dead_mounts, sockets_and_fifos, fifos_of_another_user]

"""Calls of a file system as lines of text, made in the folder where this process stands. What is said of a call is `ok`, or its error.

A line may begin with words that hold while the call is made: `umask=22`, `fsize=10` (the most bytes of a file), `busy=d` (something
is mounted at d).
"""
import contextlib
import ctypes
import errno
import os
import resource
import socket
import stat
import subprocess
import time

LIBC = ctypes.CDLL(None, use_errno=True)
AT_FDCWD, UTIME_NOW, UTIME_OMIT = -100, (1 << 30) - 1, (1 << 30) - 2
# The clock by which the kernel tells times of files (CLOCK_REALTIME_COARSE).
COARSE = 5
# A time long ago, as seconds and nanoseconds.
THEN = (1_000_000_000, 123)
TIMES = {"now": None, "both-now": (0, UTIME_NOW) * 2, "then": THEN * 2, "before": (-5, 7) * 2, "late": (1 << 33, 999_999_999) * 2, "omit": (0, UTIME_OMIT) * 2, "read": (*THEN, 0, UTIME_OMIT), "written": (0, UTIME_OMIT, *THEN), "wrong": (0, 1_000_000_000) * 2}
OPENS = {
    "r": os.O_RDONLY, "w": os.O_WRONLY, "rw": os.O_RDWR, "c": os.O_CREAT, "x": os.O_EXCL, "t": os.O_TRUNC, "d": os.O_DIRECTORY, "n": os.O_NOFOLLOW, "b": os.O_NONBLOCK,
    "a": os.O_APPEND, "m": os.O_TMPFILE, "p": os.O_PATH, "q": os.O_NOATIME, "i": os.O_DIRECT, "y": os.O_SYNC,
}
ACCESSES = {"f": os.F_OK, "r": os.R_OK, "w": os.W_OK, "x": os.X_OK}
RENAMES = {"noreplace": 1, "exchange": 2, "whiteout": 4, "all": 7}


def checked(result):
    """The result of a call of the C library."""
    if result != 0:
        raise OSError(ctypes.get_errno(), os.strerror(ctypes.get_errno()))


@contextlib.contextmanager
def opened(path, how, mode="644"):
    flags = 0
    for letter in how.split("+"):
        flags |= OPENS[letter]
    it = os.open(path, flags, int(mode, 8))
    try:
        yield it
    finally:
        os.close(it)


def on_open(function):
    """The call on a descriptor, of which the path and how it is opened are told."""
    def call(path, how, *words):
        with opened(path, how) as it:
            return function(it, *words)
    return call


def set_times(path, which):
    times = TIMES[which] and (ctypes.c_long * 4)(*TIMES[which])
    checked(LIBC.utimensat(AT_FDCWD, path.encode(), times, 0))


def rename_how(old, new, how):
    checked(LIBC.renameat2(AT_FDCWD, old.encode(), AT_FDCWD, new.encode(), RENAMES[how]))


def may(path, which):
    wanted = 0
    for letter in which:
        wanted |= ACCESSES[letter]
    checked(LIBC.faccessat(AT_FDCWD, path.encode(), wanted, 0x200))


def create(path, how, mode="644"):
    with opened(path, how, mode):
        pass


def bind(path):
    with contextlib.closing(socket.socket(socket.AF_UNIX)) as it:
        it.bind(path)


def connect(path):
    """A process listens, and another one talks to it."""
    with contextlib.closing(socket.socket(socket.AF_UNIX)) as it, contextlib.closing(socket.socket(socket.AF_UNIX)) as other:
        it.bind(path)
        it.listen()
        other.connect(path)
        other.send(b"hello")
        mine, _ = it.accept()
        with contextlib.closing(mine):
            return mine.recv(9).decode()


def through(path):
    """What goes through a FIFO."""
    with opened(path, "r+b") as it, opened(path, "w") as other:
        os.write(other, b"hello")
        return os.read(it, 9).decode()


def run(path):
    return subprocess.run([os.path.abspath(path) if "/" not in path else path, "0"], check=False).returncode


def run_written(path):
    with opened(path, "w"):
        return run(path)


def write_running(path, call="open"):
    running = subprocess.Popen([os.path.abspath(path), "1000"])
    try:
        if call == "truncate":
            os.truncate(path, 0)
        else:
            create(path, "w")
    finally:
        running.kill()
        running.wait()


def link_often(path, count):
    for at in range(int(count)):
        os.link(path, f"{path}-{at}")


def write(path, how, text, offset="0"):
    with opened(path, how) as it:
        os.pwrite(it, text.encode(), int(offset))


def read(path):
    with opened(path, "r") as it:
        return os.read(it, 99).decode()


def kept_open(call):
    """Makes a call while a file is open, and tells what it has then."""
    def calls(path, *words):
        with opened(path, "rw") as it:
            os.write(it, b"hello")
            call(path, *words)
            header = os.fstat(it)
            data = os.read(it, 9) if stat.S_ISFIFO(header.st_mode) else os.pread(it, 9, 0)
            return f"{header.st_nlink} {data.decode()}"
    return calls


def in_removed(path, call, *words):
    """Makes a call in a folder that has been removed."""
    above = os.getcwd()
    os.chdir(path)
    os.rmdir(f"{above}/{path}")
    try:
        return CALLS[call](*words)
    finally:
        os.chdir(above)


def make(kind):
    return lambda path, mode: os.mknod(path, kind | int(mode, 8), os.makedev(1, 3))


CALLS = {
    "access": may,
    "bind": bind,
    "chdir": os.chdir,
    "chmod": lambda path, mode: os.chmod(path, int(mode, 8)),
    "chown": lambda path, uid, gid: os.chown(path, int(uid), int(gid)),
    "connect": connect,
    "exec": run,
    "exec-written": run_written,
    "fchmod": on_open(lambda it, mode: os.fchmod(it, int(mode, 8))),
    "fchown": on_open(lambda it, uid, gid: os.fchown(it, int(uid), int(gid))),
    "fsync": on_open(os.fsync),
    "ftruncate": on_open(lambda it, size: os.ftruncate(it, int(size))),
    "in-removed": in_removed,
    "kept-renamed": kept_open(os.rename),
    "kept-replaced": kept_open(lambda path, other: os.rename(other, path)),
    "kept-unlinked": kept_open(os.unlink),
    "lchown": lambda path, uid, gid: os.lchown(path, int(uid), int(gid)),
    "link": os.link,
    "links": link_often,
    "list": lambda path: " ".join(sorted(os.listdir(path))) or None,
    "lstat": lambda path: os.lstat(path) and None,
    "mkdir": lambda path, mode: os.mkdir(path, int(mode, 8)),
    "mkfifo": lambda path, mode: os.mkfifo(path, int(mode, 8)),
    "mknod": make(stat.S_IFREG),
    "mknod-block": make(stat.S_IFBLK),
    "mknod-char": make(stat.S_IFCHR),
    "mknod-fifo": make(stat.S_IFIFO),
    "mknod-socket": make(stat.S_IFSOCK),
    "open": create,
    "open-running": write_running,
    "read": read,
    "readlink": os.readlink,
    "rename": os.rename,
    "renameat2": rename_how,
    "rmdir": os.rmdir,
    "stat": lambda path: os.stat(path) and None,
    "symlink": os.symlink,
    "through": through,
    "truncate": lambda path, size: os.truncate(path, int(size)),
    "truncate-running": lambda path: write_running(path, "truncate"),
    "unlink": os.unlink,
    "utimensat": set_times,
    "write": write,
}


@contextlib.contextmanager
def as_root(who):
    os.seteuid(0)
    yield
    os.seteuid(who)


@contextlib.contextmanager
def holding(word):
    """Has something hold for a call."""
    name, value = word.split("=")
    if name == "umask":
        before = os.umask(int(value, 8))
        yield
        os.umask(before)
    elif name == "fsize":
        before = resource.getrlimit(resource.RLIMIT_FSIZE)
        resource.setrlimit(resource.RLIMIT_FSIZE, (int(value), before[1]))
        yield
        resource.setrlimit(resource.RLIMIT_FSIZE, before)
    elif name == "busy":
        who = os.geteuid()
        with as_root(who):
            subprocess.run(["mount", "-t", "tmpfs", "none", value], check=True)
        yield
        with as_root(who):
            subprocess.run(["umount", value], check=True)
    else:
        raise ValueError(word)


def said(line):
    """Makes the call of a line. Returns what is said of it."""
    words = ["" if word == "''" else word for word in line.split()]
    with contextlib.ExitStack() as stack:
        while "=" in words[0]:
            stack.enter_context(holding(words.pop(0)))
        try:
            found = CALLS[words[0]](*words[1:])
        except OSError as fault:
            return errno.errorcode.get(fault.errno, str(fault.errno))
    return "ok" if found is None else f"ok {found}"


# ---- What a case begins with

def put(words):
    """Makes what one word says: its kind, its path, and what goes with it. Returns the path and the mode that it is to have at last."""
    kind, path, *rest = words.split(":")
    if kind == "d":
        os.mkdir(path, 0o700)
    elif kind == "f":
        with open(path, "wb") as it:
            it.write(b"x" * int(rest[1] if len(rest) > 1 else 0))
    elif kind == "p":
        os.mkfifo(path, 0o600)
    elif kind == "s":
        bind(path)
    elif kind == "x":
        with open(f"/bin/{rest[1]}", "rb") as program, open(path, "wb") as it:
            it.write(program.read())
    elif kind == "l":
        os.symlink(rest[0], path)
        return path, None
    elif kind == "h":
        os.link(rest[0], path)
        return path, None
    return path, int(rest[0], 8) if rest else None


def make_all(words):
    made = [put(word) for word in words.split()]
    for path, mode in reversed(made):
        if mode is not None:
            os.chmod(path, mode)


# ---- What a call leaves

FIELDS = {"links": lambda it: str(it.st_nlink), "size": lambda it: str(it.st_size), "mode": lambda it: f"{stat.S_IMODE(it.st_mode):o}", "mtime": lambda it: str(it.st_mtime_ns), "type": lambda it: stat.filemode(it.st_mode)[0], "uid": lambda it: str(it.st_uid), "gid": lambda it: str(it.st_gid)}
CLOCKS = {"a": "st_atime_ns", "c": "st_ctime_ns", "m": "st_mtime_ns"}


def split_effect(word):
    """Of `mode(d/f)=644`: the field, the path and the value. Of `c(d/f)` and `!c(d/f)` the value says whether the time changes."""
    head, _, value = word.partition("=")
    name, path = head.rstrip(")").split("(")
    return name.lstrip("!"), path, value or str(not name.startswith("!"))


def clocks_of(effects):
    """The times of all paths of which effects tell, before the call. The clock goes on then."""
    found = {}
    for name, path, _ in map(split_effect, effects.split()):
        if name in CLOCKS and os.path.lexists(path):
            found[name, path] = getattr(os.lstat(path), CLOCKS[name])
    while found and time.clock_gettime_ns(COARSE) <= max(found.values()):
        pass
    return found


def effect(word, before):
    """What became of an effect, as a word."""
    name, path, _ = split_effect(word)
    if name == "gone":
        return f"gone({path})={not os.path.lexists(path)}"
    try:
        it = os.lstat(path)
    except OSError as fault:
        return f"{name}({path})={errno.errorcode[fault.errno]}"
    if name in CLOCKS:
        has_changed = getattr(it, CLOCKS[name]) != before.get((name, path))
        return f"{'' if has_changed else '!'}{name}({path})"
    return f"{name}({path})={FIELDS[name](it)}"

"""How fast a mount is, beside a pass-through mount of libfuse over tmpfs and over the disk, and beside both without a mount.

The pass-through mount is libfuse's example `passthrough_ll`, built from the text of Debian's libfuse3-dev.
"""
import contextlib
import os
import subprocess
import tempfile
import time

from mounts import in_child, mounted, mounted_for, unmount, wait
from programs import GIT
from running import Daemon, user

# It makes files as the user that it runs as, and root alone may mount.
USER = 0
EXAMPLE = "/usr/share/doc/libfuse3-dev/examples"
FILES, EACH = 3200, 64
LONG, LONG_COUNT = 65_536, 512
REPEATS = 3
NAMES = ["create", "small write", "64 KiB write", "64 KiB read", "64 KiB read again", "small read", "rename", "git clone", "make"]


def sync(path):
    it = os.open(path, os.O_RDONLY)
    os.fsync(it)
    os.close(it)


def create(folder):
    """Files of 100 bytes each, one fsync for each 64."""
    os.mkdir(f"{folder}/files")
    for at in range(FILES):
        it = os.open(f"{folder}/files/{at}", os.O_WRONLY | os.O_CREAT, 0o644)
        os.write(it, b"x" * 100)
        if at % EACH == EACH - 1:
            os.fsync(it)
        os.close(it)
    return FILES


def write(path, size, count):
    """Writes behind one another, one fsync for each 64."""
    it = os.open(path, os.O_WRONLY | os.O_CREAT, 0o644)
    data = b"y" * size
    for at in range(count):
        os.write(it, data)
        if at % EACH == EACH - 1:
            os.fsync(it)
    os.close(it)
    return count


def read(path):
    """Reads a file that is opened anew."""
    it, count = os.open(path, os.O_RDONLY), 0
    while len(os.read(it, LONG)) == LONG:
        count += 1
    os.close(it)
    return count


def read_small(folder):
    for at in range(FILES):
        it = os.open(f"{folder}/files/{at}", os.O_RDONLY)
        assert len(os.read(it, 200)) == 100
        os.close(it)
    return FILES


def rename(folder):
    for at in range(FILES):
        os.rename(f"{folder}/files/{at}", f"{folder}/files/n{at}")
        if at % EACH == EACH - 1:
            sync(f"{folder}/files")
    return FILES


def run(folder, script):
    subprocess.run(["bash", "-ec", script], cwd=folder, check=True, env={**os.environ, **GIT, "HOME": "/nonexistent"}, stdout=subprocess.DEVNULL)
    return 1


def measure(folder, source, pipe):
    """All that is measured, in a folder of its own. Tells seconds for each call."""
    home = f"{folder}/at"
    os.mkdir(home)
    steps = [
        lambda: create(home),
        lambda: write(f"{home}/small", 100, FILES),
        lambda: write(f"{home}/long", LONG, LONG_COUNT),
        lambda: read(f"{home}/long"),
        lambda: read(f"{home}/long"),
        lambda: read_small(home),
        lambda: rename(home),
        lambda: run(home, f"git clone -q --no-local {source}/r.git c && sync c"),
        lambda: run(home, f"cp -r {source}/p . && make -s -C p && sync p"),
    ]
    for step in steps:
        began = time.monotonic()
        count = step()
        os.write(pipe, b"%.9f\n" % ((time.monotonic() - began) / count))


def make_source(folder):
    """A repository and a small program in C."""
    script = f"""
    git init -q -b main r && cd r && for d in $(seq 20); do mkdir $d; for f in $(seq 25); do seq $((d * f)) > $d/$f; done; done
    git add . && git commit -qm one && cd .. && git clone -q --bare r r.git && rm -r r
    mkdir p && for i in $(seq 10); do echo "#include <stdio.h>\nint f$i(int x){{return printf(\\"%d\\", x*$i);}}" > p/f$i.c; done
    echo 'int f1(int);int main(void){{return f1(1) != 1;}}' > p/main.c
    printf 'p: %s\\n\\tcc -o p $^\\n' "main.o $(for i in $(seq 10); do printf 'f%s.o ' $i; done)" > p/Makefile
    """
    run(folder, script)


@contextlib.contextmanager
def passed_through(folder, room):
    """A pass-through mount of a folder."""
    made, at = f"{room}/passthrough_ll", f"{room}/through"
    if not os.path.exists(made):
        flags = subprocess.run(["pkg-config", "fuse3", "--cflags", "--libs"], check=True, capture_output=True, text=True).stdout.split()
        subprocess.run(["cc", "-O2", f"{EXAMPLE}/passthrough_ll.c", *flags, "-o", made], check=True)
    os.makedirs(at, exist_ok=True)
    process = subprocess.Popen([made, "-f", "-o", f"source={folder},default_permissions", at], stderr=subprocess.DEVNULL)
    while not os.path.ismount(at):
        assert process.poll() is None, "the pass-through mount has ended"
        time.sleep(0.05)
    try:
        yield at
    finally:
        unmount(at)
        process.terminate()
        process.wait()


@contextlib.contextmanager
def folder_on(place):
    with tempfile.TemporaryDirectory(prefix="kfs-figures-", dir=place) as folder:
        os.chmod(folder, 0o777)
        yield folder


@contextlib.contextmanager
def on_desk(made, place):
    """A mount over kfsd whose files lie there."""
    users = [user(USER, 7, (2, 60_000))]
    with Daemon(*made, users=users, tiers=(65_536, 16, 16)) as daemon, folder_on(place) as folder:
        daemon.folder = f"{folder}/desk"
        os.mkdir(daemon.folder, 0o700)
        daemon.start()
        with mounted_for(daemon, users[0]) as at:
            yield at


@contextlib.contextmanager
def passed_through_on(place, room):
    with folder_on(place) as folder, passed_through(folder, room) as at:
        yield at


def figures(made, disk="/var/tmp", repeats=REPEATS, only=""):
    """Microseconds of each call, the least of some runs."""
    with folder_on("/dev/shm") as source, folder_on("/dev/shm") as room:
        assert wait(in_child(make_source, source, user=USER)) == 0
        kinds = [
            ("kfs-mount, desk on the disk", lambda: on_desk(made, disk)),
            ("kfs-mount, desk on tmpfs", lambda: on_desk(made, "/dev/shm")),
            ("kfs-mount, in memory", lambda: mounted(uid=USER)),
            ("pass-through over the disk", lambda: passed_through_on(disk, room)),
            ("pass-through over tmpfs", lambda: passed_through_on("/dev/shm", room)),
            ("the disk", lambda: folder_on(disk)),
            ("tmpfs", lambda: folder_on("/dev/shm")),
        ]
        print(f"| Where | {' | '.join(NAMES)} |\n|{'---|' * (1 + len(NAMES))}")
        for name, kind in (each for each in kinds if only in each[0]):
            least = [1e9] * len(NAMES)
            for _ in range(repeats):
                with kind() as folder:
                    one, other = os.pipe()
                    child = in_child(measure, folder, source, other, user=USER)
                    os.close(other)
                    with os.fdopen(one) as it:
                        told = [float(line) for line in it]
                    assert wait(child) == 0
                    least = [min(*both) for both in zip(least, told)]
            print(f"| {name} | {' | '.join(f'{seconds * 1e6:,.0f}' for seconds in least)} |", flush=True)

"""Random calls of a file system, made in two folders, one call after another in both. Results and errors must be the same."""
import errno
import os
import random
import stat

NAMES = ["a", "b", "c", "d", "e", "\u00e9", "with space", "x" * 255]
MODES = [0o777, 0o755, 0o700, 0o644, 0o600, 0o400, 0o000, 0o1777, 0o500]
# Where most can be done.
OPEN_MODES = [0o777, 0o755, 0o700]
FLAGS = [os.O_RDONLY, os.O_WRONLY, os.O_RDWR]
DEPTH = 4


class Both:
    """Two folders, and the names that are given in them."""

    def __init__(self, folders, names, modes, chance):
        self.folders, self.names, self.modes, self.chance = folders, names, modes, chance
        self.known = [""]

    def look(self):
        """Looks which paths there are."""
        last = self.folders[-1]
        self.known = [""] + [f"{path}/{name}".removeprefix(last) for path, names, files in os.walk(last) for name in names + files]

    def path(self):
        """A random path: mostly one that is there, or a name below one."""
        if self.chance.random() < 0.7:
            known = self.chance.choice(self.known)
            return known if known and self.chance.random() < 0.6 else f"{known}/{self.chance.choice(self.names)}"
        parts = [self.chance.choice(self.names) for _ in range(self.chance.choice([1, 1, 2, 2, 2, 3, DEPTH]))]
        if self.chance.random() < 0.02:
            # never at the front: there it would lead out of the folder
            parts.insert(self.chance.randrange(1, len(parts) + 1), self.chance.choice([".", "..", "y" * 256]))
        return "/" + "/".join(parts)

    def call(self, function):
        """Calls in both folders. Returns both results, or the errors."""
        found = []
        for at, folder in enumerate(self.folders):
            try:
                found.append(function(at, folder))
            except OSError as fault:
                found.append(errno.errorcode.get(fault.errno, fault.errno))
        return found


def header(path):
    it = os.lstat(path)
    is_directory = stat.S_ISDIR(it.st_mode)
    return it.st_mode, it.st_uid, it.st_gid, 0 if is_directory else it.st_nlink, 0 if is_directory else it.st_size


def whole(path):
    with open(path, "rb", buffering=0) as it:
        return it.read()


def put(path, flags, mode, data, offset):
    """Opens, writes and closes. Returns how many bytes were written."""
    it = os.open(path, flags, mode)
    try:
        return os.pwrite(it, data, offset) if data else 0
    finally:
        os.close(it)


def some_call(both):
    """A random call: what it is, and the function that makes it in a folder."""
    chance = both.chance
    one, other = both.path(), both.path()
    mode = chance.choice(both.modes if chance.random() < 0.1 else OPEN_MODES)
    target = "/".join(chance.choice(both.names) for _ in range(chance.choice([1, 1, 2])))
    data, place = chance.randbytes(chance.choice([0, 1, 10, 100, 5000, 70000])), chance.choice([0, 1, 50, 4096, 9000, 100_000])
    flags = chance.choice(FLAGS) | chance.choice([0, 0, os.O_CREAT, os.O_CREAT, os.O_CREAT | os.O_EXCL]) | chance.choice([0, 0, os.O_TRUNC])
    calls = [
        (f"mkdir {one} {mode:o}", lambda _, folder: os.mkdir(folder + one, mode), 10),
        (f"rmdir {one}", lambda _, folder: os.rmdir(folder + one), 4),
        (f"unlink {one}", lambda _, folder: os.unlink(folder + one), 6),
        (f"rename {one} {other}", lambda _, folder: os.rename(folder + one, folder + other), 10),
        (f"link {one} {other}", lambda _, folder: os.link(folder + one, folder + other), 5),
        (f"symlink {target} {one}", lambda _, folder: os.symlink(target, folder + one), 4),
        (f"readlink {one}", lambda _, folder: os.readlink(folder + one), 3),
        (f"chmod {one} {mode:o}", lambda _, folder: os.chmod(folder + one, mode), 5),
        (f"put {one} {flags:o} {mode:o} {len(data)} at {place}", lambda _, folder: put(folder + one, flags, mode, data, place), 20),
        (f"truncate {one} {place}", lambda _, folder: os.truncate(folder + one, place), 5),
        (f"list {one}", lambda _, folder: sorted(os.listdir(folder + one)), 5),
        (f"list {os.path.dirname(one)}", lambda _, folder: sorted(os.listdir(folder + os.path.dirname(one))), 5),
        (f"header {one}", lambda _, folder: header(folder + one), 10),
        (f"read {one}", lambda _, folder: whole(folder + one), 10),
        (f"access {one}", lambda _, folder: [os.access(folder + one, bit) for bit in (os.F_OK, os.R_OK, os.W_OK, os.X_OK)], 3),
        (f"sync {one}", lambda _, folder: sync(folder + one), 1),
    ]
    return chance.choices([call[:2] for call in calls], [call[2] for call in calls])[0]


def sync(path):
    it = os.open(path, os.O_RDONLY)
    try:
        os.fsync(it)
    finally:
        os.close(it)


def compare(one, other, count, seed, names=NAMES, modes=MODES):
    """Makes so many calls in both folders."""
    both = Both((one, other), names, modes, random.Random(seed))
    done = 0
    for at in range(count):
        if at % 20 == 0:
            both.look()
        what, function = some_call(both)
        found, due = both.call(function)
        assert found == due, f"call {at}: {what[:300]}: {str(found)[:200]}, and on a tmpfs {str(due)[:200]}"
        done += not isinstance(found, str)
    # What can't be read by its mode is compared, too.
    for folder in (one, other):
        for path, names, files in os.walk(folder):
            for name in names + files:
                if os.path.islink(f"{path}/{name}"):
                    continue
                os.chmod(f"{path}/{name}", os.lstat(f"{path}/{name}").st_mode & 0o777 | 0o700)
    print(f"    {count} calls alike, {done} of them without an error")

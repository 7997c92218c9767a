"""A running kfsd, connections to it as any user, and what its files keep."""
import contextlib
import importlib.machinery
import importlib.util
import json
import os
import shutil
import signal
import socket
import struct
import subprocess
import sys
import tempfile
import time
import tomllib

HERE = os.path.dirname(os.path.realpath(__file__))
TOP = os.path.dirname(os.path.dirname(os.path.dirname(HERE)))
sys.path[:0] = [f"{TOP}/hosts/python", f"{TOP}/tools"]
import frames  # noqa: E402
from frames import FRONT, frame  # noqa: E402,F401

# What kfsd refuses by itself (docs/KFSD.md).
frames.REFUSALS |= {128: "Unknown", 129: "Stopping", 130: "Unlisted", 131: "TooMany", 132: "TooFar", 133: "UnderWay", 134: "NotThere", 135: "Wanted", 136: "NoClient", 137: "NoSpace"}
HELLO, MOMENT = b"\xf0", b"\xf1"
# The tags of calls that are the front's.
FRONTS = (4, 5)
# How long a test waits for what is due at once.
SOON = 30


def tool(name):
    """A script of tools/ as a module."""
    loader = importlib.machinery.SourceFileLoader(name.replace("-", "_"), f"{TOP}/tools/{name}")
    module = importlib.util.module_from_spec(importlib.util.spec_from_loader(loader.name, loader))
    loader.exec_module(module)
    return module


kept_in = tool("serve-kills").kept_in


def lease(client, end, node=1, writes=False):
    """The call that asks for a lease by number, of the root where nothing is said."""
    return struct.pack(">BIBQI", 6, client, writes, end, node)


def lease_by_path(client, end, path=b"/", writes=False):
    """The call that asks for one by a path. kfsd makes another one of it."""
    return struct.pack(">BIBQH", 2, client, writes, end, len(path)) + path


def user(uid, client, grant=(1, 0), gid=None):
    """A user of the configuration, without numbers to give where it says no grant."""
    return {"uid": uid, "gid": uid if gid is None else gid, "client": client, "grant": list(grant)}


def numbered(number, call=b""):
    """A call under a number of the client's own; without a call the question how it ended."""
    return b"\xf2" + struct.pack(">Q", number) + call


USERS = [user(1000, 7, (2, 99)), user(1001, 8, (100, 199)), user(1002, 9, (200, 299))]


class Gone(Exception):
    """A connection has ended."""


class Connection:
    """A connection of a user, named by the kernel as that user for good."""

    def __init__(self, path, uid, client):
        self.client = client
        self.socket = socket.socket(socket.AF_UNIX)
        self.left = b""
        own = os.geteuid()
        if uid != own:
            os.seteuid(uid)
        try:
            self.socket.connect(path)
        finally:
            if uid != own:
                os.seteuid(own)
        # not before: with a time, a connection isn't waited for where many are in line
        self.socket.settimeout(SOON)

    def send(self, number, body, sender=None):
        self.socket.sendall(frame(number, self.client if sender is None else sender, body))

    def next(self):
        """The number of the next reply, and the bytes behind its head."""
        while len(self.left) < 8 or len(self.left) < 8 + int.from_bytes(self.left[:4], "big"):
            try:
                data = self.socket.recv(65536)
            except ConnectionError as fault:
                raise Gone from fault
            if not data:
                raise Gone
            self.left += data
        length, number = struct.unpack(">II", self.left[:8])
        said, self.left = self.left[8 : 8 + length], self.left[8 + length :]
        return number, said

    def reply(self):
        return frames.reply_of(*self.next())

    def ask(self, number, body, sender=None):
        """The reply to a frame, where no other is under way."""
        self.send(number, body, sender)
        reply = self.reply()
        assert reply.number == number, (reply, number)
        return reply

    def moment(self, number=0):
        """The moment, and how many seconds a lease may live."""
        self.send(number, MOMENT)
        found, said = self.next()
        assert found == number and said[0] == MOMENT[0], (found, said)
        return struct.unpack(">QQ", said[1:])

    def times(self, node):
        """The two times of a node, in nanoseconds since 1970; None where none is known."""
        self.send(0, b"\xf4" + struct.pack(">I", node))
        _, said = self.next()
        return struct.unpack(">QQ", said[2:]) if said[1] else None

    def is_ended(self):
        """Whether the other end has closed, with nothing more to read."""
        try:
            self.next()
        except Gone:
            return True
        return False

    def close(self):
        self.socket.close()


def children_of(process):
    """The children of a process, as descriptors, which mean these and no others that have their numbers later."""
    found = []
    for task in os.listdir(f"/proc/{process}/task"):
        with contextlib.suppress(OSError), open(f"/proc/{process}/task/{task}/children", encoding="ascii") as it:
            found += [os.pidfd_open(int(child)) for child in it.read().split()]
    return found


class Daemon:
    """A kfsd with a folder of its own."""

    def __init__(self, binaries, program, users=None, tiers=(64, 64, 64), duties=None, figures=None, rows=None, **limits):
        self.binaries, self.users, self.limits, self.tiers = binaries, list(USERS if users is None else users), limits, tiers
        # most tests ask for leases up to any end, and count seconds of none
        self.duties = {"lease_seconds": 0, "checkpoint_at_stop": False, "free_percent": 0, **(duties or {})}
        self.figures, self.rows = figures, rows
        self.room = tempfile.mkdtemp(prefix="kfsd-")
        os.chmod(self.room, 0o755)
        self.folder, self.program = f"{self.room}/desk", program
        os.mkdir(self.folder, 0o700)
        self.log = f"{self.room}/log"
        self.process, self.runs_as, self.patience = None, None, SOON
        # what it is told beside its configuration
        self.words = ("--verbose",)
        # the paths of sockets that aren't in its room
        self.elsewhere = {}

    def __enter__(self):
        return self

    def __exit__(self, kind, *_):
        if self.process and self.process.poll() is None:
            children = children_of(self.process.pid)
            self.process.kill()
            self.process.wait()
            for held in children:
                # kfs_serve ends by itself, and what stands in its place may not
                with contextlib.suppress(ProcessLookupError):
                    signal.pidfd_send_signal(held, signal.SIGKILL)
                os.close(held)
        if kind is not None:
            print(f"--- {self.log}\n{self.said()[-3000:]}---")
        shutil.rmtree(self.room, ignore_errors=True)

    def put_config(self):
        """Writes the configuration."""
        lines = [f'{name} = "{self.elsewhere.get(name, f"{self.room}/{name}")}"' for name in ("socket", "control")]
        lines += [f'figures = "{self.figures}"'] if self.figures else []
        lines += [f"rows = {self.rows}"] if self.rows else []
        lines += [f'folder = "{self.folder}"', f'program = "{self.program}"', f"tiers = {list(self.tiers)}", "[limits]"]
        lines += [f"{name} = {value}" for name, value in self.limits.items()]
        lines += ["[duties]", *(f"{name} = {json.dumps(value)}" for name, value in self.duties.items())]
        for it in self.users:
            lines += ["[[user]]", *(f"{name} = {json.dumps(value)}" for name, value in it.items())]
        with open(f"{self.room}/kfsd.toml", "w", encoding="utf-8") as it:
            it.write("\n".join(lines) + "\n")

    def begin(self, told=None):
        """Starts it, without waiting. It tells its log, or this file."""
        self.put_config()
        with open(self.log, "ab") as log:
            self.process = subprocess.Popen([f"{self.binaries}/kfsd", *self.words, "--config", f"{self.room}/kfsd.toml"], stdin=subprocess.DEVNULL, stdout=log, stderr=told or log, user=self.runs_as, group=self.runs_as)

    def start(self):
        """Starts it, and waits until clients may connect."""
        before = self.said().count("clients may connect")
        self.begin()
        self.wait_for(lambda: self.said().count("clients may connect") > before)
        return self

    def wait_for(self, is_so):
        end = time.monotonic() + self.patience
        while not is_so():
            assert self.process.poll() is None, f"kfsd has ended with status {self.process.poll()}"
            assert time.monotonic() < end, "nothing came in time"
            time.sleep(0.01)

    def said(self):
        if not os.path.exists(self.log):
            return ""
        with open(self.log, encoding="utf-8", errors="replace") as it:
            return it.read()

    def connect(self, client=7):
        it = next(it for it in self.users if it["client"] == client)
        return Connection(f"{self.room}/socket", it["uid"], client)

    def stranger(self, uid, client=7):
        return Connection(f"{self.room}/socket", uid, client)

    def ask(self, *words):
        """What kfsctl prints."""
        words = [f"{self.binaries}/kfsctl", "--control", f"{self.room}/control", *words]
        return subprocess.run(words, check=True, capture_output=True, text=True, timeout=self.patience).stdout

    def status(self):
        return tomllib.loads(self.ask("status"))

    def kill_desk(self):
        """Kills kfs_serve, once it has opened its files: of processes that never do, one after another, kfsd takes only five."""
        self.wait_for(self.has_killed_desk)

    def has_killed_desk(self, while_opening=False):
        """Kills the process that kfsd names, where it is a child of kfsd, and has opened its files or still does. Returns whether it was."""
        found = self.status()["kfs_serve"]
        pid = found["process"]
        if pid == 0 or found["is_open"] == while_opening:
            return False
        try:
            # by this the process is meant, and not another one that has its number by then
            held = os.pidfd_open(pid)
        except ProcessLookupError:
            return False
        try:
            with open(f"/proc/{pid}/stat", encoding="ascii", errors="replace") as it:
                state, parent = it.read().rpartition(")")[2].split()[:2]
            is_mine = state != "Z" and int(parent) == self.process.pid
            if is_mine:
                signal.pidfd_send_signal(held, signal.SIGKILL)
            return is_mine
        except (FileNotFoundError, ProcessLookupError):
            return False
        finally:
            os.close(held)

    def frames_left(self, client=7):
        """How many frames more a user may have under way."""
        return next(it["frames_left"] for it in self.status()["user"] if it["client"] == client)

    def stop(self):
        """Tells it to stop. Returns its status, and how long that took."""
        began = time.monotonic()
        self.process.send_signal(signal.SIGTERM)
        status = self.process.wait(timeout=SOON + 30)
        return status, time.monotonic() - began

    def ended(self):
        """Its status, once it has ended by itself."""
        return self.process.wait(timeout=SOON)

    def resident(self):
        """The memory that it has, in bytes."""
        with open(f"/proc/{self.process.pid}/statm", encoding="ascii") as it:
            return int(it.read().split()[1]) * os.sysconf("SC_PAGE_SIZE")

    def kept(self):
        """The calls of clients in the file that counts. Ticks and moves are kfsd's own."""
        return [call for call in kept_in(self.folder)[1] if call[0] not in FRONTS]


# What it does first: a first start makes the two files, whose state has neither clients nor leases.
MAKING = """
if sys.argv[1] == "new":
    for name in ("first.kdjl", "second.kdjl"):
        with open(f"{sys.argv[2]}/{name}", "xb") as it:
            it.write(b"KDJL" + bytes(8) + b"\\1" + struct.pack(">Q", 21) + b"KDSK\\1" + bytes(16))
"""


def pretender(daemon, text, makes=True):
    """Has a script stand where kfs_serve does."""
    daemon.program = f"{daemon.room}/pretender"
    with open(daemon.program, "w", encoding="utf-8") as it:
        it.write(f"#!{sys.executable}\nimport os, struct, sys, time\n{MAKING if makes else ''}{text}\n")
    os.chmod(daemon.program, 0o755)
    return daemon


# A pretender that is asked whether it is open, and says so.
READY = 'sys.stdin.buffer.read(12); sys.stdout.buffer.write(bytes.fromhex("00000006ffffffff020300000000")); sys.stdout.flush()\n'

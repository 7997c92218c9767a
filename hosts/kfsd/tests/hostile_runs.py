"""How long a polite user's look-ups, calls and new connections take beside one hostile user, kind by kind: hosts/load hostile."""
import contextlib
import json
import os
import statistics
import subprocess
import threading
import time
from typing import NamedTuple

from hostile_kinds import KINDS, OF_A_RUN, POLITE, USERS, Desk
from loads import used_by
from running import Daemon

# The aim: of 100 times of the polite one the 99th, in the middle of the runs.
MOST_TIMES, MOST_MICROS = 5, 50_000
# Memory is flat where from the middle on it grows by no more than this share of itself, and so many KiB.
GROWTH, GROWTH_KIB = 0.1, 1024
THINGS = ("look_up", "call", "connection")
DUTIES = {"lease_seconds": 3600, "free_percent": 10}
# Seconds: how long harms are at work before times count, how much longer they live where nobody ends them, how long kfsd may
# take to be at rest behind them, and how soon it answers then.
WARM, LEFT, CALM, AT_ONCE = 1.0, 30, 90, 0.05
# Of fewer than so many there is no 99th of 100.
FEW = 100


class Run(NamedTuple):
    """What a run found: the polite one's figures alone and beside, how much of a processor kfsd and the harms used, and notes."""

    alone: dict
    beside: dict
    kfsd: float
    harms: float
    notes: list


class Memory(threading.Thread):
    """Looks at kfsd's memory while harms are at work."""

    def __init__(self, daemon):
        super().__init__(daemon=True)
        self.daemon_of, self.before, self.found = daemon, daemon.resident() // 1024, []
        self.is_at_work, self.is_over = threading.Event(), threading.Event()

    def run(self):
        while not self.is_over.wait(0.1):
            if self.is_at_work.is_set():
                with contextlib.suppress(OSError, IndexError, ValueError):
                    self.found.append(self.daemon_of.resident() // 1024)

    def parts(self):
        """In KiB: before, in the middle and at the end."""
        found = self.found or [self.before]
        return self.before, found[len(found) // 2], found[-1]


def users_file(daemon, name, it, directory=0, first=0):
    path = f"{daemon.room}/{name}.toml"
    with open(path, "w", encoding="ascii") as file:
        file.write(f"[[user]]\nuid = {it['uid']}\ngid = {it['gid']}\nclient = {it['client']}\ndirectory = {directory}\nfirst = {first}\n")
    return path


def command(daemon, users, connections, seconds, *words):
    words = ["--socket", f"{daemon.room}/socket", "--users", users, "--connections", connections, "--seconds", seconds, *words]
    return [f"{daemon.binaries}/kfsload", *map(str, words)]


class Polite:
    """The polite one, in a process of its own that is ready and waits until it is told to begin."""

    def __init__(self, daemon, users, seconds):
        self.seconds = seconds
        words = command(daemon, users, 1, seconds, "--polite")
        self.process = subprocess.Popen(words, stdin=subprocess.PIPE, stdout=subprocess.PIPE, text=True)
        assert self.process.stdout.readline() == "ready\n", "the polite one can't begin"

    def figures(self):
        """Has it begin, and returns its figures."""
        said, _ = self.process.communicate("\n", timeout=self.seconds + 60)
        assert self.process.returncode == 0, "nothing of the polite one was timed"
        return json.loads(said)

    def end(self):
        self.process.kill()
        self.process.communicate()


@contextlib.contextmanager
def harms_at_work(daemon, harms, run, seconds):
    """Starts these, and ends them."""
    running = []
    try:
        for at, harm in enumerate(harms):
            path = f"{daemon.room}/harm{at}"
            with open(path, "wb") as file:
                file.write(harm.sent)
            words = ["--hostile", harm.way, "--frames", path, "--first", run << OF_A_RUN]
            users = users_file(daemon, f"harm{at}", harm.user)
            running.append(subprocess.Popen(command(daemon, users, harm.connections, seconds + LEFT, *words)))
        yield running
    finally:
        for it in running:
            it.kill()
            it.wait()


def is_calm(daemon):
    """Whether a look-up is answered at once."""
    began = time.monotonic()
    with contextlib.suppress(OSError):
        connection = daemon.connect(POLITE["client"])
        connection.ask(1, b"\x40\0\0\0\1")
        connection.close()
        return time.monotonic() - began < AT_ONCE
    return False


def wait_until_calm(daemon):
    end = time.monotonic() + CALM
    while time.monotonic() < end:
        assert daemon.process.poll() is None, f"kfsd has ended with status {daemon.process.poll()}"
        if is_calm(daemon):
            return []
        time.sleep(0.2)
    return ["no rest"]


def notes_of(figures, running):
    """What is to be known of a run: things that weren't answered in time or rightly, so few that the 99th of 100 says little, and a harm that is gone."""
    notes = [f"{thing} {what}" for thing in THINGS for what in ("lost", "wrong") if figures[thing][what]]
    notes += [f"{thing} few" for thing in THINGS if figures[thing]["count"] < FEW]
    return notes + ["a harm has ended" for it in running if it.poll() is not None]


def one_run(daemon, kind, harms, users, seconds, run, memory):
    """The polite one alone, and then beside these."""
    notes = wait_until_calm(daemon)
    alone = Polite(daemon, users, seconds).figures()
    if kind.before:
        kind.before(daemon, run)
    polite = Polite(daemon, users, seconds)
    try:
        with harms_at_work(daemon, harms, run, seconds) as running:
            memory.is_at_work.set()
            time.sleep(WARM)
            processes = [daemon.process.pid, *(it.pid for it in running)]
            began, before = time.monotonic(), [used_by(process) for process in processes]
            beside = polite.figures()
            taken = time.monotonic() - began
            kfsd, *others = [(used_by(process) - was) / taken for process, was in zip(processes, before)]
            notes += notes_of(beside, running)
            memory.is_at_work.clear()
    finally:
        polite.end()
        memory.is_at_work.clear()
    return Run(alone, beside, kfsd, sum(others), notes)


def runs_of(made, kind, runs, seconds):
    """The runs of a kind, on a daemon of its own, and its memory."""
    with Daemon(*made, users=USERS, tiers=kind.tiers, duties=DUTIES) as daemon:
        daemon.words, daemon.patience = (), 60
        daemon.start()
        polite = Desk(daemon, POLITE)
        users = users_file(daemon, "polite", POLITE, polite.home(), polite.next)
        harms = kind.harms(daemon)
        memory = Memory(daemon)
        memory.start()
        try:
            found = [one_run(daemon, kind, harms, users, seconds, run, memory) for run in range(runs)]
        finally:
            memory.is_over.set()
        return found, memory.parts()


def middle(found, of_run):
    return statistics.median([of_run(it) for it in found])


def row(found, memory):
    """The columns of a kind, and what it misses of the aim."""
    columns, misses = [], []
    for thing in THINGS:
        median = middle(found, lambda it: it.beside[thing]["median_micros"])
        most = middle(found, lambda it: it.beside[thing]["micros_of_99_in_100"])
        times = middle(found, lambda it: it.beside[thing]["micros_of_99_in_100"] / max(1, it.alone[thing]["micros_of_99_in_100"]))
        columns.append(f"{median:>8.0f} {most:>8.0f} {times:>7.1f} ")
        misses += [f"{thing} x{times:.0f}"] if times > MOST_TIMES else []
        misses += [f"{thing} {most / 1000:.0f} ms"] if most > MOST_MICROS else []
    _, halfway, last = memory
    misses += [f"memory +{last - halfway} KiB"] if last > halfway * (1 + GROWTH) + GROWTH_KIB else []
    columns += [f"{it:>8}" for it in memory]
    columns.append(f" {100 * middle(found, lambda it: it.kfsd):>5.0f} {100 * middle(found, lambda it: it.harms):>5.0f}")
    notes = [f"{note} in {count} of {len(found)}" for note, count in counted([note for it in found for note in it.notes])]
    return "".join(columns) + ("  " + ", ".join(notes) if notes else ""), misses


def counted(words):
    return [(word, words.count(word)) for word in dict.fromkeys(words)]


def head():
    things = "".join(f"{thing + ': 50th':>8} {'99th':>8} {'times':>7} " for thing in ("look", "call", "new"))
    return f"{'beside':<30}{things}{'before':>8}{'middle':>8}{'end':>8} {'kfsd':>5} {'harms':>5}"


def hostile(made, seconds, runs, words):
    """Prints a line for each kind whose name has one of these words, and at the end which kinds miss the aim."""
    kinds = [kind for kind in KINDS if not words or any(word in kind.name for word in words)]
    print(f"{runs} runs of {seconds} s alone and beside: of 100 look-ups, calls and new connections the 50th and the 99th, in microseconds, and the 99th in")
    print("times that alone, each in the middle of the runs; kfsd's memory in KiB; of 100 parts of a processor those of kfsd and of the harms")
    print(head(), flush=True)
    missing = []
    for kind in kinds:
        try:
            line, misses = row(*runs_of(made, kind, runs, seconds))
        except Exception as fault:  # pylint: disable=broad-except
            # One kind that fails doesn't keep the others from being measured.
            line, misses = f"{type(fault).__name__}: {fault}", ["it failed"]
        print(f"{kind.name:<30}{line}", flush=True)
        missing += [f"{kind.name} ({', '.join(misses)})"] if misses else []
    print(f"the aim is missed beside: {'; '.join(missing)}" if missing else "the aim is reached beside each kind")
    return not missing

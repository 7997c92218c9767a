"""Figures of a kfsd: calls a second and how long they take, and the same calls without it."""
import os
import struct
import subprocess
import tempfile
import time
import tomllib

from loading import load_users, prepare, said_by, start_load
from replaying import Follower, calls_in
from running import Daemon, frame

from benchmarks import put_files
from kept_parts import client_bytes, fresh_image, step_bytes

COUNTS = (1, 10, 100, 1000)


def load_of(daemon, connections, seconds, *words):
    """The figures of a load."""
    running = start_load(daemon, "--connections", connections, "--seconds", seconds, *words)
    assert running.wait(timeout=seconds + 120) == 0, "a call was answered otherwise than is right"
    return said_by(daemon)


def line(figures):
    return f"{figures['calls_a_second']:>8.0f} {figures['median_micros']:>9} {figures['micros_of_99_in_100']:>9} {figures['most_micros']:>9}"


def used_by(process):
    """The processor time of a process so far, in seconds."""
    with open(f"/proc/{process}/stat", encoding="ascii", errors="replace") as it:
        fields = it.read().rpartition(")")[2].split()
    return (int(fields[11]) + int(fields[12])) / os.sysconf("SC_CLK_TCK")


def parts(daemon, before, found):
    """Where the time of a call goes: in line, at kfs_serve, and in sockets and tasks; and the processor time of kfsd and kfs_serve."""
    status = daemon.status()
    frames, count = status["frames"], found["answered"]
    used = [(used_by(process) - was) / count * 1e6 for process, was in before]
    in_line, desk = frames["mean_waiting_micros"], frames["mean_micros"] - frames["mean_waiting_micros"]
    return f"{found['mean_micros']:>9.0f} {in_line:>9} {desk:>9} {found['mean_micros'] - frames['mean_micros']:>9.0f} {used[0]:>9.1f} {used[1]:>9.1f}"


def figures(made, seconds, folder=None):
    """Prints a line for each count of connections, and then one for as many threads that do the same on a tmpfs."""
    print("connections numbered  calls/s    median 99 of 100      most      mean   in line kfs_serve      else      kfsd kfs_serve, in microseconds")
    for connections in COUNTS:
        for words in (["--plain"], []):
            users = min(50, connections)
            with Daemon(*made, users=load_users(users, connections), tiers=(8192, 16, 16), connections_a_user=64) as daemon:
                if folder:
                    daemon.folder = f"{folder}/desk-{os.getpid()}-{connections}-{len(words)}"
                    os.mkdir(daemon.folder, 0o700)
                daemon.start()
                prepare(daemon)
                before = [(process, used_by(process)) for process in (daemon.process.pid, daemon.status()["kfs_serve"]["process"])]
                found = load_of(daemon, connections, seconds, *words)
                print(f"{connections:>11} {'no ' if words else 'yes':>8} {line(found)} {parts(daemon, before, found)}", flush=True)
                daemon.stop()
    for threads in COUNTS:
        with tempfile.TemporaryDirectory(dir="/dev/shm") as room:
            command = [f"{made[0]}/kfsload", "--kernel", room, "--connections", str(threads), "--seconds", str(seconds)]
            found = tomllib.loads(subprocess.run(command, check=True, capture_output=True, text=True).stdout)["figures"]
            print(f"{threads:>11} {'tmpfs':>8} {line(found)} {found['mean_micros']:>9.1f}", flush=True)


def calls_of_load(made, connections, seconds):
    """The calls of a load, in the order in which they were kept; its users, and the sizes of the tiers."""
    with Daemon(*made, users=load_users(10, connections), tiers=(8192, 16, 16)).start() as daemon:
        follower = Follower(daemon.folder, f"{daemon.room}/copy")
        follower.start()
        prepare(daemon)
        load_of(daemon, connections, seconds, "--plain")
        follower.end()
        return [call for call, _ in calls_in(f"{daemon.room}/copy")], daemon.users, daemon.tiers


def through_pipes(program, folder, calls, users, sizes):
    """How many seconds kfs_serve takes for all of these calls, where they are there at once."""
    with open(f"{folder}/clients", "w", encoding="ascii") as file:
        file.writelines(f"client {it['client']} {it['uid']} {it['gid']} 0 {it['grant'][0]} {it['grant'][1]}\n" for it in users)
    data = b"".join(frame(at & 0xFFFFFFFF, int.from_bytes(call[1:5], "big"), call) for at, call in enumerate(calls))
    words = [program, "new", folder, str((1 << 32) - 1), f"{folder}/clients", *map(str, sizes)]
    with open(f"{folder}/frames", "w+b") as file, open("/dev/null", "wb") as nowhere:
        file.write(data)
        file.seek(0)
        began = time.monotonic()
        subprocess.run(words, stdin=file, stdout=nowhere, check=True)
        return time.monotonic() - began


def in_library(made, bench, seconds):
    """Hands the calls of a load to kfs_serve alone, in one stream, and where `bench` is the program of tools/bench-kept, to the
    library: to a desk that isn't kept, and to one that is, with so many calls in a group. On a tmpfs, and on the disk of /tmp."""
    calls, users, sizes = calls_of_load(made, 10, seconds)
    print(f"{len(calls)} calls, {sum(map(len, calls)) / len(calls):.0f} bytes each")
    for where in ("/dev/shm", "/tmp"):
        with tempfile.TemporaryDirectory(dir=where) as folder:
            taken = through_pipes(made[1], folder, calls, users, sizes)
            print(f"{where:>9} kfs_serve alone {len(calls) / taken:>9.0f} calls/s {taken / len(calls) * 1e6:>6.2f} us", flush=True)
    if not bench:
        return
    clients = [client_bytes([it["client"], it["uid"], it["gid"], 0, *it["grant"]]) for it in users]
    state = b"KDSK\x01" + bytes(8) + struct.pack(">II", len(clients), 0) + b"".join(clients) + fresh_image(sizes)
    for where in ("-", "/dev/shm", "/tmp"):
        for size in (1, 8, 64, 512):
            # of single calls on the disk fewer do
            some = calls[: 5000 * size] if where == "/tmp" else calls
            taken = by_library(bench, where, state, [some[at : at + size] for at in range(0, len(some), size)])
            print(f"{where:>9} {size:>4} in a group {len(some) / taken:>9.0f} calls/s {taken / len(some) * 1e6:>6.2f} us", flush=True)


def by_library(bench, where, state, groups):
    """How many seconds the library takes for these groups, kept in a folder there, or not at all."""
    kept = where != "-"
    with tempfile.TemporaryDirectory() as room, tempfile.TemporaryDirectory(dir=where if kept else None) as folder:
        put_files(room, {"state": state, "steps": b"".join(map(step_bytes, groups))})
        said = subprocess.run([bench, folder if kept else where, "state", "steps"], cwd=room, check=True, capture_output=True)
        return sum(map(int, said.stdout.split())) / 1e9

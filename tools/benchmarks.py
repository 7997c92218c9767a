"""What the benchmarks share: a program over the public calls, built over copies of what it stands on, its runs, and logs."""
import concurrent.futures
import os
import re
import shutil
import subprocess
import sys
import tempfile
import time

from fuzzing.codec import FILE, ZERO, Create, Header, Log, NameRow, NodeRow, Piece, Plan, Unlink, encode_log, encode_plan

TOP = os.path.dirname(os.path.dirname(os.path.realpath(__file__)))
NAME = "kfs_bench"


def log_of(entries, client=7):
    return encode_log(Log(1, client, entries))


def plan_of(names, nodes, pieces=()):
    """Returns the bytes of a plan, its names in their order."""
    return encode_plan(Plan(1, sorted(names), nodes, pieces))


def node(number, size=0, kind=FILE, mode=0o644):
    """Returns the row of a node of uid and gid 1000."""
    return NodeRow(number, Header(kind, mode, 1000, 1000, 1, size))


def zero(number, start, length):
    return Piece(number, start, length, ZERO)


def put(number, start, length, entry, place):
    return Piece(number, start, length, (entry, place))


def files_made(names, first=2):
    """Returns the log that creates files of these names in the root, of the numbers from `first` on, and its plan."""
    numbers = range(first, first + len(names))
    log = log_of([Create(1, name, number, FILE, 0o644) for name, number in zip(names, numbers)])
    return log, plan_of([NameRow(1, name, number) for name, number in zip(names, numbers)], [node(number) for number in numbers])


def file_gone(name, number):
    """Returns the log that takes a file out of the root, and its plan."""
    return log_of([Unlink(1, name, FILE)]), plan_of([NameRow(1, name, 0)], [NodeRow(number, None)])


def put_files(folder, named):
    """Writes files that the program reads."""
    for name, content in named.items():
        with open(os.path.join(folder, name), "wb") as it:
            it.write(content)


def crates_below(uses):
    """Returns the line of crates.txt, and the libraries on it, of these crates of the repository and those below them, by name."""
    lines = {}
    with open(f"{TOP}/crates.txt") as it:
        for line in it:
            head, colon, below = line.partition(":")
            if colon and not line.startswith("#"):
                lines[head.split()[0]] = (line, below.split())
    found, left = {}, uses.split()
    while left:
        name = left.pop()
        if name in lines and name not in found:
            found[name] = lines[name]
            left += found[name][1]
    return found


def copy_crates(names, room, left_out=("must-fail",), built=()):
    """Copies crates to `room`, with a crates.txt of them alone. Of what `rt` keeps in out/ the libraries of `built` go with them:
    `rt` takes a library by the text that it is made of, and so a copy, too."""
    for name in names:
        shutil.copytree(f"{TOP}/crates/{name}", f"{room}/crates/{name}", ignore=shutil.ignore_patterns("out", *left_out))
        if name in built and os.path.isdir(f"{TOP}/crates/{name}/out/rlib"):
            shutil.copytree(f"{TOP}/crates/{name}/out/rlib", f"{room}/crates/{name}/out/rlib")
    shutil.copy(f"{TOP}/HANDLES", room)
    with open(f"{room}/crates.txt", "w") as it:
        it.writelines(line for line, _ in names.values())
    subprocess.run(["git", "init", "--quiet"], cwd=room, check=True)


def build_libraries(names):
    """Builds these libraries of the repository, and those below them, where that is still to do. They stay in out/."""
    lines = crates_below(" ".join(names))
    lower = {low for _, below in lines.values() for low in below}
    for name in sorted(set(names) - lower):
        ran = subprocess.run(["rt", "lib"], cwd=f"{TOP}/crates/{name}", stdin=subprocess.DEVNULL, stdout=subprocess.PIPE, stderr=subprocess.STDOUT, text=True, errors="replace")
        if ran.returncode:
            sys.exit(f"{name} is not proved as it stands:\n{ran.stdout[-2000:]}")


def copy_with(program, uses, room, files=(), is_built=False):
    """Copies to `room` what the program stands on, without wrong bodies, and adds a crate of it and these files, by name. Returns
    the crate's folder."""
    below = crates_below(uses)
    copy_crates(below, room, built=below if is_built else ())
    crate = f"{room}/crates/{NAME}"
    for name, text in {**dict(files), "src/main.rt": program}.items():
        os.makedirs(os.path.dirname(f"{crate}/{name}"), exist_ok=True)
        with open(f"{crate}/{name}", "w", encoding="utf-8") as it:
            it.write(text)
    with open(f"{room}/crates.txt", "a") as it:
        it.write(f"{NAME}: {uses}\n")
    subprocess.run(["rt", "fmt"], cwd=crate, stdin=subprocess.DEVNULL, stdout=sys.stderr, stderr=sys.stderr, check=True)
    return crate


def build(program, uses, room, files=()):
    """Returns the path of the program, proved and built in `room`. The libraries below it are built here, where that is still
    to do, and copied; so the program alone is proved there."""
    build_libraries(crates_below(uses).keys() & uses.split())
    crate = copy_with(program, uses, room, files, is_built=True)
    # With no words the program ends at once, and how doesn't matter.
    subprocess.run(["rt", "run"], cwd=crate, stdin=subprocess.DEVNULL, stdout=sys.stderr, stderr=sys.stderr, check=False)
    if not os.path.isfile(f"{crate}/out/{NAME}"):
        sys.exit("the benchmark's program is not proved")
    return f"{crate}/out/{NAME}"


def try_once(program, uses, named, cases, files=()):
    """Runs the program once with each list of words, on these named files and built by the kit's quick build, which proves
    nothing. Returns an exit status."""
    with tempfile.TemporaryDirectory(prefix="bench-") as room:
        crate = copy_with(program, uses, f"{room}/copy", files)
        for folder in ("data", "cases"):
            os.mkdir(f"{room}/{folder}")
        put_files(f"{room}/data", named)
        for index, words in enumerate(cases):
            lines = "".join(f"{word}\n" for word in words)
            put_files(f"{room}/cases", {str(index): b"", f"{index}.args": lines.encode()})
        words = ["rt", "try", "--cases", f"{room}/cases"]
        for name in named:
            words += ["--data", f"{name}={room}/data/{name}"]
        ran = subprocess.run(words, cwd=crate, stdin=subprocess.DEVNULL, stdout=subprocess.DEVNULL, stderr=subprocess.PIPE, text=True)
    ended = len(re.findall(r"^case=\d+ run=ended status=0 ", ran.stderr, re.M))
    print(f"{ended} of {len(cases)} runs of the unproved program ended well")
    if ended == len(cases):
        return 0
    print(ran.stderr, end="", file=sys.stderr)
    return 1


def run(words, folder):
    """Returns the times that the program prints, a list for each line, in microseconds."""
    ran = subprocess.run(words, cwd=folder, stdin=subprocess.DEVNULL, stdout=subprocess.PIPE, text=True, check=True)
    return [[int(word) / 1000 for word in line.split()] for line in ran.stdout.splitlines()]


def run_apart(words, folder, count):
    """Runs the program so many times at once. Returns what `run` does of each.

    What they take over all is what the machine gives to as many threads that share nothing. It is often far from a part of
    what one takes alone: two virtual cores may be one core's two threads.
    """
    with concurrent.futures.ThreadPoolExecutor(count) as threads:
        return list(threads.map(lambda _: run(words, folder), range(count)))


def over_all(times):
    """Returns the time of one piece of work over all processes that run at once, of the time that each takes for it."""
    return 1 / sum(1 / time for time in times)


def peak(words, folder, seconds=1):
    """Returns the greatest resident size in KiB of a process that goes on for so many seconds."""
    greatest, end = 0, time.monotonic() + seconds
    with subprocess.Popen(words, cwd=folder, stdin=subprocess.DEVNULL, stdout=subprocess.DEVNULL) as process:
        while time.monotonic() < end:
            with open(f"/proc/{process.pid}/status") as it:
                greatest = max([greatest] + [int(line.split()[1]) for line in it if line.startswith("VmHWM")])
            time.sleep(0.02)
        process.kill()
    return greatest

"""The server of a kept desk as a program: the one that is given, or one of the crate's own text, proved or by the quick build."""
import glob
import os

from benchmarks import NAME, TOP, crates_below, try_once
from quick import program_for

CRATE = f"{TOP}/crates/kfs_serve"
CLIENTS = b"client 7 1000 1000 0 2 99\n"


def program_parts():
    """Returns the text of the program, the crates that it names, and its other files, under the name that a build gives it."""
    files = {}
    for pattern in ("src/**/*.rt", "specs/**/*.antt", "proofs/**/*.antt"):
        for path in glob.glob(pattern, root_dir=CRATE, recursive=True):
            with open(f"{CRATE}/{path}", encoding="utf-8") as it:
                files[path] = it.read().replace("Rattle.kfs_serve.", f"Rattle.{NAME}.")
    _line, below = crates_below("kfs_serve")["kfs_serve"]
    return files.pop("src/main.rt"), " ".join(below), files


def server_for(asked, room):
    """Returns the path of the program: the one that is given; or one that is built, proved or not, and put there."""
    return program_for(asked, room, *program_parts())


def try_server():
    """Runs the program once, by the quick build. Returns an exit status."""
    program, uses, files = program_parts()
    return try_once(program, uses, {"clients": CLIENTS}, [["new", ".", "1000", "clients", "4", "16", "64"]], files)

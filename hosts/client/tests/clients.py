"""The client library: built, looked at, and tested over the program `kfs` and through kfsd.

KFS_PROGRAM names a program `kfs` that is there. Else the kit's quick build makes one, which proves nothing. KFS_RUNS says how many
random runs the tests make.
"""
import functools
import os
import subprocess
import sys
import tempfile

HERE = os.path.dirname(os.path.realpath(__file__))
TOP = os.path.dirname(os.path.dirname(os.path.dirname(HERE)))
sys.path.insert(0, f"{TOP}/tools")
from quick import build_quick  # noqa: E402

CRATE, REGISTRY = f"{TOP}/hosts/client", "/usr/share/cargo/registry"
GREETING = "hello\n"


def cargo(command, *rest):
    """The command of cargo, which takes libraries from Debian's packages where these are there."""
    source = ["--config", f"{TOP}/hosts/debian.toml"] if os.path.isdir(REGISTRY) else []
    return ["cargo", command, *source, "--manifest-path", f"{CRATE}/Cargo.toml", "--target-dir", f"{CRATE}/out", "-j", "1", "--quiet", *rest]


# Where the program is made. It goes with this process.
ROOM = tempfile.TemporaryDirectory(prefix="kfs-client-made-")


@functools.cache
def kfs_program():
    """The path of the program `kfs`."""
    if "KFS_PROGRAM" in os.environ:
        return os.environ["KFS_PROGRAM"]
    with open(f"{TOP}/crates/kfs/src/main.rt", encoding="utf-8") as it:
        return build_quick(it.read(), "kfs_program", ROOM.name)


def is_there(word):
    return subprocess.run(["cargo", word, "--version"], check=False, capture_output=True).returncode == 0


def a_client_library(made):
    """Its text has no warning, its own tests go well, and so does the example."""
    if is_there("clippy"):
        subprocess.run(cargo("clippy", "--all-targets", "--", "-D", "warnings"), check=True)
    if is_there("fmt"):
        subprocess.run(["cargo", "fmt", "--manifest-path", f"{CRATE}/Cargo.toml", "--check"], check=True)
    binaries, server = made
    program = kfs_program()
    names = {"KFS_PROGRAM": program, "KFS_SERVE": server, "KFSD": f"{binaries}/kfsd"}
    subprocess.run(cargo("test"), check=True, env={**os.environ, **names})
    ran = subprocess.run(cargo("run", "--example", "first", "--", program), check=True, capture_output=True, text=True)
    assert ran.stdout == GREETING, ran.stdout


TESTS = [a_client_library]

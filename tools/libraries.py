"""The desk's library for C, with the kit's beside it, and how hosts in C are compiled over both."""
import os
import shutil
import subprocess
import sys

from benchmarks import TOP

GCC = ["gcc", "-std=gnu11", "-O2", "-Wall", "-Wextra", "-Werror", "-I", f"{TOP}/include"]
NAMES = ("libkfs_c.a", "liblibc_c.a")


def libraries(folder, room):
    """Returns a folder with both libraries: the one that is given; or `room`, with what `rt lib` makes of crates/kfs_c."""
    if folder:
        return os.path.realpath(folder)
    crate = f"{TOP}/crates/kfs_c"
    if subprocess.run(["rt", "lib"], cwd=crate, stdin=subprocess.DEVNULL).returncode:
        sys.exit("crates/kfs_c isn't proved, or not built")
    kit = os.path.dirname(os.path.dirname(os.path.realpath(shutil.which("rt"))))
    for library in (f"{crate}/out/libkfs_c.a", f"{kit}/c/liblibc_c.a"):
        shutil.copy(library, room)
    return room


def in_folder(folder):
    """Returns both libraries' paths."""
    return [os.path.join(folder, name) for name in NAMES]

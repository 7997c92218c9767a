"""A program of Rattle by the kit's quick build, which proves nothing, kept as a program of its own.

`rt try` builds and runs a program in a folder that it removes, with each access of memory checked. Here its compiler is
watched: the module that it is given is compiled again, with optimizations and without those checks.
"""
import os
import shutil
import subprocess
import sys
import time

from benchmarks import NAME, build, copy_with

# Takes the place of the kit's clang: keeps the module that is to be checked, and its own words, and ends.
CLANG = """#!/usr/bin/env python3
import os
import shutil
import sys

if "-fsanitize=address" not in sys.argv:
    os.execv(REAL, [REAL, *sys.argv[1:]])
shutil.copy("module.bc", ROOM + "/module.bc")
with open(ROOM + "/words.part", "w") as it:
    it.write("\\n".join(sys.argv[1:]))
os.rename(ROOM + "/words.part", ROOM + "/words")
sys.exit(1)
"""


def linked_kit(room):
    """Makes a copy of the kit, mostly of links, that asks the prover nothing. Returns the path of the kit and of the copy."""
    kit = os.path.dirname(os.path.dirname(os.path.realpath(shutil.which("rt"))))
    copy = f"{room}/kit"
    for folder, own in (("", {"bin", "toolchain"}), ("bin/", set()), ("toolchain/", {"bin"}), ("toolchain/bin/", set())):
        os.makedirs(f"{copy}/{folder}", exist_ok=True)
        for name in set(os.listdir(f"{kit}/{folder}")) - own:
            # rt looks for the kit where its own text lies.
            put = shutil.copy if name.startswith("rt") and folder == "bin/" else os.symlink
            put(f"{kit}/{folder}{name}", f"{copy}/{folder}{name}")
    # What `rt try` asks the prover meanwhile is only a hint.
    os.remove(f"{copy}/bin/rattle")
    os.symlink("/bin/true", f"{copy}/bin/rattle")
    return kit, copy


def watch_clang(kit, copy, room):
    """Puts in the place of the copy's clang what keeps the module."""
    os.remove(f"{copy}/toolchain/bin/clang")
    with open(f"{copy}/toolchain/bin/clang", "w", encoding="utf-8") as it:
        it.write(CLANG.replace("REAL", repr(f"{kit}/toolchain/bin/clang")).replace("ROOM", repr(room)))
    os.chmod(f"{copy}/toolchain/bin/clang", 0o755)


def keep_module(crate, copy, room):
    """Lets the quick build come as far as its compiler, and stops it there."""
    with open(f"{room}/said", "w+", encoding="utf-8") as said:
        ran = subprocess.Popen([f"{copy}/bin/rt", "try"], cwd=crate, stdin=subprocess.DEVNULL, stdout=said, stderr=said)
        while ran.poll() is None and not os.path.exists(f"{room}/words"):
            time.sleep(0.1)
        ran.terminate()
        ran.wait()
        said.seek(0)
        if not os.path.exists(f"{room}/words"):
            sys.exit(f"the quick build has made no module:\n{said.read()[-3000:]}")


def build_quick(program, uses, room, files=()):
    """Returns the path of the program, which is not proved, built in `room`."""
    os.makedirs(room, exist_ok=True)
    crate = copy_with(program, uses, f"{room}/copy", files)
    kit, copy = linked_kit(room)
    watch_clang(kit, copy, room)
    keep_module(crate, copy, room)
    with open(f"{room}/words", encoding="utf-8") as it:
        words = [word.replace(copy, kit) for word in it.read().split("\n") if word not in ("-O0", "-fsanitize=address")]
    subprocess.run([f"{kit}/toolchain/bin/clang", *words, "-O2"], cwd=room, check=True)
    made = f"{room}/{NAME}"
    subprocess.run(["gcc", "-pie", f"{room}/module.o", f"{kit}/c/libos_c.a", f"{kit}/c/liblibc_c.a", "-o", made], check=True)
    return made


def add_words(words):
    """Adds the words that say which program is run: the quick build, unless it is to be proved. `--quick` says what is so anyway."""
    how = words.add_mutually_exclusive_group()
    how.add_argument("--quick", action="store_true")
    how.add_argument("--proved", action="store_true")
    words.add_argument("--program")


def program_for(asked, room, program, uses, files):
    """Returns the path of the program: the one that is given; or one that is built, proved or not, and put there."""
    if asked.program and os.path.isfile(asked.program):
        return os.path.realpath(asked.program)
    made = (build if asked.proved else build_quick)(program, uses, f"{room}/made", files)
    if asked.program:
        shutil.copy(made, asked.program)
    return made

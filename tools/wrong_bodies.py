"""Wrong bodies: how an edit is planted in a copy, what finds it there, and those that have a name, by the table of mutants/README.md."""
import glob
import os
import re
import subprocess
import sys
import tempfile
from typing import NamedTuple

from benchmarks import TOP, copy_crates, crates_below
from quick import linked_kit

PAGE = "mutants/README.md"
# Where the edits stand that the prover refuses, and those that tests alone find.
REFUSED, FOUND = ("crates/{}/must-fail/{}.edit", "mutants/{}/{}.edit"), ("tools/fuzzing/wants/{}/{}.edit",)
SCRIPTS = "kfs_rows"


class Found(NamedTuple):
    """An edit that a test finds: the edit as CRATE/NAME, and the test's crate and name. A test of kfs_rows is a script."""

    edit: str
    crate: str
    test: str


class Named(NamedTuple):
    """A wrong body with a name: the edits that the prover refuses, each as CRATE/NAME, and those that tests find."""

    title: str
    refused: list
    found: list


def named():
    """Returns the wrong bodies of the page, and the lines of its table that can't be read."""
    with open(f"{TOP}/{PAGE}", encoding="utf-8") as it:
        rows = re.findall(r"^\| (.+?) \| *(.*?) *\| *(.*?) *\|$", it.read(), re.M)
    bodies, unread = [], []
    for title, refused, found in rows[1:]:
        if not set(title) <= set("-|"):
            tests = re.findall(r"`(\w+/\w+)` by `(\w+)/(\w+)`", found)
            bodies.append(Named(title, re.findall(r"`(\w+/\w+)`", refused), [Found(*it) for it in tests]))
            rest = re.sub(r"`\w+/\w+`(?: by `\w+/\w+`)?|[, ]", "", refused + found)
            if rest or not (refused or found) or 2 * len(tests) != found.count("/"):
                unread.append(title)
    return bodies, unread


def path_of(edit, patterns):
    """Returns where an edit CRATE/NAME stands, or None."""
    paths = (f"{TOP}/{pattern}".format(*edit.split("/")) for pattern in patterns)
    return next(filter(os.path.isfile, paths), None)


def is_test(found):
    """Whether the test of an edit is there: a script, or a function of its crate's text."""
    if found.crate == SCRIPTS:
        return os.path.isfile(f"{TOP}/crates/{SCRIPTS}/data/{found.test}.kfs")
    paths = glob.glob(f"{TOP}/crates/{found.crate}/src/**/*.rt", recursive=True)
    return any(re.search(rf"#\[test\]\s+fn {found.test}\(", open(path, encoding="utf-8").read()) for path in paths)


def lacking():
    """Returns what the table names and isn't there, in lines."""
    bodies, unread = named()
    lines = [f"{PAGE}: {title}: this row can't be read" for title in unread]
    for body in bodies:
        lines += [f"{PAGE}: {body.title}: there is no edit {it}" for it in body.refused if not path_of(it, REFUSED)]
        lines += [f"{PAGE}: {body.title}: there is no edit {it.edit} in tools/fuzzing/wants" for it in body.found if not path_of(it.edit, FOUND)]
        lines += [f"{PAGE}: {body.title}: there is no test {it.crate}/{it.test}" for it in body.found if not is_test(it)]
    return bodies, lines


def planted(edit, room):
    """Makes the changes of a wrong body in a copy of the crates."""
    crate = re.search(r"(?:crates|mutants|wants)/(\w+)/", edit)[1]
    with open(edit, encoding="utf-8") as it:
        rows = re.findall(r"^(file|old|new): ?(.*)$", it.read(), re.M)
    for key, value in rows:
        if key == "file":
            path = f"{room}/crates/{crate}/{value.strip()}"
        elif key == "old":
            old = value
        else:
            with open(path, encoding="utf-8") as it:
                text = it.read()
            if text.count(old) != 1:
                sys.exit(f"{edit} doesn't fit: tools/mutants --fit says why")
            with open(path, "w", encoding="utf-8") as it:
                it.write(text.replace(old, value))


def tried(crate, edit, words):
    """Returns what the quick build of a crate says with a wrong body below it. The prover is asked nothing."""
    how = {"stdin": subprocess.DEVNULL, "stdout": subprocess.PIPE, "stderr": subprocess.STDOUT, "text": True, "errors": "replace"}
    with tempfile.TemporaryDirectory(prefix="wrong-bodies-") as room:
        copy_crates(crates_below(crate), f"{room}/copy")
        planted(edit, f"{room}/copy")
        _, kit = linked_kit(room)
        return subprocess.run([f"{kit}/bin/rt", "try", *words], cwd=f"{room}/copy/crates/{crate}", check=False, **how).stdout


def tests_of(crate, edit):
    """Returns the tests of a crate with a wrong body below it, by the quick build: those that fail, and all."""
    said = tried(crate, edit, ["--test"])
    rows = re.findall(r"^test (\S+) \.\.\. (\w+)", said, re.M)
    if not rows:
        print(said[-2_000:], file=sys.stderr)
    return [name for name, end in rows if end != "ok"], rows


def fails_script(script, edit):
    """Returns whether a script of kfs_rows, run alone as the gate runs it, fails with a wrong body below; None where it didn't run."""
    words = ["--seconds", "120"]
    for path in sorted(glob.glob(f"{TOP}/crates/{SCRIPTS}/data/{script}.*")):
        words += ["--data", f"{os.path.basename(path)}={path}"]
    said = tried(SCRIPTS, edit, words)
    line = re.search(rf"^{script}: (.*)$", said, re.M)
    if not line:
        print(said[-2_000:], file=sys.stderr)
        return None
    return line[1] != "as expected"


def is_found(found):
    """Returns whether the test of an edit fails with it, and a line that says so."""
    edit, names = path_of(found.edit, FOUND), f"{found.crate}/{found.test}"
    if found.crate == SCRIPTS:
        fails = fails_script(found.test, edit)
    else:
        wrong, rows = tests_of(found.crate, edit)
        ends = {name.rpartition("::")[2] for name in wrong}
        fails = found.test in ends if any(name.rpartition("::")[2] == found.test for name, _ in rows) else None
    how = {None: "NOT TRIED, by", False: "NOT FOUND by", True: "found by"}[fails]
    return bool(fails), f"{found.edit}: {how} {names}"

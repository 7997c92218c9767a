"""Two lines start a server and put a file into it (hosts/serve, hosts/put)."""
import os
import shutil
import subprocess
import tempfile
import time

from loading import image_in
from running import SOON, TOP

from fuzzing.images import contents_of, finding, tree_of


def a_file_is_put(made):
    """A server is started in a folder, two files are put into it, one of them long, and they are in the image behind a stop."""
    room = tempfile.mkdtemp(prefix="kfsd-put-")
    with open(f"{room}/log", "w", encoding="utf-8") as log:
        serving = subprocess.Popen([f"{TOP}/hosts/serve", f"{room}/desk", "--program", made[1]], stdout=log, stderr=log, start_new_session=True)
    try:
        end = time.monotonic() + SOON
        while not os.path.exists(f"{room}/desk/socket"):
            assert serving.poll() is None and time.monotonic() < end, "no server comes"
            time.sleep(0.05)
        contents = {b"short": b"hello", b"long": os.urandom(200_000)}
        for at, (name, data) in enumerate(contents.items()):
            with open(f"{room}/{name.decode()}", "wb") as it:
                it.write(data)
            said = subprocess.run([f"{TOP}/hosts/put", f"{room}/desk/socket", f"{room}/{name.decode()}"], check=True, capture_output=True, text=True).stdout
            assert said == f"{name.decode()} is node {2 + at}, with {len(data)} bytes\n", said
        again = subprocess.run([f"{TOP}/hosts/put", f"{room}/desk/socket", f"{room}/short"], check=False, capture_output=True, text=True)
        assert again.returncode == 1 and "the desk says" in again.stderr, again
    finally:
        serving.terminate()
        status = serving.wait(timeout=SOON)
    try:
        assert status == 0, status
        raw = image_in(f"{room}/desk/desk")
        if len(tree_of(raw).names) == 0:
            print("    this kfs_serve makes no checkpoint at a stop: the image isn't looked at")
            return
        assert finding(raw) is None
        for (_, name), number in tree_of(raw).names.items():
            assert contents_of(raw)[number].read(0, len(contents[name])) == contents[name]
    finally:
        shutil.rmtree(room)


# In the place of cargo: it notes its words, and makes a program that ends at once, or fails.
CARGO = """#!/bin/sh
echo "$@" >> "$NOTES"
[ -z "$FAILS" ] || exit 101
for word; do out=$word; done
mkdir -p "$out/debug"
printf '#!/bin/sh\\nexit 7\\n' | tee "$out/debug/kfsd" > "$out/debug/kfs-mount"
chmod +x "$out/debug/kfsd" "$out/debug/kfs-mount"
"""


def served(room, program, **more):
    """Runs a copy of hosts/serve that has nothing built yet. Returns how it ends."""
    os.makedirs(f"{room}/top/hosts", exist_ok=True)
    os.makedirs(f"{room}/bin", exist_ok=True)
    shutil.copy(f"{TOP}/hosts/serve", f"{room}/top/hosts/serve")
    if not os.path.exists(f"{room}/top/tools"):
        os.symlink(f"{TOP}/tools", f"{room}/top/tools")
    with open(f"{room}/bin/cargo", "w", encoding="utf-8") as it:
        it.write(CARGO)
    os.chmod(f"{room}/bin/cargo", 0o755)
    names = {**os.environ, "PATH": f"{room}/bin:{os.environ['PATH']}", "NOTES": f"{room}/notes", **more}
    return subprocess.run([f"{room}/top/hosts/serve", f"{room}/desk", "--program", program], env=names, check=False, capture_output=True, text=True)


def what_is_lacking_is_built(made):
    """hosts/serve has kfsd and kfs-mount built where they aren't there, and says so where that fails. A desk that is there keeps its tiers."""
    with tempfile.TemporaryDirectory(prefix="kfsd-serve-") as room:
        ended = served(room, made[1], FAILS="1")
        assert ended.returncode == 1 and "kfsd can't be built" in ended.stderr and "Traceback" not in ended.stderr, ended
        ended = served(room, made[1])
        assert ended.returncode == 7, ended
        with open(f"{room}/notes", encoding="utf-8") as notes:
            built = [line.split("--manifest-path ")[1].split()[0] for line in notes]
        assert [os.path.relpath(path, f"{room}/top/hosts") for path in built] == ["kfsd/Cargo.toml"] * 2 + ["mount/Cargo.toml"], built
        line = f"{room}/top/hosts/client/out/debug/kfs-mount MOUNTPOINT --socket {room}/desk/socket --client 7 --uid 0 --gid 0"
        assert line in ended.stdout.splitlines(), ended
        with open(f"{room}/desk/kfsd.toml", encoding="utf-8") as it:
            text = it.read()
        assert "tiers = [65536, 65536, 65536]" in text, text
        with open(f"{room}/desk/kfsd.toml", "w", encoding="utf-8") as it:
            it.write(text.replace("[65536, 65536, 65536]", "[64, 32, 16]"))
        assert served(room, made[1]).returncode == 7
        with open(f"{room}/desk/kfsd.toml", encoding="utf-8") as it:
            assert "tiers = [64, 32, 16]" in it.read()


TESTS = [a_file_is_put, what_is_lacking_is_built]

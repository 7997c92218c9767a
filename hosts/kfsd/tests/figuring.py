"""What kfsctl prints, and the figures for Prometheus."""
import concurrent.futures
import contextlib
import http.client
import os
import re
import selectors
import shutil
import socket
import subprocess
import sys
import tempfile
import threading
import time
import tomllib

from running import READY, TOP, Daemon, frame, lease, numbered, pretender


def free_address():
    """An address of this machine where nobody listens."""
    with socket.socket() as it:
        it.bind(("127.0.0.1", 0))
        return f"127.0.0.1:{it.getsockname()[1]}"


def get(address, path="/metrics"):
    host, port = address.split(":")
    asking = http.client.HTTPConnection(host, int(port), timeout=30)
    asking.request("GET", path)
    reply = asking.getresponse()
    return reply.status, reply.getheader("Content-Type"), reply.read().decode()


def values_in(text):
    """The values by their names, with each name explained before it."""
    explained, values = set(), {}
    for line in text.splitlines():
        if line.startswith("# "):
            explained.add(line.split(" ")[2])
        else:
            name, value = line.rsplit(" ", 1)
            bare = name.partition("{")[0]
            assert {bare, bare.rpartition("_")[0]} & explained, line
            values[name] = float(value)
    return values


def figures_are_told(made):
    """Prometheus is told what was counted. Another path isn't there, and who asks nothing for long holds nobody up."""
    with Daemon(*made, figures=free_address()).start() as daemon:
        seven, eight = daemon.connect(7), daemon.connect(8)
        for at in range(20):
            assert seven.ask(at, lease(7, 1000 + at)).answer
        assert eight.ask(1, lease(8, 1000, writes=True)).answer[4] == 8
        assert eight.ask(2, lease(7, 10)).refusal == ("NotYours", 0)
        assert eight.ask(3, numbered(1, lease(8, 0))).answer
        idle = []
        for _ in range(15):
            idle.append(socket.create_connection(daemon.figures.split(":")))
        status, kind, text = get(daemon.figures)
        assert status == 200 and kind.startswith("text/plain; version=0.0.4")
        values = values_in(text)
        assert values["kfsd_frames_answered_total"] == values["kfsd_frames_sent_total"] == 22
        assert values["kfsd_frames_answered_here_total"] == 1 and values["kfsd_frames_unknown_total"] == 0
        # the marker of the numbered call, and the look whether the holder may have the lease that is wanted
        assert values["kfsd_own_calls_total"] == 2
        assert values["kfsd_kfs_serve_starts_total"] == values["kfsd_kfs_serve_open"] == 1
        assert (values["kfsd_leases"], values["kfsd_wanted_leases"]) == (1, 1)
        assert values['kfsd_user_connections{uid="1000",client="7"}'] == 1
        assert values['kfsd_user_connections{uid="1002",client="9"}'] == 0
        counts = [value for name, value in values.items() if name.startswith("kfsd_call_seconds_bucket")]
        assert counts == sorted(counts) and counts[-1] == values["kfsd_call_seconds_count"] == 22
        assert values["kfsd_call_seconds_sum"] > 0
        assert get(daemon.figures, "/")[0] == get(daemon.figures, "/metrics2")[0] == 404
        with socket.create_connection(daemon.figures.split(":")) as it:
            it.sendall(b"\x00" * 10_000)
            assert it.recv(100).startswith(b"HTTP/1.1 404")
        for it in idle:
            it.close()
        assert daemon.stop()[0] == 0


def status_of(address, head):
    """The status line that answers such a head."""
    with socket.create_connection(address.split(":"), timeout=30) as it:
        it.sendall(b"GET /metrics HTTP/1.1\r\n" + head.encode() + b"\r\n")
        return it.recv(12).decode()


def figures_are_asked_of_this_machine(made):
    """Who asks by another name isn't told: a page of the web could have a browser do so."""
    with Daemon(*made, figures=free_address()).start() as daemon:
        port = daemon.figures.partition(":")[2]
        for host in (f"127.0.0.1:{port}", f"LOCALHOST:{port}", f"[::1]:{port}"):
            assert status_of(daemon.figures, f"Host: {host}\r\n") == "HTTP/1.1 200", host
        for head in (f"Host: rebound.invalid:{port}\r\n", f"Host: 192.0.2.1:{port}\r\n", "Host: 127.0.0.1\r\n", "", f"Host: 127.0.0.1:{port}\r\nHost: rebound.invalid\r\n"):
            assert status_of(daemon.figures, head) == "HTTP/1.1 403", head


def come_again(address, count, is_over):
    """Keeps so many connections that ask nothing, and connects again as soon as one has ended. Returns how often it has connected."""
    waiting, connected = selectors.DefaultSelector(), 0

    def connect():
        it = socket.socket()
        it.setblocking(False)
        with contextlib.suppress(BlockingIOError):
            it.connect(address)
        waiting.register(it, selectors.EVENT_READ)

    for _ in range(count):
        connect()
    while not is_over.is_set():
        for key, _ in waiting.select(0.1):
            waiting.unregister(key.fileobj)
            key.fileobj.close()
            connect()
            connected += 1
    for key in list(waiting.get_map().values()):
        key.fileobj.close()
    return connected + count


def who_asks_nothing_holds_nobody_up(made):
    """Beside 100 connections that ask nothing, and come again as soon as they are ended, Prometheus is told within a second."""
    with Daemon(*made, figures=free_address()).start() as daemon, concurrent.futures.ThreadPoolExecutor(1) as pool:
        is_over, (host, port) = threading.Event(), daemon.figures.split(":")
        coming = pool.submit(come_again, (host, int(port)), 100, is_over)
        try:
            time.sleep(0.5)
            times = []
            for _ in range(40):
                began = time.monotonic()
                assert get(daemon.figures)[0] == 200
                times.append(time.monotonic() - began)
                time.sleep(0.05)
        finally:
            is_over.set()
        assert max(times) < 1, times
        print(f"    a question took up to {max(times):.3f} s beside 100 idle connections that came {coming.result()} times")


def figures_stay_on_this_machine(made):
    """An address that other machines reach is refused, and one that another has, too."""
    with Daemon(*made, figures="0.0.0.0:0") as daemon:
        daemon.begin()
        assert daemon.ended() == 1 and "no address of this machine alone" in daemon.said()
    with socket.socket() as taken:
        taken.bind(("127.0.0.1", 0))
        taken.listen()
        with Daemon(*made, figures=f"127.0.0.1:{taken.getsockname()[1]}") as daemon:
            daemon.begin()
            assert daemon.ended() == 1 and "figures on" in daemon.said()


def kfsctl_prints(made):
    """Users, leases and wants are listed, and watch prints lines."""
    with Daemon(*made).start() as daemon:
        seven, eight = daemon.connect(7), daemon.connect(8)
        assert seven.ask(1, lease(7, 1000, writes=True)).answer[4] == 4
        assert eight.ask(1, lease(8, 1000)).answer[4] == 8
        users = daemon.ask("users").splitlines()
        assert users[0].split() == ["uid", "client", "connections", "frames_left", "bytes_left", "blocks"]
        assert [line.split()[:3] for line in users[1:]] == [["1000", "7", "1"], ["1001", "8", "1"], ["1002", "9", "0"]]
        leases = daemon.ask("leases").splitlines()
        assert len(leases) == 3, leases
        node, client, kind, left = leases[1].split()
        assert (node, client, kind) == ("1", "7", "write") and 900 < int(left) <= 1000
        assert leases[2].startswith("client 8 has wanted node 1 of client 7 for ")
        shown = daemon.status()
        assert shown["desk"]["leases"] == shown["desk"]["wanted_leases"] == 1
        assert shown["frames"]["mean_micros"] > shown["frames"]["mean_waiting_micros"] >= 0
        eight.socket.sendall(b"".join(frame(at, 8, lease(8, 0)) for at in range(50)))
        began = time.monotonic()
        lines = daemon.ask("watch", "--count", "2").splitlines()
        assert len(lines) == 3 and 1.9 < time.monotonic() - began < 10, lines
        assert lines[1].split()[3] == "2", lines


def a_copy_is_looked_at(made):
    """fsck finds nothing wrong of a desk in use, also under load, and finds files that were spoiled."""
    with Daemon(*made).start() as daemon:
        words = ["fsck", "--folder", daemon.folder, "--program", daemon.program]
        seven = daemon.connect(7)
        for at in range(5):
            seven.socket.sendall(b"".join(frame(each, 7, lease(7, 1000 + each)) for each in range(60)))
            assert "breaks no rule" in daemon.ask(*words)
            assert all(seven.reply().answer for _ in range(60))
        assert daemon.stop()[0] == 0
        assert "breaks no rule" in daemon.ask(*words)
        with open(f"{daemon.folder}/first.kdjl", "r+b") as it:
            it.seek(30)
            it.write(b"spoiled")
        said = subprocess.run([f"{daemon.binaries}/kfsctl", *words], check=False, capture_output=True, text=True)
        assert said.returncode == 1 and "doesn't open a copy" in said.stderr, said
        assert not [name for name in os.listdir(tempfile.gettempdir()) if name.startswith("kfsctl-")]


def a_copy_has_a_folder_of_its_own(made):
    """Nobody stands in the way of a copy by folders with the names of processes. Its folder is its owner's alone, and goes. A fifo isn't waited for."""
    with pretender(Daemon(*made), READY + "sys.stdin.buffer.read()").start() as daemon:
        room, program = f"{daemon.room}/tmp", f"{daemon.room}/looking"
        os.mkdir(room)
        last = subprocess.Popen(["true"])
        last.wait()
        for process in range(last.pid, last.pid + 2000):
            os.mkdir(f"{room}/kfsctl-{process}")
        before = set(os.listdir(room))
        with open(program, "w", encoding="ascii") as it:
            it.write(f"#!{sys.executable}\nimport os, sys\nassert os.path.dirname(sys.argv[2]) == {room!r} and os.stat(sys.argv[2]).st_mode & 0o777 == 0o700\n")
        os.chmod(program, 0o755)
        words = [f"{daemon.binaries}/kfsctl", "fsck", "--folder", daemon.folder, "--program", program]
        environment = {**os.environ, "TMPDIR": room}
        said = subprocess.run(words, check=False, capture_output=True, text=True, env=environment)
        assert said.returncode == 0 and "breaks no rule" in said.stdout, said
        os.rename(f"{daemon.folder}/second.kdjl", f"{daemon.room}/second.kdjl")
        os.mkfifo(f"{daemon.folder}/second.kdjl")
        said = subprocess.run(words, check=False, capture_output=True, text=True, env=environment, timeout=20)
        assert said.returncode == 1 and "second.kdjl isn't a regular file" in said.stderr, said
        assert set(os.listdir(room)) == before


def man_pages_are_whole(made):
    """The man page has each name of the example and each command, and groff finds nothing wrong."""
    folder = f"{TOP}/hosts/kfsd"
    with open(f"{folder}/kfsd.8", encoding="ascii") as page, open(f"{folder}/kfsd.toml", "rb") as example:
        text, known = page.read(), tomllib.load(example)
    tables = [known, known["limits"], known["duties"], *known["user"]]
    names = {name for table in tables for name in table} - {"limits", "duties", "user"}
    assert len(names) > 20
    missing = [name for name in sorted(names) if not re.search(rf"\b{name}\b", text)]
    assert not missing, missing
    with open(f"{folder}/kfsctl.1", encoding="ascii") as page:
        text = page.read()
    said = subprocess.run([f"{made[0]}/kfsctl", "--help"], check=True, capture_output=True, text=True).stdout
    commands = re.findall(r"^  ([a-z]+) ", said.partition("Commands:")[2].partition("Options:")[0], re.MULTILINE)
    assert set(commands) >= {"status", "users", "leases", "watch"}, commands
    assert all(f".B {command}\n" in text for command in commands if command != "help"), commands
    if shutil.which("groff"):
        for page in ("kfsd.8", "kfsctl.1"):
            wrong = subprocess.run(["groff", "-man", "-ww", "-Tutf8", "-z", f"{folder}/{page}"], check=True, capture_output=True).stderr
            assert not wrong, wrong


TESTS = [man_pages_are_whole, a_copy_is_looked_at, a_copy_has_a_folder_of_its_own, figures_are_told, figures_are_asked_of_this_machine, who_asks_nothing_holds_nobody_up, figures_stay_on_this_machine, kfsctl_prints]

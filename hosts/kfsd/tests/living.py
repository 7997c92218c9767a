"""Start, stop, other users, and faults of kfs_serve."""
import os
import shutil
import signal
import socket
import stat
import subprocess
import tomllib

from running import READY, TOP, Daemon, Gone, frame, lease, pretender, user


def stops_cleanly(made):
    """SIGTERM with calls under way: each has its reply, and what was answered is kept. Nothing is left but the files."""
    with Daemon(*made).start() as daemon:
        connections = [daemon.connect(client) for client in (7, 8, 9)]
        for it in connections:
            it.socket.sendall(b"".join(frame(at, it.client, lease(it.client, 10 + at)) for at in range(60)))
        process = daemon.status()["kfs_serve"]["process"]
        status, time_taken = daemon.stop()
        assert status == 0 and time_taken < 10, (status, time_taken)
        answered = []
        for it in connections:
            try:
                while True:
                    reply = it.reply()
                    assert reply.answer, reply
                    answered.append(lease(it.client, 10 + reply.number))
            except Gone:
                pass
        kept = daemon.kept()
        assert sorted(kept) == sorted(answered), (len(kept), len(answered))
        assert not os.path.exists(f"/proc/{process}")
        assert not os.path.exists(f"{daemon.room}/socket") and not os.path.exists(f"{daemon.room}/control")


def stops_in_time(made):
    """A connection that never reads doesn't hold up a stop for longer than is stated."""
    with Daemon(*made, stop_seconds=2, reply_seconds=60).start() as daemon:
        hanging = daemon.connect(7)
        hanging.socket.settimeout(0.3)
        try:
            while True:
                hanging.socket.send(frame(1, 8, lease(7, 10)) * 100)
        except TimeoutError:
            pass
        status, time_taken = daemon.stop()
        assert status == 0 and time_taken < 8, (status, time_taken)


def sockets_are_guarded(made):
    """Everybody may connect, and the administrator alone asks for the state. A socket that was left is no obstacle."""
    with Daemon(*made).start() as daemon:
        assert stat.S_IMODE(os.stat(f"{daemon.room}/socket").st_mode) == 0o666
        assert stat.S_IMODE(os.stat(f"{daemon.room}/control").st_mode) == 0o600
        os.chmod(f"{daemon.room}/control", 0o666)
        it = daemon.stranger(1000)
        it.close()
        own = os.geteuid()
        os.seteuid(1000)
        try:
            asked = socket.socket(socket.AF_UNIX)
            asked.connect(f"{daemon.room}/control")
        finally:
            os.seteuid(own)
        assert asked.recv(100) == b"# not allowed\n"
        daemon.process.kill()
        daemon.process.wait()
        assert os.path.exists(f"{daemon.room}/socket")
        daemon.start()
        assert daemon.connect(7).ask(1, b"").refusal == ("BadField", 0)


def one_daemon_a_folder(made):
    """A second daemon for the same folder waits, and gives up."""
    with Daemon(*made, stop_seconds=1).start() as daemon:
        first = daemon.process
        daemon.begin()
        assert daemon.ended() == 1 and "another kfsd has it" in daemon.said()
        daemon.process = first
        assert daemon.connect(7).ask(1, lease(7, 10)).answer


def runs_without_privilege(made):
    """As a user of its own it serves other users, and that user may ask for its state."""
    with Daemon(*made) as daemon:
        daemon.runs_as, daemon.binaries = 65534, daemon.room
        for name in ("kfsd", "kfsctl"):
            shutil.copy(f"{made[0]}/{name}", daemon.room)
        shutil.copy(daemon.program, f"{daemon.room}/kfs_serve")
        daemon.program = f"{daemon.room}/kfs_serve"
        for path in (daemon.room, daemon.folder):
            os.chown(path, 65534, 65534)
        daemon.start()
        assert daemon.connect(7).ask(1, lease(7, 10)).answer
        asked = subprocess.run([f"{daemon.room}/kfsctl", "--control", f"{daemon.room}/control", "status"], check=True, capture_output=True, user=65534, group=65534)
        assert b"[kfs_serve]" in asked.stdout
        assert daemon.stop()[0] == 0


def reload(daemon):
    """Has the configuration read anew."""

    def count():
        return daemon.said().count("configuration is read anew") + daemon.said().count("configuration stays as it is")

    before = count()
    daemon.put_config()
    daemon.process.send_signal(signal.SIGHUP)
    daemon.wait_for(lambda: count() > before)


def the_example_is_right(made):
    """The example of a configuration is one, and says what else is taken."""
    with open(f"{TOP}/hosts/kfsd/kfsd.toml", encoding="utf-8") as it:
        text = it.read()
    example = tomllib.loads(text)
    with Daemon(*made) as daemon:
        daemon.users, daemon.tiers, daemon.limits, daemon.duties = (example[it] for it in ("user", "tiers", "limits", "duties"))
        daemon.start()
        assert daemon.connect(7).ask(1, lease(7, 10)).answer
        shown = daemon.status()["user"][0]
        assert daemon.stop()[0] == 0
        daemon.limits, daemon.duties = {}, {}
        daemon.start()
        assert daemon.connect(7).ask(1, lease(7, 10)).answer
        assert daemon.status()["user"][0] == shown


def users_are_read_anew(made):
    """SIGHUP: who is left out is out at once, others go on, and who can be no client is kept out."""
    with Daemon(*made).start() as daemon:
        seven, eight = daemon.connect(7), daemon.connect(8)
        assert seven.ask(1, lease(7, 10)).answer and eight.ask(1, lease(8, 10)).answer
        whole = daemon.users
        daemon.users = [it for it in whole if it["client"] != 8]
        reload(daemon)
        assert eight.is_ended()
        assert daemon.stranger(1001).reply().refusal == ("Unlisted", 0)
        assert seven.ask(2, lease(7, 11)).answer
        daemon.users = [*whole, user(1003, 10, (1, 5))]
        reload(daemon)
        assert daemon.connect(8).ask(1, lease(8, 11)).answer
        assert daemon.connect(10).reply().refusal == ("NoClient", 0)
        assert "user 1003 is kept out" in daemon.said() and "1003       10 is kept out" in daemon.ask("users")
        daemon.users = [*whole, whole[0]]
        reload(daemon)
        assert "user 1000 is there twice" in daemon.said()
        assert seven.ask(3, lease(7, 12)).answer


def wrong_configurations(made):
    """A configuration that is wrong ends it with status 1, and its words with status 2."""
    with Daemon(*made, frame_bytes=1 << 25) as daemon:
        daemon.begin()
        assert daemon.ended() == 1 and "frame_bytes" in daemon.said()
    with Daemon(*made, connections_a_user=1 << 30) as daemon:
        daemon.begin()
        assert daemon.ended() == 1 and "files may be open" in daemon.said()
    with Daemon(*made, users=[user(1, 7), user(2, 7)]) as daemon:
        daemon.begin()
        assert daemon.ended() == 1 and "client 7 is there twice" in daemon.said()
    with Daemon(made[0], "/nowhere/kfs_serve") as daemon:
        daemon.begin()
        assert daemon.ended() == 1 and "can't be run" in daemon.said()
    with Daemon(*made, users=[user(1, 7, (0, 0))]) as daemon:
        daemon.begin()
        assert daemon.ended() == 1 and "user 1: its grant begins at 0" in daemon.said()
        assert os.listdir(daemon.folder) and "first.kdjl" not in os.listdir(daemon.folder)
    with Daemon(*made, users=[user(1, 7, (2, 9)), user(2, 8, (9, 10))]) as daemon:
        daemon.begin()
        assert daemon.ended() == 1 and "user 2: its grant has numbers of client 7" in daemon.said()
    with Daemon(*made, tiers=(64, 64, 65537)) as daemon:
        daemon.begin()
        assert daemon.ended() == 1 and "tier 2 has 65537 blocks" in daemon.said()


def files_that_failed_end_it(made):
    """Where kfs_serve says that its files have failed, kfsd tells its clients and ends: a new start might read what isn't there."""
    with pretender(Daemon(*made), READY + "sys.stdin.buffer.read(12); sys.exit(3)").start() as daemon:
        seven = daemon.connect(7)
        seven.send(1, lease(7, 10))
        assert seven.reply().refusal == ("Unknown", 0) and seven.is_ended()
        assert daemon.ended() == 3 and "have failed" in daemon.said()


def a_desk_that_never_opens_ends_it(made):
    """Five processes that end before they have begun, one after another, are enough."""
    with pretender(Daemon(*made), "open(sys.argv[2] + '/begun', 'a').write('x'); sys.exit(4)") as daemon:
        daemon.begin()
        assert daemon.ended() == 4 and "one after another" in daemon.said()
        assert os.path.getsize(f"{daemon.folder}/begun") == 5


def a_desk_that_talks_nonsense_is_replaced(made):
    """A reply to another frame, or one that is too long, ends the process; who waits is told that nobody knows."""
    for answer in ('struct.pack(">II", 1, 77) + b"x"', 'struct.pack(">II", 1 << 30, 0)', 'b"\\0\\0"'):
        script = READY + f"sys.stdin.buffer.read(29); sys.stdout.buffer.write({answer}); sys.stdout.flush(); os.close(1) if {len(answer) < 12} else sys.stdin.buffer.read()"
        with pretender(Daemon(*made), script).start() as daemon:
            seven = daemon.connect(7)
            assert seven.ask(5, lease(7, 10)).refusal == ("Unknown", 0)
            daemon.wait_for(lambda: daemon.status()["kfs_serve"]["starts"] == 2)
            assert daemon.status()["frames"]["unknown"] == 1


def a_desk_that_hangs_is_killed_at_the_end(made):
    """A process that never ends is killed when the stop's time is over, and the status says so."""
    with pretender(Daemon(*made, stop_seconds=1), READY + "time.sleep(1000)").start() as daemon:
        seven = daemon.connect(7)
        seven.send(1, lease(7, 10))
        status, time_taken = daemon.stop()
        assert status == 4 and time_taken < 10, (status, time_taken)


def stops_before_it_is_open(made):
    """A stop is heard while kfs_serve opens its files, too."""
    with pretender(Daemon(*made, stop_seconds=1), "open(sys.argv[2] + '/begun', 'w').close(); time.sleep(1000)") as daemon:
        daemon.begin()
        daemon.wait_for(lambda: os.path.exists(f"{daemon.folder}/begun"))
        status, time_taken = daemon.stop()
        assert status == 4 and time_taken < 10, (status, time_taken)


TESTS = [
    runs_without_privilege, stops_cleanly, stops_in_time, sockets_are_guarded, one_daemon_a_folder, the_example_is_right, users_are_read_anew, wrong_configurations,
    files_that_failed_end_it, a_desk_that_never_opens_ends_it, a_desk_that_talks_nonsense_is_replaced, a_desk_that_hangs_is_killed_at_the_end,
    stops_before_it_is_open,
]

"""New clients of a desk that is there: by SIGHUP and at a start, beside others' calls, and under kills."""
import contextlib
import os
import random
import signal
import struct
import subprocess
import sys
import time

import stand_in
from killing import USERS, Shared
from living import reload
from loading import submit
from numbering import WINDOW, Numbering
from replaying import Numbered, pairs_in
from running import HERE, Daemon, Gone, children_of, lease, numbered, user

from benchmarks import NameRow, plan_of
from fuzzing.codec import FILE, Create, Header, Log, NodeRow, encode_log

YES, LEASED, DROPPED = 1, 4, 5
NO_CLIENT = ("NoClient", 0)
FOR_EVER, ROOT = 1 << 62, 1
# New users have grants behind those of others.
FIRST, EACH = 1000, 10
ADMISSIONS, KILLS = 12, 30

WRAPPER = """#!{python}
import sys
sys.path.insert(0, {here!r})
import stand_in
stand_in.run({program!r}, {history!r}, {is_needed}, sys.argv[1:])
"""


def takes_clients(program):
    """Whether a kfs_serve takes new clients: another one doesn't know the word."""
    words = [program, "open", "/nowhere", "1", "--clients", "/nowhere/clients"]
    return subprocess.run(words, stdin=subprocess.DEVNULL, capture_output=True, check=False).returncode != 2


def put_program(daemon, text):
    """Has the daemon run a script."""
    with open(f"{daemon.room}/kfs_serve", "w", encoding="utf-8") as it:
        it.write(text)
    os.chmod(f"{daemon.room}/kfs_serve", 0o755)
    daemon.program = f"{daemon.room}/kfs_serve"
    return daemon


def with_admission(daemon):
    """Has it run a kfs_serve that takes new clients, its own where that does, and keep copies of the files at each start."""
    is_needed = not takes_clients(daemon.program)
    if is_needed:
        print("    this kfs_serve takes no new clients: a stand-in does", flush=True)
    daemon.history = f"{daemon.room}/history"
    os.mkdir(daemon.history)
    return put_program(daemon, WRAPPER.format(python=sys.executable, here=HERE, program=daemon.program, history=daemon.history, is_needed=is_needed))


def new_user(at):
    """A user with room for some files."""
    return user(5000 + at, 100 + at, (FIRST + EACH * at, FIRST + EACH * at + EACH - 1))


def drop(client, node=9999):
    """The call that gives a lease up. Where there is none it is refused, and kept all the same."""
    return struct.pack(">BII", 3, client, node)


def create(it, name, number):
    """The call that creates a file in the root."""
    rows = [NodeRow(number, Header(FILE, 0o644, it["uid"], it["gid"], 1, 0))]
    log = encode_log(Log(1, it["client"], [Create(ROOT, name, number, FILE, 0o644)]))
    return submit(it["client"], log, plan_of([NameRow(ROOT, name, number)], rows))


def who(connection):
    """What a connection is told first that asks who it is: a welcome, or why it isn't served."""
    connection.send(0, b"\xf0")
    number, said = connection.next()
    assert number == 0
    return said


def connect_when_admitted(daemon, client):
    """A connection of a user, once it is a client."""
    end = time.monotonic() + daemon.patience
    while time.monotonic() < end:
        with contextlib.suppress(OSError, Gone):
            connection = daemon.connect(client)
            if who(connection)[0] == 0xF0:
                return connection
        time.sleep(0.02)
    raise AssertionError(f"client {client} isn't let in")


def create_one(daemon, it):
    """Has a new user create a file, over as many connections as it takes, each call under a number. Returns how often it asked again."""
    client, number = it["client"], it["grant"][0]
    calls = [(lease(client, FOR_EVER, writes=True), LEASED), (create(it, b"of%d" % client, number), YES), (drop(client, ROOT), DROPPED)]
    return sum(asked_again(daemon, client, own, call, due) for own, (call, due) in enumerate(calls))


def asked_again(daemon, client, own, call, due):
    """Hands a numbered call in until it is answered, which has to be so. Returns how often it was handed in again."""
    for count in range(1000):
        with contextlib.suppress(OSError, Gone):
            reply = connect_when_admitted(daemon, client).ask(1, numbered(own, call))
            if reply.answer is not None:
                assert reply.answer[4] == due, (client, own, reply)
                return count
            time.sleep(0.02)
    raise AssertionError("no answer comes")


def journals_in(daemon):
    """The calls with their answers of each journal that there was, by its number: those of the copy that has most."""
    found = {}
    places = [daemon.folder, *(f"{daemon.history}/{name}" for name in os.listdir(daemon.history))]
    for place in places:
        for name in ("first.kdjl", "second.kdjl"):
            if os.path.exists(f"{place}/{name}"):
                number, calls = journal_in(f"{place}/{name}")
                if number is not None and len(calls) >= len(found.get(number, [])):
                    found[number] = calls
    assert sorted(found) == list(range(len(found))), sorted(found)
    return [found[number] for number in sorted(found)]


def journal_in(path):
    """The number of a journal, and its calls with their answers; None where its head isn't whole."""
    with open(path, "rb") as it:
        data = it.read()
    if data[:4] != b"KDJL" or data[12:13] != b"\1":
        return None, []
    at, calls = 21 + int.from_bytes(data[13:21], "big"), []
    while len(data) >= at + 5 and data[at] == 1:
        end = at + 5 + int.from_bytes(data[at + 1 : at + 5], "big")
        if end > len(data):
            break
        calls += pairs_in(data[at + 5 : end])
        at = end
    return int.from_bytes(data[4:12], "big"), calls


class Busy(Numbering):
    """One that goes on for as long as a test takes."""

    most = 1 << 30

    def calls(self):
        # so few that the journal isn't begun anew twice between two starts
        time.sleep(0.05)
        again, self.again = self.again, []
        fresh = [numbered(self.next_end + at, drop(self.client)) for at in range(WINDOW - len(again))]
        self.next_end += len(fresh)
        return again + fresh


class Load:
    """Users that make numbered calls while a test does its work. At the end each answered call was made, and none twice."""

    def __init__(self, daemon):
        self.daemon, self.clients = daemon, [Busy(daemon, it["client"]) for it in USERS]

    def __enter__(self):
        for it in self.clients:
            it.thread.start()
        return self

    def __exit__(self, *_):
        for it in self.clients:
            it.is_over.set()
        for it in self.clients:
            it.thread.join()

    def compare(self):
        """Looks into all journals that there were. Returns how many calls were answered, and how many journals there are."""
        faults = [it.fault for it in self.clients if it.fault]
        assert not faults, faults[0]
        made, journals = Numbered(), journals_in(self.daemon)
        for calls in journals:
            for call, answer in calls:
                made.next(call, answer)
        answered = [(it.client, int.from_bytes(call[1:9], "big")) for it in self.clients for call in it.answered]
        lost = [key for key in answered if key not in made.made]
        assert not lost, f"{len(lost)} answered calls are lost, {lost[0]} first"
        return len(answered), len(journals)


def listed(daemon):
    """The numbers of the clients in the file `clients`, which has to have those of the desk's state."""
    with open(f"{daemon.folder}/clients", encoding="ascii") as it:
        found = [int(line.split(" ")[1]) for line in it.read().splitlines()]
    rows = stand_in.rows_in(stand_in.counting(daemon.folder)[1])
    assert [int.from_bytes(row[:4], "big") for row in rows] == found
    return found


def a_new_user_is_let_in(made):
    """By SIGHUP, with groups, beside a connection that stays; and by a new start. The desk has it from then on, also where it isn't listed."""
    with with_admission(Shared(*made)) as daemon:
        daemon.start()
        seven = daemon.connect(7)
        assert seven.ask(1, drop(7)).answer
        first, second = new_user(0) | {"groups": [60, 50]}, new_user(1)
        daemon.users.append(first)
        reload(daemon)
        assert create_one(daemon, first) == 0
        assert seven.ask(2, drop(7)).answer, "a connection that was there doesn't go on"
        assert daemon.status()["kfs_serve"]["starts"] == 2 and "kept out" not in daemon.ask("users")
        assert daemon.stop()[0] == 0
        daemon.users[-1] = second
        # the two files have the clients
        os.remove(f"{daemon.folder}/clients")
        daemon.start()
        assert create_one(daemon, second) == 0
        assert daemon.stranger(5000, 100).reply().refusal == ("Unlisted", 0)
        daemon.users.append(first)
        reload(daemon)
        assert who(daemon.connect(100))[0] == 0xF0, "it was a client before"
        assert daemon.status()["kfs_serve"]["starts"] == 1, "nobody is new"
        assert daemon.stop()[0] == 0
        assert listed(daemon) == [7, 8, 9, 100, 101]


def those_who_cannot_be_are_told_apart(made):
    """Of several new users those are let in that can be. Of each other one the log says why not, and kfs_serve isn't started for it."""
    with with_admission(Shared(*made)) as daemon:
        daemon.start()
        right, other = new_user(0), user(1003, 7)
        overlapping, outside = user(1004, 201, (295, 305)), user(1005, 202, (0, 5))
        daemon.users += [right, overlapping, outside]
        reload(daemon)
        assert create_one(daemon, right) == 0
        for it, why in ((overlapping, "numbers of client 9"), (outside, "begins at 0")):
            assert daemon.connect(it["client"]).reply().refusal == NO_CLIENT and why in daemon.said()
        starts = daemon.status()["kfs_serve"]["starts"]
        daemon.users[0] = other
        reload(daemon)
        assert "client 7 of the desk is another" in daemon.said()
        assert daemon.stranger(1003, 7).reply().refusal == NO_CLIENT
        assert daemon.status()["kfs_serve"]["starts"] == starts


def a_program_that_is_there(made):
    """The kfs_serve of this run, with nothing before it: it takes a new user, or kfsd says that it can't, and all else goes on."""
    with Shared(*made).start() as daemon:
        seven, it = daemon.connect(7), new_user(0)
        daemon.users.append(it)
        reload(daemon)
        if takes_clients(made[1]):
            assert create_one(daemon, it) == 0 and listed(daemon) == [7, 8, 9, 100]
        else:
            daemon.wait_for(lambda: "this kfs_serve takes no new clients" in daemon.said())
            assert daemon.connect(100).reply().refusal == NO_CLIENT and listed(daemon) == [7, 8, 9]
        assert seven.ask(1, drop(7)).answer and daemon.stop()[0] == 0


def refused(daemon, program, words):
    """Has the program end so where it is to take new clients."""
    return put_program(daemon, f'#!/bin/sh\ncase "$*" in *--clients*) echo x >> {daemon.room}/tried; {words};; esac\nexec {program} "$@"\n')


def tried(daemon):
    """How often it was to take new clients."""
    return os.path.getsize(f"{daemon.room}/tried") // 2 if os.path.exists(f"{daemon.room}/tried") else 0


def a_refusal_changes_nothing(made):
    """Where kfs_serve refuses the clients, doesn't know the word, or ends again and again: the desk goes on with those that it has."""
    for words, times, why in (("exit 1", 1, "doesn't take it"), ("exit 2", 1, "takes no new clients"), ("exit 4", 3, "doesn't take it"), ("kill -9 $$", 3, "doesn't take it")):
        with refused(Daemon(*made), made[1], words).start() as daemon:
            seven = daemon.connect(7)
            assert seven.ask(1, lease(7, 10)).answer
            before = listed(daemon)
            daemon.users.append(new_user(0))
            reload(daemon)
            daemon.wait_for(lambda: "user 5000 is kept out" in daemon.said() and why in daemon.said())
            assert seven.ask(2, lease(7, 11)).answer
            assert daemon.connect(100).reply().refusal == NO_CLIENT
            assert tried(daemon) == times, (words, tried(daemon))
            assert listed(daemon) == before
            # a file that is read anew may be another one; the word isn't learnt meanwhile
            reload(daemon)
            assert seven.ask(3, lease(7, 12)).answer
            daemon.wait_for(lambda: tried(daemon) == (1 if words == "exit 2" else 2 * times))
            assert seven.ask(4, lease(7, 13)).answer
            assert daemon.stop()[0] == 0
            daemon.start()
            assert daemon.connect(7).ask(5, lease(7, 14)).answer and daemon.connect(100).reply().refusal == NO_CLIENT
            assert daemon.stop()[0] == 0
        print(f"    {words}: tried {times} times, and all went on", flush=True)


def new_users_beside_load(made):
    """12 users become clients one after another while 8 others make numbered calls. None of these ends, is lost or made twice."""
    with with_admission(Shared(*made, users=USERS)) as daemon:
        daemon.start()
        with Load(daemon) as load:
            for at in range(ADMISSIONS):
                it = new_user(at)
                daemon.users.append(it)
                with daemon.lock:
                    reload(daemon)
                    create_one(daemon, it)
        assert all(it.gone == 0 and it.unknown == 0 for it in load.clients), "a connection ended, or a call was lost"
        assert daemon.status()["kfs_serve"]["starts"] == 1 + ADMISSIONS
        assert daemon.stop()[0] == 0
        answered, journals = load.compare()
        print(f"    {answered} numbered calls of others were answered meanwhile, each made once; {journals} journals")


def told(daemon):
    """How often kfsd has said that there is a new client."""
    return daemon.said().count("new in the desk")


def is_started_with_clients(daemon):
    """Whether there is a process that takes new clients, or has taken them."""
    with contextlib.suppress(OSError), open(f"/proc/{daemon.status()['kfs_serve']['process']}/cmdline", "rb") as it:
        return b"--clients" in it.read()
    return False


def kill_one(daemon, chance):
    """Kills kfsd, or all that it has started, at once. Returns which."""
    if chance.random() < 0.4:
        daemon.process.kill()
        daemon.process.wait()
        daemon.start()
        return "kfsd"
    for held in children_of(daemon.process.pid):
        try:
            signal.pidfd_send_signal(held, signal.SIGKILL)
        except ProcessLookupError:
            pass
        os.close(held)
    return "kfs_serve"


def new_users_under_kills(made):
    """30 times a user becomes a client while kfsd or kfs_serve is killed at a random moment of it, beside 8 users with numbered calls.

    Every second time the moment is behind the start of a process that takes new clients.
    """
    chance, killed, within = random.Random(KILLS), {"kfsd": 0, "kfs_serve": 0}, 0
    with with_admission(Shared(*made, users=USERS)) as daemon:
        daemon.start()
        with Load(daemon) as load:
            for at in range(KILLS):
                it = new_user(at)
                daemon.users.append(it)
                with daemon.lock:
                    before = told(daemon)
                    daemon.put_config()
                    daemon.process.send_signal(signal.SIGHUP)
                    if at % 2:
                        daemon.wait_for(lambda: is_started_with_clients(daemon))
                    time.sleep(chance.uniform(0, 0.1))
                    # kfsd hasn't heard of it, and it may be so or not
                    within += told(daemon) == before and is_started_with_clients(daemon)
                    killed[kill_one(daemon, chance)] += 1
                    create_one(daemon, it)
        assert daemon.stop()[0] == 0
        answered, journals = load.compare()
        assert len(listed(daemon)) == len(USERS) + KILLS
        daemon.start()
        for at in range(KILLS):
            it = new_user(at)
            found = daemon.connect(it["client"]).ask(1, numbered(1))
            assert found.answer[4] == YES, (it, found)
        assert within > 0, "no kill was between a start and its answer"
        print(f"    {killed['kfs_serve']} kills of kfs_serve and {killed['kfsd']} of kfsd, {within} of them while a process was about to take a new client; {answered} numbered calls of others were answered, each made once; {journals} journals")


TESTS = [a_program_that_is_there, a_new_user_is_let_in, those_who_cannot_be_are_told_apart, a_refusal_changes_nothing, new_users_beside_load, new_users_under_kills]

"""Kills in the middle. After each of them every answered call is found again, and none is there more often than it was sent."""
import collections
import itertools
import random
import struct
import threading
import time

from running import Daemon, Gone, frame, kept_in, lease, numbered, user

from benchmarks import files_made

USERS = [user(3000 + at, 20 + at) for at in range(8)]
WINDOW = 16
# So many calls of a client, with 27 bytes each in the journal, are kept there: it isn't begun anew below 2^20 bytes.
MOST = 3_400


class Client:
    """Sends calls that are each its own, in a thread, and sends those again of which nobody knows."""

    most = MOST

    def __init__(self, daemon, client):
        self.daemon, self.client, self.next_end = daemon, client, 1
        self.sent, self.answered, self.unknown, self.gone = [], [], 0, 0
        self.is_over = threading.Event()
        self.again, self.fault = [], None
        self.thread = threading.Thread(target=self.run)

    def calls(self):
        """The calls of the next burst: those to be sent again, and new ones."""
        again, self.again = self.again, []
        fresh = [lease(self.client, self.next_end + at) for at in range(WINDOW - len(again))]
        self.next_end += len(fresh)
        return again + fresh

    def run(self):
        try:
            while not self.is_over.is_set() and self.next_end < self.most:
                with self.daemon.lock:
                    connection = self.daemon.connect_or_none(self.client)
                if connection is None:
                    time.sleep(0.02)
                    continue
                self.talk(connection)
        except BaseException as fault:  # noqa: BLE001
            self.fault = fault

    def talk(self, connection):
        """Sends bursts until this ends, or the connection does."""
        while not self.is_over.is_set() and self.next_end < self.most:
            calls, place = self.calls(), 0
            self.sent += calls
            try:
                connection.socket.sendall(b"".join(frame(at, self.client, call) for at, call in enumerate(calls)))
                while place < len(calls):
                    self.take(calls, place, connection.reply())
                    place += 1
            except (Gone, OSError):
                self.gone += 1
                self.again += calls[place:]
                return
        connection.close()

    def take(self, calls, place, reply):
        assert reply.number == place, (reply, place)
        if reply.answer is not None:
            self.answered.append(calls[place])
            return
        assert reply.refusal in (("Unknown", 0), ("Stopping", 0)), reply
        self.unknown += 1
        self.again.append(calls[place])


class Shared(Daemon):
    """A daemon that threads connect to. Who holds the lock is the user of the process, so nobody else may act meanwhile."""

    lock = threading.Lock()

    def connect_or_none(self, client):
        try:
            return self.connect(client)
        except OSError:
            return None


def look(daemon, clients, known):
    """Looks whether what was answered up to a moment is kept, and each call as often as it was sent at most."""
    kept = daemon.kept()
    counts = collections.Counter(kept)
    lost = [call for call in known if not counts[call]]
    assert not lost, f"{len(lost)} answered calls are lost, {lost[0].hex()} first"
    sent = collections.Counter(call for it in clients for call in list(it.sent))
    assert not counts - sent, "a call was made more often than it was sent"
    return kept


def answered_by(clients):
    return [call for it in clients for call in list(it.answered)]


def run_with_kills(daemon, kills, kill, kind=Client, look_at=look):
    """Lets clients of a kind work while kfs_serve or kfsd is killed so often. Looks after each kill."""
    clients = [kind(daemon, it["client"]) for it in USERS]
    chance = random.Random(kills)
    for it in clients:
        it.thread.start()
    try:
        for _ in range(kills):
            time.sleep(chance.uniform(0.02, 0.2))
            known = answered_by(clients)
            with daemon.lock:
                kill()
                look_at(daemon, clients, known)
        time.sleep(0.1)
    finally:
        for it in clients:
            it.is_over.set()
        for it in clients:
            it.thread.join()
    faults = [it.fault for it in clients if it.fault]
    assert not faults, faults[0]
    return clients


def say(what, clients):
    answered, unknown = sum(len(it.answered) for it in clients), sum(it.unknown for it in clients)
    gone = sum(it.gone for it in clients)
    print(f"    {what}: {answered} answered calls were found again; {unknown} replies said that nobody knows, and {gone} connections ended")


def kfs_serve_killed(made):
    """kfs_serve is killed 12 times under load of 8 users. Their connections stay, and each call under way is told."""
    with Shared(*made, users=USERS).start() as daemon:
        clients = run_with_kills(daemon, 12, daemon.kill_desk)
        daemon.wait_for(lambda: daemon.status()["kfs_serve"]["starts"] == 13)
        assert all(it.gone == 0 for it in clients), "a connection ended"
        assert daemon.status()["frames"]["unknown"] == sum(it.unknown for it in clients)
        assert daemon.stop()[0] == 0
        look(daemon, clients, answered_by(clients))
        say("12 kills of kfs_serve", clients)


def kfsd_killed(made):
    """kfsd is killed 4 times under load, and started again at once."""
    with Shared(*made, users=USERS).start() as daemon:

        def kill():
            daemon.process.kill()
            daemon.process.wait()
            daemon.start()

        clients = run_with_kills(daemon, 4, kill)
        assert sum(it.gone for it in clients) > 0
        assert daemon.stop()[0] == 0
        look(daemon, clients, answered_by(clients))
        say("4 kills of kfsd", clients)


def submission(at):
    """The call that creates a file of a name and a number of its own in the root, for client 7."""
    log, plan = files_made([b"file%d" % at], 2 + at)
    return struct.pack(">BII", 1, 7, len(log)) + log + struct.pack(">I", len(plan)) + plan


def fill_journal(connection, is_over, wrong, number=None):
    """Sends long submissions that are refused, so that the journal is begun anew now and then; under numbers from one on, where it is given."""
    call = struct.pack(">BII", 1, connection.client, 60_000) + bytes(60_000) + bytes(4)
    for at in itertools.count(number or 0):
        if is_over.is_set():
            break
        reply = connection.ask(1, call if number is None else numbered(at, call))
        if reply.refusal != ("Unknown", 0) and reply.answer[4:5] != bytes([NO]):
            wrong.append(reply)


YES, NO, FILES = 1, 2, 200


def files_created_under_kills(made):
    """200 files are created while kfs_serve is killed 8 times and begins its journal anew. Each of them is there once."""
    with Shared(*made, users=[user(1000, 7, (2, 999)), user(1001, 8)]).start() as daemon:
        seven, is_over, wrong = daemon.connect(7), threading.Event(), []
        assert seven.ask(0, lease(7, 1 << 40, writes=True)).answer
        filling = threading.Thread(target=fill_journal, args=(daemon.connect(8), is_over, wrong))
        filling.start()
        unknown, landed = 0, 0
        for at in range(FILES):
            reply = seven.ask(at, submission(at))
            if reply.refusal == ("Unknown", 0):
                unknown += 1
                # asked again, its name and number are taken where it has landed
                reply = seven.ask(at, submission(at))
                landed += reply.answer[4] == NO
            else:
                assert reply.answer[4] == YES, (at, reply)
            if at % 25 == 12:
                daemon.kill_desk()
        is_over.set()
        filling.join()
        assert not wrong, wrong[0]
        assert daemon.status()["kfs_serve"]["starts"] == 9
        assert all(seven.ask(at, submission(at)).answer[4] == NO for at in range(FILES)), "a file isn't there"
        assert seven.ask(0, submission(FILES)).answer[4] == YES
        number, _ = kept_in(daemon.folder)
        assert number > 0, "no journal was begun anew"
        assert daemon.stop()[0] == 0
        print(f"    {unknown} submissions were answered Unknown, of which {landed} had landed; the journal was begun anew {number} times")


def a_restart_keeps_what_was_answered(made):
    """Stopped and started again, the desk stands as it was: another client's lease is in the way still."""
    with Daemon(*made).start() as daemon:
        assert daemon.connect(7).ask(1, lease(7, 100, writes=True)).answer[4] == 4
        assert daemon.stop()[0] == 0
        daemon.start()
        # 08: a call for leases is refused
        assert daemon.connect(8).ask(1, lease(8, 100, writes=True)).answer[4] == 8
        daemon.kill_desk()
        eight = daemon.connect(8)
        reply = eight.ask(2, lease(8, 100, writes=True))
        assert reply.refusal == ("Unknown", 0) or reply.answer[4] == 8, reply
        assert eight.ask(3, lease(8, 100, writes=True)).answer[4] == 8


TESTS = [kfs_serve_killed, kfsd_killed, files_created_under_kills, a_restart_keeps_what_was_answered]

"""Calls under numbers of their clients: handed in again they are answered as before, and made once."""
import collections
import random
import struct
import threading
import time

from killing import FILES, NO, USERS, WINDOW, YES, Client, Shared, fill_journal, run_with_kills, say, submission
from running import READY, Daemon, frame, kept_in, lease, numbered, pretender, user

AGAIN = b"\xff" * 4
UNDER_WAY, NOT_THERE, UNKNOWN = ("UnderWay", 0), ("NotThere", 0), ("Unknown", 0)
# As many outcomes of a client are told.
KEPT = 4096


def a_number_is_answered_once(made):
    """The same number again has the same answer, without a position, and no call is made. Each client has numbers of its own."""
    with Daemon(*made).start() as daemon:
        seven, eight = daemon.connect(7), daemon.connect(8)
        assert seven.ask(1, numbered(5)).refusal == NOT_THERE
        first = seven.ask(2, numbered(5, lease(7, 10)))
        assert first.answer[4:] == bytes.fromhex("0400000001")
        for again in (numbered(5, lease(7, 10)), numbered(5, lease(7, 999)), numbered(5)):
            assert daemon.connect(7).ask(3, again).answer == AGAIN + first.answer[4:]
        assert eight.ask(4, numbered(5)).refusal == NOT_THERE
        # refused by the desk is answered, too
        refused = eight.ask(5, numbered(5, lease(8, 0)))
        assert refused.answer[4] == 8 and eight.ask(6, numbered(5)).answer == AGAIN + refused.answer[4:]
        assert seven.ask(7, numbered((1 << 64) - 1, lease(7, 11))).answer
        assert daemon.kept() == [lease(7, 10), lease(8, 0), lease(7, 11)]


def what_is_no_call_has_no_number(made):
    """A call of another client, of the front, or none at all is refused, and its number is free."""
    with Daemon(*made).start() as daemon:
        seven = daemon.connect(7)
        before = daemon.status()["frames"]["sent"]
        for body in (lease(8, 10), struct.pack(">BQ", 4, 10), b"\xf0", b"\x63", numbered(1, lease(7, 10))):
            assert seven.ask(1, numbered(1, body)).refusal == ("NotYours", 0), body
        assert daemon.status()["frames"]["sent"] == before
        assert seven.ask(2, numbered(1, lease(7, 10) + b"x")).refusal == ("Trailing", 0)
        assert seven.ask(3, numbered(1, lease(7, 10)[:9])).refusal == ("BadField", 3)
        assert seven.ask(4, numbered(1)).refusal == NOT_THERE
        assert seven.ask(5, numbered(1, lease(7, 10))).answer[4] == 4
        assert daemon.kept() == [lease(7, 10)]


def one_under_way_is_told_so(made):
    """Where a call of this number isn't answered, another connection is told so; and when kfs_serve has ended, it is free."""
    with pretender(Daemon(*made, stop_seconds=1), READY + "time.sleep(1000)").start() as daemon:
        first, second = daemon.connect(7), daemon.connect(7)
        first.send(1, numbered(5, lease(7, 10)))
        daemon.wait_for(lambda: daemon.status()["frames"]["sent"] == 1)
        assert second.ask(1, numbered(5, lease(7, 10))).refusal == UNDER_WAY
        assert second.ask(2, numbered(5)).refusal == UNDER_WAY
        daemon.kill_desk()
        assert first.reply().refusal == UNKNOWN
        assert second.ask(3, numbered(5)).refusal == NOT_THERE


def the_oldest_are_forgotten(made):
    """Of a client 4,096 outcomes are told, also behind a new start."""
    with Daemon(*made, frames_a_connection=1000).start() as daemon:
        seven = daemon.connect(7)
        for first in range(0, KEPT + 3, 100):
            numbers = range(first, min(first + 100, KEPT + 3))
            seven.socket.sendall(b"".join(frame(at, 7, numbered(at, lease(7, 1000 + at))) for at in numbers))
            assert all(seven.reply().answer for _ in numbers)
        for is_new in (False, True):
            if is_new:
                assert daemon.stop()[0] == 0
                daemon.start()
                seven = daemon.connect(7)
            assert seven.ask(1, numbered(2)).refusal == NOT_THERE
            assert seven.ask(1, numbered(3)).answer and seven.ask(1, numbered(KEPT + 2)).answer


def outcomes_outlive_kfsd(made):
    """Killed right behind an answer, and while a call is at kfs_serve: the next kfsd knows by the journal."""
    with Daemon(*made).start() as daemon:
        for at in range(8):
            seven = daemon.connect(7)
            assert seven.ask(1, numbered(2 * at, lease(7, 1000 + at))).answer
            # nobody reads the answer to this one
            seven.send(2, numbered(2 * at + 1, lease(7, 2000 + at)))
            time.sleep(0.001 * at)
            daemon.process.kill()
            daemon.process.wait()
            daemon.start()
            seven = daemon.connect(7)
            assert seven.ask(1, numbered(2 * at)).answer[:4] == AGAIN
            assert seven.ask(2, numbered(2 * at + 1, lease(7, 2000 + at))).answer
        assert daemon.stop()[0] == 0
        counts = collections.Counter(daemon.kept())
        assert counts == {lease(7, end + at): 1 for end in (1000, 2000) for at in range(8)}, counts


class Numbering(Client):
    """Sends each call under a number of its own, which it keeps when it sends it again."""

    # with its marker a call has 76 bytes in the journal
    most = 1_500

    def calls(self):
        again, self.again = self.again, []
        fresh = [numbered(self.next_end + at, lease(self.client, self.next_end + at)) for at in range(WINDOW - len(again))]
        self.next_end += len(fresh)
        return again + fresh

    def take(self, calls, place, reply):
        if reply.refusal == UNDER_WAY:
            self.again.append(calls[place])
            return
        super().take(calls, place, reply)


def bare(calls):
    return [call[9:] for call in calls]


def each_is_made_once(daemon, clients):
    """Of the calls that were answered each is in the journal, once; and so is at most each one that was sent."""
    number, _ = kept_in(daemon.folder)
    assert number == 0, "the journal was begun anew, and has fewer calls"
    counts = collections.Counter(daemon.kept())
    assert max(counts.values()) == 1, "a numbered call was made twice"
    answered = [call for it in clients for call in bare(it.answered)]
    assert all(counts[call] == 1 for call in answered), "an answered call is lost"
    sent = {call for it in clients for call in bare(it.sent)}
    assert set(counts) <= sent


def numbered_under_kills_of_kfs_serve(made):
    """kfs_serve is killed 12 times under load. Each call is sent again until it is answered, and made once."""
    with Shared(*made, users=USERS).start() as daemon:
        clients = run_with_kills(daemon, 12, daemon.kill_desk, Numbering, lambda *_: None)
        assert daemon.stop()[0] == 0
        each_is_made_once(daemon, clients)
        say("12 kills of kfs_serve, numbered", clients)


def numbered_under_kills_of_kfsd(made):
    """kfsd is killed 5 times under load, and kfs_serve now and then."""
    with Shared(*made, users=USERS).start() as daemon:

        def kill():
            daemon.process.kill()
            daemon.process.wait()
            daemon.start()
            if chance.random() < 0.5:
                daemon.kill_desk()

        chance = random.Random(5)
        clients = run_with_kills(daemon, 5, kill, Numbering, lambda *_: None)
        assert daemon.stop()[0] == 0
        each_is_made_once(daemon, clients)
        say("5 kills of kfsd, numbered", clients)


def asked_until_answered(daemon, number, call):
    """The answer to a numbered call of client 7, over as many connections as it takes; and how often it was asked for."""
    for count in range(1, 1000):
        try:
            reply = daemon.connect(7).ask(1, numbered(number, call))
        except OSError:
            time.sleep(0.02)
            continue
        if reply.answer is not None:
            return reply.answer, count
        assert reply.refusal in (UNKNOWN, UNDER_WAY, ("Stopping", 0)), reply
    raise AssertionError("no answer comes")


def files_created_once(made):
    """200 files are created while kfs_serve is killed 8 times and begins its journal anew: each is answered Yes, since none is done twice."""
    with Shared(*made, users=[user(1000, 7, (2, 999)), user(1001, 8)]).start() as daemon:
        assert daemon.connect(7).ask(0, lease(7, 1 << 40, writes=True)).answer
        is_over, wrong, again = threading.Event(), [], 0
        filling = threading.Thread(target=fill_journal, args=(daemon.connect(8), is_over, wrong, 900))
        filling.start()
        for at in range(FILES):
            answer, count = asked_until_answered(daemon, at, submission(at))
            assert answer[4] == YES, (at, answer, count)
            again += count > 1
            if at % 25 == 12:
                daemon.kill_desk()
        is_over.set()
        filling.join()
        assert not wrong, wrong[0]
        for at in range(FILES):
            assert daemon.connect(7).ask(1, numbered(at)).answer[4] == YES
            assert daemon.connect(7).ask(1, submission(at)).answer[4] == NO
        number, _ = kept_in(daemon.folder)
        assert number > 0, "no journal was begun anew"
        assert daemon.stop()[0] == 0
        print(f"    {again} files were asked for again, and each was created once; the journal was begun anew {number} times")


TESTS = [
    a_number_is_answered_once, what_is_no_call_has_no_number, one_under_way_is_told_so, the_oldest_are_forgotten, outcomes_outlive_kfsd, numbered_under_kills_of_kfs_serve,
    numbered_under_kills_of_kfsd, files_created_once,
]

"""Look-ups go through kfsd, and it asks some itself."""
import struct
import time

import frames
from killing import submission
from limiting import desk_stands_still, sent
from running import Daemon, frame, kept_in, lease, numbered, user

FOUND, REFUSED = 3, 2
NODE, STATE, CHECKPOINT = 0x40, 0x41, 0x42
NOT_YOURS = bytes([REFUSED, 5, 0, 0, 0, 0])
USERS = [user(1000, 7, (2, 999)), user(1001, 8)]


def said(connection, body):
    """What stands behind the head of the reply."""
    connection.send(3, body)
    number, found = connection.next()
    assert number == 3
    return found


def has_look_ups(daemon):
    """Whether this kfs_serve knows look-ups: an older one refuses them."""
    is_known = said(daemon.connect(7), struct.pack(">BI", NODE, 1))[0] == FOUND
    if not is_known:
        print("    this kfs_serve knows no look-ups: nothing is tried")
    return is_known


def look_ups_go_through(made):
    """A client is told of a node. What is the front's is refused by kfsd."""
    with Daemon(*made, users=USERS).start() as daemon:
        seven = daemon.connect(7)
        sent = daemon.status()["frames"]["sent"]
        for body in (bytes([STATE]), bytes([CHECKPOINT]), bytes([CHECKPOINT, 0])):
            assert said(seven, body) == NOT_YOURS
        assert daemon.status()["frames"]["sent"] == sent
        if not has_look_ups(daemon):
            return
        root = said(seven, struct.pack(">BI", NODE, 1))
        assert root == struct.pack(">BBBHIIHQ", FOUND, 1, 2, 0o777, 0, 0, 1, 0), root
        assert said(seven, struct.pack(">BI", NODE, 9)) == bytes([FOUND, 1, 0])


def kfsctl_asks_the_desk(made):
    """Free places and a checkpoint: behind it the journal has no calls, and all is there behind a kill. Numbered calls are known still."""
    with Daemon(*made, users=USERS, tiers=(64, 32, 16)).start() as daemon:
        if not has_look_ups(daemon):
            return
        seven = daemon.connect(7)
        assert seven.ask(0, lease(7, 1 << 40, writes=True)).answer
        for at in range(5):
            assert seven.ask(1, numbered(at, submission(at))).answer[4] == 1
        text = daemon.ask("free")
        assert "tier 0 has 64, tier 1 32, tier 2 16" in text and "rows of the docket: 11" in text, text
        for turn in range(1, 4):
            assert daemon.ask("checkpoint") == "the journal is begun anew\n"
            number, calls = kept_in(daemon.folder)
            assert number == turn and not calls
        assert daemon.status()["frames"]["own"] >= 3
        daemon.process.kill()
        daemon.process.wait()
        daemon.start()
        seven = daemon.connect(7)
        assert all(seven.ask(1, numbered(at)).answer[4] == 1 for at in range(5))
        assert seven.ask(1, submission(0)).answer[4] == 2
        assert "rows of the docket: 1" in daemon.ask("free")


def a_stop_begins_the_journal_anew(made):
    """With checkpoint_at_stop the next start has no call to make again, and all is as it was."""
    with Daemon(*made, users=USERS, duties={"checkpoint_at_stop": True}).start() as daemon:
        if not has_look_ups(daemon):
            assert daemon.stop()[0] == 0
            return
        seven = daemon.connect(7)
        assert seven.ask(0, lease(7, 1 << 40, writes=True)).answer
        assert seven.ask(1, numbered(1, submission(0))).answer[4] == 1
        time.sleep(1.1)
        assert daemon.stop()[0] == 0
        assert kept_in(daemon.folder) == (1, [])
        daemon.start()
        assert daemon.status()["desk"]["leases"] == 1
        seven = daemon.connect(7)
        assert seven.ask(1, numbered(1)).answer[4] == 1 and seven.ask(1, submission(0)).answer[4] == 2


def few_long_look_ups_are_sent(made):
    """Of 50 look-ups of many names 3 are at kfs_serve at once, and another user's isn't behind the others. Those that wait are dropped when nobody hears them."""
    with Daemon(*made, users=USERS).start() as daemon:
        seven, eight = daemon.connect(7), daemon.connect(8)
        with desk_stands_still(daemon):
            seven.socket.sendall(b"".join(frame(at, 7, frames.names(1, 65_536)) for at in range(50)))
            assert sent(daemon) == 3 and daemon.status()["kfs_serve"]["waiting_calls"] == 47
            eight.send(1, struct.pack(">BI", NODE, 1))
            assert sent(daemon) == 4
            seven.close()
            daemon.wait_for(lambda: daemon.status()["user"][0]["connections"] == 0)
        assert eight.next()[1][0] == FOUND
        assert sent(daemon) == 4 and daemon.status()["kfs_serve"]["waiting_calls"] == 0
        # who only writes no more hears what it has asked for
        half = daemon.connect(7)
        with desk_stands_still(daemon):
            half.socket.sendall(b"".join(frame(at, 7, frames.names(1, 65_536)) for at in range(50)))
            half.socket.shutdown(1)
            # those of an empty directory have turned out to cost less
            assert sent(daemon) > 7
        assert [half.next()[0] for _ in range(50)] == list(range(50)) and half.is_ended()


TESTS = [few_long_look_ups_are_sent, look_ups_go_through, kfsctl_asks_the_desk, a_stop_begins_the_journal_anew]

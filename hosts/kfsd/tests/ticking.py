"""The moment goes on by kfsd's clock, and leases end by it."""
import struct
import time

from running import Daemon, kept_in, lease

LEASED, REFUSED, SUBMIT_NO = 4, 8, 2
TOO_FAR, HELD, PAST = ("TooFar", 0), 7, 6
# A lease ends at a moment of whole seconds, and kfsd looks twice a second.
LATEST = 2.5


def asks(connection, end):
    """The tag of the answer to a wish for a lease to write on the root, and why it is refused."""
    answer = connection.ask(1, lease(connection.client, end, writes=True)).answer
    return answer[4], answer[5] if answer[4] == REFUSED else None


def until_granted(connection, end):
    """How long it takes until a lease is granted that another one has."""
    began = time.monotonic()
    while asks(connection, end)[0] != LEASED:
        assert time.monotonic() - began < 30, "the lease never ends"
        time.sleep(0.05)
    return time.monotonic() - began


def ticks_in(daemon):
    return [struct.unpack(">Q", call[1:])[0] for call in kept_in(daemon.folder)[1] if call[0] == 4]


def a_vanished_clients_lease_ends(made):
    """A client takes a lease for 3 seconds and vanishes. Another one has it behind the end, and not before."""
    with Daemon(*made, duties={"lease_seconds": 3600}).start() as daemon:
        seven, eight = daemon.connect(7), daemon.connect(8)
        now, longest = seven.moment()
        assert longest == 3600 and now < 10
        assert asks(seven, now + 3) == (LEASED, None)
        seven.close()
        assert asks(eight, now + 100) == (REFUSED, HELD)
        taken = until_granted(eight, now + 100)
        assert 1.5 < taken < 3 + LATEST, taken
        assert daemon.connect(9).moment()[0] >= now + 3
        ticks = ticks_in(daemon)
        assert len(ticks) == 1 and ticks[0] >= now + 3, ticks
        print(f"    a lease of 3 s was another's after {taken:.1f} s, by one tick")


def leases_are_limited(made):
    """A lease that would live for too long is refused by kfsd, and one that is over by the desk."""
    with Daemon(*made, duties={"lease_seconds": 100}).start() as daemon:
        seven = daemon.connect(7)
        now, _ = seven.moment()
        before = daemon.status()["frames"]["sent"]
        for end in (now + 102, 1 << 40, (1 << 64) - 1):
            assert seven.ask(1, lease(7, end)).refusal == TOO_FAR
        by_number = struct.pack(">BIBQI", 6, 7, 0, now + 102, 1)
        assert seven.ask(2, by_number).refusal == TOO_FAR
        assert daemon.status()["frames"]["sent"] == before
        assert seven.ask(3, lease(7, now + 100)).answer[4] == LEASED
        assert asks(seven, 0) == (REFUSED, PAST)


def the_moment_goes_on(made):
    """Behind a stop and behind kills of kfs_serve and of kfsd the moment isn't less than the last tick, and leases end."""
    with Daemon(*made, duties={"lease_seconds": 3600, "tick_seconds": 1}).start() as daemon:
        seven = daemon.connect(7)
        assert asks(seven, seven.moment()[0] + 600)[0] == LEASED
        daemon.wait_for(lambda: len(ticks_in(daemon)) >= 2)
        last = ticks_in(daemon)[-1]
        daemon.kill_desk()
        daemon.wait_for(lambda: daemon.status()["kfs_serve"]["is_open"])
        assert daemon.connect(7).moment()[0] >= last
        daemon.process.kill()
        daemon.process.wait()
        daemon.start()
        now = daemon.connect(8).moment()[0]
        assert last <= now <= last + 10, (last, now)
        time.sleep(1)
        assert daemon.stop()[0] == 0
        stopped = ticks_in(daemon)[-1]
        assert stopped > last
        daemon.start()
        now = daemon.connect(8).moment()[0]
        assert stopped <= now <= stopped + 5, (stopped, now)
        # the lease of before lives still, and ends
        seven, eight = daemon.connect(7), daemon.connect(8)
        assert asks(eight, now + 5) == (REFUSED, HELD)
        assert asks(seven, now + 2)[0] == LEASED
        assert until_granted(eight, now + 100) < 2 + LATEST
        ticks = ticks_in(daemon)
        assert ticks == sorted(ticks)


def a_desk_without_leases_rests(made):
    """Where no lease is live, nothing is written."""
    with Daemon(*made, duties={"tick_seconds": 1}).start() as daemon:
        seven = daemon.connect(7)
        assert seven.ask(1, lease(7, 1 << 40)).answer[4] == LEASED
        daemon.wait_for(lambda: ticks_in(daemon))
        assert seven.ask(2, struct.pack(">BII", 3, 7, 1)).answer[4] == 5
        count = len(ticks_in(daemon))
        time.sleep(2.5)
        assert len(ticks_in(daemon)) <= count + 1
        assert daemon.status()["frames"]["own"] >= count


TESTS = [a_vanished_clients_lease_ends, leases_are_limited, the_moment_goes_on, a_desk_without_leases_rests]

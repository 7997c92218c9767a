"""Leases that another client wants: who holds one is told, and it isn't renewed for ever."""
import struct
import threading
import time

from running import SOON, Daemon, lease, lease_by_path

LEASED, REFUSED, HELD = 4, 8, 7
# The kinds of news: a lease of the client that another one wants, and one for which it waits.
LEASE, FREE = 0, 2
WANTED = ("Wanted", 0)


def ask_for_wants(connection, behind=0):
    connection.send(9, b"\xf3" + struct.pack(">Q", behind))


def wants(connection):
    """The serial that a connection is told, and of each lease that is wanted who wants it, and the node."""
    serial, found = news(connection)
    assert all(kind == LEASE for _by, _node, kind in found), found
    return serial, [(by, node) for by, node, _kind in found]


def news(connection):
    """The serial that a connection is told, and of all that is new a client, the node, and the kind."""
    number, said = connection.next()
    assert number == 9 and said[0] == 0xF3, (number, said)
    serial, count = struct.unpack(">QH", said[1:11])
    assert len(said) == 11 + 10 * count
    return serial, [struct.unpack(">IIH", said[at : at + 10]) for at in range(11, len(said), 10)]


def is_held(reply):
    return reply.answer[4:6] == bytes([REFUSED, HELD])


def the_holder_is_told(made):
    """A connection that asks for wants is answered as soon as another client asks for the lease, by path or by number; and once."""
    with Daemon(*made).start() as daemon:
        seven, listening, eight = daemon.connect(7), daemon.connect(7), daemon.connect(8)
        assert seven.ask(1, lease(7, 1000, writes=True)).answer[4] == LEASED
        ask_for_wants(listening)
        time.sleep(0.2)
        began = time.monotonic()
        assert is_held(eight.ask(1, lease(8, 1000)))
        serial, found = wants(listening)
        assert found == [(8, 1)] and time.monotonic() - began < 1, found
        assert is_held(eight.ask(2, lease_by_path(8, 1000, writes=True)))
        ask_for_wants(listening)
        assert wants(listening) == (serial, [(8, 1)])
        # behind that serial nothing is new, until a lease is wanted that isn't yet
        ask_for_wants(listening, serial)
        listening.socket.settimeout(1)
        try:
            wants(listening)
            raise AssertionError("it is told twice")
        except TimeoutError:
            listening.socket.settimeout(30)
        assert seven.ask(2, struct.pack(">BII", 3, 7, 1)).answer[4] == 5
        assert eight.ask(3, lease(8, 1000, writes=True)).answer[4] == LEASED
        assert is_held(seven.ask(3, lease(7, 1000)))
        other = daemon.connect(8)
        ask_for_wants(other)
        assert wants(other)[1] == [(7, 1)]
        # a stop ends the waiting
        assert daemon.stop()[0] == 0
        assert wants(listening)[1] == []


def who_takes_a_lease_again_is_told_again(made):
    """A lease that is given up and taken again is another one: its holder is told once more that it is wanted. It is wanted since the first time."""
    with Daemon(*made, duties={"wanted_seconds": 3}).start() as daemon:
        seven, listening, eight = daemon.connect(7), daemon.connect(7), daemon.connect(8)
        assert seven.ask(1, lease(7, 1000, writes=True)).answer[4] == LEASED
        began = time.monotonic()
        assert is_held(eight.ask(1, lease(8, 1000)))
        ask_for_wants(listening)
        serial, found = wants(listening)
        assert found == [(8, 1)]
        assert seven.ask(2, struct.pack(">BII", 3, 7, 1)).answer[4] == 5
        # It is the other one's turn for a moment.
        while (told := seven.ask(3, lease(7, 1000, writes=True))).refusal == WANTED:
            assert time.monotonic() < began + SOON
        assert told.answer[4] == LEASED
        assert is_held(eight.ask(2, lease(8, 1000)))
        ask_for_wants(listening, serial)
        again, found = wants(listening)
        assert again > serial and found == [(8, 1)], (serial, again, found)
        while time.monotonic() - began < 3.2:
            assert is_held(eight.ask(3, lease(8, 1000)))
            time.sleep(0.1)
        assert seven.ask(4, lease(7, 1001, writes=True)).refusal == WANTED


def who_waits_is_let_in(made):
    """Who waits for a lease is told when it is given up. Who gave it up doesn't get it again before those who wait had time to ask."""
    with Daemon(*made).start() as daemon:
        seven, eight, listening = daemon.connect(7), daemon.connect(8), daemon.connect(8)
        assert seven.ask(1, lease(7, 1000, writes=True)).answer[4] == LEASED
        serial = 0
        for at in range(20):
            holder, other = ((7, seven), (8, eight))[:: 1 if at % 2 == 0 else -1]
            assert is_held(other[1].ask(1, lease(other[0], 1000, writes=True)))
            if holder[0] == 7:
                ask_for_wants(listening, serial)
            assert holder[1].ask(2, struct.pack(">BII", 3, holder[0], 1)).answer[4] == 5
            if holder[0] == 7:
                serial, found = news(listening)
                while (8, 1, FREE) not in found:
                    ask_for_wants(listening, serial)
                    serial, found = news(listening)
            told = holder[1].ask(3, lease(holder[0], 1000, writes=True))
            # A machine that stands still for so long gives it to either.
            if told.refusal == WANTED:
                assert other[1].ask(4, lease(other[0], 1000, writes=True)).answer[4] == LEASED
            else:
                assert holder[1].ask(5, struct.pack(">BII", 3, holder[0], 1)).answer[4] == 5
                while (told := other[1].ask(4, lease(other[0], 1000, writes=True))).refusal == WANTED:
                    time.sleep(0.01)
                assert told.answer[4] == LEASED


def a_wanted_lease_is_not_renewed(made):
    """Who holds a lease renews it without end, until another one has asked for it for 2 seconds. Then the other one gets it."""
    with Daemon(*made, duties={"wanted_seconds": 2}).start() as daemon:
        seven, eight = daemon.connect(7), daemon.connect(8)
        is_over, refused, wrong = threading.Event(), [], []

        def renew():
            while not is_over.is_set():
                reply = seven.ask(1, lease(7, seven.moment()[0] + 3, writes=True))
                if reply.refusal == WANTED:
                    refused.append(time.monotonic())
                elif reply.answer[4] not in (LEASED, REFUSED):
                    wrong.append(reply)
                time.sleep(0.02)

        renewing = threading.Thread(target=renew)
        renewing.start()
        try:
            time.sleep(1)
            assert not refused
            began = time.monotonic()
            while True:
                reply = eight.ask(1, lease_by_path(8, eight.moment()[0] + 100, writes=True))
                if reply.answer[4] == LEASED:
                    break
                assert time.monotonic() - began < 20, "the other one never gets it"
                time.sleep(0.05)
            taken = time.monotonic() - began
        finally:
            is_over.set()
            renewing.join()
        assert not wrong, wrong
        assert 1.9 < refused[0] - began < 3, refused[0] - began
        assert taken < 2 + 3 + 2.5, taken
        print(f"    a lease that is renewed without end was another's after {taken:.1f} s")


def a_want_that_is_given_up_is_over(made):
    """Where the other one doesn't ask any more, the lease is renewed as before."""
    with Daemon(*made, duties={"wanted_seconds": 1}).start() as daemon:
        seven, eight = daemon.connect(7), daemon.connect(8)
        assert seven.ask(1, lease(7, 1000, writes=True)).answer[4] == LEASED
        for _ in range(4):
            assert is_held(eight.ask(1, lease(8, 1000)))
            time.sleep(0.4)
        assert seven.ask(2, lease(7, 2000, writes=True)).refusal == WANTED
        assert seven.ask(2, lease_by_path(7, 2000, writes=True)).refusal == WANTED
        time.sleep(1.2)
        assert seven.ask(3, lease(7, 2000, writes=True)).answer[4] == LEASED
        assert is_held(eight.ask(2, lease(8, 1000)))
        assert seven.ask(4, lease(7, 2001, writes=True)).answer[4] == LEASED


TESTS = [the_holder_is_told, who_takes_a_lease_again_is_told_again, who_waits_is_let_in, a_wanted_lease_is_not_renewed, a_want_that_is_given_up_is_over]

"""Who may say what, and that each frame has its reply, in order."""
import contextlib
import random
import struct
import threading

from running import FRONT, HELLO, Daemon, frame, frames, lease, user

from killing import submission

LONGEST = 16_777_216
TICK = struct.pack(">BQ", 4, 10)


def a_client_is_named_by_the_kernel(made):
    """The client says hello, makes a call of its own, and is refused each one that isn't."""
    with Daemon(*made).start() as daemon, contextlib.closing(daemon.connect(7)) as seven:
        for sender in (7, 8, FRONT):
            seven.send(1, HELLO, sender)
            assert seven.next() == (1, struct.pack(">BIIIIIBH", 0xF0, 7, 2, 99, 1000, 1000, 0, 0))
        before = daemon.status()["frames"]["sent"]
        forged = [(8, lease(7, 10)), (8, lease(8, 10)), (7, lease(8, 10)), (FRONT, lease(7, 10)), (FRONT, TICK), (7, TICK), (8, HELLO + HELLO)]
        forged += [(7, bytes([tag]) + struct.pack(">I", 8)) for tag in (1, 2, 3, 6)]
        for number, (sender, body) in enumerate(forged):
            reply = seven.ask(number, body, sender)
            assert reply.refusal == ("NotYours", 0), (sender, body, reply)
        assert daemon.status()["frames"]["sent"] == before, "a forged frame was forwarded"
        reply = seven.ask(2, lease(7, 10))
        # row 0, a lease on node 1
        assert reply.answer == bytes.fromhex("000000000400000001"), reply
        assert seven.ask(3, b"\x63").refusal == ("BadField", 0)
        assert seven.ask(4, lease(7, 10) + b"x").refusal == ("Trailing", 0)
        assert daemon.stop()[0] == 0
        assert daemon.kept() == [lease(7, 10)]


def look_ups_are_answered(made):
    """A node is told of as the frames before left it, also within one read. The front's look-ups are no client's."""
    with Daemon(*made).start() as daemon:
        seven, eight = daemon.connect(7), daemon.connect(8)
        root = frames.NodeIs(frames.Header(kind=2, mode=0o777, uid=0, gid=0, links=1, size=0))
        assert seven.ask(1, frames.node(1)).answer == root
        assert eight.ask(1, frames.node(2)).answer == frames.NodeIs(None)
        for body in (frames.state(), frames.checkpoint()):
            assert seven.ask(2, body).refusal == ("NotYours", 0)
        for body in (frames.node(1) + b"x", frames.node(1)[:4]):
            assert seven.ask(3, body).refusal == ("BadField", 0), body
        # kfsd looks at the tag of what is the front's alone
        assert seven.ask(3, frames.state() + b"x").refusal == ("NotYours", 0)
        bodies = [lease(7, 1000, writes=True), frames.node(2), submission(0), frames.node(2), frames.node(1), submission(0), frames.node(2)]
        seven.socket.sendall(b"".join(frame(at, 7, body) for at, body in enumerate(bodies)))
        replies = [seven.reply() for _ in bodies]
        assert [it.number for it in replies] == list(range(len(bodies)))
        made_file = frames.NodeIs(frames.Header(kind=1, mode=0o644, uid=1000, gid=1000, links=1, size=0))
        found = [replies[at].answer for at in (1, 3, 4, 6)]
        assert found == [frames.NodeIs(None), made_file, root, made_file], replies
        assert seven.ask(4, frames.find(1, b"file0")).answer == frames.LeadsTo(2)
        assert seven.ask(5, frames.names(1, 1000)).answer == frames.NamesAre(False, [(b"file0", 2)])
        assert seven.ask(6, frames.read(2, 0, 1 << 20)).answer == frames.BytesAre(b"")
        assert seven.ask(7, frames.read(1, 0, 1)).answer == frames.Denied("IsDirectory")
        # 1: Yes. 2: No, since the name is taken
        assert [replies[2].answer[4], replies[5].answer[4]] == [1, 2], replies
        assert daemon.stop()[0] == 0


def a_stranger_is_refused(made):
    """An unlisted user is told so, and the connection ends. So is one who has too many connections."""
    with Daemon(*made, connections_a_user=3).start() as daemon:
        stranger = daemon.stranger(4242)
        assert stranger.reply() == (0, None, ("Unlisted", 0)) and stranger.is_ended()
        mine = [daemon.connect(7) for _ in range(3)]
        fourth = daemon.connect(7)
        assert fourth.reply() == (0, None, ("TooMany", 0)) and fourth.is_ended()
        assert daemon.connect(8).ask(1, b"").refusal == ("BadField", 0)
        for it in mine:
            assert it.ask(1, b"").refusal == ("BadField", 0)
            it.close()
        daemon.wait_for(lambda: daemon.status()["user"][0]["connections"] == 0)
        assert daemon.connect(7).ask(1, b"").refusal == ("BadField", 0)


def long_and_cut_frames(made):
    """A frame that is too long ends its connection, behind what came before it. One that is cut short is told so."""
    with Daemon(*made, frame_bytes=5000).start() as daemon:
        seven = daemon.connect(7)
        seven.send(1, bytes(5000))
        seven.send(2, lease(7, 10))
        seven.send(3, bytes(5001))
        replies = [seven.reply() for _ in range(3)]
        assert [it.number for it in replies] == [1, 2, 3]
        assert [it.refusal for it in replies[::2]] == [("BadField", 0), ("TooLong", 0)] and replies[1].answer
        assert seven.is_ended()
        # nothing of it need come
        for length in (5001, (1 << 32) - 1):
            other = daemon.connect(7)
            other.socket.sendall(struct.pack(">III", length, 5, 7))
            assert other.reply() == (5, None, ("TooLong", 0)) and other.is_ended()
        for length, count in ((100, 99), (100, 0)):
            cut = daemon.connect(7)
            cut.socket.sendall(struct.pack(">III", length, 5, 7) + bytes(count))
            cut.socket.shutdown(1)
            assert cut.reply() == (5, None, ("CutShort", 0)) and cut.is_ended()
        for count in (0, 1, 11):
            cut = daemon.connect(7)
            cut.socket.sendall(bytes(count))
            cut.socket.shutdown(1)
            assert cut.is_ended()


def the_longest_frames(made):
    """With the greatest limit the longest call is made, and one byte more is too long."""
    with Daemon(*made, frame_bytes=LONGEST, bytes_a_connection=LONGEST + 256, bytes_a_user=LONGEST + 256).start() as daemon:
        seven = daemon.connect(7)
        log = LONGEST - 13
        call = struct.pack(">BII", 1, 7, log) + bytes(log) + bytes(4)
        assert len(call) == LONGEST
        # 02: No, since these bytes are no log
        assert seven.ask(1, call).answer[4] == 2
        assert seven.ask(2, b"\x63" * LONGEST).refusal == ("BadField", 0)
        other = daemon.connect(7)
        with contextlib.suppress(BrokenPipeError):
            other.send(3, call + b"x")
        assert other.reply().refusal == ("TooLong", 0) and other.is_ended()
        assert seven.ask(4, lease(7, 10)).answer
        print(f"    kfsd has {daemon.resident() / (1 << 20):.0f} MiB behind frames of 16 MiB")
        assert daemon.stop()[0] == 0


def replies_keep_their_order(made):
    """Refusals of kfsd itself stand among answers in the order of the frames."""
    chance = random.Random(1)
    with Daemon(*made, frames_a_connection=16).start() as daemon:
        seven = daemon.connect(7)
        numbers = [chance.randrange(1 << 32) for _ in range(500)]
        is_mine = [chance.random() < 0.5 for _ in numbers]
        data = b"".join(frame(number, 7 if mine else 8, lease(7, 10)) for number, mine in zip(numbers, is_mine))
        sending = threading.Thread(target=seven.socket.sendall, args=(data,))
        sending.start()
        replies = [seven.reply() for _ in numbers]
        sending.join()
        assert [it.number for it in replies] == numbers
        assert [it.answer is not None for it in replies] == is_mine


def many_at_once(made):
    """1,000 connections of 50 users, each with 10 calls under way: each is made once, and answered to who made it."""
    users = [user(2000 + at, 50 + at) for at in range(50)]
    with Daemon(*made, users=users).start() as daemon:
        connections = [daemon.connect(50 + at % 50) for at in range(1000)]
        expected = []
        for at, it in enumerate(connections):
            calls = [lease(it.client, 1000 + at * 10 + each) for each in range(10)]
            expected += calls
            it.socket.sendall(b"".join(frame(each, it.client, call) for each, call in enumerate(calls)))
        rows = []
        for it in connections:
            replies = [it.reply() for _ in range(10)]
            assert [reply.number for reply in replies] == list(range(10))
            rows += [int.from_bytes(reply.answer[:4], "big") for reply in replies]
        assert sorted(rows) == list(range(10_000)), "a row is missing or twice there"
        print(f"    kfsd has {daemon.resident() / (1 << 20):.0f} MiB with 1,000 connections")
        assert daemon.stop()[0] == 0
        assert sorted(daemon.kept()) == sorted(expected)


def random_frames(made):
    """20,000 random frames: each has its reply, none of another's calls is made, and another user is answered meanwhile."""
    chance = random.Random(2)
    with Daemon(*made).start() as daemon:
        other = daemon.connect(9)
        for _ in range(20):
            seven, sent = daemon.connect(7), []
            for number in range(1000):
                sender = chance.choice([7, 7, 7, 8, 9, FRONT, 0, chance.randrange(1 << 32)])
                sent.append((sender, random_body(chance)))
            data = b"".join(frame(number, sender, body) for number, (sender, body) in enumerate(sent))
            sending = threading.Thread(target=seven.socket.sendall, args=(data,))
            sending.start()
            for number, (sender, _) in enumerate(sent):
                reply = seven.reply()
                assert reply.number == number
                assert sender == 7 or reply.refusal == ("NotYours", 0), (sender, reply)
            sending.join()
            seven.close()
            assert other.ask(1, lease(9, 10)).answer
        assert daemon.status()["kfs_serve"]["starts"] == 1
        assert daemon.stop()[0] == 0
        assert all(call[1:5] in (struct.pack(">I", 7), struct.pack(">I", 9)) for call in daemon.kept())


def random_body(chance):
    """A call of somebody, whole or changed, or any bytes."""
    body = chance.choice([lease(7, chance.randrange(100)), lease(8, 10), TICK, HELLO[:0], struct.pack(">BII", 3, 7, 1), chance.randbytes(chance.randrange(40))])
    if body and chance.random() < 0.3:
        at = chance.randrange(len(body))
        body = body[:at] + chance.randbytes(chance.randrange(3)) + body[at + 1 :]
    # kfsd's own question has an answer of its own kind
    return body if body != HELLO else b""


def random_streams(made):
    """Bytes that are no frames on purpose harm nobody else."""
    chance = random.Random(3)
    with Daemon(*made, frame_seconds=1).start() as daemon:
        other = daemon.connect(9)
        for _ in range(60):
            it = daemon.connect(7)
            it.socket.sendall(chance.randbytes(chance.randrange(3000)))
            assert other.ask(1, lease(9, 10)).answer
            it.close()
        assert daemon.status()["kfs_serve"]["starts"] == 1
        assert daemon.stop()[0] == 0
        assert set(daemon.kept()) == {lease(9, 10)}


TESTS = [a_client_is_named_by_the_kernel, look_ups_are_answered, a_stranger_is_refused, long_and_cut_frames, the_longest_frames, replies_keep_their_order, many_at_once, random_frames, random_streams]

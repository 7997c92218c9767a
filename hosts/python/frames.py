"""Frames and replies of docs/PROTOCOL.md, for hosts and tests in Python.

`frame` makes the bytes of a frame, and `node`, `state`, `checkpoint`, `find`, `names`, `read`, `places`, `leases` and `plan`
those of look-ups. `replies` cuts replies out of a stream of bytes, and `Reply` says what one tells. A `Server` is a running program with
its pipes: it sends frames and reads their replies.
"""
import collections
import struct
import subprocess

FRONT = 0xFFFFFFFF
BODY_LIMIT = 16_777_216
ANSWERED, REFUSED, FOUND = 1, 2, 3
REFUSALS = {1: "TooLong", 2: "CutShort", 3: "BadField", 4: "Trailing", 5: "NotYours", 6: "memory", 7: "full"}

DENIALS = {1: "UnknownClient", 2: "NoSuchNode", 3: "NotDirectory", 4: "IsDirectory", 5: "NoSearch", 6: "NoRead"}
NODE, STATE, CHECKPOINT, FIND, NAMES, READ, PLACES, LEASES, PLAN = range(0x40, 0x49)

# number: the frame's; answer: the bytes of an answer, what a look-up found, or None; refusal: its name and index, or None
Reply = collections.namedtuple("Reply", "number answer refusal")
# What look-ups find. `header` and `number` are None where there is none; a kind is 1 for a file and 2 for a directory.
Header = collections.namedtuple("Header", "kind mode uid gid links size")
NodeIs = collections.namedtuple("NodeIs", "header")
StateIs = collections.namedtuple("StateIs", "moment rows free")
Renewed = collections.namedtuple("Renewed", "")
Denied = collections.namedtuple("Denied", "why")
LeadsTo = collections.namedtuple("LeadsTo", "number")
NamesAre = collections.namedtuple("NamesAre", "more names")
BytesAre = collections.namedtuple("BytesAre", "data")
PlacesAre = collections.namedtuple("PlacesAre", "tiers")
LeasesAre = collections.namedtuple("LeasesAre", "more leases")
PlanIs = collections.namedtuple("PlanIs", "data")
NoPlan = collections.namedtuple("NoPlan", "")
PlanTooLong = collections.namedtuple("PlanTooLong", "")


def frame(number, sender, body):
    """The bytes of a frame."""
    return struct.pack(">III", len(body), number, sender) + body


# ---- The bodies of look-ups

def node(number):
    return struct.pack(">BI", NODE, number)


def state():
    return bytes([STATE])


def checkpoint():
    return bytes([CHECKPOINT])


def find(directory, name):
    return struct.pack(">BI", FIND, directory) + name


def names(directory, limit, after=b""):
    """Asks for the names behind `after`, in at most so many bytes."""
    return struct.pack(">BII", NAMES, directory, limit) + after


def read(number, start, count):
    return struct.pack(">BIQI", READ, number, start, count)


def places():
    return bytes([PLACES])


def leases(first, limit):
    """Asks for the sender's own leases on nodes from the number `first` on, in at most so many bytes."""
    return struct.pack(">BII", LEASES, first, limit)


def plan(log):
    """Asks for the plan of the sender's own log."""
    return bytes([PLAN]) + log


# ---- Replies

def header_in(data):
    return None if data == b"\0" else Header(*struct.unpack(">BHIIHQ", data))


def number_in(data):
    return None if data == b"\0" else struct.unpack(">xI", data)[0]


def names_in(data):
    """Names with the numbers that they lead to."""
    listed = []
    while data:
        number, length = struct.unpack(">IB", data[:5])
        listed.append((data[5 : 5 + length], number))
        data = data[5 + length :]
    return listed


def leases_in(data):
    """Leases: the number of the node, 0 to read or 1 to write, and the end."""
    return list(struct.iter_unpack(">IBQ", data))


def found_in(data):
    """What a look-up found."""
    tag, rest = data[0], data[1:]
    match tag:
        case 1:
            return NodeIs(header_in(rest))
        case 2:
            moment, rows, *free = struct.unpack(">QIIII", rest)
            return StateIs(moment, rows, tuple(free))
        case 3 if not rest:
            return Renewed()
        case 4:
            return Denied(DENIALS[rest[0]])
        case 5:
            return LeadsTo(number_in(rest))
        case 6:
            return NamesAre(bool(rest[0]), names_in(rest[1:]))
        case 7:
            return BytesAre(rest)
        case 8:
            return PlacesAre(tuple(struct.iter_unpack(">II", rest)))
        case 9:
            return LeasesAre(bool(rest[0]), leases_in(rest[1:]))
        case 10 if rest[:1] == b"\x01":
            return PlanIs(rest[1:])
        case 10 if rest == b"\x00":
            return NoPlan()
        case 10 if rest == b"\x02":
            return PlanTooLong()
    raise ValueError(f"nothing that is found: {data.hex()}")


def reply_of(number, body):
    """What the bytes of a reply say, its head aside."""
    if body[:1] == bytes([ANSWERED]):
        return Reply(number, body[1:], None)
    if body[:1] == bytes([FOUND]):
        return Reply(number, found_in(body[1:]), None)
    tag, code, index = struct.unpack(">BBI", body)
    if tag != REFUSED or code not in REFUSALS:
        raise ValueError(f"no reply: {body.hex()}")
    return Reply(number, None, (REFUSALS[code], index))


def replies(data):
    """The whole replies at the front of these bytes, and the bytes behind them."""
    found = []
    while len(data) >= 8:
        length, number = struct.unpack(">II", data[:8])
        if len(data) < 8 + length:
            break
        found.append(reply_of(number, data[8:8 + length]))
        data = data[8 + length:]
    return found, data


class Server:
    """A running program that reads frames and writes replies."""

    def __init__(self, words):
        self.process = subprocess.Popen(words, stdin=subprocess.PIPE, stdout=subprocess.PIPE, bufsize=0)
        self.left = b""

    def send(self, data):
        """Writes bytes of frames."""
        while data:
            data = data[self.process.stdin.write(data):]

    def receive(self, count):
        """So many replies, in order; fewer where the output ends."""
        found = []
        while len(found) < count:
            more, self.left = replies(self.left)
            found += more
            if len(found) >= count:
                break
            data = self.process.stdout.read(65536)
            if not data:
                break
            self.left += data
        return found

    def close(self):
        """Ends the input, and answers the exit status."""
        self.process.stdin.close()
        return self.process.wait()

    def kill(self):
        """Ends the program at once (SIGKILL)."""
        self.process.kill()
        self.process.wait()

"""Calls of a desk as bytes (docs/FORMATS.md, "Calls of a desk"): reading them, or finding the refusal that is due, writing them,
and a session whose calls are such bytes, with random calls for it.

Its lines are those of `kfs run` but for the calls: `call HEX` has the bytes of one. It is answered as the line of the same call
is, and `call NAME` where the bytes are no call. `again LIMIT` has the desk's state written as bytes, and goes on with a desk that is
restored from them. An image is shown with its runs of equal bytes counted, as it is short then.
"""
import re
from typing import NamedTuple

from . import spoil
from .codec import NoRow, Reader, Refused, number_bytes
from .desk import BadLine, Session, Words, hex_of
from .scripts import ENDS, U32, U64, Maker


class Submit(NamedTuple):
    client: int
    log: bytes
    plan: bytes


class Lease(NamedTuple):
    client: int
    is_write: int
    end: int
    path: bytes


class Drop(NamedTuple):
    client: int
    number: int


class Tick(NamedTuple):
    moment: int


class Migrate(NamedTuple):
    """Moves of blocks, each a number, a block, a tier and a place."""

    moves: list


class LeaseAt(NamedTuple):
    client: int
    is_write: int
    end: int
    number: int


# The tag of each call, and its fields: bytes of a number, or a kind of field.
CALLS = {
    1: (Submit, (4, "long", "long")),
    2: (Lease, (4, "flag", 8, "short")),
    3: (Drop, (4, 4)),
    4: (Tick, (8,)),
    5: (Migrate, ("moves",)),
    6: (LeaseAt, (4, "flag", 8, 4)),
}
TAGS = {call: (tag, fields) for tag, (call, fields) in CALLS.items()}
MOVE = (4, 4, 1, 4)
# How wide the length before bytes is.
LENGTHS = {"long": 4, "short": 2}


class Fields:
    """The fields of a call, read one by one and counted."""

    def __init__(self, data):
        self.reader, self.count = Reader(data), 0

    def one(self, read, *words):
        try:
            value = read(*words)
        except NoRow:
            raise Refused(f"BadField({self.count})") from None
        self.count += 1
        return value

    def tag(self):
        return self.one(self.reader.within, 1, max(CALLS), min(CALLS))

    def bytes(self, width):
        return self.reader.take(self.reader.number(width))

    def move(self):
        return tuple(self.reader.number(width) for width in MOVE)

    def field(self, field):
        match field:
            case "flag":
                return self.one(self.reader.within, 1, 1)
            case "long" | "short":
                return self.one(self.bytes, LENGTHS[field])
            case "moves":
                return [self.one(self.move) for _ in range(self.one(self.reader.number, 2))]
            case _:
                return self.one(self.reader.number, field)


def decode_call(data):
    found = Fields(data)
    call, fields = CALLS[found.tag()]
    values = [found.field(field) for field in fields]
    found.reader.end("Trailing")
    return call(*values)


def numbers_bytes(numbers, widths):
    return b"".join(map(number_bytes, numbers, widths))


def field_bytes(value, field):
    match field:
        case "flag":
            return number_bytes(value, 1)
        case "long" | "short":
            return number_bytes(len(value), LENGTHS[field]) + value
        case "moves":
            return number_bytes(len(value), 2) + b"".join(numbers_bytes(move, MOVE) for move in value)
        case _:
            return number_bytes(value, field)


def encode_call(call):
    tag, fields = TAGS[type(call)]
    return number_bytes(tag, 1) + b"".join(map(field_bytes, call, fields))


# ---- Images whose runs of equal bytes are counted

LONG_RUN = 16


def packed(data):
    """Returns bytes as hexadecimal text in which a byte that is there 16 times or more in a row has its count in brackets."""
    parts, at = [], 0
    for run in re.finditer(rb"(.)\1{%d,}" % (LONG_RUN - 1), data, re.S):
        parts += [data[at : run.start()].hex(), f"{run[1].hex()}({len(run[0])})"]
        at = run.end()
    return "".join([*parts, data[at:].hex()])


def unpacked(text):
    return re.sub(rb"(..)\((\d+)\)", lambda run: run[1] * int(run[2]), text)


# ---- A session

class CallSession(Session):
    """A session that is asked by bytes."""

    def expected(self, line, reply=None):
        if line == b"save":
            due = super().expected(line, unpacked(reply) if reply else None)
            return b"image " + packed(bytes.fromhex(due[6:].decode())).encode() if due.startswith(b"image ") else due
        return super().expected(line, reply)

    def call(self, words):
        data = words.bytes()
        words.end()
        try:
            call = decode_call(data)
        except Refused as refused:
            return f"call {refused}"
        return self.made(call)

    def made(self, call):
        """Returns the answer to a call: that of the line that says the same, where one can."""
        match call:
            case Submit():
                return self.hand_in(*call)
            case Lease(client, is_write, end, path):
                return self.ask_lease(client, path, "rw"[is_write], end)
            case Drop():
                return self.give_up(*call)
            case Tick():
                return self.go_on(*call)
            case Migrate():
                return self.move_blocks(*call)
            case LeaseAt(client, is_write, end, number):
                return self.ask_lease_at(client, number, "rw"[is_write], end)

    def again(self, words):
        """Goes on with a new docket; all else is as it was."""
        limit = words.number()
        words.end()
        self.limit, self.docket = limit, 0
        return "ok"

    OF_DESK = {name: Session.OF_DESK[name] for name in (b"docket", b"save")} | {b"call": call, b"again": again}


class ServerSession(CallSession):
    """The same through `kfs_call` of the library for C, which tells a full docket before it looks at the bytes."""

    def call(self, words):
        return "full" if self.docket == self.limit else super().call(words)

    OF_DESK = CallSession.OF_DESK | {b"call": call}


def kind_of(reply):
    """Returns in which way a call was answered."""
    words = reply.decode().split(" ")
    if words[0] == "call":
        return words[1].partition("(")[0]
    return words[1] if len(words) > 1 else words[0]


# ---- Calls of lines

OF_LINES = {
    b"submit": lambda words: Submit(*words.submission()),
    b"lease": lambda words: lease_of(*words.lease()),
    b"drop": lambda words: Drop(*words.drop()),
    b"tick": lambda words: Tick(*words.tick()),
    b"move": lambda words: Migrate(*words.moves()),
}


def lease_of(client, path, kind, end):
    return Lease(client, int(kind == "w"), end, path)


def call_of(line):
    """Returns the call that a line of `kfs run` makes, None where it makes none."""
    words = Words(line)
    try:
        return OF_LINES.get(words.word(), lambda _words: None)(words)
    except BadLine:
        return None


# ---- Random calls

# How often each kind comes. `spoiled` is a call with its bytes changed, and `odd` one that no line makes, or bytes that are none.
WEIGHTS = {"submit": 38, "lease": 14, "lease_at": 10, "drop": 6, "tick": 3, "move": 9, "spoiled": 20, "odd": 9, "save": 1, "again": 6}
# A moment that is rarely gone beyond: few leases are live then.
LATE = 100_000
ODD_PATHS = [b"", b"/ ", b"/a b", b"/\n", b"/a\n", b" ", b"\n", b"/\xff", b"/a/", b"/" * 65_535, b"/a" * 32_767]


class CallMaker(Maker):
    """A maker whose lines after the opening are calls as bytes."""

    def __init__(self, seed, is_cut=False):
        super().__init__(f"calls {seed}")
        self.weights, self.session, self.is_cut = WEIGHTS, CallSession(), is_cut
        # The last calls, and whether the places of all blocks were shown since the last landing.
        self.calls, self.is_shown = [b"\x07"], True

    def say(self, line):
        line = line if isinstance(line, bytes) else line.encode()
        if not self.session.has_begun:
            return self.say_opening(line)
        call = call_of(line)
        if call:
            return self.say_call(encode_call(call))
        return self.say_save() if line == b"save" else None

    def say_opening(self, line):
        """Says only what is allowed: the last image, and the clients since the last refusal of `begin`."""
        reply = self.session.expected(line)
        is_refused = reply.startswith(b"begin ")
        gone = b"client" if is_refused else (b"new", b"image")
        if is_refused or line.startswith((b"new", b"image")) and reply == b"ok":
            self.lines = [it for it in self.lines if not it.startswith(gone)]
        if reply == b"ok":
            self.lines.append(line)
        self.replies = [b"ok"] * len(self.lines)
        return reply

    def say_save(self):
        """Says `save` where a landing may have taken places since the last one."""
        if self.is_shown:
            return None
        self.is_shown = True
        return super().say(b"save")

    def say_call(self, data):
        """Says a call. Where it may move blocks to tier 0, the places of the others there are shown before."""
        call = decoded(data)
        if type(call) is Migrate and any(tier == 0 for _, _, tier, _ in call.moves):
            self.say_save()
        self.calls = [*self.calls[-20:], data]
        reply = super().say(b"call %s" % hex_of(data).encode())
        if b" yes " in reply:
            self.is_shown = False
        if self.is_cut:
            super().say(b"again 1000")
        return reply

    def lease_at(self):
        """Asks for a lease by number: mostly on a node, and mostly up to a moment that is to come."""
        nodes, moment = list(self.session.tree.nodes), self.session.leases.moment
        number = self.one(nodes) if self.chance(90) else self.one([0, max(nodes) + 1, 65_536, 65_537, U32])
        end = U64 if self.chance(50) else min(U64, self.one([0, moment, moment + 1, *ENDS]))
        client = self.number_of_client()
        self.say_call(encode_call(LeaseAt(client, self.random.randrange(2), end, number)))

    def spoiled(self):
        data = spoil.cut(self.random, self.one(self.calls))
        call = decoded(data)
        if type(call) is not Tick or call.moment < LATE or self.chance(3):
            self.say_call(data)

    def odd(self):
        call = decoded(self.one(self.calls))
        match self.random.choice(["tag", "length", "path", "kind", "none", "more", "fewer", "bytes"]):
            case "tag":
                self.say_call(bytes([self.one([0, 7, 8, 255, self.random.randrange(256)])]) + self.one(self.calls)[1:])
            case "length":
                self.say_call(self.with_length(self.one(self.calls)))
            case "path":
                self.say_call(encode_call(Lease(self.number_of_client(), self.random.randrange(2), U64, self.one(ODD_PATHS))))
            case "kind":
                self.say_call(encode_call(Lease(self.number_of_client(), self.one([2, 3, 255]), U64, b"/")))
            case "none":
                self.say_call(encode_call(Migrate([])))
            case "more" if type(call) is Migrate:
                self.say_call(encode_call(Migrate([*call.moves, *call.moves])))
            case "fewer" if type(call) is Migrate:
                self.say_call(encode_call(Migrate(call.moves[:-1])))
            case _:
                self.say_call(bytes(self.random.randrange(8) for _ in range(self.random.randrange(40))))

    def again(self):
        """Has the session cut: its desk is saved and restored. A docket is rarely short then."""
        super().say(b"again %d" % (self.random.randrange(6) if self.chance(12) else 1_000))

    def with_length(self, data):
        """Returns bytes with four of them, or two, made a number of another length."""
        width = self.one([2, 4])
        at = self.random.randrange(len(data) + 1)
        number = self.one([0, 1, len(data) - at, max(0, len(data) - at - width), 1 << 15, (1 << 8 * width) - 1])
        return data[:at] + number_bytes(number % (1 << 8 * width), width) + data[at + width :]

    def close(self):
        """Shows all that there is."""
        self.is_shown = False
        self.say_save()
        super().say(b"docket")


def decoded(data):
    try:
        return decode_call(data)
    except Refused:
        return None

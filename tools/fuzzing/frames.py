"""Frames with random calls, and the replies that are due to them (docs/PROTOCOL.md).

A reply is a word or some: `NotYours`, `BadField(1)`, what a look-up finds, or the answer to a call as the line of `kfs run` has it,
with its row.
"""
import random
import struct

from .calls import CallMaker, CallSession, Drop, Lease, LeaseAt, Migrate, Submit, decode_call, decoded
from .codec import DIRECTORY, FILE, Create, Header, Link, Log, NameRow, NodeRow, Plan, Refused
from .codec import decode_log, encode_log, encode_plan
from .desk import U32, U64, hex_of
from .judge import ROOT
from .scripts import GRANTS, NAMES

FRONT = 0xFFFFFFFF
BODY_LIMIT = 16_777_216
# How often a frame is forged before the right one, has a byte changed, is cut or lengthened, is none, or is too long.
FORGED, CHANGED, LONG = 0.3, 0.5, 0.0005
# How often a look-up stands before a call, and that of the front's own among them; how often the plan of its log is asked
# for before a submission, and again behind it; how often that of a long log.
LOOKED, OF_THE_FRONT, PLANNED, LONG_PLAN = 0.6, 0.15, 0.3, 0.002
# The most bytes of a file, of names, of leases or of a plan that a look-up is answered; those of a lease.
FOUND_LIMIT, LEASE_LEN = 65_536, 13
ENTRY_REASONS = "NoSuchNode NotDirectory IsDirectory NoSuchName NameTaken NumberTaken NumberNotGranted NotEmpty BelowItself TooManyLinks TooBig NoSearch NoWrite NotOwner NoLease Sticky NotInGroup".split()
LEASE_REASONS = "UnknownClient BadPath NoSuchName NotDirectory NoSearch Past LeaseHeld NoLeaseHeld Backwards NoSuchNode NotAllowed".split()
MOVE_REASONS = "NotMapped OutOfRange NotFree Overlap TooManyMoves".split()


# ---- Who asks, and what

def owner_of(call):
    """The client whose call it is, or the front."""
    return call.client if isinstance(call, (Submit, Lease, Drop, LeaseAt)) else FRONT


def owner_in(data):
    """The same of bytes; of bytes that are no call the front."""
    call = decoded(data)
    return FRONT if call is None else owner_of(call)


def opening_and_calls(seed, count):
    """The lines `new` and `client` of a session that begins with a new image, the limit of its docket, and about so many calls
    as bytes. Which places are free is known of the least alone, so no call moves a block to tier 0."""
    for turn in range(1_000):
        lines = CallMaker(f"{seed} {turn}").script(count)
        if not lines[0].startswith(b"new ") or any(line.startswith(b"image ") for line in lines):
            continue
        first = [line for line in lines if line.startswith((b"new ", b"client "))]
        limit = next(int(line.split(b" ")[1]) for line in lines if line.startswith(b"begin "))
        calls = [b"" if line == b"call -" else bytes.fromhex(line[5:].decode()) for line in lines if line.startswith(b"call ")]
        return first, limit, [data for data in calls if not is_unknown(data)]
    raise ValueError("no seed begins with a new image")


def is_unknown(data):
    call = decoded(data)
    return isinstance(call, Migrate) and any(tier == 0 for _, _, tier, _ in call.moves)


def changed(chance, data):
    """The bytes with one changed, cut off or added."""
    at = chance.randrange(len(data) + 1)
    match chance.randrange(4):
        case 0:
            return data[:at]
        case 1:
            return data + chance.randbytes(1 + chance.randrange(4))
        case 2:
            return data[:at] + bytes([chance.randrange(256)]) + data[at:]
        case _:
            return data[:at] + bytes([chance.randrange(256)]) + data[at + 1 :]


def frames_of(seed, numbers, calls):
    """Yields senders and bodies: the calls, and hostile frames before them."""
    chance = random.Random(f"frames {seed}")
    others = [*numbers, FRONT, 0, 0xFFFFFFFE]
    for data in calls:
        if chance.random() < FORGED:
            yield chance.choice(others), data
        if chance.random() < CHANGED:
            wrong = changed(chance, data)
            if not is_unknown(wrong):
                yield chance.choice([owner_in(wrong), chance.choice(others)]), wrong
        if chance.random() < LOOKED:
            yield from look_ups(chance, numbers)
        planned = decoded(data) if chance.random() < PLANNED else None
        if isinstance(planned, Submit):
            yield from plan_asked(chance, numbers, planned)
        if chance.random() < LONG_PLAN and numbers:
            client = chance.choice(numbers)
            yield client, b"\x48" + long_log(chance, client)
        if chance.random() < LONG:
            yield chance.choice(others), bytes(BODY_LIMIT + 1)
        yield owner_in(data), data
        if isinstance(planned, Submit) and chance.random() < PLANNED:
            yield planned.client, b"\x48" + planned.log


# ---- Look-ups

def name_of(chance):
    """A name as calls have them, or bytes that are none."""
    return chance.choice([*NAMES] * 3 + [b"", b".", b"a/b", b"a\0", chance.randbytes(1 + chance.randrange(3)), b"a" * 256])


def look_up(chance):
    """The bytes of a look-up."""
    # The root, the numbers that calls give first, and others.
    number = chance.choice([1] * 8 + [*range(11)] * 2 + [chance.randrange(64), U32])
    limit = chance.choice([0, 6, 7, 12, 13, 26, 40, 260, FOUND_LIMIT + 1, U32])
    start = chance.choice([0, 1, 4_095, 4_096, chance.randrange(10_000), U64])
    match chance.randrange(7):
        case 0:
            return struct.pack(">BI", 0x40, number)
        case 1:
            return struct.pack(">BI", 0x43, number) + name_of(chance)
        case 2:
            return struct.pack(">BII", 0x44, number, limit) + name_of(chance)
        case 3 | 4:
            return struct.pack(">BIQI", 0x45, number, start, limit)
        case 5:
            return struct.pack(">BII", 0x47, chance.choice([0, 0, number]), limit)
        case _:
            return bytes([0x46])


def look_ups(chance, numbers):
    """Senders and some look-ups of theirs, right ones and others."""
    for _ in range(1 + chance.randrange(3)):
        body = look_up(chance)
        if chance.random() < OF_THE_FRONT:
            body = bytes([chance.choice([0x41, 0x42])])
        if chance.random() < CHANGED / 4:
            body = changed(chance, body)
        yield chance.choice([*numbers] * 4 + [FRONT, 0]), body


def plan_asked(chance, numbers, call):
    """Senders and look-ups of the plan of a log that is handed in next, or of a changed one."""
    log = changed(chance, call.log) if chance.random() < CHANGED / 4 else call.log
    if chance.random() < FORGED:
        yield chance.choice([*numbers, FRONT, 0]), b"\x48" + log
    yield call.client, b"\x48" + log


def long_log(chance, client):
    """The bytes of a log that gives a new file long names, until its plan is as long as a look-up is answered, or nearly."""
    number = chance.randrange(*GRANTS[(client - 7) % len(GRANTS)])
    length = FOUND_LIMIT + chance.choice([-1, 0, 1, 1, 9])
    names, rest = [], length - len(encode_plan(Plan(1, [], [NodeRow(number, Header(FILE, 0, 0, 0, 1, 0))], [])))
    while rest > 0:
        # Of a name a row has nine bytes more, and none may be too short to be told from the others.
        count = rest - 9 if rest < 265 else 200
        names.append((b"%03d" % len(names)).ljust(count, b"n"))
        rest -= 9 + count
    entries = [Create(ROOT, names[0], number, FILE, 0), *(Link(number, ROOT, name) for name in names[1:])]
    return encode_log(Log(1, client, entries))


def is_name(data):
    return 0 < len(data) < 256 and not {0, 47} & {*data} and data not in (b".", b"..")


# ---- What is due

class FrameSession(CallSession):
    """A session that is asked by frames."""

    def due(self, sender, body, said=None):
        """Returns the reply that is due. `said` is the program's, for what is left open."""
        if len(body) > BODY_LIMIT:
            return "TooLong"
        looked = self.looked_up(sender, body, said)
        if looked is not None:
            return looked
        try:
            call = decode_call(body)
        except Refused as refused:
            return str(refused)
        if owner_of(call) != sender:
            return "NotYours"
        return self.expected(b"call " + hex_of(body).encode(), said and said.encode()).decode()

    def looked_up(self, sender, body, said):
        """Returns what is due to a look-up, None to a body that is none's."""
        tag, fields = body[:1], body[1:]
        if tag in (b"\x41", b"\x42") and not fields:
            if sender != FRONT:
                return "NotYours"
            free = " ".join(str(self.free(tier)) for tier in range(3))
            return f"state {self.leases.moment} {self.docket} {free}" if tag == b"\x41" else "renewed"
        if tag == b"\x40" and len(fields) == 4:
            header = self.tree.header(*struct.unpack(">I", fields))
            # A kind is 1 or 2 there, as in a plan.
            return f"node {None if header is None else (header.kind + 1, *header[1:])}"
        if tag == b"\x43" and is_name(fields[4:]):
            return self.found(sender, *struct.unpack(">I", fields[:4]), fields[4:])
        if tag == b"\x44" and len(fields) >= 8 and (len(fields) == 8 or is_name(fields[8:])):
            return self.named(sender, *struct.unpack(">II", fields[:8]), fields[8:])
        if tag == b"\x45" and len(fields) == 16:
            return self.bytes_read(sender, *struct.unpack(">IQI", fields))
        if tag == b"\x47" and len(fields) == 8:
            return self.held(sender, *struct.unpack(">II", fields))
        if tag == b"\x48":
            return self.planned(sender, fields, said)
        if tag == b"\x46" and not fields:
            return "places " + " ".join(f"{self.sizes[tier]}:{self.free(tier)}" for tier in range(3))
        return None

    def denied(self, sender, number, kind, bit):
        """Why the client may not, if it may not: 4 is to read, 1 to search."""
        client, node = self.clients.get(sender), self.tree.nodes.get(number)
        if client is None:
            return "denied UnknownClient"
        if node is None:
            return "denied NoSuchNode"
        if node.kind != kind:
            return "denied IsDirectory" if kind == FILE else "denied NotDirectory"
        if not client.may(node, bit):
            return "denied NoSearch" if bit == 1 else "denied NoRead"
        return None

    def found(self, sender, directory, name):
        return self.denied(sender, directory, DIRECTORY, 1) or f"leads {self.tree.names.get((directory, name))}"

    def named(self, sender, directory, limit, after):
        denied = self.denied(sender, directory, DIRECTORY, 4)
        if denied:
            return denied
        left, listed = min(limit, FOUND_LIMIT), []
        for name, number in self.tree.listed(directory):
            if name <= after:
                continue
            left -= 5 + len(name)
            if left < 0:
                return f"names True {listed}"
            listed.append((name, number))
        return f"names False {listed}"

    def bytes_read(self, sender, number, start, count):
        denied = self.denied(sender, number, FILE, 4)
        if denied:
            return denied
        end = min(start + min(count, FOUND_LIMIT), self.tree.nodes[number].size)
        return f"bytes {hex_of(self.contents[number].read(start, end))}"

    def planned(self, sender, data, said):
        try:
            log = decode_log(data)
        except Refused:
            return "BadField(0)"
        if log.client != sender:
            return "NotYours"
        if sender not in self.clients:
            return "denied UnknownClient"
        # Of several right plans the program's is taken.
        self.reply = (said or "").encode()
        made = self.made_plan(sender, data)
        if made is None:
            return "plan none"
        plan = encode_plan(made)
        return f"plan {plan.hex()}" if len(plan) <= FOUND_LIMIT else "plan longer"

    def held(self, client, first, limit):
        own = []
        for number, held in sorted(self.leases.rows.items()):
            if number >= first and client in held:
                kind, end = held[client]
                own.append((number, int(kind == "w"), end))
        count = min(limit, FOUND_LIMIT) // LEASE_LEN
        return f"leases {len(own) > count} {own[:count]}"


# ---- What a reply says

def fault_in(data):
    """The code, the reason, the index and the detail of a fault."""
    return data[0], data[1], int.from_bytes(data[2:10], "big"), int.from_bytes(data[10:14], "big")


def spelling(reason, index, detail):
    return ["BadHeader", f"BadEntry({index})", "Trailing", f"BadRow({detail},{index})"][reason - 1]


def submission_fault(data):
    code, reason, index, detail = fault_in(data)
    match code:
        case 1:
            return "client unknown"
        case 2:
            return f"log {spelling(reason, index, detail)}"
        case 3:
            return "client wrong"
        case 4:
            return f"plan {spelling(reason, index, detail)}"
        case 5:
            name = ENTRY_REASONS[reason - 1]
            return f"entry {index} {name}" + (f"({detail})" if name == "NoLease" else "")
        case 6:
            return f"plan {['Names', 'Nodes', 'Pieces'][reason - 1]}({index})"
    raise ValueError(f"no fault: {data.hex()}")


def lease_fault(data):
    code, _, index, detail = fault_in(data)
    name = LEASE_REASONS[code - 1]
    if name == "LeaseHeld":
        return f"{name}({detail})"
    # Of a path the component is told.
    return f"{name}({index})" if code in (3, 4, 5) else name


def move_fault(data):
    code, _, index, _ = fault_in(data)
    name = MOVE_REASONS[code - 1]
    return name if name == "TooManyMoves" else f"{name}({index})"


def told_in(data):
    """What an answer says behind its row."""
    number = int.from_bytes(data[1:], "big")
    match data[0]:
        case 1:
            return f"yes rejudged={data[1]} need={int.from_bytes(data[2:10], 'big')}"
        case 2:
            return f"no rejudged={data[1]} {submission_fault(data[2:])}"
        case 3:
            return f"noroom rejudged={data[1]} need={int.from_bytes(data[2:10], 'big')} free={int.from_bytes(data[10:14], 'big')}"
        case 4 | 5 | 6 | 7:
            return f"{['leased', 'dropped', 'ticked', 'moved'][data[0] - 4]} {number}"
        case 8:
            return f"refused {lease_fault(data[1:])}"
        case 9:
            return f"refused {move_fault(data[1:])}"
    raise ValueError(f"no answer: {data.hex()}")


def found_text(found):
    """What a look-up found, in words."""
    match type(found).__name__, *found:
        case "NodeIs", header:
            return f"node {None if header is None else tuple(header)}"
        case "StateIs", moment, rows, free:
            return f"state {moment} {rows} {' '.join(map(str, free))}"
        case "Renewed", :
            return "renewed"
        case "Denied", why:
            return f"denied {why}"
        case "LeadsTo", number:
            return f"leads {number}"
        case "NamesAre", more, listed:
            return f"names {more} {listed}"
        case "BytesAre", data:
            return f"bytes {hex_of(data)}"
        case "LeasesAre", more, held:
            return f"leases {more} {held}"
        case "PlanIs", data:
            return f"plan {data.hex()}"
        case "NoPlan", :
            return "plan none"
        case "PlanTooLong", :
            return "plan longer"
        case "PlacesAre", tiers:
            return "places " + " ".join(f"{size}:{free}" for size, free in tiers)
    raise ValueError(f"nothing that is found: {found}")


def reply_text(reply):
    """A reply of hosts/python/frames.py in words."""
    if reply.refusal is not None:
        name, index = reply.refusal
        return f"{name}({index})" if name == "BadField" else name
    if isinstance(reply.answer, tuple):
        return found_text(reply.answer)
    return f"{int.from_bytes(reply.answer[:4], 'big')} {told_in(reply.answer[4:])}"

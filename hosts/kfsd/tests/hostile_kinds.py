"""What one hostile user sends, by kind, and what has to be on the desk for it. kfsload sends it (hostile.rs says in which ways)."""
import random
import struct
from typing import NamedTuple

from loading import submit
from running import HELLO, frame, frames, lease, lease_by_path, user

from benchmarks import plan_of
from fuzzing.codec import DIRECTORY, FILE, Create, Header, Log, NameRow, NodeRow, Piece, Rename, Unlink, Write, encode_log

# The polite one, the hostile one, and three others who hold leases or do with it what is several users' alone.
POLITE = user(4000, 100, (2, 9))
HOSTILE = user(5000, 900, (10, 62_000))
HOLDER = user(5001, 901, (62_001, 65_500))
OTHERS = [HOLDER, user(5002, 902), user(5003, 903)]
UNLISTED = user(5999, 900)
USERS = [POLITE, HOSTILE, *OTHERS]
# Blocks of each tier. A user may fill all of tier 0.
TIERS = (2048, 8192, 8192)
# How many seconds leases live here: beyond what a kind takes, and less than `lease_seconds` of kfsd.
LIFE = 3000
# What kfsload replaces by counts, and the bits that a run's and a connection's counts have in common.
NEXT, LAST, OF_A_RUN = b"<<next>>", b"<<last>>", 27
# The tags of answers.
YES, LEASED, DROPPED, REFUSED = 1, 4, 5, 8
FEW, MANY = 12_000, 60_020
RENAMES, DEPTH = 2_400, 3_000
# The longest name of a directory, and how many of them a path has.
LONG_NAME, LONG_PATH = b"d" * 255, 254


class Harm(NamedTuple):
    """A process that harms: how, what it sends, over how many connections, and as whom."""

    way: str
    sent: bytes
    connections: int
    user: dict = HOSTILE


class Kind(NamedTuple):
    """A kind, how its harms are made on a prepared desk, what is done before each run, and the sizes of the tiers."""

    name: str
    harms: object
    before: object = None
    tiers: tuple = TIERS


class Desk:
    """A user's hands on the desk of a daemon, to prepare it. All has to be done."""

    def __init__(self, daemon, it):
        self.daemon, self.user, self.client = daemon, it, it["client"]
        self.connection = daemon.connect(self.client)
        self.until = self.connection.moment()[0] + LIFE
        self.next = it["grant"][0]

    def all(self, bodies, due):
        """Hands calls in, some at once. Each has to have such an answer."""
        for at in range(0, len(bodies), 1000):
            some = bodies[at : at + 1000]
            self.connection.socket.sendall(b"".join(frame(1, self.client, body) for body in some))
            for body in some:
                _, said = self.connection.next()
                assert said[0] == 1 and said[5] == due, (self.client, body[:40], said)

    def found(self, body):
        """Sees that a look-up finds something, so that as many of it as are sent cost what they are meant to. Returns it."""
        self.connection.send(1, body)
        _, said = self.connection.next()
        assert said[0] == 3 and said[1] != 4, (self.client, body[:40], said[:40])
        return body

    def numbers(self, count):
        first, self.next = self.next, self.next + count
        return range(first, first + count)

    def lease_call(self, number, writes=True):
        return struct.pack(">BIBQI", 6, self.client, writes, self.until, number)

    def lease(self, *numbers, writes=True):
        self.all([self.lease_call(number, writes) for number in numbers], LEASED)

    def row(self, number, kind, mode, size=0):
        return NodeRow(number, Header(kind, mode, self.user["uid"], self.user["gid"], 1, size))

    def call(self, entries, names=(), nodes=(), pieces=()):
        return submit(self.client, encode_log(Log(1, self.client, entries)), plan_of(names, nodes, pieces))

    def land(self, *what):
        self.all([self.call(*what)], YES)

    def create(self, directory, named, kind=FILE, mode=0o666):
        """Makes nodes of these names in a leased directory. Returns their numbers."""
        numbers = self.numbers(len(named))
        for at in range(0, len(named), 1000):
            some = list(zip(named[at : at + 1000], numbers[at : at + 1000]))
            entries = [Create(directory, name, number, kind, mode) for name, number in some]
            self.land(entries, [NameRow(directory, name, number) for name, number in some], [self.row(number, kind, mode) for _, number in some])
        return numbers

    def home(self):
        """The user's own directory, leased."""
        root = lease(self.client, self.until, writes=True)
        self.all([root], LEASED)
        (number,) = self.create(1, [b"d%d" % self.client], DIRECTORY, 0o755)
        self.all([struct.pack(">BII", 3, self.client, 1)], DROPPED)
        self.lease(number)
        return number

    def chain(self, directory, name, count):
        """Directories of one name, each in the one before. Returns their numbers."""
        numbers = self.numbers(count)
        for at in range(0, count, 200):
            some = numbers[at : at + 200]
            above = [directory, *some[:-1]]
            self.land(
                [Create(upper, name, number, DIRECTORY, 0o755) for upper, number in zip(above, some)],
                [NameRow(upper, name, number) for upper, number in zip(above, some)],
                [self.row(number, DIRECTORY, 0o755) for number in some],
            )
            directory = some[-1]
            self.lease(directory)
        return numbers

    def file(self, directory, name, size):
        """A file of so many bytes."""
        (number,) = self.numbers(1)
        rows = [NameRow(directory, name, number)], [self.row(number, FILE, 0o644, size)], [Piece(number, 0, size, (1, 0))]
        self.land([Create(directory, name, number, FILE, 0o644), Write(number, 0, b"r" * size)], *rows)
        return number


def sent(*bodies, it=HOSTILE):
    return b"".join(frame(at, it["client"], body) for at, body in enumerate(bodies))


def flood(body, connections):
    return Harm("flood", sent(body), connections)


def always(*harms):
    """What needs nothing on the desk."""
    return lambda _daemon: list(harms)


DROP = struct.pack(">BII", 3, HOSTILE["client"], 9)
CUT_OFF = sent(DROP)[:-3]
NUMBERED = sent(b"\xf2" + NEXT + DROP)
TOO_LONG = struct.pack(">III", (1 << 32) - 1, 1, HOSTILE["client"]) + bytes(65_524)
OPEN = Harm("open", CUT_OFF, 1)


def junk(count):
    return b"\xee" * count


def forged(_daemon):
    """Frames in the name of others."""
    chance = random.Random(1)
    bodies = [lease(POLITE["client"], 1 << 40, writes=True), struct.pack(">BQ", 4, 1 << 60)]
    data = b"".join(frame(at, chance.choice([frames.FRONT, 100, 900]), chance.choice(bodies)) for at in range(500))
    return [Harm("flood", data, 2)]


def at_random(_daemon):
    """10^5 random frames."""
    chance = random.Random(2)
    parts = []
    for at in range(100_000):
        body = chance.choice([chance.randbytes(chance.randrange(40)), lease(HOSTILE["client"], chance.randrange(1 << 20))])
        parts.append(frame(at, chance.choice([900, 900, chance.randrange(1 << 32)]), body))
    return [Harm("flood", b"".join(parts), 2)]


def wrong_logs(_daemon):
    """Wrong logs of 1 MB: each is kept with its answer."""
    return [Harm("flood", sent(struct.pack(">BII", 1, HOSTILE["client"], 1_000_000) + bytes(1_000_004)), 2)]


def read_of(daemon):
    desk = Desk(daemon, HOSTILE)
    return desk.found(frames.read(desk.file(desk.home(), b"r", 65_536), 0, 65_000))


def reads(daemon):
    return [flood(read_of(daemon), 32)]


def unread(daemon):
    return [Harm("unread", sent(read_of(daemon)), 32)]


def resets(daemon):
    return [Harm("reset", sent(*[read_of(daemon)] * 8), 32)]


def idle(_daemon):
    return [Harm("idle", sent(HELLO, it=it), 250, it) for it in (HOSTILE, *OTHERS)]


def too_many(_daemon):
    return [Harm("idle", sent(HELLO), 256), OPEN]


def wants(daemon):
    """Asks for what another one holds, by number and by path; the rest of its connections wait for what is wanted of it."""
    holder = Desk(daemon, HOLDER)
    home = holder.home()
    held = holder.create(home, [b"%04d" % at for at in range(1_000)])
    holder.lease(*held)
    desk = Desk(daemon, HOSTILE)
    asked = [desk.lease_call(number) for number in held]
    asked += [lease_by_path(desk.client, desk.until, b"/d%d/%04d" % (holder.client, at), True) for at in range(1_000)]
    desk.all([asked[0], asked[-1]], REFUSED)
    return [Harm("flood", sent(*asked), 6), Harm("idle", sent(b"\xf3" + bytes(8)), 250)]


def fill(files, blocks, payload):
    """Writes more files of so many blocks than tier 0 holds, in payloads of so many bytes, and takes each out again before it is written anew."""

    def made(daemon):
        desk, size = Desk(daemon, HOSTILE), blocks * 4096
        home, bodies = desk.home(), []
        for number in desk.numbers(files):
            name, places = b"%d" % number, range(0, size, payload)
            entries = [Create(home, name, number, FILE, 0o644), *(Write(number, place, b"w" * payload) for place in places)]
            pieces = [Piece(number, place, payload, (at, 0)) for at, place in enumerate(places, 1)]
            bodies.append(desk.call([Unlink(home, name, FILE)], [NameRow(home, name, 0)], [NodeRow(number, None)]))
            bodies.append(desk.call(entries, [NameRow(home, name, number)], [desk.row(number, FILE, 0o644, size)], pieces))
            bodies.append(desk.lease_call(number))
        desk.all(bodies[1:2], YES)
        return [Harm("flood", sent(*bodies), 1)]

    return made


def names(daemon):
    desk = Desk(daemon, HOSTILE)
    home = desk.home()
    desk.create(home, [b"%05d" % at for at in range(FEW)])
    return [flood(desk.found(frames.names(home, 65_536)), 32)]


def leases(count, holders, connections):
    """Asks for its own leases with no room for one, beside many of its own and of others."""

    def made(daemon):
        desk = Desk(daemon, HOSTILE)
        held = desk.create(desk.home(), [b"%05d" % at for at in range(count)])
        # Read leases, so that all of them may hold each.
        for it in (HOSTILE, *OTHERS)[:holders]:
            Desk(daemon, it).lease(*held, writes=False)
        return [flood(desk.found(frames.leases(0, 0)), connections)]

    return made


def renames(desk):
    """A log that renames a file again and again, and at last leaves it where it was."""
    home = desk.home()
    desk.lease(*desk.create(home, [b"f"]))
    return [Rename(home, *way) for way in ((b"f", home, b"g"), (b"g", home, b"f"))] * (RENAMES // 2)


def deep_moves(desk):
    """One that moves a directory to and fro deep down."""
    *_, upper, lower = desk.chain(desk.home(), b"c", DEPTH)
    desk.lease(upper, lower)
    desk.lease(*desk.create(upper, [b"x"], DIRECTORY, 0o755))
    return [Rename(upper, b"x", lower, b"x"), Rename(lower, b"x", upper, b"x")] * (RENAMES // 2)


def hard(entries_of, connections):
    """Hands such a log in."""

    def made(daemon):
        desk = Desk(daemon, HOSTILE)
        call = desk.call(entries_of(desk))
        desk.all([call], YES)
        return [flood(call, connections)]

    return made


def hard_plans(entries_of, connections):
    """Asks for the plan of one."""

    def made(daemon):
        desk = Desk(daemon, HOSTILE)
        return [flood(desk.found(frames.plan(encode_log(Log(1, desk.client, entries_of(desk))))), connections)]

    return made


def long_paths(daemon):
    """Renames a directory far up, and leases one far down by the path that it has then, which was never asked for."""
    desk = Desk(daemon, HOSTILE)
    (above,) = desk.create(desk.home(), [b"p"], DIRECTORY, 0o755)
    desk.lease(above)
    (top,) = desk.create(above, [b"start"], DIRECTORY, 0o755)
    desk.lease(top)
    desk.chain(top, LONG_NAME, LONG_PATH)
    path = b"/d%d/p/" % desk.client + b"/".join([NEXT, *[LONG_NAME] * LONG_PATH])
    renamed = desk.call([Rename(above, LAST, above, NEXT)], [NameRow(above, LAST, 0), NameRow(above, NEXT, top)])
    return [Harm("flood", sent(renamed, lease_by_path(desk.client, desk.until, path)), 1)]


def path_begun(daemon, run):
    """Gives the renamed directory the name with which the counts of a run begin."""
    desk = Desk(daemon, HOSTILE)
    desk.connection.send(1, frames.find(1, b"d%d" % desk.client))
    home = desk.connection.reply().answer.number
    desk.connection.send(1, frames.find(home, b"p"))
    above = desk.connection.reply().answer.number
    desk.connection.send(1, frames.names(above, 65_536))
    ((was, top),) = desk.connection.reply().answer.names
    begun = b"%08x" % (run << OF_A_RUN)
    if was != begun:
        desk.land([Rename(above, was, above, begun)], [NameRow(above, was, 0), NameRow(above, begun, top)])


def six(daemon):
    """Six kinds at once, with fewer connections than a user may have."""
    parts = [flood(read_of(daemon), 32), Harm("flood", TOO_LONG, 60), flood(junk(60_000), 60), Harm("flood", NUMBERED, 32)]
    return [*parts, OPEN, flood(DROP, 32)]


KINDS = [
    # of two processes, since to send these costs as much as to pass them over
    Kind("over the limit, 64", always(*[Harm("flood", TOO_LONG, 32)] * 2)),
    Kind("over the limit, 250", always(*[Harm("flood", TOO_LONG, 125)] * 2)),
    Kind("junk of 4 MiB, 250", always(flood(junk(4 << 20), 250))),
    Kind("junk of 60,000, 250", always(flood(junk(60_000), 250))),
    Kind("wrong logs of 1 MB", wrong_logs),
    Kind("forged frames", forged),
    Kind("random frames", at_random),
    Kind("empty frames", always(flood(b"", 32))),
    Kind("hellos", always(flood(HELLO, 32))),
    Kind("refused calls, 32", always(flood(DROP, 32))),
    Kind("numbered calls, 32", always(Harm("flood", NUMBERED, 32))),
    Kind("reads of 65,000, 32", reads),
    Kind("unread replies, 32", unread),
    Kind("resets in replies, 32", resets),
    Kind("open and close", always(OPEN)),
    Kind("open and close, unlisted", always(OPEN._replace(user=UNLISTED))),
    Kind("more connections than allowed", too_many),
    Kind("slow ones, 250", always(Harm("slow", sent(DROP), 250))),
    Kind("idle ones, 1,000", idle),
    Kind("wants, 250 wait", wants),
    Kind("tier 0 filled, long files", fill(40, 64, 65_536)),
    Kind("tier 0 filled, short files", fill(80, 15, 61_440), tiers=(256, *TIERS[1:])),
    Kind("names of 12,000, 32", names),
    Kind("leases of 12,000, 1", leases(FEW, 1, 1)),
    Kind("leases of 12,000, 16", leases(FEW, 1, 16)),
    Kind("leases of 240,080, 1", leases(MANY, 4, 1)),
    Kind("leases of 240,080, 16", leases(MANY, 4, 16)),
    Kind("plans of renames, 32", hard_plans(renames, 32)),
    Kind("plans of deep moves, 32", hard_plans(deep_moves, 32)),
    Kind("logs of renames, 32", hard(renames, 32)),
    Kind("logs of deep moves, 32", hard(deep_moves, 32)),
    Kind("leases by long paths", long_paths, path_begun),
    Kind("six kinds at once", six),
]

"""Scripts made from a seed: right lines and hostile ones.

A maker keeps a session beside its lines, so that it knows which logs and plans are right, and spoils some of them.
"""
import random

from . import spoil
from .codec import DIRECTORY, FILE, Chmod, Create, Extent, Header, Link, Log, NameRow, RawImage, RawNode, Regroup, Rename
from .codec import BLOCK, Truncate, Unlink, Write, encode_image, encode_log, encode_plan
from .desk import Session
from .judge import ROOT, AllHeld, Fault, Judge
from .plans import right_plan, segments_after

U32, U64 = (1 << 32) - 1, (1 << 64) - 1

NAMES = [b"a", b"b", b"c", b"d", b"e", b"f", b"..."]
RARE_NAMES = [b"x" * 255, b"\xff", b"\x01", b"a\n", b" ", b"ab", b"aa", b"A"]
UIDS, GROUPS = [0, 1000, 1001, 1002, U32], [0, 50, 1000, 1001, U32]
GRANTS = [(2, 39), (40, 79), (80, 119), (65_500, 65_536)]
MODES = [0o777, 0o777, 0o1777, 0o1777, 0o755, 0o700, 0o644, 0o600, 0o070, 0o007, 0o555, 0o1755, 0]
TIERS = [0, 1, 2, 3, 4, 6]
ENDS = [10, 20, 100, 1_000, U64]
EDGES = [0, 1, 5, 4_095, 4_096, 4_097, 8_191, 8_192, 12_288]
FAR = [(1 << 32) - 1, 1 << 32, (1 << 32) + 1, (1 << 32) - 4_096, (1 << 63), U64]
# The file that has as many names as it may, in some images.
MANY_NAMES = 120

BAD_NUMBERS = [0, 1, 65_536, 65_537, U32]

# How often each kind of line comes.
WEIGHTS = {
    "submit": 34,
    "judge": 9,
    "land": 9,
    "lease": 10,
    "drop": 4,
    "tick": 2,
    "node": 5,
    "list": 4,
    "read": 7,
    "docket": 1,
    "save": 1,
    "move": 5,
    "plan": 4,
    "bad": 4,
}


class Maker:
    def __init__(self, seed, without=()):
        self.random = random.Random(seed)
        self.weights = {kind: weight for kind, weight in WEIGHTS.items() if kind not in without}
        self.session, self.lines, self.replies = Session(), [], []
        # Entries that build on the last ones of the same log.
        self.next_entries = []

    def say(self, line):
        line = line if isinstance(line, bytes) else line.encode()
        self.lines.append(line)
        self.replies.append(self.session.expected(line))
        return self.replies[-1]

    def chance(self, of_hundred):
        return self.random.randrange(100) < of_hundred

    def one(self, values):
        return self.random.choice(list(values))

    def script(self, count):
        self.open()
        kinds, weights = list(self.weights), list(self.weights.values())
        while len(self.lines) < count:
            getattr(self, self.random.choices(kinds, weights)[0])()
        self.close()
        return self.lines

    # ---- The opening

    def open(self):
        while not self.session.has_begun:
            if self.chance(15):
                self.bad()
            for _ in range(self.one([0, 0, 2, 5])):
                self.say(f"image {self.image_word()}")
            if self.session.tree is None or self.chance(10):
                sizes = [self.one(TIERS) for _ in range(3)]
                self.say(f"new {' '.join(map(str, sizes))}" if self.chance(95) else f"new 65536 {self.one(BAD_NUMBERS)} 8")
            for index in range(self.random.randint(1, 4)):
                self.say(self.client_line(index))
            self.say(f"begin {self.one([0, 3, 20]) if self.chance(4) else self.one([1_000, U32])}")

    def client_line(self, index):
        number = 7 + index if self.chance(97) else self.one([7, 0, U32])
        first, last = GRANTS[index] if self.chance(95) else self.one([(5, 4), (0, 9), (1, 65_537), (65_536, 65_536), (1, 1)])
        groups = self.random.sample(GROUPS, self.random.randint(0, 3)) if self.chance(95) else [50] * self.one([15, 16, 17, 18, 40])
        words = ["client", number, self.one(UIDS), self.one(GROUPS), int(self.chance(15)), first, last, *groups]
        return " ".join(map(str, words))

    def image_word(self):
        raw = self.raw_image()
        for _ in range(self.one([0, 0, 1, 1, 2])):
            raw = spoil.image(self.random, raw)
        data = encode_image(raw)
        return spoil.word(self.random, spoil.cut(self.random, data) if self.chance(15) else data)

    def image_input(self):
        """Returns what a word that takes an image is given to read: a line, sometimes spoiled, with or without its end."""
        line = self.image_word().encode()
        if self.chance(10):
            line = spoil.line(self.random, line)
        return line + self.one([b"", b"\n", b"\n", b"\nnone\n"])

    def raw_image(self):
        """Returns a well formed image of a few nodes, some with blocks."""
        sizes = tuple(self.one(TIERS[2:]) for _ in range(3))
        version = self.one([1, 2])
        greatest = 0o777 if version == 1 else 0o1777
        nodes, names = {ROOT: self.raw_header(DIRECTORY, greatest)}, {}
        for number in sorted(self.random.sample([*range(2, 119), 65_536], self.random.randint(0, 9))):
            kind = self.one([FILE, DIRECTORY])
            directories = [it for it, header in nodes.items() if header.kind == DIRECTORY]
            held = {(self.one(directories), self.one(NAMES)) for _ in range(1 if kind == DIRECTORY else self.random.randint(1, 3))} - names.keys()
            if held:
                names |= {key: number for key in held}
                nodes[number] = self.raw_header(kind, greatest)._replace(links=len(held))
        if self.chance(10):
            nodes[MANY_NAMES] = self.raw_header(FILE, greatest)._replace(links=self.one([1_023, 1_024]))
            names |= {(ROOT, b"n%04d" % index): MANY_NAMES for index in range(nodes[MANY_NAMES].links)}
        rows = [NameRow(*key, number) for key, number in sorted(names.items())]
        return RawImage(version, sizes, [RawNode(*it) for it in sorted(nodes.items())], rows, self.extents(nodes, sizes))

    def raw_header(self, kind, greatest):
        size = self.one([0, 1, 10, 4_096, 4_097, 9_000, 1 << 32]) if kind == FILE else 0
        mode = self.mode(1 if greatest == 0o777 else 2, kind)
        return Header(kind, min(mode, greatest), self.one(UIDS), self.one(GROUPS), 1, size)

    def extents(self, nodes, sizes):
        free = [(tier, place) for tier in range(3) for place in range(sizes[tier])]
        found = []
        for number, header in sorted(nodes.items()):
            blocks = -(-header.size // BLOCK)
            for block in sorted({0, 1, blocks - 1} & set(range(blocks))):
                if free and self.chance(60):
                    place = free.pop(0 if self.chance(60) else self.random.randrange(len(free)))
                    data = bytes([self.random.randrange(256)]) * BLOCK
                    found.append(Extent(number, block, *place, 1, data))
        return found

    # ---- Logs

    def any_client(self):
        clients = list(self.session.clients.values())
        return self.one(clients) if clients else None

    def number_of_client(self):
        return self.one(self.session.clients) if self.session.clients and self.chance(97) else self.one([0, 6, 7, 8, U32])

    def directory(self, tree):
        found = [number for number, node in tree.nodes.items() if node.kind == DIRECTORY]
        return self.one(found) if self.chance(93) else self.number(tree)

    def number(self, tree):
        return self.one(tree.nodes) if self.chance(90) else self.one([*BAD_NUMBERS, *range(2, 12)])

    def file(self, tree):
        found = [number for number, node in tree.nodes.items() if node.kind == FILE]
        return self.one(found) if found and self.chance(95) else self.number(tree)

    def new_name(self):
        return self.one(NAMES) if self.chance(92) else self.one(RARE_NAMES)

    def old_name(self, tree):
        """Returns a directory and a name in it, mostly ones that are there."""
        if tree.names and self.chance(93):
            return self.one(sorted(tree.names)[-40:])
        return self.directory(tree), self.new_name()

    def granted(self, tree, client):
        free = [it for it in range(client.first, min(client.last, client.first + 30) + 1) if it not in tree.nodes]
        return self.one(free) if free and self.chance(94) else self.one([*BAD_NUMBERS, client.last, client.last + 1, client.first - 1 or 1])

    def mode(self, version, kind=FILE):
        """Returns a mode; most directories are open to all."""
        mode = self.one(MODES) if self.chance(90) else self.random.randrange(0o2000)
        mode |= 0o777 if kind == DIRECTORY and self.chance(70) else 0
        return mode & 0o777 if version == 1 and self.chance(98) else mode

    def place(self, tree, number):
        size = tree.nodes[number].size if number in tree.nodes else 0
        if self.chance(4):
            return self.one(FAR)
        return max(0, self.one([*EDGES, size, size, size + 1, size - 1, self.random.randrange(9_000)]))

    def payload(self):
        length = self.one([0, 1, 2, 3, 7, 20]) if self.chance(90) else self.one([100, 4_096, 4_097, 8_200])
        return bytes(self.random.randrange(1, 256) for _ in range(min(length, 40))).ljust(length, b"#")

    def follow(self, entry, before, after):
        """Has a later entry of the log build on one that was allowed: a file that was cut grows again, and one that has another
        group is written to."""
        node = after.nodes.get(getattr(entry, "number", None))
        if node is None or node.kind != FILE or not self.chance(50):
            return
        if type(entry) is Truncate and node.size < before.nodes[entry.number].size:
            size = before.nodes[entry.number].size
            self.next_entries.append(self.one([Truncate(entry.number, size + 1), Write(entry.number, size, b"+")]))
        if type(entry) is Regroup:
            self.next_entries.append(self.one([Truncate(entry.number, node.size), Write(entry.number, 0, b"+")]))

    def entry(self, tree, client, version):
        if self.next_entries:
            return self.next_entries.pop()
        kinds = ("create", "write", "truncate", "link", "unlink", "rename", "chmod", "regroup")
        match self.random.choices(kinds, (22, 26, 12, 8, 10, 14, 6, 4))[0]:
            case "create":
                kind = self.one([FILE, FILE, DIRECTORY])
                return Create(self.directory(tree), self.new_name(), self.granted(tree, client), kind, self.mode(version, kind))
            case "write":
                number = self.file(tree)
                return Write(number, self.place(tree, number), self.payload())
            case "truncate":
                number = self.file(tree)
                return Truncate(number, self.place(tree, number))
            case "link":
                number = MANY_NAMES if MANY_NAMES in tree.nodes and self.chance(50) else self.file(tree)
                return Link(number, self.directory(tree), self.new_name())
            case "unlink":
                directory, name = self.old_name(tree)
                target = tree.names.get((directory, name))
                kind = tree.nodes[target].kind if target and self.chance(92) else self.one([FILE, DIRECTORY])
                return Unlink(directory, name, kind)
            case "rename":
                directory, name = self.old_name(tree)
                other = self.old_name(tree) if self.chance(30) else (self.directory(tree), self.new_name())
                if self.chance(15):
                    other = tree.names.get((directory, name), directory), self.new_name()
                return Rename(directory, name, *other)
            case "chmod":
                return Chmod(self.number(tree), self.mode(version))
            case "regroup":
                return Regroup(self.number(tree), self.one([client.gid, *client.groups]) if self.chance(80) else self.one(GROUPS))

    def log(self, client):
        """Returns a log, most of whose entries are allowed where all leases are held, and the nodes whose leases it needs."""
        version = self.one([1, 2, 2])
        judge, entries = Judge(self.session.tree, AllHeld(), client), []
        self.next_entries = []
        for _ in range(self.random.randint(0, 9)):
            entry = self.entry(judge.tree, client, version)
            if version == 1 and type(entry) is Regroup and self.chance(95):
                continue
            before = judge.tree.copy(), set(judge.created)
            try:
                judge.enter(entry)
                self.follow(entry, before[0], judge.tree)
            except Fault:
                judge.tree, judge.created = before
                if self.chance(80):
                    continue
            entries.append(entry)
        return Log(version, client.number, entries), sorted(cell[1] for cell in judge.looked if cell[0] == "lease")

    def path_of(self, number):
        """Returns a path to a node, None where it has a byte that no word can have."""
        names = []
        while number != ROOT:
            held = sorted(key for key, target in self.session.tree.names.items() if target == number)
            if not held:
                return None
            number, name = self.one(held[:3])
            names.append(name)
        path = b"/" + b"/".join(reversed(names))
        return None if set(path) & {0x20, 0x0A} else path

    def lease_on(self, client, number, kind):
        path = self.path_of(number)
        if path:
            end = self.one(ENDS) if self.chance(60) else U64
            return self.say(b"lease %d %s %s %d" % (client, path, kind, end))
        return None

    def take_leases(self, client, numbers):
        leases = self.session.leases
        for number in numbers:
            if leases.holds(client.number, number) or number not in self.session.tree.nodes or self.chance(3):
                continue
            for holder in list(leases.on(number)):
                if holder != client.number:
                    self.say(f"drop {holder} {number}")
            self.lease_on(client.number, number, b"w")

    def plan_of(self, log):
        """Returns the right plan of a log, where it has one, and else that of the entries before the first fault."""
        before, entries = self.session.tree, log.entries
        judge = Judge(before, self.session.leases, self.session.clients[log.client])
        fault = judge.run(entries)
        if fault:
            entries = entries[: int(fault.split()[1])]
        return right_plan(self.one([1, 2]), before, judge.tree, segments_after(before, judge.tree, entries))

    def submission(self):
        """Returns the words of a submission, mostly a right one."""
        client = self.any_client()
        if client is None:
            return f"{self.one([7, U32])} 4b4c4f4701000000070000 4b504c4e010000000000000000"
        log, needed = self.log(client)
        self.take_leases(client, needed)
        plan = self.plan_of(log)
        if self.chance(30):
            plan = spoil.plan(self.random, plan)
        words = [encode_log(log), encode_plan(plan)]
        if self.chance(10):
            at = self.random.randrange(2)
            words[at] = spoil.cut(self.random, words[at])
        number = client.number if self.chance(98) else self.number_of_client()
        return f"{number} {spoil.word(self.random, words[0])} {spoil.word(self.random, words[1])}"

    # ---- Lines

    def submit(self):
        self.say(f"submit {self.submission()}")

    def judge(self):
        words = self.submission()
        worker = self.random.randrange(8) if self.chance(97) else self.one([8, 9, U32])
        self.say(f"judge {worker} {words}")

    def land(self):
        held = list(self.session.hands)
        self.say(f"land {self.one(held) if held and self.chance(90) else self.random.randrange(9)}")

    def lease(self):
        client, kind = self.number_of_client(), self.one([b"r", b"w"])
        if self.chance(75):
            self.lease_on(client, self.one(self.session.tree.nodes), kind)
            return
        paths = [b"/", b"//", b"/a/", b"a", b"/.", b"/..", b"/a/b/c", b"/\0", b"/" + b"y" * 255, b"/" + b"y" * 256, b"/a", b"/b/a"]
        self.say(b"lease %d %s %s %d" % (client, self.one(paths), kind, self.one([0, self.session.leases.moment, *ENDS])))

    def drop(self):
        held = [(client, number) for number, held in self.session.leases.rows.items() for client in held]
        client, number = self.one(held) if held and self.chance(80) else (self.number_of_client(), self.one([1, 2, 70_000, U32]))
        self.say(f"drop {client} {number}")

    def tick(self):
        moment = self.session.leases.moment
        self.say(f"tick {self.one([moment, moment + 1, moment + 7, max(0, moment - 1)]) if self.chance(97) else self.one(ENDS)}")

    def node(self):
        self.say(f"node {self.number(self.session.tree)}")

    def list(self):
        self.say(f"list {self.directory(self.session.tree)}")

    def read(self):
        number = self.file(self.session.tree)
        start = max(0, self.place(self.session.tree, number) - self.one([0, 0, 3, 10]))
        self.say(f"read {number} {start} {self.one([0, 1, 16, 40, 4_100]) if self.chance(97) else self.one([65_536, 65_537])}")

    def docket(self):
        self.say("docket")

    def save(self):
        self.say("save")

    def move(self):
        """Moves blocks. Only where they may go to tier 0, the places of the others there have to be known."""
        tiers = [1, 2]
        if self.chance(25):
            self.say("save")
            tiers = [0, 1, 2]
        placement, sizes = self.session.placement, self.session.sizes
        used, words = set(placement.values()), []
        for _ in range(self.random.choices([1, 2, 3, 1_024, 1_025], [60, 25, 12, 1, 1])[0]):
            number, block = self.one(placement) if placement and self.chance(93) else (self.one([1, 2, 5, U32]), self.one([0, 1, U32]))
            tier = self.one(tiers) if self.chance(96) else self.one([3, 255])
            free = [it for it in range(sizes[tier] if tier < 3 else 0) if (tier, it) not in used]
            taken = [it for other, it in used if other == tier]
            place = self.one(free) if free and self.chance(80) else self.one([*sorted(taken)[:8], 0, 1, 8, 65_536, U32])
            words += [number, block, tier, place]
        self.say(f"move {' '.join(map(str, words))}")

    def plan(self):
        client = self.any_client()
        if client is None:
            return
        log, _needed = self.log(client)
        data = encode_log(log)
        number = client.number if self.chance(95) else self.number_of_client()
        self.say(f"plan {number} {spoil.word(self.random, spoil.cut(self.random, data) if self.chance(10) else data)}")

    def bad(self):
        self.say(spoil.line(self.random, self.one(self.lines[-20:] or [b"new 8 8 8"])))

    def close(self):
        """Lands what is held, and shows all that there is."""
        for worker in range(8):
            self.say(f"land {worker}")
        for number, node in sorted(self.session.tree.nodes.items()):
            self.say(f"node {number}")
            if node.kind == DIRECTORY:
                self.say(f"list {number}")
            else:
                for start in sorted({0, 4_090, 8_186, max(0, node.size - 16)}):
                    self.say(f"read {number} {start} 20")
        self.say("docket")
        self.say("save")

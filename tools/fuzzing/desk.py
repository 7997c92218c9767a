"""A session of the program: what each line is answered (docs/FORMATS.md, "The command lines of `kfs run`").

Three things are left open there, and are taken from the program's own reply: on which places of tier 0 the blocks of a
landing lie, which `save` shows; whether a verdict is judged again where something at which its log looked has changed and
the judgement has not; and into which pieces a made plan is cut.
"""
import re

from .codec import BLOCK, DIRECTORY, FILE, TIER_LIMIT, ZERO, Refused, Truncate, Write
from .codec import decode_image, decode_log, decode_plan, encode_plan
from .images import Content, contents_of, finding, image_bytes, placement_of, tree_of
from .judge import AllHeld, Client, Judge, Leases, fresh_tree, seen
from .plans import blocks_written, first_wrong_row, marks_in, right_plan, segments_after

U32, U64 = (1 << 32) - 1, (1 << 64) - 1
GROUP_LIMIT, READ_LIMIT, MOVE_LIMIT, LAST_WORKER, LINE_LIMIT = 16, 65_536, 1_024, 7, 16_777_216
LAST_NUMBER = 65_536
BAD = b"bad line"


class BadLine(Exception):
    """The line is no command, comes at another time or has a number out of its range."""


class LongLine(Exception):
    """The line is too long: the program ends, and answers neither this line nor a later one."""


class Unknown(Exception):
    """What is due can't be told from the lines so far: blocks move to tier 0, and no `save` has told where others lie."""


class Words:
    """The words of a line, taken one by one."""

    def __init__(self, line):
        self.words = line.split(b" ")[::-1]

    def word(self):
        if not self.words or not self.words[-1]:
            raise BadLine
        return self.words.pop()

    def number(self, greatest=U32):
        word = self.word()
        if not re.fullmatch(rb"[0-9]+", word) or int(word) > greatest:
            raise BadLine
        return int(word)

    def numbers(self, *greatest):
        return [self.number(it) for it in greatest]

    def bytes(self):
        word = self.word()
        if word == b"-":
            return b""
        if len(word) % 2 or not re.fullmatch(rb"[0-9a-fA-F]+", word):
            raise BadLine
        return bytes.fromhex(word.decode())

    def end(self):
        if self.words:
            raise BadLine

    # Each of these reads the words that are left, of a call.

    def lease(self):
        client, path, kind, end = self.number(), self.word(), self.word(), self.number(U64)
        self.end()
        if kind not in (b"r", b"w"):
            raise BadLine
        return client, path, kind.decode(), end

    def drop(self):
        client, number = self.numbers(U32, U32)
        self.end()
        return client, number

    def tick(self):
        moment = self.number(U64)
        self.end()
        return (moment,)

    def submission(self):
        client, log, plan = self.number(), self.bytes(), self.bytes()
        self.end()
        return client, log, plan

    def moves(self):
        moves = [tuple(self.numbers(U32, U32, 255, U32))]
        while self.words:
            moves.append(tuple(self.numbers(U32, U32, 255, U32)))
        return (moves,)


def hex_of(data):
    return data.hex() or "-"


def node_line(number, header):
    kind, mode, *numbers = header
    return f"node {number} {'dir' if kind == DIRECTORY else 'file'} {mode:04o} {' '.join(map(str, numbers))}"


class Verdict:
    """What was found out of a submission in a state, and what that state showed where the log's checks looked."""

    def __init__(self, state, number, log, plan):
        self.submission = (number, log, plan)
        self.log, self.judge, self.segments, self.need = None, None, {}, 0
        self.fault = self.find(state, number, log, plan)
        self.seen = self.answers(state)

    def find(self, state, number, log, plan):
        if number not in state.clients:
            return "client unknown"
        try:
            self.log = decode_log(log)
        except Refused as refused:
            return f"log {refused}"
        if self.log.client != number:
            return "client wrong"
        try:
            plan = decode_plan(plan)
        except Refused as refused:
            return f"plan {refused}"
        return self.judged(state, state.clients[number], plan)

    def judged(self, state, client, plan):
        self.judge = Judge(state.tree, state.leases, client)
        fault = self.judge.run(self.log.entries)
        if fault:
            return fault
        self.segments = segments_after(state.tree, self.judge.tree, self.log.entries)
        self.need = len(blocks_written(self.segments))
        return first_wrong_row(state.tree, self.judge.tree, self.segments, plan)

    def answers(self, state):
        if self.judge is None:
            return {}
        return {cell: seen(state.tree, state.leases, self.judge.client, cell) for cell in self.judge.looked}

    def outcome(self):
        return self.fault or f"need={self.need}"


class Session:
    """The state of a session. `expected` answers line by line; with the program's reply beside it, it takes from that what is
    left open."""

    def __init__(self):
        self.tree, self.placement, self.contents, self.sizes = None, {}, {}, (0, 0, 0)
        self.rows, self.clients, self.leases = [], {}, Leases()
        self.has_begun, self.limit, self.docket = False, 0, 0
        self.hands, self.guessed, self.reply = {}, set(), None

    def expected(self, line, reply=None):
        """Returns the reply to a line, without its end."""
        if len(line) > LINE_LIMIT:
            raise LongLine
        self.reply = reply
        words = Words(line)
        try:
            name = words.word()
            table = self.OF_DESK if self.has_begun else self.OPENING
            if name not in table:
                raise BadLine
            answer = table[name](self, words)
        except BadLine:
            return BAD
        return answer.encode()

    # ---- Before the desk is begun

    def new(self, words):
        sizes = words.numbers(U32, U32, U32)
        words.end()
        if max(sizes) > TIER_LIMIT:
            raise BadLine
        self.sizes, self.tree, self.placement, self.contents = tuple(sizes), fresh_tree(), {}, {}
        return "ok"

    def image(self, words):
        data = words.bytes()
        words.end()
        try:
            raw = decode_image(data)
        except Refused as refused:
            return f"image {refused}"
        found = finding(raw)
        if found:
            return found
        self.sizes, self.tree = raw.sizes, tree_of(raw)
        self.placement, self.contents = placement_of(raw), contents_of(raw)
        return "ok"

    def client(self, words):
        number, uid, gid = words.numbers(U32, U32, U32)
        privileged, first, last = words.numbers(1, U32, U32)
        groups = []
        while words.words:
            groups.append(words.number())
        if len(groups) > GROUP_LIMIT:
            return "client TooManyGroups"
        if first == 0 or last > LAST_NUMBER:
            return "client BadGrant"
        self.rows.append(Client(number, uid, gid, bool(privileged), first, last, tuple(groups)))
        return "ok"

    def begin(self, words):
        limit = words.number()
        words.end()
        if self.tree is None:
            raise BadLine
        rows, self.rows = self.rows, []
        for index, row in enumerate(rows):
            if any(row.number == it.number for it in rows[:index]):
                return f"begin ClientTwice({index})"
            if any(max(row.first, it.first) <= min(row.last, it.last) for it in rows[:index]):
                return f"begin GrantOverlap({index})"
        self.clients = {row.number: row for row in rows}
        self.has_begun, self.limit = True, limit
        return "ok"

    # ---- Calls that take a row of the docket

    def in_row(self, call):
        """Adds a row with the answer of this call, unless the docket is full."""
        if self.docket == self.limit:
            return "full"
        answer = call()
        self.docket += 1
        return f"{self.docket - 1} {answer}"

    def on_client(self, number, call):
        return call(self.clients[number]) if number in self.clients else "refused UnknownClient"

    def lease(self, words):
        return self.ask_lease(*words.lease())

    def ask_lease(self, number, path, kind, end):
        return self.in_row(lambda: self.on_client(number, lambda client: self.leases.grant(self.tree, client, path, kind, end)))

    def ask_lease_at(self, number, node, kind, end):
        return self.in_row(lambda: self.on_client(number, lambda client: self.leases.grant_at(self.tree, client, node, kind, end)))

    def drop(self, words):
        return self.give_up(*words.drop())

    def give_up(self, number, node):
        return self.in_row(lambda: self.on_client(number, lambda client: self.leases.drop(number, node)))

    def tick(self, words):
        return self.go_on(*words.tick())

    def go_on(self, moment):
        return self.in_row(lambda: self.leases.tick(moment))

    def submit(self, words):
        return self.hand_in(*words.submission())

    def hand_in(self, number, log, plan):
        return self.in_row(lambda: self.landed(Verdict(self, number, log, plan), 0))

    def judge(self, words):
        worker = words.number(LAST_WORKER)
        submission = words.submission()
        if worker in self.hands:
            raise BadLine
        self.hands[worker] = Verdict(self, *submission)
        return f"judged {worker}"

    def land(self, words):
        worker = words.number(LAST_WORKER)
        words.end()
        if worker not in self.hands:
            raise BadLine
        held = self.hands.pop(worker)
        if self.docket == self.limit:
            return "full"
        now = Verdict(self, *held.submission)
        return self.in_row(lambda: self.landed(now, self.rejudged(held, now)))

    def rejudged(self, held, now):
        """Whether a held verdict has to be judged again: 0 where its log sees what it saw, 1 where its outcome is another.
        Between these it is the program's choice, as which cells a judgement keeps is left open."""
        if held.answers(self) == held.seen:
            return 0
        if held.outcome() != now.outcome():
            return 1
        return 0 if self.reply and b"rejudged=0" in self.reply else 1

    def landed(self, verdict, rejudged):
        if verdict.fault:
            return f"no rejudged={rejudged} {verdict.fault}"
        free = self.free(0)
        if verdict.need > free:
            return f"noroom rejudged={rejudged} need={verdict.need} free={free}"
        self.make(verdict)
        return f"yes rejudged={rejudged} need={verdict.need}"

    def move(self, words):
        return self.move_blocks(*words.moves())

    def move_blocks(self, moves):
        return self.in_row(lambda: self.moved(moves))

    def moved(self, moves):
        if len(moves) > MOVE_LIMIT:
            return "refused TooManyMoves"
        used, targets, sources = set(self.placement.values()), set(), set()
        for index, (number, block, tier, place) in enumerate(moves):
            fault = self.move_fault((number, block), (tier, place), used, sources, targets)
            if fault:
                return f"refused {fault}({index})"
            sources.add((number, block))
            targets.add((tier, place))
        for number, block, tier, place in moves:
            self.placement[number, block] = (tier, place)
            self.guessed.discard((number, block))
        return f"moved {len(moves)}"

    def move_fault(self, source, target, used, sources, targets):
        tier, place = target
        if source not in self.placement:
            return "NotMapped"
        if tier > 2 or place >= self.sizes[tier]:
            return "OutOfRange"
        if tier == 0 and self.guessed and self.reply is not None:
            raise Unknown
        if target in used:
            return "NotFree"
        return "Overlap" if target in targets or source in sources else None

    # ---- A landing

    def free(self, tier):
        return self.sizes[tier] - sum(1 for it, _ in self.placement.values() if it == tier)

    def make(self, verdict):
        """Makes the change of a log that is right and for which there is room."""
        written = blocks_written(verdict.segments)
        self.tree = verdict.judge.tree
        self.contents = self.contents_after(verdict)
        self.leases.drop_gone(self.tree.nodes)
        taken = set(self.placement.values())
        free = (place for place in range(self.sizes[0]) if (0, place) not in taken)
        kept = {at: place for at, place in self.placement.items() if at not in written and self.stays(at, verdict.segments)}
        self.placement = kept | {at: (0, next(free)) for at in sorted(written)}
        self.guessed = (self.guessed & kept.keys()) | written

    def stays(self, at, segments):
        """Whether a block that isn't written still lies where it lay: its file is there, and has a byte in it that isn't
        zero by the log."""
        number, block = at
        if number not in self.tree.nodes or block * BLOCK >= self.tree.nodes[number].size:
            return False
        return number not in segments or marks_in(segments[number], block) != {ZERO}

    def contents_after(self, verdict):
        """Runs the log on bytes."""
        contents = {number: self.contents[number] for number in self.contents if number in self.tree.nodes}
        changed = set()
        for entry in verdict.log.entries:
            if type(entry) not in (Write, Truncate) or entry.number not in self.tree.nodes:
                continue
            number = entry.number
            if number not in changed:
                changed.add(number)
                contents[number] = contents[number].copy() if number in contents else Content()
            if type(entry) is Truncate:
                contents[number].cut(entry.size)
            else:
                contents[number].put(entry.offset, entry.payload)
        for number, node in self.tree.nodes.items():
            if node.kind == FILE and number not in contents:
                contents[number] = Content()
        return contents

    # ---- Lines that show something

    def node(self, words):
        number = words.number()
        words.end()
        header = self.tree.header(number)
        if header is None:
            return "none"
        return node_line(number, header)

    def list(self, words):
        number = words.number()
        words.end()
        if number not in self.tree.nodes or self.tree.nodes[number].kind == FILE:
            return "none"
        return f"list {number}" + "".join(f" {name.hex()}:{target}" for name, target in self.tree.listed(number))

    def read(self, words):
        number, start, count = words.numbers(U32, U64, READ_LIMIT)
        words.end()
        if number not in self.tree.nodes:
            return "read NoSuchNode"
        node = self.tree.nodes[number]
        if node.kind == DIRECTORY:
            return "read IsDirectory"
        return f"bytes {hex_of(self.contents[number].read(start, min(start + count, node.size)))}"

    def docket_length(self, words):
        words.end()
        return f"docket {self.docket}"

    def save(self, words):
        words.end()
        self.take_places()
        return f"image {image_bytes(self.sizes, self.tree, self.placement, self.contents).hex()}"

    def take_places(self):
        """Takes the places of the last landings from the program's reply, where these could be so."""
        if self.reply is None or not self.reply.startswith(b"image "):
            return
        try:
            placement = placement_of(decode_image(bytes.fromhex(self.reply[6:].decode())))
        except (Refused, ValueError):
            return
        known = {at: place for at, place in self.placement.items() if at not in self.guessed}
        told = {at: placement.get(at) for at in self.guessed}
        places = list(told.values())
        are_lawful = all(it and it[0] == 0 and it[1] < self.sizes[0] for it in places)
        if are_lawful and len(set(places)) == len(places) and not set(places) & set(known.values()):
            self.placement, self.guessed = known | told, set()

    def plan(self, words):
        number, log = words.number(), words.bytes()
        words.end()
        if number not in self.clients:
            raise BadLine
        made = self.made_plan(number, log)
        return f"plan {encode_plan(made).hex()}" if made else "plan none"

    def made_plan(self, number, data):
        """The plan that the program made, where it is right; else one that is. None where the log isn't the client's, or an
        entry isn't allowed to one who holds every node."""
        try:
            log = decode_log(data)
        except Refused:
            return None
        judge = Judge(self.tree, AllHeld(), self.clients[number])
        if log.client != number or judge.run(log.entries):
            return None
        segments = segments_after(self.tree, judge.tree, log.entries)
        try:
            made = decode_plan(bytes.fromhex(self.reply[5:].decode()))
            if made.version == log.version and not first_wrong_row(self.tree, judge.tree, segments, made):
                return made
        except (Refused, ValueError, TypeError):
            pass
        return right_plan(log.version, self.tree, judge.tree, segments)

    OPENING = {b"new": new, b"image": image, b"client": client, b"begin": begin}
    OF_DESK = {
        b"lease": lease,
        b"drop": drop,
        b"tick": tick,
        b"submit": submit,
        b"judge": judge,
        b"land": land,
        b"move": move,
        b"node": node,
        b"list": list,
        b"read": read,
        b"docket": docket_length,
        b"save": save,
        b"plan": plan,
    }

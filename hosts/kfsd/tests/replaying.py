"""A model that replays what a desk has kept: each call of its journal, in order, and what is there behind all of them.

A `Follower` copies the groups of the two files while they are written. The `Model` makes their calls with the reference of
tools/fuzzing: each answer in the journal has to be the one that is due. It is quick since it looks at a user's own part of the
tree alone, which is all that these users' logs are about.
"""
import os
import struct
import threading

from fuzzing.calls import CallSession, Drop, Lease, LeaseAt, Migrate, Submit, Tick, decode_call
from fuzzing.frames import told_in
from fuzzing.images import contents_of, tree_of
from fuzzing.judge import Client, Leases, fresh_tree
from fuzzing.plans import blocks_written
from running import frames

ROOT, MARK, NO_TIER, NAMES_LIMIT = 1, 29, 0xFF, 65_536


class Follower(threading.Thread):
    """Copies the groups of a journal to a file, while the journal is written and begun anew."""

    def __init__(self, folder, path):
        super().__init__(daemon=True)
        self.files = [open(f"{folder}/{name}", "rb", buffering=0) for name in ("first.kdjl", "second.kdjl")]
        self.copy, self.is_over, self.fault, self.renewals = open(path, "wb"), threading.Event(), None, 0
        heads = [self.head(which) for which in range(2)]
        self.which = max((which for which in range(2) if heads[which]), key=lambda which: heads[which][0])
        self.number, self.at = heads[self.which]
        assert self.number == 0, "the journal was begun anew before it was followed"

    def head(self, which):
        """The number of a file and where its records begin; None where its head isn't whole."""
        data = os.pread(self.files[which].fileno(), 21, 0)
        if len(data) < 21 or data[:4] != b"KDJL" or data[12] != 1:
            return None
        return int.from_bytes(data[4:12], "big"), 21 + int.from_bytes(data[13:21], "big")

    def run(self):
        try:
            while not self.is_over.wait(0.05):
                self.follow()
            self.follow()
            self.copy.close()
        except BaseException as fault:  # noqa: BLE001
            self.fault = fault

    def end(self):
        self.is_over.set()
        self.join()
        if self.fault:
            raise self.fault

    def follow(self):
        """Copies all whole groups, up to the last one of the file that counts."""
        while True:
            self.take()
            other = self.head(1 - self.which)
            if not other or other[0] <= self.number:
                return
            # behind the other's gate nothing is added here
            self.take()
            assert other[0] == self.number + 1, "the journal was begun anew twice meanwhile"
            self.which, (self.number, self.at), self.renewals = 1 - self.which, other, self.renewals + 1

    def take(self):
        file = self.files[self.which].fileno()
        while True:
            gate = os.pread(file, 5, self.at)
            if len(gate) < 5 or gate[0] != 1:
                return
            length = int.from_bytes(gate[1:], "big")
            group = os.pread(file, length, self.at + 5)
            if len(group) < length:
                return
            assert (self.head(self.which) or (None,))[0] == self.number, "the file was begun anew while it was read"
            self.copy.write(gate[1:] + group)
            self.at += 5 + length


def groups_in(path):
    with open(path, "rb") as copy:
        while head := copy.read(4):
            yield copy.read(int.from_bytes(head, "big"))


def pairs_in(group):
    """Each call of a group with its answer, in their order."""
    at = 0
    while at < len(group):
        end = at + 4 + int.from_bytes(group[at : at + 4], "big")
        last = end + 1 + group[end]
        yield group[at + 4 : end], group[end + 1 : last]
        at = last


def calls_in(path):
    """Each call of a copy with its answer, in their order."""
    for group in groups_in(path):
        yield from pairs_in(group)


# ---- Numbered calls

def check_of(call):
    """FNV-1a, as kfsd's markers have it."""
    found = 0x811C9DC5
    for byte in call:
        found = (found ^ byte) * 0x01000193 & 0xFFFFFFFF
    return found


def marker_in(call):
    """The client and the number of a marker, and the length and the sum of the call behind it; None of other calls."""
    if len(call) != MARK or call[:7] != bytes([5, 0, 2, 0, 0, 0, 0]) or call[11] != NO_TIER or call[24] != NO_TIER:
        return None
    client, length, number, check = struct.unpack(">4xI", call[3:11])[0], *struct.unpack(">IQ", call[12:24]), struct.unpack(">I", call[25:])[0]
    return client, number, length, check


class Numbered:
    """Which numbered calls were made, and how each was answered. None is made twice."""

    def __init__(self):
        self.made, self.before = {}, None

    def next(self, call, answer):
        marker, self.before = self.before, marker_in(call)
        if marker and (len(call), check_of(call)) == marker[2:] and call[1:5] == struct.pack(">I", marker[0]):
            assert marker[:2] not in self.made, f"client {marker[0]}: number {marker[1]:x} was made twice"
            self.made[marker[:2]] = answer


def recorded(path):
    """The calls that a load says were answered to it, by client and number."""
    with open(path, "rb") as file:
        data = file.read()
    found, at = {}, 0
    while at < len(data):
        client, number, length = struct.unpack(">IQB", data[at : at + 13])
        assert (client, number) not in found
        found[client, number] = data[at + 13 : at + 13 + length]
        at += 13 + length
    return found


# ---- The model

class Part(CallSession):
    """What a user's calls are about: the root, its own directory, and what is in it."""

    def __init__(self, model, client):
        super().__init__()
        self.model, self.tree, self.contents, self.mapped = model, fresh_tree(), {}, set()
        self.clients, self.leases, self.sizes = {client.number: client}, model.leases, model.sizes
        self.limit = 1 << 62

    def free(self, tier):
        return self.sizes[tier] - (self.model.used if tier == 0 else 0)

    def make(self, verdict):
        written, before = blocks_written(verdict.segments), self.tree.nodes.keys()
        self.tree = verdict.judge.tree
        self.contents = self.contents_after(verdict)
        for number in before - self.tree.nodes.keys():
            self.leases.rows.pop(number, None)
            self.model.homes.pop(number)
        self.model.homes.update(dict.fromkeys(self.tree.nodes.keys() - before, self))
        mapped = {at for at in self.mapped if at not in written and self.stays(at, verdict.segments)} | written
        self.model.used += len(mapped) - len(self.mapped)
        self.mapped = mapped


class Model:
    """The whole desk: a part for each user, and the leases of all."""

    def __init__(self, users, sizes):
        self.leases, self.sizes, self.used, self.homes, self.count = Leases(), sizes, 0, {}, 0
        clients = [Client(it["client"], it["uid"], it["gid"], False, *it["grant"], ()) for it in users]
        self.parts = {client.number: Part(self, client) for client in clients}

    def part_of(self, call):
        match call:
            case LeaseAt(client, _, _, number):
                # the permission of a node is asked where the node is
                home = self.homes.get(number, self.parts[client])
                home.clients[client] = self.parts[client].clients[client]
                return home
            case Submit() | Lease() | Drop():
                return self.parts[call.client]
            case Tick() | Migrate():
                return next(iter(self.parts.values()))

    def replay(self, data, answer):
        """Makes a call, whose answer has to be this one."""
        call = decode_call(data)
        due = self.part_of(call).made(call).split(" ", 1)[1]
        said = told_in(answer)
        self.count += 1
        assert said == due, f"call {self.count} of the journal, {call}: {said}, and the model says {due}"

    def all(self):
        """The names and the headers of all nodes, and the bytes of all files."""
        names, headers, contents = {}, {}, {}
        for part in self.parts.values():
            names |= part.tree.names
            headers |= {number: part.tree.header(number) for number in part.tree.nodes}
            contents |= {number: it.read(0, part.tree.nodes[number].size) for number, it in part.contents.items()}
        return names, headers, contents


def replayed(path, users, sizes):
    """Replays a copy of a journal. Returns the model, and the numbered calls that were made."""
    model, numbered = Model(users, sizes), Numbered()
    for call, answer in calls_in(path):
        model.replay(call, answer)
        numbered.next(call, answer)
    return model, numbered


# ---- What is there

def of_image(raw):
    """The same of an image."""
    tree, contents = tree_of(raw), contents_of(raw)
    headers = {row.number: row.header for row in raw.nodes}
    return tree.names, headers, {number: it.read(0, headers[number].size) for number, it in contents.items()}


def looked_up(daemon):
    """The same as users are shown it through kfsd, each of its own directory."""
    names, headers, contents = {}, {}, {}
    for it in daemon.users:
        connection = daemon.connect(it["client"])

        def ask(body):
            return connection.ask(1, body).answer

        def header(number):
            found = ask(frames.node(number)).header
            return found._replace(kind=found.kind - 1)

        directory = it["grant"][0]
        names[ROOT, b"d%d" % it["client"]] = ask(frames.find(ROOT, b"d%d" % it["client"])).number
        headers |= {number: header(number) for number in (ROOT, directory)}
        listed, is_more = [], True
        while is_more:
            found = ask(frames.names(directory, NAMES_LIMIT, listed[-1][0] if listed else b""))
            listed, is_more = listed + found.names, found.more
        for name, number in listed:
            names[directory, name], headers[number] = number, header(number)
            contents[number] = ask(frames.read(number, 0, headers[number].size)).data
        connection.close()
    return names, headers, contents


def same(found, due):
    """Whether two show the same names, headers and bytes."""
    for what, one, other in zip(("names", "headers", "bytes"), found, due):
        wrong = [key for key in one.keys() | other.keys() if one.get(key) != other.get(key)]
        assert not wrong, f"{what} differ at {wrong[:3]}: {[(one.get(key), other.get(key)) for key in wrong[:3]]}"

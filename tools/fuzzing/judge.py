"""Trees, leases, and the judgement of a log's entries one by one (docs/FORMATS.md, "The order at each entry")."""
from typing import NamedTuple

from .codec import DIRECTORY, FILE, Chmod, Create, Header, Link, Regroup, Rename, Truncate, Unlink, Write, is_name

ROOT = 1
SIZE_LIMIT = 1 << 32
LINK_LIMIT = 1_024
STICKY = 0o1000
READ, WRITE, SEARCH = 4, 2, 1


class Client(NamedTuple):
    number: int
    uid: int
    gid: int
    privileged: bool
    first: int
    last: int
    groups: tuple

    def is_in(self, group):
        return group == self.gid or group in self.groups

    def owns(self, node):
        return self.privileged or self.uid == node.uid

    def may(self, node, bit):
        """Only the bits of the first class that holds count."""
        if self.privileged:
            return True
        shift = 6 if self.uid == node.uid else 3 if self.is_in(node.gid) else 0
        return bool(node.mode >> shift & bit)


class Node(NamedTuple):
    """A node but for its links, which are its names."""

    kind: int
    mode: int
    uid: int
    gid: int
    size: int = 0


class Tree:
    """Nodes by number, and names: a directory and a name lead to a number."""

    def __init__(self, nodes, names):
        self.nodes, self.names = nodes, names

    def copy(self):
        return Tree(dict(self.nodes), dict(self.names))

    def links(self, number):
        return sum(1 for target in self.names.values() if target == number)

    def header(self, number):
        node = self.nodes.get(number)
        if node is None:
            return None
        links = self.links(number) if node.kind == FILE else 1
        return Header(node.kind, node.mode, node.uid, node.gid, links, node.size)

    def count(self, directory):
        return sum(1 for holder, _ in self.names if holder == directory)

    def parent(self, number):
        """The directory that holds the name of a directory; None for the root and for all that is none."""
        if number == ROOT or number not in self.nodes or self.nodes[number].kind == FILE:
            return None
        return next((holder for (holder, _), target in self.names.items() if target == number), None)

    def listed(self, directory):
        return sorted((name, target) for (holder, name), target in self.names.items() if holder == directory)

    def drop_unnamed(self, number):
        if number != ROOT and not self.links(number):
            del self.nodes[number]


def fresh_tree():
    return Tree({ROOT: Node(DIRECTORY, 0o777, 0, 0)}, {})


class Leases:
    """Leases by node and client: their kind and end. Each one here is live, since a tick takes the others away."""

    def __init__(self):
        self.rows, self.moment = {}, 0

    def on(self, number):
        return self.rows.get(number, {})

    def holds(self, client, number):
        return self.on(number).get(client, ("", 0))[0] == "w"

    def conflict(self, client, number, kind):
        """The least other client whose lease on the node stands against one of this kind."""
        others = [holder for holder, (held, _) in self.on(number).items() if holder != client and "w" in (held, kind)]
        return min(others, default=None)

    def tick(self, moment):
        if moment < self.moment:
            return "refused Backwards"
        self.moment = moment
        for number, held in list(self.rows.items()):
            self.rows[number] = {client: lease for client, lease in held.items() if lease[1] > moment}
        return f"ticked {moment}"

    def drop(self, client, number):
        return f"dropped {number}" if self.on(number).pop(client, None) else "refused NoLeaseHeld"

    def drop_gone(self, nodes):
        """Ends the leases on what is no node."""
        self.rows = {number: held for number, held in self.rows.items() if number in nodes}

    def grant(self, tree, client, path, kind, end):
        number, fault = walked(tree, client, path)
        return self.grant_there(client, number, fault, kind, end)

    def grant_at(self, tree, client, number, kind, end):
        """Grants by number: without a path, but with permission on the node itself."""
        node = tree.nodes.get(number)
        if node is None:
            fault = "NoSuchNode"
        elif kind == "r":
            fault = None if client.may(node, READ) else "NotAllowed"
        else:
            fault = None if client.owns(node) or client.may(node, WRITE) else "NotAllowed"
        return self.grant_there(client, number, fault, kind, end)

    def grant_there(self, client, number, fault, kind, end):
        if fault is None and end <= self.moment:
            fault = "Past"
        if fault is None:
            other = self.conflict(client.number, number, kind)
            fault = None if other is None else f"LeaseHeld({other})"
        if fault:
            return f"refused {fault}"
        self.rows.setdefault(number, {})[client.number] = (kind, end)
        return f"leased {number}"


class AllHeld:
    """Leases of which each one is held."""

    def holds(self, _client, _number):
        return True


def walked(tree, client, path):
    """Returns the number to which a path leads, or why it leads nowhere."""
    if path == b"/":
        return ROOT, None
    first, *names = path.split(b"/")
    if first or not names or not all(map(is_name, names)):
        return None, "BadPath"
    number = ROOT
    for index, name in enumerate(names):
        if tree.nodes[number].kind == FILE:
            return None, f"NotDirectory({index})"
        if not client.may(tree.nodes[number], SEARCH):
            return None, f"NoSearch({index})"
        if (number, name) not in tree.names:
            return None, f"NoSuchName({index})"
        number = tree.names[number, name]
    return number, None


class Fault(Exception):
    """An entry isn't allowed. Its text is the reason."""


class Judge:
    """A client's log, entry by entry, over a tree. It keeps the cells at which its checks have looked: those tell whether a
    later state can judge otherwise."""

    def __init__(self, tree, leases, client):
        self.before, self.leases, self.client = tree, leases, client
        self.tree, self.created, self.looked = tree.copy(), set(), set()

    # The checks of an entry.

    def check(self, passes, reason):
        if not passes:
            raise Fault(reason)

    def node(self, number):
        self.looked.add(("header", number))
        self.check(number in self.tree.nodes, "NoSuchNode")

    def directory(self, number):
        self.check(self.tree.nodes[number].kind == DIRECTORY, "NotDirectory")

    def file(self, number):
        self.check(self.tree.nodes[number].kind == FILE, "IsDirectory")

    def of_kind(self, number, kind):
        self.looked.add(("header", number))
        if kind == DIRECTORY:
            self.directory(number)
        else:
            self.file(number)

    def search(self, number):
        self.check(self.client.may(self.tree.nodes[number], SEARCH), "NoSearch")

    def write(self, number):
        node = self.tree.nodes[number]
        is_own = node.kind == FILE and number in self.created
        self.check(is_own or self.client.may(node, WRITE), "NoWrite")

    def lease(self, number):
        if number not in self.created:
            self.looked.add(("lease", number))
            self.check(self.leases.holds(self.client.number, number), f"NoLease({number})")

    def owner(self, number):
        self.check(self.client.owns(self.tree.nodes[number]), "NotOwner")

    def sticky(self, directory, number):
        self.looked |= {("header", directory), ("header", number)}
        holder, node = self.tree.nodes[directory], self.tree.nodes[number]
        is_free = not holder.mode & STICKY
        self.check(is_free or self.client.owns(holder) or self.client.owns(node), "Sticky")

    def empty(self, directory):
        self.looked.add(("count", directory))
        self.check(not self.tree.count(directory), "NotEmpty")

    def changed_directory(self, number):
        self.node(number)
        self.directory(number)
        self.search(number)
        self.write(number)
        self.lease(number)

    def target(self, directory, name):
        self.looked.add(("name", directory, name))
        self.check((directory, name) in self.tree.names, "NoSuchName")
        return self.tree.names[directory, name]

    def untaken(self, directory, name):
        self.looked.add(("name", directory, name))
        self.check((directory, name) not in self.tree.names, "NameTaken")

    def not_above(self, number, directory):
        """The directory doesn't lie at or below this node."""
        while directory is not None:
            self.looked.add(("parent", directory))
            self.check(directory != number, "BelowItself")
            directory = self.tree.parent(directory)

    # The entries: each one's checks in their order, and then its change.

    def create(self, entry):
        self.changed_directory(entry.directory)
        self.untaken(entry.directory, entry.name)
        self.check(self.client.first <= entry.number <= self.client.last, "NumberNotGranted")
        self.looked.add(("header", entry.number))
        is_free = entry.number not in self.before.nodes and entry.number not in self.created
        self.check(is_free, "NumberTaken")
        self.created.add(entry.number)
        self.tree.nodes[entry.number] = Node(entry.kind, entry.mode, self.client.uid, self.client.gid)
        self.tree.names[entry.directory, entry.name] = entry.number

    def changed_file(self, number):
        self.node(number)
        self.file(number)
        self.write(number)
        self.lease(number)

    def resize(self, number, size):
        self.tree.nodes[number] = self.tree.nodes[number]._replace(size=size)

    def write_bytes(self, entry):
        self.changed_file(entry.number)
        if entry.payload:
            end = entry.offset + len(entry.payload)
            self.check(end <= SIZE_LIMIT, "TooBig")
            self.resize(entry.number, max(self.tree.nodes[entry.number].size, end))

    def truncate(self, entry):
        self.changed_file(entry.number)
        self.check(entry.size <= SIZE_LIMIT, "TooBig")
        self.resize(entry.number, entry.size)

    def link(self, entry):
        self.node(entry.number)
        self.file(entry.number)
        self.changed_directory(entry.directory)
        self.lease(entry.number)
        self.untaken(entry.directory, entry.name)
        self.check(self.tree.links(entry.number) < LINK_LIMIT, "TooManyLinks")
        self.tree.names[entry.directory, entry.name] = entry.number

    def unlink(self, entry):
        self.changed_directory(entry.directory)
        number = self.target(entry.directory, entry.name)
        self.of_kind(number, entry.kind)
        self.sticky(entry.directory, number)
        self.lease(number)
        if entry.kind == DIRECTORY:
            self.empty(number)
        del self.tree.names[entry.directory, entry.name]
        self.tree.drop_unnamed(number)

    def rename(self, entry):
        old, new = entry.directory, entry.new_directory
        for directory in (old, new):
            self.node(directory)
            self.directory(directory)
        self.search(old)
        self.search(new)
        number = self.target(old, entry.name)
        self.looked.add(("name", new, entry.new_name))
        replaced = self.tree.names.get((new, entry.new_name))
        if replaced == number:
            return
        self.write(old)
        self.write(new)
        self.sticky(old, number)
        for leased in (old, new, number):
            self.lease(leased)
        self.looked.add(("header", number))
        kind = self.tree.nodes[number].kind
        if kind == DIRECTORY:
            self.not_above(number, new)
        if replaced is not None:
            self.of_kind(replaced, kind)
            self.sticky(new, replaced)
            self.lease(replaced)
            if kind == DIRECTORY:
                self.empty(replaced)
        del self.tree.names[old, entry.name]
        self.tree.names[new, entry.new_name] = number
        if replaced is not None:
            self.tree.drop_unnamed(replaced)

    def chmod(self, entry):
        self.node(entry.number)
        self.owner(entry.number)
        self.lease(entry.number)
        self.tree.nodes[entry.number] = self.tree.nodes[entry.number]._replace(mode=entry.mode)

    def regroup(self, entry):
        self.node(entry.number)
        self.owner(entry.number)
        self.check(self.client.privileged or self.client.is_in(entry.group), "NotInGroup")
        self.lease(entry.number)
        self.tree.nodes[entry.number] = self.tree.nodes[entry.number]._replace(gid=entry.group)

    ENTRIES = {Create: create, Write: write_bytes, Truncate: truncate, Link: link, Unlink: unlink, Rename: rename, Chmod: chmod, Regroup: regroup}

    def enter(self, entry):
        """Makes the checks and the change of an entry."""
        self.ENTRIES[type(entry)](self, entry)

    def run(self, entries):
        """Enters each entry. Returns the first fault, as the program says it, or None."""
        for index, entry in enumerate(entries):
            try:
                self.enter(entry)
            except Fault as fault:
                return f"entry {index} {fault}"
        return None


def seen(tree, leases, client, cell):
    """Returns what a state shows at a cell."""
    match cell:
        case ("header", number):
            return tree.header(number)
        case ("name", directory, name):
            return tree.names.get((directory, name))
        case ("count", directory):
            return tree.count(directory)
        case ("parent", number):
            return tree.parent(number)
        case ("lease", number):
            return leases.holds(client.number, number)

"""Logs, plans and images as bytes (docs/FORMATS.md): reading them, or finding the refusal that is due, and writing them.

It is the one encoder of the tools in Python, and the one decoder.
"""
from typing import NamedTuple

FILE, DIRECTORY = 0, 1
ENTRY_LIMIT, PAYLOAD_LIMIT, TIER_LIMIT = 4_096, 65_536, 65_536
GREATEST_MODE = {1: 0o777, 2: 0o1777}
LAST_BLOCK, LAST_PLACE, LAST_TIER = 1_048_575, 65_535, 2
BLOCK = 4_096

ZERO = "zero"


class Header(NamedTuple):
    kind: int
    mode: int
    uid: int
    gid: int
    links: int
    size: int


class Create(NamedTuple):
    directory: int
    name: bytes
    number: int
    kind: int
    mode: int


class Write(NamedTuple):
    number: int
    offset: int
    payload: bytes


class Truncate(NamedTuple):
    number: int
    size: int


class Link(NamedTuple):
    number: int
    directory: int
    name: bytes


class Unlink(NamedTuple):
    directory: int
    name: bytes
    kind: int


class Rename(NamedTuple):
    directory: int
    name: bytes
    new_directory: int
    new_name: bytes


class Chmod(NamedTuple):
    number: int
    mode: int


class Regroup(NamedTuple):
    number: int
    group: int


class Log(NamedTuple):
    version: int
    client: int
    entries: list


class NameRow(NamedTuple):
    directory: int
    name: bytes
    number: int


class NodeRow(NamedTuple):
    """A node and its header now, None where it is gone."""

    number: int
    now: Header


class Piece(NamedTuple):
    """Bytes of a file and where they come from: ZERO, or (entry, place), the place of the first one in that entry's payload."""

    number: int
    start: int
    length: int
    source: object


class Plan(NamedTuple):
    version: int
    names: list
    nodes: list
    pieces: list


class RawNode(NamedTuple):
    number: int
    header: Header


class Extent(NamedTuple):
    number: int
    block: int
    tier: int
    place: int
    count: int
    data: bytes


class RawImage(NamedTuple):
    version: int
    sizes: tuple
    nodes: list
    names: list
    extents: list


# The tag of each entry, and how wide each of its fields is: bytes of a number, or a kind of field.
ENTRIES = {
    1: (Create, (4, "name", 4, "kind", "mode")),
    2: (Write, (4, 8, "payload")),
    3: (Truncate, (4, 8)),
    4: (Link, (4, 4, "name")),
    5: (Unlink, (4, "name", "kind")),
    6: (Rename, (4, "name", 4, "name")),
    7: (Chmod, (4, "mode")),
    8: (Regroup, (4, 4)),
}
TAGS = {entry: (tag, fields) for tag, (entry, fields) in ENTRIES.items()}
FIRST_VERSION_OF = {Regroup: 2}


class NoRow(Exception):
    """What follows is no such row."""


class Refused(Exception):
    """The bytes are no log, plan or image. Its text is the refusal's."""


def is_name(name):
    return 1 <= len(name) <= 255 and not set(name) & {0, ord("/")} and name not in (b".", b"..")


class Reader:
    """Bytes that are read row by row."""

    def __init__(self, data, version=2):
        self.data, self.at, self.version = data, 0, version

    def take(self, count):
        if self.at + count > len(self.data):
            raise NoRow
        self.at += count
        return self.data[self.at - count : self.at]

    def number(self, width):
        return int.from_bytes(self.take(width), "big")

    def within(self, width, greatest, least=0):
        number = self.number(width)
        if not least <= number <= greatest:
            raise NoRow
        return number

    def name(self):
        name = self.take(self.number(1))
        if not is_name(name):
            raise NoRow
        return name

    def field(self, field):
        match field:
            case "name":
                return self.name()
            case "kind":
                return self.within(1, DIRECTORY)
            case "mode":
                return self.within(2, GREATEST_MODE[self.version])
            case "payload":
                return self.take(self.within(4, PAYLOAD_LIMIT))
            case _:
                return self.number(field)

    def entry(self):
        kind, fields = ENTRIES.get(self.number(1), (None, ()))
        if kind is None or self.version < FIRST_VERSION_OF.get(kind, 1):
            raise NoRow
        return kind(*[self.field(field) for field in fields])

    def header(self, kind):
        return Header(kind, *[self.number(width) for width in (2, 4, 4, 2, 8)])

    def name_row(self):
        return NameRow(self.number(4), self.name(), self.number(4))

    def node_row(self):
        number, state = self.number(4), self.within(1, 2)
        return NodeRow(number, self.header(state - 1) if state else None)

    def piece(self):
        number, start, length = self.number(4), self.number(8), self.number(8)
        is_payload = self.within(1, 1)
        return Piece(number, start, length, (self.number(2), self.number(4)) if is_payload else ZERO)

    def raw_node(self):
        number, kind = self.number(4), self.within(1, DIRECTORY)
        return RawNode(number, self.header(kind))

    def extent(self):
        number, block, tier = self.number(4), self.within(4, LAST_BLOCK), self.within(1, LAST_TIER)
        place, count = self.within(4, LAST_PLACE), self.within(4, TIER_LIMIT, 1)
        return Extent(number, block, tier, place, count, self.take(count * BLOCK))

    def rows(self, count, row, fault):
        """Reads so many rows; `fault` names the refusal where the row of an index is missing."""
        found = []
        for index in range(count):
            try:
                found.append(row())
            except NoRow:
                raise Refused(fault(index)) from None
        return found

    def end(self, fault):
        if self.at != len(self.data):
            raise Refused(fault)


def header_of(data, magic, widths, fault):
    """Reads the magic word, the version and numbers of these widths."""
    reader = Reader(data)
    try:
        word, version = reader.take(4), reader.number(1)
        numbers = [reader.number(width) for width in widths]
    except NoRow:
        raise Refused(fault) from None
    if word != magic or version not in GREATEST_MODE:
        raise Refused(fault)
    reader.version = version
    return reader, numbers


def decode_log(data):
    reader, (client, count) = header_of(data, b"KLOG", (4, 2), "BadHeader")
    if count > ENTRY_LIMIT:
        raise Refused("BadHeader")
    entries = reader.rows(count, reader.entry, lambda index: f"BadEntry({index})")
    reader.end("Trailing")
    return Log(reader.version, client, entries)


def decode_plan(data):
    reader, counts = header_of(data, b"KPLN", (2, 2, 4), "BadHeader")
    parts = []
    for part, row in enumerate((reader.name_row, reader.node_row, reader.piece)):
        parts.append(reader.rows(counts[part], row, lambda index: f"BadRow({part},{index})"))
    reader.end("Trailing")
    return Plan(reader.version, *parts)


def decode_image(data):
    reader, numbers = header_of(data, b"KIMG", (4,) * 6, "BadImageHeader")
    sizes, counts = tuple(numbers[:3]), numbers[3:]
    if max(sizes) > TIER_LIMIT:
        raise Refused("BadImageHeader")
    parts, before = [], 0
    for count, row in zip(counts, (reader.raw_node, reader.name_row, reader.extent)):
        parts.append(reader.rows(count, row, lambda index: f"BadImageRow({before + index})"))
        before += count
    reader.end("ImageTrailing")
    return RawImage(reader.version, sizes, *parts)


# ---- Writing. What is out of its range is written, too, as far as it fits its width.

def number_bytes(number, width):
    return number.to_bytes(width, "big")


def name_bytes(name):
    return number_bytes(len(name), 1) + name


def field_bytes(value, field):
    match field:
        case "name":
            return name_bytes(value)
        case "kind":
            return number_bytes(value, 1)
        case "mode":
            return number_bytes(value, 2)
        case "payload":
            return number_bytes(len(value), 4) + value
        case _:
            return number_bytes(value, field)


def entry_bytes(entry):
    tag, fields = TAGS[type(entry)]
    return number_bytes(tag, 1) + b"".join(field_bytes(value, field) for value, field in zip(entry, fields))


def header_bytes(header):
    numbers = zip(header[1:], (2, 4, 4, 2, 8))
    return b"".join(number_bytes(number, width) for number, width in numbers)


def name_row_bytes(row):
    return number_bytes(row.directory, 4) + name_bytes(row.name) + number_bytes(row.number, 4)


def node_row_bytes(row):
    if row.now is None:
        return number_bytes(row.number, 4) + b"\0"
    return number_bytes(row.number, 4) + number_bytes(row.now.kind + 1, 1) + header_bytes(row.now)


def piece_bytes(piece):
    span = number_bytes(piece.number, 4) + number_bytes(piece.start, 8) + number_bytes(piece.length, 8)
    if piece.source == ZERO:
        return span + b"\0"
    entry, place = piece.source
    return span + b"\1" + number_bytes(entry, 2) + number_bytes(place, 4)


def raw_node_bytes(row):
    return number_bytes(row.number, 4) + number_bytes(row.header.kind, 1) + header_bytes(row.header)


def extent_bytes(row):
    numbers = zip(row[:5], (4, 4, 1, 4, 4))
    return b"".join(number_bytes(number, width) for number, width in numbers) + row.data


def log_header(version, client, count):
    return b"KLOG" + number_bytes(version, 1) + number_bytes(client, 4) + number_bytes(count, 2)


def plan_header(version, *counts):
    return b"KPLN" + number_bytes(version, 1) + b"".join(map(number_bytes, counts, (2, 2, 4)))


def encode_log(log):
    return log_header(log.version, log.client, len(log.entries)) + b"".join(map(entry_bytes, log.entries))


def encode_plan(plan):
    head = plan_header(plan.version, *map(len, plan[1:]))
    rows = [*map(name_row_bytes, plan.names), *map(node_row_bytes, plan.nodes), *map(piece_bytes, plan.pieces)]
    return head + b"".join(rows)


def encode_image(raw):
    numbers = [*raw.sizes, len(raw.nodes), len(raw.names), len(raw.extents)]
    head = b"KIMG" + number_bytes(raw.version, 1) + b"".join(number_bytes(number, 4) for number in numbers)
    rows = [*map(raw_node_bytes, raw.nodes), *map(name_row_bytes, raw.names), *map(extent_bytes, raw.extents)]
    return head + b"".join(rows)

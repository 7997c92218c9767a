"""Ways to spoil what is right: bytes, rows of plans and images, words and lines."""
from .codec import ZERO, Extent, Header, NameRow, NodeRow, Piece

U32, U64 = (1 << 32) - 1, (1 << 64) - 1


def cut(random, data):
    """Returns the bytes cut, lengthened, or with one of them changed."""
    at = random.randrange(len(data)) if data else 0
    match random.choice(["short", "long", "head", "byte", "byte", "bit", "without", "twice"]):
        case "short":
            return data[:at]
        case "long":
            return data + bytes(random.choice([[0], [1], [255], [0] * 13]))
        case "head":
            at = random.randrange(min(13, len(data) or 1))
            return data[:at] + bytes([random.choice([0, 1, 2, 3, 255])]) + data[at + 1 :]
        case "byte":
            return data[:at] + bytes([random.randrange(256)]) + data[at + 1 :]
        case "bit":
            return data[:at] + bytes(byte ^ 1 << random.randrange(8) for byte in data[at : at + 1]) + data[at + 1 :]
        case "without":
            return data[:at] + data[at + 1 :]
        case "twice":
            return data[:at] + data[at : at + 1] + data[at:]


def number(random, value, greatest):
    """Returns another number that fits its width."""
    return random.choice([max(value - 1, 0), min(value + 1, greatest), 0, greatest, random.randrange(100)])


def header(random, it):
    field = random.choice(["kind", "mode", "uid", "gid", "links", "size"])
    if field == "kind":
        return it._replace(kind=1 - it.kind)
    greatest = {"mode": 0xFFFF, "links": 0xFFFF, "size": U64}.get(field, U32)
    return it._replace(**{field: number(random, getattr(it, field), greatest)})


def name_row(random, row):
    match random.choice(["directory", "name", "number"]):
        case "name":
            return row._replace(name=random.choice([row.name[:-1] or b"z", (row.name + b"!")[:255], b"b"]))
        case field:
            return row._replace(**{field: number(random, getattr(row, field), U32)})


def node_row(random, row):
    if random.randrange(3) == 0:
        return row._replace(number=number(random, row.number, U32))
    if row.now is None or random.randrange(5) == 0:
        return row._replace(now=None if row.now else Header(0, 0o644, 1000, 1000, 1, 0))
    return row._replace(now=header(random, row.now))


def piece(random, row):
    match random.choice(["number", "start", "length", "source", "source"]):
        case "number":
            return row._replace(number=number(random, row.number, U32))
        case "source" if row.source == ZERO:
            return row._replace(source=(random.randrange(3), random.randrange(3)))
        case "source":
            entry, place = row.source
            source = random.choice([ZERO, (number(random, entry, 0xFFFF), place), (entry, number(random, place, U32))])
            return row._replace(source=source)
        case field:
            return row._replace(**{field: number(random, getattr(row, field), U64)})


def piece_in_two(random, row):
    """Returns a piece in two parts that say the same, where it has two bytes."""
    if row.length < 2:
        return [row]
    first = random.choice([1, row.length // 2, row.length - 1])
    source = row.source if row.source == ZERO else (row.source[0], row.source[1] + first)
    return [row._replace(length=first), Piece(row.number, row.start + first, row.length - first, source)]


NEW_ROWS = {
    "names": (name_row, NameRow(1, b"a", 5)),
    "nodes": (node_row, NodeRow(5, None)),
    "pieces": (piece, Piece(5, 0, 1, ZERO)),
}


def rows(random, part, found):
    """Returns a part of a plan with one row changed, added, dropped, doubled or at another place."""
    change, new = NEW_ROWS[part]
    found, at = list(found), random.randrange(len(found)) if found else 0
    ways = ["change", "change", "drop", "twice", "swap", "add"] + ["two"] * 2 * (part == "pieces")
    match random.choice(ways) if found else "add":
        case "change":
            found[at] = change(random, found[at])
        case "drop":
            del found[at]
        case "twice":
            found.insert(at, found[at])
        case "swap":
            found[at], found[-1] = found[-1], found[at]
        case "add":
            found.insert(random.randint(0, len(found)), new)
        case "two":
            found[at : at + 1] = piece_in_two(random, found[at])
    return found


def plan(random, it):
    parts = [part for part in NEW_ROWS if getattr(it, part)] or list(NEW_ROWS)
    part = random.choice(parts if random.randrange(8) else list(NEW_ROWS))
    return it._replace(**{part: rows(random, part, getattr(it, part))})


def raw_node(random, row):
    if random.randrange(3) == 0:
        return row._replace(number=number(random, row.number, U32))
    return row._replace(header=header(random, row.header))


def extent(random, row):
    field, greatest = random.choice([("number", U32), ("block", U32), ("tier", 255), ("place", U32), ("count", 2)])
    return row._replace(**{field: number(random, getattr(row, field), greatest)})


def alike(random, row, other):
    """Returns a row that has a field of another row."""
    match row:
        case NameRow():
            return row._replace(directory=other.number) if random.randrange(2) else row._replace(number=other.number)
        case Extent():
            return row._replace(tier=other.tier, place=other.place) if random.randrange(2) else row._replace(number=other.number)
    return row._replace(number=other.number)


def image(random, raw):
    """Returns an image with a size changed, or with one row or two changed, dropped, doubled or at another place."""
    if random.randrange(8) == 0:
        sizes = list(raw.sizes)
        sizes[random.randrange(3)] = random.choice([0, 1, 65_536, 65_537, U32])
        return raw._replace(sizes=tuple(sizes))
    part, change = random.choice([("nodes", raw_node), ("names", name_row), ("extents", extent)])
    found = list(getattr(raw, part))
    if not found:
        return raw._replace(nodes=raw.nodes[1:])
    at = random.randrange(len(found))
    match random.choice(["change", "change", "alike", "alike", "both", "drop", "twice", "swap"]):
        case "change":
            found[at] = change(random, found[at])
        case "alike":
            found[at] = alike(random, found[at], random.choice(found))
        case "both":
            found = [change(random, row) if random.randrange(3) else row for row in found]
        case "drop":
            del found[at]
        case "twice":
            found.insert(at, found[at])
        case "swap":
            found[at], found[-1] = found[-1], found[at]
    return raw._replace(**{part: found})


def word(random, data):
    """Returns bytes as a word: mostly lower case, sometimes no hexadecimal word at all."""
    text = data.hex() or "-"
    match random.randrange(60):
        case 0 | 1 | 2:
            return text.upper()
        case 3:
            return text[:-1] or "-"
        case 4:
            return text + "0"
        case 5:
            return text[:-1] + random.choice("gG-. ")
        case 6:
            return "--"
    return text


def line(random, it):
    """Returns a line with something wrong about it. A few come out right."""
    words = it.split(b" ")
    at = random.randrange(len(words))
    match random.choice(["none", "space", "front", "two", "without", "more", "case", "number", "zeros", "byte", "end"]):
        case "none":
            return b""
        case "space":
            return it + b" "
        case "front":
            return b" " + it
        case "two":
            return b" ".join([*words[:at], b"", *words[at:]])
        case "without":
            return b" ".join(words[:at] + words[at + 1 :])
        case "more":
            return b" ".join([*words, random.choice([b"0", b"x", b"8"])])
        case "case":
            return b" ".join([words[0].upper(), *words[1:]])
        case "number":
            words[at] = random.choice([b"4294967295", b"4294967296", b"18446744073709551616", b"-1", b"+1", b"0x1", b"1.0", b"9" * 40])
        case "zeros":
            words[at] = b"0" * 30 + words[at]
        case "byte":
            cut_at = random.randrange(len(it) + 1)
            return it[:cut_at] + bytes([random.choice([0, 9, 13, 127, 255])]) + it[cut_at:]
        case "end":
            return it + b"\r"
    return b" ".join(words)

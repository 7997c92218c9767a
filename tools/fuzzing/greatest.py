"""Sessions of the greatest counts: plans, logs, leases, names of a file, and lines."""
from .codec import FILE, Create, Header, Link, Log, NameRow, NodeRow, Piece, Plan, RawImage, RawNode, Unlink, Write, ZERO
from .codec import ENTRY_LIMIT, encode_image, encode_log, encode_plan
from .desk import LINE_LIMIT
from .judge import LINK_LIMIT, ROOT

ROWS = 65_535
U32 = (1 << 32) - 1


def opening(first="new 8 8 8", clients=1):
    lines = [first, *(f"client {7 + at} 1000 1000 0 {2 if at == 0 else 5} {65_536 if at == 0 else 4}" for at in range(clients))]
    return [*lines, f"begin {U32}", f"lease 7 / w {U32}"]


def submit(entries, names=(), nodes=(), pieces=()):
    log, plan = Log(2, 7, list(entries)), Plan(2, list(names), list(nodes), list(pieces))
    return f"submit 7 {encode_log(log).hex()} {encode_plan(plan).hex()}"


def new_file(links=1, size=0):
    return Header(FILE, 0o644, 1000, 1000, links, size)


def creates(names):
    """Returns a log that creates a file of each name in the root, and the two parts of its plan."""
    entries = [Create(ROOT, name, number, FILE, 0o644) for number, name in enumerate(names, 2)]
    return entries, [NameRow(ROOT, it.name, it.number) for it in entries], [NodeRow(it.number, new_file()) for it in entries]


def greatest_plan():
    """A right plan of 4,096 rows in both parts, and the same with as many rows as there may be behind it."""
    entries, names, nodes = creates([b"%04x" % at for at in range(ENTRY_LIMIT)])
    more_names = names + [NameRow(2, b"x", 2)] * (ROWS - len(names))
    more_nodes = nodes + [NodeRow(at, None) for at in range(len(nodes) + 2, ROWS + 2)]
    return [
        *opening(),
        submit(entries, more_names, more_nodes),
        submit(entries, names, more_nodes),
        submit(entries, names, nodes, [Piece(2, 0, 1, ZERO)]),
        submit(entries, names, nodes),
        "node 4097",
        "docket",
    ]


def longest_names():
    """A log of 4,096 entries, each with a name of 255 bytes; one that takes as many away; and one entry more than there may be."""
    entries, names, nodes = creates([b"n" * 251 + b"%04x" % at for at in range(ENTRY_LIMIT)])
    gone = [Unlink(ROOT, entry.name, FILE) for entry in entries]
    leases = [b"lease 7 /%s w 9" % entry.name for entry in entries]
    return [
        *opening(),
        submit(entries, names, nodes),
        "node 4097",
        *leases,
        submit(gone + gone[:1]),
        submit(gone, [row._replace(number=0) for row in names], [row._replace(now=None) for row in nodes]),
        "list 1",
        "drop 7 2",
    ]


def sixty_thousand_leases():
    """Sixty clients read a thousand files; one tick ends all these leases, and then each file is leased for writing."""
    files = range(2, 1_002)
    nodes = [RawNode(1, Header(1, 0o777, 0, 0, 1, 0)), *(RawNode(number, new_file()) for number in files)]
    names = [NameRow(ROOT, b"%04d" % number, number) for number in files]
    image = encode_image(RawImage(2, (8, 8, 8), nodes, names, []))
    lines = opening(f"image {image.hex()}", 60)
    lines += [f"lease {7 + client} /{number:04} r 10" for number in files for client in range(60)]
    lines += ["lease 66 /0002 w 100", "tick 9", "lease 66 /0002 w 100", "tick 10", "drop 8 2", "drop 66 1001"]
    return lines + [f"lease 66 /{number:04} w 100" for number in files] + ["lease 7 /0500 r 100", "docket"]


def names_of_a_file():
    """A file gets 1,024 names by one log. One name more is refused, also in the log that made them; one goes, and another comes."""
    names = [b"%04d" % at for at in range(LINK_LIMIT)]
    create = Create(ROOT, names[0], 2, FILE, 0o644)
    links = [Link(2, ROOT, name) for name in names[1:]]
    rows = [NameRow(ROOT, name, 2) for name in names]
    more = Link(2, ROOT, b"more")
    return [
        *opening(),
        submit([create, *links, more]),
        submit([create, *links], rows, [NodeRow(2, new_file(LINK_LIMIT))]),
        "lease 7 /0000 w 100",
        submit([more]),
        submit([Unlink(ROOT, names[5], FILE), more, Link(2, ROOT, names[5])]),
        submit([Unlink(ROOT, names[5], FILE), more], [NameRow(ROOT, names[5], 0), NameRow(ROOT, b"more", 2)]),
        submit([Unlink(ROOT, b"more", FILE)], [NameRow(ROOT, b"more", 0)], [NodeRow(2, new_file(LINK_LIMIT - 1))]),
        "node 2",
        submit([Unlink(ROOT, name, FILE) for name in names if name != names[5]], [NameRow(ROOT, name, 0) for name in names if name != names[5]], [NodeRow(2, None)]),
        "list 1",
    ]


def payloads():
    """A log of 65,536 bytes in one Write, of one byte more, and of 200 such Writes over each other."""
    write = Write(2, 0, bytes(range(256)) * 256)
    create, names, nodes = creates([b"a"])
    node = [NodeRow(2, new_file(size=65_536))]
    piece = Piece(2, 0, 65_536, (0, 0))
    return [
        *opening("new 64 0 0"),
        submit(create, names, nodes),
        "lease 7 /a w 100",
        submit([write._replace(payload=write.payload + b"x")]),
        submit([write], (), node, [piece]),
        "read 2 65500 65536",
        submit([write] * 100, (), (), [piece._replace(source=(98, 0))]),
        submit([write] * 100, (), (), [piece._replace(source=(99, 0))]),
        "read 2 0 64",
    ]


def longest_line():
    """A line of 16,777,216 bytes is read; the next one, of one byte more, ends the program."""
    image = encode_image(RawImage(2, (1, 1, 1), [RawNode(1, Header(1, 0o777, 0, 0, 1, 0))], [], [])).hex()
    line = f"image {image}".ljust(LINE_LIMIT, "0")
    return ["new 1 1 1", line, "begin 1", "docket", "docket " + "0" * (LINE_LIMIT - 7), "docket " + "0" * (LINE_LIMIT - 6), "docket"]


SESSIONS = {it.__name__: it for it in (greatest_plan, longest_names, sixty_thousand_leases, names_of_a_file, payloads, longest_line)}

"""Images: the ten rules of their rows (docs/FORMATS.md), what well formed rows show, and the one spelling of a state."""
from collections import Counter

from .codec import BLOCK, DIRECTORY, FILE, GREATEST_MODE, Extent, NameRow, RawImage, RawNode, encode_image
from .judge import LINK_LIMIT, ROOT, SIZE_LIMIT, Node, Tree

LAST_NUMBER = 65_536


class Content:
    """The bytes of a file, in the blocks that have some; all others are zero."""

    def __init__(self):
        self.blocks = {}

    def copy(self):
        other = Content()
        other.blocks = {block: bytearray(data) for block, data in self.blocks.items()}
        return other

    def read(self, start, end):
        if start >= end:
            return b""
        first = start // BLOCK
        return b"".join(map(self.block, range(first, (end - 1) // BLOCK + 1)))[start - first * BLOCK : end - first * BLOCK]

    def block(self, block):
        return bytes(self.blocks.get(block, bytes(BLOCK)))

    def put(self, offset, payload):
        while payload:
            block, at = divmod(offset, BLOCK)
            part, payload = payload[: BLOCK - at], payload[BLOCK - at :]
            self.blocks.setdefault(block, bytearray(BLOCK))[at : at + len(part)] = part
            offset += len(part)

    def cut(self, size):
        """Forgets all bytes from this place on."""
        last, rest = divmod(size, BLOCK)
        self.blocks = {block: data for block, data in self.blocks.items() if block < last + (rest > 0)}
        if rest and last in self.blocks:
            self.blocks[last][rest:] = bytes(BLOCK - rest)


# ---- The rules: each answers the numbers at which it is broken. A rule is asked only where those before it hold.

def rule_1(raw):
    above = 0
    for row in raw.nodes:
        if not 1 <= row.number <= LAST_NUMBER or row.number <= above:
            yield row.number
        above = row.number


def rule_2(raw):
    if not any(row.number == ROOT and row.header.kind == DIRECTORY for row in raw.nodes):
        yield ROOT


def rule_3(raw):
    for number, header in raw.nodes:
        is_odd = header.kind == DIRECTORY and (header.links, header.size) != (1, 0)
        if header.mode > GREATEST_MODE[raw.version] or header.size > SIZE_LIMIT or is_odd:
            yield number


def numbers_of(raw, kind):
    return {row.number for row in raw.nodes if row.header.kind == kind}


def rule_4(raw):
    directories, above = numbers_of(raw, DIRECTORY), (0, b"")
    for row in raw.names:
        if (row.directory, row.name) <= above or row.directory not in directories:
            yield row.directory
        above = (row.directory, row.name)


def rule_5(raw):
    numbers = {row.number for row in raw.nodes} - {ROOT}
    yield from (row.number for row in raw.names if row.number not in numbers)


def rule_6(raw):
    links = Counter(row.number for row in raw.names)
    for number, header in raw.nodes:
        if header.kind == DIRECTORY and number != ROOT and links[number] != 1:
            yield number
        if header.kind == FILE and not (header.links == links[number] and 1 <= links[number] <= LINK_LIMIT):
            yield number


def rule_7(raw):
    parents = {row.number: row.directory for row in raw.names}
    for number in numbers_of(raw, DIRECTORY):
        met = set()
        at = number
        while at != ROOT and at not in met:
            met.add(at)
            at = parents[at]
        if at != ROOT:
            yield number


def rule_8(raw):
    sizes = {row.number: row.header.size for row in raw.nodes if row.header.kind == FILE}
    above, end = (0, -1), {}
    for row in raw.extents:
        is_below = (row.number, row.block) <= above
        is_long = (row.block + row.count - 1) * BLOCK >= sizes.get(row.number, 0)
        if is_below or is_long or row.block < end.get(row.number, 0):
            yield row.number
        above = (row.number, row.block)
        end[row.number] = max(end.get(row.number, 0), row.block + row.count)


def rule_9(raw):
    yield from (row.number for row in raw.extents if row.place + row.count > raw.sizes[row.tier])


def rule_10(raw):
    used = {}
    for row in raw.extents:
        for place in range(row.place, row.place + row.count):
            used.setdefault((row.tier, place), []).append(row.number)
    yield from (number for numbers in used.values() if len(numbers) > 1 for number in numbers)


RULES = (rule_1, rule_2, rule_3, rule_4, rule_5, rule_6, rule_7, rule_8, rule_9, rule_10)


def finding(raw):
    """Returns the first rule that is broken and the least number at which it is, as the program says it; or None."""
    for index, rule in enumerate(RULES, 1):
        numbers = list(rule(raw))
        if numbers:
            return f"finding {index} {min(numbers)}"
    return None


# ---- Well formed rows and states

def tree_of(raw):
    nodes = {number: Node(it.kind, it.mode, it.uid, it.gid, it.size) for number, it in raw.nodes}
    return Tree(nodes, {(row.directory, row.name): row.number for row in raw.names})


def placement_of(raw):
    return {(it.number, it.block + at): (it.tier, it.place + at) for it in raw.extents for at in range(it.count)}


def contents_of(raw):
    """Returns what each file holds, without what stands behind its end."""
    contents = {row.number: Content() for row in raw.nodes if row.header.kind == FILE}
    for row in raw.extents:
        for at in range(row.count):
            contents[row.number].blocks[row.block + at] = bytearray(row.data[at * BLOCK : (at + 1) * BLOCK])
    for row in raw.nodes:
        if row.number in contents:
            contents[row.number].cut(row.header.size)
    return contents


def extents_of(placement, contents):
    extents = []
    for (number, block), (tier, place) in sorted(placement.items()):
        data = contents[number].block(block)
        last = extents[-1] if extents else None
        if last and (last.number, last.block + last.count, last.tier, last.place + last.count) == (number, block, tier, place):
            extents[-1] = last._replace(count=last.count + 1, data=last.data + data)
        else:
            extents.append(Extent(number, block, tier, place, 1, data))
    return extents


def image_bytes(sizes, tree, placement, contents):
    nodes = [RawNode(number, tree.header(number)) for number in sorted(tree.nodes)]
    names = [NameRow(*key, number) for key, number in sorted(tree.names.items())]
    return encode_image(RawImage(2, sizes, nodes, names, extents_of(placement, contents)))

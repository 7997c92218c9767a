"""What a log makes of the bytes of files, its right plan, the first wrong row of any other, and the blocks that it writes
(docs/FORMATS.md, "Digest plan").

Each byte of a file is followed on its own through the log: `mark_of` says what it is afterwards. That alone is asked. But
bytes between two places at which some entry begins or ends are alike, so only the first of them is followed; files of
4 GiB cost no more than small ones.
"""
from typing import NamedTuple

from .codec import BLOCK, FILE, ZERO, NameRow, NodeRow, Piece, Plan, Truncate, Write

OLD = "old"


class Segment(NamedTuple):
    """Bytes of a file that are alike: OLD, ZERO, or (entry, place), the place of the first one in that entry's payload."""

    number: int
    start: int
    end: int
    mark: object

    def mark_at(self, place):
        return self.mark if self.mark in (OLD, ZERO) else (self.mark[0], self.mark[1] + place - self.start)


def changes_of(entries, number):
    """Returns the entries that may reach bytes of a file, with their indices."""
    return [(index, entry) for index, entry in enumerate(entries) if type(entry) in (Write, Truncate) and entry.number == number]


def mark_of(changes, size, place):
    """Follows one byte of a file that had this size: it returns its mark after the log, None where the file ends before it."""
    mark = OLD if place < size else None
    for index, entry in changes:
        if type(entry) is Truncate:
            first, end = min(size, entry.size), max(size, entry.size)
            if first <= place < end:
                mark = ZERO if entry.size > size else None
            size = entry.size
        elif entry.payload:
            end = entry.offset + len(entry.payload)
            if size <= place < entry.offset:
                mark = ZERO
            if entry.offset <= place < end:
                mark = (index, place - entry.offset)
            size = max(size, end)
    return mark


def segments_of(entries, number, before, after):
    """Returns the segments of a file whose size was `before` and is `after`, in order."""
    changes = changes_of(entries, number)
    edges = {0, before, after}
    for _, entry in changes:
        edges |= {entry.size} if type(entry) is Truncate else {entry.offset, entry.offset + len(entry.payload)}
    places = sorted(edge for edge in edges if edge <= after)
    return [Segment(number, start, end, mark_of(changes, before, start)) for start, end in zip(places, places[1:])]


def segments_after(before, after, entries):
    """Returns the segments of each file that the log may have changed, by number, ascending."""
    numbers = sorted({entry.number for entry in entries if type(entry) in (Write, Truncate)})
    files = [number for number in numbers if number in after.nodes and after.nodes[number].kind == FILE]
    sizes = {number: before.nodes[number].size if number in before.nodes else 0 for number in files}
    return {number: segments_of(entries, number, sizes[number], after.nodes[number].size) for number in files}


# ---- The right plan

def name_rows(before, after):
    changed = {key for key in before.names.keys() | after.names.keys() if before.names.get(key) != after.names.get(key)}
    return [NameRow(*key, after.names.get(key, 0)) for key in sorted(changed)]


def node_rows(before, after):
    numbers = before.nodes.keys() | after.nodes.keys()
    moved = {target for names in (before.names, after.names) for target in names.values()} if before.names != after.names else set()
    changed = [number for number in numbers if before.nodes.get(number) != after.nodes.get(number) or number in moved]
    rows = [(before.header(number), NodeRow(number, after.header(number))) for number in sorted(changed)]
    return [row for was, row in rows if was != row.now]


def pieces_of(segments):
    """Returns as few pieces as can say what the log made."""
    pieces = []
    for segment in (it for number in sorted(segments) for it in segments[number] if it.mark != OLD):
        last = pieces[-1] if pieces else None
        if last and goes_on(last, segment):
            pieces[-1] = last._replace(length=segment.end - last.start)
        else:
            pieces.append(Piece(segment.number, segment.start, segment.end - segment.start, segment.mark))
    return pieces


def goes_on(piece, segment):
    if (piece.number, piece.start + piece.length) != (segment.number, segment.start):
        return False
    return said_at(piece, segment.start) == segment.mark


def said_at(piece, place):
    """Returns the mark that a piece gives the byte at this place of its file."""
    if piece.source == ZERO:
        return ZERO
    entry, first = piece.source
    return entry, first + place - piece.start


def right_plan(version, before, after, segments):
    return Plan(version, name_rows(before, after), node_rows(before, after), pieces_of(segments))


# ---- The first wrong row of a plan

def first_difference(rows, right):
    """Returns the index of the first row that differs, the shorter list's length where it only stops early."""
    for index, (row, due) in enumerate(zip(rows, right)):
        if row != due:
            return index
    return None if len(rows) == len(right) else min(len(rows), len(right))


def is_true(piece, segments):
    """Whether each byte of the piece is there and has the mark that the piece says."""
    end = piece.start + piece.length
    reached = segments.get(piece.number, [])
    if not reached or end > reached[-1].end:
        return False
    parts = [(max(piece.start, it.start), it) for it in reached if it.start < end and piece.start < it.end]
    return all(segment.mark_at(place) == said_at(piece, place) for place, segment in parts)


def is_missed(behind, until, made):
    """Whether the log made a byte that isn't before `behind`, but before `until`; both are a number and a place."""
    return any((it.number, it.end) > behind and max((it.number, it.start), behind) < until for it in made)


def first_wrong_piece(pieces, segments):
    made = [it for number in sorted(segments) for it in segments[number] if it.mark != OLD]
    end = (0, 0)
    for index, piece in enumerate(pieces):
        start = (piece.number, piece.start)
        if piece.length == 0 or start < end or not is_true(piece, segments) or is_missed(end, start, made):
            return index
        end = (piece.number, piece.start + piece.length)
    return len(pieces) if is_missed(end, (1 << 32, 0), made) else None


def first_wrong_row(before, after, segments, plan):
    """Returns the first wrong row, as the program says it, or None."""
    for part, wrong in (
        ("Names", lambda: first_difference(plan.names, name_rows(before, after))),
        ("Nodes", lambda: first_difference(plan.nodes, node_rows(before, after))),
        ("Pieces", lambda: first_wrong_piece(plan.pieces, segments)),
    ):
        index = wrong()
        if index is not None:
            return f"plan {part}({index})"
    return None


# ---- Blocks

def marks_in(segments, block):
    """Returns which marks the bytes of a block have: OLD, ZERO and "payload"."""
    first, end = block * BLOCK, (block + 1) * BLOCK
    marks = {it.mark for it in segments if it.start < end and first < it.end}
    return {mark if mark in (OLD, ZERO) else "payload" for mark in marks}


def is_written(marks):
    return "payload" in marks or {OLD, ZERO} <= marks


def blocks_written(segments):
    """Returns the written blocks, as number and block. A block without an edge of a segment is written where all its bytes
    are of a payload."""
    found = set()
    for number, parts in segments.items():
        blocks = set()
        for it in parts:
            first, last = it.start // BLOCK, (it.end - 1) // BLOCK
            blocks |= {first, last} if it.mark in (OLD, ZERO) else set(range(first, last + 1))
        found |= {(number, block) for block in blocks if is_written(marks_in(parts, block))}
    return found

"""Sessions of the program in which a call changes as much as it can: for each kind of entry and each other call (tools/stack).

A session has its lines and the reply that is due to each of them. What is due is told by hand here, and nothing is taken from the
program. The encoders are those of tools/fuzzing.
"""
from typing import NamedTuple

from fuzzing.codec import BLOCK, DIRECTORY, FILE, ZERO
from fuzzing.codec import Chmod, Create, Header, Link, Log, NameRow, NodeRow, Piece, Plan, RawImage, RawNode, Regroup, Rename, Truncate, Unlink, Write
from fuzzing.codec import encode_image, encode_log, encode_plan

ROOT, CLIENT, USER, GROUP = 1, 7, 1000, 2000
LAST_NUMBER, LATEST = 65_536, 2
NEVER = 1 << 40
MOST_MOVES = 1_024
# With 4,096 files these are all blocks of a tier.
BLOCKS_EACH = 16
OPEN = Header(DIRECTORY, 0o777, 0, 0, 1, 0)
# Each sixteenth number is free, so that new nodes lie between the others.
FREE_EACH = 16


class Sizes(NamedTuple):
    """How many nodes there are beside the root, how many entries a log has, and how deep a tree is."""

    others: int
    log: int
    depth: int


FULL = Sizes(60_000, 4_096, 60_000)
# As many entries as a map takes edits in place, and a third of that: a Rename over a file makes three edits of uplinks.
FEW, FEWER = FULL._replace(log=16), FULL._replace(log=5)
SMALL, TINY = Sizes(600, 40, 500), Sizes(128, 8, 20)


def file_header(mode=0o644, group=USER, links=1, size=0):
    return Header(FILE, mode, USER, group, links, size)


def directory(number):
    return RawNode(number, Header(DIRECTORY, 0o755, USER, USER, 1, 0))


def numbers_between(count):
    """Returns so many numbers from 2 on, but for each sixteenth."""
    return [number for number in range(2, LAST_NUMBER + 1) if number % FREE_EACH][:count]


def free_numbers(count):
    """Returns so many of the numbers that lie between those."""
    return range(FREE_EACH, LAST_NUMBER + 1, FREE_EACH)[:count]


def spread(things, count):
    """Returns so many of a list, spread over all of it."""
    step = max(1, len(things) // count)
    return things[::step][:count]


def name_of(index):
    """Names of the others end in an even digit; those of new nodes lie between them."""
    return b"n%07d" % (2 * index)


def name_behind(index):
    return b"n%07d" % (2 * index + 1)


def image_of(nodes, names, sizes=(65_536, 65_536, 65_536)):
    rows = [RawNode(ROOT, OPEN), *nodes]
    return encode_image(RawImage(LATEST, sizes, sorted(rows), sorted(names), []))


class Session:
    """Lines, and the replies that are due. The words are those of the command line. Only `run` is known to the server in C."""

    def __init__(self, title, words=("run",)):
        self.title, self.words, self.lines, self.due, self.rows = title, words, [], [], 0

    def say(self, line, reply):
        self.lines.append(line)
        self.due.append(reply)

    def call(self, line, answer):
        """Adds a line that takes a row of the docket."""
        self.say(line, f"{self.rows} {answer}")
        self.rows += 1

    def begin(self, image):
        self.say(f"image {image.hex()}", "ok")
        self.say(client_line(), "ok")
        self.say("begin 4294967295", "ok")

    def lease(self, path, number, end=NEVER):
        self.call(f"lease {CLIENT} {path} w {end}", f"leased {number}")

    def submit(self, log, need=0):
        self.call(f"submit {CLIENT} {log.words}", f"yes rejudged=0 need={need}")

    def judge(self, worker, log):
        self.say(f"judge {worker} {CLIENT} {log.words}", f"judged {worker}")

    def land(self, worker, need=0):
        self.call(f"land {worker}", f"yes rejudged=0 need={need}")

    @property
    def text(self):
        return "".join(f"{line}\n" for line in self.lines)

    @property
    def replies(self):
        return "".join(f"{reply}\n" for reply in self.due)


def client_line():
    return f"client {CLIENT} {USER} {USER} 0 2 {LAST_NUMBER} {GROUP}"


class RightLog:
    """A log and its right plan, as the words of a line. The rows of the plan may come in any order."""

    def __init__(self, entries, names=(), nodes=(), pieces=()):
        self.log = encode_log(Log(LATEST, CLIENT, list(entries)))
        self.plan = encode_plan(Plan(LATEST, sorted(names), sorted(nodes, key=lambda row: row.number), sorted(pieces, key=lambda row: row.number)))

    @property
    def words(self):
        return f"{self.log.hex()} {self.plan.hex()}"


# ---- Trees

class Wide:
    """Files in the root directory."""

    def __init__(self, sizes):
        self.sizes = sizes
        self.numbers = numbers_between(sizes.others)
        self.files = [(name_of(index), number) for index, number in enumerate(self.numbers)]
        nodes = [RawNode(number, file_header()) for number in self.numbers]
        self.image = image_of(nodes, [NameRow(ROOT, *file) for file in self.files])

    def some(self):
        """As many files as a log has entries, spread over all."""
        return spread(self.files, self.sizes.log)

    def begun(self, title, leased=()):
        session = Session(title)
        session.begin(self.image)
        session.lease("/", ROOT)
        for name, number in leased:
            session.lease(f"/{name.decode()}", number)
        return session


class TwoDirectories:
    """Files in two directories, as many in each."""

    def __init__(self, sizes):
        first, second, *numbers = numbers_between(sizes.others + 2)
        self.sizes, self.directories = sizes, (first, second)
        half = len(numbers) // 2
        self.files = [[(name_of(index), number) for index, number in enumerate(part)] for part in (numbers[:half], numbers[half:])]
        nodes = [directory(first), directory(second), *(RawNode(number, file_header()) for number in numbers)]
        names = [NameRow(ROOT, b"d", first), NameRow(ROOT, b"e", second)]
        names += [NameRow(holder, *file) for holder, files in zip(self.directories, self.files) for file in files]
        self.image = image_of(nodes, names)

    def begun(self, title, leased):
        """Leases both directories, and of each list of files those in its directory."""
        session = Session(title)
        session.begin(self.image)
        for letter, holder, files in zip("de", self.directories, leased):
            session.lease(f"/{letter}", holder)
            for name, number in files:
                session.lease(f"/{letter}/{name.decode()}", number)
        return session


# ---- Logs: one entry for each of these files

def new_names(sizes):
    """As many new names as a log has entries, spread between those of the others."""
    numbers = free_numbers(sizes.log)
    step = max(1, sizes.others // len(numbers))
    return [NameRow(ROOT, name_behind(index * step), number) for index, number in enumerate(numbers)]


def creates(rows, kind=FILE):
    header = file_header() if kind == FILE else Header(DIRECTORY, 0o755, USER, USER, 1, 0)
    entries = [Create(ROOT, row.name, row.number, kind, header.mode) for row in rows]
    return RightLog(entries, rows, [NodeRow(row.number, header) for row in rows])


def written_at(number, index, block, size):
    """Returns an entry that writes the last byte of a block of a file, and its pieces: what lies before it is zero."""
    start = (block + 1) * BLOCK - 1
    return Write(number, start, b"w"), [Piece(number, size, start - size, ZERO), Piece(number, start, 1, (index, 0))]


def writes_at(files, block, size):
    """Writes in each of these files, which have this size."""
    written = [written_at(number, index, block, size) for index, (_, number) in enumerate(files)]
    nodes = [NodeRow(number, file_header(size=(block + 1) * BLOCK)) for _, number in files]
    return RightLog([entry for entry, _ in written], (), nodes, [piece for _, pieces in written for piece in pieces])


def writes_in(number, blocks, size):
    """Writes in these blocks of one file, which has this size."""
    entries, all_pieces = [], []
    for index, block in enumerate(blocks):
        entry, pieces = written_at(number, index, block, size)
        entries.append(entry)
        all_pieces += pieces
        size = (block + 1) * BLOCK
    return RightLog(entries, (), [NodeRow(number, file_header(size=size))], all_pieces)


def unlinks(files):
    entries = [Unlink(ROOT, name, FILE) for name, _ in files]
    return RightLog(entries, [NameRow(ROOT, name, 0) for name, _ in files], [NodeRow(number, None) for _, number in files])


def links(files):
    entries = [Link(number, ROOT, name + b"l") for name, number in files]
    rows = [NameRow(ROOT, name + b"l", number) for name, number in files]
    return RightLog(entries, rows, [NodeRow(number, file_header(links=2)) for _, number in files])


def writes(files):
    entries = [Write(number, 0, b"w") for _, number in files]
    pieces = [Piece(number, 0, 1, (index, 0)) for index, (_, number) in enumerate(files)]
    return RightLog(entries, (), [NodeRow(number, file_header(size=1)) for _, number in files], pieces)


def truncates(files, size):
    entries = [Truncate(number, size) for _, number in files]
    pieces = [Piece(number, 0, size, ZERO) for _, number in files if size]
    return RightLog(entries, (), [NodeRow(number, file_header(size=size)) for _, number in files], pieces)


def chmods(files):
    return RightLog([Chmod(number, 0o600) for _, number in files], (), [NodeRow(number, file_header(mode=0o600)) for _, number in files])


def regroups(files):
    return RightLog([Regroup(number, GROUP) for _, number in files], (), [NodeRow(number, file_header(group=GROUP)) for _, number in files])


def renames(tree, files):
    """Files of the first directory go to the second one, under names between those there."""
    old, new = tree.directories
    entries = [Rename(old, name, new, name + b"m") for name, _ in files]
    rows = [row for name, number in files for row in (NameRow(old, name, 0), NameRow(new, name + b"m", number))]
    return RightLog(entries, rows)


def renames_over(tree, files, targets):
    """Files of the first directory take the names of files of the second one, which go."""
    old, new = tree.directories
    pairs = list(zip(files, targets))
    entries = [Rename(old, name, new, other) for (name, _), (other, _) in pairs]
    rows = [row for (name, number), (other, _) in pairs for row in (NameRow(old, name, 0), NameRow(new, other, number))]
    return RightLog(entries, rows, [NodeRow(gone, None) for _, gone in targets])


# ---- Sessions of a wide tree

def created(tree):
    session = tree.begun(f"{tree.sizes.log:,} Creates between {tree.sizes.others:,} others")
    session.submit(creates(new_names(tree.sizes)))
    return session


def created_directories(tree):
    session = tree.begun(f"{tree.sizes.log:,} Creates of directories")
    session.submit(creates(new_names(tree.sizes), DIRECTORY))
    return session


def unlinked(tree):
    session = tree.begun(f"{tree.sizes.log:,} Unlinks, of the only leased files", tree.some())
    session.submit(unlinks(tree.some()))
    return session


def unlinked_all_leased(tree):
    session = tree.begun(f"{tree.sizes.log:,} Unlinks, all files leased", tree.files)
    session.submit(unlinks(tree.some()))
    return session


def unlinked_written(tree):
    session = tree.begun(f"{tree.sizes.log:,} Unlinks of files with a block", tree.some())
    session.submit(writes(tree.some()), len(tree.some()))
    session.submit(unlinks(tree.some()))
    return session


def unlinked_long(tree):
    """The files have all blocks of a tier, as many each."""
    session = tree.begun(f"{tree.sizes.log:,} Unlinks of files with {BLOCKS_EACH} blocks", tree.some())
    for index in range(BLOCKS_EACH):
        session.submit(writes_at(tree.some(), 2 * index, max(0, (2 * index - 1) * BLOCK)), len(tree.some()))
    session.submit(unlinks(tree.some()))
    return session


def cut_long(tree):
    """One file has all blocks of a tier, with holes between them, and loses them by one entry."""
    files, each = tree.some()[:1], 2 * tree.sizes.log
    session = tree.begun(f"a Truncate that frees {BLOCKS_EACH * tree.sizes.log:,} blocks", files)
    for index in range(BLOCKS_EACH):
        blocks = range(index * each, (index + 1) * each, 2)
        session.submit(writes_in(files[0][1], blocks, max(0, (blocks[0] - 1) * BLOCK)), len(blocks))
    session.submit(truncates(files, 0))
    return session


def linked(tree):
    session = tree.begun(f"{tree.sizes.log:,} Links", tree.some())
    session.submit(links(tree.some()))
    return session


def written(tree):
    session = tree.begun(f"{tree.sizes.log:,} Writes to as many files", tree.some())
    session.submit(writes(tree.some()), len(tree.some()))
    return session


def grown(tree):
    session = tree.begun(f"{tree.sizes.log:,} Truncates that lengthen", tree.some())
    session.submit(truncates(tree.some(), 10))
    return session


def cut(tree):
    session = tree.begun(f"{tree.sizes.log:,} Truncates that free a block", tree.some())
    session.submit(writes(tree.some()), len(tree.some()))
    session.submit(truncates(tree.some(), 0))
    return session


def changed_modes(tree):
    session = tree.begun(f"{tree.sizes.log:,} Chmods", tree.some())
    session.submit(chmods(tree.some()))
    return session


def changed_groups(tree):
    session = tree.begun(f"{tree.sizes.log:,} Regroups", tree.some())
    session.submit(regroups(tree.some()))
    return session


def moved(tree):
    files = spread(tree.some(), MOST_MOVES)
    session = tree.begun(f"moves of {len(files):,} blocks", tree.some())
    session.submit(writes(tree.some()), len(tree.some()))
    words = " ".join(f"{number} 0 1 {2 * index}" for index, (_, number) in enumerate(files))
    session.call(f"move {words}", f"moved {len(files)}")
    return session


def ticked(tree):
    session = Session(f"a tick that ends {tree.sizes.others:,} leases")
    session.begin(tree.image)
    for name, number in tree.files:
        session.lease(f"/{name.decode()}", number, 100)
    session.call("tick 100", "ticked 100")
    return session


def dropped(tree):
    """Each lease is given up by a call of its own."""
    session = tree.begun(f"{tree.sizes.log:,} drops", tree.some())
    for _, number in tree.some():
        session.call(f"drop {CLIENT} {number}", f"dropped {number}")
    return session


def by_workers(tree):
    """Eight workers judge against one state, and land in turn."""
    session = tree.begun("8 verdicts, landed in turn")
    for worker in range(8):
        session.judge(worker, creates(new_names(tree.sizes)[worker::8]))
    for worker in range(8):
        session.land(worker)
    return session


def judged_again(tree):
    """A verdict whose reads have changed meanwhile is judged again by `land`."""
    session = tree.begun(f"{tree.sizes.log:,} Links, judged again", tree.some())
    session.judge(0, links(tree.some()))
    session.submit(chmods(tree.some()[:1]))
    session.call("land 0", "no rejudged=1 plan Nodes(0)")
    return session


def planned(tree):
    session = tree.begun(f"the plan of {tree.sizes.log:,} Unlinks", tree.some())
    log = unlinks(tree.some())
    session.say(f"plan {CLIENT} {log.log.hex()}", f"plan {log.plan.hex()}")
    return session


def saved(tree):
    session = tree.begun(f"save, of {tree.sizes.others:,} files")
    session.say("save", f"image {tree.image.hex()}")
    return session


def listed(tree):
    session = tree.begun(f"list, of {tree.sizes.others:,} names")
    session.say("list 1", "list 1" + "".join(f" {name.hex()}:{number}" for name, number in tree.files))
    return session


def checked(tree):
    session = Session("the words fsck", ("fsck",))
    session.say(tree.image.hex(), "ok")
    return session


def shown(tree):
    session = Session("the words show", ("show",))
    nodes = [f"node {ROOT} dir 0777 0 0 1 0", *(f"node {number} file 0644 {USER} {USER} 1 0" for number in tree.numbers)]
    session.say(tree.image.hex(), "\n".join([*nodes, *(f"name {ROOT} {name.hex()} {number}" for name, number in tree.files)]))
    return session


def planned_by_words(tree):
    session = Session("the words plan", ("plan",))
    log = unlinks(tree.some())
    session.lines = [f"image {tree.image.hex()}", client_line(), f"log {log.log.hex()}"]
    session.due = [f"plan {log.plan.hex()}"]
    return session


OF_WIDE = (
    created, created_directories, unlinked, unlinked_all_leased, unlinked_written, unlinked_long, linked, written, grown, cut, cut_long,
    changed_modes, changed_groups, moved, ticked, dropped, by_workers, judged_again, planned, saved, listed, checked, shown,
    planned_by_words,
)

OF_SHORT = (created, unlinked_all_leased, unlinked_written, linked, written, cut, changed_modes, moved)


# ---- Sessions of two directories

def renamed(tree):
    files = spread(tree.files[0], tree.sizes.log)
    session = tree.begun(f"{len(files):,} Renames across two directories of {len(tree.files[0]):,}", (files, ()))
    session.submit(renames(tree, files))
    return session


def renamed_over(tree):
    files, targets = (spread(part, tree.sizes.log) for part in tree.files)
    session = tree.begun(f"{len(files):,} Renames over as many files", (files, targets))
    session.submit(renames_over(tree, files, targets))
    return session


OF_TWO = (renamed, renamed_over)


# ---- Sessions of files that stand in directories of their own: a log that changes some of them changes each of the maps

class Apart:
    """Directories in the root directory, each with a file `f` in it."""

    def __init__(self, sizes):
        self.sizes = sizes
        numbers = numbers_between(sizes.others)
        self.pairs = list(zip(numbers[::2], numbers[1::2]))
        nodes = [row for holder, number in self.pairs for row in (directory(holder), RawNode(number, file_header()))]
        names = [NameRow(ROOT, self.name(holder), holder) for holder, _ in self.pairs]
        self.image = image_of(nodes, names + [NameRow(holder, b"f", number) for holder, number in self.pairs])

    @staticmethod
    def name(holder):
        return b"d%05d" % holder

    def some(self, count):
        return spread(self.pairs, count)

    def begun(self, title, pairs):
        """Leases these directories and the files in them."""
        session = Session(title)
        session.begin(self.image)
        for holder, number in pairs:
            path = "/" + self.name(holder).decode()
            session.lease(path, holder)
            session.lease(f"{path}/f", number)
        return session


def unlinked_apart(tree):
    pairs = tree.some(tree.sizes.log)
    session = tree.begun(f"{len(pairs):,} Unlinks, each in a directory of its own", pairs)
    session.submit(writes([(b"f", number) for _, number in pairs]), len(pairs))
    entries = [Unlink(holder, b"f", FILE) for holder, _ in pairs]
    rows = [NameRow(holder, b"f", 0) for holder, _ in pairs]
    session.submit(RightLog(entries, rows, [NodeRow(number, None) for _, number in pairs]))
    return session


def created_apart(tree):
    pairs = tree.some(tree.sizes.log)
    session = tree.begun(f"{len(pairs):,} Creates, each in a directory of its own", pairs)
    rows = [NameRow(holder, b"g", number) for (holder, _), number in zip(pairs, free_numbers(len(pairs)))]
    entries = [Create(row.directory, row.name, row.number, FILE, 0o644) for row in rows]
    session.submit(RightLog(entries, rows, [NodeRow(row.number, file_header()) for row in rows]))
    return session


def renamed_apart(tree):
    """Each file with a block takes the place of another one with a block, which goes."""
    pairs = tree.some(2 * tree.sizes.log)
    sources, targets = pairs[::2], pairs[1::2]
    session = tree.begun(f"{len(sources):,} Renames over files, each between directories of its own", pairs)
    for part in (sources, targets):
        session.submit(writes([(b"f", number) for _, number in part]), len(part))
    both = list(zip(sources, targets))
    entries = [Rename(old, b"f", new, b"f") for (old, _), (new, _) in both]
    rows = [row for (old, number), (new, _) in both for row in (NameRow(old, b"f", 0), NameRow(new, b"f", number))]
    session.submit(RightLog(entries, rows, [NodeRow(gone, None) for _, gone in targets]))
    return session


OF_APART = (unlinked_apart, created_apart, renamed_apart)


# ---- Deep trees

class Chain:
    """Directories in each other, named `a` and numbered from 2 on, with more below the lowest."""

    def __init__(self, depth, below=("p", "q"), inner=("x",)):
        """`below` are directories in the lowest one, and `inner` are directories in the first of these."""
        self.depth = depth
        lowest = depth + 1
        nodes = [directory(number) for number in range(2, lowest + 1)]
        names = [NameRow(number - 1, b"a", number) for number in range(2, lowest + 1)]
        self.numbers, self.lowest, number = {}, lowest, lowest
        for holder, parts in ((lowest, below), (lowest + 1, inner)):
            for part in parts:
                number += 1
                self.numbers[part] = number
                nodes.append(directory(number))
                names.append(NameRow(holder, part.encode(), number))
        self.image = image_of(nodes, names)
        self.path = "/a" * depth

    def begun(self, title, leased=("p", "q", "p/x")):
        session = Session(title)
        session.begin(self.image)
        for path in leased:
            session.lease(f"{self.path}/{path}", self.numbers[path.split("/")[-1]])
        return session


def renamed_at_depth(tree):
    """One directory goes from one to another and back, many times; the log changes nothing in the end."""
    session = tree.begun(f"Renames of a directory at depth {tree.depth:,}")
    session.submit(there_and_back(tree.numbers["p"], tree.numbers["q"], b"x", 4))
    return session


def below_itself(tree):
    """The lowest directory but one can't go below itself."""
    session = tree.begun(f"a Rename below itself at depth {tree.depth:,}")
    entry = Rename(tree.numbers["p"], b"x", tree.numbers["x"], b"y")
    session.call(f"submit {CLIENT} {RightLog([entry]).words}", "no rejudged=0 entry 0 BelowItself")
    return session


def saved_chain(tree):
    session = tree.begun(f"save, of directories at depth {tree.depth:,}")
    session.say("save", f"image {tree.image.hex()}")
    return session


def checked_chain(tree):
    session = Session(f"the words fsck, at depth {tree.depth:,}", ("fsck",))
    session.say(tree.image.hex(), "ok")
    return session


OF_CHAIN = (renamed_at_depth, below_itself, saved_chain, checked_chain)


def there_and_back(first, second, name, count):
    """A directory goes from the first to the second and back, in so many Renames; an even count leaves all as it was."""
    ways = [Rename(first, name, second, name), Rename(second, name, first, name)]
    return RightLog([ways[index % 2] for index in range(count)])


# ---- Climbs: Renames of directories, of which each asks whether a directory would come below itself

JUDGES = 2


def judged(session, log):
    """Has the log judged by some workers; nothing lands, so each judges the same."""
    for worker in range(JUDGES):
        session.judge(worker, log)
    return session


def judged_creates(sizes):
    session = Session(f"{sizes.log:,} Creates in an empty directory")
    session.begin(image_of([], []))
    session.lease("/", ROOT)
    return judged(session, creates(new_names(sizes)))


def judged_creates_between(sizes):
    tree = Wide(sizes)
    return judged(tree.begun(f"{sizes.log:,} Creates between {sizes.others:,} others"), creates(new_names(sizes)))


def climbs_of_two(sizes):
    tree = Chain(sizes.depth)
    session = tree.begun(f"{sizes.log:,} Renames between two directories at depth {sizes.depth:,}")
    return judged(session, there_and_back(tree.numbers["p"], tree.numbers["q"], b"x", sizes.log))


def branches(sizes):
    """Two chains below the root, and a directory below the lowest one of the first."""
    depth = sizes.depth // 2
    firsts = (2, 2 + depth)
    moving = 2 + 2 * depth
    nodes = [directory(number) for number in range(2, moving + 1)]
    names = [NameRow(ROOT, letter, first) for letter, first in zip((b"b", b"c"), firsts)]
    names += [NameRow(number - 1, b"a", number) for first in firsts for number in range(first + 1, first + depth)]
    lowest = [first + depth - 1 for first in firsts]
    session = Session(f"{sizes.log:,} Renames between two branches of depth {depth:,}")
    session.begin(image_of(nodes, [*names, NameRow(lowest[0], b"x", moving)]))
    paths = [f"/{letter}" + "/a" * (depth - 1) for letter in "bc"]
    for path, number in (*zip(paths, lowest), (paths[0] + "/x", moving)):
        session.lease(path, number)
    return judged(session, there_and_back(*lowest, b"x", sizes.log))


def moved_near_the_top(sizes):
    """A directory near the top, with the chain below it, goes back and forth between Renames at the bottom."""
    first, second, top = 2, 3, 4
    lowest = top + sizes.depth - 1
    left, right, moving = lowest + 1, lowest + 2, lowest + 3
    nodes = [directory(number) for number in range(2, moving + 1)]
    names = [NameRow(ROOT, b"p", first), NameRow(ROOT, b"q", second), NameRow(first, b"t", top)]
    names += [NameRow(number - 1, b"a", number) for number in range(top + 1, lowest + 1)]
    names += [NameRow(lowest, b"l", left), NameRow(lowest, b"r", right), NameRow(left, b"x", moving)]
    session = Session(f"{sizes.log:,} Renames, each second one near the top of depth {sizes.depth:,}")
    session.begin(image_of(nodes, names))
    path = "/p/t" + "/a" * (sizes.depth - 1)
    leased = (("/p", first), ("/q", second), ("/p/t", top), (f"{path}/l", left), (f"{path}/r", right), (f"{path}/l/x", moving))
    for at, number in leased:
        session.lease(at, number)
    four = [Rename(first, b"t", second, b"t"), Rename(left, b"x", right, b"x"), Rename(second, b"t", first, b"t"), Rename(right, b"x", left, b"x")]
    return judged(session, RightLog([four[index % 4] for index in range(sizes.log - sizes.log % 4)]))


class Spine:
    """Directories that are leased in the root directory and then moved below the lowest one of a chain, each below the one before;
    and one more in the first of them."""

    def __init__(self, sizes):
        lowest = sizes.depth + 1
        self.numbers = range(lowest + 1, lowest + 1 + sizes.log)
        self.moving = self.numbers[-1] + 1
        nodes = [directory(number) for number in range(2, self.moving + 1)]
        names = [NameRow(number - 1, b"a", number) for number in range(2, lowest + 1)]
        names += [NameRow(ROOT, b"d%05d" % number, number) for number in self.numbers] + [NameRow(self.numbers[0], b"x", self.moving)]
        self.image = image_of(nodes, names)
        self.leased = [("/", ROOT), ("/a" * sizes.depth, lowest), *((f"/d{number:05}", number) for number in self.numbers)]
        self.leased.append((f"/d{self.numbers[0]:05}/x", self.moving))

    def begun(self, title):
        session = Session(title)
        session.begin(self.image)
        for path, number in self.leased:
            session.lease(path, number)
        return session

    def moved_down(self):
        """Each climb of this log goes along all directories that the log has moved so far."""
        down = [(NameRow(ROOT, b"d%05d" % number, 0), NameRow(number - 1, b"d%05d" % number, number)) for number in self.numbers]
        entries = [Rename(old.directory, old.name, new.directory, new.name) for old, new in down]
        return RightLog(entries, [row for pair in down for row in pair])


def spine(sizes):
    tree = Spine(sizes)
    session = tree.begun(f"{sizes.log:,} Renames, each below the directory that was moved before, from depth {sizes.depth:,} on")
    return judged(session, tree.moved_down())


def comb(sizes):
    """A directory goes one level deeper by each Rename, along a spine that an earlier log has made."""
    tree = Spine(sizes)
    session = tree.begun(f"{sizes.log - 1:,} Renames, each one level deeper, from depth {sizes.depth:,} on")
    session.submit(tree.moved_down())
    entries = [Rename(number, b"x", number + 1, b"x") for number in tree.numbers[:-1]]
    rows = [NameRow(tree.numbers[0], b"x", 0), NameRow(tree.numbers[-1], b"x", tree.moving)]
    return judged(session, RightLog(entries, rows))


CLIMBS = (judged_creates, judged_creates_between, climbs_of_two, branches, moved_near_the_top, comb, spine)


def climbs(sizes):
    """Yields the sessions whose judgements are timed. The first one is what the others are compared with."""
    yield from (make(sizes) for make in CLIMBS)


# ---- All

def sessions(sizes):
    """Yields all sessions of these sizes, one at a time: each has megabytes of text."""
    for kind, makers in ((Wide, OF_WIDE), (TwoDirectories, OF_TWO), (Apart, OF_APART)):
        tree = kind(sizes)
        yield from (make(tree) for make in makers)
    tree = Chain(sizes.depth)
    yield from (make(tree) for make in OF_CHAIN)


def short_sessions():
    """Yields sessions of short logs: up to some count of edits a map is changed in place."""
    for sizes in (FEW, FEWER):
        tree = Wide(sizes)
        yield from (make(tree) for make in OF_SHORT)
        tree = Apart(sizes)
        yield from (make(tree) for make in OF_APART)

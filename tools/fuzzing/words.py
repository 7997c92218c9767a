"""What the words `fsck` and `show` write of their input, and with which exit status they end (docs/FORMATS.md)."""
from .codec import Refused, decode_image
from .desk import BAD, LINE_LIMIT, BadLine, Words, node_line
from .images import finding, tree_of

LET_IN, NOT_LET_IN, FAILED = 0, 1, 3


def shown(tree):
    """Returns the lines of the nodes and of the names."""
    yield from (node_line(number, tree.header(number)) for number in sorted(tree.nodes))
    yield from (f"name {directory} {name.hex()} {target}" for (directory, name), target in sorted(tree.names.items()))


def judged(line):
    """Returns why a line is no image that is let in, or None; and its rows."""
    try:
        words = Words(line)
        data = words.bytes()
        words.end()
        raw = decode_image(data)
    except BadLine:
        return BAD.decode(), None
    except Refused as refused:
        return f"image {refused}", None
    return finding(raw), raw


def due(word, data):
    """Returns the text and the exit status. Only the first line is looked at."""
    line = data.split(b"\n")[0]
    if len(line) > LINE_LIMIT:
        return b"", FAILED
    fault, raw = judged(line)
    if fault:
        return f"{fault}\n".encode(), NOT_LET_IN
    lines = shown(tree_of(raw)) if word == "show" else ["ok"]
    return "".join(f"{it}\n" for it in lines).encode(), LET_IN

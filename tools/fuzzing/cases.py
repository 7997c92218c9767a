"""What the program is given to read with a word, and what is due: its replies, line by line, and its exit status."""
import glob
import os
from typing import NamedTuple

from . import words
from .calls import CallMaker, CallSession, ServerSession
from .desk import LongLine, Session, Unknown
from .scripts import Maker

LINE_TOO_LONG = 3
# The words whose inputs are sessions.
SESSIONS = {"run": Session, "calls": CallSession, "server": ServerSession}


class Found(NamedTuple):
    """The first line that is answered otherwise than is due, with both replies."""

    index: int
    line: bytes
    due: bytes
    reply: bytes


class Case(NamedTuple):
    """An input of a word. Of a session what is due is found beside the replies, as some of it is open; `likely` is one text
    that may be."""

    name: object
    word: str
    text: bytes
    due: tuple = None
    likely: bytes = None

    def lines(self):
        return self.text.removesuffix(b"\n").split(b"\n") if self.text else []

    def count(self):
        """How many commands it has."""
        return len(self.lines()) if self.word in SESSIONS else 1

    def length_due(self):
        """About how many bytes the replies have."""
        if self.due or self.likely:
            return len(self.likely or self.due[0])
        session, count = Session(), 1
        for line in self.lines():
            try:
                count += len(session.expected(line)) + 1
            except LongLine:
                break
        return count

    def difference(self, output, status):
        if self.due:
            return difference_of_texts(self, output, status)
        if self.likely == output and status == 0:
            return None
        return difference_of_session(self.lines(), output.split(b"\n")[:-1], status, SESSIONS[self.word]())


def difference_of_texts(case, output, status):
    if (output, status) == case.due:
        return None
    return Found(0, case.text, b"status %d: %s" % (case.due[1], case.due[0]), b"status %d: %s" % (status, output))


def difference_of_session(lines, replies, status, session):
    for index, line in enumerate(lines):
        reply = replies[index] if index < len(replies) else b"(no reply)"
        try:
            due = session.expected(line, reply)
        except Unknown:
            return None
        except LongLine:
            is_due = len(replies) == index and status == LINE_TOO_LONG
            return None if is_due else Found(index, line, b"(no reply, status 3)", b"(status %d)" % status)
        if reply != due:
            return Found(index, line, due, reply)
    if len(replies) == len(lines) and status == 0:
        return None
    return Found(len(lines), b"(no line)", b"(no reply, status 0)", b"(%d replies more, status %d)" % (len(replies) - len(lines), status))


def text_with_ends(lines):
    return b"".join((line if isinstance(line, bytes) else line.encode()) + b"\n" for line in lines)


def session(name, lines, likely=None):
    return Case(name, "run", text_with_ends(lines), None, text_with_ends(likely) if likely else None)


def made_session(seed, lines, without):
    maker = Maker(seed, without)
    return session(seed, maker.script(lines), maker.replies)


def made_calls(seed, lines, is_cut):
    """Returns a session whose calls are bytes, which the program of `tools/fuzz --calls` reads; if asked, cut behind each call."""
    maker = CallMaker(seed, is_cut)
    return Case(seed, "calls", text_with_ends(maker.script(lines)), None, text_with_ends(maker.replies))


def image_cases(name, text):
    """Returns both words that take an image, over the same input."""
    return [Case(f"{name} {word}", word, text, words.due(word, text)) for word in ("fsck", "show")]


def made_cases(seed, images):
    """Returns inputs of the words that take an image, this many for each word. A seed makes the same each time."""
    maker = Maker(f"images {seed}")
    return [case for index in range(images) for case in image_cases(f"{seed}, image {index},", maker.image_input())]


def saved_cases(seed, replies):
    """Returns the words over the image that a session has shown at last."""
    images = [reply.removeprefix(b"image ") for reply in replies.split(b"\n") if reply.startswith(b"image ")]
    return image_cases(f"{seed}, saved image,", images[-1] + b"\n") if images else []


def text_of(path, otherwise=b""):
    if not os.path.exists(path):
        return otherwise
    with open(path, "rb") as it:
        return it.read()


def stored_cases(folder):
    """Returns the scripts of the repository with what is due of them, but for those whose input fails or is no file alone, or that have other words."""
    cases = []
    for path in sorted(glob.glob(f"{folder}/*.kfs")):
        base = path.removesuffix(".kfs")
        word = text_of(f"{base}.words", b"run\n").decode().strip()
        if word in ("run", "fsck", "show") and not any(os.path.exists(f"{base}.{end}") for end in ("broken", "padding")):
            due = text_of(f"{base}.out"), int(text_of(f"{base}.status", b"0"))
            cases.append(Case(os.path.basename(base), word, text_of(path), due))
    return cases

"""What tools/descents reads of the code: the functions of each crate, their calls, and the types that types hold."""
import glob
import os
import re
from dataclasses import dataclass
from typing import NamedTuple

TOP = os.path.dirname(os.path.dirname(os.path.dirname(os.path.realpath(__file__))))

NOISE = re.compile(r'//[^\n]*|b?"(?:[^"\\]|\\.)*"|b?\'(?:[^\'\\]|\\.[^\']*)\'', re.S)
TOKEN = re.compile(r"\w+|::|->|=>|\.\.=?|&&|\|\||[^\s\w]")
OPENERS, CLOSERS = {"(": ")", "[": "]", "{": "}"}, {")", "]", "}"}

# What stands for the value within: a call on it is one on that value, where the holder has no such method itself.
HOLDERS = {"Arc", "Box"}


@dataclass(frozen=True, eq=False)
class Function:
    """A function with a body. `owner` is the type of its impl or the trait that gives the body, `of` what stands between that
    type's angle brackets, and `trait` the trait that is implemented; `bounds` are the traits that its type parameters have."""

    crate: str
    file: str
    line: int
    module: str
    owner: str
    of: tuple
    trait: str
    name: str
    parameters: tuple
    result: tuple
    bounds: dict
    body: tuple
    cycle: str

    @property
    def title(self):
        return "::".join(filter(None, [self.crate, self.owner, self.name]))


class Type(NamedTuple):
    """A type of the crates. Types of one name are told apart by where they stand."""

    crate: str
    file: str
    module: str
    name: str


def tokens_of(text):
    """Returns the tokens of a source, each with its line. Comments and literals are gone."""
    clean = NOISE.sub(lambda it: '0' + "\n" * it[0].count("\n") if it[0][0] != "/" else "", text)
    found, line = [], 1
    for number, part in enumerate(clean.split("\n"), 1):
        found += [(token, number) for token in TOKEN.findall(part)]
    return found


def closing(tokens, at):
    """Returns the index of what closes the bracket that stands at this index."""
    depth = 0
    while at < len(tokens):
        depth += (tokens[at][0] in OPENERS) - (tokens[at][0] in CLOSERS)
        if not depth:
            return at
        at += 1
    return at


def angles(tokens, at):
    """Returns the index behind the angle brackets that begin at this index, or the index itself where none do."""
    if at >= len(tokens) or tokens[at][0] != "<":
        return at
    depth = 0
    while at < len(tokens):
        depth += (tokens[at][0] == "<") - (tokens[at][0] == ">")
        at += 1
        if not depth:
            return at
    return at


def split(tokens, mark=","):
    """Cuts tokens at a mark that stands in no bracket."""
    parts, depth = [[]], 0
    for token in tokens:
        depth += (token in OPENERS or token == "<") - (token in CLOSERS or token == ">")
        if token == mark and not depth:
            parts.append([])
        else:
            parts[-1].append(token)
    return [tuple(part) for part in parts if part]


def head_of(words):
    """Returns the first type that is named, behind references, `mut`, lifetimes, and paths."""
    words = [it for it in words if it not in ("&", "mut", "*", "const", "dyn", "impl")]
    while len(words) > 1 and words[0] == "'":
        words = words[2:]
    if not words:
        return "", ()
    at = 0
    while at + 2 < len(words) and words[at + 1] == "::" and words[at + 2] != "<":
        at += 2
    inner = words[at + 1 :]
    inner = inner[1:] if inner[:1] == ["::"] else inner
    return words[at], split(inner[1:-1]) if inner[:1] == ["<"] else ()


def bounds_of(words):
    """Returns the traits of type parameters, of the tokens between their angle brackets or behind `where`."""
    found = {}
    for part in split(words):
        name, colon, traits = (part + ("", ""))[0], (part + ("", ""))[1], part[2:]
        if colon == ":":
            found.setdefault(name, set()).update(head_of(list(it))[0] for it in split(traits, "+"))
    return found


class Source:
    """All functions of the crates, the fields of their structs, and what each type names that it holds by value."""

    def __init__(self, crates):
        self.functions, self.fields, self.variants, self.named, self.holds = [], {}, {}, {}, {}
        self.traits, self.macros, self.uses = {}, {}, {}
        for crate in crates:
            for file in sorted(glob.glob(f"{TOP}/crates/{crate}/src/**/*.rt", recursive=True)):
                with open(file, encoding="utf-8") as it:
                    tokens = tokens_of(it.read())
                Reader(self, crate, os.path.relpath(file, TOP), tokens).items(0, len(tokens), "", (), "", {})
        self.types = {}
        for it in self.holds:
            self.types.setdefault(it.name, set()).add(it)

    def held(self, holder):
        """Returns the types that a type may hold by value."""
        return set().union(*(self.meant(holder, path, name) for path, name in self.holds[holder]))

    def meant(self, holder, path, name):
        """Returns the types that a name may mean in the text of a type: of the module or crate before it, else of the holder's own
        module, of its file, of the crate from which its file brings it, or of its crate. Where none is there, any may be meant."""
        alike = self.types.get(name, set())
        crate = self.uses.get((holder.file, path or name))
        nearest = (
            {it for it in alike if path and path in (it.crate, it.module)},
            {it for it in alike if not path and (it.file, it.module) == (holder.file, holder.module)},
            {it for it in alike if not path and it.file == holder.file},
            {it for it in alike if it.crate == crate},
            {it for it in alike if it.crate == holder.crate},
        )
        return next(filter(None, nearest), alike)


class Reader:
    """Reads the items of one file."""

    def __init__(self, source, crate, file, tokens):
        self.source, self.crate, self.file, self.tokens = source, crate, file, tokens
        self.modules = [(0, len(tokens), os.path.basename(file)[:-3])]

    def module(self, at):
        """Returns the innermost module around a token."""
        return [name for first, end, name in self.modules if first <= at < end][-1]

    def word(self, at):
        return self.tokens[at][0] if at < len(self.tokens) else ""

    def words(self, first, end):
        return [token for token, _ in self.tokens[first:end]]

    def items(self, at, end, owner, of, trait, bounds):
        cycle = ""
        while at < end:
            word = self.word(at)
            if word == "#" and self.word(at + 2) == "cycle":
                cycle = self.word(at + 4)
                at = closing(self.tokens, at + 1) + 1
            elif word == "fn":
                at = self.function(at, owner, of, trait, bounds, cycle)
                cycle = ""
            elif word in ("impl", "trait") and not owner:
                at = self.block(at)
            elif word in ("struct", "enum"):
                at = self.type(at)
            elif word == "use" and self.word(at - 1) != "ghost":
                at = self.use(at)
            elif word == "macro_rules":
                last = closing(self.tokens, at + 3)
                self.source.macros[self.word(at + 2)] = tuple(self.words(at + 4, last))
                at = last + 1
            elif word == "mod" and self.word(at + 2) == "{":
                self.modules.append((at, closing(self.tokens, at + 2), self.word(at + 1)))
                at += 3
            elif word in OPENERS:
                at = closing(self.tokens, at) + 1
            else:
                at += 1

    def use(self, at):
        """Remembers from which crate each name comes."""
        end = at
        while self.word(end) != ";":
            end += 1
        crate = self.crate if self.word(at + 1) in ("crate", "self", "super") else self.word(at + 1)
        for name in self.words(at + 2, end):
            if re.match(r"[A-Za-z_]", name):
                self.source.uses[self.file, name] = crate
        return end

    def block(self, at):
        """Reads an impl or a trait with what stands in it."""
        is_trait = self.word(at) == "trait"
        first = at + 1
        head = first + is_trait
        inner = angles(self.tokens, head)
        opening = inner
        while self.word(opening) not in ("{", ";", ""):
            opening = angles(self.tokens, opening) if self.word(opening) == "<" else opening + 1
        words = self.words(inner, opening)
        where = words.index("where") if "where" in words else len(words)
        bounds = bounds_of(self.words(head + 1, inner - 1)) if inner > head else {}
        for name, traits in bounds_of(words[where + 1 :]).items():
            bounds.setdefault(name, set()).update(traits)
        if is_trait:
            owner, of, trait = self.word(first), (), self.word(first)
            bounds.setdefault("Self", set()).add(trait)
            self.source.traits[owner] = self.crate
        else:
            named = words[:where]
            middle = named.index("for") if "for" in named else -1
            owner, of = head_of(named[middle + 1 :])
            trait = head_of(named[:middle])[0] if middle > 0 else ""
        if self.word(opening) != "{":
            return opening + 1
        end = closing(self.tokens, opening)
        self.items(opening + 1, end, owner, of, trait, bounds)
        return end + 1

    def type(self, at):
        name = self.word(at + 1)
        opening = angles(self.tokens, at + 2)
        while self.word(opening) not in ("{", "(", ";"):
            opening += 1
        end = closing(self.tokens, opening) if self.word(opening) != ";" else opening
        words = self.words(opening + 1, end)
        inner = words if self.word(at) == "struct" else [it for part in split(words) for it in part[1:]]
        self.source.holds[Type(self.crate, self.file, self.module(at), name)] = held_by_value(inner)
        if self.word(at) == "enum":
            for part in split(words):
                if len(part) > 2 and part[1] == "(":
                    self.source.variants[name, part[0]] = split(part[2:-1])
                elif len(part) > 2 and part[1] == "{":
                    fields = [it for it in split(part[2:-1]) if it[1:2] == (":",)]
                    self.source.named[name, part[0]] = {it[0]: it[2:] for it in fields}
        if self.word(at) == "struct":
            fields = self.source.fields.setdefault(name, {})
            for part in split(words):
                part = [it for it in part if it not in ("pub", "ghost")]
                part = part[closing([(it, 0) for it in part], 0) + 1 :] if part[:1] == ["("] else part
                if len(part) > 2 and part[1] == ":":
                    fields[part[0]] = tuple(part[2:])
        return end + 1

    def function(self, at, owner, of, trait, outer, cycle):
        """Reads a function. Clauses stand in braces behind `requires` and `ensures`; the body is the brace that is left."""
        line, name = self.tokens[at][1], self.word(at + 1)
        opening = angles(self.tokens, at + 2)
        bounds = {key: set(traits) for key, traits in outer.items()}
        for key, traits in bounds_of(self.words(at + 3, opening - 1)).items():
            bounds.setdefault(key, set()).update(traits)
        end = closing(self.tokens, opening)
        parameters = tuple(split(self.words(opening + 1, end)))
        at, result, clause = end + 1, [], False
        while self.word(at) not in ("{", ";", "") or clause:
            word = self.word(at)
            clause = word in ("requires", "ensures") or (clause and word != "{")
            if word == "{":
                at = closing(self.tokens, at)
                clause = False
            elif word not in ("requires", "ensures") and not clause:
                result.append(word)
            at += 1
        if self.word(at) != "{":
            return at + 1
        where = result.index("where") if "where" in result else len(result)
        for key, traits in bounds_of(result[where + 1 :]).items():
            bounds.setdefault(key, set()).update(traits)
        end = closing(self.tokens, at)
        body = tuple(self.words(at + 1, end))
        place = (self.crate, self.file, line, self.module(at))
        self.source.functions.append(Function(*place, owner, of, trait, name, parameters, tuple(result[1:where]), bounds, body, cycle))
        return end + 1


def held_by_value(words):
    """Returns the names of types in the fields, each behind the last word of its path, but for those behind a reference."""
    found, skip = set(), False
    for index, word in enumerate(words):
        if word == "&":
            skip = True
        elif word in (",", ";", "{", "(") or word == ":":
            skip = False
        elif re.fullmatch(r"[A-Z]\w*", word) and not skip:
            found.add((words[index - 2] if words[index - 1 : index] == ["::"] else "", word))
    return found

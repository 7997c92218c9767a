"""Which functions of the crates a function calls, as far as names and types of the text tell (tools/descents)."""
import itertools
import re
from typing import NamedTuple

from .sources import CLOSERS, HOLDERS, OPENERS, head_of, split

# How a call was found: of a function that the text names, or of a trait's method at a type that the caller is given.
NAMED, GIVEN = "named", "given"


class Call(NamedTuple):
    callee: object
    how: str


def opening(words, at):
    """Returns the index of what opens the bracket that closes at this index."""
    depth = 0
    while at >= 0:
        depth += (words[at] in CLOSERS) - (words[at] in OPENERS)
        if not depth:
            return at
        at -= 1
    return 0


def close(words, at):
    depth = 0
    while at < len(words):
        depth += (words[at] in OPENERS) - (words[at] in CLOSERS)
        if not depth:
            return at
        at += 1
    return at


def around(words, at):
    """Returns the bracket in which a word stands."""
    depth = 0
    while at > 0 and depth >= 0:
        at -= 1
        depth += (words[at] in CLOSERS) - (words[at] in OPENERS)
    return words[at]


class Calls:
    """Finds the calls of functions."""

    def __init__(self, source, below):
        self.source, self.below = source, below
        self.by_name, self.owned = {}, {}
        for function in source.functions:
            self.by_name.setdefault(function.name, []).append(function)
            self.owned.setdefault((function.owner, function.name), []).append(function)
        self.types = {it.owner for it in source.functions if it.owner not in it.bounds} | set(source.fields) | set(source.types)

    def seen(self, caller, functions):
        """Those that the caller's crate can name."""
        return [it for it in functions if it.crate == caller.crate or it.crate in self.below[caller.crate]]

    def of(self, function):
        """Returns the calls of a function, macros of the repository included."""
        return set(self.walk(function, function.body, Locals(self, function), 0))

    def walk(self, function, words, local, depth):
        for at, word in enumerate(words):
            after = words[at + 1] if at + 1 < len(words) else ""
            before = words[at - 1] if at else ""
            if after == "!" and word in self.source.macros and depth < 4:
                yield from self.walk(function, self.source.macros[word], local, depth + 1)
            elif before == "fn" or not re.match(r"[A-Za-z_]", word):
                continue
            elif self.is_called(words, at):
                yield from self.called(function, words, at, local)
            elif before in ("(", ",") and after in (")", ",") and word not in local.names and around(words, at) == "(":
                yield from self.free(function, word, None)
            elif before == "::" and after in (")", ","):
                yield from self.path(function, words, at, None)

    def is_called(self, words, at):
        if at + 1 < len(words) and words[at + 1] == "(":
            return True
        return words[at + 1 : at + 3] == ("::", "<")

    def called(self, function, words, at, local):
        before = words[at - 1] if at else ""
        first = at + 1
        while first < len(words) and words[first] != "(":
            first += 1
        count = len(split(words[first + 1 : close(words, first)]))
        if before == ".":
            yield from self.method(function, words, at, count, local)
        elif before == "::":
            yield from self.path(function, words, at, count)
        else:
            yield from self.free(function, words[at], count)

    def free(self, function, name, count):
        found = [it for it in self.seen(function, self.by_name.get(name, ())) if not it.owner]
        crate = self.source.uses.get((function.file, name), function.crate)
        own = [it for it in found if it.crate == crate] or found
        yield from (Call(it, NAMED) for it in own if count in (None, len(it.parameters)))

    def path(self, function, words, at, count):
        """A call by a path: of a type, of a type that the caller is given, of a trait, or of a module."""
        before = words[at - 2]
        if before == ">":
            return
        owner = function.owner if before == "Self" else before
        name = words[at]
        if owner in function.bounds:
            yield from self.given(function, owner, name)
        elif owner in self.source.traits:
            yield from (Call(it, GIVEN) for it in self.seen_of_trait({owner}, name))
        elif owner[:1].isupper():
            found = self.seen(function, self.owned.get((owner, name), ()))
            yield from (Call(it, NAMED) for it in found if count in (None, len(it.parameters)))
        else:
            yield from self.of_module(function, before, name, count)

    def of_module(self, function, module, name, count):
        """A call by the path of a crate or of a module."""
        free = [it for it in self.seen(function, self.by_name.get(name, ())) if not it.owner]
        crate = self.source.uses.get((function.file, module), function.crate)
        own = [it for it in free if it.crate == crate and it.module == module]
        found = [it for it in free if it.crate == module] or own or [it for it in free if it.module == module] or free
        yield from (Call(it, NAMED) for it in found if count in (None, len(it.parameters)))

    def given(self, function, parameter, name):
        """A call of a trait's method at a type parameter: of each impl of the trait."""
        yield from (Call(it, GIVEN) for it in self.seen_of_trait(function.bounds[parameter], name))

    def seen_of_trait(self, traits, name):
        return [it for it in self.by_name.get(name, ()) if it.trait in traits or (it.owner in traits and it.owner in self.source.traits)]

    def method(self, function, words, at, count, local):
        kind = local.type_before(words, at - 1)
        name = words[at]
        found = [it for it in self.seen(function, self.by_name.get(name, ())) if it.owner and len(it.parameters) == count + 1]
        while kind is not None:
            head, inner = head_of(list(kind))
            if head in function.bounds:
                yield from self.given(function, head, name)
                return
            own = [it for it in found if it.owner == head and self.may_be(it.of, inner)]
            if own or head not in HOLDERS or not inner:
                yield from (Call(it, NAMED) for it in own)
                return
            kind = inner[0]
        yield from (Call(it, NAMED) for it in found if it.crate == function.crate)


    def may_be(self, of, inner):
        """Whether a type's parameters may be those of an impl: not where two of them are different types of the crates."""
        pairs = [(head_of(list(one))[0], head_of(list(other))[0]) for one, other in zip(of, inner)]
        return all(one == other or not {one, other} <= self.types for one, other in pairs)


# What methods of the library answer: an element of a list, the list again, or what is held, within an option or as it is.
TO_ELEMENT = {"first", "last", "get", "get_mut", "first_mut", "last_mut", "pop", "next"}
TO_ITSELF = {"as_slice", "as_mut_slice", "as_ref", "as_mut", "as_deref", "iter", "iter_mut", "copied", "cloned", "into_iter", "take", "rev", "skip"}
TO_HALVES = {"split_at", "split_at_mut"}
TO_FIRST = {"split_first", "split_first_mut", "split_last"}
ELSEWHERE = ("library",)


class Locals:
    """The types of a function's names, as far as the text tells them. None is a type that it doesn't tell."""

    def __init__(self, calls, function):
        self.calls, self.function, self.names = calls, function, {}
        for part in function.parameters:
            if ":" in part and part[0] != "self":
                at = part.index(":")
                self.names[part[at - 1]] = part[at + 1 :]
            elif "self" in part:
                self.names["self"] = whole(function)
        self.learn(function.body)

    def learn(self, words):
        """Looks at each name that is bound, in order."""
        for at, word in enumerate(words):
            if word in ("let", "for"):
                self.bind(words, at + 1, "in" if word == "for" else "=")
            elif word == "match":
                self.arms(words, at + 1)
            elif word == "|":
                self.closure(words[at + 1 : at + 8])

    def closure(self, words):
        """The names that stand before the next bar: the text tells no type of them."""
        for name in itertools.takewhile(lambda it: it != "|", words):
            if re.fullmatch(r"[a-z_]\w*", name) and name not in ("mut", "ref"):
                self.names.setdefault(name, None)

    def bind(self, words, at, mark):
        end, depth = at, 0
        while end < len(words) and not (words[end] == mark and not depth):
            if words[end] == ";":
                return
            depth += (words[end] in OPENERS) - (words[end] in CLOSERS)
            end += 1
        if ":" in words[at:end]:
            colon = words.index(":", at, end)
            self.names[words[colon - 1]] = tuple(words[colon + 1 : end])
            return
        kind = self.type_of(words[end + 1 :])
        self.matched([it for it in words[at:end] if it not in ("mut", "ref", "&")], element(kind) if mark == "in" else kind)

    def arms(self, words, at):
        """The names that the patterns of a match bind."""
        kind = self.type_of(words[at:])
        while at < len(words) and words[at] != "{":
            at = close(words, at) + 1 if words[at] in OPENERS else at + 1
        end, begin = close(words, at), at + 1
        at = begin
        while at < end:
            if words[at] == "=>":
                self.matched([it for it in words[begin:at] if it not in ("mut", "ref", "&")], kind)
            if words[at] in OPENERS and "=>" in words[at:end] and words[at - 1] != "=>":
                at = close(words, at) + 1
                continue
            if words[at] == "=>" and words[at + 1] == "{":
                at = begin = close(words, at + 1) + 1
                continue
            if words[at] == ",":
                begin = at + 1
            at = close(words, at) + 1 if words[at] in OPENERS else at + 1

    def matched(self, pattern, kind):
        """Binds the names of a pattern to a value of this type."""
        if len(pattern) == 1 and re.fullmatch(r"[a-z_]\w*", pattern[0]):
            self.names[pattern[0]] = kind
        elif pattern[:1] in (["Some"], ["Ok"]) and pattern[1:2] == ["("]:
            self.matched(pattern[2:-1], within(kind))
        elif len(pattern) > 3 and pattern[1] == "::" and pattern[3] == "(" and (pattern[0], pattern[2]) in self.calls.source.variants:
            parts = self.calls.source.variants[pattern[0], pattern[2]]
            for part, inner in zip(split(pattern[4:-1]), parts):
                self.matched(list(part), inner)
        elif len(pattern) > 3 and pattern[1] == "::" and pattern[3] == "{" and (pattern[0], pattern[2]) in self.calls.source.named:
            fields = self.calls.source.named[pattern[0], pattern[2]]
            for part in split(pattern[4:-1]):
                self.matched(list(part[2:] or part), fields.get(part[0]))
        elif pattern[:1] == ["("] and kind and kind[:1] == ("(",):
            for part, inner in zip(split(pattern[1:-1]), split(kind[1:-1])):
                self.matched(list(part), inner)
        else:
            for name in pattern:
                if re.fullmatch(r"[a-z_]\w*", name):
                    self.names[name] = None

    def type_of(self, words):
        """Returns the type of the expression that begins here, or None where the text doesn't tell it."""
        at = 0
        while at < len(words) and words[at] in ("&", "mut", "*"):
            at += 1
        end, depth = at, 0
        while end < len(words) and (depth or words[end] not in (";", "else", "{")):
            depth += (words[end] in OPENERS) - (words[end] in CLOSERS)
            end += 1
        if end == at + 1 and words[end : end + 1] == ("{",) and words[at] in self.calls.types:
            return (words[at],)
        return self.type_before(tuple(words[at:end]) + (".",), end - at)

    def type_before(self, words, dot):
        """Returns the type of what stands before the dot, a chain of names, fields, places of lists, and calls."""
        at = dot - 1
        if at < 0:
            return None
        if words[at] == "?":
            return within(self.type_before(words, at))
        if words[at] == "]" and opening(words, at) > 0:
            first = opening(words, at)
            kind = self.type_before(words, first)
            return kind if ".." in words[first:at] else element(kind)
        if words[at] == ")":
            first = opening(words, at)
            if first and re.match(r"[a-z_]", words[first - 1]):
                return self.answer(words, first, at)
            parts = [self.type_of(part) or ("_",) for part in split(words[first + 1 : at])]
            return ("(", *[it for part in parts for it in (*part, ",")], ")") if len(parts) > 1 else self.type_of(words[first + 1 : at])
        if not re.match(r"[a-z_0-9]", words[at]):
            return None
        if at and words[at - 1] == ".":
            return self.field(self.type_before(words, at - 1), words[at])
        if at and words[at - 1] == "::":
            return None
        return ELSEWHERE if words[at][0].isdigit() else self.names.get(words[at])

    def field(self, owner, name):
        while owner:
            head, inner = head_of(list(owner))
            fields = self.calls.source.fields.get(head, {})
            if name in fields:
                return fields[name]
            if name.isdigit() and owner[:1] == ("(",):
                return (split(owner[1:-1]) + [None] * 9)[int(name)]
            owner = inner[0] if head in HOLDERS and inner else None
        return None

    def methods(self, kind, name):
        """Returns the methods of this name that a type has, or what it holds. Other impls of the type may have others."""
        while kind:
            head, inner = head_of(list(kind))
            found = [it for it in self.calls.owned.get((head, name), ()) if self.calls.may_be(it.of, inner)]
            if found:
                return found
            kind = inner[0] if head in HOLDERS and inner else None
        return ()

    def answer(self, words, first, end):
        """Returns what a call answers whose arguments stand in these brackets."""
        name, before = words[first - 1], words[first - 2] if first > 1 else ""
        if before == "::":
            owner = self.function.owner if words[first - 3] == "Self" else words[first - 3]
            if (owner, name) == ("Arc", "make_mut"):
                kind = self.type_of(words[first + 1 : end])
                return ("Option", "<", *within(kind), ">") if within(kind) else None
            if owner in ("Vec", "u32", "u64", "usize", "String", "Bound"):
                return ELSEWHERE
            found = self.calls.owned.get((owner, name), ()) if owner[:1].isupper() else self.calls.by_name.get(name, ())
        elif before == ".":
            kind = self.type_before(words, first - 2)
            found = self.methods(kind, name)
            if kind and not found:
                return library(kind, name)
        else:
            found = [it for it in self.calls.by_name.get(name, ()) if not it.owner and it.crate == self.function.crate]
        results = {it.result for it in found}
        if len(results) != 1:
            return None
        result = results.pop()
        return (found[0].owner,) if result == ("Self",) else result


def whole(function):
    """Returns the type of a method's `self`, with what stands between its angle brackets."""
    inner = [it for part in function.of for it in (",", *part)][1:]
    return (function.owner, "<", *inner, ">") if inner else (function.owner,)


def plain(kind):
    """Returns a type without references and lifetimes before it."""
    kind = tuple(kind or ())
    while kind[:1] in (("&",), ("mut",), ("'",)):
        kind = kind[2:] if kind[0] == "'" else kind[1:]
    return kind


def element(kind):
    """Returns the type of the elements of a list."""
    kind = plain(kind)
    if kind[:1] == ("[",):
        return split(kind[1:-1], ";")[0]
    head, inner = head_of(list(kind)) if kind else ("", ())
    if head in HOLDERS and inner:
        return element(inner[0])
    return inner[0] if head in ("Vec", "ArrayVec", "Option") and inner else ELSEWHERE if kind == ELSEWHERE else None


def within(kind):
    head, inner = head_of(list(plain(kind))) if kind else ("", ())
    return inner[0] if head in ("Option", "Result", "Arc", "Box") and inner else ELSEWHERE if kind == ELSEWHERE else None


def library(kind, name):
    """Returns what a method of the library answers at this type."""
    kind = plain(kind)
    head, inner = head_of(list(kind))
    is_list = kind[:1] == ("[",) or head in ("Vec", "ArrayVec")
    if is_list and name in TO_ELEMENT and element(kind):
        return ("Option", "<", *element(kind), ">")
    if is_list and name in TO_HALVES:
        return ("(", *kind, ",", *kind, ")")
    if is_list and name in TO_FIRST and element(kind):
        return ("Option", "<", "(", *element(kind), ",", *kind, ")", ">")
    if name in TO_ITSELF:
        return kind
    if name == "clone":
        return ("Option", "<", *kind, ">")
    return ELSEWHERE if is_list or kind == ELSEWHERE or name == "allocator" else None

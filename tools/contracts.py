"""Reads the contracts of sources in Rattle: functions, whom they belong to, and their clauses."""

import re
from typing import NamedTuple

CLAUSE = re.compile(r"\b((?:requires|ensures)\*?)(?: (\w+))? \{")
FUNCTION = re.compile(r"^( *)(pub(?:\([a-z]+\))? )?(?:const )?(?:unsafe )?(?:extern \S+ )?fn (\w+)")
OWNER = re.compile(r"^(?:pub(?:\([a-z]+\))? )?(impl|trait)\b")


class Clause(NamedTuple):
    """A clause, its word and its name, which may be none, and the places where it starts, of its braces among them."""

    word: str
    name: str
    start: int
    brace: int
    end: int


class Function(NamedTuple):
    """A function: its line, what stands before its name, and the line on which its contract ends, all counted from 0."""

    name: str
    indent: str
    is_pub: bool
    line: int
    header_end: int


def without_comments(text):
    """The text with its comments blanked, so that every place stays where it is."""
    return re.sub(r"//.*", lambda found: " " * len(found.group()), text)


def closing(text, start):
    """The place of the brace that closes the one at `start`."""
    depth = 0
    for at in range(start, len(text)):
        depth += {"{": 1, "}": -1}.get(text[at], 0)
        if depth == 0:
            return at
    raise ValueError("a brace stays open")


def clauses(text):
    """The clauses of a source, those of closures among them."""
    text = without_comments(text)
    for found in CLAUSE.finditer(text):
        brace = found.end() - 1
        yield Clause(found.group(1), found.group(2) or "", found.start(), brace, closing(text, brace))


def squeezed(text):
    return " ".join(text.split())


def lines_without_clauses(text):
    """The lines of a text with its comments and clauses blanked."""
    blank = without_comments(text)
    for it in clauses(text):
        blank = blank[: it.start] + re.sub(r".", " ", blank[it.start : it.end + 1]) + blank[it.end + 1 :]
    return [line.rstrip() for line in blank.splitlines()]


def functions_in(lines):
    """The functions of a text, whose lines have no clauses any more."""
    for number, line in enumerate(lines):
        found = FUNCTION.match(line)
        if found:
            end = number
            while not lines[end].endswith(("{", "{}", ";")):
                end += 1
            yield Function(found.group(3), found.group(1), found.group(2) == "pub ", number, end)


def owner_of(lines, function):
    """What a function stands in, from its first word to its brace: an impl or a trait; or nothing."""
    if not function.indent:
        return ""
    for number in range(function.line - 1, -1, -1):
        if OWNER.match(lines[number]):
            end = number
            while not lines[end].endswith("{"):
                end += 1
            return squeezed(" ".join(lines[number : end + 1])).removesuffix("{").strip()
    return ""


def contracts_of(text):
    """Each function of a source, with what it stands in and its clauses; not those of closures in its body."""
    lines = lines_without_clauses(text)
    places = [0]
    for line in text.splitlines(keepends=True):
        places.append(places[-1] + len(line))
    found = list(clauses(text))
    for function in functions_in(lines):
        first, last = places[function.line], places[function.header_end + 1]
        yield function, owner_of(lines, function), [it for it in found if first <= it.start < last]

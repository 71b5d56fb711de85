"""Requests for memory that are refused, and reads and writes that fail in the middle.

A small shared object, made of refuse.c by the C compiler, stands before the C library in the process. Where there is no C
compiler these cases are left out, and said so.
"""

import os
import shlex
import shutil
import subprocess
import tempfile
from functools import partial
from itertools import count

import meetings
import locates
import sweeps
from documents import help_text, text_of
from models import Keys, Segments, Sets
from processes import ARGUMENTS, MEMORY, READING, WRITING, Case, Outcome, answered, lines, outcome_of, refused
from text import PLAIN

SOURCE = os.path.join(os.path.dirname(os.path.abspath(__file__)), "refuse.c")
COMPILER = shlex.split(os.environ.get("CC", "cc"))

STOPPED = Outcome(1, b"", MEMORY)

# Lines of each mode that has a collection, which are more than a small one holds, and places of some that ask for memory. A
# tree begins with room for seven keys.
KEY_LINES = (
    *(f"insert {key} 9 {key} 0" for key in range(1, 10)),
    *("less 0 -1 1", "leq 0 -1 9", "insert 10 9 10 2", "less 1 -1 5", "less 2 -1 8", "leq 2 -1 10"),
)
SET_LINES = (*(f"insert {key}" for key in range(1, 10)), "find 0", "find 9", "before 9", "insert 10", "find 10")
SEGMENT_LINES = (
    *("insert 8 100 9 1", "insert 0 127 9 2", "query 0 128 5", "query 0 128 4", "query 0 128 5"),
    *("insert 0 0 9 3", "query 0 0 6"),
)
COLLECTIONS = (
    ("keytree", Keys, KEY_LINES, [7]),
    ("keylist", Keys, KEY_LINES, [0]),
    ("settree", Sets, SET_LINES, [7]),
    ("setlist", Sets, SET_LINES, [0]),
    ("seg 0 128", partial(Segments, 0, 128), SEGMENT_LINES, [0, 1, 2, 4, 6]),
)

# A run of each mode that has none, which is more than a small status holds.
LEVELS = range(1, 10)
OTHERS = (
    ("sweep", (*(f"segment 0 9 {y}" for y in LEVELS), "point 5 10", "point 5 0"), ("below 9", "none")),
    ("locate", (*(f"edge 0 {y} 9 {y}" for y in LEVELS), "point 5 10", "point 5 0"), ("edge 9", "none")),
    (
        "meetings",
        ("edge 0 0 9 9", "edge 0 9 9 0", "edge 0 5 9 5", "edge 5 0 5 9", "edge 20 0 20 5"),
        ("meets", "meets 1", "meets 1 2", "meets 1 2 3", "meets"),
    ),
)

# Runs that end with a fault.
FAULTS = (
    ("keytree", ("clear", "clean"), b"itree: line 2: column 1: 'clean': insert, less, leq or clear is wanted\n"),
    ("setlist", ("find 1", "fine 1"), b"itree: line 2: column 1: 'fine': insert, delete, find or before is wanted\n"),
    ("seg 0 128", ("clear", "", "query"), b"itree: line 3: column 1: 'query': one more number is wanted behind it\n"),
    (
        "seg 0 30",
        ("clear",),
        b"itree: arguments: '30': a number that is at least 31 more than the one before is wanted\n",
    ),
    ("keylist extra", ("clear",), b"itree: arguments: 'extra': no further word is wanted\n"),
    ("sweep", ("segment 0 5 1", "point 0 0", "segment 5 9 1"), b"itree: overlap 3\n"),
    ("locate", ("edge 0 0 5 5", "point 0 0", "edge 0 5 5 0"), b"itree: cross 1 3\n"),
)

# A tree and a list, with sound lines and faulty ones.
BESIDE = (
    ("keytree", "keylist", ("clear", "clear"), ("clear", "clean")),
    ("settree", "setlist", ("find 1", "find 1"), ("find 1", "fine 1")),
)

MODES = (*PLAIN, sweeps.PLAIN, meetings.PLAIN, locates.PLAIN)

# More lines than one read takes.
LINES = 40_000


class Preloaded:
    """The shared object, and runs under it."""

    def __init__(self, file):
        self.file = file

    def outcome(self, command, given, told=None, **numbers):
        """Runs with these numbers, and a stream to which a refusal is told."""
        env = {**os.environ, "LD_PRELOAD": self.file, **{name: str(number) for name, number in numbers.items()}}
        with tempfile.TemporaryFile() as text:
            text.write(given)
            text.seek(0)
            return outcome_of(command, stdin=text, env=env, pass_fds=[told] if told else ())

    def under(self, **numbers):
        return lambda command, given: self.outcome(command, given, **numbers)

    def refusing(self, command, given, nth):
        """Runs where the nth request for memory is refused, and tells whether there was one."""
        read, write = os.pipe()
        try:
            left = self.outcome(command, given, write, REFUSED_REQUEST=nth, TELLS_REFUSAL=write)
        finally:
            os.close(write)
        with open(read, "rb") as pipe:
            return left, pipe.read() != b""

    def requests(self, command, given):
        """How many requests for memory a run makes."""
        return next(nth for nth in count(1) if not self.refusing(command, given, nth)[1]) - 1

    def in_turn(self, allowed, wanted):
        """Refuses each request in turn until a run makes no more of them, and gives what that run leaves. The others leave what
        is allowed, which has names, and of these names those that are wanted come in this order."""

        def run(command, given):
            seen = []
            for nth in count(1):
                left, is_refused = self.refusing(command, given, nth)
                if not is_refused:
                    break
                if left not in allowed:
                    return left._replace(status=f"{left.status} where request {nth} is refused")
                seen += [] if allowed[left] in seen else [allowed[left]]
            is_wanted = [name for name in seen if name in wanted] == wanted
            return left if is_wanted else left._replace(status=f"{left.status}, and by refusals {seen}")

        return run


def one_refused(made, said, place):
    """The replies where the line at this place is refused memory."""
    model, served = made(), []
    for at, text in enumerate(said):
        name, *words = text.split()
        numbers = [int(word) for word in words]
        if at != place:
            served.append(getattr(model, name)(*numbers))
            continue
        served.append("refused")
        if isinstance(model, Keys):
            model.is_late(numbers[-1])
        elif name == "query":
            model.query(*numbers)
    return served


def of_collections(preloaded):
    """Cases of the modes that have a collection: the program stops, or one line is refused and the others go on."""
    for mode, made, said, places in COLLECTIONS:
        asking = [at for at, text in enumerate(said) if text.startswith(("insert", "query"))]
        allowed = {Outcome(0, lines(*one_refused(made, said, at))): at for at in asking}
        served = lines(*one_refused(made, said, None))
        # Reading goes on with less room than it asked for.
        allowed |= {STOPPED: "stopped", Outcome(0, served): "served"}
        how = preloaded.in_turn(allowed, ["stopped", *places])
        yield answered("each request for memory refused in turn", mode, lines(*said), served, how)


def of_others(preloaded, rows=OTHERS):
    """Cases of the other modes: the program stops."""
    for mode, said, replies in rows:
        given, served = lines(*said), lines(*replies)
        how = preloaded.in_turn({STOPPED: "stopped", Outcome(0, served): "served"}, ["stopped"])
        yield answered("each request for memory refused in turn", mode, given, served, how)


def of_help(preloaded):
    """The case of the help: the program stops."""
    text = help_text()
    how = preloaded.in_turn({STOPPED: "stopped", Outcome(0, text): "served"}, ["stopped"])
    yield Case("help: each request for memory refused in turn", ["help"], b"", Outcome(0, text), how)


def of_faults(preloaded):
    """Cases of faults: the program tells them, or stops."""
    for mode, said, fault in FAULTS:
        told = Outcome(2, b"", fault)
        how = preloaded.in_turn({STOPPED: "stopped", told: "told"}, ["stopped"])
        name = f"{mode}: {fault.decode().strip()}, each request for memory refused in turn"
        yield Case(name, mode.split(), lines(*said), told, how)


def of_trees_beside_lists(preloaded):
    """Cases of a tree, which asks for memory where a list asks for none: once all lines were read."""
    for tree, beside, sound, faulty in BESIDE:

        def run(command, given, beside=beside, sound=sound):
            program = command[0]
            of_lines = preloaded.requests([program, beside], given)
            stopped, is_refused = preloaded.refusing(command, lines(*sound), of_lines + 1)
            if not is_refused or stopped != STOPPED:
                return stopped._replace(status=f"{stopped.status} where the tree is refused memory")
            return preloaded.refusing(command, given, of_lines + 1)[0]

        yield refused("told where the tree would be refused memory", tree, lines(*faulty), 2, run)


def of_streams(preloaded, rows=MODES):
    """Cases of reads and writes that fail, or take a part."""
    for mode, line, reply in rows:
        words, given = mode.split(), line + b"\n"
        for name, text, nth in (
            ("the first read fails", given, 1),
            ("a read fails after a line", given, 2),
            ("a read fails after a faulty line", given + b"nonsense\n", 2),
            ("a read fails in the middle of many lines", given * LINES, 3),
        ):
            yield Case(f"{mode}: {name}", words, text, Outcome(1, b"", READING), preloaded.under(FAILED_READ=nth))
        for room in range(len(reply)):
            part = Outcome(1, reply[:room], WRITING)
            yield Case(f"{mode}: room for {room} bytes of replies", words, given, part, preloaded.under(ROOM_1=room))
        yield answered("room for the reply alone", mode, given, reply, preloaded.under(ROOM_1=len(reply)))
        yield answered("half of each read and write", mode, given, reply, preloaded.under(HALVES=1))
        yield refused("half of each read and write", mode, given + b"nonsense\n", 2, preloaded.under(HALVES=1))
        faulty = Outcome(2, b"", ARGUMENTS)
        yield Case(f"{mode} extra: no read", [*words, "extra"], given, faulty, preloaded.under(FAILED_READ=1))


def of_texts(preloaded):
    """Cases of the help and the version, which are written without a read."""
    help_told, version = help_text(), f"itree {text_of('VERSION')}".encode()
    asked = *((word, help_told) for word in ("help", "--help", "-h")), ("--version", version), ("-V", version)
    for word, text in asked:
        yield Case(f"{word}: no read", [word], b"nonsense\n", Outcome(0, text), preloaded.under(FAILED_READ=1))
        yield Case(f"{word}: half of each write", [word], b"", Outcome(0, text), preloaded.under(HALVES=1))
        yield Case(f"{word}: room for 5 bytes", [word], b"", Outcome(1, text[:5], WRITING), preloaded.under(ROOM_1=5))


def of_full_faults(preloaded):
    """Cases of faults of which standard error takes a part."""
    for mode, said, fault in FAULTS:
        for room in 0, 5:
            taken = Outcome(2, b"", fault[:room])
            name = f"{mode}: room for {room} bytes of {fault.decode().strip()}"
            yield Case(name, mode.split(), lines(*said), taken, preloaded.under(ROOM_2=room))


OF_ALL = of_collections, of_others, of_help, of_faults, of_trees_beside_lists, of_streams, of_texts, of_full_faults


def all_cases(parts=OF_ALL):
    """The cases of these parts, where there is a C compiler."""
    if not shutil.which(COMPILER[0]):
        print(f"LEFT OUT memory that is refused: there is no {COMPILER[0]} here (bindings/install)", flush=True)
        return
    with tempfile.TemporaryDirectory() as folder:
        file = os.path.join(folder, "refuse.so")
        flags = ["-std=c11", "-Wall", "-Wextra", "-Wpedantic", "-Werror", "-O2", "-shared", "-fPIC"]
        subprocess.run([*COMPILER, *flags, SOURCE, "-o", file], check=True)
        for part in parts:
            yield from part(Preloaded(file))


PARTS = (all_cases,)

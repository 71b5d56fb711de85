#!/usr/bin/env python3
"""Tests of the built program: in each case a process runs; its status and what it wrote to both streams are compared.

usage: process_tests/run.py [--only MODULE] [PROGRAM ..]

With no program it is crates/itree/out/itree, which `rt run` and `rt ci` leave there. --only names a module of this folder, as
`meetings`, whose cases are run alone. Each run that fails is printed, with what was wanted and what came. The last line is
'N passed, M failed'.
"""

import importlib
import os
import sys
from concurrent.futures import ProcessPoolExecutor, as_completed

sys.dont_write_bytecode = True

from documents import listed_in_help
from processes import by_file

HERE = os.path.dirname(os.path.abspath(__file__))
BUILT = os.path.normpath(os.path.join(HERE, "..", "crates", "itree", "out", "itree"))

# The modules that have cases.
GROUPS = (
    "documents",
    "worked",
    "rising",
    "arguments",
    "messages",
    "text",
    "odd",
    "streams",
    "refusals",
    "histories",
    "small",
    "many",
    "sweeps",
    "meetings",
    "locates",
)

# Modules whose cases run where the help of each program lists their mode.
WHERE_LISTED = {
    "crossings": "crossings",
    "snaps": "snap",
    "nodes": "node",
    "overlays": "overlay OPERATION RULE",
    "windows": "overlay OPERATION RULE --window X0 Y0 X1 Y1",
    "offsets": "offset grow RULE",
    "still": "overlay OPERATION RULE",
    "long_overlays": "overlay OPERATION RULE",
}

# So many parts of modules run side by side at most.
AT_ONCE = min(len(os.sched_getaffinity(0)), 4)

# So much of a long text is printed.
SHOWN = 200


def shown(wanted, got):
    """Both from their first difference on, cut where they are long."""
    if not isinstance(wanted, bytes) or max(len(wanted), len(got)) <= SHOWN:
        return repr(wanted), repr(got)
    start = len(os.path.commonprefix([wanted, got]))
    line = wanted.count(b"\n", 0, start) + 1
    cut = "{!r} from byte {}, line {}, of {} bytes"
    return tuple(cut.format(text[start : start + SHOWN], start, line, len(text)) for text in (wanted, got))


def told(program, case, got):
    """How the case failed."""
    said = [f"FAILED {case.name} ({os.path.basename(program)})"]
    for part in got._fields:
        wanted, came = getattr(case.wanted, part), getattr(got, part)
        if not wanted == came:
            wanted, came = shown(wanted, came)
            said += [f"    {part}: wanted {wanted}", f"    {part}: got    {came}"]
    return "\n".join(said)


def failures(programs, cases):
    """How many runs there were, and how some of them failed."""
    runs, failed = 0, []
    for case in cases:
        outcomes = [(program, case.got(program)) for program in programs]
        runs += len(outcomes)
        failed += [told(program, case, got) for program, got in outcomes if not case.wanted == got]
    return runs, failed


def part_failures(part):
    """As `failures`, of the cases of a module's part."""
    programs, group, place = part
    return failures(programs, importlib.import_module(group).PARTS[place]())


def lists(text, mode):
    """Whether a text of the help lists the mode."""
    return f"itree {mode}" in listed_in_help(text.decode())


def groups(programs):
    """The modules that have cases for all of the programs."""
    helps = [by_file([program, "help"], b"").output for program in programs]
    listed = [group for group, mode in WHERE_LISTED.items() if all(lists(text, mode) for text in helps)]
    return [*GROUPS, *listed]


def parts(programs, only):
    """All parts of all modules, or of one alone, those of the last modules first: they take long."""
    return [
        (programs, group, place)
        for group in ([only] if only else reversed(groups(programs)))
        for place in range(len(importlib.import_module(group).PARTS))
    ]


def main(words):
    only, words = (words[1], words[2:]) if words[:1] == ["--only"] else (None, words)
    programs = [os.path.abspath(program) for program in words or [BUILT]]
    runs = failed = 0
    for program in programs:
        if not (os.path.isfile(program) and os.access(program, os.X_OK)):
            print(f"FAILED no program at {program}: `rt run` in crates/itree builds it\n0 passed, 1 failed")
            return 1
    with ProcessPoolExecutor(AT_ONCE) as pool:
        for done in as_completed([pool.submit(part_failures, part) for part in parts(programs, only)]):
            more, said = done.result()
            print(*said, sep="\n", end="\n" * bool(said), flush=True)
            runs, failed = runs + more, failed + len(said)
    print(f"{runs - failed} passed, {failed} failed")
    return 1 if failed else 0


if __name__ == "__main__":
    sys.exit(main(sys.argv[1:]))

#!/usr/bin/env python3
"""Tests of the program as `rt try` builds it, without a proof: one build, and a process for each case.

`rt try` gives a process its arguments, a line each, and its standard input as a file. So cases over other streams are left
out, and so are long ones and most of those by chance; run.py has them. The last line is 'N passed, M failed'.
"""

import os
import re
import subprocess
import sys
import tempfile
from functools import partial

sys.dont_write_bytecode = True

import arguments
import crossings
import meetings
import messages
import nodes
import offsets
import documents
import histories
import locates
import long_overlays
import overlays
import small
import snaps
import sweeps
import text
import windows
import worked
from documents import help_text
from processes import Beginning, Looked, Outcome, by_file
from run import lists, told

# The parts whose cases are tried, and those of which it is enough to try these modes, since others read lines by the same code.
PARTS = (
    *(*documents.PARTS, *worked.PARTS, *arguments.PARTS, *messages.PARTS, sweeps.worked, meetings.worked, locates.worked),
    *(partial(histories.all_modes, 40, [4]), *(partial(part, 300, 60) for part in small.PARTS)),
)
TEXTS = text.empty_texts, text.plain_lines, text.faulty_lines, text.numbers
# Those of modes that the help may not list yet.
OVERLAYS = overlays.worked, overlays.faulty, overlays.nested, long_overlays.few
WHERE_LISTED = {"crossings": (crossings.worked,), "snap": (snaps.worked,), "node": (nodes.worked, nodes.rows_by_model)}
WHERE_LISTED |= {"overlay OPERATION RULE": OVERLAYS}
WHERE_LISTED |= {"overlay OPERATION RULE --window X0 Y0 X1 Y1": (windows.worked,)}
WHERE_LISTED |= {"offset grow RULE": (offsets.worked, offsets.unfit, offsets.faulty)}
READ = "keytree", "setlist", "seg"

CRATE = os.path.normpath(os.path.join(os.path.dirname(os.path.abspath(__file__)), "..", "crates", "itree"))

# A text of more bytes is long.
LONG = 100_000

# The line that ends what is said of a case.
ENDED = re.compile(rb"^case=(\w+) run=(\S+)(?: status=(\d+))? .*\n", re.M)


def is_plain(case):
    """Whether the case can be tried."""
    words_are_lines = all(isinstance(word, str) and "\n" not in word for word in case.words)
    is_short = len(case.given) <= LONG and len(case.wanted.output) <= LONG
    is_file = case.how is by_file or isinstance(case.how, Looked)
    return is_file and words_are_lines and is_short and not isinstance(case.wanted.output, Beginning)


def write_case(folder, name, case):
    """Writes what `rt try` reads of a case."""
    with open(os.path.join(folder, name), "wb") as given:
        given.write(case.given)
    if case.words:
        with open(os.path.join(folder, f"{name}.args"), "w", encoding="utf-8") as words:
            words.writelines(f"{word}\n" for word in case.words)


def outputs(names, printed):
    """What each run wrote to its output: each stands behind a line with its name."""
    found = {}
    for name, following in zip(names, [*names[1:], None]):
        _, _, printed = printed.partition(b"== %s\n" % name.encode())
        end = printed.find(b"== %s\n" % following.encode()) if following else len(printed)
        found[name] = printed[:end]
    return found


def statuses(told):
    """How each run ended, and what it wrote to its standard error: each stands before the line that ends its case."""
    found, at = {}, 0
    for ended in ENDED.finditer(told):
        name, run, status = (part and part.decode() for part in ended.groups())
        found[name] = (int(status) if run == "ended" else run), told[at : ended.start()]
        at = ended.end()
    return found


def outcomes(cases):
    """What came of each case, and what `rt try` said where it told nothing of one of them."""
    names = [f"case{place:05}" for place in range(len(cases))]
    with tempfile.TemporaryDirectory() as folder:
        for name, case in zip(names, cases):
            write_case(folder, name, case)
        ran = subprocess.run(["rt", "try", "--cases", folder], cwd=CRATE, stdin=subprocess.DEVNULL, capture_output=True)
    printed, ended = outputs(names, ran.stdout), statuses(ran.stderr)
    nothing = "nothing", b""
    came = [ended.get(name, nothing) for name in names]
    said = "" if len(ended) == len(names) else ran.stderr.decode(errors="replace")
    left = [Outcome(status, printed[name], faults) for name, (status, faults) in zip(names, came)]
    return [case.how.of(it) if isinstance(case.how, Looked) else it for case, it in zip(cases, left)], said


def main():
    cases = [case for part in PARTS for case in part()]
    cases += [case for mode, parts in WHERE_LISTED.items() if lists(help_text(), mode) for part in parts for case in part()]
    cases += [case for part in TEXTS for case in part() if case.words[0] in READ]
    cases = [case for case in cases if is_plain(case)]
    came, said = outcomes(cases)
    failed = [told("rt try", case, got) for case, got in zip(cases, came) if not case.wanted == got]
    counts = f"{len(cases) - len(failed)} passed, {len(failed)} failed"
    print(*filter(None, [said, *failed]), counts, sep="\n")
    return 1 if failed else 0


if __name__ == "__main__":
    sys.exit(main())

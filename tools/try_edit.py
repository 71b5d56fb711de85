#!/usr/bin/env python3
"""usage: tools/try_edit.py CRATE EDIT FUNCTION

Tries one must-fail edit alone: puts crates/CRATE/must-fail/EDIT.edit into the crate, has FUNCTION checked (a path as
`rt check` prints it, with the crate's name), and undoes the edit. It prints the goals that were not proved. Where a proof names
what the edit took away, and no goal is refused for another cause, that says little of the contract: it is told. The status is
0 where the edit is refused, 1 where it is proved or the check ended without a verdict.
"""
import pathlib
import re
import subprocess
import sys


def texts_of(edit):
    """The file that the edit changes, and its pairs of old and new text."""
    file, pairs = None, []
    for line in edit.read_text().splitlines():
        word, _, text = line.partition(": ")
        if word == "file":
            file = text
        elif word == "old":
            pairs.append((text, ""))
        elif word == "new":
            pairs[-1] = (pairs[-1][0], text)
    return file, pairs


def edited(text, pairs):
    """The text with each pair's old part, which stands in it once, replaced by its new one."""
    for old, new in pairs:
        if text.count(old) != 1:
            sys.exit(f"stands {text.count(old)} times: {old}")
        text = text.replace(old, new)
    return text


def refusals(said, function):
    """The lines of a check that say why the function is not proved, or none where it doesn't say that it isn't."""
    lines = said.splitlines()
    told = [line for line in lines if line.startswith(f"fn {function}: no")]
    return told and [*told, *(line for line in lines if ": error: `" in line)]


def is_lost(line):
    """Whether the line says that a proof names what isn't there."""
    return re.search("has no field|is not in scope|was not admitted, was not checked|were not checked", line) is not None


def verdict(found):
    """What the edit came to, by the lines that say why the function isn't proved."""
    if not found:
        return "NOT REFUSED"
    goals = [line for line in found if ": error: `" in line]
    lost = goals and all(map(is_lost, goals))
    return "refused, but only because a proof names what the edit took away" if lost else "refused"


def main():
    if len(sys.argv) != 4:
        sys.exit(__doc__)
    crate = pathlib.Path(__file__).resolve().parent.parent / "crates" / sys.argv[1]
    file, pairs = texts_of(crate / "must-fail" / f"{sys.argv[2]}.edit")
    source = crate / file
    before = source.read_text()
    try:
        source.write_text(edited(before, pairs))
        check = subprocess.run(["rt", "check", "--only", sys.argv[3]], cwd=crate, capture_output=True, text=True)
    finally:
        source.write_text(before)
    found = refusals(check.stdout + check.stderr, sys.argv[3])
    print("\n".join(line[:200] for line in found) or (check.stdout + check.stderr)[-2000:])
    print(verdict(found))
    sys.exit(0 if found else 1)


if __name__ == "__main__":
    main()

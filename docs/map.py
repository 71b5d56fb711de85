#!/usr/bin/env python3
"""Prints the files of the crates, each with what it holds: the first sentence of the comment that it begins with.

usage: docs/map.py [CRATE ..]    of all crates, or of these
       docs/map.py --check       prints nothing but files that begin with no such comment; the status is 1 where there are some

A crate has sources (src/), definitions (specs/) and lemmas (proofs/). The answers to the prover's questions, which stand in
proofs/ by function, are left out, and so are files that only name others.
"""

import os
import re
import subprocess
import sys

TOP = os.path.normpath(os.path.join(os.path.dirname(os.path.abspath(__file__)), ".."))
GROUPS = (("src", ".rt"), ("specs", ".antt"), ("proofs", ".antt"))
COMMENT = re.compile(r"^(?://!|//|--) ?")
ONE_FUNCTION = ("Answers.antt", "Invariants.antt", "Proof.antt")


def text_of(path):
    with open(os.path.join(TOP, path), encoding="utf-8") as file:
        return file.read()


def crates():
    return re.findall(r"^(\w+)\b.*:", text_of("crates.txt"), re.M)


def files_of(folder, ending):
    listed = subprocess.run(
        ["git", "ls-files", "-c", "-o", "--exclude-standard", folder], cwd=TOP, capture_output=True, text=True, check=True
    )
    return sorted(
        {path for path in listed.stdout.splitlines() if path.endswith(ending) and os.path.exists(os.path.join(TOP, path))}
    )


def first_sentence(text):
    """The first sentence of the comment that a file begins with, or nothing where it begins with none."""
    words = []
    for line in text.splitlines():
        if not COMMENT.sub("", line, count=1).strip() or not COMMENT.match(line):
            break
        words.append(COMMENT.sub("", line).strip())
    told = re.split(r"(?<=[.:]) (?=[A-Z`])", " ".join(words).strip())
    sentence = told[0]
    while sentence.endswith(":") and len(told) > 1:
        sentence += " " + told.pop(1)
    return sentence.rstrip(".")


def only_names_others(text):
    return all(not line.strip() or line.startswith(("--", "pub mod ", "mod ")) for line in text.splitlines())


def is_of_one_function(path):
    return "/proofs/" in path and os.path.basename(path) in ONE_FUNCTION


def listed(crate):
    """The files of a crate, each with what it holds."""
    for folder, ending in GROUPS:
        for path in files_of(f"crates/{crate}/{folder}", ending):
            text = text_of(path)
            if not is_of_one_function(path) and not (ending == ".antt" and only_names_others(text)):
                yield path, first_sentence(text)


def main(words):
    wanted = crates() if words in ([], ["--check"]) else words
    if not set(wanted) <= set(crates()):
        sys.exit(f"usage: docs/map.py [CRATE ..], of {', '.join(crates())}")
    rows = [row for crate in wanted for row in listed(crate)]
    untold = [path for path, told in rows if not told]
    if words == ["--check"]:
        for path in untold:
            print(f"{path} begins with no comment that says what it holds")
        return 1 if untold else 0
    for path, told in rows:
        print(f"{path}: {told}")
    return 0


if __name__ == "__main__":
    sys.exit(main(sys.argv[1:]))

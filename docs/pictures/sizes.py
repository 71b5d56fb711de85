"""The crates of crates.txt, each above those that it uses, as boxes by their lines."""

import os
import re

from shapes import HERE, SOFT, box, line, picture, text

TOP = os.path.normpath(os.path.join(HERE, "..", ".."))
LEFT_OUT = re.compile(r"\w+_tests|test_kit|uses")
CODE, PROOF = "#7fa6d1", "#e3ebf5"

# Lines are told to the nearest of so many, so that the picture needn't be drawn anew with each lemma.
STEP = 500


def crates():
    """Those of the library and the program, each with the crates here that it names."""
    with open(os.path.join(TOP, "crates.txt"), encoding="utf-8") as listed:
        named = dict(re.findall(r"^(\w+)\b[^:\n]*:(.*)$", listed.read(), re.M))
    kept = {name: uses.split() for name, uses in named.items() if not LEFT_OUT.fullmatch(name)}
    return {name: [it for it in uses if it in kept] for name, uses in kept.items()}


def lines_in(crate, folder, ending):
    """The lines of the files of a crate in a folder."""
    found = 0
    for at, _, files in os.walk(os.path.join(TOP, "crates", crate, folder)):
        for name in files:
            if name.endswith(ending):
                with open(os.path.join(at, name), "rb") as file:
                    found += file.read().count(b"\n")
    return found


def rounded(lines):
    return max(STEP, (lines + STEP // 2) // STEP * STEP)


def said_by(crate):
    """What the crate's first comment says that it is: up to its first stop, or the next one where that is short."""
    for root in "lib.rt", "main.rt":
        path = os.path.join(TOP, "crates", crate, "src", root)
        if os.path.exists(path):
            with open(path, encoding="utf-8") as file:
                words = " ".join(row.removeprefix("//!").strip() for row in file if row.startswith("//!")).replace("`", "")
            parts = re.split(r"([,:.])(?= |$)", words)
            return parts[0] if len(parts[0]) > 10 else "".join(parts[:3])
    return ""


def below(crate, named):
    """All crates that stand below a crate."""
    return set(named[crate]).union(*(below(it, named) for it in named[crate]))


def nearest(crate, named):
    """Those that a crate uses, but for what stands below another one of them."""
    further = set().union(*(below(it, named) for it in named[crate]))
    return [it for it in named[crate] if it not in further]


def depth(crate, named):
    return 1 + max((depth(it, named) for it in named[crate]), default=0)


def sizes_of(crate):
    """The lines of its code, and those of its definitions and proofs."""
    proof = lines_in(crate, "specs", ".antt") + lines_in(crate, "proofs", ".antt")
    return rounded(lines_in(crate, "src", ".rt")), rounded(proof)


def row(crate, sizes, uses, scale, aside, top):
    code, proof = sizes
    middle, end = round(20 + code / scale, 1), round(20 + (code + proof) / scale, 1)
    parts = [
        text(20, top + 14, crate, 14, "start", weight="bold"),
        text(aside, top + 14, said_by(crate), 12, "start", SOFT),
        box(20, top + 21, round(middle - 20, 1), 18, CODE, SOFT),
        box(middle, top + 21, round(end - middle, 1), 18, PROOF, SOFT),
        text(round(end + 8, 1), top + 34, f"{code + proof:,}", 12, "start"),
    ]
    return [*parts, text(700, top + 14, f"on {', '.join(uses)}", 12, "end")] if uses else parts


def layers():
    named = crates()
    order = sorted(named, key=lambda it: (-depth(it, named), it))
    sizes = {crate: sizes_of(crate) for crate in order}
    scale, aside = max(map(sum, sizes.values())) / 560, 40 + 9 * max(map(len, order))
    parts, top = [], 12
    for crate, before in zip(order, [None, *order]):
        if before and depth(before, named) != depth(crate, named):
            parts.append(line(20, top + 2, 700, top + 2, SOFT, 0.75))
            top += 8
        parts += row(crate, sizes[crate], nearest(crate, named), scale, aside, top)
        top += 46
    parts += [box(20, top + 8, 26, 14, CODE, SOFT), text(54, top + 20, "lines of code and contracts", 12, "start", SOFT)]
    parts += [box(240, top + 8, 26, 14, PROOF, SOFT), text(274, top + 20, "lines of definitions and proofs", 12, "start", SOFT)]
    parts.append(text(700, top + 20, "without uses and crates for tests", 12, "end", SOFT))
    return picture("The crates by their lines, each above those that it uses", 720, top + 34, parts)


# The rooms of i_tree.


def titled(x, y, width, height, name, *said):
    parts = [box(x, y, width, height, "#e8f0fa"), text(x + width / 2, y + 20, name, 14, weight="bold")]
    return parts + [text(x + width / 2, y + 37 + 17 * row, words, 12, fill=SOFT) for row, words in enumerate(said)]


def rooms():
    parts = [
        *titled(35, 14, 152, 62, "key", "keys that expire", "list and tree"),
        *titled(201, 14, 152, 62, "status", "what is along a line", "list and tree"),
        *titled(367, 14, 152, 114, "set", "ordered sets", "list and tree"),
        *titled(533, 14, 152, 114, "seg", "segments that expire", "a heap of buckets"),
        *titled(35, 83, 318, 45, "expiring", "what keys and statuses share"),
        *titled(35, 135, 484, 50, "rb", "the red-black core of the key, status and set trees"),
        *titled(533, 135, 152, 50, "steps", "what a call counts by"),
    ]
    return picture("The rooms of i_tree, each on those below that it uses", 720, 200, parts)

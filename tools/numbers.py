#!/usr/bin/env python3
"""How large the proved crates are. It reads their text alone, and proves nothing.

usage: tools/numbers.py [CRATE..]     (with no names: i_tree runs itree)

Each crate has a column, and each number a row:

- clauses: each `requires` and `ensures` of src, starred ones and those of closures among them.
- clauses that differ: how many of these are left if each text stands once: its keyword, name and body, with every run of
  white space as one space. `bodies that differ` compares the bodies alone.
- lines of src, and the lines of its tests among them: of `tests.rt` and of what stands in a folder `tests`.
- lines of specs: the definitions.
- lines of lemmas: each file of proofs that is no answer, those that only list modules among them.
- lines of answers: the files of proofs named `Answers.antt`, `Invariants.antt` or `Proof.antt`.
- contract lines: the lines that clauses stand on; how many of them have over 120 columns, and the longest, with its place.
- functions with a body, and how many have 40 lines or more: from the line of `fn` to the closing brace, contract and nested
  functions among them, docstring left out. The longest, with its place; and the longest body, from its first brace to its last.
- lemma files, how many of them have over 300 lines, and the longest.
- must-fail edits: the files of must-fail.
- tests: each `#[test]` of the crate. The last line has those of all crates.
"""

import os
import pathlib
import sys

sys.dont_write_bytecode = True

from contracts import clauses, functions_in, lines_without_clauses, squeezed

CRATES = pathlib.Path(__file__).resolve().parent.parent / "crates"
ANSWERS = {"Answers.antt", "Invariants.antt", "Proof.antt"}


def files(crate, part, ending):
    """The files of a part of a crate, by name, with their texts."""
    return {path: path.read_text(encoding="utf-8") for path in sorted((CRATES / crate / part).rglob(f"*{ending}"))}


def contract_lines(text):
    """The numbers of the lines that clauses stand on."""
    found = set()
    for it in clauses(text):
        found.update(range(text.count("\n", 0, it.start) + 1, text.count("\n", 0, it.end) + 2))
    return sorted(found)


def functions(text):
    """The functions with a body: the number of lines of each, of its body, its name and the number of its first line."""
    lines = lines_without_clauses(text)
    for it in functions_in(lines):
        first = it.header_end
        if not lines[first].endswith(";"):
            last = first if lines[first].endswith("{}") else lines.index(f"{it.indent}}}", first)
            yield last - it.line + 1, last - first + 1, it.name, it.line + 1


def length(text):
    return len(text.splitlines())


def lengths(texts):
    return sum(map(length, texts.values()))


def is_test(path):
    return path.name == "tests.rt" or "tests" in path.parts[:-1]


def at(crate, path):
    return path.relative_to(CRATES / crate)


def of_clauses(crate, sources):
    texts, bodies, lines = [], [], []
    for path, text in sources.items():
        for it in clauses(text):
            texts.append(squeezed(text[it.start : it.end + 1]))
            bodies.append(squeezed(text[it.brace : it.end + 1]))
        all_lines = text.splitlines()
        lines += [(len(all_lines[it - 1]), f"{at(crate, path)}:{it}") for it in contract_lines(text)]
    longest = max(lines, default=(0, "none"))
    yield "clauses", len(texts)
    yield "clauses that differ", len(set(texts))
    yield "bodies that differ", len(set(bodies))
    yield "contract lines", len(lines)
    yield "contract lines over 120 columns", sum(columns > 120 for columns, _ in lines)
    yield "longest contract line, columns", f"{longest[0]} {longest[1]}"


def of_functions(crate, sources):
    found = [(*it, at(crate, path)) for path, text in sources.items() for it in functions(text)]
    whole = max(found, key=lambda it: it[0])
    body = max(found, key=lambda it: it[1])
    yield "functions", len(found)
    yield "functions of 40 lines or more", sum(it[0] >= 40 for it in found)
    yield "longest function, lines", f"{whole[0]} {whole[2]} {whole[4]}:{whole[3]}"
    yield "longest body, lines", f"{body[1]} {body[2]} {body[4]}:{body[3]}"


def of_proofs(crate):
    proofs = files(crate, "proofs", ".antt")
    lemmas = {path: text for path, text in proofs.items() if path.name not in ANSWERS}
    longest = max(((length(text), at(crate, path)) for path, text in lemmas.items()), default=(0, "none"))
    yield "lines of specs", lengths(files(crate, "specs", ".antt"))
    yield "lines of lemmas", lengths(lemmas)
    yield "lines of answers", lengths(proofs) - lengths(lemmas)
    yield "lemma files", len(lemmas)
    yield "lemma files over 300 lines", sum(length(text) > 300 for text in lemmas.values())
    yield "longest lemma file, lines", f"{longest[0]} {longest[1]}"


def tests_of(crate):
    return sum(text.count("#[test]") for text in files(crate, "src", ".rt").values())


def numbers_of(crate):
    sources = files(crate, "src", ".rt")
    yield from of_clauses(crate, sources)
    yield "lines of src", lengths(sources)
    yield "lines of its tests among them", lengths({path: text for path, text in sources.items() if is_test(path)})
    yield from of_proofs(crate)
    yield from of_functions(crate, sources)
    yield "must-fail edits", len(files(crate, "must-fail", ".edit"))
    yield "tests", tests_of(crate)


def main():
    crates = sys.argv[1:] or ["i_tree", "runs", "itree"]
    for crate in crates:
        if not (CRATES / crate / "src").is_dir():
            sys.exit(__doc__)
    rows = [dict(numbers_of(crate)) for crate in crates]
    print(f"{'':34}" + " ".join(f"{crate:>9}" for crate in crates))
    for name in rows[0]:
        values = [row[name] for row in rows]
        if all(isinstance(value, int) for value in values):
            print(f"{name:34}" + " ".join(f"{value:9}" for value in values))
        else:
            print("\n".join([name, *(f"    {crate}: {value}" for crate, value in zip(crates, values))]))
    print(f"tests of all crates: {sum(tests_of(crate) for crate in os.listdir(CRATES))}")


if __name__ == "__main__":
    main()

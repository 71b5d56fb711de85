#!/usr/bin/env python3
"""Checks what the documents quote: programs, proof files, clauses, definitions and links stand in the sources as they say.

usage: docs/check.py

- A block of Rust, antt, C or C++ in README.md, docs/RATTLE.md, docs/RUST.md or docs/C.md is a part of a program that is
  tested, line for line, and one of docs/PROVING.md of a function; what CMake is asked for there stands in the example.
- In a table of calls of docs/RATTLE.md, each word in brackets that is code is the name of a clause at one of the calls that
  the row leads to.
- Each call of a language stands in the page of that language, with a link to docs/reference.
- In docs/DEFINITIONS.md, each name of a definition in the table of words is one of specs/, in its module where it names one;
  and each clause in that of promises is some function's.
- What a document names in code font is there: paths, definitions, clauses, and the other names of the sources (docs/names.py
  says how they are told). Links lead to files, and to headings of these.
- docs/reference is what docs/reference.py writes. Each definition that a source cites has its place there, and one that a
  clause cites has a comment.
- No folder of lemmas of a crate imports one that imports it in turn: they stand in layers. Each constant of a source that
  isn't public stands in the table of docs/DECISIONS.md.
- tools/site builds the site of the documents, where mkdocs is there.
- No blank line breaks a table. The pictures are what docs/pictures/draw.py draws, and the run that one shows stands in a
  document beside it. Each file that docs/map.py lists begins with what it holds.

The last line is 'N passed, M failed'.
"""

import glob
import os
import re
import shutil
import subprocess
import sys
import tempfile

sys.dont_write_bytecode = True

import items
import names
import reference
from names import CLAUSE, FIELD, FUNCTION, RECORD, TOP, parts_by, text_of

# The programs of which a document quotes parts, by the languages of its blocks.
QUOTED = {
    "README.md": {
        "rust": "crates/uses/**/*.rt examples/rust/**/*.rs",
        "antt": "crates/uses/**/*.antt",
        "c": "examples/c/*.c",
        "cpp": "examples/cpp/*.cpp",
    },
    "docs/RATTLE.md": {"rust": "crates/uses/**/*.rt", "antt": "crates/uses/**/*.antt"},
    "docs/RUST.md": {"rust": "examples/rust/**/*.rs"},
    "docs/C.md": {"c": "examples/c/*.c", "cpp": "examples/cpp/*.cpp"},
}

CONSTANT = re.compile(r"^pub const (\w+):", re.M)
GHOST = re.compile(r"^\s*ghost (\w+) =", re.M)
CRATES = {os.path.basename(path) for path in glob.glob(os.path.join(TOP, "crates", "*"))}


def files(pattern):
    return [os.path.relpath(path, TOP) for path in sorted(glob.glob(os.path.join(TOP, pattern), recursive=True))]


DOCUMENTS = ["README.md", "CONTRIBUTING.md", "SECURITY.md", *files("docs/*.md")]
WRITTEN = files("docs/reference/*.md")
# Documents of folders, whose links alone are looked at.
BESIDE = ["examples/README.md", *files("bindings/*/README.md")]


def quoted_failures():
    for document, languages in QUOTED.items():
        for language, patterns in languages.items():
            programs = [text_of(path) for pattern in patterns.split() for path in files(pattern)]
            for block in re.findall(rf"^```{language}\n(.*?)^```$", text_of(document), re.M | re.S):
                quoted = any(block in program for program in programs)
                yield None if quoted else f"{document}: no program of {patterns} has {block.splitlines()[0]!r} and what follows"
    asked = re.findall(r"^find_package.*$", text_of("docs/C.md"), re.M)
    yield None if asked and all(line in text_of("examples/cpp/CMakeLists.txt") for line in asked) else f"docs/C.md: {asked}"


def proving_failures():
    """Each line of Rust or of antt in docs/PROVING.md stands in the function that it tells of, or in its proof."""
    of_function = ["crates/noding/src/stops.rt", *files("crates/noding/proofs/stops/push_stops/*.antt")]
    there = "\n".join(text_of(path) for path in of_function)
    for block in re.findall(r"^```(?:rust|antt)\n(.*?)^```$", text_of("docs/PROVING.md"), re.M | re.S):
        yield None if block in there else f"docs/PROVING.md: no line of push_stops begins with {block.splitlines()[0]!r}"


def clauses_by_place():
    """The names of the clauses that stand below each heading of docs/reference, by the page and the heading's anchor."""
    found = {}
    for path in WRITTEN:
        text = text_of(path)
        parts = re.split(r"^#+ .*$", re.sub(r"^```.*?^```$", "", text, flags=re.M | re.S), flags=re.M)[1:]
        for anchor, part in zip(names.anchors_of(text), parts):
            place = f"{path.removeprefix('docs/')}#{anchor}"
            found[place] = set(re.findall(r"^\| `(\w+)` \| (?:requires|ensures) ", part, re.M))
    return found


def fields_of_records():
    """The names of the fields of each record of the specs."""
    found = {}
    for path in files("crates/*/specs/**/*.antt"):
        for name, part in parts_by(RECORD, text_of(path)):
            body = re.split(r"^\s*(?:--|abbrev|unfoldable)", part, flags=re.M)[0]
            found.setdefault(name, set()).update(FIELD.findall(body))
    return found


def clause_failures():
    places = clauses_by_place()
    for row in re.findall(r"^\| (\[`.*) \|$", text_of("docs/RATTLE.md"), re.M):
        calls, _, said = row.partition(" | ")
        links = re.findall(r"\]\((reference/[^)]*)\)", row)
        clauses = set().union(*(places.get(link, ()) for link in links))
        for brackets in re.findall(r"\(([^()]*)\)", said):
            for name in re.findall(r"`([a-z_]+)`", brackets):
                yield None if name in clauses else f"docs/RATTLE.md: {calls} has no clause {name}"


def call_failures():
    """Each call of a language has its place in the page of that language."""
    for document, language in ("PYTHON", "python"), ("C", "c"), ("C", "cpp"), ("RUST", "rust"):
        text = text_of(f"docs/reference/{language}.md")
        links = set(re.findall(rf"\]\(reference/{language}\.md#([^)]*)\)", text_of(f"docs/{document}.md")))
        codes = dict(re.findall(r"^## ([^\n]*)\n\n```\w+\n(.*?)^```$", text, re.M | re.S))
        for name, anchor in re.findall(r"^\| \[(.*)\]\(#(.*)\) \| ", text, re.M):
            head, called, _ = codes[name].partition("(")
            if called and not re.search(r"\b(?:class|struct|enum|trait|define|using) ", head):
                yield None if anchor in links else f"docs/{document}.md: it lacks {name} of docs/reference/{language}.md"


def definitions():
    """The definitions of all specs: the names of each module, by its path with dots."""
    found = {}
    for path in files("crates/*/specs/**/*.antt"):
        module = path.partition("/specs/")[2].removesuffix(".antt").replace("/", ".")
        defined = (it.name for it in items.definitions_in(path))
        found.setdefault(module, set()).update(defined, FIELD.findall(text_of(path)))
    return found


def is_defined(name, modules):
    module, _, last = name.rpartition(".")
    if module:
        return last in modules.get(module, ()) or any(it.endswith("." + module) and last in modules[it] for it in modules)
    return any(last in names for names in modules.values())


def definition_failures():
    modules = definitions()
    modules["constants"] = {name for path in files("crates/*/src/**/*.rt") for name in CONSTANT.findall(text_of(path))}
    for row in re.findall(r"^\|[^|]+\|[^|]+\| ([^|]*) \|$", text_of("docs/DEFINITIONS.md"), re.M):
        for name in re.findall(r"`([A-Za-z][\w.-]*)`", row):
            yield None if is_defined(name, modules) else f"docs/DEFINITIONS.md: specs have no {name}"


def cited_failures():
    """Each definition that a source of ours cites has its place in docs/reference."""
    for path in files("crates/*/src/**/*.rt"):
        if path.split("/")[1] in reference.PRODUCTS:
            for cited in items.cited_in(path).values():
                crate, module, name = reference.origin_of(*cited)
                if reference.is_ours(crate, module):
                    there = reference.home_of(crate, module, name)
                    yield None if there else f"docs/reference: {module} of {crate} has no {name}, which {path} cites"


def untold_failures():
    """Each definition that a clause of docs/reference cites is told by a comment."""
    cited = {link for path in WRITTEN for link in re.findall(r"\]\(definitions-(\w+)\.md#([^)]*)\)", text_of(path))}
    for crate in reference.PRODUCTS:
        anchors = reference.definitions_page(crate)[1]
        for it in (it for _, defined in reference.definitions_of(crate).values() for it in defined):
            if (crate, anchors[it.module, it.name]) in cited:
                yield None if it.comment else f"no comment tells {it.module}.{it.name} of {crate}"


def table_failures():
    """Each table has its heading: no blank line breaks one."""
    for document in DOCUMENTS + WRITTEN:
        for row, following in re.findall(r"(?:\A|\n\n)(\|.*)\n(.*)", text_of(document)):
            yield None if following.startswith("| ---") else f"{document}: no table begins with {row}"


def promise_failures():
    sources = "\n".join(text_of(path) for path in files("crates/*/src/**/*.rt"))
    known = {
        *CLAUSE.findall(sources),
        *GHOST.findall(sources),
        *FUNCTION.findall(sources),
        *re.findall(r"\bghost (\w+):", sources),
    }
    known.update(*fields_of_records().values())
    promises = text_of("docs/DEFINITIONS.md").partition("## Promises")[2]
    for row in re.findall(r"^\|[^|]+\| ([^|]*) \|$", promises, re.M):
        for name in re.findall(r"`([a-z]\w*)`", row):
            yield None if name in known or name in CRATES else f"docs/DEFINITIONS.md: no function has a clause {name}"


def picture_failures():
    """A run that a picture shows stands in a document that shows the picture."""
    for path in files("docs/pictures/*.lines"):
        name = os.path.basename(path).removesuffix(".lines")
        lines = "".join(f"> {line}\n" for line in text_of(path).splitlines())
        words, kind = ("overlay union nonzero", "union") if name == "overlay" else (name, "replies")
        run = f"```console\n$ itree {words} << END\n{lines}> END\n{text_of(f'docs/pictures/{name}.{kind}')}```\n"
        shown = [document for document in DOCUMENTS if f"pictures/{name}.svg" in text_of(document)]
        yield None if any(run in text_of(document) for document in shown) else f"no document has {name}.svg and its run"


def folders_of_lemmas(crate):
    """The folders of lemmas of a crate, each with those that its files import. A file beside them is one of its own."""
    found = {}
    for path in files(f"crates/{crate}/proofs/**/*.antt"):
        folder = path.split("/")[3].removesuffix(".antt")
        if folder.endswith("Lemmas"):
            imported = re.findall(rf"^(?:pub )?use Rattle\.{crate}\.proofs\.(\w+Lemmas)\b", text_of(path), re.M)
            found.setdefault(folder, set()).update(set(imported) - {folder})
    return found


def layer_failures():
    for crate in sorted(CRATES):
        left = folders_of_lemmas(crate)
        while left:
            lowest = [folder for folder, imported in left.items() if not imported & left.keys()]
            if not lowest:
                yield f"crates/{crate}/proofs: these folders of lemmas import each other in a circle: {', '.join(sorted(left))}"
                break
            for folder in lowest:
                del left[folder]
                yield None


def constant_failures():
    """Each constant of a crate that is no test's stands in the table of docs/DECISIONS.md, with its file."""
    told = {}
    for names_told, path in re.findall(r"((?:`[A-Z_]+`(?:, )?)+) of `([\w/]+\.rt)`", text_of("docs/DECISIONS.md")):
        told.setdefault(path, set()).update(re.findall(r"[A-Z_]+", names_told))
    for path in files("crates/*/src/**/*.rt"):
        _, crate, rest = path.split("/", 2)
        for name in re.findall(r"^const ([A-Z_]+): \w+ = ", text_of(path), re.M) if "test" not in crate else ():
            ok = name in told.get(f"{crate}/{rest}", ())
            yield None if ok else f"docs/DECISIONS.md: its table lacks {name} of {crate}/{rest}"


def written_failures():
    for script in "docs/pictures/draw.py", "docs/map.py", "docs/reference.py":
        ran = subprocess.run([sys.executable, os.path.join(TOP, script), "--check"], capture_output=True, text=True)
        yield ran.stdout + ran.stderr if ran.returncode else None


def site_failures():
    """The site of the documents can be built, where what builds it is there."""
    if shutil.which("mkdocs"):
        with tempfile.TemporaryDirectory() as room:
            ran = subprocess.run(
                [os.path.join(TOP, "tools/site"), room], stdout=subprocess.PIPE, stderr=subprocess.STDOUT, text=True
            )
            yield f"tools/site: {ran.stdout}" if ran.returncode else None


def main():
    of_calls = quoted_failures(), proving_failures(), clause_failures(), call_failures(), cited_failures(), untold_failures()
    of_words = (
        definition_failures(),
        promise_failures(),
        names.failures(DOCUMENTS),
        names.link_failures(DOCUMENTS + WRITTEN + BESIDE),
    )
    of_forms = (
        table_failures(),
        picture_failures(),
        written_failures(),
        layer_failures(),
        constant_failures(),
        site_failures(),
    )
    found = [failure for check in (*of_calls, *of_words, *of_forms) for failure in check]
    failed = [failure for failure in found if failure]
    for failure in failed:
        print(f"FAILED {failure}")
    print(f"{len(found) - len(failed)} passed, {len(failed)} failed")
    return 1 if failed else 0


if __name__ == "__main__":
    sys.exit(main())

#!/usr/bin/env python3
"""Writes docs/reference: a page for each crate, one for its definitions, and one for each language, from the sources alone.

usage: docs/reference.py            writes the pages
       docs/reference.py --check    prints which are out of date; the status is 1 where there are some

- CRATE.md: each item that a caller can name, by the shortest path; its signature, its comment, and a table of its clauses, each
  with the definitions that it cites.
- definitions-CRATE.md: each definition of specs/, by module, with the comment that stands at it, and its text.
- c.md, cpp.md, python.md, rust.md: the comments of the header, of the wrappers and of the package.
"""

import functools
import glob
import os
import re
import sys

sys.dont_write_bytecode = True

import items
import wrapped
from map import crates, first_sentence
from names import TOP, slug, text_of

ROOM = "docs/reference"
NOT_FOR_CALLERS = re.compile(r"\w+_tests|test_kit|uses")
PRODUCTS = [crate for crate in crates() if not NOT_FOR_CALLERS.fullmatch(crate)]
# Methods of classes of Python that other modules of the package call.
INTERNAL = set("binary_of_each given has_floats lists_of_each numbers of_c positions round_into rounded row".split())
LANGUAGES = {
    "c": ("C: `itree.h`", "c", lambda: wrapped.names_of_c("bindings/c/itree.h")),
    "cpp": ("C++: `itree.hpp`", "cpp", lambda: wrapped.names_of_cpp("bindings/cpp/itree.hpp")),
    "python": ("Python: `itree`", "python", lambda: wrapped.names_of_python("bindings/python/itree/__init__.py")),
}
PARAMETER = re.compile(r"[a-z_]\w*(?:, [a-z_]\w*)*: ")
MODULES = {"geopandas.": "bindings/python/itree/geopandas.py", "dask.": "bindings/python/itree/dask.py"}
WRITTEN = "*`docs/reference.py` wrote this page from {}. It is never edited by hand.*"


def shown(code, language):
    return f"```{language}\n{code}\n```"


def cell(text):
    return " ".join(text.split()).replace("|", "\\|")


def prose(comment):
    """A comment as Markdown: no headings, blocks of code as Rust, and without lines that Rust's documentation hides."""
    lines, inside = [], False
    for line in comment.split("\n"):
        if line.startswith("```"):
            inside = not inside
            line = "```rust" if inside and line == "```" else line
        elif inside and re.match(r"# |#$", line):
            continue
        elif not inside:
            line = re.sub(r"^#+ (.*)$", r"**\1**", line)
        lines.append(line)
    return "\n".join(lines)


def brief(comment):
    """The first sentence of a comment."""
    told = first_sentence("\n".join(f"// {line}" for line in comment.split("\n\n")[0].split("\n")))
    return cell(told.rstrip(":"))


class Page:
    """A page in the making; its headings know their anchors."""

    def __init__(self, title):
        self.parts, self.seen = [], {}
        self.heading(1, title)

    def heading(self, level, text):
        anchor = slug(text)
        self.seen[anchor] = self.seen.get(anchor, -1) + 1
        self.add(f"{'#' * level} {text}")
        return f"{anchor}-{self.seen[anchor]}" if self.seen[anchor] else anchor

    def add(self, *parts):
        self.parts.extend(part.strip("\n") for part in parts if part and part.strip())

    def text(self):
        return "\n\n".join(self.parts) + "\n"


def contents(rows):
    """A table of what a page tells: names that lead to it, and a sentence for each."""
    return "\n".join(["| | |", "| --- | --- |", *(f"| [{name}](#{anchor}) | {told} |" for name, anchor, told in rows)])


def specs_of(crate):
    return sorted(
        os.path.relpath(path, TOP) for path in glob.glob(os.path.join(TOP, f"crates/{crate}/specs/**/*.antt"), recursive=True)
    )


@functools.cache
def definitions_of(crate):
    """The modules of a crate that define something: what the file says of itself, and its definitions."""
    found = {}
    for path in specs_of(crate):
        defined = list(items.definitions_in(path))
        if defined:
            found[defined[0].module] = first_comment(text_of(path)), defined
    return found


def first_comment(text):
    return items.comment_of(text, "--")


@functools.cache
def definitions_page(crate):
    """The page of a crate's definitions, and the anchor of each by its module and its name."""
    page, anchors, rows, told = Page(f"Definitions of `{crate}`"), {}, [], Page("")
    page.add(WRITTEN.format(f"`crates/{crate}/specs`"))
    page.add(
        f"What the clauses of [`{crate}`]({crate}.md) say is said by these. "
        "[DEFINITIONS.md](../DEFINITIONS.md) tells how to read them."
    )
    for module, (comment, defined) in sorted(definitions_of(crate).items()):
        rows.append((f"`{module}`", told.heading(2, f"`{module}`"), brief(comment)))
        told.add(comment)
        for it in defined:
            anchors[module, it.name] = told.heading(3, f"`{module}.{it.name}`")
            told.add(it.comment, shown(it.text, "antt"))
    page.add(contents(rows))
    return page.text() + "\n" + told.text().partition("\n\n")[2], anchors


@functools.cache
def renamed_in(crate, module):
    """What a module of definitions hands on of other modules, by its name there."""
    path = os.path.join("crates", crate, "specs", *module.split(".")) + ".antt"
    return items.cited_in(path) if os.path.exists(os.path.join(TOP, path)) else {}


def origin_of(crate, module, name):
    """The crate, the module and the name under which what a source cites is defined, through all that hand it on."""
    further = renamed_in(crate, module).get(name)
    return origin_of(*further) if further and further != (crate, module, name) else (crate, module, name)


def is_ours(crate, module):
    return crate in PRODUCTS and module.partition(".")[0] not in ("declared", "contracts")


def home_of(crate, module, name):
    """The definition that a source cites, or None where there is none of ours: the crate, the module and the name."""
    crate, module, name = origin_of(crate, module, name)
    for it in definitions_of(crate).get(module, ("", ()))[1] if is_ours(crate, module) else ():
        if name == it.name or name in it.makers:
            return crate, module, it.name
    return None


def words_of(text, cited):
    """The definitions that a clause cites, each as a link."""
    found = {}
    for word in re.findall(r"[^\W\d][\w'-]*", text):
        home = word in cited and home_of(*cited[word])
        if home:
            crate, module, name = home
            found[word] = f"[`{word}`](definitions-{crate}.md#{definitions_page(crate)[1][module, name]})"
    return ", ".join(found.values())


def clauses_table(item, cited):
    if not item.clauses:
        return ""
    rows = ["| Clause | | Says | Definitions |", "| --- | --- | --- | --- |"]
    for kind, name, text in item.clauses:
        rows.append(f"| {f'`{name}`' if name else ''} | {kind} | `` {cell(text)} `` | {words_of(text, cited)} |")
    return "\n".join(rows)


def fields_of(body):
    """The public fields of a record, with their comments; and whether it has others."""
    kept, above, hidden, keeps = [], [], False, False
    for line in body.split("\n"):
        words = line.strip()
        if words.startswith(("///", "#[")):
            above.append(line)
        elif words and not (line.startswith("        ") and keeps):
            keeps = words.startswith("pub ")
            hidden = hidden or not keeps
            kept += [*above, line] if keeps else []
            above = []
        elif words:
            kept.append(line)
    return kept, hidden


def declared(item):
    """An item as code: a record with its public fields, an enumeration with all variants."""
    if item.kind == "enum":
        return f"{item.text} {{{item.body.rstrip()}\n}}"
    if item.kind == "struct" and item.body and item.body.startswith("\n"):
        kept, hidden = fields_of(item.body)
        inside = [*kept, *(["    // private fields"] if hidden else [])]
        return "\n".join([item.text + " {", *inside, "}"])
    if item.kind in ("const", "type", "struct"):
        return item.text + item.body
    return item.text


def ghosts_of(members, cited):
    """The ghost members of a trait or an implementation, a line for each."""
    for it in members:
        if it.kind == "ghost" and it.name != "use":
            said = items.squeezed(it.text + it.body).rstrip(";").strip()
            words = words_of(said, cited)
            yield " ".join(filter(None, [f"- `{said}`.", " ".join(it.comment.split()), f"See {words}." if words else ""]))


def method(page, owner, item, cited, of=""):
    page.heading(3, f"`{owner}::{item.name}`" + (f", of `{of}`" if of else ""))
    page.add(shown(declared(item), "rust"), prose(item.comment), clauses_table(item, cited))


def members_of(page, crate, item):
    """What a trait asks for, or what a type has: its own calls, and what it promises as the kinds of which it is."""
    cited = items.cited_in(item.path)
    if item.kind == "trait":
        page.add("\n".join(ghosts_of(item.members, cited)), implementers(crate, item))
        for it in item.members:
            if it.kind in ("fn", "const", "type"):
                method(page, item.name, it, cited)
        return
    for trait, module, impl in sorted(crate.impls.get(item.name, ()), key=lambda found: found[1].file != item.path):
        promised(page, item, trait, impl, items.cited_in(module.file))


def implementers(crate, item):
    """The types of this crate that are of the kind."""
    names = [name for name, found in crate.impls.items() if name[1:] and any(trait == item.name for trait, _, _ in found)]
    return f"These are: {', '.join(f'`{name}`' for name in names)}." if names else ""


def promised(page, item, trait, impl, cited):
    """What an implementation adds to a type: what contracts see of it, what it is, and its calls."""
    calls = [it for it in impl.members if it.kind == "fn"]
    ghosts = [it for it in impl.members if it.kind == "ghost" and it.name != "use"]
    if trait == "Model":
        ghosts, calls = [it for it in ghosts if it.name in ("Value", "invariant")], []
        page.add("Contracts see:", "\n".join(ghosts_of(ghosts, cited)))
    elif trait and (impl.comment or ghosts or any(it.clauses for it in calls)):
        head = items.squeezed(impl.text).partition(" where ")[0]
        page.add(f"`{head}`" + (f": {impl.comment}" if impl.comment else ""), "\n".join(ghosts_of(ghosts, cited)))
    for it in calls:
        if it.clauses if trait else it.public:
            method(page, item.name, it, cited, trait)


def crate_page(name):
    """The page of a crate."""
    crate = items.Crate(name, f"crates/{name}/src/{'main' if name == 'itree' else 'lib'}.rt")
    public, foreign = crate.public()
    if name == "itree":
        public = [
            (("program", it.name), module, it)
            for module in crate.modules.values()
            for it in module.items
            if it.name == "run_itree"
        ]
    page, told, rows = Page(f"`{name}`"), Page(""), []
    page.add(WRITTEN.format(f"`crates/{name}/src`"), prose(crate.modules[()].comment))
    page.add(f"What its clauses cite is defined in [definitions-{name}.md](definitions-{name}.md).")
    for path, module, item in public:
        written = "::".join((name, *path))
        rows.append((f"`{written}`", told.heading(2, f"`{written}`"), brief(item.comment)))
        told.add(shown(declared(item), "rust"), prose(item.comment), clauses_table(item, items.cited_in(module.file)))
        members_of(told, crate, item)
    page.add(contents(rows))
    if foreign:
        others = (f"`{'::'.join((name, *path))}` is [`{'::'.join(of)}`]({of[0]}.md)" for path, of in foreign.items())
        page.add(f"Of other crates: {', '.join(others)}.")
    return page.text() + "\n" + told.text().partition("\n\n")[2]


def rust_page():
    """The page of the binding for Rust."""
    crate = items.Crate("itree", "bindings/rust/src/lib.rs")
    page, told, rows = Page("Rust: `itree`"), Page(""), []
    page.add(WRITTEN.format("the comments of `bindings/rust/src`"), prose(crate.modules[()].comment))
    for path, _, item in crate.public()[0]:
        written = "::".join(("itree", *path))
        rows.append((f"`{written}`", told.heading(2, f"`{written}`"), brief(item.comment)))
        told.add(shown(declared(item), "rust"), prose(item.comment))
        members_of(told, crate, item)
    page.add(contents(rows))
    return page.text() + "\n" + told.text().partition("\n\n")[2]


def docstring(text):
    """A docstring as Markdown: examples and what is indented as code, parameters as a list."""
    parts = []
    for part in re.split(r"\n\n+", text):
        if re.match(r"\s*>>> ", part):
            parts.append(shown(part, "pycon"))
        elif all(line.startswith("    ") for line in part.split("\n")):
            parts.append(shown(part, "text"))
        else:
            is_list, part = PARAMETER.match(part), re.sub(r"(?<!`)\b__\w+__(?!`)", r"`\g<0>`", part)
            parts.append(re.sub(rf"(^|\.\n)(?={PARAMETER.pattern})", r"\1- ", part) if is_list else part)
    return "\n\n".join(parts)


def comment_of_c(text):
    """A comment of C as Markdown, its statuses as a list."""
    text = re.sub(r"^  (ITREE_\w+) +", r"- `\1` ", text.replace("*", "\\*"), flags=re.M)
    return re.sub(r"(\n- .*(?:\n +.*)*)\n(?! |- )", r"\1\n\n", text)


TOLD = {"c": comment_of_c, "cpp": prose, "python": docstring}


def named(page, it, language, level=2, owner=""):
    anchor = page.heading(level, f"`{owner}{it.name}`")
    for comment, code in it.told:
        page.add(shown(code, language), TOLD[language](comment))
    for member in it.members:
        if member.name not in INTERNAL:
            named(page, member, language, level + 1, f"{owner}{it.name}.")
    return anchor


def language_page(language):
    """The page of a language that calls C."""
    title, marked, read = LANGUAGES[language]
    first, found = read()
    page, told, rows = Page(title), Page(""), []
    page.add(
        WRITTEN.format(f"the comments of `bindings/{language}`"),
        shown(first, "text") if language == "python" else TOLD[language](first),
    )
    modules = [("", found)]
    if language == "python":
        modules += [(owner, wrapped.names_of_python(path)[1]) for owner, path in MODULES.items()]
    for owner, names in modules:
        for it in names:
            rows.append((f"`{owner}{it.name}`", named(told, it, marked, owner=owner), brief(TOLD[language](it.told[0][0]))))
    page.add(contents(rows))
    return page.text() + "\n" + told.text().partition("\n\n")[2]


def index_page():
    """The page that leads to the others."""
    page, rows = Page("Reference"), ["| | |", "| --- | --- |"]
    page.add(WRITTEN.format("the sources"), "[CALLING.md](../CALLING.md) says where to begin.")
    for crate in PRODUCTS:
        root = f"crates/{crate}/src/{'main' if crate == 'itree' else 'lib'}.rt"
        rows.append(
            f"| [`{crate}`]({crate}.md), [definitions](definitions-{crate}.md) | {brief(items.comment_of(text_of(root)))} |"
        )
    rows += [f"| [{language}]({language}.md) | {title} |" for language, (title, *_) in LANGUAGES.items()]
    page.add("\n".join([*rows, "| [rust](rust.md) | Rust: `itree` |"]))
    return page.text()


def pages():
    """Each page by its name."""
    found = {"README.md": index_page()}
    for crate in PRODUCTS:
        found[f"{crate}.md"] = crate_page(crate)
        found[f"definitions-{crate}.md"] = definitions_page(crate)[0]
    for language in LANGUAGES:
        found[f"{language}.md"] = language_page(language)
    found["rust.md"] = rust_page()
    return found


def main(words):
    if words not in ([], ["--check"]):
        sys.exit(__doc__)
    made, room = pages(), os.path.join(TOP, ROOM)
    os.makedirs(room, exist_ok=True)
    there = {name: text_of(f"{ROOM}/{name}") for name in os.listdir(room)}
    stale = sorted(name for name in {*made, *there} if made.get(name) != there.get(name))
    for name in stale:
        print(f"{ROOM}/{name} is out of date: docs/reference.py writes it")
        if not words and name in made:
            with open(os.path.join(room, name), "w", encoding="utf-8") as file:
                file.write(made[name])
        elif not words:
            os.remove(os.path.join(room, name))
    return 1 if stale and words else 0


if __name__ == "__main__":
    sys.exit(main(sys.argv[1:]))

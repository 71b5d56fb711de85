"""Reads items of Rust and Rattle, with their comments, signatures and clauses, and definitions of .antt files."""

import dataclasses
import functools
import os
import re
import textwrap

from names import TOP, text_of

VISIBLE = r"(?P<public>pub(?:\([\w:]+\))? )?"
START = re.compile(
    VISIBLE
    + r"(?:(?:unsafe|const(?= fn)|extern \"C\") )*"
    + r"(?P<kind>fn|struct|enum|trait|const|static|type|mod|use|impl|ghost)\b ?(?P<name>\w*)"
)
# What stands before the brace of a clause.
CONTRACT = re.compile(r"(?:^|\s)(requires|ensures|ghost)\*? ?(\w*):? ?$")
ENDS_BY_SEMICOLON = {"const", "static", "type", "use", "ghost"}
LISTED = {"fn", "struct", "enum", "trait", "const", "type"}
CONSTRUCTOR = re.compile(r"^  ([^\s:]+) :", re.M)
KEYWORDS = r"(?:abbrev |unfoldable |pub |record |data )"
DEFINED = re.compile(rf" *(?:{KEYWORDS}+(?P<name>[^\s:({{]+)|(?P<law>\S+) : )")
CITED = re.compile(r"\buse Rattle\.(\w+)\.specs\.([\w.]+)\.\{([^}]*)\}")


@dataclasses.dataclass
class Item:
    """An item of a source; its text is the signature, and its body what stands in its braces."""

    kind: str
    name: str
    public: bool
    comment: str
    text: str
    clauses: list
    body: str = ""
    path: str = ""

    @functools.cached_property
    def members(self):
        return items_of(self.body, self.path, 4)


def masked(text):
    """The text with its comments of whole lines blanked, as long as before."""
    return re.sub(r"^\s*//.*$", lambda found: " " * len(found.group()), text, flags=re.M)


def closing(text, at):
    """Where the bracket at a place of the text is closed."""
    depth = 0
    for found in re.compile(r"[{}]").finditer(text, at):
        depth += 1 if found.group() == "{" else -1
        if not depth:
            return found.end()
    return len(text)


def squeezed(text):
    return " ".join(re.sub(r"^\s*(?:--|//) .*$", "", text, flags=re.M).split())


def scanned(text, at, kind):
    """The clauses of the item at a place, where its head ends, where its body begins, or None, and where the item goes on."""
    clauses, head_end, depth, start = [], None, 0, at
    while found := re.compile(r"[()\[\]{};]").search(text, at):
        mark, at = found.group(), found.end()
        depth += (mark in "([") - (mark in ")]")
        if depth or mark in ")]":
            continue
        contract = CONTRACT.search(text, start, found.start()) if mark == "{" else None
        if mark == "{" and (contract or kind in ENDS_BY_SEMICOLON):
            at = closing(text, found.start())
            if contract and kind == "fn":
                head_end = head_end or contract.start()
                clauses.append((contract[1], contract[2], squeezed(text[found.end() : at - 1])))
        else:
            return clauses, head_end or found.start(), None if mark == ";" else at, at
    return clauses, head_end or len(text), None, len(text)


def body_end(text, at, indent):
    """Where a body that begins at a place ends: at a brace on its line, or at the first that is indented as the item."""
    line_end = text.find("\n", at)
    if closing(text, at - 1) <= line_end:
        return closing(text, at - 1)
    found = re.compile(rf"^ {{{indent}}}\}}", re.M).search(text, line_end)
    return found.end() if found else len(text)


def items_of(text, path="", indent=0):
    """The items of a text that are indented so, with the comment that stands above each."""
    found, blank = [], masked(text)
    line = re.compile(rf"^ {{{indent}}}(?=\S).*$|^$", re.M)
    comment, at = [], 0
    while here := line.search(text, at):
        words, at = here.group().strip(), here.end() + 1
        start = START.match(words)
        if words.startswith("///"):
            comment.append(words[3:].removeprefix(" "))
        elif words.startswith("#["):
            at = text.find("]\n", here.start()) + 2
        elif start:
            clauses, head_end, body, at = scanned(blank, here.start() + indent, start["kind"])
            end = body_end(text, body, indent) if body else at
            signature = re.sub(r"(\s*//.*)+$", "", textwrap.dedent(text[here.start() : head_end]).rstrip())
            public = start["public"] == "pub "
            item = Item(start["kind"], start["name"], public, "\n".join(comment), signature, clauses, path=path)
            item.body = text[body : end - 1] if body else text[head_end:end]
            found.append(item)
            comment, at = [], end
        else:
            comment = []
        if at > len(text):
            break
    return found


def comment_of(text, mark="//!"):
    """The comment that a file begins with."""
    lines = []
    for line in text.splitlines():
        if not line.startswith(mark):
            break
        lines.append(line.removeprefix(mark).removeprefix(" "))
    return "\n".join(lines)


def used_paths(text):
    """The paths of a `use`, each with the name that it gives."""
    beginning, brace, rest = text.partition("{")
    if not brace:
        path, _, alias = text.strip().partition(" as ")
        yield tuple(path.split("::")), alias or path.rpartition("::")[2]
        return
    for part in filter(None, (part.strip() for part in rest.rpartition("}")[0].split(","))):
        yield from used_paths(beginning + part)


@dataclasses.dataclass
class Module:
    path: tuple
    file: str
    items: list
    comment: str


class Crate:
    """The modules of a crate, and the paths by which a caller names its public items."""

    def __init__(self, name, root):
        self.name, self.modules = name, {}
        self.ending = os.path.splitext(root)[1]
        self.load((), root)
        self.impls = {}
        for module in self.modules.values():
            for item in module.items:
                if item.kind == "impl":
                    trait, name = implemented(item)
                    self.impls.setdefault(name, []).append((trait, module, item))

    def load(self, path, file):
        text = text_of(file)
        self.modules[path] = Module(path, file, items_of(text, file), comment_of(text))
        stem = os.path.splitext(os.path.basename(file))[0]
        folder = os.path.dirname(file) if stem in ("lib", "mod", "main") else os.path.splitext(file)[0]
        for item in self.modules[path].items:
            places = (f"{folder}/{item.name}{self.ending}", f"{folder}/{item.name}/mod{self.ending}")
            for place in places if item.kind == "mod" and item.name != "tests" else ():
                if os.path.exists(os.path.join(TOP, place)):
                    self.load((*path, item.name), place)

    def resolved(self, module, path):
        """What a path names in a module: a module, or an item with its module; or None, where it is of another crate."""
        first, rest = path[0], path[1:]
        here = {"crate": (), "self": module.path, "super": module.path[:-1]}.get(first)
        if here is None:
            here, rest = module.path, path
        for place, name in enumerate(rest):
            if (*here, name) in self.modules:
                here = (*here, name)
                continue
            return self.named(self.modules[here], name) if place == len(rest) - 1 else None
        return self.modules[here]

    def named(self, module, name):
        for item in module.items:
            if item.kind in LISTED and item.name == name:
                return module, item
            for path, alias in used_paths(use_of(item)) if item.kind == "use" else ():
                if alias == name and path[-1] != "*":
                    return self.resolved(module, path)
        return None

    def reached(self, module, path, seen):
        """The public items below a module, each with the path by which it is reached; and what is of other crates."""
        if (module.path, path) in seen:
            return
        seen.add((module.path, path))
        for item in module.items:
            if item.public and item.kind in LISTED:
                yield (*path, item.name), module, item
            elif item.public and item.kind == "mod":
                yield from self.reached(self.modules[(*module.path, item.name)], (*path, item.name), seen)
            for target, alias in used_paths(use_of(item)) if item.public and item.kind == "use" else ():
                found = self.resolved(module, target)
                if isinstance(found, Module):
                    yield from self.reached(found, (*path, alias), seen)
                elif found:
                    yield (*path, alias), *found
                else:
                    yield (*path, alias), module, target

    def public(self):
        """The public items by their shortest paths, and the names that are of other crates, each with its own path."""
        shortest, foreign = {}, {}
        for path, module, item in self.reached(self.modules[()], (), set()):
            if isinstance(item, tuple):
                foreign.setdefault(path, item)
                continue
            rank = len(path), path != (*module.path, item.name)
            if id(item) not in shortest or rank < shortest[id(item)][0]:
                shortest[id(item)] = rank, path, module, item
        in_order = sorted(shortest.values(), key=lambda found: (len(found[1]), found[2].path != ()))
        return [found[1:] for found in in_order], foreign


def use_of(item):
    return re.sub(r"^(?:pub )?use |;$", "", squeezed(item.text + item.body))


def implemented(item):
    """The trait, or nothing, and the type of an `impl`, by their last names."""
    head = squeezed(item.text).replace("->", "  ")
    head = re.sub(r"^(?:unsafe )?impl", "", head.partition(" where ")[0])
    while (flat := re.sub(r"<[^<>]*>", "", head)) != head:
        head = flat
    trait, _, kind = (word.strip() for word in head.rpartition(" for "))
    return trait.rpartition("::")[2], re.split(r"\W", kind.rpartition("::")[2].strip("&"))[0]


@dataclasses.dataclass
class Definition:
    module: str
    name: str
    comment: str
    text: str
    makers: list


def blocks_of(text):
    """The definitions of a file, each with the lines of its comment and its own: those of modules are indented by two more."""
    found, above, modules, own = [], [], [], None
    for line in text.split("\n"):
        indent = len(line) - len(line.lstrip())
        while line.strip() and modules and modules[-1] >= indent:
            modules.pop()
        at_level = line.strip() and indent == (modules[-1] + 2 if modules else 0)
        defined = DEFINED.match(line) if at_level else None
        if at_level and line.startswith("module", indent):
            modules.append(indent)
            own, above = None, []
        elif at_level and line.startswith("--", indent):
            own = None
            above.append(line)
        elif defined and defined["name"] not in ("use", "mod"):
            own = [line]
            found.append((defined["name"] or defined["law"], above, own))
            above = []
        elif at_level and own is None and found and line.startswith(f"{found[-1][0]} ", indent):
            own = found[-1][2]
            own += [*above, line]
            above = []
        elif own is not None and not (at_level and not own[-1] and not line.startswith(found[-1][0], indent)):
            own.append(line)
        else:
            own, above = None, []
    return found


def definitions_in(path):
    """The definitions of a file, in its order."""
    module = path.partition("/specs/")[2].removesuffix(".antt").replace("/", ".")
    for name, above, own in blocks_of(text_of(path)):
        comment = "\n".join(line.strip().removeprefix("--").strip() for line in above)
        text = textwrap.dedent("\n".join(own).rstrip())
        makers = CONSTRUCTOR.findall(text) if re.search(r"\bdata\b", own[0]) else []
        yield Definition(module, name, comment, text, makers)


@functools.cache
def cited_in(path):
    """The names that a file takes from specs, each with the crate and the module that it names."""
    found = {}
    for crate, module, listed in CITED.findall(text_of(path)):
        for name in filter(None, (part.strip() for part in listed.split(","))):
            name, _, alias = name.partition(" as ")
            found[alias or name] = crate, module, name
    return found

"""What the documents name in code font: paths of the repository, definitions by their modules, and names of the sources.

- A word with a slash or an ending of a file is a path that git tracks (or would), whole or from one of its folders on. One
  that begins in a crate (`src/`, `specs/`, `proofs/`, `must-fail/`) lies in i_tree, or in a crate that its passage or its
  heading names. NAME, FUNCTION and EDIT stand for any.
- A word with dots is a definition of specs/, or a lemma of proofs/, by its module or the end of that; or such a module; or
  what a class of Python has.
- Any other word, and what a piece of code calls, is a name that a source of the libraries, of the wrappers or of the program
  defines, a word that the program or the command of Python takes, or one of `OTHERS` below.
- In 'X of Y', and in 'X in Y' where Y is a file, X is defined in the file Y, at the function Y, or where Y is.
- A link leads to a file, and to a heading of it.
"""

import functools
import os
import re
import subprocess

TOP = os.path.normpath(os.path.join(os.path.dirname(os.path.abspath(__file__)), ".."))

# Names that no source here defines.
OTHERS = {
    # std, and the language
    *"AllocError AllocFailed BTreeMap BTreeSet Box Cell Clone Copy Default Display Drop Equal Error ExactSizeIterator".split(),
    *"Iterator Option Ord Result Stdout Vec bool clone cmp copy_within derive_where drop dyn ensures flush for i16".split(),
    *"i32 i64 i8 if impl inline int_cmp isize nat_cmp no_std partition_point pos push repr requires retain".split(),
    *"rotate_left rotate_right skip std take_all take_more u16 u32 u64 u8 unsafe usize while".split(),
    *"AllPairs AllZip IfErr OnErr abbrev result unfoldable".split(),
    # goals of a function, which the check names
    *"decreases-loop-pair loop-pair loop-pair-smaller push-requires".split(),
    # other tools, libraries and languages
    *"CMAKE_PREFIX_PATH MemoryError NotImplementedError OverflowError PKG_CONFIG_PATH TypeError ValueError".split(),
    *"__geo_interface__".split(),
    *"LocalCluster anyhow ar cc dist free malloc memmove memset objcopy pkg-config proves realloc tactic thiserror".split(),
    *"rattle_alloc rattle_dealloc rattle_realloc".split(),
}

# Paths that a build makes, or that lie in the toolchain.
BUILT = {
    "lib/pkgconfig",
    "bindings/built",
    "bindings/built/libitree.a",
    "crates/itree/out/itree",
    "libitree.so",
    "liblibc_c.a",
    "out",
}

COMMAND_OF_PYTHON = "bindings/python/itree/__main__.py"

ENDINGS = "antt c cpp edit h hpp lines md py replies rs rt sh svg toml txt".split()
LINK = re.compile(r"\]\((?!https?:)([^)#\s]*)(?:#([^)\s]*))?\)")
CODE = re.compile(r"`([^`\n]+)`")
PATH = re.compile(rf"[\w.-]*/[\w./-]*|[\w-]+\.(?:{'|'.join(ENDINGS)})")
PLACEHOLDER = re.compile("NAME|FUNCTION|EDIT")
IN_CRATE = re.compile(r"(?:src|specs|proofs|must-fail)/")
DOTTED = re.compile(r"[A-Z]\w*(?:\.[A-Za-z][\w-]*)+")
NAME = re.compile(r"[A-Za-z_][\w-]*(?:::\w+)*")
LISTED = r"`[^`]+`(?:,? (?:and )?`[^`]+`)*"
BELONGS = re.compile(rf"({LISTED}) (of|in) ({LISTED})(?! of `)")
CALLED = re.compile(r"\b([a-z_]\w*)\(")

ITEM = re.compile(r"\b(?:fn|struct|enum|trait|mod|const|static|type|class|def|namespace|ghost|law)\s+(\w+)")
NAME_OF_C = re.compile(r"\bITREE_\w+|\bitree_\w+(?=\()")
MEMBER_OF_CPP = re.compile(r"^ *\[\[nodiscard\]\] [^(=]*?(\w+)\(", re.M)
CLASS_OF_PYTHON = re.compile(r"^class (\w+)", re.M)
FIELD_OF_PYTHON = re.compile(r"\bself\.([a-z]\w*) = ")
FIELD_OR_VARIANT = re.compile(r"^\s*(?:pub(?:\(\w+\))? )?(\w+): |^ {4}([A-Z]\w*)(?:[,({ ]|$)", re.M)
LITERAL = re.compile(r'b?"(-{0,2}\w+)"')
CLAUSE = re.compile(r"^\s*(?:ensures|requires)\*? (\w+) \{", re.M)
FUNCTION = re.compile(r"\bfn (\w+)")
TYPE = re.compile(r"\b(?:struct|enum|trait|mod) (\w+)|^impl\b.*?\b(\w+)(?:<[^{]*)? \{$", re.M)
GHOST = re.compile(r"^\s*ghost (\w+)\b(.*)", re.M)
LEMMA = re.compile(r"^\s*(?:abbrev |unfoldable )*(?:pub )?(?:abbrev |unfoldable |record |data )*([^\s:({]+) ?[:({]", re.M)
FIELD = re.compile(r"^\s*pub (\w+) :", re.M)
RECORD = re.compile(r"^\s*pub record (\w+)", re.M)


def text_of(path):
    with open(os.path.join(TOP, path), encoding="utf-8") as file:
        return file.read()


def slug(heading):
    """The anchor of a heading, as GitHub makes it, but for the number that tells equal ones apart."""
    return re.sub(r"[^\w\- ]", "", heading.strip().lower()).replace(" ", "-")


def anchors_of(text):
    """The anchors of a document's headings, in their order."""
    seen, found = {}, []
    for heading in re.findall(r"^#+ (.*)$", re.sub(r"^```.*?^```$", "", text, flags=re.M | re.S), re.M):
        anchor = slug(re.sub(r"\[([^\]]*)\]\([^)]*\)", r"\1", heading))
        seen[anchor] = seen.get(anchor, -1) + 1
        found.append(f"{anchor}-{seen[anchor]}" if seen[anchor] else anchor)
    return found


def tracked():
    listed = subprocess.run(
        ["git", "ls-files", "-c", "-o", "--exclude-standard"], cwd=TOP, capture_output=True, text=True, check=True
    )
    return [path for path in listed.stdout.splitlines() if os.path.exists(os.path.join(TOP, path))]


def with_folders(paths):
    return {path[:end] for path in paths for end in [*(at.start() for at in re.finditer("/", path)), len(path)]}


def parts_by(pattern, text):
    """The parts of a text that begin where the pattern is found, each with the name there."""
    starts = [(found.start(), found.group(1)) for found in pattern.finditer(text)]
    for (start, name), (end, _) in zip(starts, [*starts[1:], (len(text), None)]):
        yield name, text[start:end]


class Sources:
    """What the sources of the libraries and of the program define, and where."""

    def __init__(self):
        self.paths = tracked()
        self.places = with_folders(self.paths)
        self.crates = {path.split("/")[1] for path in self.paths if path.startswith("crates/")}
        sources = [path for path in self.paths if re.match(r"crates/\w+/(src|specs|proofs)/.*\.(rt|antt)$", path)]
        self.texts = {path: text_of(path) for path in sources if not re.search("tests(/|[.])", path)}
        self.names = {path: self.defined_in(path) for path in self.texts}
        self.modules = {}
        for path, names in self.names.items():
            if path.endswith(".antt"):
                module = re.sub(r"^.*?/(?:specs|proofs)/|\.antt$", "", path).replace("/", ".")
                self.modules.setdefault(module, set()).update(names)
        self.functions, self.types = {}, {}
        self.fields = {}
        for path in self.texts:
            for name, part in parts_by(RECORD, self.texts[path]):
                self.fields.setdefault(name, set()).update(FIELD.findall(part))
        for path in filter(lambda path: path.endswith(".rt"), self.texts):
            self.add_contracts(path)
        stems = {part.partition(".")[0] for place in self.places for part in place.split("/")}
        programs = [text for path, text in self.texts.items() if path.startswith("crates/itree/src/")]
        words = {word for text in [*programs, text_of(COMMAND_OF_PYTHON)] for word in LITERAL.findall(text)}
        bindings = [text_of(path) for path in self.paths if path.startswith("bindings/")]
        forms = ITEM, NAME_OF_C, FIELD_OF_PYTHON, MEMBER_OF_CPP
        wrappers = {name for text in bindings for form in forms for name in form.findall(text)}
        self.classes = {name for text in bindings for name in CLASS_OF_PYTHON.findall(text)}
        self.all = set().union(stems, words, wrappers, *self.names.values())

    def defined_in(self, path):
        """The names that a source defines: of a .rt file also those of its clauses, fields and variants."""
        text = self.texts[path]
        if path.endswith(".antt"):
            return set(LEMMA.findall(text))
        members = {name for names in FIELD_OR_VARIANT.findall(text) for name in names if name}
        return {*members, *ITEM.findall(text), *CLAUSE.findall(text)}

    def is_place(self, word, crates):
        """Whether a path of git ends in the word, which lies in one of the crates where it begins in a crate."""
        inside = f"crates/(?:{'|'.join(crates)})/" if IN_CRATE.match(word) else "(?:.*/)?"
        tail = re.compile(inside + PLACEHOLDER.sub(".*", re.escape(word)) + "$")
        return any(tail.match(place) for place in self.places)

    def is_definition(self, name):
        module, _, last = name.rpartition(".")
        ends = [known for known in self.modules if f".{known}".endswith(f".{module}")]
        return any(last in self.modules[known] for known in ends) or any(
            f".{known}".endswith(f".{name}") for known in self.modules
        )

    def fields_named(self, text):
        """The fields of the records that a text names."""
        return set().union(*(self.fields.get(word, ()) for word in re.findall(r"[A-Z]\w+", text)))

    def add_contracts(self, path):
        """Adds what belongs to a file's functions: clauses, fields of the records there, ghost members; and to its types."""
        text = self.texts[path]
        ghosts = GHOST.findall(text)
        members = {name for name, _ in ghosts} | self.fields_named(" ".join(said for _, said in ghosts))
        for name, part in parts_by(FUNCTION, text):
            self.functions.setdefault(name, {name}).update(members, CLAUSE.findall(part), self.fields_named(part))
        for name in {name for names in TYPE.findall(text) for name in names if name}:
            self.types.setdefault(name, set()).update(members, self.names[path])

    @functools.cache
    def at(self, owner):
        """The names that belong to a file, a function, a type or a definition."""
        if PATH.fullmatch(owner):
            return set().union(*(names for path, names in self.names.items() if f"/{path}".endswith(f"/{owner}")))
        last = re.split(r"::|\.", owner)[-1]
        beside = (names for path, names in self.names.items() if path.endswith(".antt") and last in names)
        return set().union(self.functions.get(last, ()), self.types.get(last, ()), *beside)


def passages_of(document):
    """The paragraphs, list items and rows of a document outside its blocks of code, each with the heading above it."""
    text = re.sub(r"^```.*?^```$", "", text_of(document), flags=re.M | re.S)
    heading = ""
    for passage in re.split(r"\n\n+|\n(?=[|#]|- )", text):
        if passage.startswith("#"):
            heading = passage
        yield heading, " ".join(passage.split())


def words_of(code):
    """The words of a piece of code that may be checked: itself, or the paths among several words; and what it calls."""
    words = [word.strip("(),;").removeprefix("-I").removeprefix("./").removesuffix("/") for word in code.split()]
    paths = [word for word in words if re.fullmatch(r"[a-z_]+/[\w./-]+", word)]
    return [*CALLED.findall(code), *(words if len(words) == 1 else paths)]


def is_known(word, crates, sources):
    if PATH.fullmatch(word):
        return word in BUILT or sources.is_place(word, crates)
    if DOTTED.fullmatch(word):
        return (
            sources.is_definition(word) or word.partition(".")[0] in sources.classes and word.rpartition(".")[2] in sources.all
        )
    if NAME.fullmatch(word):
        return word.split("::")[0] in OTHERS or all(part in sources.all for part in word.split("::"))
    return True


def strangers(passage, sources):
    """The names of 'X of Y' that don't belong there."""
    for names, word, owners in BELONGS.findall(passage):
        owners = [owner for owner in CODE.findall(owners) if word == "of" or PATH.fullmatch(owner)]
        known = [sources.at(owner) for owner in owners]
        for name in CODE.findall(names) if any(known) else []:
            if NAME.fullmatch(name) and name not in OTHERS and not any(name.rpartition("::")[2] in at for at in known):
                yield f"{name} is not at {', '.join(owners)}"


def failures(documents):
    """What is named in documents and isn't there; None for each name that is."""
    sources = Sources()
    for document in documents:
        for heading, passage in passages_of(document):
            crates = {"i_tree"} | {word for word in re.findall(r"\w+", heading + passage) if word in sources.crates}
            for code in CODE.findall(passage):
                for word in words_of(code):
                    yield None if is_known(word, crates, sources) else f"{document}: there is no {word}"
            yield from (f"{document}: {stranger}" for stranger in strangers(passage, sources))


def link_failures(documents):
    """Links that lead to no file, or to no heading of one; None for each other."""
    places = with_folders(tracked())
    anchors = functools.cache(lambda path: set(anchors_of(text_of(path))))
    for document in documents:
        for link, anchor in LINK.findall(re.sub(r"^```.*?^```$", "", text_of(document), flags=re.M | re.S)):
            place = os.path.normpath(os.path.join(os.path.dirname(document), link)) if link else document
            there = place in places and (not anchor or anchor in anchors(place))
            yield None if there else f"{document}: a link leads to {link}#{anchor}, which isn't there"

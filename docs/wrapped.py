"""Reads what the bindings for C, C++ and Python offer: each name with its comments or docstring, and how it is written."""

import ast
import dataclasses
import os
import re
import textwrap

from names import text_of

DECLARED_IN_C = re.compile(r"(?:#define |(?:struct|enum) (?=\w+(?: \{|;))|[\w* ]*?(?=itree_\w+\())(\w+)")
KIND = re.compile(r"\b(class|struct|enum class|using) (\w+)")
CALL = re.compile(r"(~?\w+|operator[^\s(]+|operator\(\))\(")
# Where the list begins by which a constructor makes its members.
MEMBERS = re.compile(r"\)(?: noexcept)?\s+:\s")


@dataclasses.dataclass
class Named:
    """A name, and what is told of it: pairs of a comment and code, one for each of its forms."""

    name: str
    told: list
    members: list = dataclasses.field(default_factory=list)


def uncommented(comment):
    """The words of a comment of C, as lines."""
    body = comment.strip().removeprefix("/*").removesuffix("*/")
    return "\n".join(re.sub(r"^ ?\* ?", "", line) for line in body.strip().split("\n")).strip()


def names_of_c(path):
    """What the header of C says first; and each macro, type and call of it."""
    first, found = "", []
    for part in re.split(r"\n\n+", text_of(path)):
        comment = re.match(r"/\*.*?\*/\n", part, re.S)
        words = uncommented(comment[0]) if comment else ""
        declared = part[comment.end() if comment else 0 :].strip()
        name = DECLARED_IN_C.match(declared)
        first = first or words
        if name and not declared.startswith(("#ifndef", "#include")):
            found.append(Named(name[1], [(words, declared)]))
    return first, found


def head_of(lines):
    """The head of a declaration of C++, without its body and without the list by which a constructor makes its members."""
    text, depth = "\n".join(lines), 0
    for place, mark in enumerate(text):
        depth += (mark in "([") - (mark in ")]")
        if not depth and mark in "{;":
            text = text[:place]
            break
    cut = MEMBERS.search(text)
    return (text[: cut.start() + 1] if cut and "(" in text else text).rstrip()


def parts_of_cpp(lines, indent):
    """The declarations that are indented so: the access that holds there, the comment above, the head, and the body's lines."""
    margin, access, comment, at = " " * indent, "", [], 0
    while at < len(lines):
        line = lines[at]
        at += 1
        words = line.strip()
        if words in ("public:", "private:", "protected:"):
            access = words[:-1]
        elif words.startswith("///"):
            comment.append(words[3:].removeprefix(" "))
        elif not words or words.startswith(("//", "#", "}", "namespace itree")):
            comment = []
        else:
            start = at - 1
            while not lines[at - 1].rstrip().endswith(("{", ";", "}")):
                at += 1
            head, body = lines[start:at], []
            if lines[at - 1].rstrip().endswith("{"):
                end = next(place for place in range(at, len(lines)) if lines[place].startswith(margin + "}"))
                body, at = lines[at:end], end + 1
            yield access, "\n".join(comment), textwrap.dedent(head_of(head)), body
            comment = []


def member_of_cpp(comment, head, body):
    """A member as code: its comment above it."""
    lines = [f"    // {line}".rstrip() for line in comment.splitlines()]
    return "\n".join([*lines, textwrap.indent(head, "    ") + (" { … };" if body and KIND.match(head) else ";")])


def code_of_cpp(head, body):
    """A declaration as code; of a class the public members, and of an enumeration all of it."""
    kind = KIND.search(head)
    if not kind or kind[1] == "using" or "(" in head:
        return head + ";"
    if kind[1] == "enum class":
        return "\n".join([head + " {", *body, "};"])
    at_first = "private" if kind[1] == "class" else "public"
    members = [member_of_cpp(*rest) for access, *rest in parts_of_cpp(body, 4) if (access or at_first) == "public"]
    return "\n".join([head + " {", *members, "};"])


def names_of_cpp(path):
    """The public names of the header of C++, those of one name together."""
    text = re.sub(r"^namespace detail \{$.*?^\}  // namespace detail$", "", text_of(path), flags=re.M | re.S)
    found = {}
    for _, comment, head, body in parts_of_cpp(text.split("\n"), 0):
        kind, call = KIND.search(head), CALL.search(head)
        name = kind[2] if kind and not (call and kind.start() > call.start()) else call and call[1]
        if name and not name.startswith("operator"):
            found.setdefault(name, Named(name, [])).told.append((comment, code_of_cpp(head, body)))
    return "", list(found.values())


def public_names_of_python(path):
    """The names of `__all__`, each with the file of the package that defines it."""
    tree = ast.parse(text_of(path))
    homes = {}
    for node in tree.body:
        if isinstance(node, ast.ImportFrom) and node.level:
            homes.update(
                {it.name: os.path.join(os.path.dirname(path), f"{node.module}.py") for it in node.names if node.module}
            )
        if isinstance(node, ast.Assign) and node.targets[0].id == "__all__":
            listed = ast.literal_eval(node.value)
    return ast.get_docstring(tree), {name: homes.get(name, path) for name in listed}


def signature_of_python(node, text):
    """The lines of a definition up to its body."""
    lines = text.split("\n")[node.lineno - 1 : node.body[0].lineno - 1] or [text.split("\n")[node.lineno - 1]]
    return textwrap.dedent("\n".join(lines)).rstrip().removesuffix(": ...").rstrip(":")


def is_overload(node):
    return any(isinstance(it, ast.Name) and it.id == "overload" for it in getattr(node, "decorator_list", ()))


def defined_in_python(body, text):
    """The public definitions of a body with docstrings, each with its own."""
    for node in body:
        if isinstance(node, (ast.FunctionDef, ast.ClassDef)) and not is_overload(node) and not node.name.startswith("_"):
            members = list(defined_in_python(node.body, text)) if isinstance(node, ast.ClassDef) else []
            if ast.get_docstring(node):
                yield Named(node.name, [(ast.get_docstring(node), signature_of_python(node, text))], members)


def names_of_python(path):
    """What a module of the package says first, and its public names."""
    first, homes = public_names_of_python(path)
    known = {
        home: {it.name: it for it in defined_in_python(ast.parse(text_of(home)).body, text_of(home))}
        for home in {*homes.values()}
    }
    return first, [known[home][name] for name, home in homes.items()]

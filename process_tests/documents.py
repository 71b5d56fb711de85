"""The documents: each example in them runs as it stands, and the help lists what docs/COMMANDS.md lists.

An example stands in a block of the kind `console`. A line `$ itree WORDS` begins a run. Where it ends in `<< END`, the
lines with `>` before them are the input, up to END. What follows is what the run prints: lines that begin with `itree: `
to standard error, the others to standard output. `$ echo $?` shows its status, which is 0 where that isn't asked.
"""

import os
import re
import shlex

from processes import Case, Outcome, by_file, lines

TOP = os.path.normpath(os.path.join(os.path.dirname(os.path.abspath(__file__)), ".."))
COMMANDS = "docs/COMMANDS.md"
HELP = "crates/itree/src/help.rt"
DOCUMENTS = COMMANDS, "README.md"

BLOCK = re.compile(r"^```console\n(.*?)^```$", re.M | re.S)
ASKS_STATUS = "$ echo $?"
TAKES_LINES = " << END"


def text_of(document):
    with open(os.path.join(TOP, document), encoding="utf-8") as file:
        return file.read()


def taken_while(rows, is_taken):
    """Takes the rows off the front of a list for which this holds."""
    taken = []
    while rows and is_taken(rows[0]):
        taken.append(rows.pop(0))
    return taken


def input_rows(rows):
    """Takes the input of a run off the front of a list, up to its line END."""
    given = [row.removeprefix(">").removeprefix(" ") for row in taken_while(rows, lambda row: row.startswith(">"))]
    if "END" not in given[-1:] or "END" in given[:-1]:
        raise ValueError(f"the input {given} doesn't end at END")
    return given[:-1]


def run_of(document, rows):
    """Takes a run off the front of a list of rows."""
    command = rows.pop(0)
    if not command.startswith("$ itree"):
        raise ValueError(f"{document}: {command!r} runs another program")
    words, given = command.removeprefix("$ "), []
    if words.endswith(TAKES_LINES):
        words, given = words.removesuffix(TAKES_LINES), input_rows(rows)
    printed = taken_while(rows, lambda row: not row.startswith("$ "))
    status = 0
    if rows and rows[0] == ASKS_STATUS:
        status = int(rows[1])
        del rows[:2]
    faults = [row for row in printed if row.startswith("itree: ")]
    replies = [row for row in printed if row not in faults]
    wanted = Outcome(status, lines(*replies), lines(*faults))
    return Case(f"{document}: {words}", shlex.split(words)[1:], lines(*given), wanted)


def examples_in(document):
    """The runs of a document."""
    for block in BLOCK.findall(text_of(document)):
        rows = block.splitlines()
        while rows:
            yield run_of(document, rows)


def table_rows(text, heading):
    """The rows of the tables of a text whose first column has this heading: the codes in the first cell and in the last."""
    for table in re.findall(rf"^\| {heading} \|.*\n\|[- |]*\n((?:\|.*\n)*)", text, re.M):
        for row in table.splitlines():
            cells = row.strip("| ").split(" | ")
            yield tuple(re.findall("`([^`]*)`", cell) for cell in (cells[0], cells[-1]))


def entry(modes, form, replies):
    """A form of a line with those of its replies."""
    return f"{', '.join(modes)}: {form}: {', '.join(sorted(replies)) or 'no reply'}"


def listed_in_document(text):
    """The commands, the lines with their replies and the faults that a text of docs/COMMANDS.md lists."""
    for heading in "Command", "Fault":
        yield from (code for codes, _ in table_rows(text, heading) for code in codes)
    for section in text.split("\n## ")[1:]:
        modes = re.findall("`([^`]*)`", section.splitlines()[0])
        yield from (entry(modes, codes[0], replies) for codes, replies in table_rows(section, "Line"))


def listed_in_help(text):
    """The same of a text of the help. A line that is indented has a form, and behind two spaces what belongs to it."""
    modes = []
    for row in text.splitlines():
        form, _, rest = row.strip().partition("  ")
        if row.startswith("itree ") and ":" in row:
            commands = row.partition(":")[0].split(", ")
            modes = [command.removeprefix("itree ") for command in commands]
            yield from commands
        elif row.startswith("  "):
            yield form if form.startswith("itree: ") else entry(modes, form, filter(None, rest.strip().split(" | ")))


def listing(entries):
    """All entries, in order, a line each."""
    return lines(*sorted(entries))


def listed(command, given):
    """Runs the program, and gives a listing of its output in the place of it."""
    left = by_file(command, given)
    return left._replace(output=listing(listed_in_help(left.output.decode())))


def help_text():
    """The help, as its source has it: no document shows it a second time."""
    told = re.search(r'HELP: &str = "\\\n(.*?)";', text_of(HELP), re.S).group(1)
    if "\\" in told:
        raise ValueError(f"{HELP}: the help has an escape")
    return told.encode()


def examples():
    """Cases of the examples of all documents."""
    cases = [case for document in DOCUMENTS for case in examples_in(document)]
    shown = {"help", *(case.words[0] for case in cases if case.words)}
    for codes, _ in table_rows(text_of(COMMANDS), "Command"):
        if not shown & {code.split()[1] for code in codes}:
            raise ValueError(f"{COMMANDS} has no example of {codes}")
    return cases


def help_and_document():
    """The case that the help and docs/COMMANDS.md list the same."""
    wanted = listing(listed_in_document(text_of(COMMANDS)))
    yield Case(f"the help lists what {COMMANDS} lists", ["help"], b"", Outcome(0, wanted), listed)


def pictures():
    """The cases that docs/pictures/sweep.svg, locate.svg, snap.svg, overlay.svg and stages.svg show."""
    for mode in "sweep", "locate", "snap":
        given, wanted = (text_of(f"docs/pictures/{mode}.{kind}").encode() for kind in ("lines", "replies"))
        yield Case(f"the run of {mode}'s picture", [mode], given, Outcome(0, wanted))
    for operation in "union", "intersection", "difference", "xor":
        given, wanted = (text_of(f"docs/pictures/overlay.{kind}").encode() for kind in ("lines", operation))
        yield Case(f"the {operation} of overlay's picture", ["overlay", operation, "nonzero"], given, Outcome(0, wanted))
    for words, kinds in (["snap"], ("edges", "chains")), (["overlay", "union", "nonzero"], ("rings", "union")):
        given, wanted = (text_of(f"docs/pictures/stages.{kind}").encode() for kind in kinds)
        yield Case(f"the {kinds[1]} of stages' picture", words, given, Outcome(0, wanted))


PARTS = examples, help_and_document, pictures

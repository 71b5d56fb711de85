"""What standard error is told of faults and failures, word for word."""

from processes import MEMORY, Case, Outcome, answered, redirected

NUMBER = "a whole number from -2147483648 to 2147483647 is wanted"
ONE_MORE = "one more number is wanted behind it"
NO_MORE = "no further word is wanted"
MODE = "a mode is wanted; itree help lists them"
OPERATION = "union, intersection, difference or xor is wanted"
RULE = "evenodd, nonzero, positive or negative is wanted"
GREATER = "a number that is at least 31 more than the one before is wanted"
CHOICE = "--operation, --rule or --window is wanted"
SIDE = "a whole number from -2147483646 to 2147483645 is wanted"
ABOVE = "a number that is greater than the one two words before is wanted"
SIDES = "four numbers, X0 Y0 X1 Y1, are wanted behind it"
OF_KEYS = "insert, less, leq or clear is wanted"
OF_SETS = "insert, delete, find or before is wanted"
OF_SEGMENTS = "insert, query or clear is wanted"
OF_RINGS = "subject or clip is wanted"
GROWTH = "grow, shrink or lines is wanted"
OF_GROWTH = "subject or shape is wanted"
OF_PATHS = "line or shape is wanted"

# Modes, the text, and the faulty line with the column, the word and what is wanted.
LINES = (
    ("keytree", b"clean\n", (1, 1, "clean", OF_KEYS)),
    ("keylist", b"Insert 0 10 0 0\n", (1, 1, "Insert", OF_KEYS)),
    ("keytree", b"insert\n", (1, 1, "insert", ONE_MORE)),
    ("keytree", b"clear\n\n insert 0 10 0 \n", (3, 14, "0", ONE_MORE)),
    ("keylist", b"insert 0 10 0 0 7\n", (1, 17, "7", NO_MORE)),
    ("keylist", b"insert 0 10 x7 0\n", (1, 13, "x7", NUMBER)),
    ("keytree", b"less 0 2147483648 4\n", (1, 8, "2147483648", NUMBER)),
    ("keytree", b"leq -2147483649 0 4\n", (1, 5, "-2147483649", NUMBER)),
    ("keytree", b"less 0 -1\n", (1, 8, "-1", ONE_MORE)),
    ("keylist", b"leq 0 -1 4 4\n", (1, 12, "4", NO_MORE)),
    ("keylist", b"clear 0\n", (1, 7, "0", NO_MORE)),
    ("settree", b"fnd 4\n", (1, 1, "fnd", OF_SETS)),
    ("setlist", b"find\n", (1, 1, "find", ONE_MORE)),
    ("setlist", b"find 4\ndelete 4 5\n", (2, 10, "5", NO_MORE)),
    ("settree", b"before 1.5\n", (1, 8, "1.5", NUMBER)),
    ("settree", b"insert \t+-5\r\n", (1, 9, "+-5", NUMBER)),
    ("seg 0 128", b"find 4\n", (1, 1, "find", OF_SEGMENTS)),
    ("seg 0 128", b"insert 0 1 2\n", (1, 12, "2", ONE_MORE)),
    ("seg 0 128", b"query 0 1 2 3\n", (1, 13, "3", NO_MORE)),
    ("seg 0 128", b"query 0 1 two\n", (1, 11, "two", NUMBER)),
    ("seg 0 128", b"clear now\n", (1, 7, "now", NO_MORE)),
    ("sweep", b"edge 0 0 1 1\n", (1, 1, "edge", "segment or point is wanted")),
    ("sweep", b"segment 0 5\n", (1, 11, "5", ONE_MORE)),
    ("sweep", b"point 0 0 0\n", (1, 11, "0", NO_MORE)),
    ("sweep", b"point 0 y\n", (1, 9, "y", NUMBER)),
    ("meetings", b"point 0 0\n", (1, 1, "point", "edge is wanted")),
    ("meetings", b"edge 0 0 1\n", (1, 10, "1", ONE_MORE)),
    ("meetings", b"edge 0 0 1 1 1\n", (1, 14, "1", NO_MORE)),
    ("meetings", b"edge 0 0 1 1e3\n", (1, 12, "1e3", NUMBER)),
    ("locate", b"segment 0 5 1\n", (1, 1, "segment", "edge or point is wanted")),
    ("locate", b"edge 0 0 9 9\npoint 5\n", (2, 7, "5", ONE_MORE)),
    ("locate", b"point 5 1 2\n", (1, 11, "2", NO_MORE)),
    ("locate", b"edge 0 0 9 nine\n", (1, 12, "nine", NUMBER)),
    ("crossings", b"point 0 5\n", (1, 1, "point", "edge or range is wanted")),
    ("crossings", b"edge 0 0 9 9\nrange 5 1\n", (2, 9, "1", ONE_MORE)),
    ("crossings", b"range 5 1 2 3\n", (1, 13, "3", NO_MORE)),
    ("crossings", b"edge 0 0 9 nine\n", (1, 12, "nine", NUMBER)),
    ("snap", b"chain 0 0\n", (1, 1, "chain", "edge is wanted")),
    ("snap", b"edge\n", (1, 1, "edge", ONE_MORE)),
    ("snap", b"edge 1 2 3 4 5\n", (1, 14, "5", NO_MORE)),
    ("snap", b"edge 1 2 3 4,\n", (1, 12, "4,", NUMBER)),
    ("node", b"edge 1 2 3 4\nchain 0 0\n", (2, 1, "chain", "edge is wanted")),
    ("overlay union nonzero", b"ring 0 0\n", (1, 1, "ring", OF_RINGS)),
    ("overlay union nonzero", b"subject 0 0 6 0 6\n", (1, 17, "6", ONE_MORE)),
    ("overlay xor evenodd", b"subject 0 0\nclip 0 0 6 0 six 6\n", (2, 14, "six", NUMBER)),
    ("overlay", b"subject 0 0\nclip 3000000000 1\n", (2, 6, "3000000000", NUMBER)),
    ("offset grow nonzero", b"line 0 0\n", (1, 1, "line", OF_GROWTH)),
    ("offset shrink evenodd", b"subject 0 0\nshape 0 x\n", (2, 9, "x", NUMBER)),
    ("offset lines", b"subject 0 0\n", (1, 1, "subject", OF_PATHS)),
    ("offset lines", b"line 0 0 1\n", (1, 10, "1", ONE_MORE)),
    # What isn't printed is told by escapes, and a long word is cut.
    ("setlist", b"\xef\xbb\xbffind 4\n", (1, 1, "\\u{feff}find", OF_SETS)),
    ("setlist", b"find 4\x00\n", (1, 6, "4\\0", NUMBER)),
    ("setlist", b"find \x1b[1m\n", (1, 6, "\\u{1b}[1m", NUMBER)),
    ("setlist", b"find \xff\n", (1, 6, "\\xff", NUMBER)),
    ("setlist", b"find 4 \xc3\n", (1, 8, "\\xc3", NO_MORE)),
    ("setlist", b"find " + b"9" * 40 + b"\n", (1, 6, "9" * 40, NUMBER)),
    ("setlist", b"find " + b"9" * 41 + b"\n", (1, 6, "9" * 37 + "...", NUMBER)),
    ("setlist", b"x" * 1_000_000 + b"\n", (1, 1, "x" * 37 + "...", OF_SETS)),
    ("setlist", b"find" + b" " * 100_000 + b"y", (1, 100_005, "y", NUMBER)),
)

# Words behind an overlay's `--window`, and the one that is told with what is wanted.
IN_WINDOW = "overlay", "union", "nonzero", "--window"
WINDOWS = (
    ((), "--window", SIDES),
    (("0", "0", "4"), "--window", SIDES),
    (("x", "0", "4", "4"), "x", SIDE),
    (("0", "", "4", "4"), "", SIDE),
    (("0", "0", "2147483646", "4"), "2147483646", SIDE),
    (("0", "0", "4", "2147483648"), "2147483648", SIDE),
    (("-2147483647", "0", "4", "4"), "-2147483647", SIDE),
    (("0", "-2147483649", "4", "4"), "-2147483649", SIDE),
    (("0", "1", "0", "4"), "0", ABOVE),
    (("1", "1", "-7", "1"), "-7", ABOVE),
    (("0", "4", "4", "+4"), "+4", ABOVE),
    (("0", "0", "4", "4", "5"), "5", NO_MORE),
    (("0", "0", "0", "4", "--rule"), "--rule", NO_MORE),
)

# Arguments, and the one that is told with what is wanted.
ARGUMENTS = (
    ([""], "", MODE),
    (["overly"], "overly", MODE),
    (["Sweep"], "Sweep", MODE),
    (["--versions"], "--versions", MODE),
    (["key list"], "key list", MODE),
    (["k" * 100_000], "k" * 37 + "...", MODE),
    (["keylist", "extra"], "extra", NO_MORE),
    (["keylist", ""], "", NO_MORE),
    (["sweep", "-h"], "-h", NO_MORE),
    (["help", "me"], "me", NO_MORE),
    (["--version", "x"], "x", NO_MORE),
    (["seg"], "seg", ONE_MORE),
    (["seg", "0"], "0", ONE_MORE),
    (["seg", "zero"], "zero", NUMBER),
    (["seg", "0", "x"], "x", NUMBER),
    (["seg", "0", ""], "", NUMBER),
    (["seg", "0", "2147483648"], "2147483648", NUMBER),
    (["seg", "0", "30"], "30", GREATER),
    (["seg", "0", "128", "5"], "5", NO_MORE),
    (["overlay", "unon", "nonzero"], "unon", OPERATION),
    (["overlay", "", "nonzero"], "", OPERATION),
    (["overlay", "union"], "union", f"{RULE} behind it"),
    (["overlay", "union", "even"], "even", RULE),
    (["overlay", "union", "nonzero", "extra"], "extra", NO_MORE),
    (["overlay", "--operation"], "--operation", f"{OPERATION} behind it"),
    (["overlay", "--operation", "unon"], "unon", OPERATION),
    (["overlay", "--operation=unon"], "unon", OPERATION),
    (["overlay", "--operation=xor", "--rule"], "--rule", f"{RULE} behind it"),
    (["overlay", "--rule", "even"], "even", RULE),
    (["overlay", "--rule="], "", RULE),
    (["overlay", "--rules", "evenodd"], "--rules", CHOICE),
    (["overlay", "--rule", "evenodd", "union"], "union", CHOICE),
    (["overlay", "--help"], "--help", CHOICE),
    (["overlay", "--window", "0", "0", "4"], "--window", SIDES),
    (["overlay", "--window=0"], "--window=0", CHOICE),
    (["overlay", "--window", "0", "0", "4", "4", "5"], "5", CHOICE),
    (["overlay", "--rule=evenodd", "--window", "0", "4", "4", "-4"], "-4", ABOVE),
    (["offset"], "offset", f"{GROWTH} behind it"),
    (["offset", "grown"], "grown", GROWTH),
    (["offset", "nonzero", "grow"], "nonzero", GROWTH),
    (["offset", "grow"], "grow", f"{RULE} behind it"),
    (["offset", "shrink", "even"], "even", RULE),
    (["offset", "grow", "nonzero", "extra"], "extra", NO_MORE),
    (["offset", "lines", "nonzero"], "nonzero", NO_MORE),
    *(([*IN_WINDOW, *sides], word, wanted) for sides, word, wanted in WINDOWS),
)

# Options that stand for an operation and a rule, and what they make of a square and another one, which is said twice: so there
# is nothing of it by `evenodd`.
SQUARES = b"subject 0 0 2 0 2 2 0 2\nclip 1 0 3 0 3 2 1 2\nclip 1 0 3 0 3 2 1 2\n"
BOTH, FIRST, COMMON = b"polygon 0 0 3 0 3 2 0 2\n", b"polygon 0 0 2 0 2 2 0 2\n", b"polygon 1 0 2 0 2 2 1 2\n"
OPTIONS = (
    ("", BOTH),
    (" --operation union --rule nonzero", BOTH),
    (" --rule nonzero --operation union", BOTH),
    (" --operation=union --rule=nonzero", BOTH),
    (" --rule positive", BOTH),
    (" --rule evenodd", FIRST),
    (" --rule=evenodd --operation=xor", FIRST),
    (" --operation intersection --rule=evenodd", b""),
    (" --operation=intersection", COMMON),
    (" --operation=difference", b"polygon 0 0 1 0 1 2 0 2\n"),
    (" --operation xor --operation=union", BOTH),
    (" --rule evenodd --rule nonzero", BOTH),
    (" union nonzero --window 1 0 2 2", COMMON),
    (" --window 1 -7 2 +9", COMMON),
    (" --window 0 0 1 1 --rule=evenodd --window 0 0 4 4", FIRST),
    (" --operation difference --window -2147483646 -2147483646 2147483645 2147483645 --operation union", BOTH),
)

# Streams that fail, and what is told of them.
FAILURES = (
    ("a folder as input", redirected("< /"), "reading failed: Is a directory (os error 21)"),
    ("a closed input", redirected("<&-"), "reading failed: Bad file descriptor (os error 9)"),
    ("a full device as output", redirected("> /dev/full"), "writing failed: No space left on device (os error 28)"),
    ("a closed output", redirected(">&-"), "writing failed: Bad file descriptor (os error 9)"),
)


def told(said):
    """The line that tells this."""
    return f"itree: {said}\n".encode()


def faulty_lines():
    """Cases of faulty lines."""
    for mode, given, (number, column, word, wanted) in LINES:
        said = told(f"line {number}: column {column}: '{word}': {wanted}")
        yield Case(f"{mode}: {said}", mode.split(), given, Outcome(2, b"", said))


def faulty_arguments():
    """Cases of faulty arguments."""
    yield Case("no argument", [], b"", Outcome(2, b"", told(f"arguments: {MODE}")))
    for words, word, wanted in ARGUMENTS:
        said = told(f"arguments: '{word}': {wanted}")
        yield Case(f"{words}"[:80], words, b"nonsense\n", Outcome(2, b"", said))
    for words in [b"\xff"], ["keylist", b"\xff"], ["overlay", b"--rule=\xff"]:
        yield Case(f"{words}", words, b"", Outcome(2, b"", told("arguments: one is no text in UTF-8")))


def options():
    """Cases of an overlay's options."""
    for words, replies in OPTIONS:
        yield answered("by options", f"overlay{words}", SQUARES, replies)


def failures():
    """Cases of streams that fail, and of memory that is refused."""
    for name, how, said in FAILURES:
        yield Case(name, ["setlist"], b"find 4\n", Outcome(1, b"", told(said)), how)
    how = redirected("", "ulimit -v 32768;")
    yield Case("too little memory", ["setlist"], b"\n" * 40_000_000, Outcome(1, b"", MEMORY), how)


PARTS = faulty_lines, faulty_arguments, options, failures

"""Hostile text: odd bytes, line ends, white space and numbers, long lines, and where the first faulty line stands."""

from processes import answered, lines, refused

LEAST, GREATEST = -2147483648, 2147483647

# What gives no reply in any mode.
EMPTY = (
    ("an empty file", b""),
    ("a line feed", b"\n"),
    ("blank lines", b"\n" * 1000),
    ("a space without a line feed", b" "),
    ("white space of all kinds", b" \t\x0c\r\n\r\n\x0c\n\t \n"),
)

# A line of each mode with its reply, which a run of nothing else gives.
PLAIN = (
    ("keytree", b"less 0 -1 4", b"value -1\n"),
    ("keylist", b"leq 0 -1 4", b"value -1\n"),
    ("settree", b"find 4", b"none\n"),
    ("setlist", b"delete 4", b"absent\n"),
    ("seg 0 128", b"query 0 1 2", b"values\n"),
)

# How a sound line, LINE, may be written; what is put into its gaps; and how often it is said.
WRITTEN = (
    ("no last line feed", b"LINE", b" ", 1),
    ("a carriage return before the line feed", b"LINE\r\n", b" ", 1),
    ("a carriage return and no line feed", b"LINE\r", b" ", 1),
    ("tabs between words", b"\tLINE\t\n", b"\t", 1),
    ("form feeds between words", b"\x0cLINE\x0c\n", b"\x0c", 1),
    ("carriage returns between words", b"\rLINE\r\r\n", b"\r", 1),
    ("white space of all kinds between words", b" \t LINE \r\x0c\n", b" \t\x0c\r ", 1),
    ("blank lines around", b"\n \n\t\nLINE\n\r\n\n", b" ", 1),
    ("twice", b"LINE\nLINE\n", b" ", 2),
)

# What makes a line faulty, whatever the mode.
SPOILT = (
    ("a byte 0 at its end", b"LINE\x00\n"),
    ("a byte 0 before it", b"\x00LINE\n"),
    ("a byte 0 as a word", b"LINE \x00\n"),
    ("a byte beyond ASCII", b"LINE\xff\n"),
    ("a byte beyond ASCII after a space", b"LINE \xff\n"),
    ("a byte just beyond ASCII", b"\x80LINE\n"),
    ("a mark of the byte order", b"\xef\xbb\xbfLINE\n"),
    ("a space beyond ASCII", b"LINE\xc2\xa0\n"),
    ("a letter beyond ASCII", b"\xc3\xa9LINE\n"),
    ("a vertical tab", b"LINE\x0b\n"),
    ("the last byte of ASCII", b"LINE\x7f\n"),
    ("a carriage return for a line feed", b"LINE\rLINE\n"),
    ("a word too many", b"LINE 4\n"),
    ("a comment", b"LINE # a comment\n"),
    ("a comma", b"LINE,\n"),
    ("quotes", b'"LINE"\n'),
)

# Lines that are faulty in these modes.
FAULTY = (
    (
        ("keytree", "keylist"),
        (
            *("insert", "insert 0 10 0", "insert 0 10 0 0 0", "insert 0 10 0 x", "Insert 0 10 0 0", "inserts 0 10 0 0"),
            *("less", "less 0 -1", "less 0 -1 4 4", "less 0 - 4", "leq", "leq 0 -1", "leq 0 -1 4 4", "clear 0", "clea"),
            *("insert 4", "delete 4", "find 4", "before 4", "query 0 1 2", "segment 0 5 1", "point 0 0", "0", "value 3"),
        ),
    ),
    (
        ("settree", "setlist"),
        (
            *("insert", "insert 4 4", "delete", "delete 4 4", "find", "find 4 4", "before", "before 4 4", "find x"),
            *("FIND 4", "finds 4", "insert 0 10 0 0", "less 0 -1 4", "leq 0 -1 4", "clear", "query 0 1 2"),
            *("segment 0 5 1", "point 0 0", "4", "key 4"),
        ),
    ),
    (
        ("seg 0 128",),
        (
            *("insert", "insert 0 1 2", "insert 0 1 2 3 4", "query", "query 0 1", "query 0 1 2 3", "query 0 1 two"),
            *("clear 0", "Query 0 1 2", "find 4", "less 0 -1 4", "leq 0 -1 4", "insert 4", "delete 4", "before 4"),
            *("segment 0 5 1", "point 0 0", "seg 0 128", "values"),
        ),
    ),
)

# Words that are numbers, with their values.
NUMBERS = (
    ("the least number", b"-2147483648", LEAST),
    ("the greatest number", b"2147483647", GREATEST),
    ("a number with a plus", b"+5", 5),
    ("the greatest with a plus", b"+2147483647", GREATEST),
    ("zero with a minus", b"-0", 0),
    ("zero with a plus", b"+0", 0),
    ("leading zeros", b"007", 7),
    ("leading zeros after a minus", b"-0002147483648", LEAST),
)

# Words that are none.
NO_NUMBERS = (
    ("one above the greatest", b"2147483648"),
    ("one below the least", b"-2147483649"),
    ("twice the range", b"4294967296"),
    ("beyond 64 bits", b"18446744073709551616"),
    ("two signs", b"--5"),
    ("both signs", b"+-5"),
    ("a sign alone", b"-"),
    ("a plus alone", b"+"),
    ("a sign behind", b"5-"),
    ("a point behind", b"5."),
    ("a fraction", b"5.0"),
    ("an exponent", b"1e3"),
    ("base 16", b"0x5"),
    ("an underscore", b"1_000"),
    ("a comma", b"1,000"),
    ("a letter", b"five"),
    ("no number at all", b"nan"),
)

LONG = 10_000_000


def written(pattern, line, gap=b" "):
    """The line, written by the pattern."""
    return pattern.replace(b"LINE", line.replace(b" ", gap))


def plain_lines(rows=PLAIN):
    """Cases of sound lines that are oddly written, and of spoilt ones."""
    for mode, line, reply in rows:
        for name, pattern, gap, times in WRITTEN:
            yield answered(name, mode, written(pattern, line, gap), reply * times)
        for name, pattern in SPOILT:
            yield refused(name, mode, written(pattern, line), 1)
            yield refused(f"{name}, on line 3", mode, written(b"LINE\n\n" + pattern + b"LINE\n", line), 3)


def faulty_lines():
    """Cases of lines that are faulty in their mode, and sound or unknown in others."""
    for modes, texts in FAULTY:
        for mode in modes:
            for text in texts:
                yield refused(f"the line '{text}'", mode, lines(text), 1)


def numbers():
    """Cases of words that are read as numbers, or not."""
    for mode in "settree", "setlist":
        for name, word, number in NUMBERS:
            given = b"insert " + word + b"\nfind 2147483647\n"
            yield answered(name, mode, given, b"inserted\nkey %d\n" % number)
        for name, word in NO_NUMBERS:
            yield refused(name, mode, b"find 4\nfind " + word + b"\n", 2)
    for mode in "keytree", "keylist":
        for name, word, number in NUMBERS:
            given = b"insert 1 2147483647 " + word + b" -2147483648\nless " + word + b" 9 2\n"
            yield answered(name, mode, given, b"inserted\nvalue %d\n" % number)
        for name, word in NO_NUMBERS:
            yield refused(name, mode, b"less 0 " + word + b" 4\n", 1)
    for name, word, number in NUMBERS:
        given = b"insert 0 1 2147483647 " + word + b"\nquery 0 1 " + word + b"\n"
        yield answered(name, "seg 0 128", given, b"inserted\nvalues %d\n" % number)
    for name, word in NO_NUMBERS:
        yield refused(name, "seg 0 128", b"query 0 1 " + word + b"\n", 1)


def line_numbers(rows=PLAIN):
    """Cases of where the first faulty line stands."""
    for mode, line, _reply in rows:
        line += b"\n"
        for name, number, given in (
            ("a faulty line 1 of many", 1, b"nonsense\n" + line * 99_999),
            ("a faulty line 100,000", 100_000, line * 99_999 + b"nonsense\n"),
            ("a faulty line 100,000 without a line feed", 100_000, line * 99_999 + b"nonsense"),
            ("a faulty line 100,000 after blank ones", 100_000, b"\n" * 99_998 + line + b"nonsense\n" + line),
            ("a byte beyond ASCII on line 100,000", 100_000, b"\r\n" * 50_000 + line * 49_999 + b"\xff\n"),
            ("the first of two faulty lines", 3, line + b"\nnonsense\n\xff\n" + line),
        ):
            yield refused(name, mode, given, number)


def long_lines():
    """Cases of lines of ten million bytes, and of as many lines."""
    half = LONG // 2
    for name, mode, given, replies in (
        ("a long line of spaces", "setlist", b" " * LONG, b""),
        ("a command between many spaces", "setlist", b" " * half + b"find 4" + b" " * half + b"\n", b"none\n"),
        ("many tabs between words", "settree", b"find" + b"\t" * LONG + b"4\n", b"none\n"),
        ("many leading zeros", "settree", b"insert " + b"0" * LONG + b"7\nfind 9\n", b"inserted\nkey 7\n"),
        ("many zeros after a minus", "seg 0 128", b"query 0 1 -" + b"0" * LONG + b"7\n", b"values\n"),
        ("many line feeds", "keytree", b"\n" * LONG + b"less 0 -1 4\n", b"value -1\n"),
    ):
        yield answered(name, mode, given, replies)
    for name, mode, given, line in (
        ("many line feeds before a faulty line", "keytree", b"\n" * LONG + b"less\n", LONG + 1),
        ("a long word", "keylist", b"x" * LONG + b"\n", 1),
        ("a long word after a sound line", "seg 0 128", b"clear\n" + b"clear" * (LONG // 5) + b"\n", 2),
        ("a number of many digits", "setlist", b"find " + b"9" * LONG + b"\n", 1),
        ("many words", "keytree", b"less" + b" 1" * half + b"\n", 1),
        ("many bytes 0", "settree", b"\x00" * LONG, 1),
        ("many bytes beyond ASCII", "settree", b"\xff" * LONG, 1),
    ):
        yield refused(name, mode, given, line)


def empty_texts(rows=PLAIN):
    """Cases of text without a word."""
    for mode, _line, _reply in rows:
        for name, given in EMPTY:
            yield answered(name, mode, given, b"")


PARTS = empty_texts, plain_lines, faulty_lines, numbers, line_numbers, long_lines

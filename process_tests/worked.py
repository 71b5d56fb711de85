"""Worked examples of each mode, over a file as standard input and through a pipe."""

from processes import answered, by_pipe, dialogue, lines, refused

LEAST, GREATEST = -2147483648, 2147483647

FOUR = """
    insert 0 10 0 0 -> inserted
    insert 3 10 3 0 -> inserted
    insert 5 10 5 0 -> inserted
    insert 8 10 8 0 -> inserted
"""

# Names, and lines with their replies.
KEYS = (
    (
        "the stored run",
        """
        insert 0 10 0 0 -> inserted
        insert 3 10 3 0 -> inserted
        less 0 -1 4 -> value 3
        less 0 -1 0 -> value -1
    """,
    ),
    (
        "below a key, and at most a key",
        FOUR
        + """
        less 0 -1 4 -> value 3
        less 0 -1 0 -> value -1
        leq 0 -1 5 -> value 5
        leq 0 -1 7 -> value 5
    """,
    ),
    (
        "live at its expiration, and not later",
        FOUR
        + """
        insert 4 1 4 0 -> inserted
        less 0 -1 5 -> value 4
        less 1 -1 5 -> value 4
        less 2 -1 5 -> value 3
        leq 2 -1 5 -> value 5
    """,
    ),
    (
        "inserted at its expiration",
        FOUR
        + """
        insert 6 2 6 2 -> inserted
        less 2 -1 7 -> value 6
        less 3 -1 7 -> value 5
    """,
    ),
    (
        "inserted when it has expired",
        FOUR
        + """
        insert 6 2 6 3 -> inserted
        less 3 -1 7 -> value 5
        insert 6 9 7 3 -> inserted
        less 3 -1 7 -> value 7
    """,
    ),
    (
        "the equal moment",
        """
        insert 4 1 40 0 -> inserted

        insert 4 9 41 1 -> present
        less 1 -1 5 -> value 40
    """,
    ),
    (
        "a key again at its expiration",
        """
        insert 4 1 40 0 -> inserted
        insert 4 9 41 1 -> present
        less 1 -1 5 -> value 40
    """,
    ),
    (
        "a key again once it has expired",
        """
        insert 4 1 40 0 -> inserted
        insert 4 9 41 1 -> present
        insert 4 9 41 2 -> inserted
        less 2 -1 5 -> value 41
    """,
    ),
    (
        "a key again, one later than its expiration",
        """
        insert 5 3 5 0 -> inserted
        insert 5 9 5 2 -> present
        less 1 -1 6 -> late
        insert 5 9 50 3 -> present
        insert 5 9 50 4 -> inserted
        less 4 -1 6 -> value 50
    """,
    ),
    (
        "present, late and cleared",
        """
        insert 5 10 5 0 -> inserted
        insert 5 10 5 0 -> present
        less 3 -1 9 -> value 5
        less 2 -1 9 -> late
        insert 6 10 6 2 -> late
        clear -> cleared
        less 0 -1 9 -> value -1
    """,
    ),
    (
        "at most a key, late and cleared",
        """
        insert 5 10 5 0 -> inserted
        insert 5 10 6 0 -> present
        leq 3 -1 5 -> value 5
        less 2 -1 9 -> late
        clear -> cleared
        less 0 -1 9 -> value -1
    """,
    ),
    (
        "all expired",
        """
        insert 1 1 1 0 -> inserted
        insert 2 1 2 0 -> inserted
        insert 3 1 3 0 -> inserted
        insert 4 1 4 0 -> inserted
        insert 5 1 5 0 -> inserted
        insert 6 1 6 0 -> inserted
        insert 7 1 7 0 -> inserted
        less 1 -1 9 -> value 7
        less 2 -1 9 -> value -1
    """,
    ),
    (
        "an expired leaf that turns a tree",
        """
        insert 20 10 20 0 -> inserted
        insert 10 1 10 0 -> inserted
        insert 40 10 40 0 -> inserted
        insert 50 10 50 0 -> inserted
        insert 30 10 30 0 -> inserted
        insert 60 10 60 0 -> inserted
        insert 25 10 25 0 -> inserted
        less 2 -1 15 -> value -1
        leq 2 -1 20 -> value 20
        leq 2 -1 25 -> value 25
        leq 2 -1 30 -> value 30
        leq 2 -1 40 -> value 40
        leq 2 -1 50 -> value 50
        leq 2 -1 60 -> value 60
    """,
    ),
    (
        "expiration and time at the least number",
        f"""
        insert 1 {LEAST} 1 {LEAST} -> inserted
        less {LEAST} -1 2 -> value 1
        less {LEAST + 1} -1 2 -> value -1
    """,
    ),
    (
        "expiration and time at the greatest number",
        f"""
        insert 1 {GREATEST} 1 0 -> inserted
        less {GREATEST - 1} -1 2 -> value 1
        less {GREATEST} -1 2 -> value 1
    """,
    ),
)

# Replies of the original crate, to which each expiration is given as one more: there a key has expired at the equal moment.
SAMPLE = f"""
    insert 5 3 50 0 -> inserted
    insert 1 3 10 0 -> inserted
    insert 9 3 90 0 -> inserted
    less 0 -1 9 -> value 50
    insert 5 8 51 1 -> present
    insert 4 2 40 1 -> inserted

    less 1 -1 5 -> value 40
    less 2 -1 5 -> value 40
    insert 4 9 41 2 -> present
    less  2 -1   +5 -> value 40
    insert 5 8 52 3 -> present
    less 3 -7 5 -> value 10
    less 3 -7 4 -> value 10
    less 3 -7 10 -> value 90
    less 2 0 10 -> late
    insert 7 9 70 2 -> late
    insert 7 5 70 5 -> inserted
    less 5 0 8 -> value 70
    insert 7 9 71 5 -> present
    less 5 0 8 -> value 70
    insert {LEAST} {GREATEST} {LEAST} 5 -> inserted
    less 5 0 {LEAST} -> value 0
    less 5 0 {LEAST + 1} -> value {LEAST}
    insert {GREATEST} {GREATEST} {GREATEST} 5 -> inserted
    less 5 0 {GREATEST} -> value 70
    less 8 0 {GREATEST} -> value {LEAST}
    less 8 6 7 -> value {LEAST}
    insert 3 9 +30 8 -> inserted
    insert 3 10 31 8 -> present
    less 9 1 3 -> value {LEAST}
    less 9 1 4 -> value 30
    less 9 1 {GREATEST} -> value 30
    insert 3 10 32 9 -> present
    less 9 -0 4 -> value 30
    insert 0 9 -5 9 -> inserted
    less 9 1 1 -> value -5
    insert 0 007 -6 9 -> present
    less {GREATEST - 1} 1 {GREATEST} -> value {LEAST}
    insert 0 {GREATEST} 7 {GREATEST} -> inserted
    less {GREATEST} 1 {GREATEST} -> value 7
    less 9 1 4 -> late
    leq 9 -1 5 -> late
    leq 9 -1 0 -> late
    clear -> cleared
    leq 0 -7 100 -> value -7
    insert 3 4 30 0 -> inserted
    insert 6 9 60 0 -> inserted
    insert 8 2 80 1 -> inserted
    leq 1 -1 7 -> value 60
    leq 1 -1 8 -> value 80
    leq 2 -1 8 -> value 80
    less 3 -1 6 -> value 30
    leq 4 -1 5 -> value 30
    leq 3 -1 6 -> late
    insert 3 8 31 4 -> present
    leq 4 -1 3 -> value 30
    clear -> cleared
    less -5 -2 9 -> value -2
    insert -1 0 10 -5 -> inserted
    leq -5 -2 -1 -> value 10
    leq 0 -2 -1 -> value 10
"""

SETS = (
    (
        "each command",
        """
        insert 4 -> inserted
        insert 4 -> present
        find 5 -> key 4
        find 3 -> none
        before 4 -> none
        before 9 -> absent
        delete 4 -> deleted
        delete 4 -> absent
    """,
    ),
    (
        "numbers with a sign",
        """
        insert 4 -> inserted
        insert +4 -> present
        insert -1 -> inserted
        find 3 -> key -1
        before 4 -> key -1
        before -1 -> none
        delete 4 -> deleted
        before 4 -> absent
    """,
    ),
    (
        "the greatest at most a key, and the one before",
        """
        insert 1 -> inserted
        insert 4 -> inserted
        insert 8 -> inserted
        find 0 -> none
        find 5 -> key 4
        before 8 -> key 4
        before 4 -> key 1
        before 1 -> none
        delete 4 -> deleted
        find 5 -> key 1
        find 9 -> key 8
    """,
    ),
    (
        "the least deleted again and again",
        """
        insert 1 -> inserted
        insert 2 -> inserted
        insert 3 -> inserted
        insert 4 -> inserted
        insert 5 -> inserted
        before 1 -> none
        delete 1 -> deleted
        before 2 -> none
        delete 2 -> deleted
        before 3 -> none
        delete 3 -> deleted
        before 4 -> none
        delete 4 -> deleted
        before 5 -> none
        delete 5 -> deleted
        find 9 -> none
    """,
    ),
)

# The arguments besides.
SEGMENTS = (
    (
        "seg 0 128",
        "values in rising order, expired, late and outside",
        """
        insert 10 100 2 1 -> inserted
        insert 20 80 2 2 -> inserted
        query 15 90 2 -> values 1 2
        query 15 90 3 -> values
        query 15 90 2 -> late
        insert 0 129 5 3 -> outside
    """,
    ),
    (
        "seg 0 128",
        "one bucket, and the next",
        """
        insert 0 0 9 1 -> inserted
        query 7 7 0 -> values 1
        query 8 8 0 -> values
        insert 0 0 9 1 -> inserted
        query 7 7 0 -> values 1 1
    """,
    ),
    (
        "seg 0 128",
        "between two",
        """
        insert 10 20 9 1 -> inserted
        insert 80 100 9 2 -> inserted
        query 40 60 0 -> values
    """,
    ),
    (
        "seg 0 128",
        "across two",
        """
        insert 10 100 9 2 -> inserted
        insert 20 80 9 1 -> inserted
        query 15 90 0 -> values 1 2
    """,
    ),
    (
        "seg 0 128",
        "outside is decided before late",
        """
        insert 0 0 2 1 -> inserted
        query 0 0 2 -> values 1
        query 0 0 3 -> values
        query 0 0 2 -> late
        query 0 129 3 -> outside
        query 0 129 2 -> outside
    """,
    ),
    (
        "seg 0 31",
        "eight copies",
        """
        insert 1 30 9 1 -> inserted
        query 0 0 0 -> values
        query 31 31 0 -> values
        query 1 1 0 -> values 1
        query 0 31 0 -> values 1
    """,
    ),
    (
        "seg -10240 15360",
        "below zero",
        """
        insert -10240 10240 9 1 -> inserted
        query -10240 -10240 0 -> values 1
    """,
    ),
    (
        "seg 0 128",
        "an expiration at the least number",
        f"""
        insert 0 0 {LEAST} 1 -> inserted
        query 0 0 {LEAST} -> values 1
        query 0 0 {LEAST + 1} -> values
    """,
    ),
    (
        "seg 0 128",
        "what is outside sets no time",
        """
        query 0 0 3 -> values
        query 5 4 2 -> outside
        insert -1 0 9 1 -> outside
        query 0 0 2 -> late
        clear -> cleared
        query 0 0 2 -> values
    """,
    ),
    (
        "seg 0 128",
        "equal values, and those at both ends",
        """
        insert 0 128 9 5 -> inserted
        insert 0 0 9 -3 -> inserted
        insert 128 128 9 007 -> inserted
        insert 0 128 9 5 -> inserted
        query 0 128 9 -> values -3 5 5 7
        query 0 7 9 -> values -3 5 5
        clear -> cleared
        query 0 128 -1 -> values
    """,
    ),
    (
        "seg +0 0128",
        "what has expired is stored, and never found",
        """
        query 5 5 7 -> values
        insert 5 5 6 1 -> inserted
        insert 5 5 7 2 -> inserted
        query 5 5 7 -> values 2
        query 5 4 6 -> outside
        query -1 5 6 -> outside
        query 5 5 6 -> late
    """,
    ),
    (
        f"seg {LEAST} {GREATEST}",
        "all numbers, an expiration at the least one",
        f"""
        insert {LEAST} {GREATEST} {LEAST} {GREATEST} -> inserted
        insert {GREATEST} {GREATEST} {GREATEST} {LEAST} -> inserted
        query {GREATEST} {GREATEST} {LEAST} -> values {LEAST} {GREATEST}
        query {LEAST} {LEAST} {LEAST} -> values {GREATEST}
        query {GREATEST} {GREATEST} {GREATEST} -> values {LEAST}
    """,
    ),
    (
        f"seg {LEAST} {GREATEST}",
        "all numbers",
        f"""
        insert {LEAST} {GREATEST} {GREATEST} {GREATEST} -> inserted
        insert {GREATEST} {GREATEST} 0 {LEAST} -> inserted
        query {GREATEST} {GREATEST} {LEAST} -> values {LEAST} {GREATEST}
        query {LEAST} 0 {GREATEST} -> values {GREATEST}
    """,
    ),
)

KEY_MODES, SET_MODES = ("keytree", "keylist"), ("settree", "setlist")

# Texts with white space of other kinds, and their replies.
SPACED = (
    (KEY_MODES, b"\tinsert  +4 9\x0c-40 -0\r\nless 0 007 5", ("inserted", "value -40")),
    (
        KEY_MODES,
        b"insert 2147483647 2147483647 -2147483648 -2147483648\nless 2147483646 0 2147483647\n \nless 0 1 2",
        ("inserted", "value 0", "late"),
    ),
    (
        SET_MODES,
        b"\n find\t-2147483648\r\ndelete 0\n\ninsert 2147483647\ninsert -2147483648\nbefore 2147483647\nfind 007",
        ("none", "absent", "inserted", "inserted", "key -2147483648", "key -2147483648"),
    ),
    (("seg 0 128",), b"insert 0 0 9 -3\n\n insert\t128 128 9 007\nquery 0 128\x0c9", ("inserted", "inserted", "values -3 7")),
    (("sweep",), b"\tsegment  +0 9\x0c-1\r\n\npoint 007 -0", ("below -1",)),
    (("sweep",), b"point 0 0\n\npoint 2147483647 -2147483648", ("none", "none")),
    (("meetings",), b"\nedge 0 0 4 0\n \t\n\r\nedge 2 0 2 3\n\nedge 4 0 2 3", ("meets", "meets 2", "meets 2 5")),
    (("meetings",), b"\tedge  +0 007\x0c-1 -0\r\n", ("meets",)),
    (("locate",), b"\npoint 3 9\n\r\nedge 6 2 0 2\n \t", ("edge 4",)),
    (("locate",), b"\tedge  +0 007\x0c-1 -0\r\npoint -1 0\n", ("edge 1",)),
    (("locate",), b"point 0 0\n\npoint 2147483647 -2147483648", ("none", "none")),
)

# Texts with a faulty line, and its number.
FAULTY = (
    (KEY_MODES, "a missing number", b"insert 0 10 0 0\nless 0 -1\n", 2),
    (KEY_MODES, "a number too great", b"less 0 -1 4\n\nless 0 -1 2147483648\n", 3),
    (KEY_MODES, "a number too low", b"less 0 -2147483649 4\n", 1),
    (KEY_MODES, "two faulty lines behind blank ones", b"\n\nfind 4\nless\n", 3),
    (KEY_MODES, "a number after a command that has none", b"clear\nclear 0\n", 2),
    (KEY_MODES, "a fraction", b"less 0 1.5 4\n", 1),
    (KEY_MODES, "a letter, and no line feed", b"less 0 x 4", 1),
    (KEY_MODES, "a space beyond ASCII alone", b"less 0 -1 4\n\xc2\xa0\n", 2),
    (KEY_MODES, "a byte beyond ASCII before a number", b"less 0 -1 \xff4\n", 1),
    (KEY_MODES, "a vertical tab between words", b"less\x0b0 -1 4\n", 1),
    (SET_MODES, "a byte beyond ASCII for a number", b"find \xff\n", 1),
    (SET_MODES, "a line of keys that expire", b"insert 4\n\nless 0 -1 4\n", 3),
    (SET_MODES, "an insertion of a key that expires", b"insert 4 1 40 0\n", 1),
    (SET_MODES, "a capital", b"delete 4\nInsert 4\n", 2),
    (SET_MODES, "a number too great", b"find 2147483648\n", 1),
    (SET_MODES, "a number too low, and no line feed", b"before -2147483649", 1),
    (("seg 0 128",), "a number too many", b"insert 0 1 2 3\n\nquery 0 1 2 3\n", 3),
    (("seg 0 128",), "a number too many after a sound line", b"clear\nquery 0 1 2 3\n", 2),
    (("seg 0 128",), "a missing number", b"insert 0 1 2 3\n\nquery 0 1\n", 3),
    (("seg 0 128",), "a byte beyond ASCII for a number", b"query 0 1 \xff\n", 1),
    (("sweep",), "a missing number behind segments that overlap", b"segment 0 5 1\n\nsegment 5 9 1\npoint 0\n", 4),
    (("sweep",), "a byte beyond ASCII for a number", b"point 0 \xff\n", 1),
    (("sweep",), "a capital", b"point 0 0\nSegment 0 5 1\n", 2),
    (("meetings",), "a missing number", b"edge 0 0 1 1\n\nedge 0 0 1\nnonsense\n", 3),
    (("meetings",), "a byte beyond ASCII for a number", b"edge 0 0 1 \xff\n", 1),
    (("locate",), "a missing number behind edges that cross", b"edge 0 0 1 1\nedge 0 1 1 0\n\npoint 0\n", 4),
    (("locate",), "a byte beyond ASCII for a number", b"edge 0 0 1 \xff\n", 1),
    (("locate",), "a capital", b"point 0 0\nEdge 0 0 1 1\n", 2),
)


def rows():
    """Each mode with a name, and lines with their replies."""
    keys = (*KEYS, ("a sample, as the original crate replies", SAMPLE))
    for modes, table in ((KEY_MODES, keys), (SET_MODES, SETS)):
        for mode in modes:
            yield from ((mode, *row) for row in table)
    yield from SEGMENTS


def faulty():
    """Cases of texts with a faulty line."""
    for modes, name, given, line in FAULTY:
        for mode in modes:
            yield refused(name, mode, given, line)
            yield refused(f"{name}, through a pipe", mode, given, line, by_pipe)


def sound():
    """Cases of the rows."""
    for mode, name, said in rows():
        given, replies = dialogue(said)
        yield answered(name, mode, given, replies)
        yield answered(f"{name}, through a pipe", mode, given, replies, by_pipe)


def spaced():
    """Cases of texts with white space of other kinds."""
    for modes, given, replies in SPACED:
        for mode in modes:
            yield answered(f"white space in {given}", mode, given, lines(*replies))


PARTS = sound, faulty, spaced

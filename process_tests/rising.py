"""Texts of thousands of lines, longer than any one read takes, about numbers that rise."""


from processes import Case, Outcome, answered, lines

COUNT = 2000


def keys():
    """Each key lives from its own time on for ten more, so the one before it is live, and none that is 20 below it."""
    for key in range(COUNT):
        yield f"insert {key} {key + 10} {key + 5} {key}", "inserted"
        yield f"insert {key} {key + 10} 0 {key}", "present"
        yield f"less {key} -1 {key}", f"value {key + 4 if key else -1}"
        yield f"leq {key} -7 {key - 20}", "value -7"
        yield f"leq {key} -7 {key}", f"value {key + 5}"
        yield f"less {key - 1} -1 {key}", "late"


def set_of_keys():
    """Each key is the greatest so far, and then the least that is left."""
    for key in range(COUNT):
        yield f"insert {key}", "inserted"
        yield f"insert {key}", "present"
        yield f"find {key + 5}", f"key {key}"
        yield f"before {key}", f"key {key - 1}" if key else "none"
    for key in range(COUNT):
        yield f"before {key}", "none"
        yield f"delete {key}", "deleted"
        yield f"delete {key}", "absent"
        yield f"find {key}", "none"


def segments():
    """Each value lives at its own time alone."""
    for time in range(COUNT):
        place = time % 128
        yield f"insert {place} {place} {time} {time}", "inserted"
        yield f"query {place} 128 {time}", f"values {time}"
        yield f"query 0 128 {time - 1}", "late"


def sweep():
    """Each segment covers its own x alone."""
    for x in range(COUNT):
        yield f"point {x} {x - 1}", "none"
        yield f"segment {x} {x} {x}", None
        yield f"point {x} {x}", f"below {x}"


def meetings():
    """Each edge goes up from the first one, and touches no other."""
    yield "edge 0 7 3000 7", "meets"
    for x in range(COUNT):
        yield f"edge {x} 7 {x} 9", "meets 1"


def locate():
    """Each edge lies above those before it, and begins further left."""
    for height in range(COUNT):
        yield f"edge {-height} {height} 3000 {height}", None
        yield f"point 0 {height}", f"edge {2 * height + 1}"


MODES = (
    ("keytree", keys),
    ("keylist", keys),
    ("settree", set_of_keys),
    ("setlist", set_of_keys),
    ("seg 0 128", segments),
    ("sweep", sweep),
    ("meetings", meetings),
    ("locate", locate),
)


def rising():
    """Cases of each mode."""
    for mode, said in MODES:
        rows = list(said())
        replies = (reply for _, reply in rows if reply is not None)
        yield answered(f"{COUNT} numbers that rise", mode, lines(*(line for line, _ in rows)), lines(*replies))
    overlapping = lines(*(line for line, _ in sweep()), "segment 1000 1000 1000")
    told = Outcome(2, b"", b"itree: overlap %d\n" % (3 * COUNT + 1))
    yield Case("sweep: an overlap at the end of thousands of lines", ["sweep"], overlapping, told)


PARTS = (rising,)

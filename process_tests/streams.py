"""Streams that fail, are closed, full, slow or come to an end in the middle."""

import os
import tempfile
import threading
import time
from contextlib import suppress

from processes import (
    ARGUMENTS,
    MEMORY,
    READING,
    WRITING,
    Beginning,
    Case,
    Outcome,
    answered,
    dialogue,
    faulty_line,
    outcome_of,
    redirected,
)
from text import PLAIN

# More lines than one write of a pipe takes the replies of.
MANY = 100_000


def in_pieces(command, given):
    """Gives standard input through a pipe, three bytes at a time, each some time after the last."""
    read, write = os.pipe()

    def give():
        with open(write, "wb", buffering=0) as pipe, suppress(BrokenPipeError):
            for at in range(0, len(given), 3):
                pipe.write(given[at : at + 3])
                time.sleep(0.005)

    giver = threading.Thread(target=give)
    giver.start()
    try:
        return outcome_of(command, stdin=read)
    finally:
        os.close(read)
        giver.join()


def hung_up(command, given):
    """Gives standard input through a terminal whose other side goes after it: a read then fails."""
    terminal, other = os.openpty()
    os.write(other, given)
    os.close(other)
    try:
        return outcome_of(command, stdin=terminal)
    finally:
        os.close(terminal)


def not_yet(command, given):
    """Gives standard input through a pipe that doesn't wait and stays open: a read then fails."""
    read, write = os.pipe()
    os.set_blocking(read, False)
    os.write(write, given)
    try:
        return outcome_of(command, stdin=read)
    finally:
        os.close(read)
        os.close(write)


def to_nobody(command, given):
    """Runs over an output whose reader is gone."""
    read, write = os.pipe()
    os.close(read)
    try:
        return outcome_of(command, input=given, stdout=write)
    finally:
        os.close(write)


def to_nobody_ignoring(command, given):
    """Runs over an output whose reader is gone, by a parent that ignores the signal of a broken pipe."""
    return to_nobody(["sh", "-c", 'trap "" PIPE; exec "$@"', "sh", *command], given)


def to_full_pipe(command, given):
    """Runs over a pipe that doesn't wait and nobody reads from: it takes a part alone."""
    read, write = os.pipe()
    os.set_blocking(write, False)
    try:
        left = outcome_of(command, input=given, stdout=write)
    finally:
        os.close(write)
    with open(read, "rb") as pipe:
        return left._replace(output=pipe.read())


def to_reader_that_leaves(command, given):
    """Runs over a pipe whose reader takes a part and goes."""
    read, write = os.pipe()
    taken = []

    def take():
        taken.append(os.read(read, 1000))
        os.close(read)

    taker = threading.Thread(target=take)
    taker.start()
    try:
        left = outcome_of(command, input=given, stdout=write)
    finally:
        os.close(write)
        taker.join()
    return left._replace(output=taken[0])


def after_first_line(command, given):
    """Gives standard input as a file whose first line was read by somebody else."""
    with tempfile.TemporaryFile() as text:
        text.write(b"a line that is read before\n" + given)
        text.flush()
        os.lseek(text.fileno(), text.tell() - len(given), os.SEEK_SET)
        return outcome_of(command, stdin=text)


# Streams over which a sound run ends with status 1, writes nothing to the output, and tells this.
FAILING = (
    ("a folder as input", redirected("< /"), READING),
    ("a closed input", redirected("<&-"), READING),
    ("an input open for writing alone", redirected("0> /dev/null"), READING),
    ("an input that fails after a line", hung_up, READING),
    ("an input that has nothing yet after a line", not_yet, READING),
    ("a full device as output", redirected("> /dev/full"), WRITING),
    ("a closed output", redirected(">&-"), WRITING),
    ("an output open for reading alone", redirected("1< /dev/null"), WRITING),
    ("an output whose reader is gone", to_nobody, WRITING),
    ("an output whose reader is gone, the signal ignored", to_nobody_ignoring, WRITING),
    ("a closed input and a closed output", redirected("<&- >&-"), READING),
    ("all streams closed", redirected("<&- >&- 2>&-"), b""),
    ("a full device as output and as standard error", redirected("> /dev/full 2> /dev/full"), b""),
)

# Streams over which a sound run is served.
SERVED = (
    ("an input in pieces", in_pieces),
    ("an input whose first line was read before", after_first_line),
    ("a closed standard error", redirected("2>&-")),
    ("a full device as standard error", redirected("2> /dev/full")),
)

# Streams over which faults are told, or not, and the status stays.
FAULTY = (
    ("a closed output", redirected(">&-"), True),
    ("a full device as output", redirected("> /dev/full"), True),
    ("a closed standard error", redirected("2>&-"), False),
    ("a full device as standard error", redirected("2> /dev/full"), False),
    ("a closed output and standard error", redirected(">&- 2>&-"), False),
)


def of_mode(mode, line, reply):
    """Cases of one mode."""
    words = mode.split()
    for name, how, told in FAILING:
        yield Case(f"{mode}: {name}", words, line, Outcome(1, b"", told), how)
    for name, how in SERVED:
        yield answered(name, mode, line, reply, how)
    for name, how, is_told in FAULTY:
        told = Outcome(2, b"", faulty_line(2) if is_told else b"")
        yield Case(f"{mode}: a faulty line, {name}", words, line + b"no\n", told, how)
        told = Outcome(2, b"", ARGUMENTS if is_told else b"")
        yield Case(f"faulty arguments after {mode}: {name}", [*words, "no"], line, told, how)
    yield answered("an input of nothing", mode, line, b"", redirected("< /dev/null"))
    yield answered("no replies, a full device as output", mode, b"\n", b"", redirected("> /dev/full"))
    too_long, little = b"\n" * 40_000_000, redirected("", "ulimit -v 32768;")
    yield Case(f"{mode}: too little memory for the text", words, too_long, Outcome(1, b"", MEMORY), little)


def each_mode(rows=PLAIN):
    """Cases of all modes."""
    for mode, line, reply in rows:
        yield from of_mode(mode, line + b"\n", reply)


def no_argument():
    """The case of faulty arguments where there is no stream at all."""
    yield Case("no argument, all streams closed", [], b"", Outcome(2), redirected("<&- >&- 2>&-"))


def parts_taken():
    """Cases of streams that take or give a part at a time."""
    replies = Beginning(b"none\n" * MANY)
    for name, how in (
        ("a pipe that nobody reads as output", to_full_pipe),
        ("a reader that leaves", to_reader_that_leaves),
    ):
        yield Case(name, ["setlist"], b"find 4\n" * MANY, Outcome(1, replies, WRITING), how)
    given, replies = dialogue(
        """
        insert 1 -> inserted

        insert 22 -> inserted
        find 333 -> key 22
        delete 22 -> deleted
        find 22 -> key 1
    """
    )
    yield answered("some lines in pieces", "settree", given, replies, in_pieces)


PARTS = each_mode, no_argument, parts_taken

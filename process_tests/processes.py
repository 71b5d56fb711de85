"""Runs of the program as a process, and what is to come of each."""

import subprocess
import tempfile
from typing import Callable, NamedTuple, Sequence, Union

# A process that has not ended after so many seconds is stopped.
LIMIT = 30

# So many seconds are enough to decide the arguments.
SOON = 5

# What standard error is told where memory was refused.
MEMORY = b"itree: memory was refused\n"


class Line(bytes):
    """Stands for each line that begins with these bytes and goes on, if it does, behind a colon."""

    def __eq__(self, got):
        rest = got[len(self) :]
        return got.startswith(bytes(self)) and rest[:1] in (b":", b"\n") and rest.find(b"\n") == len(rest) - 1

    __hash__ = bytes.__hash__


# Faults that standard error is told. What they tell beyond this stands in messages.py.
ARGUMENTS = Line(b"itree: arguments")


def faulty_line(number):
    return Line(b"itree: line %d" % number)


# A failure that standard error is told.
READING, WRITING = Line(b"itree: reading failed"), Line(b"itree: writing failed")


class Beginning(bytes):
    """Stands for each text that is a beginning of this one, and not all of it."""

    def __eq__(self, got):
        return len(got) < len(self) and self.startswith(got)

    __hash__ = bytes.__hash__


class Outcome(NamedTuple):
    """What a process left: its status (a signal as text), standard output and standard error."""

    status: Union[int, str]
    output: bytes = b""
    faults: bytes = b""


def outcome_of(command, **streams):
    """Runs a command over the streams given; the others are pipes, and standard input is empty."""
    how = {"stdout": subprocess.PIPE, "stderr": subprocess.PIPE, "timeout": LIMIT, **streams}
    if not {"stdin", "input"} & {*how}:
        how["input"] = b""
    try:
        ran = subprocess.run(command, **how)
    except subprocess.TimeoutExpired:
        return Outcome(f"no end after {how['timeout']} seconds")
    status = ran.returncode if ran.returncode >= 0 else f"signal {-ran.returncode}"
    return Outcome(status, ran.stdout or b"", ran.stderr or b"")


def by_file(command, given, limit=LIMIT):
    """Gives standard input as a file."""
    with tempfile.TemporaryFile() as text:
        text.write(given)
        text.seek(0)
        return outcome_of(command, stdin=text, timeout=limit)


def by_pipe(command, given):
    """Gives standard input through a pipe."""
    return outcome_of(command, input=given)


def redirected(redirections, first="", limit=LIMIT):
    """Runs with these redirections of a shell, after its first command. Standard input is a file if they leave it."""

    def run(command, given):
        shell = ["sh", "-c", f'{first} exec "$@" {redirections}', "sh"]
        return by_file([*shell, *command], given, limit)

    return run


class Looked(NamedTuple):
    """Gives standard input as a file; in the place of the output stands what a look at it finds."""

    look: Callable[[bytes], bytes]

    def of(self, left):
        return left._replace(output=self.look(left.output)) if left.status == 0 else left

    def __call__(self, command, given):
        return self.of(by_file(command, given))


class Case(NamedTuple):
    """A run of the program, and what is to come of it."""

    name: str
    words: Sequence[Union[str, bytes]]
    given: bytes
    wanted: Outcome
    how: Callable[[list, bytes], Outcome] = by_file

    def got(self, program):
        return self.how([program, *self.words], self.given)


def answered(name, mode, given, replies, how=by_file):
    """The case that the lines given are answered by these replies."""
    return Case(f"{mode}: {name}", mode.split(), given, Outcome(0, replies), how)


def refused(name, mode, given, line, how=by_file):
    """The case that this line is the first faulty one."""
    return Case(f"{mode}: {name}", mode.split(), given, Outcome(2, b"", faulty_line(line)), how)


def dialogue(said):
    """The lines of a text, and the replies that stand behind some of them after an arrow."""
    rows = [row.strip().partition(" -> ") for row in said.strip().splitlines()]
    return lines(*(row[0] for row in rows)), lines(*(row[2] for row in rows if row[1]))


def lines(*texts):
    """The bytes of these lines."""
    return "".join(f"{text}\n" for text in texts).encode()

"""The command `python3 -m itree`, and `itree` where the package is installed: polygons of files of GeoJSON, or of lines.

It ends with 0; with 1 where memory is refused, or the answer isn't taken; with 2 where the words or a file are faulty.
`valid` ends with 0 where all features are valid, with 1 where some aren't, and with 2 where it can't tell, whatever the cause.
"""

from __future__ import annotations

import argparse
import contextlib
import os
import sys
from typing import Iterable, Iterator, List, NoReturn, Optional, Sequence

from . import _files, _judged, _lines, _offset, _tasks
from ._files import Answer
from ._library import version
from ._overlay import OPERATIONS, RULES, overlaid
from ._progress import Progress
from ._tasks import Task

FILES = """\
It is what its ending says: GeoJSON (.geojson, .json), lines of it (.geojsonl, .ndjson), well-known binary in hex, a shape in
each line (.wkb.hex, .wkbhex); with fiona GeoPackage (.gpkg, or FILE.gpkg:LAYER), Shapefile (.shp) and FlatGeobuf (.fgb); any
other is read as GeoJSON.
"""
DESCRIPTION = f"""\
Writes what is made of polygons, as GeoJSON to the standard output, or into files: a Feature with a MultiPolygon, whose
outer rings run counterclockwise and whose holes run clockwise. A FILE has polygons, all of which are taken together; - is
the standard input.
{FILES}\
Coordinates are first rounded to whole multiples of a unit, a power of two, which the answer's properties tell: so points
within a unit of an edge may be told wrongly, and no others.
"""
BESIDES = """\
But valid prints lines of text: see its --help.
"""
OF_VALID = f"""\
Prints a line for each feature of a FILE that isn't valid, as OGC and shapely have it, and nothing where all are: its number,
from 1 on, its id where it has one, and why it isn't, and where, as 3, id "b": Ring Self-intersection[10.5 20]. It ends with 0
where all are valid, with 1 where some aren't, and with 2 where it can't tell, as where the words or the file are faulty. A
FILE has polygons, and a point or a line is a fault; a feature without a geometry is valid. - is the standard input.
{FILES}\
Whole coordinates of 32 bits are taken as they are. Others are first rounded to whole multiples of a unit, a power of two:
features whose points lie within a unit of an edge may be told wrongly, and no others.
"""
LINES = """\
Without files, as in `overlay union nonzero`, it reads lines `subject X Y ..` and `clip X Y ..` from the standard input, each
of a ring of whole numbers, and prints lines `polygon X Y ..` and `hole X Y ..`, as the native program does.
"""


# Words that are of files alone.
_OF_FILES = "unit", "each", "by", "features", "digits", "output"
_MOST_DIGITS = 17
_VALID = "valid"


class Fault(Exception):
    """Why there is no answer: what is said, and the status to end with."""

    def __init__(self, said: str, status: int = 2) -> None:
        super().__init__(said)
        self.status = status


def main(words: Optional[List[str]] = None) -> int:
    """Runs the command by its words, those of the process where none are given, and gives the status to end with."""
    parser = _parser()
    if (sys.argv[1:] if words is None else words) == ["help"]:
        parser.print_help()
        return 0
    asked = parser.parse_args(words)
    _take_words(parser, asked)
    try:
        if asked.files.count("-") > 1:
            raise Fault("the standard input can be one file alone")
        if asked.command == _VALID:
            return _look(asked)
        if asked.files:
            _run(asked)
        else:
            _run_lines(asked)
    except Fault as fault:
        print(f"itree: {fault}", file=sys.stderr)
        # Of `valid` 1 says that some features aren't.
        return 2 if asked.command == _VALID else fault.status
    return 0


def _parser() -> argparse.ArgumentParser:
    is_script = os.path.basename(sys.argv[0]) == "itree"
    parser = argparse.ArgumentParser(prog="itree" if is_script else "python3 -m itree", description=DESCRIPTION + BESIDES)
    parser.add_argument("--version", "-V", action="version", version=f"itree {version}")
    commands = parser.add_subparsers(dest="command", metavar="COMMAND", required=True)
    overlay = commands.add_parser(
        "overlay", help="what an operation makes of two files, or of lines", description=DESCRIPTION + LINES
    )
    overlay.add_argument("--operation", choices=list(OPERATIONS), default="union", help="union where none is given")
    simplify = commands.add_parser("simplify", help="polygons of one file whose edges don't cross", description=DESCRIPTION)
    simplify.set_defaults(operation="union")
    said = "polygons of one file that grow by a distance, or shrink where it is below 0"
    offset = commands.add_parser(_tasks.OFFSET, help=said, description=DESCRIPTION)
    offset.set_defaults(operation=_tasks.OFFSET)
    said = "how far, in the units of the coordinates; as --distance=-5 below 0"
    offset.add_argument("--distance", type=float, required=True, help=said)
    said = "by how many sides a quarter of a circle is replaced; 16 where none are given"
    offset.add_argument("--quad-segs", type=int, default=16, metavar="N", help=said)
    said = "how much nearer than the distance a side of the circle may come, in place of --quad-segs"
    offset.add_argument("--tolerance", type=float, help=said)
    overlay.add_argument("files", nargs="*", metavar="FILE", help="two files; or OPERATION RULE; or nothing, for lines")
    simplify.add_argument("files", nargs=1, metavar="FILE")
    offset.add_argument("files", nargs=1, metavar="FILE")
    for command in overlay, simplify, offset:
        command.add_argument("--rule", choices=list(RULES), default="nonzero", help="nonzero where none is given")
        command.add_argument("--unit", type=float, help="a power of two; the finest that fits where none is given")
        _add_what_is_written(command)
    valid = commands.add_parser(_VALID, help="which features of one file aren't valid, and why", description=OF_VALID)
    valid.add_argument("files", nargs=1, metavar="FILE")
    valid.add_argument("--unit", type=float, help="a power of two; of each feature the finest that fits where none is given")
    return parser


def _add_what_is_written(command: argparse.ArgumentParser) -> None:
    one = command.add_mutually_exclusive_group()
    said = "each feature of the first file by itself, and all of the second; it keeps its properties, and "
    said += "goes where nothing is left"
    one.add_argument("--each", action="store_true", help=said)
    said = "the same of those features together that have one value in a field: one feature for each value"
    one.add_argument("--by", metavar="FIELD", help=said)
    command.add_argument("--features", action="store_true", help="each polygon is a feature of its own")
    said = "how many digits stand behind the point; without it as many as tell each number. Rounded so, edges may cross"
    command.add_argument("--digits", type=_digits, metavar="N", help=said)
    said = "a file to write into, as its ending says; .svg draws the files and the answer. May be given several times"
    command.add_argument("--output", "-o", action="append", default=[], metavar="FILE", help=said)


def _digits(text: str) -> int:
    number = int(text)
    if not 0 <= number <= _MOST_DIGITS:
        raise ValueError
    return number


def _take_words(parser: argparse.ArgumentParser, asked: argparse.Namespace) -> None:
    """Takes an operation and a rule that stand in place of files, as the native program has them."""
    files = asked.files
    if asked.command == "overlay" and len(files) == 2 and files[0] in OPERATIONS and files[1] in RULES:
        (asked.operation, asked.rule), asked.files = files, []
    elif asked.command == "overlay" and len(files) not in (0, 2):
        parser.error(f"{len(files)} files; two, or an operation and a rule, or none are wanted")
    if not asked.files:
        for word in _OF_FILES:
            if getattr(asked, word) not in (None, False, []):
                parser.error(f"--{word}: lines have whole numbers, and nothing else")


def _run_lines(asked: argparse.Namespace) -> None:
    """Answers the lines of the standard input."""
    try:
        subject, clip = _lines.read(sys.stdin.buffer.read())
        answer = overlaid([(subject, "subject"), (clip, "clip")], asked.operation, asked.rule, None)
    except _lines.LineFault as fault:
        raise Fault(str(fault)) from None
    except MemoryError:
        raise Fault("memory was refused", 1) from None
    except OSError as fault:
        raise Fault(f"the standard input: {fault.strerror}", 1) from None
    _print(_lines.written(answer))


def _run(asked: argparse.Namespace) -> None:
    """Answers files."""
    with _faults_of_files():
        task = _task(asked)
        for name in asked.output:
            _files.check_output(name)
        with Progress(sys.stderr) as progress:
            sources = [_files.read(name, place == 0 and task.has_members(), progress) for place, name in enumerate(asked.files)]
            answer = _tasks.done(task, sources, progress)
            _write(answer, asked.output, progress)


def _look(asked: argparse.Namespace) -> int:
    """Prints which features of a file aren't valid, and gives the status to end with."""
    with _faults_of_files(), Progress(sys.stderr) as progress:
        source = _files.read(asked.files[0], True, progress)
        lines = list(_judged.lines(source, asked.unit, progress))
    _print(lines)
    return 1 if lines else 0


@contextlib.contextmanager
def _faults_of_files() -> Iterator[None]:
    """Raises as Fault what is raised of files."""
    try:
        yield
    except (TypeError, ValueError, OverflowError) as fault:
        raise Fault(str(fault)) from None
    except MemoryError:
        raise Fault("memory was refused", 1) from None
    except OSError as fault:
        raise Fault(f"{'the standard input' if fault.filename is None else fault.filename}: {fault.strerror}") from None


def _task(asked: argparse.Namespace) -> Task:
    """What is asked for. Raises ValueError where a distance or a number of sides is none."""
    far, corners = 0.0, 0
    if asked.operation == _tasks.OFFSET:
        far = _offset.finite(asked.distance)
        corners = _offset.corners_by(far, asked.quad_segs, asked.tolerance)
    return Task(
        asked.operation,
        asked.rule,
        asked.unit,
        asked.each,
        asked.by,
        asked.digits,
        asked.features,
        any(_files.ending_of(name) == ".svg" for name in asked.output),
        far,
        corners,
    )


def _write(answer: Answer, names: Sequence[str], progress: Progress) -> None:
    try:
        _files.write(answer, names, progress)
    except BrokenPipeError:
        _close_output()
    except OSError as fault:
        raise Fault(f"{fault.filename or 'the standard output'}: {fault.strerror}", 1) from None


def _print(parts: Iterable[str]) -> None:
    try:
        sys.stdout.writelines(parts)
        sys.stdout.flush()
    except BrokenPipeError:
        _close_output()
    except OSError as fault:
        raise Fault(f"the standard output: {fault.strerror}", 1) from None


def _close_output() -> NoReturn:
    """Who reads has enough. What is left isn't written at the end, either."""
    os.dup2(os.open(os.devnull, os.O_WRONLY), sys.stdout.fileno())
    raise Fault("the standard output was closed", 1) from None


if __name__ == "__main__":
    sys.exit(main())

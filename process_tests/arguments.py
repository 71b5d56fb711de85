"""Faulty arguments and those that ask for help or for the version, which the program answers before it reads any input;
and sound ranges."""

import os

from documents import help_text, text_of
from processes import ARGUMENTS, SOON, WRITING, Case, Outcome, answered, by_file, outcome_of, redirected

FAULTY = (
    ("no argument", []),
    ("an empty one", [""]),
    ("an unknown mode", ["nonsense"]),
    ("a mode in capitals", ["KEYTREE"]),
    ("the beginning of a mode", ["key"]),
    ("the beginning of another mode", ["set"]),
    ("a mode in two words", ["set", "tree"]),
    ("a mode with a capital", ["Keylist"]),
    ("another mode with a capital", ["Sweep"]),
    ("a mode of a range with a capital", ["Seg", "0", "128"]),
    ("a mode and a letter", ["settrees"]),
    ("a mode and a space", ["keylist "]),
    ("another mode and a space", ["sweep "]),
    ("a line as one argument", ["seg 0 128"]),
    ("an unknown option", ["--versions"]),
    ("the version and a word", ["--version", "x"]),
    ("the version twice", ["-V", "-V"]),
    ("a mode and the version", ["sweep", "--version"]),
    ("the version without its dashes", ["version"]),
    ("the version by a small letter", ["-v"]),
    ("the version with a space", ["--version "]),
    ("a word of an earlier version", ["cross"]),
    ("an option before a mode", ["--", "keylist"]),
    ("help and a word", ["help", "x"]),
    ("help twice", ["--help", "--help"]),
    ("the word help twice", ["help", "help"]),
    ("a mode and help", ["keylist", "-h"]),
    ("a mode and help in full", ["keylist", "--help"]),
    ("help before a mode", ["-h", "keylist"]),
    ("help in capitals", ["HELP"]),
    ("help with a capital", ["Help"]),
    ("help with one dash", ["-help"]),
    ("help with a space", ["help "]),
    ("a short option in capitals", ["-H"]),
    ("a short option with two dashes", ["--h"]),
    ("one too many after keytree", ["keytree", "extra"]),
    ("one too many after keylist", ["keylist", "extra"]),
    ("a mode twice", ["keylist", "keylist"]),
    ("two modes", ["keytree", "keylist"]),
    ("a mode and an empty argument", ["keylist", ""]),
    ("a range after keylist", ["keylist", "0", "128"]),
    ("a range after sweep", ["sweep", "0", "128"]),
    ("one too many after settree", ["settree", "setlist"]),
    ("one too many after setlist", ["setlist", ""]),
    ("a number after setlist", ["setlist", "4"]),
    ("one too many after sweep", ["sweep", "extra"]),
    ("sweep twice", ["sweep", "sweep"]),
    ("one too many after meetings", ["meetings", "meetings"]),
    ("one too many after locate", ["locate", "-h"]),
    ("locate twice", ["locate", "locate"]),
    ("one too many after snap", ["snap", "extra"]),
    ("snap twice", ["snap", "snap"]),
    ("one too many after node", ["node", "snap"]),
    ("offset and a rule", ["offset", "nonzero"]),
    ("offset and a number", ["offset", "5"]),
    ("lines and a rule", ["offset", "lines", "nonzero"]),
    ("lines without offset", ["lines"]),
    ("overlay and an operation", ["overlay", "union"]),
    ("overlay and a rule", ["overlay", "nonzero"]),
    ("overlay and a range", ["overlay", "0", "128"]),
    ("a rule before an operation", ["overlay", "nonzero", "union"]),
    ("two operations", ["overlay", "union", "xor"]),
    ("two rules", ["overlay", "evenodd", "nonzero"]),
    ("one too many after a rule", ["overlay", "union", "nonzero", "extra"]),
    ("a window that isn't there", ["overlay", "union", "nonzero", "--window"]),
    ("a window of three numbers", ["overlay", "union", "nonzero", "--window", "0", "0", "4"]),
    ("a window of five numbers", ["overlay", "union", "nonzero", "--window", "0", "0", "4", "4", "4"]),
    ("a window without points", ["overlay", "union", "nonzero", "--window", "4", "0", "4", "4"]),
    ("a window upside down", ["overlay", "union", "nonzero", "--window", "0", "4", "4", "0"]),
    ("a window from end to end", ["overlay", "union", "nonzero", "--window", "-2147483648", "0", "2147483647", "4"]),
    ("a window before an operation", ["overlay", "--window", "0", "0", "4", "4", "union", "nonzero"]),
    ("a window without its dashes", ["overlay", "union", "nonzero", "window", "0", "0", "4", "4"]),
    ("a window of another mode", ["snap", "--window", "0", "0", "4", "4"]),
    ("overlay with a capital", ["Overlay", "union", "nonzero"]),
    ("an operation with a capital", ["overlay", "Union", "nonzero"]),
    ("a rule with capitals", ["overlay", "union", "NonZero"]),
    ("an operation and a letter", ["overlay", "unions", "nonzero"]),
    ("the beginning of an operation", ["overlay", "intersect", "nonzero"]),
    ("a rule with a dash", ["overlay", "union", "non-zero"]),
    ("the beginning of a rule", ["overlay", "union", "even"]),
    ("a rule and a space", ["overlay", "union", "evenodd "]),
    ("an empty operation", ["overlay", "", "evenodd"]),
    ("an empty rule", ["overlay", "difference", ""]),
    ("an operation in one word with its rule", ["overlay", "union nonzero"]),
    ("an operation and a rule without overlay", ["union", "nonzero"]),
    ("seg with an operation and a rule", ["seg", "union", "nonzero"]),
    ("seg alone", ["seg"]),
    ("seg and one number", ["seg", "0"]),
    ("seg and three numbers", ["seg", "0", "128", "256"]),
    ("a range one too short", ["seg", "0", "30"]),
    ("a range of one number", ["seg", "7", "7"]),
    ("a range that goes down", ["seg", "128", "0"]),
    ("a range that goes down by one", ["seg", "5", "4"]),
    ("a range that goes down from end to end", ["seg", "2147483647", "-2147483648"]),
    ("words for numbers", ["seg", "zero", "many"]),
    ("a letter for a number", ["seg", "0", "x"]),
    ("a number above the greatest", ["seg", "0", "2147483648"]),
    ("a number below the least", ["seg", "-2147483649", "0"]),
    ("an empty number", ["seg", "", "128"]),
    ("a space before a number", ["seg", " 0", "128"]),
    ("a line feed after a number", ["seg", "0", "128\n"]),
    ("a number with a point", ["seg", "0", "128."]),
    ("a number with two signs", ["seg", "--5", "128"]),
    ("a number in base 16", ["seg", "0x0", "128"]),
    ("text beyond ASCII", ["clé".encode()]),
    ("digits beyond ASCII", ["seg", "0", "\u0661\u0662\u0668".encode()]),
    ("an argument that is no text", [b"\xff"]),
    ("a mode and a byte that is no text", [b"keylist\xff"]),
    ("no text after a mode", ["keylist", b"\xff"]),
    ("no text for a number", ["seg", "0", b"\xc3"]),
    ("a long word", ["k" * 100_000]),
)

HELP = ("help", "--help", "-h")

VERSION = ("--version", "-V")

SOUND = (
    ("the least range", "seg 0 31"),
    ("a range from end to end", "seg -2147483648 2147483647"),
    ("a range below zero", "seg -63 -0"),
    ("a range with signs and zeros", "seg +0 000128"),
)


def from_silent_pipe(command, _given):
    """Gives standard input that has nothing yet and doesn't end."""
    read, write = os.pipe()
    try:
        return outcome_of(command, stdin=read, timeout=SOON)
    finally:
        os.close(read)
        os.close(write)


INPUTS = (
    ("a faulty line", by_file),
    ("an input that gives nothing and doesn't end", from_silent_pipe),
    ("an input that gives zeros and doesn't end", redirected("< /dev/zero", "ulimit -v 1000000;", SOON)),
    ("a folder as input", redirected("< /")),
    ("a closed input", redirected("<&-")),
)


def faulty_arguments():
    """Cases of faulty arguments, over each of the inputs."""
    for what, words in FAULTY:
        for over, how in INPUTS:
            yield Case(f"{what}, over {over}", words, b"nonsense\n", Outcome(2, b"", ARGUMENTS), how)


def asking_for(words, text):
    """Cases of words that ask for a text, over each of the inputs, and over outputs and faults that fail."""
    for word in words:
        for over, how in INPUTS:
            yield Case(f"{word}, over {over}", [word], b"nonsense\n", Outcome(0, text), how)
        for over, redirections in (("a full device", "> /dev/full"), ("nothing", ">&-")):
            yield Case(f"{word}, to {over}", [word], b"", Outcome(1, b"", WRITING), redirected(redirections))
        yield Case(f"{word}, a closed standard error", [word], b"", Outcome(0, text), redirected("2>&-"))


def asking_for_help():
    """Cases of help."""
    return asking_for(HELP, help_text())


def asking_for_the_version():
    """Cases of the version, which the file VERSION says."""
    return asking_for(VERSION, f"itree {text_of('VERSION')}".encode())


def sound_ranges():
    """Cases of ranges that have a layout."""
    for what, mode in SOUND:
        yield answered(what, mode, b"clear\n", b"cleared\n")


PARTS = faulty_arguments, asking_for_help, asking_for_the_version, sound_ranges

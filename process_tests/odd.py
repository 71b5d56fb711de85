"""Texts with odd bytes at odd places by chance, beside a plain reading of them."""

import re
from functools import partial
from random import Random

from models import Keys, Segments, Sets, replies
from processes import answered, lines, refused

LEAST, GREATEST = -2147483648, 2147483647

# So many texts of each mode.
TEXTS = 150
SEED = 5

ODD = b"\x00\t\t\n\n\n\x0b\x0c\r\r    ++--00118899.x\x7f\x80\xff"

# The commands of a kind, with how many numbers each has.
KEY_FORMS = {b"insert": 4, b"less": 3, b"leq": 3, b"clear": 0}
SET_FORMS = {b"insert": 1, b"delete": 1, b"find": 1, b"before": 1}
SEG_FORMS = {b"insert": 4, b"query": 3, b"clear": 0}

MODES = (
    ("keytree", KEY_FORMS, Keys),
    ("keylist", KEY_FORMS, Keys),
    ("settree", SET_FORMS, Sets),
    ("setlist", SET_FORMS, Sets),
    ("seg -4 60", SEG_FORMS, partial(Segments, -4, 60)),
)


def is_number(word):
    return re.fullmatch(rb"[+-]?[0-9]+", word) and LEAST <= int(word) <= GREATEST


def read(text, forms):
    """The lines of a text that say commands, with their numbers, or else the number of its first faulty line."""
    said = []
    for number, line in enumerate(text.split(b"\n"), 1):
        words = [word for word in re.split(rb"[ \t\x0c\r]+", line) if word]
        is_command = words and forms.get(words[0]) == len(words) - 1 and all(map(is_number, words[1:]))
        if not line.isascii() or words and not is_command:
            return number
        if words:
            said.append((number, " ".join(word.decode() for word in words)))
    return said


def sound_line(random, forms):
    """A command, about small numbers."""
    name = random.choice(list(forms))
    return b" ".join([name, *(b"%d" % random.randrange(-6, 9) for _ in range(forms[name]))])


def spoilt(random, text):
    """The text with an odd byte more, or in place of another, or with a byte less."""
    at, less = random.randrange(len(text) + 1), random.randrange(2)
    return text[:at] + bytes(random.choices(ODD, k=random.randrange(2))) + text[at + less :]


def texts_by_chance(forms):
    """Texts of commands, some of them spoilt."""
    random = Random(SEED)
    for _ in range(TEXTS):
        text = b"\n".join(sound_line(random, forms) for _ in range(random.randrange(1, 12)))
        for _ in range(random.randrange(4)):
            text = spoilt(random, text)
        yield text


def by_chance(mode, forms, model):
    """Cases of one mode."""
    for text in texts_by_chance(forms):
        said, name = read(text, forms), f"by chance, {text!r}"
        if isinstance(said, int):
            yield refused(name, mode, text, said)
        else:
            served = replies(model(), [line for _, line in said])
            yield answered(name, mode, text, lines(*served))


PARTS = tuple(partial(by_chance, *row) for row in MODES)

"""The mode `overlay` over long rings, where chords may stand for many edges: by chance, beside the winding numbers of these."""

from functools import partial
from random import Random

from drawings import said_by
from overlays import MODES, looked_at
from processes import lines
from waves import SCALES, crowded, long_drawing, long_looks
from windings import OPERATIONS

# So many drawings of each scale there are in each mode: 800 in all.
COUNT = 10


def case_of(name, mode, random, drawing):
    """The case that nothing is wrong with the reply to a drawing."""
    given = lines(*said_by(random, drawing))
    return looked_at(f"{mode}: {name}", mode, given, [(drawing, long_looks(random, drawing))])


def by_chance(mode, seed, count=COUNT):
    """Cases of drawings by chance in one mode."""
    for place, (where, scale) in enumerate(SCALES.items()):
        random = Random(seed * len(SCALES) + place)
        for turn in range(count):
            yield case_of(f"long rings {where}, {turn} of seed {seed}", mode, random, long_drawing(random, scale))


def crowds():
    """Cases of a long ring with many squares."""
    random = Random(len(MODES))
    for operation in OPERATIONS:
        yield case_of("a long ring and many squares", f"overlay {operation} nonzero", random, crowded(random))


def few():
    """Cases of two drawings of each scale."""
    return by_chance("overlay xor evenodd", len(MODES), 2)


PARTS = crowds, *(partial(by_chance, mode, seed) for seed, mode in enumerate(MODES))

"""What `valid` tells of a file: a line for each feature that isn't valid."""

from __future__ import annotations

import json
from typing import Any, Dict, Iterator, Optional

from . import _files
from ._files import Source
from ._grid import fitted
from ._progress import Progress
from ._valid import VALID, is_valid_reason


def lines(source: Source, unit: Optional[float], progress: Progress) -> Iterator[str]:
    """A line for each feature that isn't valid, which says why, and where, as `is_valid_reason` does.

    source: with what else its features have. unit: that of a grid for all of them; None: each has a grid of its own, the
    finest that fits, or none where it is whole.

    A feature without a geometry is valid. Points and lines are refused, as `is_valid_reason` refuses them: of most formats
    where the file is read, and else here.

    Raises ValueError of what is faulty, which names the feature, and MemoryError.
    """
    # They tell what is faulty in any feature, before a line is made.
    corners = _files.corners_of(source)
    grid = None if unit is None else fitted(corners, unit)
    (data, offsets, _), members = source.shapes, source.members or []
    progress.begin("looking at each", len(offsets) - 1)
    for place, (start, stop) in enumerate(zip(offsets, offsets[1:])):
        reason = is_valid_reason(data[start:stop], grid=grid)
        progress.add(1)
        if reason != VALID:
            yield f"{_called(place + 1, members[place])}: {reason}\n"


def _called(number: int, feature: Dict[str, Any]) -> str:
    """A feature's number, and its id where it has one: as JSON has it in ASCII, so that no id breaks a line."""
    own = feature.get("id")
    return f"{number}, id {json.dumps(own)}" if isinstance(own, (str, int, float)) else str(number)

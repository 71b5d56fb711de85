"""What the command makes of files: of all features together, of each feature, or of those that have one value in a field."""

from __future__ import annotations

import array
import itertools
import json
from typing import Any, Dict, Iterable, Iterator, List, NamedTuple, Optional, Sequence, Tuple

from . import _answers, _boxes, _each, _files, _grown, _near, _wkb
from ._answers import Lists
from ._each import Groups
from ._files import Answer, Part, Source
from ._offset import grid_around
from ._overlay import OPERATIONS, RULES
from ._progress import Progress
from ._shapes import NOTHING, HeldRings, held_rings

# Points of the groups that one call takes, which has to be as many as a large one has.
_AT_ONCE = 1 << 18
# Points of a clip from which on numpy is worth its loading.
_MANY = 5000
# What the command has besides the operations.
OFFSET = "offset"
# What is outside of the subject is of no account.
_WITHIN_SUBJECT = {"intersection", "difference"}


class Task(NamedTuple):
    """What is asked for.

    each: whether of each feature. by: the field by whose values features are taken together, or None.
    digits, is_apart: as those of an answer. is_drawn: whether the files are drawn, too. far, corners: of an offset how far, and
    how many corners the circle has.
    """

    operation: str
    rule: str
    unit: Optional[float]
    each: bool
    by: Optional[str]
    digits: Optional[int]
    is_apart: bool
    is_drawn: bool
    far: float = 0.0
    corners: int = 0

    def has_members(self) -> bool:
        """Whether what else features have is wanted of the subject."""
        return self.each or self.by is not None


def done(task: Task, sources: List[Source], progress: Progress) -> Answer:
    """What is made of a subject, and of a clip where there is one. The sources' shapes are let go.

    Raises ValueError of what is faulty, and MemoryError.
    """
    crs = _files.common_crs((it.crs, it.name) for it in sources)
    corners = array.array("d", itertools.chain.from_iterable(map(_files.corners_of, sources)))
    grid = grid_around(corners, task.far, task.unit)
    features = _grouped(task, sources[0])
    fields = _fields(task, sources[0])
    layers = [_wkb.read(it.shapes, grid.of_c(), grid) for it in sources]
    sources.clear()
    about = {"operation": task.operation, "rule": task.rule, "unit": grid.unit}
    if task.operation == OFFSET:
        about["distance"] = task.far
        parts = list(_offset(task, layers[0], round(abs(task.far) / grid.unit), features, about, progress))
    elif features is None:
        parts = [_of_all(task, layers, about, progress)]
    else:
        parts = list(_of_each(task, layers, features, progress))
    drawn = layers if task.is_drawn else []
    return Answer(parts, grid, crs, about, features is None, task.digits, task.is_apart, fields, drawn)


def _fields(task: Task, subject: Source) -> Optional[Dict[str, str]]:
    """The fields of the answer's features, where their types are known."""
    if subject.fields is None or not task.has_members():
        return None
    return {name: of for name, of in subject.fields.items() if task.each or name == task.by}


def _of_all(task: Task, layers: Sequence[Lists], about: Dict[str, Any], progress: Progress) -> Part:
    progress.begin(f"{task.operation} of {sum(it.polygon_count for it in layers)} shapes")
    held = [HeldRings(it.given(), it) for it in layers]
    subject, clip = held if len(held) == 2 else (held[0], NOTHING)
    polygons = _answers.polygons_of(subject, clip, RULES[task.rule], OPERATIONS[task.operation], 0)
    return Part(polygons, [0, polygons.polygon_count], [{} if task.is_apart else {"properties": about}])


def _offset(
    task: Task,
    layer: Lists,
    radius: int,
    features: Optional[Sequence[_Group]],
    about: Dict[str, Any],
    progress: Progress,
) -> Iterator[Part]:
    """The parts of an offset: one of all, or one for each feature of which something is left."""
    all_of_it = _Group(range(layer.polygon_count), {} if task.is_apart else {"properties": about})
    groups = [all_of_it] if features is None else features
    progress.begin("offset" if features is None else "offset of each", len(groups))
    signed = radius if task.far > 0 else -radius
    for group in groups:
        polygons = _grown.by_circle(_rings_of(layer, group.places), signed, task.corners, RULES[task.rule], 0)
        progress.add(1)
        if features is None or polygons.polygon_count:
            yield Part(polygons, [0, polygons.polygon_count], [group.members])


def _rings_of(layer: Lists, places: Sequence[int]) -> HeldRings:
    """The rings of the shapes at these places."""
    if len(places) == layer.polygon_count:
        return HeldRings(layer.given(), layer)
    numbers, shapes, rings = layer.numbers(), layer.polygon_offsets(), layer.ring_offsets()
    points, ends = array.array("i"), array.array("Q")
    for ring in itertools.chain.from_iterable(range(shapes[it], shapes[it + 1]) for it in places):
        points.extend(numbers[2 * rings[ring] : 2 * rings[ring + 1]])
        ends.append(len(points) // 2)
    return held_rings(points, ends)


class _Group(NamedTuple):
    """A feature of the answer: the places of the subject's features that it is made of, and what else it has."""

    places: Sequence[int]
    members: Dict[str, Any]


def _grouped(task: Task, subject: Source) -> Optional[List[_Group]]:
    """The features of the answer; None where it is one."""
    if not task.has_members():
        return None
    members = subject.members or []
    if task.by is None:
        return [_Group((place,), it) for place, it in enumerate(members)]
    _check_field(task.by, subject.name, members)
    groups: Dict[str, _Group] = {}
    for place, it in enumerate(members):
        value = (it.get("properties") or {}).get(task.by)
        key = json.dumps(value, sort_keys=True, default=str)
        group = groups.setdefault(key, _Group([], {"properties": {task.by: value}}))
        group.places.append(place)  # type: ignore[attr-defined]
    return list(groups.values())


def _check_field(field: str, name: str, members: Iterable[Dict[str, Any]]) -> None:
    known: Dict[str, None] = {}
    for it in members:
        known.update(dict.fromkeys(it.get("properties") or {}))
    if field not in known:
        has = f"the fields are {', '.join(known)}" if known else "there are no fields"
        raise ValueError(f"{name}: no feature has the field {field}; {has}")


def _of_each(task: Task, layers: Sequence[Lists], features: Sequence[_Group], progress: Progress) -> Iterator[Part]:
    """The parts of the answer, in which no feature is without polygons."""
    progress.begin(f"{task.operation} of each", len(features))
    subject = layers[0]
    clip, clips_of = _clips_of(task, subject, _each_ring(layers[1] if len(layers) == 2 else _NOTHING), features)
    sizes = _sizes(subject), _sizes(clip)
    start = points = 0
    groups: List[Tuple[Sequence[int], Sequence[int]]] = []
    for place, (feature, clips) in enumerate(zip(features, clips_of)):
        groups.append((feature.places, clips))
        points += sum(map(sizes[0].__getitem__, feature.places)) + sum(map(sizes[1].__getitem__, clips))
        if points >= _AT_ONCE or place == len(features) - 1:
            yield _part(task, (subject, clip), groups, features[start : place + 1])
            progress.add(len(groups))
            start, points, groups = place + 1, 0, []


_NOTHING = _answers.lists_of(*map(memoryview, (array.array("i"), array.array("q", [0]), array.array("q", [0]))))


def _each_ring(lists: Lists) -> Lists:
    """The same rings, each a shape: a group takes those alone that it is near to."""
    shapes = array.array("q", range(lists.ring_count + 1))
    return lists._replace(owner=(lists, shapes), polygons=shapes.buffer_info()[0], polygon_count=lists.ring_count)


def _sizes(lists: Lists) -> List[int]:
    """How many points each shape has."""
    rings, shapes = lists.ring_offsets(), lists.polygon_offsets().tolist()
    ends = [rings[it] for it in shapes]
    return list(map(int.__sub__, ends[1:], ends))


def _clips_of(task: Task, subject: Lists, clip: Lists, features: Sequence[_Group]) -> Tuple[Lists, Iterator[Sequence[int]]]:
    """The rings of the clip, and those that may concern each feature."""
    if task.operation not in _WITHIN_SUBJECT:
        return clip, itertools.repeat(range(clip.polygon_count), len(features))
    pairs = _boxes.in_order(_boxes.pairs_of_boxes((subject, clip), 0))
    numpy = _files.numpy() if task.by is None and clip.point_count >= _MANY else None
    if numpy is not None and len(pairs):
        # Of a large ring that part alone is taken which lies near the feature.
        rows = numpy.asarray(pairs).astype("int64").reshape(-1, 2)
        clip, places = _near.near(clip, rows[:, 1], subject, rows[:, 0])
        return clip, _near_features(zip(rows[:, 0].tolist(), places.tolist()), features)
    return clip, _near_features(_answers.two_by_two(pairs), features)


def _near_features(pairs: Iterable[Tuple[int, int]], features: Sequence[_Group]) -> Iterator[Sequence[int]]:
    near: Dict[int, List[int]] = {}
    for place, ring in pairs:
        near.setdefault(place, []).append(ring)
    for feature in features:
        found = [near.get(place, ()) for place in feature.places]
        yield found[0] if len(found) == 1 else list(dict.fromkeys(itertools.chain.from_iterable(found)))


def _part(
    task: Task,
    layers: Tuple[Lists, Lists],
    groups: Sequence[Tuple[Sequence[int], Sequence[int]]],
    features: Sequence[_Group],
) -> Part:
    of_c = _groups([it[0] for it in groups]), _groups([it[1] for it in groups])
    polygons, offsets = _each.overlaid(layers, of_c, RULES[task.rule], OPERATIONS[task.operation], 0)
    bounds = offsets.tolist()
    kept = [place for place, (start, stop) in enumerate(zip(bounds, bounds[1:])) if start < stop]
    return Part(polygons, [0, *(bounds[it + 1] for it in kept)], [features[it].members for it in kept])


def _groups(places: Sequence[Sequence[int]]) -> Groups:
    ends = array.array("Q", itertools.accumulate(map(len, places)))
    return Groups(array.array("Q", itertools.chain.from_iterable(places)), ends)

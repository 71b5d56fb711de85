"""Plain models of the modes: each answers lines with replies, by sorted lists."""

from bisect import bisect_left, bisect_right, insort
from heapq import heappop, heappush


class Keys:
    """Keys that expire: the live ones in order, with their values and ends."""

    def __init__(self):
        self.clear()

    def clear(self):
        self.keys, self.values, self.ends, self.last = [], {}, [], None
        return "cleared"

    def is_late(self, time):
        """Whether the time is before the last one; else it is the last one, and what has expired goes."""
        if self.last is not None and time < self.last:
            return True
        self.last = time
        while self.ends and self.ends[0][0] < time:
            key = heappop(self.ends)[1]
            del self.keys[bisect_left(self.keys, key)], self.values[key]
        return False

    def insert(self, key, expiration, value, time):
        if self.is_late(time):
            return "late"
        if key in self.values:
            return "present"
        if expiration >= time:
            insort(self.keys, key)
            self.values[key] = value
            heappush(self.ends, (expiration, key))
        return "inserted"

    def value_before(self, place, default):
        return f"value {self.values[self.keys[place - 1]] if place else default}"

    def less(self, time, default, key):
        return "late" if self.is_late(time) else self.value_before(bisect_left(self.keys, key), default)

    def leq(self, time, default, key):
        return "late" if self.is_late(time) else self.value_before(bisect_right(self.keys, key), default)


class Sets:
    """An ordered set: its keys in order."""

    def __init__(self):
        self.keys = []

    def place_of(self, key):
        """Where the key stands, or would stand, and whether it is there."""
        place = bisect_left(self.keys, key)
        return place, place < len(self.keys) and self.keys[place] == key

    def key_before(self, place):
        return f"key {self.keys[place - 1]}" if place else "none"

    def insert(self, key):
        place, is_there = self.place_of(key)
        if is_there:
            return "present"
        self.keys.insert(place, key)
        return "inserted"

    def delete(self, key):
        place, is_there = self.place_of(key)
        if not is_there:
            return "absent"
        del self.keys[place]
        return "deleted"

    def find(self, key):
        return self.key_before(bisect_right(self.keys, key))

    def before(self, key):
        place, is_there = self.place_of(key)
        return self.key_before(place) if is_there else "absent"


class Segments:
    """Segments by the buckets of their ranges: all that may still be live."""

    def __init__(self, start, end):
        self.start, self.end, self.width = start, end, 1
        while end - start >= 32 * self.width:
            self.width *= 2
        self.clear()

    def clear(self):
        self.members, self.last = [], None
        return "cleared"

    def is_outside(self, low, high):
        return not self.start <= low <= high <= self.end

    def buckets(self, low, high):
        return (low - self.start) // self.width, (high - self.start) // self.width

    def insert(self, low, high, expiration, value):
        if self.is_outside(low, high):
            return "outside"
        self.members.append((*self.buckets(low, high), expiration, value))
        return "inserted"

    def query(self, low, high, time):
        if self.is_outside(low, high):
            return "outside"
        if self.last is not None and time < self.last:
            return "late"
        self.last = time
        first, last = self.buckets(low, high)
        self.members = [member for member in self.members if member[2] >= time]
        found = sorted(value for low, high, _, value in self.members if low <= last and first <= high)
        return " ".join(["values", *map(str, found)])


def replies(model, texts):
    """The model's replies to the lines, in order."""
    served = []
    for text in texts:
        name, *words = text.split()
        served.append(getattr(model, name)(*map(int, words)))
    return served


def colliding(segments):
    """Where the first segment by its left end stands that has its height and a place in common with an earlier one."""
    ends = {}
    for left, place in sorted((segment[0], place) for place, segment in enumerate(segments)):
        _, right, height = segments[place]
        if left > right:
            continue
        if left <= ends.get(height, left - 1):
            return place
        ends[height] = right
    return None


def heights_below(segments, points):
    """For each point the greatest height at most its own of the segments over its place, or None."""
    events = [(left, 0, height) for left, right, height in segments if left <= right]
    events += [(right, 2, height) for left, right, height in segments if left <= right]
    events += [(x, 1, place) for place, (x, _) in enumerate(points)]
    heights, found = [], [None] * len(points)
    for _, kind, what in sorted(events):
        if kind == 0:
            insort(heights, what)
        elif kind == 2:
            del heights[bisect_left(heights, what)]
        else:
            place = bisect_right(heights, points[what][1])
            found[what] = heights[place - 1] if place else None
    return found

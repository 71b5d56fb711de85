"""What bench/growth.cpp measures, as a table and as a plot: how the seconds and the points found grow where n doubles."""

import math

import plot


def milliseconds(seconds):
    return f"{seconds * 1000:,.0f}" if seconds >= 0.1 else f"{seconds * 1000:.3g}"


def steps(numbers):
    """Each number by the one before; nothing where that is 0."""
    return " ".join(f"{one / before:.1f}" if before else "–" for before, one in zip(numbers, numbers[1:]))


def rows_of(lines):
    """The edges, the seconds, the points of the answer and the MB of each shape, by its name."""
    rows = {}
    for workload, edges, _, *numbers in lines:
        rows.setdefault(workload.partition(": ")[2], []).append((edges, *numbers))
    return {name: tuple(zip(*sorted(found))) for name, found in rows.items()}


def table(lines):
    """A row for each shape: edges, milliseconds, points of the answer and MB, of the first size and of the last one; and each
    step's milliseconds and points by those before."""
    heads = ["", "edges", "ms", "points", "MB", "ms, each by the one before", "points, each by the one before"]
    told = ["| " + " | ".join(heads) + " |", "| --- " * len(heads) + "|"]
    for name, (edges, seconds, points, megabytes) in rows_of(lines).items():
        cells = [name, f"{edges[0]:,} to {edges[-1]:,}", f"{milliseconds(seconds[0])} to {milliseconds(seconds[-1])}"]
        cells += [f"{points[0]:,.0f} to {points[-1]:,.0f}", f"{megabytes[0]:.3g} to {megabytes[-1]:,.0f}"]
        told.append("| " + " | ".join([*cells, steps(seconds), steps(points)]) + " |")
    return "\n".join(told) + "\n"


def short(name):
    """What a shape is called where there is little room."""
    return name.partition(":")[0].removeprefix("n ").replace(" n times", "").replace(" of n edges", "")


def line_of(rows):
    """Points of a line n log n, in the midst of where the shapes begin."""
    begun = [math.log(seconds[0] / (edges[0] * math.log(edges[0]))) for edges, seconds, *_ in rows]
    factor = math.exp(sum(begun) / len(begun))
    least, most = min(edges[0] for edges, *_ in rows), max(edges[-1] for edges, *_ in rows)
    sizes = [least * (most / least) ** (part / 10) for part in range(11)]
    return [(size, "n log n", factor * size * math.log(size)) for size in sizes]


def drawn(lines):
    """An SVG: the seconds of each shape over its edges, and a line n log n."""
    rows = rows_of(lines)
    points = [(n, short(name), time) for name, (edges, seconds, *_) in rows.items() for n, time in zip(edges, seconds)]
    title = "Overlays of shapes whose edges double"
    return plot.drawn(title, points + line_of(rows.values()), across_name="edges", plain=("n log n",))

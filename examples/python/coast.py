"""Which of the world's coastlines meet, though they should not: as text, and drawn as SVG.

usage: python3 coast.py FILE.svg

It reads GSHHG in low resolution (Debian: gmt-gshhg-low, netcdf-bin). There a coastline lies in many edges, of which
each meets the next one at the end that they share. Two that meet elsewhere are told: the coastlines cross, or touch.
"""

import array
import sys

import gshhg
import itree

ICE_AND_GROUND = 6  # The second of the two shores of Antarctica.
SCALE = 1 / 2000  # Pixels of a unit.


def edges_of(chains):
    """The edges of all chains, and for each edge the coastline that it is of."""
    numbers, owners = array.array("i"), []
    for chain in chains:
        edges = chain.edges()
        owners.extend([chain.polygon] * len(edges))
        for edge in edges:
            numbers.extend(edge)
    return numbers, owners


def faulty_meetings(numbers):
    """The pairs of edges that meet and share no end."""

    def ends(place):
        return {tuple(numbers[4 * place : 4 * place + 2]), tuple(numbers[4 * place + 2 : 4 * place + 4])}

    return sorted((i, j) for i, j in itree.meetings(numbers) if not ends(i) & ends(j))


def tell(pairs, owners):
    """Prints which coastlines meet, by their numbers in GSHHG."""
    met = sorted({tuple(sorted((owners[i], owners[j]))) for i, j in pairs})
    print(f"{len(owners)} edges of {len(set(owners))} coastlines: {len(pairs)} pairs meet that share no end")
    for one, other in met:
        print(f"coastline {one} meets itself" if one == other else f"coastlines {one} and {other} meet")


def drawn(chains, numbers, pairs):
    """A picture of the coastlines, with a ring round each pair of edges that meet."""
    height = 18 * gshhg.SIDE
    lines = []
    for chain in chains:
        points = " ".join(f"{x * SCALE:.2f},{(height - y) * SCALE:.2f}" for x, y in chain.points)
        lines.append(f'<polyline points="{points}"/>')
    rings = [ring(numbers[4 * i], height - numbers[4 * i + 1]) for i, _ in pairs]
    size = f'viewBox="0 0 {2 * height * SCALE:.0f} {height * SCALE:.0f}"'
    style = 'fill="none" stroke="#246" stroke-width="0.5"'
    body = "\n".join([f"<g {style}>", *lines, "</g>", '<g fill="none" stroke="#c00">', *rings, "</g>"])
    return f'<svg xmlns="http://www.w3.org/2000/svg" {size}>\n{body}\n</svg>\n'


def ring(x, y):
    return f'<circle cx="{x * SCALE:.2f}" cy="{y * SCALE:.2f}" r="6"/>'


def main():
    if len(sys.argv) != 2:
        sys.exit(__doc__)
    chains = [it for it in gshhg.chains("l") if it.level != ICE_AND_GROUND]
    numbers, owners = edges_of(chains)
    pairs = faulty_meetings(numbers)
    tell(pairs, owners)
    with open(sys.argv[1], "w", encoding="utf-8") as file:
        file.write(drawn(chains, numbers, pairs))


if __name__ == "__main__":
    main()

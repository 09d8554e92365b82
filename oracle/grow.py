#!/usr/bin/env python3
"""The pieces of n cells that hang together by faces, grown cell by cell: each is one of
n - 1 cells with a further cell that shares a face with it, and is kept once under the 24
turns. It walks no boxes and no fillings, and uses nothing of this project but the form of
its lines.

    grow.py N ...    for each N, from 1 on, what `catalogue` prints for so many cells
"""

import functools
import itertools
import sys

FACES = [(1, 0, 0), (-1, 0, 0), (0, 1, 0), (0, -1, 0), (0, 0, 1), (0, 0, -1)]


def turns():
    """The turns of a solid: which axis each axis comes from and which are reversed, an even
    number where the axes are turned round, or stay; an odd number where two are swapped."""
    for axes in itertools.permutations(range(3)):
        swaps = sum(one > other for one, other in itertools.combinations(axes, 2))
        for signs in itertools.product((1, -1), repeat=3):
            if (swaps + signs.count(-1)) % 2 == 0:
                yield axes, signs


TURNS = list(turns())


def turned(cells, turn):
    return [tuple(sign * cell[axis] for axis, sign in zip(*turn)) for cell in cells]


def grid_of(cells):
    """The sides of the smallest box round the cells, and its digits, x slowest."""
    low = [min(coordinates) for coordinates in zip(*cells)]
    high = [max(coordinates) for coordinates in zip(*cells)]
    ranges = [range(least, most + 1) for least, most in zip(low, high)]
    filled = set(cells)
    digits = "".join("01"[cell in filled] for cell in itertools.product(*ranges))
    return tuple(map(len, ranges)), digits


def cells_of(grid):
    sides, digits = grid
    places = itertools.product(*map(range, sides))
    return [cell for cell, digit in zip(places, digits) if digit == "1"]


def least(cells):
    """The least grid that a turn makes of the cells: by sides, then by digits."""
    return min(grid_of(turned(cells, turn)) for turn in TURNS)


def beside(cells):
    """The cells that share a face with one of these."""
    near = {tuple(map(sum, zip(cell, face))) for cell in cells for face in FACES}
    return near - set(cells)


@functools.lru_cache(maxsize=None)
def pieces(n):
    """The pieces of n cells, as grids, ascending."""
    if n == 1:
        return [grid_of([(0, 0, 0)])]
    smaller = map(cells_of, pieces(n - 1))
    return sorted({least(cells + [cell]) for cells in smaller for cell in beside(cells)})


def listing(n):
    grids = pieces(n)
    lines = ["piece\t1\t%d\t%d\t%d\t%s\n" % (*sides, digits) for sides, digits in grids]
    return "".join(lines) + "pieces\t%d\n" % len(grids)


def main():
    numbers = [int(word) for word in sys.argv[1:]]
    if not numbers or min(numbers) < 1:
        sys.exit(__doc__)
    for n in numbers:
        sys.stdout.write(listing(n))


if __name__ == "__main__":
    main()

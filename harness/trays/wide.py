"""wide.py 8 or wide.py 4 prints wide_8.tray or wide_4.tray: pieces whose few cells reach all six sides of their boxes, so that
preparation has much to turn and to try and the search little to do.
8: a board of 128 outer cells of an 8 by 8 by 8 box, alike under every turn of the box; its eight corners are one piece, the other 120
cells are ten pieces of twelve cells; five more pieces of twelve cells stay over.
4: two cubes of side 4 in opposite corners of an 8 by 8 by 8 box; four corners of each are one piece, two copies, the other 60
cells of each are six pieces of ten cells; three more pieces of ten cells stay over."""

import itertools
import sys

state = 1


def below(bound):
    """The next number of a fixed sequence, from 0 up to the bound."""
    global state
    state = (state * 6364136223846793005 + 1442695040888963407) % 2**64
    return (state >> 33) % bound


def shuffled(cells):
    cells = list(cells)
    for last in range(len(cells) - 1, 0, -1):
        other = below(last + 1)
        cells[last], cells[other] = cells[other], cells[last]
    return cells


def reaches(piece, side):
    """Whether no outer layer of the box is empty."""
    return all({0, side - 1} <= {cell[axis] for cell in piece} for axis in range(3))


def parts(cells, many, side):
    """The cells in parts of so many, each of which reaches every side."""
    while True:
        cells = shuffled(cells)
        found = [cells[start:start + many] for start in range(0, len(cells), many)]
        if all(reaches(part, side) for part in found):
            return found


def turns(cell):
    """A cell of the 8 by 8 by 8 box under its 24 turns."""
    for axes in itertools.permutations(range(3)):
        odd = axes in [(0, 2, 1), (1, 0, 2), (2, 1, 0)]
        for flips in itertools.product([False, True], repeat=3):
            if (sum(flips) % 2 == 1) == odd:
                yield tuple(7 - cell[axis] if flip else cell[axis] for axis, flip in zip(axes, flips))


def line(word, sides, cells):
    place = set(cells)
    digits = "".join("1" if cell in place else "0" for cell in itertools.product(*map(range, sides)))
    print(word, *sides, digits, sep="\t")


def wide_8():
    box = (8, 8, 8)
    corners = set(turns((0, 0, 0)))
    others = set()
    for cell in shuffled(itertools.product(range(8), repeat=3)):
        orbit = set(turns(cell))
        if len(others) < 120 and len(orbit) == 24 and {0, 7} & set(cell):
            others |= orbit
    others = sorted(others)
    line("board", box, corners | set(others))
    line("piece\t1", box, corners)
    for piece in parts(others, 12, 8) + parts(others, 12, 8)[:5]:
        line("piece\t1", box, piece)


def wide_4():
    box = (4, 4, 4)
    corners = {(0, 0, 0), (0, 3, 3), (3, 0, 3), (3, 3, 0)}
    cube = list(itertools.product(range(4), repeat=3))
    others = [cell for cell in cube if cell not in corners]
    far = [tuple(4 + place for place in cell) for cell in cube]
    line("board", (8, 8, 8), cube + far)
    line("piece\t2", box, corners)
    for piece in parts(others, 10, 4) + parts(others, 10, 4) + parts(others, 10, 4)[:3]:
        line("piece\t1", box, piece)


print("config", "fast", "turned", sep="\t")
wide_8() if sys.argv[1] == "8" else wide_4()

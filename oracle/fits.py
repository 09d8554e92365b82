#!/usr/bin/env python3
"""Cases of the fit test for the program crate `show_fits`, and what it is to print for them.

    fits.py cases > ../crates/show_fits/stdin      the cases of the table below, a line each
    fits.py answers > ../crates/show_fits/stdout   what is printed for them, made by hand
    fits.py PROGRAM SEED COUNT                     a built show_fits against the model

A case is a board, a grid, the number of the map that turns it and a cell of the board's
box, at which the origin of the turned grid lies. The answer says that each filled cell of
the turned grid lies on a filled board cell; or it names the last that does not, x slowest,
by the turned grid's own coordinates (where all do, and the origin reaches further than the
cell at which it lies, the origin). A line that is no case is answered `no case`. With a PROGRAM the model is first held to the table,
and then the program to the model on COUNT random cases; prints how many there were of each
answer, and last how many differences; exit status 1 if there are any.
"""

import collections
import random
import shlex
import subprocess
import sys

sys.dont_write_bytecode = True  # nothing is to appear beside the sources
import model
import replay

NO_CASE = "no case"
FITS = "fits"

# Board, grid, map, cell, and the answer, each as it is written in a line.
TABLE = [
    # of the cells 0 0 1 and 1 0 0, which are off the board, the second is the last, x slowest
    ("1 1 1 1", "2 1 2 1110", "0", "0 0 0", "stops at 1 0 0"),
    # the origin is 1 0 0; 1 0 1 lies on the board, and 0 0 1 before its corner
    ("1 1 2 11", "2 1 2 0111", "0", "0 0 0", "stops at 0 0 1"),
    # the same along y and along z, on a board whose scan order compares x first
    ("2 1 1 11", "2 2 1 0111", "0", "0 0 0", "stops at 1 0 0"),
    ("2 1 1 11", "2 1 2 0111", "0", "0 0 0", "stops at 1 0 0"),
    # the origin is 1 0 0 again; 0 0 1 falls before the corner, and 1 0 1 behind the end
    ("1 1 1 1", "2 1 2 0111", "0", "0 0 0", "stops at 1 0 1"),
    # a gap that is not at the far end: the last cell lies on the board
    ("1 1 3 101", "1 1 3 111", "0", "0 0 0", "stops at 0 0 1"),
    # beyond the box
    ("1 1 3 101", "1 1 2 11", "0", "0 0 2", "stops at 0 0 1"),
    # of two cells off the board the farther
    ("1 1 4 1001", "1 1 4 1111", "0", "0 0 0", "stops at 0 0 2"),
    ("1 2 2 1111", "1 2 2 1110", "0", "0 0 0", FITS),
    # the cell has the turned grid's coordinates: before the turn it is 2 0 0
    ("1 1 3 110", "3 1 1 111", "12", "0 0 0", "stops at 0 0 2"),
    # turned about x by half a turn, 2 1 2 1101: before the turn it is 1 0 0
    ("1 1 1 1", "2 1 2 1110", "1", "0 0 0", "stops at 1 0 1"),
    # an origin on a cell of the board's box that is not filled
    ("1 1 3 101", "1 1 1 1", "0", "0 0 1", "stops at 0 0 0"),
    # an empty layer in front: its one cell lies on the board, and the origin reaches too far
    ("1 1 1 1", "1 1 2 01", "0", "0 0 0", "stops at 0 0 1"),
    # no cell of the box; too few cells
    ("1 1 1 1", "1 1 1 1", "0", "0 0 1", NO_CASE),
    ("1 1 2 1", "1 1 1 1", "0", "0 0 0", NO_CASE),
]


def line_of(case):
    return "\t".join(" ".join(case).split()) + "\n"


# ------------------------------------------------------------- the model

def answer(line):
    fields = line.split()
    board, grid = (grid_of(fields[n:n + 4]) for n in (0, 4))
    number = int(fields[8])
    at = tuple(int(field) for field in fields[9:12])
    if board is None or grid is None or not inside(at, board[0]):
        return NO_CASE
    turns, mirrorings = replay.transforms()
    maps = turns + mirrorings
    stop = stop_of(board, turned(grid, maps[number if number < 48 else 0]), at)
    return FITS if stop is None else "stops at %d %d %d" % stop


def grid_of(fields):
    sides = tuple(int(side) for side in fields[:3])
    cells = tuple(int(cell == "1") for cell in fields[3])
    whole = max(sides) <= 8 and len(cells) == sides[0] * sides[1] * sides[2]
    return (sides, cells) if whole else None


def inside(cell, sides):
    return all(0 <= x < side for x, side in zip(cell, sides))


def turned(grid, transform):
    sides, _ = grid
    filled = {replay.mapped(sides, cell, transform) for cell in model.filled_cells(grid)}
    new_sides = tuple(sides[axis] for axis in transform[0])
    return new_sides, tuple(int(cell in filled) for cell in model.cells_of(new_sides))


def stop_of(board, grid, at):
    """The last filled cell of a grid, x slowest, that lies on no filled board cell with the
    grid's origin at a cell; where none does so, and the origin's own coordinates are larger
    than the cell's along some axis, the origin; and otherwise None. A grid without a filled
    cell has the origin 0 0 0."""
    filled = set(model.filled_cells(board))
    cells = model.filled_cells(grid)
    origin = min(cells, key=model.scan_key(board[0]), default=(0, 0, 0))
    for cell in reversed(cells):
        if tuple(a - o + u for a, o, u in zip(at, origin, cell)) not in filled:
            return cell
    reaches = all(o <= a for a, o in zip(at, origin))
    return None if reaches else origin


# ------------------------------------------------------------- random cases

def random_case(rng):
    most = rng.choice((2, 3, 3, 4, 8))
    board = random_grid(rng, rng.randint(1, most), rng.choice((0.5, 0.8, 0.95, 1)))
    grid = random_grid(rng, rng.randint(1, rng.choice((2, 3, most))), rng.choice((0.2, 0.5, 0.9, 1)))
    if rng.random() < 0.9 and model.filled_cells(grid):
        grid, _ = model.strip(grid)
    number = rng.choice((0, rng.randrange(24), rng.randrange(24), rng.randrange(48), rng.randrange(100)))
    at = tuple(rng.randrange(side + (rng.random() < 0.02)) for side in board[0])
    filled = model.filled_cells(board)
    if filled and rng.random() < 0.7:
        at = rng.choice(filled)
    return written(board), written(grid), str(number), "%d %d %d" % at


def random_grid(rng, most, density):
    sides = tuple(rng.randint(1, most) for _ in range(3))
    return sides, tuple(int(rng.random() < density) for _ in model.cells_of(sides))


def written(grid):
    return "%d %d %d " % grid[0] + "".join(map(str, grid[1]))


def compare(program, seed, count):
    for *case, expected in TABLE:
        assert answer(line_of(case)) == expected, (case, expected, answer(line_of(case)))
    rng = random.Random(seed)
    lines = [line_of(random_case(rng)) for _ in range(count)]
    ran = subprocess.run(shlex.split(program), input="".join(lines), stdout=subprocess.PIPE, text=True)
    printed = ran.stdout.splitlines()
    printed += ["nothing"] * (count - len(printed))
    kinds = collections.Counter()
    differences = int(ran.returncode != 0) + max(0, len(printed) - count)
    for line, said in zip(lines, printed):
        expected = answer(line)
        kinds[expected.split(" at ")[0]] += 1
        if said != expected:
            differences += 1
            print(f"{line}expected {expected}, printed {said}")
    print(", ".join(f"{kind} {number}" for kind, number in sorted(kinds.items())))
    print(f"{count} cases, {differences} differences")
    return differences


def main():
    if sys.argv[1:] == ["cases"]:
        print("".join(line_of(case) for *case, _ in TABLE), end="")
    elif sys.argv[1:] == ["answers"]:
        print("".join(expected + "\n" for *_, expected in TABLE), end="")
    elif len(sys.argv) == 4:
        sys.exit(1 if compare(sys.argv[1], int(sys.argv[2]), int(sys.argv[3])) else 0)
    else:
        sys.exit(__doc__)


if __name__ == "__main__":
    main()

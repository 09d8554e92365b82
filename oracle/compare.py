#!/usr/bin/env python3
"""Compares the original with the model on random trays, each under both engines
and the three identifications, and sorts every difference into a class. Trays
without a piece are judged by document 01's packing alone: the original panics on
each of them and is not asked, and the oracle's own list is held to the model's.
The original knows no woods: trays of one wood are compared with it, whichever wood
that is. Mixed trays are the model's, and its lists are held to what the original
finds with the woods left out, coloured in every way (`is_coloured_right`). The
original is run on the grids without their empty outer layers, and its answers are
put back into the lent box; the model's list of a tray with such layers is also held
to its own list of the tray without, put back here (`is_put_back`).

    compare.py SEED COUNT

Exit status 1 if a difference belongs to none of the known classes, if a case of
the stream does not say what the model prints, or misses what its corner is for.
"""

import collections
import os
import subprocess
import sys
import time

sys.dont_write_bytecode = True  # nothing is to appear beside the sources
import model

HERE = os.path.dirname(os.path.abspath(__file__))
RELEASE = os.path.join(HERE, "target", "release")
CONFIGS = [
    (engine, identified)
    for engine in ("fast", "knuth")
    for identified in ("none", "turned", "mirrored")
]

# The classes of docs/DIFFERENCES.md.
SPARE_HANDED = "1 panic: mirrored, an unused kind without mirror partner"
NO_COPIES_PANIC = "2 panic: knuth, a row of a kind without copies"
NO_COPIES_ORDER = "3 order: knuth, rows of a kind without copies counted"
UNEXPLAINED = "UNEXPLAINED"


# What the corners at a limit must come to, by the model's own count.
AT_LIMITS = {
    "pieces_16": ("pieces", 16),
    "refused_2_pieces_17": ("pieces", 17),
    "copies_128": ("copies", 128),
    "refused_8_copies_129": ("copies", 129),
    "filled_128": ("filled", 128),
    "refused_9_filled_129": ("filled", 129),
    "woods_pieces_16": ("pieces", 16),
    "refused_2_woods_17": ("pieces", 17),
    "woods_copies_128": ("copies", 128),
    "refused_8_woods_copies_129": ("copies", 129),
    "woods_placements_1024": ("placements", 1024),
    "woods_placements_1024_lent_again": ("placements", 1024),
    "refused_14_woods_placements_1025": ("placements", 1025),
    "woods_links_4096": ("links", 4096),
    "woods_links_4096_lent_again": ("links", 4096),
    "refused_15_woods_links_4097": ("links", 4097),
    "layers_copies_128": ("copies", 128),
    "refused_8_layers_copies_129": ("copies", 129),
    "layers_filled_128": ("filled", 128),
    "refused_9_layers_filled_129": ("filled", 129),
    "layers_placements_1024": ("placements", 1024),
    "layers_placements_1024_lent_again": ("placements", 1024),
    "refused_14_layers_placements_1025": ("placements", 1025),
    "refused_14_layers_that_fit_nowhere": ("placements", 1025),
    "layers_links_4096": ("links", 4096),
    "layers_links_4096_lent_again": ("links", 4096),
    "refused_15_layers_links_4097": ("links", 4097),
    "empty_box_filled_128": ("filled", 128),
    "refused_9_empty_box_filled_129": ("filled", 129),
    "placements_1024": ("placements", 1024),
    "refused_14_placements_1025": ("placements", 1025),
    "links_4096": ("links", 4096),
    "refused_15_links_4097": ("links", 4097),
    "file_of_16384_bytes": ("bytes", 16384),
    "malformed_one_byte_too_long": ("bytes", 16385),
}


def measure(what, tray):
    if what == "bytes":
        return len(tray)
    _, _, board, pieces = model.parse(tray)
    if what == "pieces":
        return len(pieces)
    if what == "copies":
        return sum(count for count, _, _ in pieces)
    if what == "woods":
        return len({wood for _, _, wood in pieces})
    if what == "filled":
        return sum(board[1])
    problem = model.Problem(board, pieces)
    return len(problem.placements) if what == "placements" else problem.links()


def cases(stream):
    """The stream's cases: name, tray, expected, kind."""
    while header := stream.readline():
        word, name, tray_bytes, expected_bytes, kind = header.rstrip(b"\n").split(b"\t")
        assert word == b"case"
        tray = stream.read(int(tray_bytes))
        yield name.decode(), tray, stream.read(int(expected_bytes)).decode(), kind.decode()


def run_original(tray, program="oracle", *words):
    run = subprocess.run(
        [os.path.join(RELEASE, program), *words], input=tray, stdout=subprocess.PIPE, timeout=60
    )
    return run.stdout.decode()


def is_well_formed(tray):
    try:
        model.parse(tray)
        return True
    except model.Malformed:
        return False


def under(tray, engine, identified):
    _, rest = tray.split(b"\n", 1)
    return b"config\t%s\t%s\n" % (engine.encode(), identified.encode()) + rest


def is_empty_box(tray):
    return is_well_formed(tray) and measure("pieces", tray) == 0


def is_mixed(tray):
    return is_well_formed(tray) and measure("woods", tray) > 1


def is_woods_corner_missed(name, tray):
    """Whether a corner of mixed trays has one wood, or a corner of one wood several."""
    if "woods" not in name or not is_well_formed(tray):
        return False
    is_of_one = name.startswith(("woods_one", "woods_zero"))
    return is_mixed(tray) == is_of_one and not name.startswith("woods_side_0")


# -- empty outer layers: by the first and the last filled layer of each axis

def stripped(cells):
    """The grid of some cells between these layers, and the cell where it begins."""
    low = tuple(min(cell[axis] for cell in cells) for axis in range(3))
    sides = tuple(max(cell[axis] for cell in cells) - low[axis] + 1 for axis in range(3))
    moved = {tuple(cell[axis] - low[axis] for axis in range(3)) for cell in cells}
    return (sides, tuple(int(cell in moved) for cell in model.cells_of(sides))), low


def set_down(cell, low):
    return tuple(at + by for at, by in zip(cell, low))


def has_layers(tray):
    """Whether the board or a piece has an empty outer layer."""
    _, _, board, pieces = model.parse(tray)
    return any(map(model.has_empty_outer_layer, [board] + [grid for _, grid, _ in pieces]))


def without_layers(tray):
    """The file of the stripped tray, the box that was lent and where the board lies in it."""
    engine, identified, board, pieces = model.parse(tray)
    filled = model.filled_cells(board)
    bare, low = stripped(filled) if filled else (board, (0, 0, 0))
    lines = ["config\t%s\t%s" % (engine, identified), "board\t" + fields(bare)]
    for count, grid, wood in pieces:
        grid = stripped(model.filled_cells(grid))[0]
        lines.append("piece\t%d\t%s\t%d" % (count, fields(grid), wood))
    return "".join(line + "\n" for line in lines).encode(), board[0], bare[0], low


def fields(grid):
    return "\t".join(map(str, grid[0])) + "\t" + "".join(map(str, grid[1]))


def is_put_back(tray, listing):
    """Whether an accepted tray's listing is that of the stripped tray in the lent box."""
    file, lent, bare, low = without_layers(tray)
    *entries, last = model.listing(file).splitlines()
    lines = []
    for entry in entries:
        number, owners = entry.split("\t")
        cells = [set_down(cell, low) for cell in model.cells_of(bare)]
        owner = dict(zip(cells, owners.split(" ")))
        lines.append(number + "\t" + " ".join(owner.get(cell, "-") for cell in model.cells_of(lent)))
    return "".join(line + "\n" for line in lines + [last]) == listing


# -- mixed trays: packings as sets of (wood, cells), whatever their kinds are

def parts_of(line, board):
    """The cells of each piece's copy in an entry of a listing."""
    parts = collections.defaultdict(set)
    for cell, owner in zip(model.cells_of(board[0]), line.partition("\t")[2].split(" ")):
        if owner != "-":
            parts[tuple(map(int, owner.split(".")))].add(cell)
    return parts


def shape_of(cells):
    return model.variants(stripped(cells)[0])[0]


def colourings(parts, copies):
    """The parts in every choice of woods for which there are copies."""
    if not parts:
        yield ()
        return
    cells, *rest = parts
    shape = shape_of(cells)
    for kind in [kind for kind, left in copies.items() if kind[0] == shape and left > 0]:
        copies[kind] -= 1
        for others in colourings(rest, copies):
            yield ((kind[1], frozenset(cells)),) + others
        copies[kind] += 1


def coloured_packings(tray):
    """The packings of a mixed tray: the original's with the woods left out, coloured."""
    _, _, board, pieces = model.parse(tray)
    copies = collections.Counter()
    for count, grid, wood in pieces:
        copies[shape_of(model.filled_cells(grid)), wood] += count
    lines = run_original(under(tray, "fast", "none"), "raw", "stripped").splitlines()[:-1]
    return {
        frozenset(coloured)
        for line in lines
        for coloured in colourings(list(parts_of(line, board).values()), copies)
    }


def is_coloured_right(tray, listing, packings):
    """Whether a listing has one packing of each class that the allowed maps make, and
    no other. Of the order, and of which one a class shows, this says nothing."""
    _, identified, board, pieces = model.parse(tray)
    maps = {"none": [], "turned": model.TURNS, "mirrored": model.TURNS + model.MIRRORINGS}
    # The maps are those of the stripped board, which lies at `low` in the lent box.
    filled = model.filled_cells(board)
    board_grid, low = stripped(filled) if filled else (board, (0, 0, 0))
    moved = [
        {
            set_down(cell, low): set_down(to, low)
            for cell, to in zip(
                model.cells_of(board_grid[0]),
                model.run_moves(moves, board_grid[0], model.cells_of(board_grid[0]))[1],
            )
        }
        for moves in maps[identified]
        if model.moved_grid(moves, board_grid) == board_grid
    ]
    left = set(packings)
    for line in listing.splitlines()[:-1]:
        parts = parts_of(line, board)
        if any(copy >= pieces[piece][0] for piece, copy in parts):
            return False
        packing = frozenset(
            (pieces[piece][2], frozenset(part)) for (piece, _), part in parts.items()
        )
        if packing not in left:
            return False
        left.remove(packing)
        for to in moved:
            left.discard(frozenset(
                (wood, frozenset(to[cell] for cell in part)) for wood, part in packing
            ))
    return not left


def answers(listing):
    """The entries of a listing without their numbers, sorted."""
    return sorted(line.partition("\t")[2] for line in listing.splitlines()[:-1])


def classify(tray, original, right):
    engine, identified, board, pieces = model.parse(tray)
    problem = model.Problem(board, pieces)
    spare_handed = identified == "mirrored" and None in problem.partners
    rows_without_copies = engine == "knuth" and len(problem.rows()) < len(problem.placements)
    if original == "panic\n" and rows_without_copies:
        return NO_COPIES_PANIC
    if original == "panic\n" and spare_handed:
        return SPARE_HANDED
    if rows_without_copies and answers(original) == answers(right):
        return NO_COPIES_ORDER
    return UNEXPLAINED


def main():
    seed, count = sys.argv[1:]
    started = time.time()
    trays = subprocess.Popen(
        [os.path.join(RELEASE, "trays"), seed, count], stdout=subprocess.PIPE
    )
    found = collections.Counter()
    for name, tray, expected, kind in cases(trays.stdout):
        found["trays"] += 1
        found["trays, expected from " + kind] += 1
        what, number = AT_LIMITS.get(name.rpartition("-")[0], ("bytes", len(tray)))
        if measure(what, tray) != number:
            found[UNEXPLAINED] += 1
            print("not at its limit: %s\n%s" % (name, tray.decode(errors="replace")))
        if "empty_box" in name and is_well_formed(tray) and not is_empty_box(tray):
            found[UNEXPLAINED] += 1
            print("pieces in an empty box: %s\n%s" % (name, tray.decode(errors="replace")))
        if is_woods_corner_missed(name, tray) or is_mixed(tray) and kind == "rust":
            found[UNEXPLAINED] += 1
            print("woods not as they should be: %s\n%s" % (name, tray.decode(errors="replace")))
        if "layers" in name and not has_layers(tray):
            found[UNEXPLAINED] += 1
            print("no empty outer layer: %s\n%s" % (name, tray.decode(errors="replace")))
        if not expected.startswith("refused") and has_layers(tray):
            found["trays with empty outer layers, accepted"] += 1
            if not is_put_back(tray, expected):
                found[UNEXPLAINED] += 1
                print("not put back: %s\n%s" % (name, tray.decode(errors="replace")))
        problems = {}
        coloured = None
        if model.listing(tray, problems) != expected:
            found[UNEXPLAINED] += 1
            print("stream and model differ: %s\n%s" % (name, tray.decode(errors="replace")))
        variants = [tray]
        if is_well_formed(tray):
            variants = [under(tray, *config) for config in CONFIGS]
        for variant in variants:
            found["listings compared"] += 1
            original = run_original(variant)
            right = model.listing(variant, problems)
            if original == right:
                how = "equal, refused" if right.startswith("refused") else "equal, accepted"
                if how == "equal, accepted" and is_empty_box(variant):
                    how = "equal, no piece: the original is not asked"
                found[how] += 1
                continue
            if original == "mixed\n" and is_mixed(variant):
                coloured = coloured_packings(variant) if coloured is None else coloured
                if is_coloured_right(variant, right, coloured):
                    found["mixed woods, coloured: the original is not asked"] += 1
                    continue
            difference = classify(variant, original, right)
            found[difference] += 1
            if difference == UNEXPLAINED:
                print("%s: %s\n%s" % (difference, name, variant.decode(errors="replace")))
    if trays.wait() != 0:
        sys.exit("the generator failed")
    for what in sorted(found):
        print("%8d  %s" % (found[what], what))
    print("%8d  seconds" % (time.time() - started))
    sys.exit(1 if found[UNEXPLAINED] or found["trays"] != int(count) else 0)


if __name__ == "__main__":
    main()

#!/usr/bin/env python3
"""Has the prover compute crates/definitions on small random trays and compares
the lists, pages and refusals with the original's, the texts for DLX1 with the
model's, and the catalogue with the lists of grow.py.

    prover.py SEED COUNT

COUNT trays, each under both engines and the three identifications, a third of
the calls with a random page; the text of each as it is lent, and with the counts
thinned, since two copies of a kind are refused; then REFUSED calls at or beyond the
limits, and as many for texts; then LEAVES pages of the catalogue, of up to five cells
or refused, and REQUESTS requests for its program (those of catalogue.py). What is
expected of trays comes from the original (`oracle`; `raw refusal` for what only a call
can ask for), and from model.py where the original panics (as it does where no piece is
lent), where the order is document 01's alone (knuth, a kind without copies), where
woods are mixed, or where no file can express a refused call. The original is run on the
grids without their empty outer layers, which a third of the trays have round board and
pieces (document 02, A4), and its answers are put back. The board's record has any wood,
which is not to be read. Each call is a line of a table in a crate `sample`, in a
temporary repository beside a copy of crates/definitions, and each table has a theorem
that is proved by computing.
Needs `rt`, and `cargo build --release` here before. Prints what differs, the
corners that the trays have, and a last line. Exit status 1 if anything differs
or could not be computed.
"""

import collections
import itertools
import os
import random
import re
import shutil
import subprocess
import sys
import tempfile
import time

sys.dont_write_bytecode = True  # nothing is to appear beside the sources

import catalogue
import grow
import model

HERE = os.path.dirname(os.path.abspath(__file__))
REPOSITORY = os.path.dirname(HERE)
RELEASE = os.path.join(os.environ.get("CARGO_TARGET_DIR", os.path.join(HERE, "target")), "release")
ENGINES = ("fast", "knuth")
IDENTIFIED = ("none", "turned", "mirrored")
REFUSED = 60
LEAVES = 100
REQUESTS = 200
BIGGEST = 2**64 - 1

# The prover takes at most 50 million steps for a theorem. A table ends before
# its estimated steps pass this, and a crate before its tables' do.
STEPS_A_TABLE = 12e6
STEPS_A_CRATE = 600e6
STEPS_A_LENT_CELL = 6e3
STEPS_OF_A_TEXT = 5e5
STEPS_A_BYTE = 1e3
# A theorem computes the list of pieces once for all its lines.
STEPS_OF_A_LEAF = 3e5
STEPS_OF_A_REQUEST = 1e5


# ------------------------------------------------------------ random trays
# A grid is (sides, cells) and a piece (count, grid, wood), as in model.py.

HANDED = (2, 2, 2), (1, 1, 1, 0, 0, 1, 0, 0)
SPARE_PIECES = [
    ((1, 1, 1), (1,)),
    ((1, 1, 2), (1, 1)),
    ((1, 1, 3), (1, 0, 1)),
    ((1, 1, 3), (1, 1, 1)),
    ((1, 2, 2), (1, 0, 0, 1)),
    ((1, 2, 2), (1, 1, 1, 0)),
    ((1, 2, 2), (1, 1, 1, 1)),
    ((1, 1, 4), (1, 0, 0, 1)),
    ((1, 2, 3), (1, 1, 1, 1, 0, 0)),
    ((1, 2, 3), (1, 1, 0, 0, 1, 1)),
    ((2, 2, 2), (1, 0, 0, 0, 0, 0, 0, 1)),
]
THEMES = (
    "solid", "holes", "long", "flat", "outer layers", "no filled cell", "apart", "lent twice",
    "partner", "no partner", "unequal partners", "no copies", "spare", "several", "any",
    "empty box", "woods", "woods of partners", "boxes", "boxes of a kind", "inner layers",
)
HANDED_THEMES = ("partner", "no partner", "unequal partners", "woods of partners")
WOODS = (0, 1, 2, 9, 10, 100, 254, 255)


def volume(sides):
    return sides[0] * sides[1] * sides[2]


def turned(rng, grid):
    return model.moved_grid(rng.choice(model.TURNS), grid)


def tight(cells):
    """The grid of some cells, without empty outer layers."""
    low = [min(cell[axis] for cell in cells) for axis in range(3)]
    sides = tuple(max(cell[axis] for cell in cells) - low[axis] + 1 for axis in range(3))
    moved = {tuple(cell[axis] - low[axis] for axis in range(3)) for cell in cells}
    return sides, tuple(int(cell in moved) for cell in model.cells_of(sides))


def drawn(rng, grid, most=2):
    """The grid with up to so many empty layers on each of its six sides, in a box that
    is small enough to compute; if none is found, as it is."""
    for _ in range(20):
        low = [rng.randint(0, min(most, 8 - side)) for side in grid[0]]
        high = [rng.randint(0, min(most, 8 - side - at)) for side, at in zip(grid[0], low)]
        sides = tuple(at + side + to for at, side, to in zip(low, grid[0], high))
        if volume(sides) <= 30:
            return set_down(grid, sides, low)
    return grid


def set_down(grid, sides, low):
    """The grid in a larger box, its first cell at `low`."""
    filled = {tuple(c + at for c, at in zip(cell, low)) for cell in model.filled_cells(grid)}
    return sides, tuple(int(cell in filled) for cell in model.cells_of(sides))


def box(rng, least, most, longest=8):
    sides = [
        (a, b, c)
        for a in range(1, longest + 1)
        for b in range(1, longest + 1)
        for c in range(1, longest + 1)
        if least <= a * b * c <= most
    ]
    return rng.choice(sides)


def with_holes(rng, sides, filled):
    cells = [1] * min(filled, volume(sides)) + [0] * max(0, volume(sides) - filled)
    rng.shuffle(cells)
    return sides, tuple(cells)


def shuffled(rng, sides):
    return tuple(rng.sample(sides, 3))


def random_board(rng, theme):
    if theme == "holes":
        if rng.random() < 0.3:
            ring = (1, 3, 3), (1, 1, 1, 1, 0, 1, 1, 1, 1)
            return turned(rng, ring)
        sides = box(rng, 5, 12, 5)
        return with_holes(rng, sides, rng.randint(3, min(8, volume(sides) - 1)))
    if theme == "long":
        length = rng.randint(4, 8)
        return with_holes(rng, shuffled(rng, (1, 1, length)), length - rng.choice((0, 0, 1)))
    if theme == "flat":
        sides = shuffled(rng, (1, rng.randint(2, 3), rng.randint(2, 4)))
        return with_holes(rng, sides, rng.choice((8, 8, 7, 6)))
    if theme == "outer layers":
        sides = list(box(rng, 2, 8, 4))
        cells = model.cells_of(sides)
        for axis in rng.sample(range(3), rng.choice((1, 1, 2))):
            before = rng.randint(0, 1)
            sides[axis] += rng.choice((1, 1, 2)) if before else 1
            cells = [cell[:axis] + (cell[axis] + before,) + cell[axis + 1:] for cell in cells]
        sides = tuple(sides)
        return sides, tuple(int(cell in cells) for cell in model.cells_of(sides))
    if theme in ("boxes", "boxes of a kind"):
        return drawn(rng, random_board(rng, rng.choice(("solid", "long", "flat"))))
    if theme == "inner layers":
        # A row with a gap, along any axis.
        length = rng.randint(4, 7)
        gap = rng.randint(1, length - 2)
        row = (1, 1, length), tuple(int(at != gap) for at in range(length))
        return drawn(rng, turned(rng, row), 1)
    if theme == "no filled cell":
        sides = box(rng, 1, 8, 4)
        return sides, (0,) * volume(sides)
    if theme in HANDED_THEMES:
        return rng.choice((
            ((2, 2, 2), (1,) * 8),
            with_holes(rng, (2, 2, 2), rng.randint(4, 7)),
            with_holes(rng, shuffled(rng, (2, 2, 3)), rng.randint(5, 8)),
        ))
    if theme == "any":
        return random_board(rng, rng.choice(THEMES[:5]))
    if theme == "empty box":
        return random_board(rng, rng.choice(("no filled cell", "no filled cell", "any")))
    return random_board(rng, rng.choice(("holes", "long", "flat"))) if rng.random() < 0.4 else (
        with_holes(rng, box(rng, 2, 8), 8)
    )


def cut(rng, cells, apart):
    """The cells in parts of one to four, each part's cells touching or, as often
    as `apart` says, not."""
    left = list(cells)
    rng.shuffle(left)
    parts = []
    while left:
        part = [left.pop()]
        size = rng.choice((1, 2, 2, 3, 3, 4))
        anywhere = rng.random() < apart
        while len(part) < size:
            near = [
                cell for cell in left if anywhere or any(model.touch(cell, own) for own in part)
            ]
            if not near:
                break
            part.append(rng.choice(near))
            left.remove(part[-1])
        parts.append(part)
    return parts


def kind_of(grid):
    return model.variants(grid)[0]


def partner_of(kind):
    return kind_of(model.moved_grid((model.mirror,), kind))


def random_pieces(rng, theme, board):
    """Pieces that fill the board, as a rule, and what the theme asks for beside."""
    if theme == "empty box":
        return []
    cells = model.filled_cells(board)
    parts = []
    if theme in HANDED_THEMES and rng.random() < 0.7:
        # A handed piece out of the board, then the rest.
        fours = [rng.sample(cells, 4) for _ in range(200)]
        handed = kind_of(HANDED), partner_of(HANDED)
        parts = [four for four in fours if kind_of(tight(four)) in handed][:1]
        cells = [cell for cell in cells if not parts or cell not in parts[0]]
    parts += cut(rng, cells, 0.6 if theme == "apart" else 0.12)
    copies = collections.Counter(kind_of(tight(part)) for part in parts)

    handed = [kind for kind in copies if partner_of(kind) != kind]
    if theme in HANDED_THEMES and not handed:
        handed = [kind_of(HANDED) if rng.random() < 0.5 else partner_of(HANDED)]
        copies[handed[0]] = rng.randint(0, 1)
    if theme in ("partner", "woods of partners"):
        copies[partner_of(handed[0])] = copies[handed[0]]
    if theme == "unequal partners":
        copies[partner_of(handed[0])] = rng.choice((0, copies[handed[0]] + 1))
    chance = rng.random()
    if theme == "no copies" or chance < 0.1:
        copies[kind_of(rng.choice(SPARE_PIECES))] += 0
    if theme == "spare" or 0.1 < chance < 0.25:
        copies[kind_of(rng.choice(SPARE_PIECES))] += 1
    if theme == "several" or 0.25 < chance < 0.35:
        copies[rng.choice(list(copies) or [kind_of(SPARE_PIECES[0])])] += 1
    if 0.35 < chance < 0.45 and copies:
        kind = rng.choice(list(copies))
        copies[kind] = max(0, copies[kind] - 1)
    if not copies:
        copies[kind_of(rng.choice(SPARE_PIECES))] += rng.randint(0, 2)

    # The handed kinds first, with their partners beside them.
    kinds = sorted(copies, key=lambda kind: (partner_of(kind) == kind, min(kind, partner_of(kind))))
    pieces = []
    for kind in kinds:
        count = copies[kind]
        counts = [count]
        if theme in ("lent twice", "woods", "boxes of a kind") or rng.random() < 0.2:
            first = rng.randint(0, count)
            counts = [first, count - first]
        pieces += [(count, turned(rng, kind)) for count in counts]
    # In boxes of their own: one kind, however it is drawn.
    often = 0.7 if theme in ("boxes", "boxes of a kind", "inner layers") else 0.12
    pieces = [
        (count, drawn(rng, grid) if rng.random() < often else grid) for count, grid in pieces
    ]
    # Two woods in turn where the theme is of woods: for a shape lent twice, for a pair.
    woods = [rng.choice((0, 0, 0, 7, 255))] * 2
    if theme in ("woods", "woods of partners"):
        woods = rng.sample(WOODS, 2)
    pieces = [(*piece, woods[number % 2]) for number, piece in enumerate(pieces)]
    rng.shuffle(pieces)
    return pieces


def random_tray(rng, theme):
    while True:
        board = random_board(rng, theme)
        pieces = random_pieces(rng, theme, board)
        if sum(board[1]) > 8 or len(pieces) > 5:
            continue
        problem = Lent(board, pieces)
        if len(problem.kinds) > 3 or len(problem.packings()) > 10:
            continue
        if not has_its_woods(theme, problem):
            continue
        if steps(problem, "mirrored") <= STEPS_A_TABLE:
            return problem


class Lent(model.Problem):
    """A problem that keeps the board and the pieces as they are lent."""

    def __init__(self, board, pieces):
        super().__init__(board, pieces)
        self.lent_board, self.lent_pieces = board, pieces


def has_its_woods(theme, problem):
    """Whether a tray of the themes of woods has what they are for: copies of one shape
    in two woods, or copies of a handed kind and of its mirror image in two woods."""
    kinds = [kind for kind, copies in zip(problem.kinds, problem.copies) if copies]
    if theme == "woods":
        return len({grid for grid, _ in kinds}) < len(kinds)
    if theme == "woods of partners":
        mirrored = {(partner_of(grid), wood) for grid, wood in kinds}
        return any(
            (grid, wood) not in mirrored and grid in {other for other, _ in mirrored}
            for grid, wood in kinds
        )
    return True


def steps(problem, identified):
    """About how many steps the prover takes for a call, as measured on samples."""
    grids = sum(24 * volume(grid[0]) for grid, _ in problem.kinds)
    lent = volume(problem.lent_sides) + sum(volume(grid[0]) for _, grid, _ in problem.lent_pieces)
    maps = {"none": 0, "turned": 24, "mirrored": 48}[identified]
    return (
        6e5
        + STEPS_A_LENT_CELL * lent
        + 4e3 * grids * (2 if identified == "mirrored" else 1)
        + 3e4 * len(problem.placements)
        + 3e2 * len(problem.packings()) * maps * len(problem.placements)
    )


def corners(problem):
    """The corners that a tray has, for the count of what was covered."""
    sides, cells = problem.lent_board
    filled = model.filled_cells(problem.lent_board)
    bare = model.has_empty_outer_layer(problem.lent_board)
    boxed = [model.has_empty_outer_layer(grid) for _, grid, _ in problem.lent_pieces]
    drawn_kinds = collections.defaultdict(set)
    for (_, grid, wood), (_, own, _) in zip(problem.lent_pieces, problem.pieces):
        drawn_kinds[kind_of(own), wood].add(kind_of(grid))
    used = [len(copies) for copies in problem.copies]
    partners = [
        (own, partner) for own, partner in enumerate(problem.partners) if partner != own
    ]
    lent = [(grid, wood) for _, grid, wood in problem.pieces]
    woods = {wood for _, wood in lent}
    shapes = {grid for grid, _ in problem.kinds}
    room = sum(count * problem.kind_cells(kind) for kind, count in enumerate(used))
    ones = sides.count(1)
    return [
        name
        for name, holds in (
            ("solid", 0 not in cells),
            ("holes", 0 in cells and not bare),
            ("board in a larger box", bare and filled),
            ("piece in a larger box", any(boxed)),
            ("one kind in several boxes", any(len(own) > 1 for own in drawn_kinds.values())),
            ("layer between filled ones", any(map(has_gap, [problem.board] + [
                grid for _, grid, _ in problem.pieces]))),
            ("turned by the stripped board alone",
             bare and turns_of(problem.lent_board) < turns_of(problem.board)),
            ("scanned by the stripped sides",
             bare and scan_axes(problem.lent_sides) != scan_axes(problem.board[0])),
            ("no filled cell", not filled),
            ("long", ones >= 2 and max(sides) > 2),
            ("flat", ones == 1),
            ("deep", ones == 0),
            ("equal sides", len(set(sides)) < 3),
            ("unequal sides", len(set(sides)) == 3),
            ("apart", not all(model.hang_together(model.filled_cells(grid)) for grid, _ in lent)),
            ("lent twice", len(lent) > len(problem.kinds)),
            ("lent twice, turned", len(set(lent)) > len(problem.kinds)),
            ("no piece", not lent),
            ("one wood, not 0", len(woods) == 1 and woods != {0}),
            ("several woods", len(woods) > 1),
            ("one shape in several woods", len(shapes) < len(problem.kinds)),
            ("handed, partner of another wood",
             any(p is None and partner_of(problem.kinds[own][0]) in shapes for own, p in partners)),
            ("several of a kind", max(used, default=0) > 1),
            ("kind without copies", 0 in used),
            ("piece without copies", any(count == 0 for count, _, _ in problem.pieces)),
            ("spare cells", room > len(filled)),
            ("handed, no partner", any(partner is None for _, partner in partners)),
            ("handed, equal copies",
             any(p is not None and used[own] == used[p] for own, p in partners)),
            ("handed, unequal copies",
             any(p is not None and used[own] != used[p] for own, p in partners)),
            ("no packing", not problem.packings()),
            ("several packings", len(problem.packings()) > 1),
        )
        if holds
    ]


def has_gap(grid):
    """Whether a layer between filled ones is empty."""
    filled = model.filled_cells(grid)
    return bool(filled) and any(
        {cell[axis] for cell in filled} != set(range(grid[0][axis])) for axis in range(3)
    )


def turns_of(grid):
    return sum(model.moved_grid(moves, grid) == grid for moves in model.TURNS)


def scan_axes(sides):
    return sorted((2, 1, 0), key=lambda axis: -sides[axis])


# ------------------------------------------------------- what is expected

def file_of(engine, identified, board, pieces):
    def fields(grid):
        return "\t".join(map(str, grid[0])) + "\t" + "".join(map(str, grid[1]))

    return (
        "config\t%s\t%s\nboard\t%s\n" % (engine, identified, fields(board))
        + "".join(
            "piece\t%d\t%s%s\n" % (count, fields(grid), "\t%d" % wood if wood else "")
            for count, grid, wood in pieces
        )
    )


def run(program, file, *words):
    ran = subprocess.run(
        [os.path.join(RELEASE, program), *words],
        input=file.encode(), stdout=subprocess.PIPE, timeout=60, check=True,
    )
    return ran.stdout.decode()


def expected_list(file, problem):
    """The list that a file's listing has, and who printed it."""
    listing, source = run("oracle", file), "original"
    # The cases of docs/DIFFERENCES.md: a panic, an order of document 01's, no piece,
    # several woods.
    if not problem.pieces:
        assert listing == model.listing(file.encode()), file
        source = "model"
    elif listing in ("panic\n", "mixed\n") or (
        file.startswith("config\tknuth") and [] in problem.copies
    ):
        listing, source = model.listing(file.encode()), "model"
    *entries, last = listing.splitlines()
    assert last == "packings\t%d" % len(entries), (file, listing)
    answers = []
    for number, entry in enumerate(entries):
        head, cells = entry.split("\t")
        assert head == str(number)
        answers.append([
            (255, 255) if cell == "-" else tuple(map(int, cell.split(".")))
            for cell in cells.split(" ")
        ])
    return answers, source


class Line:
    """A line of a table: a call, as the prover's term, and what it is held to."""

    def __init__(self, table, call, held_to, steps):
        self.table = table
        self.call = call
        self.held_to = held_to
        self.steps = steps

    def tell(self, file, expected, source):
        """For the reader: the call, and what is expected by whom."""
        self.file = file
        self.expected = expected
        self.source = source
        return self


def layout(rng, grids):
    """Bytes in which the grids' cells stand, somehow, and where each begins."""
    order = list(range(len(grids)))
    rng.shuffle(order)
    lent, starts = [], [0] * len(grids)
    for number in order:
        lent += [rng.randint(0, 9) for _ in range(rng.choice((0, 0, 0, 1, 2)))]
        starts[number] = len(lent)
        lent += grids[number][1]
    return lent + [rng.randint(2, 9)] * rng.choice((0, 0, 1)), starts


def page_lines(rng, problem):
    """The six calls of a tray."""
    board, pieces = problem.lent_board, problem.lent_pieces
    for identified in IDENTIFIED:
        for engine in ENGINES:
            file = file_of(engine, identified, board, pieces)
            answers, source = expected_list(file, problem)
            skip, room = 0, len(answers) + rng.choice((0, 1, 2))
            if rng.random() < 1 / 3:
                skip = rng.choice((
                    rng.randint(0, len(answers)), rng.randint(0, len(answers)),
                    len(answers) + rng.randint(0, 2), BIGGEST,
                ))
                room = rng.randint(0, max(0, len(answers) - 1))
            size = 2 * volume(board[0])
            room_bytes = room * size + rng.randrange(size)
            written = answers[skip:skip + room]
            further = skip + len(written) < len(answers)
            lent, (board_start, *starts) = layout(rng, [board] + [grid for _, grid, _ in pieces])
            call = "call %s %s %s (%s) (%s) (%s) %d %d 8192 32768" % (
                ENGINE_NAMES[engine], *IDENTIFIED_TERMS[identified],
                record(board[0], 0, rng.choice(WOODS), board_start),
                listed(
                    record(grid[0], count, wood, start)
                    for (count, grid, wood), start in zip(pieces, starts)
                ),
                bytes_term(lent), skip, room_bytes,
            )
            held_to = "%s (%s)" % (
                str(further).lower(),
                listed(
                    "(" + listed(str(1000 * a + b) for a, b in answer) + ")"
                    for answer in written
                ),
            )
            expected = "skip %d, room for %d (%d bytes): %s" % (
                skip, room, room_bytes, shown_page([sum(answer, ()) for answer in written], further)
            )
            line = Line("pages", call, held_to, steps(problem, identified))
            line.size = size
            line.packings = [
                sum(((255, 255) if cell is None else cell for cell in answer), ())
                for answer in problem.list("fast", "none")
            ]
            yield line.tell(file, expected, source)


def thinned(rng, problem):
    """The pieces as they are lent, each kind with one copy, or now and then with none."""
    lent = problem.lent_pieces
    kinds = [(kind_of(own), wood) for _, own, wood in problem.pieces]
    of_kind = [[at for at, other in enumerate(kinds) if other == kind] for kind in set(kinds)]
    chosen = {rng.choice(own) for own in sorted(of_kind) if rng.random() < 0.85}
    return [(int(at in chosen), grid, wood) for at, (_, grid, wood) in enumerate(lent)]


def text_lines(rng, problem):
    """Two calls for the text of a tray: as it is lent, and thinned, with so much room
    that it is just enough, more than enough, or too little."""
    for pieces in (problem.lent_pieces, thinned(rng, problem)):
        board = problem.lent_board
        lent, starts = layout(rng, [board] + [grid for _, grid, _ in pieces])
        text = model.dlx1_text(model.Problem(board, pieces))
        size = len(text)
        room = rng.choice((
            size, size, size, size + rng.randint(1, 40), size - 1, rng.randrange(size),
        ))
        words = 8192 + rng.choice((0, 0, 3))
        spent = steps(problem, "none") + STEPS_OF_A_TEXT + STEPS_A_BYTE * size
        yield text_line(rng, board, pieces, lent, starts, room, words, spent)


def text_line(rng, board, pieces, lent, starts, room, words, spent):
    """A line for a call for a text."""
    records = [
        (grid[0], count, wood, start)
        for (count, grid, wood), start in zip([(0, board, rng.choice(WOODS))] + pieces, starts)
    ]
    # Of what is lent, which is not what was drawn where a start was moved.
    as_lent = records[0], records[1:], lent
    number = model.text_refusal(*as_lent, words, room) or 0
    text = "" if number else model.dlx1_text(model.lent_problem(*as_lent))
    call = "text_call (%s) (%s) (%s) %d %d" % (
        record(*records[0]), listed(record(*one) for one in records[1:]), bytes_term(lent),
        room, words,
    )
    held_to = '%d (text "%s")' % (number, escaped(text))
    line = Line("texts", call, held_to, spent)
    line.number = number
    line.text = text
    file = file_of("fast", "none", board, pieces) + "cells %s\nstarts %s\nroom %d, work %d\n" % (
        "".join(map(str, lent)), starts, room, words
    )
    expected = "refusal %d" % number if number else "%d bytes:\n%s" % (len(text), text)
    return line.tell(file, expected, "model")


def escaped(text):
    return text.replace("\n", "\\n").replace("\t", "\\t")


def shown_page(answers, further):
    def cells(answer):
        pairs = zip(answer[::2], answer[1::2])
        return " ".join("-" if pair == (255, 255) else "%d.%d" % pair for pair in pairs)

    rows = "".join("\n    " + cells(answer) for answer in answers)
    return "%d written, %s%s" % (len(answers), "one follows" if further else "none follows", rows)


# --------------------------------------------------------- the catalogue

def leaf_line(rng):
    """A line for a page of the catalogue, somewhere or at the list's ends, or refused."""
    n = rng.choice((0, 1, 2, 3, 3, 4, 4, 4, 5, 5, rng.choice((7, 8, 255, 2**32 - 1))))
    number = 0 if 1 <= n <= 6 else 21
    entries = [] if number else [
        "%d%d%d%s" % (*sides, digits.ljust(18, "0")) for sides, digits in grow.pieces(n)
    ]
    total = len(entries)
    skip = rng.choice((0, rng.randint(0, total), rng.randint(0, total + 2), max(0, total - 1), BIGGEST))
    capacity = rng.choice((0, 1, rng.randint(0, 3), rng.randint(0, total), total, total + 1))
    room = capacity * 21 + rng.choice((0, 1, 20, rng.randrange(21)))
    written = entries[skip:skip + capacity]
    further = skip + len(written) < total
    call = "catalogue_call %d %d %d" % (n, skip, room)
    held_to = "%d %s (%s)" % (
        number, str(further).lower(), listed("(digits 21 %s [])" % entry for entry in written)
    )
    line = Line("leaves", call, held_to, STEPS_OF_A_LEAF)
    line.number = number
    line.n = n
    line.bytes = list(map(int, "".join(written)))
    expected = "refusal %d" % number if number else shown_leaf(len(written), further)
    return line.tell("catalogue of %d, skip %d, room %d\n" % (n, skip, room), expected, "grow.py")


def shown_leaf(written, further):
    return "%d written, %s" % (written, "one follows" if further else "none follows")


def request_lines(seed):
    """Lines for requests that are short, and not for many cells."""
    for _, file in catalogue.requests(seed, 20 * REQUESTS):
        printed = catalogue.expected(file)
        if len(file) <= 60 and len(printed) <= 200:
            held_to = '(text "%s")' % escaped(printed)
            line = Line("requests", listed(map(str, file)), held_to, STEPS_OF_A_REQUEST)
            line.printed = printed
            yield line.tell("request %r\n" % file, repr(printed), "grow.py")


# ----------------------------------------------------- calls to be refused

# What the calls at the limits are made for: the refusals 2 to 13 (1 and 7 are gone), and
# empty outer layers, which are none.
LAYERS = "layers"
AIMS = (2, 3, 4, 5, 6, LAYERS, 8, 9, 10, 11, 12, 13)
# A call for a text takes no engine, no identification and no links.
TEXT_AIMS = (2, 3, 4, 5, 6, LAYERS, 8, 9, 12)


def around(rng, limit):
    return limit + rng.choice((-1, 0, 0, 1, 1, 1, 2, rng.randint(2, 9)))


def random_refusal(rng, aim):
    """A call, made refused by number `aim` and sometimes by another one too; its
    grids stand one after the other in the bytes, as a file's do, unless that is
    what is wrong with it. In some no piece is lent, where the number needs none."""
    is_bare = aim not in (2, 6, LAYERS, 8) and rng.random() < 0.3
    made = {
        "engine": rng.choice(ENGINES),
        "turned": rng.random() < 0.5,
        "board": with_holes(rng, box(rng, 1, 8, 4), rng.randint(0, 8)),
        "pieces": [
            (rng.randint(0, 3), turned(rng, rng.choice(SPARE_PIECES)), rng.choice(WOODS))
            for _ in range(0 if is_bare else rng.randint(1, 3))
        ],
        "work": 8192,
        "links": 32768,
        "spoils": [],
    }
    made["mirrored"] = made["turned"] and rng.random() < 0.5
    spoil(rng, made, aim)
    if rng.random() < 0.4:
        spoil(rng, made, rng.choice(AIMS))
    return made


def spoil(rng, made, number):
    pieces = made["pieces"]
    on_board = not pieces or rng.random() < 0.4
    at = rng.randrange(len(pieces)) if pieces else 0
    if number == 2 and pieces:
        made["pieces"] = [pieces[0]] * around(rng, 16)
    elif number == 3:
        sides = list(shuffled(rng, (1, 1, rng.randint(1, 2))))
        sides[rng.randrange(3)] = rng.choice((0, 8, 9, 9, 10, 16, 17, 64, 255, 256, 257, 264))
        grid = tuple(sides), (1,) * volume(sides)
        if on_board:
            made["board"] = grid
        else:
            pieces[at] = (pieces[at][0], grid, pieces[at][2])
    elif number in (4, 5):
        made["spoils"].append(number)
    elif number == 6 and pieces:
        sides = box(rng, 1, 8, 8)
        grid = sides, (0,) * volume(sides)
        pieces[at] = (rng.choice((0, pieces[at][0])), grid, pieces[at][2])
    elif number == LAYERS and pieces:
        # A layer on one side at the least; sometimes the side is then beyond the limit.
        if on_board:
            made["board"] = drawn(rng, made["board"])
        sides, axis = list(pieces[at][1][0]), rng.randrange(3)
        more = rng.choice((1, 1, 2, 8 - sides[axis], 9 - sides[axis]))
        sides[axis] += more
        low = [0, 0, 0]
        low[axis] = rng.choice((0, more))
        grid = set_down(pieces[at][1], tuple(sides), low)
        pieces[at] = (pieces[at][0], grid, pieces[at][2])
    elif number == 8 and pieces:
        left = rng.choice((around(rng, 128), around(rng, 128), 999999999, 256, 300))
        for other in range(len(pieces)):
            count = left if other == len(pieces) - 1 else rng.randint(0, left)
            left -= count
            pieces[other] = (count, *pieces[other][1:])
    elif number == 9:
        sides = rng.choice(((8, 8, 3), (3, 7, 8), (6, 5, 5), (5, 6, 8), (2, 8, 8), (8, 4, 5)))
        made["board"] = with_holes(rng, sides, max(129, around(rng, 128)))
    elif number == 10:
        made["turned"], made["mirrored"] = False, True
    elif number == 11:
        made["engine"] = rng.choice(("auto", "naive"))
    elif number == 12:
        made["work"] = rng.choice((8191, 8191, 0, 4096, 9000))
    elif number == 13:
        made["engine"] = rng.choice(("knuth", "knuth", "fast"))
        made["links"] = rng.choice((32767, 32767, 0, 4096, 40000))


def lent_in_a_row(rng, grids, spoils):
    """The grids' cells one behind the other, and where each begins, with what is wrong."""
    lent, starts = [], []
    for _, cells in grids:
        starts.append(len(lent))
        lent += cells
    if 5 in spoils and lent:
        lent[rng.randrange(len(lent))] = rng.choice((2, 2, 3, 9))
    if 4 in spoils:
        at = rng.randrange(len(grids))
        last = max(0, len(lent) - volume(grids[at][0]))
        starts[at] = rng.choice((last, last + 1, last + 1, last + 2, len(lent), BIGGEST))
    return lent, starts


def is_large(aim, board, pieces, lent):
    return sum(board[1]) > 8 or len(pieces) > 4 or len(lent) > (90 if aim == LAYERS else 40)


def text_refusal_line(rng, aim):
    """A line for a random call for a text, None where it is large and not refused before
    its placements are counted."""
    made = random_refusal(rng, aim)
    board, pieces = made["board"], made["pieces"]
    lent, starts = lent_in_a_row(rng, [board] + [grid for _, grid, _ in pieces], made["spoils"])
    room = rng.choice((0, 8, 16, 24, 40, 64, 400))
    spent = 1e6 + STEPS_OF_A_TEXT + 1e3 * len(lent)
    line = text_line(rng, board, pieces, lent, starts, room, made["work"], spent)
    if line.number in (0, 14, 17, 18) and is_large(aim, board, pieces, lent):
        return None
    return line


def refusal_line(rng, aim):
    """A line for a random call, None where it is large and its placements are counted."""
    made = random_refusal(rng, aim)
    board, pieces = made["board"], made["pieces"]
    grids = [board] + [grid for _, grid, _ in pieces]
    lent, starts = lent_in_a_row(rng, grids, made["spoils"])
    identified = {
        (False, False): "none", (True, False): "turned",
        (True, True): "mirrored", (False, True): "mirrored_only",
    }[made["turned"], made["mirrored"]]
    file = file_of(made["engine"], identified, board, pieces)
    is_file = not made["spoils"] and (made["work"], made["links"]) == (8192, 32768)
    if is_file:
        printed, source = run("raw", file, "refusal"), "original's harness"
        if made["engine"] in ENGINES and identified != "mirrored_only":
            assert printed == "accepted\n" or run("oracle", file) == printed
        number = 0 if printed == "accepted\n" else int(printed.split("\t")[1])
    else:
        records = [
            (grid[0], count, wood, start)
            for (count, grid, wood), start in zip([(0, board, 0)] + pieces, starts)
        ]
        number, source = model.refusal(
            made["engine"], made["turned"], made["mirrored"], records[0], records[1:], lent,
            made["work"], made["links"],
        ) or 0, "model"
        file += "cells %s\nstarts %s\nwork %d, links %d\n" % (
            "".join(map(str, lent)), starts, made["work"], made["links"]
        )
    # Behind 13 the placements are counted.
    if number in (0, 14, 15) and is_large(aim, board, pieces, lent):
        return None
    call = "call %s %s %s (%s) (%s) (%s) 0 0 %d %d" % (
        ENGINE_NAMES[made["engine"]],
        str(made["turned"]).lower(), str(made["mirrored"]).lower(),
        record(board[0], 0, rng.choice(WOODS), starts[0]),
        listed(
            record(grid[0], count, wood, start)
            for (count, grid, wood), start in zip(pieces, starts[1:])
        ),
        bytes_term(lent), made["work"], made["links"],
    )
    line = Line("refusals", call, str(number), 1e6 if number == 0 else 2e5 + 1e3 * len(lent))
    line.number = number
    line.is_bare = not pieces
    line.has_layers = is_file and any(
        1 in cells and model.has_empty_outer_layer((sides, cells)) for sides, cells in grids
    )
    return line.tell(file, "refusal %d" % number, source)


# ------------------------------------------------------ the prover's crate

ENGINE_NAMES = {
    "auto": "Auto", "naive": "Naive", "fast": "Fast", "knuth": "KnuthAlgorithm",
}
IDENTIFIED_TERMS = {
    "none": ("false", "false"), "turned": ("true", "false"), "mirrored": ("true", "true"),
}

SPEC = """\
use Rattle.std.specs.Prelude.{ℕ, zero, suc, ◌/◌, ◌%◌, Bool, true, false, not, cond, ◌&&◌, List, [], ◌∷◌, ◌++◌, map, eqb, length, drop, replicate}
use Rattle.lists.specs.Lists.{same, joined, each}
use Rattle.definitions.specs.Texts.{text}
use Rattle.definitions.specs.Refusals.{Call, refusal}
use Rattle.definitions.specs.Outcomes.{Outcome, cleared, outcome}
use Rattle.definitions.specs.TextCalls.{TextCall, TextOutcome, text_outcome}
use Rattle.definitions.specs.CatalogueCalls.{CatalogueCall, CatalogueOutcome, catalogue_outcome, catalogue_printed}
use Rattle.definitions.specs.declared.Record.{Record}
use Rattle.definitions.specs.declared.SolverKind.{SolverKind}
use Rattle.definitions.specs.declared.SolverKind.TheVariants.{Auto, Naive, Fast, KnuthAlgorithm}

abbrev pub digits : ℕ → ℕ → List ℕ → List ℕ
digits zero k rest = rest
digits (suc n) k rest = digits n (k / 10) (k % 10 ∷ rest)

abbrev pub at : ℕ → ℕ → ℕ → ℕ → ℕ → ℕ → Record
at n w i j k s = record { a = i; b = j; c = k; count = n; wood = w; start = s }

abbrev pub call : SolverKind → Bool → Bool → Record → List Record → List ℕ → ℕ → ℕ → ℕ → ℕ → Call
call engine turned mirrored b ps bytes skip room work links =
    record {
      pieces = ps;
      board = b;
      bytes = bytes;
      config = record { «identify_transformed_answers» = turned; «identify_mirrored_answers» = mirrored; solver = engine };
      skip = skip;
      answers = replicate room 7;
      work = replicate work 7;
      links = replicate links 7;
    }

abbrev pub pairs : List ℕ → List ℕ
pairs ns = each ns (λ n. n / 1000 ∷ n % 1000 ∷ [])

abbrev pub same_test : Bool → Bool → Bool
same_test true b = b
same_test false b = not b

pub record Line : Type 0 where
  pub asked : Call
  pub further : Bool
  pub answers : List (List ℕ)

abbrev pub page : Call → Bool → List (List ℕ) → Line
page l further answers = record { asked = l; further = further; answers = answers }

unfoldable pub is_page : Line → Bool
is_page x =
    let o = outcome x.asked in
    let bytes = joined (map pairs x.answers) in
    eqb o.number 0 && (eqb o.written (length x.answers) && (same_test o.further x.further && same o.answers (bytes ++ drop (length bytes) x.asked.answers)))

pub record Given : Type 0 where
  pub lent : Call
  pub number : ℕ

abbrev pub gives : Call → ℕ → Given
gives l n = record { lent = l; number = n }

unfoldable pub is_given : Given → Bool
is_given x = eqb (refusal x.lent) x.number

abbrev pub text_call : Record → List Record → List ℕ → ℕ → ℕ → TextCall
text_call b ps bytes room words = record { pieces = ps; board = b; bytes = bytes; output = replicate room 7; work = replicate words 7 }

pub record TextCase : Type 0 where
  pub lender : TextCall
  pub number : ℕ
  pub text : List ℕ

abbrev pub text_case : TextCall → ℕ → List ℕ → TextCase
text_case l n text = record { lender = l; number = n; text = text }

unfoldable pub is_text_case : TextCase → Bool
is_text_case x =
    let o = text_outcome x.lender in
    let n = length x.text in
    let work = x.lender.work in
    eqb o.number x.number && (eqb o.written n && (same o.output (x.text ++ drop n x.lender.output)
    && same o.work (cond (eqb x.number 0) (cleared 8192 work) work)))

abbrev pub catalogue_call : ℕ → ℕ → ℕ → CatalogueCall
catalogue_call n skip room = record { n = n; skip = skip; entries = replicate room 7 }

pub record Leaf : Type 0 where
  pub turned_to : CatalogueCall
  pub number : ℕ
  pub further : Bool
  pub entries : List (List ℕ)

abbrev pub leaf : CatalogueCall → ℕ → Bool → List (List ℕ) → Leaf
leaf l n further entries = record { turned_to = l; number = n; further = further; entries = entries }

unfoldable pub is_leaf : Leaf → Bool
is_leaf x =
    let o = catalogue_outcome x.turned_to in
    let bytes = joined x.entries in
    eqb o.number x.number && (eqb o.written (length x.entries) && (same_test o.further x.further
    && same o.entries (bytes ++ drop (length bytes) x.turned_to.entries)))

pub record Request : Type 0 where
  pub read : List ℕ
  pub printed : List ℕ

abbrev pub request : List ℕ → List ℕ → Request
request read printed = record { read = read; printed = printed }

unfoldable pub is_answered : Request → Bool
is_answered x = same (catalogue_printed x.read) x.printed

abbrev pub alike : List ℕ → List ℕ → ℕ
alike [] ns = 0
alike (m ∷ ms) [] = 0
alike (m ∷ ms) (n ∷ ns) = cond (eqb m n) (suc (alike ms ns)) 0

abbrev pub bit : ℕ → ℕ → Bool
bit n power = eqb (n / power % 2) 1

abbrev pub told : Bool → ℕ
told true = 1
told false = 0

abbrev pub place_in : List (List ℕ) → List ℕ → ℕ
place_in [] e = 0
place_in (c ∷ cs) e = let n = place_in cs e in cond (same c e) 0 (suc n)
"""
NAMES_OF_LINES = {
    "pages": ("page", "is_page", "Line"),
    "refusals": ("gives", "is_given", "Given"),
    "texts": ("text_case", "is_text_case", "TextCase"),
    "leaves": ("leaf", "is_leaf", "Leaf"),
    "requests": ("request", "is_answered", "Request"),
}


POWERS_OF_A_BYTE = tuple(2**power for power in range(8))


def record(sides, count, wood, start):
    return "at %d %d %d %d %d %d" % (count, wood, *sides, start)


def listed(terms):
    return "".join(term + " ∷ " for term in terms) + "[]"


def bytes_term(lent):
    return "digits %d %s []" % (len(lent), "".join(map(str, lent)) or "0")


def computed_names(specs):
    """The names that the prover has to unfold, by module: those of Outcomes, TextCalls
    and CatalogueCalls, of the modules that these use, and of theirs. Of Dlx1Covers and
    PlacementsRight, which say what is claimed, nothing is computed."""
    names = {"Dlx1Covers": [], "PlacementsRight": []}
    ahead = ["Outcomes", "TextCalls", "CatalogueCalls"]
    for module in ahead:
        with open(os.path.join(specs, module + ".antt"), encoding="utf-8") as file:
            text = file.read()
        names[module] = re.findall(r"^unfoldable pub (\S+) :", text, re.M)
        used = re.findall(r"^use Rattle\.definitions\.specs\.(\w+)\.\{", text, re.M)
        ahead += [name for name in dict.fromkeys(used) if name not in ahead + list(names)]
    every = [name for own in names.values() for name in own]
    assert len(every) == len(set(every)), "two definitions share a name"
    return {module: own for module, own in names.items() if own}


class Prover:
    """The temporary repository, with a crate `sample` for each lot of theorems."""

    def __init__(self, folder):
        self.folder = folder
        with open(os.path.join(REPOSITORY, "crates.txt"), encoding="utf-8") as file:
            below = dict(re.findall(r"^(\w+):(.*)$", file.read(), re.M))
        ahead = ["definitions"]
        for crate in ahead:
            source = os.path.join(REPOSITORY, "crates", crate)
            shutil.copytree(
                source, os.path.join(folder, "crates", crate),
                ignore=shutil.ignore_patterns("must-fail"),
            )
            needed = below[crate].replace(",", " ").split()
            ahead += [name for name in needed if name in below and name not in ahead]
        lines = "".join("%s:%s\n" % (crate, below[crate]) for crate in ahead)
        self.write("crates.txt", lines + "sample: definitions lists\n")
        specs = os.path.join(folder, "crates", "definitions", "specs")
        self.names = computed_names(specs)

    def write(self, name, text):
        path = os.path.join(self.folder, *name.split("/"))
        os.makedirs(os.path.dirname(path), exist_ok=True)
        with open(path, "w", encoding="utf-8") as file:
            file.write(text)

    def prove(self, tables, theorems):
        """The names of the theorems that are refused, and of those that could not
        be told. `tables`: name, kind of line, lines; `theorems`: name, proposition,
        names to unfold beside the definitions'."""
        spec = [SPEC]
        for name, kind, lines in tables:
            make, _, type_ = NAMES_OF_LINES[kind]
            rows = "".join("    %s (%s) %s ∷\n" % (make, row.call, row.held_to) for row in lines)
            spec.append("unfoldable pub %s : List %s\n%s =\n%s    []\n" % (name, type_, name, rows))
        own = " ".join(name for name, _, _ in tables)
        laws = [
            "use Rattle.std.proofs.Common.{ℕ, Bool, true, false, List, [], ◌∷◌, T, eqb, get_or, take, drop}\n",
            "use Rattle.lists.specs.Lists.{all}\n",
            "use Rattle.definitions.specs.Texts.{text}\n",
            "use Rattle.definitions.specs.declared.SolverKind.TheVariants."
            "{Auto, Naive, Fast, KnuthAlgorithm}\n",
        ]
        laws += [
            "use Rattle.definitions.specs.%s.{%s}\n" % (module, ", ".join(names))
            for module, names in self.names.items()
        ]
        laws.append("use Rattle.sample.specs.Sample.{%s}\n" % ", ".join(
            "digits at call text_call catalogue_call is_page is_given is_text_case is_leaf "
            "is_answered alike bit told place_in".split() + own.split()
        ))
        unfolded = " ".join(name for names in self.names.values() for name in names)
        for name, proposition, beside in theorems:
            laws.append(
                "\npub %s : T (%s)\nunfolding %s %s\n%s = tt\n"
                % (name, proposition, beside, unfolded, name)
            )
        self.write("crates/sample/src/lib.rt", "// No code.\n")
        self.write("crates/sample/specs/Lib.antt", "pub mod Sample\n")
        self.write("crates/sample/specs/Sample.antt", "\n".join(spec))
        self.write("crates/sample/proofs/Lib.antt", "pub mod SampleLaws\n")
        self.write("crates/sample/proofs/SampleLaws.antt", "".join(laws))

        ran = subprocess.run(
            ["rt", "check"], cwd=os.path.join(self.folder, "crates", "sample"), stdout=subprocess.PIPE,
            stderr=subprocess.STDOUT, env=dict(os.environ, RT_JOBS="1", RT_CUT="0"),
        )
        said = ran.stdout.decode(errors="replace")
        if ran.returncode == 0:
            return [], []
        refused, untold, others = [], [], ran.returncode not in (1, 3)
        for message in re.split(r"^(?=\S+:\d+:\d+: )", said, flags=re.M)[1:]:
            name = re.match(r"\S+SampleLaws\.antt:\d+:\d+: error: `([\w-]+)`: ", message)
            if name and "step limit" in message:
                untold.append(name[1])
            elif name and "expected" in message and "`Uni" in message:
                refused.append(name[1])
            elif re.match(r"\S+ error: ", message):
                others = True
        # Anything else that is wrong is no difference, and ends the run.
        if others or not refused + untold:
            sys.exit("rt check of sample ended with %d:\n%s" % (ran.returncode, said))
        return refused, untold

    def prove_tables(self, tables):
        """As `prove`, with a theorem for each table."""
        return self.prove(tables, [
            (name + "-holds", "all %s %s" % (NAMES_OF_LINES[kind][1], name),
             "%s %s" % (name, NAMES_OF_LINES[kind][1]))
            for name, kind, _ in tables
        ])

    def read(self, terms):
        """The numbers that terms come to, each below twice its largest power: a
        theorem for each bit, refused where the bit is 0."""
        theorems = [
            ("bit-%d-%d" % (number, power), "bit (%s) %d" % (term, power), "")
            for number, (term, powers) in enumerate(terms)
            for power in powers
        ]
        zeros, _ = self.prove([], theorems) if theorems else ([], [])
        return [
            sum(power for power in powers if "bit-%d-%d" % (number, power) not in zeros)
            for number, (_, powers) in enumerate(terms)
        ]

    def answer_to(self, line):
        """What the definitions give for a line's call, in words."""
        if line.table == "refusals":
            return "refusal %d" % self.read([("refusal (%s)" % line.call, (1, 2, 4, 8))])[0]
        if line.table == "texts":
            return self.text_answer_to(line)
        if line.table == "leaves":
            return self.leaf_answer_to(line)
        if line.table == "requests":
            alike = "alike (catalogue_printed (%s)) %s" % (line.call, line.held_to)
            return "the first %d bytes as expected" % self.read([(alike, POWERS_OF_A_BYTE)])[0]
        outcome = "(outcome (%s))" % line.call
        number, written, further = self.read([
            (outcome + ".number", (1, 2, 4, 8)),
            (outcome + ".written", (1, 2, 4, 8, 16)),
            ("told %s.further" % outcome, (1,)),
        ])
        if number:
            return "refusal %d" % number
        # Which of the tray's packings an entry is; if none, its bytes.
        known = listed("(" + listed(map(str, answer)) + ")" for answer in line.packings)
        entry = "take %d (drop %%d %s.answers)" % (line.size, outcome)
        places = self.read([
            ("place_in (%s) (%s)" % (known, entry % (line.size * at)), (1, 2, 4, 8))
            for at in range(written)
        ])
        answers = [
            line.packings[place] if place < len(line.packings) else self.read([
                ("get_or (%s) %d 0" % (entry % (line.size * at), byte), (1, 2, 4, 8, 128))
                for byte in range(line.size)
            ])
            for at, place in enumerate(places)
        ]
        return shown_page(answers, further)

    def leaf_answer_to(self, line):
        outcome = "(catalogue_outcome (%s))" % line.call
        number, written, further, alike = self.read([
            (outcome + ".number", (1, 2, 4, 8, 16)),
            (outcome + ".written", POWERS_OF_A_BYTE),
            ("told %s.further" % outcome, (1,)),
            ("alike %s.entries (%s)" % (outcome, listed(map(str, line.bytes))),
             tuple(2**power for power in range(12))),
        ])
        if number:
            return "refusal %d" % number
        return "%s, the first %d bytes as expected" % (shown_leaf(written, further), alike)

    def text_answer_to(self, line):
        outcome = "(text_outcome (%s))" % line.call
        number, written, alike = self.read([
            (outcome + ".number", (1, 2, 4, 8, 16)),
            (outcome + ".written", tuple(2**power for power in range(12))),
            ('alike %s.output (text "%s")' % (outcome, escaped(line.text)),
             tuple(2**power for power in range(12))),
        ])
        if number:
            return "refusal %d" % number
        return "%d bytes, the first %d as expected" % (written, alike)


def in_tables(lines):
    """Tables of lines, each with its estimated steps below the limit."""
    tables, spent = [], 0
    for line in lines:
        if not tables or spent + line.steps > STEPS_A_TABLE:
            tables.append([])
            spent = 0
        tables[-1].append(line)
        spent += line.steps
    return tables


def in_crates(tables):
    crates, spent = [], 0
    for table in tables:
        cost = sum(line.steps for line in table)
        if not crates or spent + cost > STEPS_A_CRATE:
            crates.append([])
            spent = 0
        crates[-1].append(table)
        spent += cost
    return crates


def compare(prover, lines):
    """The lines that the definitions refuse, and those that are too long to compute."""
    differ, uncomputed = [], []
    for crate in in_crates(in_tables(lines)):
        tables = [("t%d" % n, table[0].table, table) for n, table in enumerate(crate)]
        refused, untold = prover.prove_tables(tables)
        if not refused + untold:
            continue
        doubtful = [
            line for name, _, table in tables if name + "-holds" in refused + untold
            for line in table
        ]
        single = [("t%d" % n, line.table, [line]) for n, line in enumerate(doubtful)]
        refused, untold = prover.prove_tables(single)
        differ += [line for name, _, (line,) in single if name + "-holds" in refused]
        uncomputed += [line for name, _, (line,) in single if name + "-holds" in untold]
    return differ, uncomputed


def main():
    seed, count = map(int, sys.argv[1:])
    started = time.time()
    # Texts have random numbers of their own: a seed's trays and pages are what they were.
    rng, text_rng = random.Random(seed), random.Random("texts %d" % seed)
    covered = collections.Counter()
    pages, texts = [], []
    for number in range(count):
        problem = random_tray(rng, THEMES[number % len(THEMES)])
        covered.update(corners(problem))
        pages += page_lines(rng, problem)
        texts += text_lines(text_rng, problem)
    refusals = []
    while len(refusals) < REFUSED:
        aim = AIMS[len(refusals) % len(AIMS)]
        line = refusal_line(rng, aim)
        if line and (line.number or aim == LAYERS or rng.random() < 0.3):
            refusals.append(line)
            covered["refusal %d" % line.number] += 1
            if line.is_bare:
                covered["refusal %d, no piece" % line.number] += 1
            if line.has_layers:
                covered["refusal %d, empty outer layers" % line.number] += 1
    text_refusals = []
    while len(text_refusals) < REFUSED:
        line = text_refusal_line(text_rng, TEXT_AIMS[len(text_refusals) % len(TEXT_AIMS)])
        if line:
            text_refusals.append(line)
    for line in texts + text_refusals:
        covered["text, refusal %d" % line.number if line.number else "text"] += 1
    leaf_rng = random.Random("catalogue %d" % seed)
    leaves = [leaf_line(leaf_rng) for _ in range(LEAVES)]
    for line in leaves:
        covered["catalogue of %s" % ("another number" if line.number else line.n)] += 1
    requests = list(itertools.islice(request_lines(seed), REQUESTS))
    for line in requests:
        covered["request, " + ("refused" if line.printed.startswith("refused") else "listed")] += 1

    with tempfile.TemporaryDirectory() as folder:
        prover = Prover(folder)
        differ, uncomputed = [], []
        for lines in (pages, refusals, texts, text_refusals, leaves, requests):
            wrong, unknown = compare(prover, lines)
            differ += wrong
            uncomputed += unknown
        for line in differ[:10]:
            print("DIFFERS\n%sexpected (%s): %s\nthe definitions: %s\n" % (
                line.file, line.source, line.expected, prover.answer_to(line)
            ), flush=True)
        for line in uncomputed:
            print("NOT COMPUTED\n%sexpected (%s): %s\n" % (line.file, line.source, line.expected))
    print("covered: " + ", ".join("%s %d" % one for one in sorted(covered.items())))
    sources = collections.Counter((line.table, line.source) for line in pages + refusals)
    print(
        "seed %d, %d trays, %d calls (expected from the original %d, from the model %d), "
        "%d calls at the limits (from the original's harness %d, from the model %d), "
        "%d calls for texts and %d at the limits (from the model), "
        "%d pages of the catalogue and %d requests (from grow.py), "
        "%d seconds, %d not computed, %d differences" % (
            seed, count, len(pages), sources["pages", "original"], sources["pages", "model"],
            len(refusals), sources["refusals", "original's harness"], sources["refusals", "model"],
            len(texts), len(text_refusals), len(leaves), len(requests), time.time() - started, len(uncomputed), len(differ),
        )
    )
    sys.exit(1 if differ or uncomputed else 0)


if __name__ == "__main__":
    main()

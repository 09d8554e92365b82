#!/usr/bin/env python3
"""A plain model of document 01, written from its sentences and not from the
original: parsing, refusals, kinds, placements, packings, which is kept, both
engines' orders, answers and pages. No piece lent is a list like any other
(document 02, A1): no kinds and no placements, and no refusal 1. A piece has a
wood (A5): kinds and mirror partners are of one wood. Empty outer layers carry no
meaning (A4): they are taken off pieces and board behind refusals 3 to 6, answers
are of the box that was lent, and there is no refusal 7. The text that Knuth's own
DLX1 reads (A2) is made of the same placements. The catalogue (A11) is found as it is
defined: every filling of every box, and three tests.

    model.py < tray                        what `pack` prints
    model.py dlx1 < tray                   what `dlx1` prints
    model.py catalogue < request           what `catalogue` prints
    model.py page SKIP CAPACITY < tray     the entries of one page, how many were
                                           written, whether a further one follows
    model.py room SKIP BYTES < tray        the same, for so many bytes lent for answers
    model.py entries SKIP BYTES < request  the same of the catalogue
    model.py limits < tray                 how many placements and links it has
    model.py serve                         many trays, see `serve` below
"""

import functools
import sys

MALFORMED = 16
LONGEST_FILE = 16384
WORK_WORDS = 8192
LINK_NUMBERS = 32768
LAST_WOOD = 255
LAST_NUMBER = 2**32 - 1
MOST_CELLS = 6
ENTRY_BYTES = 21


# ---------------------------------------------------------------- the file

class Malformed(Exception):
    pass


def parse(file):
    """The file as (engine, identified, board, pieces); a grid is (sides, cells),
    a piece (count, grid, wood)."""
    if len(file) > LONGEST_FILE:
        raise Malformed
    lines = file.split(b"\n")
    # What stands behind the last line feed is no line.
    if lines.pop() != b"" or len(lines) < 2:
        raise Malformed
    config, board, *pieces = [line.split(b"\t") for line in lines]
    if len(config) != 3 or config[0] != b"config":
        raise Malformed
    engine, identified = config[1], config[2]
    if engine not in (b"fast", b"knuth"):
        raise Malformed
    if identified not in (b"none", b"turned", b"mirrored"):
        raise Malformed
    if len(board) != 5 or board[0] != b"board":
        raise Malformed
    for piece in pieces:
        if len(piece) not in (6, 7) or piece[0] != b"piece":
            raise Malformed
    return (
        engine.decode(),
        identified.decode(),
        parse_grid(board[1:]),
        [
            (parse_number(piece[1], 9), parse_grid(piece[2:6]), parse_wood(piece[6:]))
            for piece in pieces
        ],
    )


def parse_number(field, most_digits):
    if not 1 <= len(field) <= most_digits:
        raise Malformed
    if any(byte not in b"0123456789" for byte in field):
        raise Malformed
    return int(field)


def parse_wood(fields):
    """The wood of a piece line from what stands behind its cells, 0 where nothing does."""
    wood = parse_number(fields[0], 3) if fields else 0
    if wood > LAST_WOOD:
        raise Malformed
    return wood


def parse_grid(fields):
    a, b, c = (parse_number(field, 3) for field in fields[:3])
    cells = fields[3]
    if len(cells) != a * b * c or any(cell not in b"01" for cell in cells):
        raise Malformed
    return (a, b, c), tuple(cell - ord("0") for cell in cells)


# ------------------------------------------------------- grids and maps

def cells_of(sides):
    """All cells of a box, x slowest, z fastest."""
    a, b, c = sides
    return [(x, y, z) for x in range(a) for y in range(b) for z in range(c)]


def filled_cells(grid):
    sides, cells = grid
    return [cell for cell, filled in zip(cells_of(sides), cells) if filled]


# The moves. Each takes sides and gives the new sides and the move of a cell.

def turn_x(a, b, c):
    return (a, c, b), lambda x, y, z: (x, c - 1 - z, y)


def turn_y(a, b, c):
    return (c, b, a), lambda x, y, z: (z, y, a - 1 - x)


def turn_z(a, b, c):
    return (b, a, c), lambda x, y, z: (b - 1 - y, x, z)


def mirror(a, b, c):
    return (a, b, c), lambda x, y, z: (a - 1 - x, y, z)


def find_turns():
    """24 sequences of quarter turns, one for each turn. Two sequences are the
    same turn if they do the same to the cells of a box with three unlike sides."""
    box = (2, 3, 4)
    found = {}
    ahead = [()]
    while ahead:
        moves = ahead.pop(0)
        effect = run_moves(moves, box, cells_of(box))
        key = (effect[0], tuple(effect[1]))
        if key in found:
            continue
        found[key] = moves
        ahead += [moves + (turn,) for turn in (turn_x, turn_y, turn_z)]
    return list(found.values())


def run_moves(moves, sides, cells):
    """The sides and the cells (as a list, in the same order) after the moves."""
    for move in moves:
        sides, step = move(*sides)
        cells = [step(*cell) for cell in cells]
    return sides, cells


TURNS = find_turns()
MIRRORINGS = [(mirror,) + moves for moves in TURNS]


def moved_grid(moves, grid):
    sides, moved = run_moves(moves, grid[0], filled_cells(grid))
    moved = set(moved)
    return sides, tuple(int(cell in moved) for cell in cells_of(sides))


def variants(grid):
    """The distinct turned grids, ascending: by sides, then by cells."""
    return sorted({moved_grid(moves, grid) for moves in TURNS})


def has_empty_outer_layer(grid):
    return any(empty_outer_layers(grid))


def empty_outer_layers(grid):
    """The outer layers without a filled cell, each as its axis and its place on it."""
    sides, _ = grid
    filled = filled_cells(grid)
    for axis in range(3):
        for layer in (0, sides[axis] - 1):
            if all(cell[axis] != layer for cell in filled):
                yield axis, layer


def strip(grid):
    """The grid without its empty outer layers, taken off one by one, and the cell of the
    lent box where its first cell lies. Layers between filled ones stay; a grid with no
    filled cell, which only a board can be, keeps its box."""
    corner = [0, 0, 0]
    while filled_cells(grid):
        layer = next(empty_outer_layers(grid), None)
        if layer is None:
            break
        grid = without_layer(grid, *layer)
        corner[layer[0]] += layer[1] == 0
    return grid, tuple(corner)


def without_layer(grid, axis, layer):
    sides, cells = grid
    kept = [filled for cell, filled in zip(cells_of(sides), cells) if cell[axis] != layer]
    fewer = tuple(side - (number == axis) for number, side in enumerate(sides))
    return fewer, tuple(kept)


def scan_key(sides):
    """By what cells are put in the scan order of a board with these sides."""
    # Longest side first; of equal sides z before y before x.
    axes = sorted((2, 1, 0), key=lambda axis: -sides[axis])
    return lambda cell: tuple(cell[axis] for axis in axes)


# ------------------------------------------------------------- a problem

class Placement:
    """One placement: its kind's number, (p, j), its cells as scan numbers of filled
    board cells, in the order of the turned grid, x slowest, and the same as a set of
    bits, bit p for scan number p."""

    def __init__(self, kind, place, cells):
        self.kind = kind
        self.place = place
        self.cells = cells
        self.covers = sum(1 << p for p in cells)


class Problem:
    """A board and pieces, as they are lent, that no refusal 2 to 9 stops. All but the
    answers is of the board and the pieces without their empty outer layers."""

    def __init__(self, board, pieces):
        self.lent_sides = board[0]
        self.board, self.corner = strip(board)
        self.pieces = [(count, strip(grid)[0], wood) for count, grid, wood in pieces]
        self.find_kinds()
        self.find_placements()
        self.kept_packings = {}
        self.all_packings = None

    def find_kinds(self):
        # A kind is (smallest grid, wood): by the grid first, then by the wood.
        kind_of = [(variants(grid)[0], wood) for _, grid, wood in self.pieces]
        self.kinds = sorted(set(kind_of))
        # A kind's copies as (piece as lent, copy of that piece).
        self.copies = [
            [
                (number, copy)
                for number, (count, _, _) in enumerate(self.pieces)
                if kind_of[number] == kind
                for copy in range(count)
            ]
            for kind in self.kinds
        ]
        self.partners = []
        for grid, wood in self.kinds:
            mirrored = variants(moved_grid((mirror,), grid))[0], wood
            known = mirrored in self.kinds
            self.partners.append(self.kinds.index(mirrored) if known else None)

    def find_placements(self):
        self.scan_key = scan_key(self.board[0])
        self.scanned = sorted(filled_cells(self.board), key=self.scan_key)
        self.scan_number = {cell: p for p, cell in enumerate(self.scanned)}
        # By kind, then (p, j).
        self.placements = []
        for number, (grid, _) in enumerate(self.kinds):
            grids = [filled_cells(variant) for variant in variants(grid)]
            origins = [min(cells, key=self.scan_key) for cells in grids]
            for p, cell in enumerate(self.scanned):
                j = 0
                for cells, origin in zip(grids, origins):
                    covered = self.covered(cells, origin, cell)
                    if None not in covered:
                        self.placements.append(Placement(number, (p, j), covered))
                        j += 1

    def covered(self, cells, origin, target):
        """Where the cells lie with the origin on the target, one by one: a scan number,
        or None where no filled board cell is."""
        dx, dy, dz = (t - o for t, o in zip(target, origin))
        return [self.scan_number.get((x + dx, y + dy, z + dz)) for x, y, z in cells]

    def kind_cells(self, kind):
        grid, _ = self.kinds[kind]
        return sum(grid[1])

    def rows(self):
        """The placements that a packing can use: kinds without copies have none."""
        return [row for row in self.placements if self.copies[row.kind]]

    def links(self):
        return (
            len(self.scanned)
            + len(self.kinds)
            + sum(1 + self.kind_cells(row.kind) for row in self.rows())
        )

    # -- packings

    def packings(self):
        """Every packing, as a list of placements, in Knuth's order."""
        if self.all_packings is None:
            self.all_packings = []
            left = [len(copies) for copies in self.copies]
            everything = (1 << len(self.scanned)) - 1
            self.knuth_step(everything, self.rows(), left, [])
        return self.all_packings

    def knuth_step(self, uncovered, possible, left, chosen):
        """Takes the uncovered cell with the fewest placements still possible and
        tries these by kind, then (p, j). Where a cell has none left there is no
        packing ahead, so the search turns back there: the list is the same."""
        if uncovered == 0:
            self.all_packings.append(list(chosen))
            return
        fewest = None
        cells = uncovered
        while cells:
            cell = cells & -cells
            cells ^= cell
            covering = [row for row in possible if row.covers & cell]
            if not covering:
                return
            if fewest is None or len(covering) < len(fewest):
                fewest = covering
        for row in fewest:
            left[row.kind] -= 1
            chosen.append(row)
            ahead = [
                other
                for other in possible
                if not other.covers & row.covers and left[other.kind] > 0
            ]
            self.knuth_step(uncovered & ~row.covers, ahead, left, chosen)
            chosen.pop()
            left[row.kind] += 1

    # -- which is kept

    def compare_key(self, packing):
        """Kind by kind: the number of used copies, then the ascending (p, j)."""
        places = [[] for _ in self.kinds]
        for kind, place in packing:
            places[kind].append(place)
        return [(len(list_), sorted(list_)) for list_ in places]

    def image_tables(self, identified):
        """For each allowed map: placement (kind, (p, j)) to its image, None where
        the mirror partner is not lent."""
        allowed = [(moves, False) for moves in TURNS]
        if identified == "mirrored":
            allowed += [(moves, True) for moves in MIRRORINGS]
        by_cells = {(row.kind, row.covers): row.place for row in self.placements}
        tables = []
        for moves, is_mirroring in allowed:
            if moved_grid(moves, self.board) != self.board:
                continue
            _, moved = run_moves(moves, self.board[0], self.scanned)
            to_bit = [1 << self.scan_number[cell] for cell in moved]
            table = {}
            for row in self.placements:
                kind = self.partners[row.kind] if is_mirroring else row.kind
                image = None
                if kind is not None:
                    covers = sum(
                        bit for p, bit in enumerate(to_bit) if row.covers >> p & 1
                    )
                    image = (kind, by_cells[kind, covers])
                table[row.kind, row.place] = image
            tables.append(table)
        return tables

    def is_kept(self, packing, tables):
        """Whether no image under an allowed map is a smaller packing."""
        used = [(row.kind, row.place) for row in packing]
        own = self.compare_key(used)
        for table in tables:
            image = [table[placement] for placement in used]
            if None in image:
                continue
            key = self.compare_key(image)
            within = all(
                number <= len(copies) for (number, _), copies in zip(key, self.copies)
            )
            if within and key < own:
                return False
        return True

    def kept(self, identified):
        """The listed packings, in Knuth's order."""
        if identified == "none":
            return self.packings()
        if identified not in self.kept_packings:
            tables = self.image_tables(identified)
            self.kept_packings[identified] = [
                packing for packing in self.packings() if self.is_kept(packing, tables)
            ]
        return self.kept_packings[identified]

    # -- the list

    def list(self, engine, identified):
        packings = self.kept(identified)
        if engine == "fast":
            packings = sorted(packings, key=self.fast_key(identified))
        return [self.answer(packing) for packing in packings]

    def fast_key(self, identified):
        all_cells = sum(
            len(copies) * self.kind_cells(kind) for kind, copies in enumerate(self.copies)
        )
        # With no piece there is no kind 0, and nothing to place first.
        kind_0_first = (
            identified != "none"
            and len(self.kinds) > 0
            and len(self.copies[0]) == 1
            and all_cells == len(self.scanned)
        )

        def key(packing):
            first = [row.place for row in packing if row.kind == 0] if kind_0_first else []
            # Two packings alike up to a cell both start a placement there, so
            # it is enough to compare (kind, j) in the order of p.
            by_cell = sorted((row.place[0], row.kind, row.place[1]) for row in packing)
            return first, [(kind, j) for _, kind, j in by_cell]

        return key

    def answer(self, packing):
        """For each cell of the box that was lent (piece, copy), None where unfilled."""
        owner = {}
        for kind, copies in enumerate(self.copies):
            rows = sorted((row for row in packing if row.kind == kind), key=lambda row: row.place)
            for row, copy in zip(rows, copies):
                for p, cell in enumerate(self.scanned):
                    if row.covers >> p & 1:
                        owner[self.lent_cell(cell)] = copy
        return [owner.get(cell) for cell in cells_of(self.lent_sides)]

    def lent_cell(self, cell):
        """Where a cell of the stripped board lies in the box that was lent."""
        return tuple(at + by for at, by in zip(cell, self.corner))


# ------------------------------------------------------ the text for DLX1

def dlx1_text(problem):
    """The filled cells by scan number, then a bar and the kinds that have copies (the bar
    is left out where none has); then a line for each placement of a kind that has copies:
    its kind, and its cells in the order of the turned grid."""
    kinds = ["p%d" % kind for kind, copies in enumerate(problem.copies) if copies]
    cells = ["b%d" % p for p in range(len(problem.scanned))]
    lines = [cells + (["|"] + kinds if kinds else [])]
    for row in problem.rows():
        lines.append(["p%d" % row.kind] + ["b%d" % p for p in row.cells])
    return "".join(" ".join(items) + "\n" for items in lines)


# --------------------------------------------------------- the catalogue

def boxes(n):
    """The sides, ascending, that a smallest turned grid of n cells can have: no side is
    shorter than the one before it, and all cells hang together."""
    return [
        (a, b, c)
        for a in range(1, n + 1)
        for b in range(a, n + 1)
        for c in range(b, n + 1)
        if a + b + c <= n + 2
    ]


def fillings(cells, filled):
    """The lists of so many bits with so many ones, ascending."""
    if filled > cells:
        return
    if cells == 0:
        yield ()
        return
    for rest in fillings(cells - 1, filled):
        yield (0,) + rest
    if filled > 0:
        for rest in fillings(cells - 1, filled - 1):
            yield (1,) + rest


def touch(one, other):
    """Whether two cells share a face."""
    return sum(abs(a - b) for a, b in zip(one, other)) == 1


def hang_together(cells):
    """Whether all are reached from the first, from one to the next by a face."""
    reached = cells[:1]
    for _ in cells:
        reached = [
            cell for cell in cells
            if cell in reached or any(touch(cell, other) for other in reached)
        ]
    return len(reached) == len(cells)


def is_entry(grid):
    return (
        not has_empty_outer_layer(grid)
        and hang_together(filled_cells(grid))
        and variants(grid)[0] == grid
    )


@functools.lru_cache(maxsize=None)
def catalogue(n):
    """The pieces of n cells, as grids, ascending."""
    grids = [((a, b, c), cells) for a, b, c in boxes(n) for cells in fillings(a * b * c, n)]
    return [grid for grid in grids if is_entry(grid)]


def catalogue_refusal(n):
    return None if 1 <= n <= MOST_CELLS else 21


def entry_bytes(grid):
    sides, cells = grid
    return sides + cells + (0,) * (ENTRY_BYTES - 3 - len(cells))


# --------------------------------------------------------------- a page

def capacity_of(lent_sides, room):
    """How many whole answers fit in so many bytes: two for each cell of the lent box."""
    a, b, c = lent_sides
    return room // (2 * a * b * c)


def page(entries, skip, capacity):
    """The entries written, and whether a further one follows."""
    written = entries[skip:skip + capacity]
    return written, skip + len(written) < len(entries)


# ------------------------------------------------------------- refusals

def refusal(engine, turned, mirrored, board, pieces, cells, work_words, link_numbers):
    """The refusal 2 to 15 of a call, None if it is accepted; 7 is none of them. Records
    are (sides, count, wood, start), the board's too, whose count and wood are not read;
    engines are auto, naive, fast, knuth. 3 to 9 are of the grids as lent (for 8 and 9
    that is all one), 14 and 15 of the stripped ones."""
    records = [board] + pieces
    if len(pieces) > 16:
        return 2
    if any(not 1 <= side <= 8 for sides, _, _, _ in records for side in sides):
        return 3
    if any(start + a * b * c > len(cells) for (a, b, c), _, _, start in records):
        return 4
    grids = [
        (sides, tuple(cells[start:start + sides[0] * sides[1] * sides[2]]))
        for sides, _, _, start in records
    ]
    if any(cell not in (0, 1) for _, grid_cells in grids for cell in grid_cells):
        return 5
    if any(not filled_cells(grid) for grid in grids[1:]):
        return 6
    if sum(count for _, count, _, _ in pieces) > 128:
        return 8
    if len(filled_cells(grids[0])) > 128:
        return 9
    if mirrored and not turned:
        return 10
    if engine not in ("fast", "knuth"):
        return 11
    if work_words < WORK_WORDS:
        return 12
    if engine == "knuth" and link_numbers < LINK_NUMBERS:
        return 13
    problem = lent_problem(board, pieces, cells)
    if len(problem.placements) > 1024:
        return 14
    if engine == "knuth" and problem.links() > 4096:
        return 15
    return None


def text_refusal(board, pieces, cells, work_words, room):
    """The refusal of a call for the text, with so many bytes of room, None if it is
    accepted: 2 to 9, 12 and 14 as for a listing, which has no engine to ask for and
    nothing to identify here; then 17 and 18."""
    number = refusal("fast", False, False, board, pieces, cells, work_words, 0)
    if number is not None:
        return number
    problem = lent_problem(board, pieces, cells)
    if any(len(copies) > 1 for copies in problem.copies) or not problem.scanned:
        return 17
    if room < len(dlx1_text(problem)):
        return 18
    return None


def lent_problem(board, pieces, cells):
    """The problem of records whose grids can be read, and no piece of which is empty."""
    (_, grid, _), *lent = (
        (count, (sides, tuple(cells[start:start + sides[0] * sides[1] * sides[2]])), wood)
        for sides, count, wood, start in [board] + pieces
    )
    return Problem(grid, lent)


def records_of(board, pieces):
    """The records and the bytes of a well-formed file, each grid's cells behind the last's."""
    cells = []
    records = []
    for count, (sides, grid_cells), wood in [(0, board, 0)] + pieces:
        records.append((sides, count, wood, len(cells)))
        cells += grid_cells
    return records[0], records[1:], cells


def refusal_of_tray(engine, identified, board, pieces):
    """The refusal of a well-formed file, whose slices are always big enough."""
    return refusal(
        engine, identified != "none", identified == "mirrored",
        *records_of(board, pieces), WORK_WORDS, LINK_NUMBERS,
    )


# -------------------------------------------------------------- printing

def print_entry(number, answer):
    cells = ("-" if owner is None else "%d.%d" % owner for owner in answer)
    return "%d\t%s\n" % (number, " ".join(cells))


def entries_of(file, problems=None):
    """The refusal of a file (None if it is accepted) and its list of answers.
    `problems` keeps the work done for a board and pieces, for when the same are
    asked for again under another configuration."""
    try:
        engine, identified, board, pieces = parse(file)
    except Malformed:
        return MALFORMED, []
    number = refusal_of_tray(engine, identified, board, pieces)
    if number is not None:
        return number, []
    problems = {} if problems is None else problems
    key = (board, tuple(pieces))
    if key not in problems:
        problems[key] = Problem(board, pieces)
    return None, problems[key].list(engine, identified)


def listing(file, problems=None):
    """What `pack` prints for a file."""
    number, entries = entries_of(file, problems)
    if number is not None:
        return "refused\t%d\n" % number
    lines = [print_entry(number, answer) for number, answer in enumerate(entries)]
    return "".join(lines) + "packings\t%d\n" % len(entries)


def text_printed(file):
    """What `dlx1` prints for a file: its engine and identification decide nothing, and
    there is always room for the text."""
    try:
        _, _, board, pieces = parse(file)
    except Malformed:
        return "refused\t%d\n" % MALFORMED
    number = text_refusal(*records_of(board, pieces), WORK_WORDS, float("inf"))
    if number is not None:
        return "refused\t%d\n" % number
    return dlx1_text(Problem(board, pieces))


def asked_of(file):
    """How many cells a request for the catalogue asks for: its one line."""
    lines = file.split(b"\n")
    if len(lines) != 2 or lines[1] != b"":
        raise Malformed
    fields = lines[0].split(b"\t")
    if len(fields) != 2 or fields[0] != b"cells":
        raise Malformed
    number = parse_number(fields[1], 10)
    if number > LAST_NUMBER:
        raise Malformed
    return number


def pieces_of(file):
    """The refusal of a request (None if it is accepted) and the pieces it asks for."""
    try:
        n = asked_of(file)
    except Malformed:
        return MALFORMED, []
    number = catalogue_refusal(n)
    return number, [] if number is not None else catalogue(n)


def pieces_printed(file):
    """What `catalogue` prints for a request."""
    number, grids = pieces_of(file)
    if number is not None:
        return "refused\t%d\n" % number
    lines = [
        "piece\t1\t%d\t%d\t%d\t%s\n" % (*sides, "".join(map(str, cells)))
        for sides, cells in grids
    ]
    return "".join(lines) + "pieces\t%d\n" % len(grids)


def print_page(file, skip, capacity):
    _, entries = entries_of(file)
    return shown_page(page(entries, skip, capacity), skip, print_entry)


def print_entries(file, skip, room):
    """A page of the catalogue, the entries as bytes."""
    number, grids = pieces_of(file)
    if number is not None:
        return "refused\t%d\n" % number
    return shown_page(page(grids, skip, room // ENTRY_BYTES), skip, print_grid)


def print_grid(number, grid):
    return "%d\t%s\n" % (number, " ".join(map(str, entry_bytes(grid))))


def shown_page(entries, skip, print_one):
    written, follows = entries
    lines = [print_one(number, entry) for number, entry in enumerate(written, skip)]
    follows = "yes" if follows else "no"
    return "".join(lines) + "written\t%d\nfollows\t%s\n" % (len(written), follows)


def print_room(file, skip, room):
    _, _, board, _ = parse(file)
    return print_page(file, skip, capacity_of(board[0], room))


def print_limits(file):
    _, _, board, pieces = parse(file)
    problem = Problem(board, pieces)
    return "placements\t%d\nlinks\t%d\n" % (len(problem.placements), problem.links())


def serve():
    """Answers trays one after another: each a line with its length in bytes,
    then the tray; its listing goes out in the same form."""
    while header := sys.stdin.buffer.readline():
        text = listing(sys.stdin.buffer.read(int(header)))
        sys.stdout.write("%d\n%s" % (len(text), text))
        sys.stdout.flush()


def main():
    if sys.argv[1:] == ["serve"]:
        return serve()
    file = sys.stdin.buffer.read()
    if sys.argv[1:2] == ["page"]:
        text = print_page(file, int(sys.argv[2]), int(sys.argv[3]))
    elif sys.argv[1:2] == ["room"]:
        text = print_room(file, int(sys.argv[2]), int(sys.argv[3]))
    elif sys.argv[1:2] == ["limits"]:
        text = print_limits(file)
    elif sys.argv[1:2] == ["dlx1"]:
        text = text_printed(file)
    elif sys.argv[1:2] == ["catalogue"]:
        text = pieces_printed(file)
    elif sys.argv[1:2] == ["entries"]:
        text = print_entries(file, int(sys.argv[2]), int(sys.argv[3]))
    else:
        text = listing(file)
    sys.stdout.write(text)


if __name__ == "__main__":
    main()

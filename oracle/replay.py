#!/usr/bin/env python3
"""The stored calls of the program crate `replay`, and what the model makes of them.

    replay.py calls > ../crates/replay/stdin     the calls, as numbers
    replay.py < ../crates/replay/stdin           what the program is to print

A call is: how many pieces, the engine (0 to 3), turned, mirrored, words of the work
slice, numbers of the links slice, what is shown (0 its row system, 1 its pages too,
2 its pages alone, 3 neither; its text for DLX1 is always shown); for the board, then
for each of the first 16 pieces, three sides, a count, a wood and the place where its
cells begin; the lent bytes, a digit each. The board's count and wood are not read.
A row system is that of the tray without empty outer layers; its places, in the line
`scan`, are those of the lent box, and so are the answers.

`calls` needs the oracle built (it takes random trays from target/release/trays).
"""

import subprocess
import sys
from itertools import product
from pathlib import Path

import model

FAST, KNUTH = 2, 3
MOST_TEXT = 65536  # what the program reads of its input
ROOM = 4096  # what the program lends for a text


# ------------------------------------------------------------- the model

def transforms():
    """The 48 maps in the original's order: 24 turns, then 24 mirrorings."""
    permutations = [((0, 1, 2), 0), ((0, 2, 1), 1), ((1, 0, 2), 1),
                    ((1, 2, 0), 0), ((2, 0, 1), 0), ((2, 1, 0), 1)]
    by_parity = ([], [])
    for axes, odd in permutations:
        for flips in product((0, 1), repeat=3):
            by_parity[(odd + sum(flips)) % 2].append((axes, flips))
    return by_parity


def mapped(sides, cell, transform):
    axes, flips = transform
    return tuple(
        sides[axis] - 1 - cell[axis] if flip else cell[axis]
        for axis, flip in zip(axes, flips)
    )


def symmetries(board, maps):
    sides, _ = board
    filled = set(model.filled_cells(board))
    return [
        transform for transform in maps
        if tuple(sides[axis] for axis in transform[0]) == sides
        and {mapped(sides, cell, transform) for cell in filled} == filled
    ]


def refusal(call):
    n, engine, turned, mirrored, work, links, _, records, data = call
    pieces = records[1:]
    if n > 16:
        return 2
    if any(not 1 <= side <= 8 for record in records for side in record[:3]):
        return 3
    if any(start + a * b * c > len(data) for a, b, c, _, _, start in records):
        return 4
    grids = [grid_of(record, data) for record in records]
    if any(cell > 1 for _, cells in grids for cell in cells):
        return 5
    if any(sum(cells) == 0 for _, cells in grids[1:]):
        return 6
    if sum(count for _, _, _, count, _, _ in pieces) > 128:
        return 8
    if sum(grids[0][1]) > 128:
        return 9
    if mirrored and not turned:
        return 10
    if engine < FAST:
        return 11
    if work < 8192:
        return 12
    if engine == KNUTH and links < 32768:
        return 13
    problem = problem_of(records, data)
    if len(problem.placements) > 1024:
        return 14
    if engine == KNUTH and problem.links() > 4096:
        return 15
    return 0


def grid_of(record, data):
    a, b, c, _, _, start = record
    return (a, b, c), tuple(data[start:start + a * b * c])


def problem_of(records, data):
    return model.Problem(
        grid_of(records[0], data),
        [(record[3], grid_of(record, data), record[4]) for record in records[1:]],
    )


def show(call):
    lines = row_system(call) if call[6] < 2 else []
    return lines + pages(call) + dlx_text(call)


def row_system(call):
    number = refusal(call)
    if number:
        return [f"refused {number}"]
    records, data = call[7], call[8]
    problem = problem_of(records, data)
    size, kinds = len(problem.scanned), len(problem.kinds)
    sides = problem.board[0]
    turns, mirrorings = (symmetries(problem.board, maps) for maps in transforms())
    kind_of = [(model.variants(grid)[0], wood) for _, grid, wood in problem.pieces]
    lines = [
        f"cells {size} kinds {kinds} rows {len(problem.placements)} "
        f"turns {len(turns)} mirrorings {len(mirrorings)}",
        words("kinds", [
            n for kind in range(kinds)
            for n in (len(problem.copies[kind]),
                      kinds if problem.partners[kind] is None else problem.partners[kind])
        ]),
        words("pieces", [
            n for kind, (count, _, _) in zip(kind_of, problem.pieces)
            for n in (problem.kinds.index(kind), count)
        ]),
    ]
    if size <= 30:
        lent = {problem.lent_cell(cell): p for cell, p in problem.scan_number.items()}
        lines.append(words("scan", [
            lent.get(cell, size) for cell in model.cells_of(problem.lent_sides)
        ]))
        lines += [
            words("map", [
                problem.scan_number[mapped(sides, cell, transform)] for cell in problem.scanned
            ])
            for transform in turns + mirrorings
        ]
    rows = list(enumerate(problem.placements))
    for number, row in rows[:12] + (rows[-1:] if len(rows) > 12 else []):
        cells = [cell for cell in range(128) if row.covers >> cell & 1]
        lines.append(words("row", [number, row.kind, *row.place, *cells]))
    return lines


def pages(call):
    """The pages of both engines' lists: three entries at a time, at most 20 times; then
    room for none, from the end on, and at the largest skip."""
    if call[6] not in (1, 2):
        return []
    return engine_pages("fast", changed(call, engine=FAST)) + engine_pages("knuth", changed(call, engine=KNUTH))


def engine_pages(engine, call):
    number = refusal(call)
    if number:
        return [f"{engine}: refused {number}"]
    problem = problem_of(call[7], call[8])
    entries = [answer_bytes(answer) for answer in problem.list(engine, identified(call))]
    total = sum_of(byte for entry in entries[:60] for byte in entry)
    more = " further" if len(entries) > 60 else ""
    lines = [f"{engine}: listed {min(60, len(entries))}{more} sum {total}"]
    lines.append("room for none 0" + (" further" if entries else ""))
    if len(entries) <= 60:
        lines += ["past the end 0", "at the last skip 0"]
    return lines


def dlx_text(call):
    """The text for DLX1, for which there is ROOM; then with room for it alone, and with a
    byte less."""
    number = text_refusal(call, ROOM)
    if number:
        return [f"text refused {number}"]
    whole = model.dlx1_text(problem_of(call[7], call[8])).encode()
    told = f"{len(whole)} sum {sum_of(whole)}"
    exact, less = (text_refusal(call, room) for room in (len(whole), len(whole) - 1))
    assert (exact, less) == (None, 18)
    return [f"text {told}", f"room for it alone {told}", f"a byte less refused {less}"]


def text_refusal(call, room):
    if call[0] > 16:
        # of the records the first 16 are stored
        return 2
    records = [((a, b, c), count, wood, start) for a, b, c, count, wood, start in call[7]]
    return model.text_refusal(records[0], records[1:], call[8], call[4], room)


def sum_of(bytes):
    total = 0
    for byte in bytes:
        total = (total * 257 + byte + 1) % 4294967291
    return total


def answer_bytes(answer):
    return [byte for owner in answer for byte in (owner or (255, 255))]


def identified(call):
    return "mirrored" if call[3] else "turned" if call[2] else "none"


def words(name, numbers):
    return " ".join([name, *map(str, numbers)])


# ------------------------------------------------------- the stored calls

def tray(path, engine=None, turned=0, mirrored=0):
    """A tray of ../trays as a call."""
    _, _, board, pieces = model.parse((Path(__file__).parent.parent / "trays" / path).read_bytes())
    return lent([(1, board)] + pieces, engine or FAST, turned, mirrored)


def lent(grids, engine=FAST, turned=0, mirrored=0, work=8192, links=32768, paged=0):
    """A call whose grids' cells stand one behind the other; the first is the board. A wood
    may follow a grid."""
    records, data = [], []
    for count, (sides, cells), *wood in grids:
        records.append((*sides, count, *(wood or [0]), len(data)))
        data += cells
    return [len(records) - 1, engine, turned, mirrored, work, links, paged, records, data]


def full(*sides):
    a, b, c = sides
    return sides, (1,) * (a * b * c)


def part(sides, filled):
    """A box whose first cells are filled."""
    a, b, c = sides
    return sides, (1,) * filled + (0,) * (a * b * c - filled)


M, D = full(1, 1, 1), full(1, 1, 2)
HANDED = ((2, 2, 2), (1, 1, 1, 0, 0, 1, 0, 0))
PARTNER = ((2, 2, 2), (1, 1, 1, 0, 0, 0, 1, 0))
CORNER = ((1, 2, 2), (1, 1, 1, 0))
HOLLOW = ((1, 1, 3), (1, 0, 1))


def row(text):
    """A grid of one row along z."""
    return (1, 1, len(text)), tuple(map(int, text))


def drawn(grid, low, high):
    """The grid with so many empty layers before it and behind it on each axis."""
    sides = tuple(before + side + behind for before, side, behind in zip(low, grid[0], high))
    filled = {tuple(at + by for at, by in zip(cell, low)) for cell in model.filled_cells(grid)}
    return sides, tuple(int(cell in filled) for cell in model.cells_of(sides))


def changed(call, **fields):
    names = ("n", "engine", "turned", "mirrored", "work", "links", "paged", "records", "data")
    call = list(call)
    for name, value in fields.items():
        call[names.index(name)] = value
    return call


def record(call, number, **fields):
    names = ("a", "b", "c", "count", "wood", "start")
    records = [list(entry) for entry in call[7]]
    for name, value in fields.items():
        records[number][names.index(name)] = value
    return changed(call, records=records)


def systems():
    listing = lent([(1, full(1, 1, 3)), (1, M), (1, D)])
    yield listing
    yield lent([(1, part((1, 1, 4), 3)), (1, M), (1, D)], turned=1)
    yield lent([(1, full(2, 2, 1)), (1, D), (1, M), (1, full(2, 1, 1))])
    yield lent([(0, full(2, 2, 2)), (1, PARTNER), (2, HANDED), (0, M)], turned=1, mirrored=1)
    yield lent([(1, full(2, 3, 2)), (3, CORNER), (1, HANDED), (1, full(3, 1, 1))])
    yield lent([(1, ((3, 3, 3), (1,) * 13 + (0,) + (1,) * 13)), (2, HOLLOW), (1, CORNER)])
    yield lent([(1, ((1, 1, 1), (0,))), (1, M)])
    yield lent([(1, full(8, 8, 2)), (128, M)], engine=KNUTH)
    yield lent([(1, part((2, 3, 4), 17)), (4, full(2, 2, 1)), (5, CORNER), (1, HANDED)])
    yield tray("soma.tray")
    yield tray("dominoes.tray", KNUTH)
    yield tray("conway.tray", FAST, 1)


def limits():
    small = lent([(1, full(1, 1, 3)), (1, M), (1, D)])
    knuth = changed(small, engine=KNUTH)
    # each refusal, and each limit from both sides
    yield lent([(1, full(1, 1, 4))] + [(1, M)] * 16)
    yield lent([(1, full(1, 1, 4))] + [(1, M)] * 17)
    for side in ("a", "b", "c"):
        for number in (0, 1):
            for length in (0, 9, 257, 18446744073709551615 // 10):
                yield record(small, number, **{side: length})
    yield lent([(1, full(1, 1, 8)), (1, full(8, 1, 1))])
    yield lent([(1, full(1, 1, 8)), (1, ((9, 1, 1), (1,) * 9))])
    for start in (3, 4, 5, 6, 4294967296, 999999999999999999):
        yield record(small, 1, start=start)
        yield record(small, 0, start=start)
        yield record(small, 2, start=start)
    for place in (0, 3, 5):
        yield changed(small, data=[2 if i == place else 1 for i in range(6)])
        yield changed(small, data=[0 if i == place else 1 for i in range(6)])
    # an empty outer layer is none
    yield lent([(1, full(1, 1, 3)), (1, ((1, 1, 2), (1, 0)))])
    yield lent([(1, full(1, 1, 3)), (1, ((3, 1, 1), (0, 1, 1)))])
    yield lent([(1, full(1, 1, 3)), (1, ((1, 3, 1), (1, 1, 0)))])
    for count in (127, 128, 4294967295):
        yield record(record(small, 2, count=1), 1, count=count)
    yield lent([(1, full(2, 8, 8)), (1, M)])
    yield lent([(1, part((3, 8, 8), 128)), (1, M)])
    yield lent([(1, part((3, 8, 8), 129)), (1, M)])
    for turned in (0, 1):
        for mirrored in (0, 1):
            for engine in range(4):
                yield changed(small, turned=turned, mirrored=mirrored, engine=engine)
    for work in (0, 8191, 8192, 8193):
        yield changed(small, work=work)
    for links in (0, 32767, 32768, 32769):
        yield changed(small, links=links)
        yield changed(knuth, links=links)
    # 1,024 placements and 1,025; 4,096 links and 4,097; kinds without copies count as placements and have no links
    for call in at_limits():
        yield call
        yield changed(call, engine=KNUTH)


def at_limits():
    def placements(grids):
        return len(problem_of(*lent(grids)[7:]).placements)

    def links(grids):
        return problem_of(*lent(grids)[7:]).links()

    # 128 cells: 128 placements of M; full boxes of other sides add the rest
    board = full(2, 8, 8)
    boxes = [full(a, b, c) for a in range(1, 3) for b in range(a, 9) for c in range(b, 9)]
    aims = (1024, placements, 1), (1025, placements, 1), (1024, placements, 0), (1025, placements, 0), (4096, links, 1), (4097, links, 1)
    for aim, measure, copies in aims:
        found = search(board, boxes, aim, measure, copies)
        assert found, (aim, copies)
        yield lent(found)


def search(board, boxes, aim, measure, copies):
    """A tray with exactly so many placements or links: boxes tried one by one, over boards of one size or a smaller one."""
    for filled in range(128, 90, -1):
        bounded = part(board[0], filled)
        worth = [measure([(1, bounded), (copies, box)]) for box in boxes]
        base = measure([(1, bounded)])
        sums = {base: []}
        for number, value in enumerate(worth):
            for total, chosen in list(sums.items()):
                if len(chosen) < 15 and total + value - base <= aim:
                    sums.setdefault(total + value - base, chosen + [number])
        if aim in sums:
            return [(1, bounded)] + [(copies, boxes[number]) for number in sums[aim]]
    return None


def pairs():
    """Two refusals at once: the first in the table is returned."""
    small = lent([(1, full(1, 1, 3)), (1, M), (1, D)], engine=KNUTH)
    ways = {
        3: lambda call: record(call, 1, b=9),
        4: lambda call: record(call, 2, start=6),
        5: lambda call: changed(call, data=[3] + call[8][1:]),
        6: lambda call: changed(call, data=call[8][:3] + [0] + call[8][4:]),
        # an empty outer layer, which was 7 and is no refusal
        7: lambda call: changed(call, data=call[8][:4] + [0] + call[8][5:]),
        8: lambda call: record(call, 1, count=128),
        10: lambda call: changed(call, turned=0, mirrored=1),
        11: lambda call: changed(call, engine=1),
        12: lambda call: changed(call, work=8191),
        13: lambda call: changed(call, links=32767),
    }
    for first in ways:
        for second in ways:
            if first < second:
                yield ways[second](ways[first](small))
    large = lent([(1, part((3, 8, 8), 129)), (1, M)], engine=KNUTH)
    for number in (8, 10, 11, 12, 13):
        yield ways[number](large)


def empty_boxes():
    """The calls with no piece, all with pages; each board's row system is shown once, since no configuration changes it."""
    shown = []
    for call in without_pieces():
        is_new = refusal(call) or call[7:] not in shown
        shown.append(call[7:])
        yield changed(call, paged=1 if is_new else 2)


def without_pieces():
    """Calls with no piece: the lists, and each refusal that is left, alone and two at once."""
    def bare(board, engine=FAST, turned=0, mirrored=0):
        return lent([(1, board)], engine, turned, mirrored)

    identifications = ((0, 0), (1, 0), (1, 1))
    # no filled cell: the one empty packing, in any box
    for sides in ((1, 1, 1), (1, 1, 4), (2, 1, 2), (3, 3, 3), (4, 2, 3)):
        for turned, mirrored in identifications:
            yield bare(part(sides, 0), FAST, turned, mirrored)
    for engine, (turned, mirrored) in zip((FAST, KNUTH, FAST), identifications):
        yield bare(part((8, 8, 8), 0), engine, turned, mirrored)
    yield bare(part((1, 1, 8), 0), KNUTH)
    # any other board: no packing
    boards = (full(1, 1, 1), part((1, 1, 4), 3), full(2, 2, 2), ((1, 3, 3), (1, 1, 1, 1, 0, 1, 1, 1, 1)), ((2, 1, 3), (0, 0, 0, 0, 1, 0)))
    for board in boards:
        for turned, mirrored in identifications:
            yield bare(board, FAST, turned, mirrored)
    yield bare(full(4, 4, 8), KNUTH, 1, 1)
    yield bare(part((3, 8, 8), 128))
    yield bare(part((3, 8, 8), 129))
    # the board's record and cells; what lies beside its cells is not read, nor is its count
    row = bare(part((1, 1, 3), 0), KNUTH)
    for side in ("a", "b", "c"):
        for length in (0, 8, 9, 257, 18446744073709551615 // 10):
            yield record(row, 0, **{side: length})
    for start in (1, 3, 4294967296, 999999999999999999):
        yield record(row, 0, start=start)
    yield record(row, 0, count=4294967295)
    yield changed(row, data=[0, 0])
    for place in range(3):
        yield changed(row, data=[2 if i == place else 0 for i in range(3)])
        yield changed(row, data=[9 if i == place else 1 for i in range(3)])
    yield changed(row, data=[0, 0, 0, 2])
    yield record(changed(row, data=[2, 0, 0, 0]), 0, start=1)
    # the configuration and the lent lengths
    for turned in (0, 1):
        for mirrored in (0, 1):
            for engine in range(4):
                yield changed(row, turned=turned, mirrored=mirrored, engine=engine)
    for work in (0, 8191, 8192, 8193):
        yield changed(row, work=work)
    for links in (0, 32767, 32768, 32769):
        yield changed(row, links=links)
        yield changed(row, links=links, engine=FAST)
    yield from empty_pairs(row)


def empty_pairs(row):
    ways = {
        3: lambda call: record(call, 0, b=9),
        4: lambda call: record(call, 0, start=call[7][0][5] + 1),
        5: lambda call: changed(call, data=call[8][:-1] + [2]),
        10: lambda call: changed(call, turned=0, mirrored=1),
        11: lambda call: changed(call, engine=1),
        12: lambda call: changed(call, work=8191),
        13: lambda call: changed(call, links=32767),
    }
    for first in ways:
        for second in ways:
            if first < second:
                yield ways[second](ways[first](row))
    large = lent([(1, part((3, 8, 8), 129))], engine=KNUTH)
    for number in ways:
        yield ways[number](large)


def woods():
    """Calls with woods, with pages of both engines where the board is small."""
    identifications = ((0, 0), (1, 0), (1, 1))
    two = [(1, full(1, 1, 2)), (1, M, 9), (1, M, 2)]
    mixed = (
        two,
        # by grid, then by wood: M is kind 0
        [(1, full(1, 1, 3)), (1, D, 0), (1, M, 9)],
        # one shape in three woods, lent turned; one piece more than fits
        [(1, full(1, 2, 4)), (2, D, 10), (1, full(2, 1, 1), 9), (2, full(1, 2, 1), 255)],
        # handed pieces: no partner, and partners in one of two woods
        [(1, full(2, 2, 2)), (2, HANDED), (2, PARTNER, 1)],
        [(1, full(2, 2, 2)), (1, HANDED, 3), (1, PARTNER, 3), (1, HANDED, 200), (2, M, 3)],
    )
    for grids in mixed:
        for turned, mirrored in identifications:
            yield lent(grids, FAST, turned, mirrored, paged=2 if turned else 1)
    # two woods, in one of them lent twice; a wood without copies; no board cell
    yield lent([(1, full(1, 1, 4)), (1, M, 5), (1, M, 6), (2, M, 5)], FAST, 1, paged=1)
    yield lent([(1, full(1, 1, 3)), (0, M, 1), (1, M, 2), (1, D, 1)], KNUTH, 1, 1, paged=1)
    yield lent([(1, part((1, 2, 2), 0)), (1, M, 1), (0, M, 2)], FAST, 1, 1, paged=1)
    # one wood all through, and the board's, which is not read
    yield lent([(1, full(1, 1, 3)), (1, M, 7), (1, D, 7)], FAST, 1, paged=1)
    yield lent([(1, full(2, 2, 2)), (2, HANDED, 255), (2, PARTNER, 255)], KNUTH, 1, 1, paged=1)
    for wood in (2, 9, 255):
        yield record(lent(two, FAST, 1, 1, paged=2), 0, wood=wood)
    # copies are counted over the woods, placements and links in each
    for count in (100, 101):
        yield lent([(1, full(1, 1, 2)), (count, M, 1), (28, M, 2)], paged=1)
    board = full(4, 4, 8)
    for number in (8, 9):
        for engine in (FAST, KNUTH):
            yield shared(board, [(16 if wood % 2 else 0, M, wood) for wood in range(number)], engine)
    for number in (2, 3):
        for engine in (FAST, KNUTH):
            yield shared(board, [(1, full(2, 2, 4), wood) for wood in range(253, 253 + number)], engine)


def shared(board, pieces, engine):
    """A call without pages whose full grids all begin where the board's cells do."""
    call = lent([(1, board)] + pieces, engine)
    records = [(*entry[:5], 0) for entry in call[7]]
    return changed(call, records=records, data=call[8][:len(board[1])])


def layers():
    """Calls with empty outer layers, with pages of both engines: the same trays stripped, in other boxes."""
    identifications = ((0, 0), (1, 0), (1, 1))
    drawn_trays = (
        # one packing where the stripped board is turned, two where nothing is
        [(1, row("1110")), (1, M), (1, D)],
        [(1, row("00111")), (1, row("100")), (1, ((3, 2, 1), (0, 0, 1, 1, 0, 0)))],
        # scan order by the stripped sides: z before y
        [(1, ((1, 3, 2), (0, 0, 0, 1, 1, 0))), (2, M)],
        [(1, drawn(full(2, 3, 1), (0, 0, 5), (1, 1, 1))), (2, D), (2, drawn(M, (1, 0, 1), (0, 2, 0)))],
        # layers between filled ones stay
        [(1, row("01010")), (1, row("1010"))],
        [(1, row("11")), (1, row("101"))],
        [(1, row("0110110")), (1, row("0011")), (2, D), (1, row("0110110"))],
        # one kind in several boxes: copies go by the lent order alone
        [(1, row("11")), (1, row("10")), (1, M)],
        [(1, full(1, 2, 4)), (1, row("00110")), (2, D), (1, drawn(full(2, 1, 1), (0, 1, 1), (2, 0, 1)))],
        # handed pieces and their partners in boxes of their own
        [(1, drawn(full(2, 2, 2), (1, 0, 2), (1, 1, 0))), (2, drawn(HANDED, (0, 1, 0), (1, 0, 0))), (2, PARTNER)],
        [(1, full(2, 2, 2)), (1, HANDED), (1, drawn(PARTNER, (1, 0, 0), (0, 0, 1))), (4, drawn(M, (0, 0, 0), (1, 2, 3)))],
        # a cell in a box that looks handed, and stays in the box
        [(1, row("010")), (1, M), (0, drawn(M, (0, 0, 0), (1, 2, 3)))],
        # a board with no filled cell keeps its box
        [(1, row("0000")), (1, row("010"))],
        # two woods, in two boxes
        [(1, row("0110")), (1, row("01"), 9), (1, M, 2)],
    )
    for grids in drawn_trays:
        for turned, mirrored in identifications:
            yield lent(grids, FAST, turned, mirrored, paged=2 if turned else 1)
    # two layers on one side of one axis
    for axis in range(3):
        for ends in ((2, 0), (0, 2)):
            low, high = ([end if axis == number else 0 for number in range(3)] for end in ends)
            grids = [(1, drawn(full(1, 2, 2), low, high)), (2, D), (1, drawn(CORNER, high, low)), (1, M)]
            yield lent(grids, FAST, 1, paged=1)
    # the longest box, and the lent bytes of the board as those of a piece
    yield lent([(1, drawn(full(1, 1, 2), (3, 7, 6), (4, 0, 0))), (2, M)], FAST, 1, paged=2)
    yield record(lent([(1, row("0110")), (1, M)], FAST, 0, 0, paged=1), 1, c=4, start=0)
    # no piece
    yield lent([(1, row("00100"))], FAST, 1, paged=2)
    # 3 to 6 are of the grids as lent
    small = lent([(1, row("0110")), (1, row("1100"))], paged=1)
    yield lent([(1, full(1, 1, 1)), (1, row("100000000"))], paged=1)
    yield lent([(1, row("000000001")), (1, M)], paged=1)
    yield lent([(1, row("0110")), (1, row("000"))], paged=1)
    yield record(small, 1, start=5)
    for place in (0, 7):
        yield changed(small, data=[2 if at == place else cell for at, cell in enumerate(small[8])])
    # one kind in two boxes is counted once, with 1,024 placements; in a ninth wood it is 14
    for wood in (7, 8):
        pieces = [(0, M if number % 2 else row("10"), number) for number in range(8)] + [(1, row("10"), wood)]
        yield in_bytes(full(4, 4, 8), pieces)
    # as many links in two boxes as in one
    pieces = [(1, full(2, 2, 4), 1), (1, full(2, 2, 4), 2), (0, drawn(full(2, 2, 4), (1, 0, 0), (0, 0, 0)), 2)]
    yield in_bytes(full(4, 4, 8), pieces)


def text_calls():
    """Calls of which the text alone is shown."""
    for grids in text_trays():
        yield lent(grids, paged=3)
    # 12 before 17: a kind with two copies, no filled cell
    for grids in ([(1, full(1, 1, 2)), (2, M)], [(1, part((1, 1, 2), 0)), (1, M)]):
        for work in (8191, 8192):
            yield lent(grids, KNUTH, work=work, paged=3)
    # the longest lines, with numbers of three digits
    board = full(4, 4, 8)
    yield changed(shared(board, [(1, board, 0), (1, full(4, 4, 7), 0), (1, M, 0)], FAST), paged=3)


def text_trays():
    board = full(1, 2, 2)
    # each kind with and without a copy, the numbers with gaps; two copies of one
    for copies in [*product((0, 1), repeat=3), (2, 1, 1), (0, 2, 0), (1, 0, 2)]:
        yield [(1, board), *zip(copies, (M, D, CORNER))]
    # one kind lent twice, turned, in a longer box, in another wood
    for copies in product((0, 1), repeat=2):
        for grids in ((D, full(2, 1, 1)), (M, drawn(M, (0, 1, 0), (2, 0, 0)))):
            yield [(1, full(1, 2, 3)), *zip(copies, grids)]
    for pair in ((0, 1), (9, 9)):
        yield [(1, board), *((1, D, wood) for wood in pair)]
    # a kind with a copy that lies nowhere; kinds of two digits
    yield [(1, full(1, 1, 2)), (1, full(1, 1, 3)), (1, M)]
    yield [(1, full(1, 1, 1))] + [(1, M, wood) for wood in range(16)]
    # cells in the order of the turned grid: gaps in the board, handed pieces, scan order along the sides' order, empty layers
    yield [(1, row("1011001")), (1, row("1001")), (1, row("101"))]
    yield [(1, full(2, 2, 3)), (1, HANDED), (1, PARTNER)]
    yield [(1, ((3, 2, 2), (1,) * 5 + (0,) + (1,) * 6)), (1, CORNER), (1, HOLLOW), (1, D)]
    yield [(1, drawn(full(2, 3, 1), (1, 0, 2), (0, 1, 0))), (1, drawn(CORNER, (0, 0, 1), (1, 0, 0))), (1, full(3, 1, 1))]
    # no filled cell, kinds without copies
    for copies in (0, 1):
        yield [(1, part((1, 1, 3), 0)), (copies, M)]


def in_bytes(board, pieces):
    """A call of Knuth without pages whose grids begin where their cells first stand."""
    data, records = list(board[1]), [(*board[0], 1, 0, 0)]
    for count, (sides, cells), wood in pieces:
        text, own = "".join(map(str, data)), "".join(map(str, cells))
        if own not in text:
            # behind what is there, as far as its beginning stands there already
            shared = max(n for n in range(len(own)) if text.endswith(own[:n]))
            data += cells[shared:]
            text = "".join(map(str, data))
        records.append((*sides, count, wood, text.index(own)))
    return [len(pieces), KNUTH, 0, 0, 8192, 32768, 0, records, data]


def is_small(call):
    """Few enough cells that its pages are found at once."""
    return sum(call[8]) < 40


def trays(seed, count, most):
    """Random trays of the oracle's stream, for Fast, with pages; no more than `most`, of those whose list is not long."""
    oracle = Path(__file__).parent / "target" / "release" / "trays"
    stream = subprocess.run([oracle, str(seed), str(count)], capture_output=True, check=True).stdout
    at = found = 0
    while at < len(stream) and found < most:
        end = stream.index(b"\n", at)
        _, _, size, expected, _ = stream[at:end].split(b"\t")
        start = end + 1
        at = start + int(size) + int(expected)
        try:
            engine, identified, board, pieces = model.parse(stream[start:start + int(size)])
        except model.Malformed:
            continue
        if engine != "fast" or len(pieces) > 17 or stream[start + int(size):at].count(b"\n") > 60:
            continue
        turned, mirrored = {"none": (0, 0), "turned": (1, 0), "mirrored": (1, 1)}[identified]
        call = lent([(1, board)] + pieces, FAST, turned, mirrored, paged=2)
        if 0 < len(call[8]) <= 200:
            found += 1
            yield call


def text(call):
    n, *rest, records, data = call
    lines = [" ".join(map(str, [n, *rest]))]
    lines += [" ".join(map(str, entry)) for entry in records[:17]]
    return "\n".join(lines + ["".join(map(str, data))])


def read(source):
    fields = source.split()
    at = 0
    while at < len(fields):
        head = [int(field) for field in fields[at:at + 7]]
        at += 7
        records = []
        for _ in range(min(head[0], 16) + 1):
            records.append(tuple(int(field) for field in fields[at:at + 6]))
            at += 6
        yield [*head, records, [int(digit) for digit in fields[at]]]
        at += 1


def main():
    if sys.argv[1:] == ["calls"]:
        calls = list(systems())
        for part_of in (limits, pairs):
            calls += [changed(call, paged=int(is_small(call))) for call in part_of()]
        for part_of in (empty_boxes, woods, layers, text_calls):
            calls += part_of()
        calls += trays(31, 800, 220)
        lines = "".join(text(call) + "\n" for call in calls)
        assert len(lines) <= MOST_TEXT, len(lines)
        sys.stdout.write(lines)
        return
    for call in read(sys.stdin.read()):
        print("\n".join(show(call)))


if __name__ == "__main__":
    main()

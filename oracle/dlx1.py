#!/usr/bin/env python3
"""Runs a built `dlx1` on random trays and malformed files, and holds what it prints

    to the model and to src/texts.rs (target/release/text), byte for byte;
    to the rows that the original hands to its `KnuthAlgorithm` (target/release/rows), where
        it has any: byte for byte where each kind has a copy, else without the items and the
        rows of the kinds that have none, which the original has too;
    to the list of packings: the covers of the text, found by covers.py, are to be the
        packings of the model, and as many as the original lists under `none`.

    dlx1.py PROGRAM SEED COUNT

PROGRAM is any command, `python3 model.py dlx1` too. The files are COUNT cases of the stream
of target/release/trays (README.md, "The stream"), each as it is, and each that is well
formed once more with the counts thinned, since two copies of a kind are refused with 17.
Covers are counted where a text has at most 3,000, found in so many steps. Prints what was
compared and, last, how many differences; exit status 1 if there are any, or if the stream
breaks off.
"""

import collections
import itertools
import os
import random
import shlex
import subprocess
import sys
import time

sys.dont_write_bytecode = True  # nothing is to appear beside the sources
import covers
import model

HERE = os.path.dirname(os.path.abspath(__file__))
RELEASE = os.path.join(HERE, "target", "release")
MOST_COVERS = 3000
MOST_STEPS = 100000


def cases(seed, count):
    """The cases of a stream: name and tray."""
    stream = subprocess.Popen(
        [os.path.join(RELEASE, "trays"), seed, count], stdout=subprocess.PIPE
    )
    while header := stream.stdout.readline():
        _, name, tray, expected, _ = header.decode().split("\t")
        yield name, stream.stdout.read(int(tray))
        stream.stdout.read(int(expected))
    if stream.wait() != 0:
        sys.exit("dlx1.py: the stream of cases broke off")


def run(command, file):
    ran = subprocess.run(command, input=file, stdout=subprocess.PIPE, timeout=60)
    if ran.returncode != 0:
        return "status %d\n" % ran.returncode
    return ran.stdout.decode(errors="replace")


def original(program, file):
    return run([os.path.join(RELEASE, program)], file)


# ---------------------------------------------------------------- files

def thinned(rng, file):
    """The file with counts of 0 and 1. As a rule a kind has one copy, of any of its
    pieces; sometimes none; in one file of ten each piece has one, whatever its kind, and
    in one of twenty no piece has."""
    _, _, _, pieces = model.parse(file)
    of_kind = collections.defaultdict(list)
    for number, (_, grid, wood) in enumerate(pieces):
        filled = 1 in grid[1]
        # A piece without a filled cell is refused, and is here a kind for itself.
        kind = (model.variants(model.strip(grid)[0])[0], wood) if filled else number
        of_kind[kind].append(number)
    manner = rng.random()
    chosen = set(range(len(pieces)))
    if manner >= 0.1:
        chance = 1 if manner < 0.65 else 0.75 if manner < 0.95 else 0
        chosen = {rng.choice(own) for own in of_kind.values() if rng.random() < chance}
    lines = file.split(b"\n")
    for number in range(len(pieces)):
        fields = lines[2 + number].split(b"\t")
        fields[1] = b"1" if number in chosen else b"0"
        lines[2 + number] = b"\t".join(fields)
    return b"\n".join(lines)


def traits(problem):
    """What a tray that has a text has that is counted."""
    if not problem.pieces:
        yield "without a piece"
    elif not any(problem.copies):
        yield "with pieces and no copies, so without a bar"
    elif not all(problem.copies):
        yield "with kinds without copies among others"
    if len({wood for _, _, wood in problem.pieces}) > 1:
        yield "of several woods"
    if any(row.cells != sorted(row.cells) for row in problem.rows()):
        yield "with a line that is not in scan order"
    if any(row.cells[0] != row.place[0] for row in problem.rows()):
        yield "with a line that does not begin with p"
    if len(problem.kinds) > len({row.kind for row in problem.placements}):
        yield "with a kind that fits nowhere"


# ---------------------------------------------------- what they are held to

class Held:
    """Counts of what was compared, and of what differed."""

    def __init__(self, program):
        self.program = program
        self.counts = collections.Counter()
        self.refusals = collections.Counter()
        self.having = collections.Counter()
        self.differences = 0

    def hold(self, name, file):
        self.counts["files"] += 1
        right = model.text_printed(file)
        printed = run(self.program, file)
        self.same(name, "the model", printed, right)
        self.same(name, "src/texts.rs", printed, original("text", file))
        if right.startswith("refused"):
            self.refusals[int(right.split("\t")[1])] += 1
        if right.startswith("refused") and right != "refused\t17\n":
            return
        rows = original("rows", file)
        _, _, board, pieces = model.parse(file)
        problem = model.Problem(board, pieces)
        if right == "refused\t17\n":
            # There is no text. Held to each other: the model's lines, and the rows.
            self.hold_rows(name, problem, model.dlx1_text(problem), rows, "of trays refused with 17")
            return
        self.counts["texts"] += 1
        self.counts["lines"] += printed.count("\n")
        self.counts["bytes"] += len(printed)
        self.having.update(traits(problem))
        self.hold_rows(name, problem, printed, rows, "of texts")
        self.hold_covers(name, problem, printed, file)

    def same(self, name, what, found, right):
        if found == right:
            return True
        self.differs(name, what)
        for one, other in itertools.zip_longest(found.split("\n"), right.split("\n")):
            if one != other:
                print("    found %r, there %r" % (one, other))
                break
        return False

    def differs(self, name, what):
        self.differences += 1
        print("differs: %s (%s)" % (name, what))

    def hold_rows(self, name, problem, text, rows, of):
        if rows == "mixed\n" and len({wood for _, _, wood in problem.pieces}) > 1:
            self.counts["not compared with rows, several woods"] += 1
        elif rows == "panic\n" and not problem.pieces:
            self.counts["not compared with rows, no piece"] += 1
        elif all(problem.copies):
            self.counts["compared with rows as they are, " + of] += 1
            self.counts["rows as they are"] += rows.count("\n") - 1
            self.same(name, "the original's rows", text, rows)
        else:
            self.counts["compared with rows of kinds with copies, " + of] += 1
            self.same(name, "the original's rows of kinds with copies", text, with_copies(problem, rows))

    def hold_covers(self, name, problem, text, file):
        try:
            search = covers.Search(text, MOST_STEPS)
        except covers.Stop as why:
            self.differs(name, "DLX1 would stop: %s" % why)
            return
        try:
            found = list(itertools.islice(search.covers(), MOST_COVERS + 1))
        except covers.TooLong:
            self.counts["covers not counted: more than %d steps" % MOST_STEPS] += 1
            return
        if len(found) > MOST_COVERS:
            self.counts["covers not counted: more than %d" % MOST_COVERS] += 1
            return
        self.counts["texts with covers counted"] += 1
        self.counts["covers"] += len(found)
        self.counts["texts with a cover"] += bool(found)
        placements = [placement_of(option) for option in search.options]
        covered = [frozenset(placements[option] for option in cover) for cover in found]
        packings = [
            frozenset((row.kind, frozenset(row.cells)) for row in packing)
            for packing in problem.packings()
        ]
        if len(covered) != len(packings) or set(covered) != set(packings):
            self.differs(name, "%d covers, %d packings of the model" % (len(covered), len(packings)))
        _, rest = file.split(b"\n", 1)
        listing = original("oracle", b"config\tfast\tnone\n" + rest)
        if listing == "mixed\n":
            return
        self.counts["texts with covers compared with the original's list"] += 1
        number = int(listing.splitlines()[-1].split("\t")[1])
        if len(found) != number:
            self.differs(name, "%d covers, %d packings of the original" % (len(found), number))


def with_copies(problem, rows):
    """The original's rows as a text of the kinds with copies alone; no bar if there are none."""
    items, *lines = rows.splitlines()
    left_out = {"p%d" % kind for kind, copies in enumerate(problem.copies) if not copies}
    kept = [item for item in items.split(" ") if item not in left_out]
    if kept[-1] == "|":
        kept.pop()
    lines = [line for line in lines if line.split(" ")[0] not in left_out]
    return "".join(line + "\n" for line in [" ".join(kept)] + lines)


def placement_of(option):
    """The kind and the cells of an option, by the names of its items."""
    kinds = [int(item[1:]) for item in option if item[0] == "p"]
    cells = [int(item[1:]) for item in option if item[0] == "b"]
    return kinds[0], frozenset(cells)


def main():
    program, seed, count = sys.argv[1:]
    started = time.time()
    held = Held(shlex.split(program))
    for number, (name, file) in enumerate(cases(seed, count)):
        held.hold(name, file)
        try:
            fewer = thinned(random.Random("%s %d" % (seed, number)), file)
        except model.Malformed:
            continue
        if fewer != file:
            held.counts["files with the counts thinned"] += 1
            held.hold(name + ", thinned", fewer)
    for what, number in sorted(held.counts.items()):
        print("%8d  %s" % (number, what))
    for what, number in sorted(held.having.items()):
        print("%8d  texts of trays %s" % (number, what))
    for number, times in sorted(held.refusals.items()):
        print("%8d  refused with %d" % (times, number))
    print("%8d  seconds" % (time.time() - started))
    print("%d differences" % held.differences)
    sys.exit(1 if held.differences else 0)


if __name__ == "__main__":
    main()

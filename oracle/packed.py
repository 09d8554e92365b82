#!/usr/bin/env python3
"""packed.py PROGRAM SEED COUNT: runs a built `pack` on random trays and malformed files, and compares what it prints, byte for byte.

The stream of cases is that of target/release/trays (README.md, "The stream"). It tells how many of the files that are not refused have
no piece, several woods, empty outer layers. Status 1 on a difference."""
import subprocess
import sys
from concurrent.futures import ThreadPoolExecutor
from pathlib import Path

sys.dont_write_bytecode = True  # nothing is to appear beside the sources
import model

HERE = Path(__file__).resolve().parent


def cases(seed, count):
    """The cases of a stream: name, tray, expected bytes, kind."""
    stream = subprocess.Popen([HERE / "target/release/trays", seed, count], stdout=subprocess.PIPE)
    while header := stream.stdout.readline():
        _, name, tray, expected, kind = header.decode().rstrip("\n").split("\t")
        yield name, stream.stdout.read(int(tray)), stream.stdout.read(int(expected)), kind
    if stream.wait() != 0:
        sys.exit("packed.py: the stream of cases broke off")


def run(program, case):
    name, tray, expected, kind = case
    done = subprocess.run([program], input=tray, stdout=subprocess.PIPE)
    return name, tray, kind, len(expected), done.returncode == 0 and done.stdout == expected


def traits(tray):
    """What an accepted file has that is counted."""
    _, _, board, pieces = model.parse(tray)
    if not pieces:
        yield "without a piece"
    if len({wood for _, _, wood in pieces}) > 1:
        yield "of several woods"
    if any(map(model.has_empty_outer_layer, [board] + [grid for _, grid, _ in pieces])):
        yield "with empty outer layers"


def main():
    program, seed, count = sys.argv[1:]
    kinds, having, wrong, total = {}, {}, 0, 0
    with ThreadPoolExecutor(2) as pool:
        for name, tray, kind, size, same in pool.map(lambda case: run(program, case), cases(seed, count)):
            kinds[kind] = kinds.get(kind, 0) + 1
            total += size
            for trait in traits(tray) if kind != "refusal" else ():
                having[trait] = having.get(trait, 0) + 1
            if not same:
                wrong += 1
                print(f"differs: {name} ({kind})")
    told = ", ".join(f"{n} {kind}" for kind, n in sorted(kinds.items()))
    those = ", ".join(f"{n} {trait}" for trait, n in sorted(having.items()))
    print(f"packed.py {seed} {count}: {sum(kinds.values())} files ({told}), {total} bytes expected, {wrong} differences")
    print(f"of those not refused: {those}")
    sys.exit(1 if wrong else 0)


main()

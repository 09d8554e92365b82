#!/usr/bin/env python3
"""Holds what a built `catalogue` prints to the lists of grow.py, and to 21 and 16 where a
request is refused; and to the model, byte for byte.

    catalogue.py PROGRAM SEED COUNT

PROGRAM is any command, `python3 model.py catalogue` too. It is asked for 1 to 6 cells and
for the ends of what is a number, and then COUNT random requests: well-formed ones with
zeros before the number, 1 to 6 and others, and such with one thing spoilt. Prints how many
there were of each, and last how many differences; exit status 1 if there are any.
"""

import collections
import random
import re
import shlex
import subprocess
import sys
import time

sys.dont_write_bytecode = True  # nothing is to appear beside the sources
import grow
import model

REQUEST = re.compile(rb"cells\t([0-9]{1,10})\n")
LAST = 4294967295
FIRST_REQUESTS = [
    b"cells\t%s\n" % number
    for number in (
        b"1", b"2", b"3", b"4", b"5", b"6", b"0", b"7", b"255", b"257", b"65537", b"4294967295",
        b"0000000006", b"0000000000", b"0000000007", b"4294967296", b"4294967297", b"4294967302",
        b"9999999999", b"00000000006", b"42949672950",
    )
]


def expected(file):
    request = REQUEST.fullmatch(file)
    if request is None or int(request[1]) > LAST:
        return "refused\t16\n"
    n = int(request[1])
    return grow.listing(n) if 1 <= n <= 6 else "refused\t21\n"


def run(command, file):
    ran = subprocess.run(command, input=file, stdout=subprocess.PIPE, timeout=60)
    if ran.returncode != 0:
        return "status %d\n" % ran.returncode
    return ran.stdout.decode(errors="replace")


# ------------------------------------------------------------- requests

def well_formed(rng):
    """A request for 1 to 6 cells as a rule, with up to ten digits."""
    n = rng.choice((rng.randint(1, 6), rng.randint(1, 6), rng.randint(0, 20), any_number(rng)))
    return b"cells\t%0*d\n" % (rng.choice((1, 1, 1, rng.randint(1, 10), 10)), n)


def any_number(rng):
    return rng.choice((rng.randrange(2 ** rng.randint(1, 32)), LAST - rng.randint(0, 3), 2**31))


def with_word(rng, number):
    words = (b"", b"Cells", b"CELLS", b"cell", b"cellss", b" cells", b"cells ", b"piece", b"pieces",
             b"config", b"board", b"cells\0", b"c\xc3\xa9lls", b"\xef\xbb\xbfcells", b"cells\tcells")
    return b"%s\t%s\n" % (rng.choice(words), number)


def with_parting(rng, number):
    parting = rng.choice((b" ", b"", b"\t\t", b" \t", b"\t ", b"\\t", b",", b"=", b"\n", b"\0", b"\v"))
    return b"cells%s%s\n" % (parting, number)


def with_number(rng, number):
    numbers = (
        b"", b"-" + number, b"+" + number, b"--" + number, b" " + number, number + b" ", number + b".",
        number + b".0", b"0x" + number, number + b"e0", b"_" + number, number + b"_0", number + b",000",
        b"six", b"O", b"l", b"/", b":", b"\xc2\xb2", b"\xd9\xa3", b"\xef\xbc\x93", number + b"\0",
        number + b"\t", number + b"\t" + number, number + b"\t1", bytes([rng.choice((47, 58))]) + number,
    )
    return b"cells\t%s\n" % rng.choice(numbers)


def with_digits(rng, number):
    """Too many digits, or a number too large."""
    return b"cells\t%s\n" % rng.choice((
        number.zfill(rng.choice((11, 11, 12, 20, 100))), b"%d" % (LAST + 1 + rng.randint(0, 9)),
        b"%d" % rng.randint(LAST + 1, 9999999999), b"%d" % (2**32 * rng.randint(1, 9) + rng.randint(1, 6)),
        b"%d" % (2**64 + rng.randint(1, 6)), number + b"0" * rng.randint(10, 400),
    ))


def with_end(rng, number):
    line = b"cells\t" + number
    return rng.choice((
        line, line + b"\n\n", line + b"\r\n", line + b"\r", b"\n" + line + b"\n", line + b"\n" + line + b"\n",
        line + b"\n" + line, line + b"\npieces\t1\n", line + b"\n ", line + b"\n\0", line + b"\n\t",
        line + b"\t\n", b"config\tfast\tnone\n" + line + b"\n", b"", b"\n", b"\t\n", b"\n\n", b"\t", b"\0",
    ))


def with_length(rng, number):
    """A long text: with a request in front, or all of it one."""
    line = b"cells\t%s\n" % number
    length = rng.choice((100, 255, 256, 257, 4096, 16384, 16384, 16385, 16386, 20000, 65536, 70000))
    filling = rng.choice((b"\n", b"0", b"\0", b"x", b"\t", line))
    text = rng.choice((line, b"cells\t", b"")) + filling * length
    return text[:length - rng.choice((0, 0, 1, len(number) + 1))] + rng.choice((b"", line[5:]))


def with_bytes(rng, number):
    """A byte or two changed, put in or left out."""
    text = bytearray(b"cells\t%s\n" % number)
    for _ in range(rng.choice((1, 1, 2))):
        at = rng.randrange(len(text))
        some = bytes([rng.choice((rng.randrange(256), rng.choice(b"\0\t\n\r 0123456789celspi")))])
        text[at:at + rng.choice((0, 1))] = rng.choice((some, some, b""))
    return bytes(text)


SPOILS = (with_word, with_parting, with_number, with_digits, with_end, with_length, with_bytes)


def requests(seed, count):
    """The requests, each with a name."""
    rng = random.Random(seed)
    for file in FIRST_REQUESTS:
        yield "the first ones", file
    for number in range(count):
        if number % 4 == 0:
            yield "well formed", well_formed(rng)
        else:
            spoil = SPOILS[rng.randrange(len(SPOILS))]
            digits = b"%d" % rng.choice((rng.randint(1, 6), rng.randint(1, 6), any_number(rng)))
            yield spoil.__name__.replace("_", " "), spoil(rng, digits)


def main():
    program, seed, count = sys.argv[1:]
    started = time.time()
    made, held = collections.Counter(), collections.Counter()
    differences = 0
    for name, file in requests(seed, int(count)):
        made[name] += 1
        right = expected(file)
        held[right.splitlines()[-1].replace("\t", " ")] += 1
        printed, by_model = run(shlex.split(program), file), model.pieces_printed(file)
        for who, found in ("the program", printed), ("the model", by_model):
            if found != right:
                differences += 1
                print("differs (%s): %r: %r, not %r" % (who, file[:60], found[:60], right[:60]))
    for what, number in sorted(made.items()) + sorted(held.items()):
        print("%8d  %s" % (number, what))
    print("%8d  seconds" % (time.time() - started))
    print("%d differences" % differences)
    sys.exit(1 if differences else 0)


if __name__ == "__main__":
    main()

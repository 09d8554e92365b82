#!/usr/bin/env python3
"""The exact covers of a text as Knuth's DLX1 reads it. It knows nothing of trays, and
nothing of this project.

    covers.py [MOST] < TEXT              how many covers the text has (or "over MOST")

The first line has the items, parted by spaces: primary ones, and behind a bar secondary
ones. Each further line is an option, items that were named. A cover is a set of options
with each primary item in exactly one of them, and each secondary one in at most one.
It stops with a message where DLX1 stops: a line that is not ended, no primary item, an
item named twice, unknown or twice in an option, a name of more than 8 characters or with
a colon or a bar. It also stops at an option without a primary item, which DLX1 passes
over with a warning. As for DLX1, blank lines and lines that begin with a bar say nothing.
"""

import sys


class Stop(Exception):
    pass


def read(text):
    """The primary items, the secondary ones, and the options as lists of items."""
    if text and not text.endswith("\n"):
        raise Stop("a line that is not ended")
    lines = [line.split() for line in text.split("\n")]
    lines = [items for items in lines if items and not items[0].startswith("|")]
    if not lines:
        raise Stop("no primary item")
    items, *options = lines
    bars = [at for at, item in enumerate(items) if item == "|"] or [len(items)]
    if len(bars) > 1:
        raise Stop("two bars")
    primary, secondary = items[:bars[0]], items[bars[0] + 1:]
    named = set()
    for item in primary + secondary:
        if len(item) > 8 or ":" in item or "|" in item:
            raise Stop("no name of an item: " + item)
        if item in named:
            raise Stop("an item named twice: " + item)
        named.add(item)
    first = set(primary)
    for option in options:
        unknown = [item for item in option if item not in named]
        if unknown:
            raise Stop("unknown item: " + unknown[0])
        if len(set(option)) < len(option):
            raise Stop("an item twice in an option: " + " ".join(option))
        if first.isdisjoint(option):
            raise Stop("no primary item in an option: " + " ".join(option))
    return primary, secondary, options


class TooLong(Exception):
    """The search has taken more steps than it was allowed."""


class Search:
    """Algorithm X. Sets of options are whole numbers, bit n for option n."""

    def __init__(self, text, most_steps=None):
        primary, secondary, self.options = read(text)
        self.primary = primary
        self.having = dict.fromkeys(primary + secondary, 0)
        for number, option in enumerate(self.options):
            for item in option:
                self.having[item] |= 1 << number
        # The options that share an item with one, itself among them.
        self.meeting = []
        for option in self.options:
            meeting = 0
            for item in option:
                meeting |= self.having[item]
            self.meeting.append(meeting)
        self.most_steps = most_steps
        self.steps = 0

    def covers(self):
        """The covers one after another, as lists of numbers of options."""
        yield from self.step(self.primary, (1 << len(self.options)) - 1, [])

    def step(self, items, possible, chosen):
        """Takes the item with the fewest options still possible, and tries these."""
        self.steps += 1
        if self.most_steps is not None and self.steps > self.most_steps:
            raise TooLong
        if not items:
            yield list(chosen)
            return
        fewest, least = 0, len(self.options) + 1
        for item in items:
            options = possible & self.having[item]
            if not options:
                return
            number = bin(options).count("1")
            if number < least:
                fewest, least = options, number
        while fewest:
            number = fewest.bit_length() - 1
            fewest ^= 1 << number
            covered = self.options[number]
            left = [item for item in items if item not in covered]
            chosen.append(number)
            yield from self.step(left, possible & ~self.meeting[number], chosen)
            chosen.pop()


def main():
    most = int(sys.argv[1]) if sys.argv[1:] else None
    try:
        number = 0
        for _ in Search(sys.stdin.read()).covers():
            number += 1
            if most is not None and number > most:
                sys.exit("over %d" % most)
    except Stop as why:
        sys.exit("stopped: %s" % why)
    print(number)


if __name__ == "__main__":
    main()

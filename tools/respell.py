#!/usr/bin/env python3
"""Brings the names of this repository's own definitions and lemmas to the spelling of today's Rattle: words in snake case, facts in camel case.

usage: tools/respell.py [--check]     at the top of the repository, once, behind port.py

Turned are whole words of specs/, proofs/ and of the contracts, ghost items and comments of src/:
- a word in camel case, if a file of specs/ or proofs/ declares it or has it as a variable
- the dashes of a lemma's name, if nothing here has the name that comes out (a dash then joins two names, as in std)
- the statements of FACTS, which are types
Names of Rust's (functions, types, fields, constants), text in quotes, and names that Rattle makes stay. --check writes nothing; both say which names fall together.
"""
import collections
import os
import re
import sys

# statements are types; where a record has the name already, the statement says that it holds of all
FACTS = {
    "placementsRight": "PlacementsRight",
    "answersRight": "AnswersRight",
    "printedRight": "PrintedRight",
    "emptyBox": "EmptyBoxes",
    "never1": "Never1",
    "emptyBoxPrinted": "EmptyBoxPrinted",
    "demand1": "MeetsDemand1",
    "demand2": "MeetsDemand2",
    "demand3": "MeetsDemand3",
    "woodCarried": "WoodCarried",
    "woodLentCarried": "WoodLentCarried",
    "oneWood": "OneWood",
    "oneWoodCalls": "OneWoodCalls",
    "oneWoodPrinted": "OneWoodPrinted",
    "boardUnread": "BoardUnread",
    "strippedTray": "StrippedTrays",
    "asLent": "AsLent",
    "never7": "Never7",
    "pruning": "Pruning",
}
# lemmas that lost their dash to port.py and would take the name of the definition that they speak of
DASHED = ["first_rows", "in_order", "row_number", "told_of", "from_end", "copy_is", "in_frame", "is_odd", "always_mirrorable"]
OTHERS = {"not_None": "not-none", "all_get_d": "all_get_or", "get_d_map": "get_or_map", "get_d_of": "get_or_of"}
# a statement that port.py gave the name of a definition of another crate
PUT_BACK = ("crates/definitions/specs/EmptyLayers.antt", "crates/theorems/proofs/TrayLaws.antt")
WORD = re.compile(r"[^\s(){}.;,@\"«»\[\]|λ→:`]+")
DECLARED = re.compile(r"(?m)^\s*(?:unfoldable |abbrev |pub )*([A-Za-z_][^\s(){}:;.]*)(?:\s+[({][^:(){}]*:[^(){}]*[)}])*\s*:\s")
COMMENT = re.compile(r'''"(?:[^"\\\n]|\\.)*"|(?<![^\s(){}.;,])--[^\n]*|//[^\n]*''')


def snake(w):
    w = re.sub(r"([a-z0-9'])([A-Z])", r"\1_\2", w)
    return re.sub(r"([A-Z])([A-Z][a-z])", r"\1_\2", w).lower()


def files(ext):
    for d, dirs, fs in os.walk("crates"):
        dirs[:] = sorted(x for x in dirs if x != "out")
        for f in sorted(fs):
            if f.endswith(ext):
                yield os.path.join(d, f)


def words(text):
    return set(WORD.findall(text))


def main(argv):
    check = "--check" in argv
    texts = {p: open(p, encoding="utf-8").read() for p in files((".antt", ".rt"))}
    declared, lemma = set(), set()
    for p, t in texts.items():
        if p.endswith(".antt"):
            names = set(DECLARED.findall(t))
            declared |= names
            if p.count("/") == 3:
                lemma |= names
    everything = set()
    for t in texts.values():
        everything |= words(t)
    rust = set()
    for p, t in texts.items():
        if p.endswith(".rt"):
            rust |= set(re.findall(r"\b(?:const|static|struct|enum|type)\s+(\w+)", t))

    rust_fns = set()
    for p, t in texts.items():
        if p.endswith(".rt"):
            rust_fns |= set(re.findall(r"\b(?:fn|mod)\s+(\w+)", t))

    # a camel-case part anywhere in a word: afterCover-holds too
    def camel(w):
        parts = w.split("-")
        return "-".join(("get_or" if x == "getD" else snake(x)) if re.fullmatch(r"_?[a-z][\w']*", x) and re.search(r"[a-z0-9'][A-Z]", x) and not KEEP.fullmatch(x) else x for x in parts)

    KEEP = re.compile(r"[a-z][A-Z]")  # two letters are a variable
    table = {}
    for w in sorted(everything):
        c = camel(w)
        if c != w:
            table[w] = c
    table.update(FACTS)
    table.update(OTHERS)
    for w in DASHED:
        if w not in rust_fns:
            table[w] = w.replace("_", "-")
    taken = {table.get(w, w) for w in everything}
    for w in sorted(lemma):
        c = table.get(w, w)
        if "-" in c and re.fullmatch(r"[a-z_][\w'-]*", c):
            s = c.replace("-", "_")
            if s not in taken:
                table[w] = s
                taken.add(s)
    # what falls together in one file
    for p, t in texts.items():
        here = words(t)
        by = collections.defaultdict(set)
        for w in here:
            by[table.get(w, w)].add(w)
        for n, ws in sorted(by.items()):
            if len(ws) > 1:
                print(f"together: {p}: {n}: {' '.join(sorted(ws))}")
    for w, n in sorted(table.items()):
        if n in rust:
            print(f"rust: {w} -> {n}")
    turned = collections.Counter()

    def turn(p, text):
        def one(m, dashes=True):
            w = m.group(0)
            n = "PutBack" if w == "put_back" and p in PUT_BACK else table.get(w)
            if n is None or ("-" in w and not dashes):
                return w
            turned[w] += 1
            return n

        def plain(piece):
            return WORD.sub(lambda m: one(m, False), piece)

        # a comment's words keep their dashes outside of backticks, and so does all that is not a comment in a .rt file
        out, at = [], 0
        for m in COMMENT.finditer(text):
            out.append((WORD.sub(one, text[at : m.start()]) if p.endswith(".antt") else plain(text[at : m.start()])))
            if m.group(0).startswith('"'):
                out.append(m.group(0))
            else:
                halves = m.group(0).split("`")
                out.append("`".join(WORD.sub(one, h) if i % 2 else plain(h) for i, h in enumerate(halves)))
            at = m.end()
        rest = text[at:]
        out.append(WORD.sub(one, rest) if p.endswith(".antt") else plain(rest))
        return "".join(out)

    for p, t in texts.items():
        n = turn(p, t)
        if n != t and not check:
            with open(p, "w", encoding="utf-8") as f:
                f.write(n)
    if not check:
        with open("tools/respelled.tsv", "w", encoding="utf-8") as f:
            f.write("".join(f"{w}\t{n}\n" for w, n in sorted(table.items())))
    print(f"{len(table)} names, {sum(turned.values())} places")
    return 0


if __name__ == "__main__":
    sys.exit(main(sys.argv[1:]))

#!/usr/bin/env python3
"""Facts that stand in the `requires` of three functions or more, and parameters that travel together in four or more: python3 tools/facts.py, at the top of the repository."""
import collections
import glob
import itertools
import re

facts = collections.defaultdict(set)
groups = collections.defaultdict(set)
for path in sorted(glob.glob('crates/*/src/*.rt')):
    text = re.sub(r'//[^\n]*', '', open(path, encoding='utf-8').read())
    crate = path.split('/')[1]
    for found in re.finditer(r'\bfn (\w+)(?:<[^>]*>)?\(([^)]*)\)', text):
        name = f'{crate}::{found.group(1)}'
        after = text[found.end():]
        stop = re.search(r'^\s*\{$|\n\{|\bensures\b', after, re.M)
        asked = after[:stop.start()] if stop else ''
        for fact in set(re.findall(r'\b([A-Z][A-Za-z0-9]+)\b(?=[ )])', asked)) - {'Config', 'T', 'SolverKind'}:
            facts[fact].add(name)
        for word in re.findall(r'length (\w+)\.(?:now|old) ≡ (\w+)', asked):
            facts['length {} ≡ {}'.format(*word)].add(name)
        parameters = [p.split(':')[0].strip() for p in found.group(2).split(',') if ':' in p]
        for pair in itertools.combinations(parameters, 3):
            groups[pair].add(name)
print('facts in requires of three functions or more:')
for fact, names in sorted(facts.items(), key=lambda f: -len(f[1])):
    if len(names) > 2:
        print(f'{len(names):4} {fact}: ' + ', '.join(sorted({n.split("::")[0] for n in names})))
print('three parameters together in six functions or more:')
for group, names in sorted(groups.items(), key=lambda f: -len(f[1])):
    if len(names) > 5:
        print(f'{len(names):4} {", ".join(group)}: ' + ', '.join(sorted({n.split("::")[0] for n in names})))

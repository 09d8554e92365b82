#!/usr/bin/env python3
"""Functions that are alike but for a type, a size, a constant or names: python3 tools/twins.py, at the top of the repository.

Each function of crates/*/src is read as words; clauses and comments are left out, and every name, type and number is replaced by the order in which it first comes. Functions of more than
one statement whose words are the same then are printed as a group. (Two tests of one `if` each may be alike by chance: the groups are to be read.)"""
import collections
import glob
import re

KEPT = {'fn', 'let', 'mut', 'if', 'else', 'while', 'for', 'in', 'return', 'match', 'loop', 'true', 'false', 'as', 'pub', 'crate', 'self', 'Self', 'break', 'continue'}


def functions(path):
    text = re.sub(r'//[^\n]*', '', open(path, encoding='utf-8').read())
    text = re.sub(r'^\s*(ghost\b[^;{]*;|ghost use [^;]*;)', '', text, flags=re.M)
    for found in re.finditer(r'\bfn (\w+)', text):
        at = found.start()
        head = at
        # the clauses of a contract stand in braces after requires or ensures
        body = None
        i = found.end()
        while i < len(text):
            clause = re.match(r'\s*(requires|ensures|ghost)\*?\s*\w*\s*\{', text[i:])
            if clause:
                i += clause.end()
                depth = 1
                while depth:
                    depth += {'{': 1, '}': -1}.get(text[i], 0)
                    i += 1
                continue
            if text[i] == '{':
                body = i
                break
            if text[i] == ';':
                break
            i += 1
        if body is None:
            continue
        signature = re.split(r'\b(?:requires|ensures)\b', text[head:body])[0]
        depth, j = 1, body + 1
        while depth:
            depth += {'{': 1, '}': -1}.get(text[j], 0)
            j += 1
        yield found.group(1), signature, text[body:j]


def shape(signature, body):
    seen = {}
    words = []
    for word in re.findall(r"[A-Za-z_]\w*|\d+|b?\"[^\"]*\"|[^\s\w]", signature + body):
        if re.match(r'[A-Za-z_]|\d|b?"', word) and word not in KEPT:
            word = seen.setdefault(word, f'#{len(seen)}')
        words.append(word)
    return ' '.join(words)


groups = collections.defaultdict(list)
for path in sorted(glob.glob('crates/*/src/*.rt')):
    for name, signature, body in functions(path):
        if body.count(';') + body.count('{') > 2:
            groups[shape(signature, body)].append(f'{path[7:]}: {name}')
alike = [g for g in groups.values() if len(g) > 1]
for group in alike:
    print(', '.join(group))
print(f'{sum(len(g) for g in alike)} functions in {len(alike)} groups')

#!/usr/bin/env python3
"""On which function each theorem of docs/SPECIFICATION.md stands: python3 tools/theorems.py, at the top of the repository.

A law that no contract needs could be deleted, or its statement emptied, and nothing would notice. So for each theorem and law that SPECIFICATION names one
line:
- contract: it is closed, and an `ensures` of a public function says it, as it is or by a definition that stands there (bodies and fields are followed)
- proof: the proof of a function cites it, perhaps through other laws, or through a theorem that stands on a contract
- table: closed and computed, over a table of cases, no promise of the code
What SPECIFICATION has behind "Statement:" has to stand on a contract, where it is closed. Status 1 where a theorem stands on nothing, or is not there.
It reads names and brackets, and proves nothing: two statements are one here if they are the same definition, of nothing that the contract's does not name."""
import collections
import glob
import re

BRACKETS = {'(': 1, '{': 1, '[': 1, ')': -1, '}': -1, ']': -1}
WORD = re.compile(r'[^\s(){}\[\].,;"`]+')
USE = re.compile(r'^\s*(?:ghost |pub )*use Rattle\.(\w+)\.(specs|proofs)\.([\w.+]+?)(?:\.\{([^}]*)\}| as \w+)', re.M)
DECLARED = re.compile(r'((?:pub |unfoldable |abbrev |record )*)([^\s(){}.;,]+)((?:\s+[({][^(){}]*(?:\([^()]*\)[^(){}]*)*[)}])*)\s+:\s+(.*)', re.S)
RULES = re.compile(r'(pub )?ruleset (\S+)() = ()')  # a set of laws, which cites each of them
FUNCTION = re.compile(r'(?:using\(([^)]*)\)[^{}]*?)?\b(pub(?:\([^)]*\))? )?(?:const |unsafe |extern "C" )*fn (\w+)')
BLOCK = re.compile(r'\n(?=\S)')  # a line begins that is not further in
BINDERS = re.compile(r'[({]([^(){}:]*)\s:\s')
CLAUSE = re.compile(r'\s*(requires|ensures|ghost)\*?\s*(\w*)\s*\{')
HEAD = re.compile(r'[^{]*?(?=\s*(?:\brequires\b|\bensures\b|\{))')
LABEL = re.compile(r'\b(Definition|Function|Statement|Theorem or law|Theorems?|Laws?|Table|Computed|Entries|Must-fail edits?)\b[^:`.;]*:')


def closing(text, i):
    """The place behind the bracket that closes the one at i."""
    depth, i = 1, i + 1
    while depth:
        depth, i = depth + BRACKETS.get(text[i], 0), i + 1
    return i


def split(text, sign):
    """At a sign that stands between spaces, outside of brackets."""
    parts, depth = [''], 0
    for piece in re.split(rf'( {sign} |[(){{}}\[\]])', text) if sign in text else [text]:
        depth += BRACKETS.get(piece, 0)
        parts = parts + [''] if depth == 0 and piece == f' {sign} ' else parts[:-1] + [parts[-1] + piece]
    return parts


def promises(text, given=frozenset()):
    """What a type promises, and under which premises: behind quantifiers, premises and `let`, each part of its product; of a choice nothing."""
    text = ' '.join(text.split())
    while text.startswith('(') and closing(text, 0) == len(text):
        text = text[1:-1].strip()
    if text.startswith('let '):
        return promises(text[len(split(text, 'in')[0]) + 4:], given)
    *premises, last = split(text, '→')
    given |= {premise for premise in premises if not BINDERS.match(premise)}
    parts = split(last, '×')
    if parts != [text]:
        return [promise for part in parts for promise in promises(part, given)]
    return [(text, given)] if len(split(text, '⊎') + split(text, '↔')) == 2 else []


class Declaration:
    def __init__(self, file, block, found, outer):
        self.file, self.blocks = file, [block]
        words, self.name, parameters, type_ = found.groups()
        self.is_record = 'record' in words
        self.type = ' '.join((type_.partition(' where\n')[0] if self.is_record else type_).split())
        self.bound = set(' '.join(BINDERS.findall(outer + parameters + self.type)).split())
        self.is_law = file.kind == 'proofs' and '.' not in file.module and words in ('', 'pub ')
        self.is_statement = file.kind == 'specs' and split(self.type, '→')[-1].startswith('Type')
        self.is_closed = bool(self.type) and not outer and '→' not in self.type

    def within(self):
        """The types that the fields of a statement, or the right sides of its equations, are; each with the names that are bound there."""
        equation = re.compile(re.escape(self.name) + r'((?:\s.*?)?)\s=\s(.*)', re.S)
        for block in BLOCK.split(self.blocks[0].replace('\n  ', '\n').partition(' where\n')[2]) if self.is_record else self.blocks[1:]:
            if found := (DECLARED if self.is_record else equation).fullmatch(block):
                left, *_, type_ = found.groups()
                yield type_, self.bound.union(WORD.findall(left), ' '.join(BINDERS.findall(type_)).split())


class File:
    """A file of specs or proofs, or of code: what it declares, and where its other names come from."""
    def __init__(self, path):
        _, self.crate, self.kind, rest = path.split('/', 3)
        self.module = rest.rsplit('.', 1)[0].replace('/', '.')
        mark = '//' if path.endswith('.rt') else '--'
        self.text = re.sub(r'(^|[\s(){}.;,])' + mark + r'[^\n]*', r'\1', open(path, encoding='utf-8').read())
        self.names, self.modules, self.declared = {}, [], {}
        for *module, names in USE.findall(self.text):
            self.modules += [tuple(module)] if not names else []
            for name in filter(None, (n.strip() for n in names.split(','))):
                name, _, other = name.partition(' as ')
                self.names[other or name] = (tuple(module), name)
        if mark == '--':
            self.declare(re.sub(r'\n\s*(?=\n)', '', self.text).strip(), '')

    def declare(self, text, outer):
        """A declaration, and what follows up to the next; `module _ (..) where` has some within, with more that is bound."""
        here = None
        for block in BLOCK.split(text):
            if block.startswith('module _'):
                head, _, inner = block.replace('\n  ', '\n').partition(' where\n')
                self.declare(inner, outer + head)
            elif found := DECLARED.fullmatch(block) or RULES.match(block):
                here = Declaration(self, block, found, outer)
                self.declared.setdefault(here.name, here)
            elif here:
                here.blocks.append(block)


class Repository:
    def __init__(self):
        read = [File(path) for kind in ('specs', 'proofs') for path in sorted(glob.glob(f'crates/*/{kind}/**/*.antt', recursive=True))]
        self.files = {(file.crate, file.kind, file.module): file for file in read}
        self.code = [File(path) for path in sorted(glob.glob('crates/*/src/*.rt'))]
        self.crates, self.modules = {file.crate for file in read}, {file.module for file in read if file.kind == 'proofs'}
        # the laws of each name, and what else a name may be: a definition, its field, a name of the code, a crate
        self.laws = collections.defaultdict(list)
        others = re.compile(r'\b(?:fn|struct|enum|type|record|abbrev|unfoldable) (?:pub )?([^\s(<]+)|^ +pub (\S+) :', re.M)
        self.others = {file.crate for file in self.code}.union(*(names for file in read + self.code for names in others.findall(file.text)))
        # what the contract of each public function comes to; and who cites a law: other laws, and functions, which are names
        self.said, self.citers = collections.defaultdict(list), collections.defaultdict(set)
        for file in self.code:
            self.read_code(file)
        for here in (here for file in read for here in file.declared.values()):
            self.laws[here.name] += [here] if here.is_law else []
            self.read_citations(here)

    def find(self, file, name):
        """The declaration that a name in a file means; one that is handed on is followed."""
        module, there = file.names.get(name, ('', ''))
        return file.declared.get(name) if name in file.declared or module not in self.files else self.find(self.files[module], there)

    def read_citations(self, here):
        """The laws that a law's or a function's proof cites: names not bound, nor fields; behind a dot, those of a module that has a name of its own."""
        *way, last = here.file.module.split('.')
        function = '::'.join([here.file.crate] + [w.lstrip('+') for w in way]) if last in ('Answers', 'Invariants', 'Proof') else None
        for dot, name, sets in re.findall(r'(\.?)(' + WORD.pattern + r')(\s=\s)?', '\n'.join(here.blocks)):
            files = [self.files[module] for module in here.file.modules if module in self.files] if dot else [here.file]
            for law in [self.find(file, name) for file in files if not sets and name not in here.bound]:
                if law is not here and here.file.kind == 'proofs':
                    self.citers[law].add(function or here)

    def read_code(self, file):
        is_in_lib = re.compile(rf'^pub (mod {file.module};|use {file.module}::)', re.M)
        is_open = file.module == 'lib' or any(is_in_lib.search(other.text) for other in self.code if (other.crate, other.module) == (file.crate, 'lib'))
        for found in FUNCTION.finditer(file.text):
            laws, public, name = found.groups()
            name = '::'.join([file.crate, file.module, name]).replace('::lib::', '::')
            for crate, module, law in re.findall(r'(\w+)::proofs::(\w+)::([^\s,]+)', laws or ''):
                there = self.files.get((file.crate if crate == 'crate' else crate, 'proofs', module))
                self.citers[there and there.declared.get(law)].add(name)
            if is_open and public == 'pub ':
                i = HEAD.match(file.text, found.end()).end()
                while clause := CLAUSE.match(file.text, i):
                    i = closing(file.text, clause.end() - 1)
                    if clause.group(1) == 'ensures':
                        self.said[name] += self.reached(file, file.text[clause.end():i - 1], clause.group(2) or 'ensures')

    def reached(self, file, text, clause):
        """What a clause says, and all that the statements in it come to: (declaration, text, premises, what it names, clause)."""
        out, seen, waiting = [], set(), [(file, text, frozenset())]
        for here, *type_ in waiting:
            for promise, given in promises(*type_):
                head, *names = [self.find(here, word) for word in WORD.findall(promise) or ['']]
                out.append((head, promise, given, set(names), clause))
                if head and head.is_statement and (head, given) not in seen:
                    seen.add((head, given))
                    waiting += [(head.file, inner, given) for inner, _ in head.within()]
        return out

    def clauses(self, file, type_, bound, said, given=frozenset(), unfolded=()):
        """The clauses that say what a type says, under no more premises, or None. A statement by a definition stands too where all that it says does."""
        found = set()
        for promise, given_here in promises(type_, given):
            first, *words = WORD.findall(promise) or ['']
            head, names = self.find(file, first), {self.find(file, word) for word in words if word not in bound} - {None}
            is_statement = head and head.is_statement
            at = [clause for there, text, asked, others, clause in said
                  if asked <= given_here and (there is head and names <= others if is_statement else text == promise and not bound)]
            if not at and is_statement and not head.is_record and head not in unfolded:
                inner = [self.clauses(head.file, t, b, said, given_here, (*unfolded, head)) for t, b in head.within()]
                at = [', '.join(inner)] if inner and None not in inner else []
            if not at:
                return None
            found.add(at[0])
        return ', '.join(sorted(found)) or None

    def in_proof(self, law, standing):
        """The nearest function that a way of citations leads to, a public one if there is any; a theorem on a contract leads to its function."""
        waiting, ends = [law], []
        for here in waiting:
            laws = sorted((c for c in self.citers[here].difference(waiting) if not isinstance(c, str)), key=lambda c: (c.file.crate, c.file.module, c.name))
            ends += sorted([c for c in self.citers[here] if isinstance(c, str)] + [standing[c] for c in laws if c in standing])
            waiting += laws
        return next((end for end in ends if re.sub(r'::[A-Z]\w*(?=::)', '', end.split(',')[0]) in self.said), (ends + [None])[0])

    def meant(self, name, behind, section):
        """The laws of a name: of the module and crate in the parentheses right behind it, or behind its list if they are there; else of the section."""
        laws = self.laws[name]
        listed = re.match(r'((?:(?:,|;| and|, by) `[^`]*`)*) \(([^()]*(?:\([^()]*\))?)', behind)
        words = set(re.findall(r'\w+', listed.group(2))) if listed else set()
        for named, of in ((words & self.modules, 'module'), (words & self.crates, 'crate'), (section or {'theorems', 'definitions'}, 'crate')):
            there = [law for law in laws if getattr(law.file, of) in named]
            laws = there if there or of == 'module' and named and not listed.group(1) else laws
        return laws


def named(crates):
    """The names in backticks in SPECIFICATION: (label, name, what stands behind it, the crates of its section); and those of the exact statements."""
    section, was = set(), ''
    for part in re.split(r'\n(?=- |\n|## )', open('docs/SPECIFICATION.md', encoding='utf-8').read()):
        if part.strip().startswith('## '):
            section = crates.intersection(re.findall(r'`(\w+)`', part))
        elif was.strip() == 'The exact statements:':
            yield from (('exact', name, '', section) for name in re.findall(r'^    (\S+) : ', part, re.M))
        was, pieces = part, LABEL.split(' '.join(part.split()))
        for label, region in zip(pieces[1::2], pieces[2::2]):
            yield from ((label, found.group(1), region[found.end():], section) for found in re.finditer(r'`([^`\s:]+)`', region))


def main():
    repository = Repository()
    theorems, statements, failures, count = {}, set(), [], collections.Counter()
    for label, name, behind, section in named(repository.crates):
        statements |= {name} if label == 'Statement' else set()
        if label.startswith(('Theorem', 'Law', 'Computed', 'exact')) and (label != 'exact' or theorems.keys().isdisjoint(repository.laws[name])):
            laws = repository.meant(name, behind, section)
            theorems |= dict.fromkeys(laws)
            failures += [f'{name}: SPECIFICATION names what is not there'] if not laws and name not in repository.others else []
    for law in theorems:
        theorems[law] = [f'{name}, {at}' for name, said in repository.said.items()
                         if law.is_closed and (at := repository.clauses(law.file, law.type, law.bound, said))]
    standing = {law: at[0] for law, at in theorems.items() if at}
    for law, at in theorems.items():
        is_promise = law.is_closed and law.type.split()[0] in statements
        function = None if at or is_promise else repository.in_proof(law, standing)
        where = function or ', and '.join(at[:1] + [f'{len(at) - 1} more'] * bool(at[1:]))
        how = 'proof' if function else 'contract' if at else ''
        if not how and law.is_closed and law.type.startswith('T ') and re.search(r'= (tt|refl)$', law.blocks[-1].strip()):
            how, where = 'table', law.type
        if how:
            count[how] += 1
            print(f'{law.name} {law.file.crate} {how}: {where}')
        else:
            failures.append(f'{law.name} {law.file.crate} ({law.file.module}): ' + ('no public contract says it' if is_promise else 'stands on nothing'))
    if failures:
        raise SystemExit('\n'.join(dict.fromkeys(failures)))
    print(f'{sum(count.values())} theorems: {count["contract"]} on contracts, {count["proof"]} cited by proofs, {count["table"]} tables')


main()

#!/usr/bin/env python3
"""Counts, in the sources below crates/, the places that docs/DESIGN-PASS.md speaks of, point by point.

Usage: design_counts.py [-l] [FOLDER]. With -l it names each place. FOLDER is a checkout, the current one if it is left out.
"""
import re
import sys
from pathlib import Path

names = '-l' in sys.argv
rest = [a for a in sys.argv[1:] if a != '-l']
root = Path(rest[0] if rest else '.')
sources = sorted(root.glob('crates/*/src/**/*.rt'))
text = {p: p.read_text() for p in sources}


def place(path, at):
    return f"{path.relative_to(root)}:{text[path][:at].count(chr(10)) + 1}"


def code(t):
    """The text with comments blanked, so that places keep their lines."""
    return re.sub(r'//[^\n]*', lambda m: ' ' * len(m.group(0)), t)


clean = {p: code(t) for p, t in text.items()}


def body_at(t, at):
    """From the first brace at or after a place to the one that closes it."""
    start = t.index('{', at)
    depth = 0
    for i in range(start, len(t)):
        depth += {'{': 1, '}': -1}.get(t[i], 0)
        if depth == 0:
            return start, i + 1
    return start, len(t)


def functions():
    for p in sources:
        t = clean[p]
        for m in re.finditer(r'\bfn (\w+)\s*(?:<[^(]*>)?\s*\(', t):
            depth, i = 0, m.end() - 1
            while True:
                depth += {'(': 1, ')': -1}.get(t[i], 0)
                if depth == 0:
                    break
                i += 1
            parameters = [x for x in re.split(r',(?![^<(\[]*[>)\]])', t[m.end():i]) if x.strip()]
            # The contract's clauses have braces of their own: the body is the first block that begins a line.
            b = re.compile(r'^\s*\{\s*$|\{\s*$', re.M).search(t, i)
            if not b:
                continue
            start, end = body_at(t, b.start())
            yield p, m.group(1), m.start(), parameters, t[start:end]


def enums():
    for p in sources:
        t = clean[p]
        for m in re.finditer(r'\benum (\w+)', t):
            start, end = body_at(t, m.end())
            yield p, m.group(1), m.start(), re.findall(r'^\s{4}(\w+)', t[start:end], re.M)


def structs():
    for p in sources:
        t = clean[p]
        for m in re.finditer(r'\bstruct (\w+)[^{;]*\{', t):
            start, end = body_at(t, m.start())
            yield p, m.group(1), m.start(), re.findall(r'(\w+): ([^,\n]+),', t[start:end])


def show(point, what, found):
    print(f"{point}  {what}: {len(found)}")
    if names:
        for f in found:
            print('      ', f)


def lines(pattern):
    return [f"{place(p, m.start())} {m.group(0).strip()[:70]}" for p in sources for m in re.finditer(pattern, clean[p], re.M)]


NOTHING = {'Refused', 'Empty', 'Absent', 'Missing', 'Unknown', 'UnknownKind', 'WrongMap', 'Nothing', 'Nowhere'}
all_enums = list(enums())
shaped = {n for _, n, _, v in all_enums if NOTHING & set(v)}
all_functions = list(functions())

show('1', 'enums with a variant for a refusal or for nothing',
     [f"{place(p, at)} {n}" for p, n, at, v in all_enums if NOTHING & set(v)])
show('1', 'structs with a flag, or with such an enum, beside a value',
     [f"{place(p, at)} {n}" for p, n, at, fs in structs()
      if len(fs) > 1 and any(ty == 'bool' or ty in shaped for _, ty in fs)])
show('1', 'numbers that stand for kinds or refusals', lines(r'pub const \w+: u8 = \d+;') + lines(r'^\s+\d+ => '))

shapes = {}
for p, n, at, ps, body in all_functions:
    tokens = re.findall(r'\w+|[^\s\w]', body)
    kinds = [t if t in {'if', 'else', 'match', 'while', 'for', 'return', 'let', 'mut', 'in'} or not re.match(r'\w', t) else 'x'
             for t in tokens]
    if len(kinds) >= 20:
        shapes.setdefault(' '.join(kinds), []).append(f"{place(p, at)} {n}")
show('2', 'functions whose text is that of another, but for names and numbers',
     [f for group in shapes.values() if len(group) > 1 for f in group])

show('3', 'loops by a condition (`while`)', lines(r'^\s*(?:\'\w+: )?while '))
show('3', 'of these, loops that count an index or a rest by one', [
    f for p in sources for m in re.finditer(r'^(\s*)while ([^\n]*)\{\n(.*?)^\1\}', clean[p], re.M | re.S)
    if re.search(r'^\s*(\w+) [+-]= 1;', m.group(3), re.M)
    for f in [f"{place(p, m.start())} while {m.group(2).strip()}"]])
show('4', 'bytes of a number by arithmetic', lines(r'[/%*] 256\b'))
show('4', 'functions that compare, order or widen by hand',
     [f"{place(p, at)} {n}" for p, n, at, ps, body in all_functions
      if n in {'same_kind', 'same_address', 'wide', 'lower', 'at_most', 'bits_for', 'rows_told', 'groups_in', 'edges_in', 'number_of', 'place_of',
               'front', 'more_than', 'better'}])
show('5', 'functions with six parameters or more',
     [f"{place(p, at)} {n} {len(ps)}" for p, n, at, ps, body in all_functions if len(ps) >= 6])
show('6', 'functions that take a list and a count or an end beside it',
     [f"{place(p, at)} {n}" for p, n, at, ps, body in all_functions
      if any(re.match(r'\s*(?:mut )?(count|length|end|last|items|drawn|needed|written)\s*:', x) for x in ps)
      and any(re.search(r'\[|Edges|Groups|Trail|Links', x) for x in ps)])
show('7', 'steps chosen by a switch, tables of functions', lines(r'\bfn\(|\bdyn '))
answers = sorted(root.glob('crates/*/proofs/**/Answers.antt'))
print(f"8  files of answers: {len(answers)}, their lines: {sum(p.read_text().count(chr(10)) for p in answers)}, "
      f"lines of proofs/: {sum(p.read_text().count(chr(10)) for p in root.glob('crates/*/proofs/**/*.antt'))}")

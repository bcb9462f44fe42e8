#!/usr/bin/env python3
"""Prints the places in crates/*/src where an older way of writing may stand, by the points of docs/DESIGN-PASS.md.

    python3 tools/places.py [FOLDER]      # FOLDER: a checkout, by default this one

What it prints is to be read: it finds forms of text, and only a reader tells whether a place is one. Tests are read like other code.
"""
import collections
import pathlib
import re
import sys

top = pathlib.Path(sys.argv[1] if len(sys.argv) > 1 else '.')
files = {str(p.relative_to(top)): p.read_text() for p in sorted(top.glob('crates/*/src/**/*.rt'))}


def lines(pattern):
    return [(f, n, l.strip()) for f, t in files.items() for n, l in enumerate(t.split('\n'), 1) if re.search(pattern, l)]


def functions():
    """Each function: file, name, head (parameters and clauses), body."""
    for f, t in files.items():
        for m in re.finditer(r'\bfn ([a-z_0-9]+)', t):
            depth, i, clause = 0, m.end(), False
            start = None
            while i < len(t):
                c = t[i]
                if c == '{':
                    if depth == 0 and re.search(r'(requires|ensures)\*?( \w+)? $', t[m.end():i]):
                        clause = True
                    if depth == 0 and not clause:
                        start = i
                    depth += 1
                elif c == '}':
                    depth -= 1
                    if depth == 0:
                        if clause:
                            clause = False
                        else:
                            yield f, m.group(1), t[m.end():start], t[start:i + 1]
                            break
                elif c == ';' and depth == 0 and t[m.end():i].count('[') == t[m.end():i].count(']'):
                    break
                i += 1


def show(title, places):
    print(f'{title}: {len(places)}')
    for p in places:
        print('   ', *p)


print('== 1 Option, Result, enums')
show('enums (read: which have the shape of Option or Result)', lines(r'\benum [A-Z]'))
show('0 for none', lines(r'\b0 (for|of|where|if) (none|no |the base)'))
show('numbers for orders in structs and enums', lines(r'^\s*(pub )?order: u8|\border: u8 }'))
show('flags', lines(r'let mut \w+ = (true|false)'))
show('refusals numbered in text', lines(r'"refused [0-9]+'))

print('== 2 twins')
groups = collections.defaultdict(list)
for f, name, head, body in functions():
    text = re.sub(r'//.*', '', body)
    text = re.sub(r'\b%s\b' % name, 'F', text)
    text = re.sub(r'\b(u8|u16|u32|u64|u128|usize|i16|i32|i64)\b', 'T', text)
    text = re.sub(r'\b[A-Z]\w*\b', 'C', text)
    text = re.sub(r'\b(true|false|\d[\d_]*)\b', '#', text)
    text = re.sub(r'\s+', ' ', text)
    if len(text) > 30:
        groups[text].append((f, name))
show('groups of functions that differ in types, names of types or numbers alone', [tuple(f'{f}:{n}' for f, n in g) for g in groups.values() if len(g) > 1])

print('== 3 index loops')
show('loops over a range', lines(r'\bfor .* in .*\.\.'))
show('while and loop', lines(r'^\s*(while|loop)\b'))
show('counting by hand', lines(r'\+= 1\b|_add\(1\)'))

print('== 4 traits of std by hand')
show('impls by hand', lines(r'^impl.* (From<.*>|TryFrom<.*>|fmt::Display|Display|PartialEq|Eq|Ord|PartialOrd|Clone|Copy|Debug|Default|FromStr) for'))
maps = []
for f, name, head, body in functions():
    if re.search(r'Some\((\w+)\) => Some\(|Ok\((\w+)\) => Some\(|Ok\(_\) => None', body):
        maps.append((f, name))
show('map, ok and err written as a match', maps)

print('== 5 facts said again, parameters that travel together')
clauses = collections.defaultdict(list)
pairs = collections.defaultdict(list)
for f, name, head, body in functions():
    for m in re.finditer(r'(requires|ensures)\*?(?: \w+)? \{ (.*?) \}\n', head, re.S):
        text = re.sub(r'\s+', ' ', m.group(2))
        text = re.sub(r'\b\w+\.(now|old|new)\b', r'X', text)
        clauses[f.split('/')[1] + ': ' + text].append(f'{name}')
    inner = head[:head.find(')')]
    params = re.findall(r'(\w+): ([^,()]+)', inner)
    for i, a in enumerate(params):
        for b in params[i + 1:]:
            pairs[(f.split('/')[1],) + tuple(sorted((f'{a[0]}: {a[1].strip()}', f'{b[0]}: {b[1].strip()}')))].append(name)
show('an order and a number of one triangle, side by side in a clause', lines(r'\(?order_of (\w+)\)? \(?number_of \1\)?'))
show('clauses in three or more functions', [(c, *v) for c, v in clauses.items() if len(v) > 2])
show('pairs of parameters in three or more functions', [(*c, *v) for c, v in pairs.items() if len(v) > 2])

print('== 6 buffers')
show('vectors in structs', lines(r'^\s*(pub(\(.*\))? )?\w+: Vec<'))
show('a buffer and a number', [(f, n) for f, n, head, body in functions() if re.search(r'\[[TU]?\w+\]', head[:head.find(')')]) and re.search(r'\b(at|count|len|length|end|i): (u32|usize)', head[:head.find(')')])])

print('== 7 steps chosen by a value')
show('matches on an own enum', lines(r'^\s*match (self|\w+|\*self) \{'))
show('function pointers and dyn', lines(r'\bdyn |: fn\('))

print('== 8 proofs')
for c in sorted({f.split('/')[1] for f in files}):
    answers = lemmas = size = 0
    for p in (top / 'crates' / c / 'proofs').rglob('*.antt'):
        t = p.read_text()
        answers += len(re.findall(r'^pub [\w+-]+ : goal\.', t, re.M))
        lemmas += len(re.findall(r"^(?:\s*)(?:pub )?[\w'-]+ : (?!goal\.)", t, re.M))
        size += t.count('\n')
    print(f'    {c}: {answers} answers, {lemmas} lemmas, {size} lines')

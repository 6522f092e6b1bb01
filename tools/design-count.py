#!/usr/bin/env python3
"""Counts, in src/ of every crate, the places that docs/DESIGN-PASS.md speaks of.

    python3 tools/design-count.py [COMMIT]

With a commit it reads that commit's files, else those of the work tree. Each line names a point, a crate and a place."""
import re
import subprocess
import sys
from collections import defaultdict

COMMIT = sys.argv[1] if len(sys.argv) > 1 else None


def files():
    if COMMIT:
        names = subprocess.check_output(['git', 'ls-tree', '-r', '--name-only', COMMIT, 'crates'], text=True).split()
    else:
        names = subprocess.check_output(['git', 'ls-files', 'crates'], text=True).split()
    for n in names:
        if re.search(r'/src/.*\.rt$', n):
            if COMMIT:
                yield n, subprocess.check_output(['git', 'show', f'{COMMIT}:{n}'], text=True)
            else:
                yield n, open(n).read()


SRC = list(files())


def crate(n):
    return n.split('/')[1]


def functions():
    """name, file, parameters, body"""
    for n, s in SRC:
        for m in re.finditer(r'\bfn (\w+)(?:<[^>]*>)?\(([^)]*)\)', s):
            i = s.find('\n{\n', m.end())
            j = s.find('{', m.end())
            if i < 0 or '\n}\n' in s[m.end():i]:
                i = j - 1
            k = i + 1
            depth = 0
            for e in range(k, len(s)):
                if s[e] == '{':
                    depth += 1
                elif s[e] == '}':
                    depth -= 1
                    if depth == 0:
                        break
            params = [p.strip() for p in re.sub(r'<[^<>]*>', '', m.group(2)).replace('\n', ' ').split(',') if p.strip()]
            yield m.group(1), n, params, s[k + 1:e]


FNS = list(functions())
found = defaultdict(list)

# 1: own enums of two cases of which one holds nothing; a flag beside values; numbers for kinds
for n, s in SRC:
    for m in re.finditer(r'enum (\w+)(?:<[^>]*>)? \{(.*?)\n\}', s, re.S):
        cases = re.findall(r'^    (\w+)(.*)', m.group(2), re.M)
        if len(cases) == 2 and any(c[1].strip() in (',', '') for c in cases):
            found['1a own enum of the shape of Option or Result'].append(f'{crate(n)}: {m.group(1)}')
    for m in re.finditer(r'struct (\w+)(?:<[^>]*>)? \{(.*?)\n\}', s, re.S):
        names = re.findall(r'^    (?:pub )?(\w+): (\w+)', m.group(2), re.M)
        for f, t in names:
            if len(names) > 1 and (t == 'bool' or f in ('number', 'found')):
                found['1b a flag or a number beside values'].append(f'{crate(n)}: {m.group(1)}.{f}')
    groups = re.split(r'\n(?=//)', s)
    for g in groups:
        consts = re.findall(r'^(?:pub )?const (\w+): u(?:32|64) = ', g, re.M)
        if len(consts) > 0:
            found['1c numbers with names (a group of constants)'].append(f'{crate(n)}: {consts[0]}..{consts[-1]}')

# 2: functions whose bodies differ only in names, numbers and types
shapes = defaultdict(list)
for f, n, params, body in FNS:
    ids = {}
    out = []
    for t in re.findall(r'\w+|[^\w\s]', re.sub(r'//[^\n]*', '', body)):
        if re.match(r'[A-Za-z_]', t) and t not in ('if', 'else', 'while', 'for', 'in', 'let', 'mut', 'return', 'match', 'as', 'break'):
            out.append(ids.setdefault(t, f'v{len(ids)}'))
        elif t[0].isdigit():
            out.append('0')
        elif t != ',':
            out.append(t)
    if len(out) >= 5:
        shapes[' '.join(out)].append(f'{crate(n)}::{f}')
for k, v in shapes.items():
    if len(v) > 1:
        found['2 functions of one shape'].append(', '.join(v))

# 3: loops that count an index by hand
for f, n, params, body in FNS:
    for m in re.finditer(r'^ *while ([^\n]*) \{$', body, re.M):
        found['3 while'].append(f'{crate(n)}::{f}: {m.group(1)}')

# 4: equality, order, copying, conversion by hand
for f, n, params, body in FNS:
    b = ' '.join(re.sub(r'//[^\n]*', '', body).split())
    if re.fullmatch(r'[\w.]+ as \w+', b) or re.fullmatch(r'if \w+ <=? \w+ \{ (return )?\w+;? \} (else \{ )?\w+( \})?', b) or re.fullmatch(r'if (\w+) == (\w+) \{ \w+ \} else \{ \w+ \}', b):
        found['4 a conversion, a least, a greatest by hand'].append(f'{crate(n)}::{f}')
    if re.search(r'return (true|false);', b) and not re.search(r'\b(while|for|let|match)\b', b):
        found['4 and, or, not by hand'].append(f'{crate(n)}::{f}')

# 5: parameters that travel together
for f, n, params, body in FNS:
    names = {p.split(':')[0].strip() for p in params}
    for g in (('rules', 'rows', 'text'), ('rows', 'text'), ('out', 'lits', 'p'), ('left_rules', 'right_rules'), ('streams', 'answers', 'put')):
        if set(g) <= names:
            found['5 parameters ' + ', '.join(g)].append(f'{crate(n)}::{f}')
    if len(params) > 8:
        found['5 more than eight parameters'].append(f'{crate(n)}::{f}: {len(params)}')

# 6: an area with a length or a place beside it; lists of words in one string
for f, n, params, body in FNS:
    ps = [p.replace('mut ', '') for p in params]
    if any(re.match(r'(answers|list|heads): ?&', p) for p in ps) and any(re.match(r'(put|n|count): usize', p) for p in ps):
        found['6 an area with its length beside it'].append(f'{crate(n)}::{f}')
for n, s in SRC:
    for m in re.finditer(r'\bpart\(\s*page,\s*b"', s):
        found['6 a list of words in one string'].append(f'{crate(n)}: line {s[:m.start()].count(chr(10)) + 1}')

# 7: which step to run, by number
for f, n, params, body in FNS:
    if re.search(r'match step \{', body) or re.search(r'/ TOOL == ', body):
        found['7 a switch on which step to run'].append(f'{crate(n)}::{f}')

for k in sorted(found):
    print(f'{k}: {len(found[k])}')
    for x in found[k]:
        print('    ' + x)

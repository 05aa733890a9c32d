#!/usr/bin/env python3
"""Counts, in crates/*/src, the places that docs/DESIGN-PASS.md speaks of: `tools/design.py` prints each point with its number, `tools/design.py -v` each place."""
import glob, re, sys
def files():
    for p in sorted(glob.glob('crates/*/src/**/*.rt', recursive=True)):
        yield p.split('/')[1], re.sub(r'(?m)^\s*//.*$', '', open(p).read())
FN = re.compile(r'^ *(?:#\[[^\n]*\]\n)?(?:pub )?(?:extern "C" )?fn (\w+)(?:<[^>]*>)?\(([^)]*)\)(.*?)^\{\n(.*?)^\}', re.M | re.S)
def count():
    r = {k: [] for k in ('1 own enums', '1 numbers for nothing', '2 functions of one body', '3 while loops', '4 casts with a name', '5 facts asked three times or more',
                         '5 seven parameters or more', '7 steps chosen by a flag')}
    bodies, facts = {}, {}
    for c, t in files():
        for m in re.finditer(r'^(?:pub )?enum (\w+)', t, re.M): r['1 own enums'].append(f'{c}::{m.group(1)}')
        for m in re.finditer(r'^const NONE\b|^pub const NONE: usize', t, re.M): r['1 numbers for nothing'].append(f'{c}::NONE')
        for m in FN.finditer(t):
            name, ps, clauses, body = m.groups()
            for _ in re.finditer(r'\bwhile\b', body): r['3 while loops'].append(f'{c}::{name}')
            b = body.strip()
            if re.fullmatch(r'\w+ as \w+', b): r['4 casts with a name'].append(f'{c}::{name}')
            n = re.sub(r'\b(u64|u32)\b', 'W', re.sub(r'\b(64|63|32|31|16)\b', 'N', re.sub(r'\b\w+::', '', b)))
            if n.count('\n') >= 1: bodies.setdefault(n, []).append(f'{c}::{name}')
            if len([x for x in ps.split(',') if x.strip()]) >= 7: r['5 seven parameters or more'].append(f'{c}::{name}')
            if 'requires' in clauses:
                for f in ('Whole code.now', 'Valid code.now', 'roles.now ≡ role_table', 'LevelsRoom', 'length rows.now', 'Small WORD rows', 'length kinds', 'chunk_count code'):
                    asked = re.sub(r'Small (64|32|W\.BITS) \(?(W\.nums )?rows', 'Small WORD rows', clauses.split('ensures')[0])
                    if f in asked: facts.setdefault(f, []).append(f'{c}::{name}')
            for p in ps.split(','):
                if re.match(r'\s*(minus|wide|strict)\s*: bool', p): r['7 steps chosen by a flag'].append(f'{c}::{name}')
    for v in bodies.values():
        if len(v) > 1: r['2 functions of one body'].append(' = '.join(v))
    for f, v in facts.items():
        if len(v) > 2: r['5 facts asked three times or more'].append(f'{f}: {len(v)}')
    return r
for k, v in count().items():
    n = sum(int(x.rsplit(' ', 1)[1]) for x in v) if k.startswith('5 facts') else len(v)
    print(f'{n:4}  {k}')
    if '-v' in sys.argv:
        for x in v: print('      ', x)

#!/usr/bin/env python3
"""`tools/changed.py COMMIT`: what is public and reads otherwise than at COMMIT, old above new: functions of crates/*/src with their clauses, types,
definitions of specs/, and statements of proofs/ (the spelling `Ok`, `Err`, `Some`, `None` for a constructor that went is no change)."""
import re, subprocess, sys
from os.path import exists
import glob
OWN = {'Count': 'Ok', 'No': 'Err', 'Refused': 'Err', 'Is': 'Some', 'Nothing': 'None', 'At': 'Some', 'Nowhere': 'None', 'Bound': 'Some', 'Unknown': 'None', 'Lost': 'None', 'Bare': 'None'}
def old_files(commit):
    names = subprocess.run(['git', 'ls-tree', '-r', '--name-only', commit, 'crates'], capture_output=True, text=True).stdout.split('\n')
    want = [n for n in names if re.match(r'crates/\w+/(src/.*\.rt|(specs|proofs)/[^/]+\.antt)$', n)]
    for n in want:
        yield n, subprocess.run(['git', 'show', f'{commit}:{n}'], capture_output=True, text=True).stdout
def new_files():
    for n in sorted(glob.glob('crates/*/src/**/*.rt', recursive=True) + glob.glob('crates/*/specs/*.antt') + glob.glob('crates/*/proofs/*.antt')):
        yield n, open(n).read()
def flat(t): return re.sub(r'\(\s+', '(', re.sub(r',?\s+\)', ')', re.sub(r'\s+', ' ', t))).strip()
def functions(path, t):
    t = re.sub(r'(?m)^\s*//.*\n', '', t); r = {}
    for m in re.finditer(r'^pub (?:extern "C" )?fn (\w+)[^{;]*?(?=^\{|\{$)|^pub (?:extern "C" )?fn (\w+).*?(?=\n\{)', t, re.M | re.S):
        pass
    for m in re.finditer(r'^pub (?:extern "C" )?fn (\w+)(.*?)\n\{', t, re.M | re.S):
        r[m.group(1)] = flat('fn ' + m.group(1) + m.group(2))
    for m in re.finditer(r'^pub (enum|struct|trait) (\w+)(.*?)^\}', t, re.M | re.S):
        r[m.group(2)] = flat(m.group(0))
    return r
def declared(path, t):
    r = {}
    for part in re.split(r'\n\s*\n', t):
        lines = [l for l in part.split('\n') if not re.match(r'\s*(--|use |pub use |module )', l)]
        body = '\n'.join(lines)
        for m in re.finditer(r'(?m)^ *((?:(?:unfoldable|abbrev|pub|record|data)\s+)+)(?:ruleset )?(\S+) (?=[^=\n]*:|=)', body):
            start = m.start(); nxt = re.search(r'(?m)^ *(?:(?:unfoldable|abbrev|pub|record|data)\s+)+(?:ruleset )?\S+ (?=[^=\n]*:|=)', body[m.end():])
            text = body[start: m.end() + nxt.start() if nxt else len(body)]
            if '/proofs/' in path:  # the statement alone
                n = re.search(r'\n *(?:unfolding|%s)\b' % re.escape(m.group(2)), text)
                text = text[:n.start()] if n else text.split('\n')[0]
            r[m.group(2)] = flat(text)
    return r
def read(files):
    r = {}
    for n, t in files:
        c, kind = n.split('/')[1], n.split('/')[2]
        d = functions(n, t) if kind == 'src' else declared(n, t)
        for k, v in d.items(): r.setdefault((kind, c, k), v)
    return r
def same(a, b):
    def norm(t):
        t = re.sub(r'\b(?:stage|found|kept)\.', '', t)
        for k, v in OWN.items(): t = re.sub(r"(?<![\w.'])%s(?![\w'])" % k, v, t)
        return re.sub(r'[()]', '', t)
    return norm(a) == norm(b)
a, b = read(old_files(sys.argv[1])), read(new_files())
texts = {}
for n, x in new_files(): texts.setdefault(n.split('/')[2], []).append((n.split('/')[1], x))
TITLE = {'src': 'Public functions and types', 'specs': 'Definitions', 'proofs': 'Laws and theorems of proofs/'}
for kind in ('src', 'specs', 'proofs'):
    changed = [k for k in a if k[0] == kind and k in b and a[k] != b[k] and not same(a[k], b[k])]
    inside = [k for k in a if k[0] == kind and k not in b and any(c == k[1] and re.search(r'(?m)^\s*(?:fn |%s\s+:|%s : )' % (re.escape(k[2]), re.escape(k[2])), x) and
        (kind != 'src' or re.search(r'\bfn %s\b' % re.escape(k[2]), x)) for c, x in texts.get(kind, []))]
    gone = [k for k in a if k[0] == kind and k not in b and k not in inside]
    new = [k for k in b if k[0] == kind and k not in a]
    print(f'\n### {TITLE[kind]}: {len(changed)} changed, {len(gone)} gone, {len(new)} new\n')
    for k in sorted(changed): print(f'`{k[1]}` `{k[2]}`\n```\n- {a[k]}\n+ {b[k]}\n```')
    if inside: print('Not public any more: ' + ', '.join(f'{k[1]} `{k[2]}`' for k in sorted(inside)) + '.\n')
    if gone: print('Gone: ' + ', '.join(f'{k[1]} `{k[2]}`' for k in sorted(gone)) + '.\n')
    if new: print('New: ' + ', '.join(f'{k[1]} `{k[2]}`' for k in sorted(new)) + '.\n')

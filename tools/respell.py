#!/usr/bin/env python3
"""Brings the repository's own definitions and lemmas to the library's spelling, once, right after the kit's port.py: words in snake case, with `_` between
them. A name that stands for two (a call and what it is taken of, as `length-rows_of`) keeps its dash. Names of src/ keep theirs.

usage: python3 tools/respell.py [--table]    at the top of the repository; --table prints the renamings and writes nothing

The texts are turned by the kit's own snake.py, which knows antt's layout and the clauses of a .rt file."""
import collections
import os
import re
import subprocess
import sys
import tempfile

os.chdir(os.path.join(os.path.dirname(os.path.abspath(__file__)), '..'))
SNAKE = '/opt/rattle/port/notes/2026-11-18-names-are-in-snake-case/snake.py'
DECLARED = re.compile(r'(?m)^ *(?:(?:pub|abbrev|unfoldable|private|opaque) )*([^\s(){}.;,@"«»:]+)(?: [({][^\n]*[)}])* :(?= |$)')
WORD = re.compile(r'[^\s(){}.;,@"«»]+')
COMMENT = re.compile(r'(?<![^\s(){}.;,@"«»])--[^\n]*')
USE = re.compile(r'(?m)^ *(?:pub )?use ([^\s{]+?)(?:\.\{([^{}]*)\})?(?: as (\S+))?$')
# Two definitions joined; tests of the library's that have these very names; a lemma that would have its definition's name, or a library's.
BY_HAND = {'length-rowsOf': 'length-rows_of', 'and-true': 'and-true', 'and-false': 'and-false', 'as_lent': 'as_lent_lem', 'in_use': 'in_use_lem'}
LEMMAS = ('is-phi op-known day-told seek-next by-scan len-at result-at first-at jumps-back wrong-in remap-of used-of calm-step is-plain down-div down-mod '
          'shift-down nan-bits is-nan').split()
BY_HAND.update({name: name.replace('-', '_') + '_lem' for name in LEMMAS})


def texts():
    for folder, below, files in os.walk('crates'):
        below[:] = sorted(d for d in below if d != 'out')
        for f in sorted(files):
            if f.endswith('.antt'):
                path = os.path.join(folder, f)
                with open(path, encoding='utf-8') as it:
                    yield path, it.read()


def snake(name):
    """The name in snake case; its dash stays where it joins two definitions."""
    words = re.sub(r'(?<=[a-z0-9])[A-Z](?![A-Z])|(?<=[a-z0-9])[A-Z]+$', lambda m: '_' + m[0].lower(), name)
    return words.replace('-', '_')


declared = collections.defaultdict(set)
files = dict(texts())
ours = {d for d in os.listdir('crates')}
for path, text in files.items():
    for name in DECLARED.findall(text):
        declared[name].add(path)
table = {}
for name in declared:
    if '-' in name or name in BY_HAND or re.match(r'[a-z]\w*[A-Z]', name):
        if name[0].isupper() or name.startswith('+') or name.startswith('μ'):
            continue
        new = BY_HAND.get(name, snake(name))
        if new != name:
            table[name] = new

wrong = []
taken = collections.defaultdict(list)
for old, new in table.items():
    taken[new].append(old)
wrong += [f'{", ".join(olds)} would all be {new}' for new, olds in taken.items() if len(olds) > 1]
for path, text in files.items():
    code = COMMENT.sub('', text)
    own = re.search(r'/proofs/(?:\w+/)*\+?(\w+)/Proof\.antt$', path)
    words = set(WORD.findall(code)) - ({own[1]} if own else set())
    lent = set()
    for module, names, alias in USE.findall(code):
        steps = module.split('.')
        if not (steps[0] == 'Rattle' and steps[1] in ours):
            lent.update(WORD.findall(names))
    wrong += [f'{path}: {old} and {table[old]}' for old in sorted(words & set(table)) if table[old] in words - set(table)]
    wrong += [f"{path}: {old} is a library's" for old in sorted(lent & set(table))]
for folder, below, names in os.walk('crates'):
    below[:] = [d for d in below if d != 'out']
    for f in names:
        if f.endswith('.rt'):
            with open(os.path.join(folder, f), encoding='utf-8') as it:
                text = it.read()
            # a function's name is no name of a clause; a variable's, a parameter's or a field's is
            words = set(re.findall(r'[\w-]+', re.sub(r'//[^\n]*|\bfn \w+|\w+\(|\buse [^;]*;', '', text)))
            wrong += [f'{folder}/{f}: {old} and {table[old]}' for old in sorted(set(re.findall(r'[\w-]+', text)) & set(table)) if table[old] in words]
if '--table' in sys.argv or wrong:
    print(''.join(f'{old}\t{new}\n' for old, new in sorted(table.items())), end='')
    sys.exit('\n'.join(wrong) if wrong else 0)
with tempfile.NamedTemporaryFile('w', suffix='.tsv', encoding='utf-8') as rows:
    rows.write(''.join(f'{old}\t{new}\n' for old, new in sorted(table.items())))
    rows.flush()
    folders = [f'crates/{c}/{part}' for c in sorted(ours) for part in ('src', 'specs', 'proofs') if os.path.isdir(f'crates/{c}/{part}')]
    subprocess.run([sys.executable, SNAKE, '--table', rows.name, *folders], check=True)

#!/usr/bin/env python3
"""respell.py [FOLDER]: spells the names of this repository's own definitions and lemmas as Rattle does today.

Run once, right after the toolchain's port.py, at the top of the repository (or on FOLDER). Types, and facts that are types, are in
upper camel case (Stays-sound becomes StaysSound); functions, lemmas, fields and constructors are in snake case (kind-of becomes
kind_of, first-C becomes first_c). Names that the checker makes (of goals, steps and invariants), source names, strings and comments
stay. Nothing is written where two names would fall together.
"""
import glob
import os
import re
import sys

root = sys.argv[1] if len(sys.argv) > 1 else '.'
os.chdir(root)

NAME = r"[A-Za-z][\w'-]*"
TOKEN = re.compile(r"(?<![\w'·◌-])[A-Za-z_][\w'-]*")
HEAD = re.compile(rf"^\s*(?:abbrev |unfoldable )?(?:pub )?(?:abbrev |unfoldable )?(?:data |record )?(?:pub )?({NAME}(?: {NAME})*)((?: \([^()]*(?:\([^()]*\)[^()]*)*\)| \{{[^}}]*\}})*) :(?: |$)(.*)")
# lemmas whose plain respelling is a word of the library: what is taken of `bit_and` and `bit_or`
APART = {'bit-and': 'bit-bit_and', 'bit-or': 'bit-bit_or'}
# heads that the pattern does not see, and names given by 'as' or 'let'
ALSO = {'Has-circle', 'Part-struct', 'Rule-struct', 'Rows-in-order', 'in-file', 'records-of', 'Keys-rise', 'in-high', 'in-low', 'is-left', 'is-less',
        'now-is', 'put-entry'}
IMPORTED = re.compile(r"use ([\w.]+)\.\{([^}]*)\}")
WORDS = {'data', 'record', 'abbrev', 'pub', 'where', 'use', 'mod', 'let', 'in', 'elim'}


def antt():
    return sorted(glob.glob('crates/*/specs/**/*.antt', recursive=True) + glob.glob('crates/*/proofs/**/*.antt', recursive=True))


def without_comment(line):
    k = line.find('--')
    while k >= 0 and not (k == 0 or line[k - 1] == ' '):
        k = line.find('--', k + 2)
    return (line, '') if k < 0 else (line[:k], line[k:])


def own_names():
    own, made = set(), set()
    for path in antt():
        for line in open(path, encoding='utf-8'):
            line, _ = without_comment(line.rstrip('\n'))
            m = HEAD.match(line)
            if not m:
                continue
            for n in m[1].split():
                if n in WORDS:
                    continue
                (made if re.match(r'(goal|need)\.', m[3]) else own).add(n)
    return (own | ALSO) - made, made


def library_names(text):
    """The names that a file imports from outside this repository: they stay."""
    crates = set(os.listdir('crates'))
    out = set()
    for m in IMPORTED.finditer(text):
        where = m[1].split('.')
        if not (where[0] == 'Rattle' and len(where) > 1 and where[1] in crates):
            out |= {n.strip().split(' as ')[0] for n in m[2].split(',')}
    return out


def respelt(name):
    if name in APART:
        return APART[name]
    if name[0].isupper():
        return ''.join(p[0].upper() + p[1:] for p in name.split('-') if p)
    parts = [re.sub(r'(?<=[a-z])(?=[A-Z])', '_', p) for p in name.split('-')]
    return '_'.join(p.lower() for p in parts)


def outside_text(text):
    """The parts of a source file: (text, whether it is code)."""
    out, i, start = [], 0, 0
    while i < len(text):
        j = i
        if text.startswith('//', i):
            j = text.find('\n', i)
            j = len(text) if j < 0 else j
        elif text[i] == '"':
            j = i + 1
            while j < len(text) and text[j] != '"':
                j += 2 if text[j] == '\\' else 1
            j += 1
        if j == i:
            i += 1
            continue
        out += [(text[start:i], True), (text[i:j], False)]
        start = i = j
    return out + [(text[start:], True)]


def main():
    own, made = own_names()
    turn = {n: respelt(n) for n in own if respelt(n) != n}
    every = set()
    for path in antt():
        for line in open(path, encoding='utf-8'):
            every |= {m[0] for m in TOKEN.finditer(without_comment(line)[0]) if m.start() == 0 or line[m.start() - 1] != '.'}
    seen = {}
    bad = []
    for n, t in sorted(turn.items()):
        if t in every or t in made:
            bad.append(f'{n} would become {t}, which stands already')
        if t in seen:
            bad.append(f'{n} and {seen[t]} would both become {t}')
        seen[t] = n
    if bad:
        print('\n'.join(bad))
        sys.exit(1)
    put = lambda text, but: TOKEN.sub(lambda m: m[0] if m[0] in but else turn.get(m[0], m[0]), text)
    changed = 0
    for path in antt():
        old = open(path, encoding='utf-8').read()
        but = library_names(old)
        new = '\n'.join(put(a, but) + b for a, b in (without_comment(l) for l in old.split('\n')))
        if new != old:
            open(path, 'w', encoding='utf-8').write(new)
            changed += 1
    dashed = {n: t for n, t in turn.items() if '-' in n}
    put_dashed = lambda text: TOKEN.sub(lambda m: dashed.get(m[0], m[0]), text)
    for path in sorted(glob.glob('crates/*/src/**/*.rt', recursive=True)):
        old = open(path, encoding='utf-8').read()
        new = ''.join(put_dashed(t) if code else t for t, code in outside_text(old))
        if new != old:
            open(path, 'w', encoding='utf-8').write(new)
            changed += 1
    for path in sorted(glob.glob('crates/*/must-fail/*.edit')):
        old = open(path, encoding='utf-8').read()
        new = '\n'.join(put_dashed(l) if l.startswith(('old:', 'new:')) else l for l in old.split('\n'))
        if new != old:
            open(path, 'w', encoding='utf-8').write(new)
            changed += 1
    print(f'{len(turn)} names respelt in {changed} files')


main()

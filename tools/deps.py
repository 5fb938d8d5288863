#!/usr/bin/env python3
"""crates.txt holds, of each crate, the crates that its files and its must-fail edits name, and no others.

    tools/deps.py --check    exit 1 where a line of crates.txt names a crate too many or too few
    tools/deps.py --write    put the right names into crates.txt; comments and the order of the lines stay

A file of antt names a crate by its facade, `Rattle.NAME.`, a file of Rattle also by a path, `NAME::`.
"""
import glob
import os
import re
import sys

ROOT = os.path.dirname(os.path.dirname(os.path.abspath(__file__)))
KIT = ('io', 'anyhow', 'thiserror')  # libraries of the toolchain
LINE = re.compile(r'^([a-z_0-9]+)( [^:]*)?:(.*)$')  # a name, what it is besides (`staticlib`), what it stands on


def text_of(path):
    lines = open(path, encoding='utf-8').read().split('\n')
    comment = '//' if path.endswith('.rt') else '--'
    return '\n'.join(l.split(comment)[0] for l in lines)


def named(crate, crates):
    """The crates that the files of this one name."""
    found, of_std = set(), set()
    for path in [p for d in ('src', 'specs', 'proofs') for p in glob.glob(os.path.join(ROOT, 'crates', crate, d, '**', '*'), recursive=True)]:
        if path.endswith(('.rt', '.antt')):
            text = text_of(path)
            found |= set(re.findall(r'Rattle\.([a-z_0-9]+)\.', text))
            if path.endswith('.rt'):
                of_std |= {m for group in re.findall(r'use std::(?:\{([^}]*)\}|([a-z_]+))', text) for part in group for m in re.findall(r'[a-z_]+', part)}
                found |= set(re.findall(r'(?<![\w:])([a-z_0-9]+)::', text)) - of_std
    # what a must-fail edit puts in has to be in scope too
    for path in glob.glob(os.path.join(ROOT, 'crates', crate, 'must-fail', '*.edit')):
        for line in open(path, encoding='utf-8'):
            if line.startswith('new:'):
                found |= set(re.findall(r'(?<![\w:])([a-z_0-9]+)::', line)) - of_std
    return found & (crates | set(KIT)) - {crate}


def main():
    path = os.path.join(ROOT, 'crates.txt')
    lines = open(path, encoding='utf-8').read().split('\n')
    order = [m.group(1) for m in map(LINE.match, lines) if m]
    wrong = 0
    for i, line in enumerate(lines):
        m = LINE.match(line)
        if not m:
            continue
        want = named(m.group(1), set(order))
        have = m.group(3).split('#')[0].split()
        if set(have) != want or len(have) != len(want):
            wrong += 1
            if '--write' in sys.argv:
                names = [d for d in KIT if d in want] + [d for d in order if d in want]
                lines[i] = ' '.join([m.group(1) + (m.group(2) or '') + ':'] + names)
            else:
                print(f'crates.txt: {m.group(1)}: too many: {sorted(set(have) - want)}, too few: {sorted(want - set(have))}')
    if '--write' in sys.argv:
        open(path, 'w', encoding='utf-8').write('\n'.join(lines))
    elif wrong:
        sys.exit(1)


main()

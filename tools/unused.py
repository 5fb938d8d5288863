#!/usr/bin/env python3
"""Imports that nothing uses, in the antt files (specs/, proofs/) and the ghost uses of the .rt files.

    tools/unused.py            print them, file by file; exit 1 if there are any
    tools/unused.py --fix      take them out

A name is used where it stands as a word of its own outside comments and `use` lines: not as a field (`.name`), nor as a part of a longer word.
An operator (`◌+◌`) is used where each of its signs stands, or the operator itself. So what is printed is unused; a few that are shadowed may be missed.
A crate's re-exports (`pub use`) count as used. Run `rt check` after --fix: a name may be wanted by the checker and written nowhere.
"""
import os
import re
import sys

ROOT = os.path.dirname(os.path.dirname(os.path.abspath(__file__)))
USE = re.compile(r'(?P<head>(?:ghost )?use (?P<module>[^\s{;]+?))(?:\.\{(?P<names>[^}]*)\})?(?P<alias> as (?P<as>[^\s;]+))?(?P<end>;?)\s*$')
WORD = re.compile(r'«[^»]*»|\.?[^\s(){}\[\],;.«»⌜⌝\\]+|\[\]')

def words(text):
    return {w.strip('«»') for w in WORD.findall(text)}


def parts(name):
    name = name.split(' as ')[-1].strip('«»')
    if '◌' in name:
        return [p for p in name.split('◌') if p]
    return [name]


def body(lines, ghost):
    mark = '//' if ghost else '--'
    out = []
    for line in lines:
        if USE.match(line):
            continue
        if line.lstrip().startswith(mark):
            continue
        cut = re.search(r'\s%s\s' % mark, line)
        out.append(line[:cut.start()] if cut else line)
    return '\n'.join(out)


def rewritten(text, ghost):
    lines = text.split('\n')
    rest = body(lines, ghost)
    seen = words(rest)
    out, gone = [], []
    for line in lines:
        use = USE.match(line)
        if not use or (ghost and not line.startswith('ghost ')):
            out.append(line)
            continue
        if use['as']:
            if re.search(r'(?<![^\s(){}\[\],;.«])%s\.' % re.escape(use['as']), rest):
                out.append(line)
            else:
                gone.append(use['module'] + ' as ' + use['as'])
            continue
        if use['names'] is None:
            out.append(line)
            continue
        names = [n.strip() for n in use['names'].split(',') if n.strip()]
        left = [n for n in names if n in seen or all(p in seen for p in parts(n))]
        gone += [use['module'] + '.' + n for n in names if n not in left]
        if left == names:
            out.append(line)
        elif left:
            out.append(use['head'] + '.{' + ', '.join(left) + '}' + use['end'])
    return '\n'.join(out), gone


def main():
    fix, total = '--fix' in sys.argv[1:], 0
    for base, dirs, files in os.walk(os.path.join(ROOT, 'crates')):
        dirs[:] = sorted(d for d in dirs if d != 'out')
        for name in sorted(files):
            if not name.endswith(('.antt', '.rt')):
                continue
            path = os.path.join(base, name)
            text = open(path).read()
            new, gone = rewritten(text, name.endswith('.rt'))
            if gone:
                total += len(gone)
                print(os.path.relpath(path, ROOT) + ': ' + ', '.join(gone))
                if fix:
                    open(path, 'w').write(new)
    print(f'{total} unused imports' + (' taken out' if fix else ''))
    return 1 if total and not fix else 0


if __name__ == '__main__':
    sys.exit(main())

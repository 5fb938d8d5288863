#!/usr/bin/env python3
"""The tables of a landing note (docs/landings/), in Markdown, from the repository's history and the checker's own times.

    tools/landing.py BEFORE AFTER                  what moved between two commits, and what stayed, crate by crate
    tools/landing.py BEFORE AFTER LOG_0 LOG_1      and the check times, from two logs of `rt check` or `rt ci`

Comments, blank lines and `use` lines count for nothing. What is counted, each by its name in its file:
definitions (`unfoldable`, `abbrev`, `record`, `data` in specs/: what computes), statements (the type of every `pub` law or
theorem in specs/, with the parameters of the modules around it), contracts (a function's head in src/, to its last `ensures`),
code (its body; structs, enums and constants), proofs (the bodies of laws, private laws whole, all of proofs/), edits (must-fail/),
runs (what a test program reads and must write).
"""
import io
import re
import subprocess
import sys
import tarfile

SORTS = ['definitions', 'statements', 'contracts', 'code', 'proofs', 'edits', 'runs']
SIGNED = re.compile(r'( *)((?:(?:pub|abbrev|unfoldable)\s+)*)([^\s(){}]+) : ')
TYPED = re.compile(r'( *)((?:(?:pub|abbrev|unfoldable)\s+)*)(?:record|data) ([^\s(){}:]+)')
MODULE = re.compile(r'( *)module _ (.*)where$')
FUNCTION = re.compile(r'( *)(?:pub )?(?:extern "C" )?fn (\w+)')
DECLARED = re.compile(r'( *)(?:pub )?(?:struct|enum|const) (\w+)')


def indent(line):
    return len(line) - len(line.lstrip())


def declarations(text):
    """(flags, name, lines, parameters of the modules around it) of each declaration of an antt file."""
    found, modules = [], []                     # modules: (indent, parameters)
    for line in text.splitlines():
        if not line.strip() or re.match(r' *--|use ', line):
            continue
        at = indent(line)
        level = modules[-1][0] + 2 if modules else 0
        if at < level:
            modules = [m for m in modules if m[0] < at]
            level = modules[-1][0] + 2 if modules else 0
        module, head = MODULE.match(line), TYPED.match(line) or SIGNED.match(line)
        if module and at == level:
            modules.append((at, module[2]))
        elif head and at == level:
            flags = head[2].split() + (['type'] if TYPED.match(line) else [])
            found.append((flags, head[3], [line], ' '.join(m[1] for m in modules)))
        elif found:
            found[-1][2].append(line)
    return found


def antt(path, text, put):
    for flags, name, lines, around in declarations(text):
        at, body = indent(lines[0]), 1
        while body < len(lines) and indent(lines[body]) > at:
            body += 1
        if path.startswith('proofs/'):
            put('proofs', path, name, lines)
        elif {'unfoldable', 'abbrev', 'type'} & set(flags):
            put('definitions', path, name, [around] + lines)
        elif 'pub' in flags:
            put('statements', path, name, [around] + lines[:body])
            put('proofs', path, name, lines[body:])
        else:
            put('proofs', path, name, [around] + lines)


def rt(path, text, put):
    lines = [l for l in text.splitlines() if l.strip() and not re.match(r' *//|(ghost )?use ', l)]
    i = 0
    while i < len(lines):
        head = FUNCTION.match(lines[i]) or DECLARED.match(lines[i])
        if not head:
            i += 1
            continue
        start, close = i, head[1] + '}'
        body = i + 1
        if FUNCTION.match(lines[i]) and not lines[i].endswith('{'):
            while lines[body] != head[1] + '{':
                body += 1
        while lines[i] != close and not (i == start and lines[i].endswith((';', '}'))):
            i += 1
        if FUNCTION.match(lines[start]):
            put('contracts', path, head[2], lines[start:body])
            put('code', path, head[2], lines[body:i + 1])
        else:
            put('code', path, head[2], lines[start:i + 1])
        i += 1


def parts(commit):
    """crate -> sort -> (file, name, how many of that name before it) -> text; and the crates in their order."""
    run = subprocess.run(['git', 'archive', commit, 'crates', 'crates.txt'], capture_output=True, check=True)
    out, order = {}, []
    with tarfile.open(fileobj=io.BytesIO(run.stdout)) as archive:
        files = {e.name: archive.extractfile(e).read() for e in archive if e.isfile()}
    for name, raw in files.items():
        if name == 'crates.txt':
            order = re.findall(r'^(\w+):', raw.decode(), re.M)
            continue
        _, crate, path = name.split('/', 2)
        sorts = out.setdefault(crate, {s: {} for s in SORTS})

        def put(sort, path, name, lines):
            n = 0
            while (path, name, n) in sorts[sort]:
                n += 1
            sorts[sort][path, name, n] = '\n'.join(l.strip() for l in lines)

        if path.endswith('.antt'):
            antt(path, raw.decode(), put)
        elif path.endswith('.rt'):
            rt(path, raw.decode(), put)
        elif path.startswith('must-fail/'):
            put('edits', path, path[10:-5], [raw.decode()])
        else:
            put('runs', path, path, [raw.hex()])
    return out, order


def compared(old, new):
    """The keys that moved, are new, are gone; and how many stayed."""
    both = old.keys() & new.keys()
    moved = [k for k in new if k in both and old[k] != new[k]]
    return moved, [k for k in new if k not in both], [k for k in old if k not in both], len(both) - len(moved)


def cell(c):
    said = ['%d %s' % (len(c[i]), w) for i, w in enumerate(['moved', 'new', 'gone']) if c[i]]
    return ', '.join(said + ['%d stay' % c[3]]) if said or c[3] else '–'


def table(before, after):
    (old, _), (new, order) = parts(before), parts(after)
    none = {s: {} for s in SORTS}
    order += [c for c in old if c not in order]
    found = {c: {s: compared(old.get(c, none)[s], new.get(c, none)[s]) for s in SORTS} for c in order}
    touched = [c for c in order if any(any(found[c][s][:3]) for s in SORTS)]
    print('| crate | ' + ' | '.join(SORTS) + ' |\n|' + '---|' * (len(SORTS) + 1))
    for c in touched:
        print('| `%s` | ' % c + ' | '.join(cell(found[c][s]) for s in SORTS) + ' |')
    rest = [c for c in order if c not in touched]
    print('| %d others | ' % len(rest) + ' | '.join('%d stay' % sum(found[c][s][3] for c in rest) for s in SORTS) + ' |\n')
    print('Untouched: ' + ', '.join('`%s`' % c for c in rest) + '.\n')
    print('| crate | what | names |\n|---|---|---|')
    for c in touched:
        for s in SORTS:
            for i, word in enumerate(['moved', 'new', 'gone']):
                if found[c][s][i]:
                    names = ', '.join('`%s` (%s)' % (k[1], k[0]) if s not in ('edits', 'runs') else '`%s`' % k[1] for k in found[c][s][i])
                    print('| `%s` | %s %s | %s |' % (c, s, word, names))
    return touched


def times(first, second, touched):
    one, two = (dict(re.findall(r'^rt: (\w+) proved \((\d+) s\)', open(f).read(), re.M)) for f in (first, second))
    print('\n| crate | before, s | after, s |\n|---|---|---|')
    for c in two:
        print('| `%s`%s | %s | %s |' % (c, ', touched' if c in touched else '', one.get(c, '–'), two[c]))
    print('| all of these | %d | %d |' % (sum(int(one.get(c, 0)) for c in two), sum(map(int, two.values()))))


if len(sys.argv) not in (3, 5):
    sys.exit(__doc__)
changed = table(sys.argv[1], sys.argv[2])
if len(sys.argv) == 5:
    times(sys.argv[3], sys.argv[4], changed)

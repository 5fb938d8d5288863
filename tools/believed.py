#!/usr/bin/env python3
"""What must be believed: the list in docs/PROOF.md, made from the sources.

    tools/believed.py            print the list
    tools/believed.py --write    put it into docs/PROOF.md, between its two marks
    tools/believed.py --check    exit 1 where the page is out of date, or a file directly under specs/ holds a proof

A file directly under a crate's specs/ holds definitions, and statements whose proof is one line (a name of proofs/Laws/, or a computation). What a
reader must believe is each definition that is reached from what a user relies on: the contracts of `capi` and of the functions that `engine` re-exports, and the statements. Reached
means named there, or named in a definition that is reached. The walk's statements (E5, and the stretch of rows that is written) are listed apart: they reach the machine, which nothing else does.
Listed apart too is what is reached only from the contracts of the functions that the programs (crates with a src/main.rt, the tests aside) call.
A name of TOLD is reached, and what it names is not: what comes of it, whatever it is, is said by theorems. It counts only inside the definitions that are listed with it.
Lines are those of the file without comments, blank lines and `use` lines.
"""
import os
import re
import sys
sys.path.insert(0, os.path.dirname(os.path.abspath(__file__)))
from antt import Graph, indent, rt_files, strip_comment

ROOT = os.path.dirname(os.path.dirname(os.path.abspath(__file__)))
PAGE = os.path.join(ROOT, 'docs', 'PROOF.md')
OPEN, CLOSE = '<!-- made by tools/believed.py -->', '<!-- end of what tools/believed.py made -->'
ENTRIES = {'capi'}
WALK = {'Visits', 'Walks', 'Stretch'}  # the files of the statements about the walk: E5's, and document 01's about the rows that are written
# crate, file, name: (the definitions that may name it, what it is, the theorems that tell what comes of it)
TOLD = {
    ('finishing_cell', 'Made', 'made'): (
        {'Holds', 'StepAt'}, 'the numbers of both scratches after k steps, of a table, an allowance and k: what the calls of E9 hand on from one to the next',
        ['start-begins', 'after_exists', 'after-step', 'after_any', 'after_holds', 'after-told', 'after_answers', 'after-done', 'after_writes', 'after_waits', 'reach-final', 'reach_waits']),
}


def braced(text):
    """(crate, name) of each name of an import in braces, as `use walk::{begin, turn};`"""
    return {(c, n) for c, names in re.findall(r'^(?:pub )?use (\w+)(?:::\w+)*::\{([^}]*)\};', text, re.M) for n in re.findall(r'\w+', names)}


def called(root):
    """(crate, function) of every function that a program calls, its own ones among them"""
    calls = set()
    for p in rt_files(root):
        crate = os.path.relpath(p, os.path.join(root, 'crates')).split('/')[0]
        if os.path.exists(os.path.join(root, 'crates', crate, 'src', 'main.rt')) and not crate.endswith('_tests'):
            text = open(p).read()
            calls |= set(re.findall(r'\b(\w+)::(?:\w+::)*(\w+)', text)) | braced(text) | {(crate, f) for f in re.findall(r'\bfn (\w+)', text)}
    return calls


def reexported(root):
    """(crate, function) of every function that `engine` re-exports"""
    text = open(os.path.join(root, 'crates', 'engine', 'src', 'lib.rt')).read()
    return set(re.findall(r'^pub use (\w+)::(\w+);', text, re.M)) | braced(text)


def lines(f):
    return sum(1 for l in open(f.path) if l.strip() and not re.match(r'\s*--|use |(?:unfoldable )?pub use ', l))


def about(f):
    """what the file says of itself: its first sentence"""
    text = ' '.join(l.lstrip('- ').strip() for l in f.head)
    text = re.sub(r'\s*Assumes nothing\.', '', text)
    return re.split(r'(?<=[.])\s|:\s', text)[0].rstrip('.')


def one_line(d):
    """a statement whose proof is one line, an `unfolding` line aside"""
    rest = d.lines[len(d.signature()):]
    rest = [l for l in rest if strip_comment(l).strip() and not l.strip().startswith('unfolding ')]
    return len(rest) <= 1


def main():
    g = Graph(ROOT)
    plain = {k: f for k, f in g.files.items() if not k[1].startswith('Laws.')}
    stated, walk, proofs = set(), set(), []
    for key, f in plain.items():
        for d in f.decls():
            if d.is_def:
                continue
            if not one_line(d):
                proofs.append(f'{key[0]}/specs/{key[1]}.antt: {d.name}')
            (walk if key[1] in WALK else stated).add(d)
    told = {g.find(k): v for k, v in TOLD.items()}
    first = g.closure(g.contract_roots(ENTRIES) | g.function_roots(reexported(ROOT)) | stated, told)
    second = g.closure(walk) - first
    third = g.closure(g.function_roots(called(ROOT))) - first - second
    rest = g.closure(g.contract_roots()) - first - second - third
    # a name that is told by theorems counts inside its own definitions only, and the theorems are there
    strays = [f'{d.key[0]}/specs/{d.key[1]}.antt: {d.name} names {r.name}' for d in first - set(told) for r in g.decl_refs(d) & set(told) if d.name not in told[r][0]]
    known = {d.name for d in stated}
    strays += [f'{k[0]}/specs/{k[1]}.antt: {k[2]} is told by {n}, which is not stated' for k, v in TOLD.items() for n in v[2] if n not in known]

    def files(found):
        return sorted({d.key for d in found if (d.is_def or d in stated or d in walk) and d not in told})

    misplaced = [f'{k[0]}/proofs/Laws/{k[1][5:]}.antt' for k in files(first | second | third) if k[1].startswith('Laws.')]
    main_, more = [k for k in files(first) if k in plain], []
    more = [k for k in files(second) if k in plain and k not in main_]
    printed = [k for k in files(third) if k in plain and k not in main_ and k not in more]
    apart = [k[:2] for k in TOLD]
    inner = [k for k in files(rest) if k in plain and k not in main_ and k not in more and k not in printed and k not in apart]
    free = [k for k in sorted(plain) if k not in main_ and k not in more and k not in printed and k not in inner and k not in apart]

    def table(keys):
        out = ['| crate | file under its specs/ | lines | what it is |', '|---|---|---|---|']
        for k in keys:
            out.append(f'| `{k[0]}` | {k[1]} | {lines(g.files[k])} | {about(g.files[k])} |')
        out.append(f'| | in all | {sum(lines(g.files[k]) for k in keys)} | |')
        return out

    text = [OPEN, 'For the calls and the demands:', ''] + table(main_)
    text += ['', 'And for the walk: turn by turn (E5), and the rows that it writes (document 01):', ''] + table(more)
    text += ['', 'Named by the first list and told by theorems, so that its definition need not be believed:', '', '| name | what it is | what comes of it, whatever it is |', '|---|---|---|']
    text += [f'| `{k[2]}` (`{k[0]}` {k[1]}, {lines(g.files[k[:2]])} lines, in {" and ".join(f"`{n}`" for n in sorted(v[0]))}) | {v[1]} | {", ".join(f"`{n}`" for n in v[2])} |' for k, v in TOLD.items()]

    def listed(keys):
        names = {}
        for c, m in keys:
            names.setdefault(c, []).append(m)
        return '; '.join(f'`{c}` {", ".join(ms)}' for c, ms in sorted(names.items())) + '.'

    text += ['', 'And for the programs, by the contracts of the functions that they call (what a program itself reads and writes is tested):', ''] + table(printed)
    text += ['', 'These files directly under specs/ are named only by contracts of functions inside, which neither a caller nor a program calls: ' + listed(inner)]
    if free:
        text += ['', 'And these by no contract and no statement, only by what is proved: ' + listed(free)]
    text += [CLOSE]
    made = '\n'.join(text)
    if '--write' in sys.argv or '--check' in sys.argv:
        page = open(PAGE).read()
        if OPEN not in page:
            sys.exit(f'docs/PROOF.md has no mark {OPEN}')
        new = page[:page.index(OPEN)] + made + page[page.index(CLOSE) + len(CLOSE):]
        if '--write' in sys.argv:
            open(PAGE, 'w').write(new)
        elif new != page:
            sys.exit('docs/PROOF.md: the list of what must be believed is out of date (tools/believed.py --write)')
    else:
        print(made)
    for p in proofs:
        print('a proof under specs/ outside laws/:', p, file=sys.stderr)
    for m in misplaced:
        print('to be believed, but under laws/:', m, file=sys.stderr)
    for m in strays:
        print('not told by theorems:', m, file=sys.stderr)
    return 1 if proofs or misplaced or strays else 0


if __name__ == '__main__':
    sys.exit(main())

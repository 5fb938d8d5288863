#!/usr/bin/env python3
"""Laws and definitions that nothing needs: neither a proof in proofs/, nor a contract, nor a statement on a page of proofs/, nor what one of these needs.

    tools/dead.py          print them, file by file; exit 1 if there are any
    tools/dead.py --fix NAME ..   take these of them out (then tools/unused.py --fix, rt fmt, rt check)

A name counts as needed where it stands as a word of its own, so what is printed is needed nowhere; some that share a name with a variable may be missed.
A row is a place to look: a law that says what a definition means, or that a must-fail edit is refused by, is needed by no proof and stays. Those are named in KEEP.
"""
import os
import sys
sys.path.insert(0, os.path.dirname(os.path.abspath(__file__)))
from antt import Graph, antt_files, rt_files, stated, Module

ROOT = os.path.dirname(os.path.dirname(os.path.abspath(__file__)))
# laws that hold a definition fast in its own crate: a must-fail edit is refused by them
KEEP = {'separation-least', 'appointed-half', 'appointed_choice', 'appointed-within', 'rows-plan', 'value_decimal', 'only-stretch', 'one-no', 'read-then-label', 'read-then-layout',
        'child-before', 'child_tie', 'children-level', 'children-only', 'limits', 'no_nan', 'edges', 'left-least', 'left-reached', 'rows', 'unfinished_spelled', 'modes_told'}
# laws that stood at the last landing in the older Rattle, and that today's proofs find alone: a statement stays
STAYED = {'start_entering', 'wrote_one', 'no_name', 'a_name', 'told_short', 'one_more', 'less_none', 'clipped-fits', 'filled-length', 'sheet-narrow', 'laid_narrow',
          'none-refused', 'number-length', 'nine', 'put_one', 'put-part', 'put-done', 'most_fault', 'number-back', 'loop_stops', 'loop_goes_on', 'loop_ends',
          'loop_starts', 'part-refused', 'painted_long'}


def main():
    g = Graph(ROOT)
    live, todo = set(), []

    def need(found):
        for d in found:
            if d not in live:
                live.add(d)
                todo.append(d)
    for path in list(antt_files(ROOT)) + list(rt_files(ROOT)):
        parts = os.path.relpath(path, os.path.join(ROOT, 'crates')).split('/')
        if parts[1] == 'specs' or stated(parts) is not None:
            continue
        text = open(path).read()
        lines = text.split('\n')
        scope = g.scope([l.strip() for l in lines if l.startswith(('use Rattle', 'ghost use Rattle'))])
        need(g.refs('\n'.join(l for l in lines if not l.startswith(('use ', 'ghost use '))), scope))
    for key, f in g.files.items():
        for d in f.decls():
            if not key[1].startswith('Laws.') and not d.is_def or d.name in KEEP | STAYED:
                need({d})
    while todo:
        d = todo.pop()
        # all of it, bound names too: rather too much than too little
        text = '\n'.join(d.lines) + '\n' + '\n'.join(' '.join(m.header) for m in d.modules)
        need(g.refs(text, g.scopes[d.key]))
    total = 0
    for key, f in sorted(g.files.items()):
        gone = [d for d in f.decls() if d not in live and d.type != 'mod' and ('--fix' not in sys.argv or d.name in sys.argv)]
        if gone:
            total += len(gone)
            print(os.path.relpath(f.path, os.path.join(ROOT, 'crates')) + ': ' + ', '.join(d.name for d in gone))
            if '--fix' in sys.argv:
                def left(tree):
                    out = []
                    for d in tree:
                        if isinstance(d, Module):
                            d.body = left(d.body)
                            if d.body:
                                out.append(d)
                        elif d not in gone:
                            out.append(d)
                    return out
                f.tree = left(f.tree)
                if f.tree:
                    open(f.path, 'w').write(f.write())
                    continue
                os.remove(f.path)
                folder, name = os.path.split(f.path)
                lib = folder + '.antt' if os.path.basename(folder) == 'Laws' else os.path.join(folder, 'Lib.antt')
                mods = [l for l in open(lib).read().split('\n') if l != f'pub mod {name[:-5]}']
                open(lib, 'w').write('\n'.join(mods))
    print(f'{total} laws and definitions that nothing needs')
    return 1 if total and '--fix' not in sys.argv else 0


if __name__ == '__main__':
    sys.exit(main())

#!/usr/bin/env python3
"""Every contract, definition and statement of the tree, one a line, sorted, without the place where it stands: so that a move can be seen to change none.

    tools/statements.py [TREE] > before          (TREE: another checkout; default: this one)
    tools/statements.py > after; diff before after
    tools/statements.py [TREE] layout=contours ..    with crates renamed, all at once

contract: a function's head with its requires and ensures.  definition: all of it.  statement: its type; each with the parameters of the modules
around it. `pub` and comments count for nothing; what is said twice, word for word, is one line.
"""
import os
import re
import sys
sys.path.insert(0, os.path.dirname(os.path.abspath(__file__)))
from antt import File, antt_files, rt_files, rt_functions, stated, strip_comment


def flat(lines):
    text = ' '.join(strip_comment(l).strip() for l in lines)
    text = re.sub(r'\bpub ', '', text)
    text = re.sub(r'\s+', ' ', text).strip()
    return re.sub(r'\( ', '(', re.sub(r',? \)', ')', text))


def main():
    args = [a for a in sys.argv[1:] if '=' not in a]
    names = dict(a.split('=') for a in sys.argv[1:] if '=' in a)
    root = args[0] if args else os.path.dirname(os.path.dirname(os.path.abspath(__file__)))
    crate = lambda c: names.get(c, c)
    sub = re.compile(r'(?<![\w:·.-])(%s)(?=::)' % '|'.join(names)) if names else None
    out = set()
    for p in antt_files(root):
        parts = os.path.relpath(p, os.path.join(root, 'crates')).split('/')
        if stated(parts) is None:
            continue
        for d in File(p, open(p).read()).decls():
            if d.type == 'mod':
                continue
            around = flat([h for m in d.modules for h in m.header])
            around = re.sub(r'module _ | where\b', '', around)
            sort = 'definition' if d.is_def else 'statement'
            if sort == 'statement' and not d.pub:
                continue
            out.add(f'{sort} {d.name} | {around} | {flat(d.signature())}')
    for p in rt_files(root):
        parts = os.path.relpath(p, os.path.join(root, 'crates')).split('/')
        text = open(p).read()
        for name, public, head in rt_functions(text):
            head = flat(head.split('\n'))
            if sub:
                head = sub.sub(lambda m: names[m[1]], head)
            out.add(f'contract {crate(parts[0])}::{name} | {"public" if public else "private"} | {head}')
    print('\n'.join(sorted(out)))


if __name__ == '__main__':
    main()

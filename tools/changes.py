#!/usr/bin/env python3
"""What changed between another checkout and this one, old and new side by side, as docs/DESIGN-PASS.md has it: contracts of public functions, definitions
of specs/, and statements of proofs/ (laws and pages). What is word for word the same, wherever in its crate it stands, is left out.

    tools/changes.py OLDTREE           all of it
    tools/changes.py OLDTREE gone      only the names that are in the old tree and not in this one, by crate
"""
import os
import re
import sys
sys.path.insert(0, os.path.dirname(os.path.abspath(__file__)))
from antt import File, antt_files, rt_files, rt_functions, stated, strip_comment


def flat(lines):
    text = ' '.join(strip_comment(l).strip() for l in lines)
    text = re.sub(r'\bpub ', '', text)
    text = re.sub(r'\s+', ' ', text).strip()
    return re.sub(r'\( ', '(', re.sub(r',? \)', ')', text))


def items(root):
    """(kind, crate, name) -> [(where, text)]"""
    out = {}
    for p in antt_files(root):
        parts = os.path.relpath(p, os.path.join(root, 'crates')).split('/')
        if stated(parts) is None:
            continue
        for d in File(p, open(p).read()).decls():
            if d.type == 'mod' or not (d.is_def or d.pub):
                continue
            around = re.sub(r'module _ | where\b', '', flat([h for m in d.modules for h in m.header]))
            text = flat(d.signature())
            if around.strip():
                text = f'{around.strip()} | {text}'
            kind = 'definition' if d.is_def else 'statement'
            out.setdefault((kind, parts[0], d.name), []).append((stated(parts).replace('Laws.', 'Laws/'), text))
    for p in rt_files(root):
        parts = os.path.relpath(p, os.path.join(root, 'crates')).split('/')
        for name, public, head in rt_functions(open(p).read()):
            kind = 'public' if public else 'private'
            out.setdefault((kind, parts[0], name), []).append((parts[-1], re.sub(r'\s*\{$', '', flat(head.split('\n')))))
    return out


def main():
    root = os.path.dirname(os.path.dirname(os.path.abspath(__file__)))
    old, new = items(sys.argv[1]), items(root)
    gone_only = 'gone' in sys.argv
    crates = sorted({k[1] for k in old} | {k[1] for k in new})
    everywhere = {}
    for k, v in new.items():
        for w, t in v:
            everywhere.setdefault((k[0], t), (k[1], w))
    order = ['public', 'private', 'definition', 'statement']
    for c in crates:
        rows = []
        for k in sorted({k for k in list(old) + list(new) if k[1] == c}, key=lambda k: (order.index(k[0]), k[2])):
            before = [(w, t) for w, t in old.get(k, [])]
            after = [(w, t) for w, t in new.get(k, [])]
            texts_after = [t for _, t in after]
            left = [(w, t) for w, t in before if t not in texts_after]
            come = [(w, t) for w, t in after if t not in [t for _, t in before]]
            if not left and not come:
                continue
            if gone_only:
                if left and len(after) < len(before):
                    for w, t in left[len(come):] if come else left:
                        if (k[0], t) not in everywhere:
                            rows.append(f'{k[0]} {w} {k[2]}: {t[:300]}')
                continue
            if k[0] == 'private' or not [t for _, t in left if (k[0], t) not in everywhere]:
                continue
            rows.append(f'* **{k[2]}** ({k[0]})')
            for w, t in left:
                e = everywhere.get((k[0], t))
                rows.append(f'  - old, {w}: `{t}`' + (f' — stands word for word in {e[0]} {e[1]}' if e else ''))
            for w, t in come:
                rows.append(f'  - new, {w}: `{t}`')
            if not come and not any((k[0], t) in everywhere for _, t in left):
                rows.append('  - new: gone')
        if rows:
            print(f'\n### {c}\n')
            print('\n'.join(rows))


if __name__ == '__main__':
    main()

#!/usr/bin/env python3
"""Outlines by a program of its own, written from docs/OUTLINE.md and docs/FORMAT.md alone, against the proved programs.

    tests/outline.py PROGRAM-OUTLINE PROGRAM-COMPOSE [SEED [COUNT]]

Random plans go through both programs: the outline must be the one worked out here, and the plan composed of it the clean
copy worked out here. Random texts, most of them spoiled, go through the second: the line and the advice, the refusal or the
plan must be the one worked out here.
"""
import random
import re
import struct
import subprocess
import sys

KINDS = {'step': 1, 'run': 2, 'repeat': 3, 'choice': 4, 'wait': 5}
WORDS = {v: k for k, v in KINDS.items()}
BORDER = {1: 2, 2: 2, 3: 4, 4: 4, 5: 2}
CHILDREN = {1: (0, 0), 2: (1, 16), 3: (1, 1), 4: (2, 16), 5: (0, 1)}
ADVICE = {
    1: 'the text is empty: begin with a line such as allowance 0',
    2: 'a tab or another byte that is not printable: use blanks, and letters, digits and signs of ASCII',
    3: 'more than 255 bytes: shorten the line',
    4: 'more than 256 cells: leave out this line and those below it',
    5: 'the first line is not the allowance: write the word allowance, a blank and a number',
    6: 'an odd number of blanks before the word: use two for each level',
    7: 'the line does not begin with step, run, repeat, choice or wait: use one of them, and leave no line empty',
    8: 'what follows the word is not understood: write width, depth, rank, under, a number each, in this order, then the label in quotes',
    9: 'a number is too large: allowance and width go up to 65535, depth, rank and under up to 255',
    10: 'the label has no quote at its end: end the line with one',
    11: "the line stands in no cell's place: put it two blanks right of the cell it is under, and only the first at the margin",
}


class Wrong(Exception):
    pass


# ---- a cell is (parent, kind, width, depth, rank, label); the root's parent is None
def written(allowance, cells):
    """the outline"""
    lines, levels = [f'allowance {allowance}'], []
    for parent, kind, width, depth, rank, label in cells:
        level = 0 if parent is None else levels[parent] + 1
        above = [c for c, l in enumerate(levels) if l < level]
        line = '  ' * level + WORDS[kind]
        if width != len(label) + BORDER[kind]:
            line += f' width {width}'
        if depth != 1:
            line += f' depth {depth}'
        if rank != 0:
            line += f' rank {rank}'
        if parent is not None and above[-1] != parent:
            line += f' under {parent}'
        if label:
            line += f' "{label}"'
        lines.append(line)
        levels.append(level)
    return ''.join(l + '\n' for l in lines).encode()


def wide(cells):
    return any(w > 255 or q for _, _, w, _, q, _ in cells)


def file_of(allowance, cells):
    """the clean copy"""
    labels, records, at, long = b'', b'', 0, wide(cells)
    for parent, kind, width, depth, rank, label in cells:
        p, t = 65535 if parent is None else parent, label.encode()
        records += struct.pack('<HBBHBBH', p, kind, depth, width, len(t), rank, at) if long else struct.pack('<HBBBBH', p, kind, width, depth, len(t), at)
        labels += t
        at += len(t)
    return labels + records + struct.pack('<HHH', at, len(cells), allowance) + (b'SU' if long else b'ST')


# ---- what a text says
def number(digits, most):
    n = int(digits)
    if n > most:
        raise Wrong(9)
    return n


def cell_of(line, levels):
    blanks = len(line) - len(line.lstrip(b' '))
    if blanks % 2:
        raise Wrong(6)
    level, rest = blanks // 2, line[blanks:]
    m = re.match(rb'(step|run|repeat|choice|wait)(?=( |$))', rest)
    if not m or b'\n' in rest:
        raise Wrong(7)
    kind, rest = KINDS[m.group(1).decode()], rest[m.end():]
    given = {}
    for word, most in (('width', 65535), ('depth', 255), ('rank', 255), ('under', 255)):
        lead = f' {word} '.encode()
        if rest.startswith(lead):
            m = re.match(rb'[0-9]+', rest[len(lead):])
            if not m:
                raise Wrong(8)
            given[word] = number(m.group(), most)
            rest = rest[len(lead) + m.end():]
    label = ''
    if rest:
        if not rest.startswith(b' "'):
            raise Wrong(8)
        if len(rest) < 3 or not rest.endswith(b'"'):
            raise Wrong(10)
        label = rest[2:-1].decode()
    c = len(levels)
    above = [p for p, l in enumerate(levels) if l < level]
    parent = given.get('under', above[-1] if above else None)
    if c == 0:
        if parent is not None or level != 0:
            raise Wrong(11)
    elif parent is None or parent >= c or level != levels[parent] + 1:
        raise Wrong(11)
    levels.append(level)
    return parent, kind, given.get('width', len(label) + BORDER[kind]), given.get('depth', 1), given.get('rank', 0), label


def clear(line):
    if any(b < 32 or b > 126 for b in line):
        raise Wrong(2)
    if len(line) > 255:
        raise Wrong(3)


def said(text):
    """('plan', allowance, cells) or ('fault', line, number)"""
    lines = text.split(b'\n')
    if lines[-1] == b'':
        lines.pop()
    at = 1
    try:
        if not lines:
            raise Wrong(1)
        clear(lines[0])
        m = re.fullmatch(rb'allowance ([0-9]+)(.*)', lines[0])
        if not m:
            raise Wrong(5)
        allowance = number(m.group(1), 65535)
        if m.group(2):
            raise Wrong(5)
        cells, levels = [], []
        for line in lines[1:]:
            at += 1
            if len(cells) == 256:
                raise Wrong(4)
            clear(line)
            cells.append(cell_of(line, levels))
        return 'plan', allowance, cells
    except Wrong as w:
        return 'fault', at, w.args[0]


# ---- the questions that what is said may be refused by: (number, cell), or None
def refusal(cells):
    if not cells:
        return 4, 0
    for c, (_, kind, width, depth, _, label) in enumerate(cells):
        if not (1 <= width <= 1023 and 1 <= depth <= 15):
            return 8, c
        if len(label) > 40:
            return 9, c
        if width < len(label) + BORDER[kind]:
            return 10, c
    count, level, row = [0] * len(cells), [0] * len(cells), [0] * len(cells)
    for c, (parent, *_) in enumerate(cells):
        if parent is not None:
            count[parent] += 1
            level[c] = level[parent] + 1
            row[c] = row[parent] + cells[parent][3] + 1
    for c, (_, kind, *_) in enumerate(cells):
        low, high = CHILDREN[kind]
        if not low <= count[c] <= high:
            return 11, c
    for c in range(len(cells)):
        if level[c] > 31:
            return 12, c
    for c, (_, _, _, depth, _, _) in enumerate(cells):
        if row[c] + depth > 255:
            return 13, c
    return None


# ---- random plans that Read accepts, and texts
def label_of(r):
    if r.random() < 0.3:
        return ''
    letters = ' abcdEFG0129"\\-.,~' if r.random() < 0.7 else ''.join(map(chr, range(32, 127)))
    return ''.join(r.choice(letters) for _ in range(r.choice([1, 2, 5, 12, 30, 40])))


def plan_of(r):
    most, cells, open_, few = r.choice([1, 3, 8, 40, 256]), [], [None], {}
    walk = r.random() < 0.5  # cells in the order of a walk, or in any
    while open_ and len(cells) < most:
        parent = open_.pop() if walk else open_.pop(r.randrange(len(open_)))
        level = 0 if parent is None else few[parent] + 1
        kind = 1 if level > 5 or len(cells) + len(open_) + 17 > most else r.choice([1, 2, 2, 3, 4, 4, 5])
        low, high = CHILDREN[kind]
        label = label_of(r)
        least = len(label) + BORDER[kind]
        width = least if r.random() < 0.6 else r.choice([least, 255, 256, 1023, r.randint(least, 1023)])
        cells.append((parent, kind, max(width, least), r.choice([1, 1, 1, 2, 15]), r.choice([0, 0, 0, 1, 255]) if r.random() < 0.5 else 0, label))
        few[len(cells) - 1] = level
        open_ += [len(cells) - 1] * r.randint(low, min(high, 4) if high else 0)
    return r.choice([0, 3, 65535, r.randrange(65536)]), cells


def untidy(r, allowance, cells):
    """a file of this content that is not clean: labels in another order, a byte that no label uses, in the wide form or in the old"""
    order = list(range(len(cells)))
    r.shuffle(order)
    labels, start = b'?' * r.randrange(3), {}
    for c in order:
        t = cells[c][5].encode()
        start[c] = labels.find(t) if t and t in labels else len(labels)
        if start[c] == len(labels):
            labels += t
    long = wide(cells) or r.random() < 0.5
    records = b''
    for c, (parent, kind, width, depth, rank, label) in enumerate(cells):
        p = 65535 if parent is None else parent
        records += struct.pack('<HBBHBBH', p, kind, depth, width, len(label), rank, start[c]) if long else struct.pack('<HBBBBH', p, kind, width, depth, len(label), start[c])
    return labels + records + struct.pack('<HHH', len(labels), len(cells), allowance) + (b'SU' if long else b'ST')


def spoiled(r, text):
    lines = text.split(b'\n')[:-1]
    for _ in range(r.choice([1, 1, 1, 2])):
        i = r.randrange(len(lines)) if r.random() < 0.2 else r.randrange(1, max(2, len(lines))) % len(lines)
        line = lines[i]
        what = r.choice([0, 1, 2, 3, 4, 5, 5, 6, 7, 8, 9, 10, 10, 10, 11])
        if what == 0:
            lines[i] = b' ' + line
        elif what == 1:
            lines[i] = b'  ' + line
        elif what == 2:
            lines[i] = line[:-1]
        elif what == 3:
            lines[i] = line.replace(b'step', r.choice([b'stop', b'Step', b'wait', b'stepp']))
        elif what == 4:
            at = r.randrange(len(line) + 1)
            lines[i] = line[:at] + bytes([r.choice([9, 13, 127, 200, 32, 34, 48, 57])]) + line[at:]
        elif what == 5:
            lines[i] = line + r.choice([b' width 65536', b' rank 256', b' depth 0', b' under 0', b' under 300', b' width', b' ', b' "', b' ""', b' "x"', b' rank 007', b' depth 2 width 9'])
        elif what == 6:
            del lines[i]
            lines = lines or [b'']
        elif what == 7:
            lines.insert(i, b'')
        elif what == 8:
            lines[i] = line + b' "' + b'y' * r.choice([40, 41, 200, 250, 300]) + b'"'
        elif what == 9:
            lines.insert(i, r.choice(lines))
        elif what == 10:
            field = r.choice([b' width 0', b' width 1', b' width 1024', b' width 00300', b' width 65536', b' depth 0', b' depth 16', b' depth 256', b' rank 256', b' rank 00255'])
            lines[i] = re.sub(rb'^( *[a-z]+)( width [0-9]+)?', lambda m: m.group(1) + field, line)
        else:
            lines += [b'  step'] * r.choice([1, 256, 300])
    return b'\n'.join(lines) + (b'' if r.random() < 0.1 else b'\n')


def run(program, data):
    p = subprocess.run([program], input=data, stdout=subprocess.PIPE, stderr=subprocess.PIPE)
    return p.stdout, p.stderr


def same(what, given, expected, got):
    if expected != got:
        sys.exit(f'tests/outline.py: {what}\n  given:    {given!r}\n  expected: {expected!r}\n  got:      {got!r}')


def main():
    outline, compose = sys.argv[1:3]
    seed, count = int(sys.argv[3]) if len(sys.argv) > 3 else 1, int(sys.argv[4]) if len(sys.argv) > 4 else 300
    r, seen = random.Random(seed), {}
    for _ in range(count):
        allowance, cells = plan_of(r)
        file = untidy(r, allowance, cells)
        if refusal(cells) or len(file) > 16384:
            continue
        text = written(allowance, cells)
        same('the outline', file, (text, b''), run(outline, file))
        same('what the outline says', text, ('plan', allowance, cells), said(text))
        same('the plan composed of the outline', text, (file_of(allowance, cells), b''), run(compose, text))
        seen['plan'] = seen.get('plan', 0) + 1
    for _ in range(2 * count):
        allowance, cells = plan_of(r)
        text = spoiled(r, written(allowance, cells))
        what, a, b = said(text)
        if what == 'fault':
            expected, key = (b'', f'line {a}: {ADVICE[b]}\n'.encode()), f'fault {b}'
        elif refusal(b):
            expected, key = (b'', 'refused {} {}\n'.format(*refusal(b)).encode()), 'refused {}'.format(refusal(b)[0])
        else:
            expected, key = (file_of(a, b), b''), 'understood'
        same('the plan composed of a text', text, expected, run(compose, text))
        seen[key] = seen.get(key, 0) + 1
    missing = [f'fault {k}' for k in range(2, 12) if f'fault {k}' not in seen] + [f'refused {k}' for k in (8, 9, 10, 11) if f'refused {k}' not in seen]
    if missing:
        sys.exit(f'tests/outline.py: not seen: {missing}')
    print(f'tests/outline.py: {sum(seen.values())} passed ({", ".join(f"{v} {k}" for k, v in sorted(seen.items()))})')


if __name__ == '__main__':
    main()

#!/usr/bin/env python3
"""Writes plans/*.plan with the expected listings beside them, and what the programs sheet and sheet_tests are run on.

Nothing here calls the engine. The expectations of document 01's sheets A to F, of its printed example, of the small plans with
choices (N to Q) and of every refusal are written by hand, from documents 01 and 02. Those of the larger plans come from
`placement` below, a layout of its own: it takes the rules S3 to S5 as lower bounds on the distances of brothers, cell by cell
and row by row, and goes the longest path through them (the engine keeps contours instead). The two are compared on A to Q first.

Run it in the repository's root: python3 tools/make_plans.py
"""
import struct
from pathlib import Path

KINDS = {'step': 1, 'run': 2, 'repeat': 3, 'choice': 4, 'wait': 5}
BORDER = {'step': 2, 'run': 2, 'repeat': 4, 'choice': 4, 'wait': 2}
ROOT = 65535


# ---- plans and files

class Cell:
    def __init__(self, father, kind, w, d=1, label='', rank=0):
        self.father, self.kind, self.w, self.d, self.label, self.rank = father, KINDS.get(kind, kind), w, d, label, rank


def table(text):
    """A line for each cell: father (- for the root), kind, W, and, where they are not 1 and empty, D and label."""
    cells = []
    for line in text.strip().splitlines():
        f = line.split(None, 4)
        cells.append(Cell(ROOT if f[0] == '-' else int(f[0]), f[1], int(f[2]),
                          int(f[3]) if len(f) > 3 else 1, f[4] if len(f) > 4 else ''))
    return cells


def outline(text):
    """A line for each cell, below its father and indented by two: kind, D and label. W is what the label needs."""
    cells, open_cells = [], []
    for line in text.strip('\n').splitlines():
        depth = (len(line) - len(line.lstrip())) // 2
        kind, d, label = line.split(None, 2)
        del open_cells[depth:]
        cells.append(Cell(open_cells[-1] if open_cells else ROOT, kind, len(label) + BORDER[kind], int(d), label))
        open_cells.append(len(cells) - 1)
    return cells


OLD, WIDE = b'\x53\x54', b'\x53\x55'


def plan_file(cells, allowance=0, letters=None, labels=None, begin=None, count=None, mark=OLD):
    """The labels in the order of the cells, each once; or the letters given, with (start, length) of each label.

    The mark decides the form, as in document 02's E7; only the wide one has ranks (E13)."""
    if letters is None:
        letters, labels, known = b'', [], {}
        for c in cells:
            if c.label not in known:
                known[c.label] = len(letters) if c.label else 0
                letters += c.label.encode()
            labels.append((known[c.label], len(c.label)))
    labels = labels or [(0, 0)] * len(cells)
    if mark == WIDE:
        body = b''.join(struct.pack('<HBBHBBH', c.father, c.kind, c.d, c.w, n, c.rank, s)
                        for c, (s, n) in zip(cells, labels))
    else:
        body = b''.join(struct.pack('<HBBBBH', c.father, c.kind, c.w, c.d, n, s) for c, (s, n) in zip(cells, labels))
    return letters + body + struct.pack('<HHH', len(letters) if begin is None else begin,
                                        len(cells) if count is None else count, allowance) + mark


# ---- a layout of its own

def sons_of(cells):
    sons = [[] for _ in cells]
    for c, cell in enumerate(cells[1:], 1):
        sons[cell.father].append(c)
    return [sorted(s, key=lambda c: cells[c].rank) for s in sons]        # by rank, then in file order (E13)


def placement(cells, allowance):
    """x and y of each cell, width and rows."""
    n, sons = len(cells), sons_of(cells)
    y = [0] * n
    for c in range(1, n):
        y[c] = y[cells[c].father] + cells[cells[c].father].d + 1                      # S1
    foot = [y[c] + cells[c].d for c in range(n)]
    below = [[c] for c in range(n)]
    at = [{c: 0} for c in range(n)]         # the sub-diagram's x's, its top cell at 0
    for c in reversed(range(1, n)):
        foot[cells[c].father] = max(foot[cells[c].father], foot[c])

    def ends(c, row, x):
        """Left and right end of a cell's box or plumb line in a row."""
        if y[c] <= row <= y[c] + cells[c].d:
            return x, x + cells[c].w
        if sons[c] and y[c] + cells[c].d < row <= foot[c]:
            return x, x
        return None

    def apart(s, t):
        """How far t's top cell must at least lie to the right of s's, for neighbouring brothers s and t."""
        least = max([at[s][a] + cells[a].w + 1 for a in at[s]] + [1 - at[t][b] for b in at[t]])      # S3
        for a, xa in at[s].items():
            for b, xb in at[t].items():
                least = max(least, xa + cells[a].w + 1 - allowance - xb)                             # S5
                for row in range(max(y[a], y[b]), min(foot[a], foot[b]) + 1):
                    p, q = ends(a, row, xa), ends(b, row, xb)
                    if p and q:
                        least = max(least, p[1] + 1 - q[0])                                          # S4
        return least

    for c in reversed(range(n)):
        if sons[c]:
            x = [0]
            for s, t in zip(sons[c], sons[c][1:]):
                x.append(x[-1] + apart(s, t))
            middle = x[0 if cells[c].kind == KINDS['choice'] else (len(x) + 2) // 2 - 1]             # S2, with E6
            for s, xs in zip(sons[c], x):
                at[c].update({d: xs - middle + xd for d, xd in at[s].items()})
    x = [at[0][c] for c in range(n)]
    return x, y, max(x[c] + cells[c].w for c in range(n)) - min(x), foot[0] + 1


def listing(cells, allowance, x, y, width, rows):
    lines = ['sheet %d %d %d %d' % (len(cells), allowance, width, rows)]
    for c, cell in enumerate(cells):
        lines.append(' '.join(['%d %d %d %d %d' % (c, x[c], y[c], cell.w, cell.d)] + ([cell.label] if cell.label else [])))
    return '\n'.join(lines) + '\n'


# ---- document 01's sheets, with its own numbers: x of each cell, width and rows

A = table('- step 5')
B = table('''
- run 4
0 step 3
0 step 5
''')
C = table('''
- run 2
0 step 3
0 step 3
0 step 3
''')
D = table('''
- run 2
0 step 2
0 step 2
0 step 2
0 step 2
''')
E = table('''
- run 2
0 step 6
0 run 2
2 step 3
2 step 2
''')
F = table('''
- run 2
0 run 2
1 step 2
1 step 9
1 run 2
4 run 2
4 step 2
5 step 2
0 run 2
8 run 2
9 run 2
10 step 8
10 step 2
''')
# ---- sheets of document 02's E6, with choices: the rows N to Q of crate least's worked sheets

N = table('''
- choice 4
0 step 3
0 step 5
''')
O = table('''
- run 2
0 choice 4
0 step 3
1 step 3
1 step 5
''')
P = table('''
- run 2
0 step 3
0 choice 4
2 step 3
2 step 5
''')
Q = table('''
- choice 4
0 step 9
0 run 2
0 run 2
2 step 3
2 step 2
3 run 2
6 step 7
6 step 2
''')
PRINTED = table('''
- run 4 1 Up
0 step 3 1 A
0 step 5 1 Run
''')
# name, plan, allowance, x of each cell, width, rows. E's cell 1 ends the sheet on the left, so its x follows from the width
WORKED = [
    ('A', A, 0, [0], 5, 2),
    ('B', B, 0, [0, -4, 0], 9, 4),
    ('C', C, 0, [0, -4, 0, 4], 11, 4),
    ('D', D, 0, [0, -6, -3, 0, 3], 11, 4),
    ('E-0', E, 0, [0, 2 - 13, 0, -4, 0], 13, 6),
    ('E-3', E, 3, [0, 2 - 10, 0, -4, 0], 10, 6),
    ('E-4', E, 4, [0, 2 - 9, 0, -4, 0], 9, 6),
    ('E-200', E, 200, [0, 2 - 9, 0, -4, 0], 9, 6),
    ('F-3', F, 3, [0, -20, -23, -20, -10, -13, -10, -13, 0, 0, 0, -9, 0], 25, 10),
    ('printed', PRINTED, 0, [0, -4, 0], 9, 4),
    ('N', N, 0, [0, 0, 4], 9, 4),
    ('O', O, 0, [0, -10, 0, -10, -6], 13, 6),
    ('P', P, 0, [0, -4, 0, 0, 4], 13, 6),
    ('Q-200', Q, 200, [0, 0, 10, 19, 6, 10, 19, 11, 19], 21, 8),
]

# ---- a season of a salt works

POND = outline('''
run 1 Season of the salt works
  run 1 Fill the outer pond
    wait 1 Wait for the spring tide
      step 1 Open sea gate 1
    step 1 Measure the level
    repeat 1 Until 90 cm
      choice 1 Tide
        run 1 Rising
          step 1 Open sea gate 2
          wait 1 Wait an hour
        step 1 Close both gates
  choice 2 Brine in the outer pond
    run 1 Below 8 degrees
      step 1 Close valve V1
      wait 1 Wait for sun and wind
    run 1 From 8 to 12 degrees
      step 1 Open valve V1
      step 1 Open valve V2
      wait 1 Wait two days
        step 1 Measure again
    run 1 Above 12 degrees
      step 1 Let in sea water
      repeat 1 Until 12 degrees
        step 1 Stir the brine
  repeat 2 For each of the 12 pans
    run 1 Pan
      step 1 Open the pan's sluice
      wait 1 Wait for the crust
      choice 1 Crust
        run 1 White
          step 2 Rake the crust
          step 1 Carry to the store
        run 1 Grey
          step 1 Drain the bitterns
          step 1 Rinse with brine
          wait 1 Wait a day
        step 1 None: leave the pan
  run 1 Before the rain
    step 1 Cover the store
    choice 1 Ponds
      step 1 Full: open the overflow
      run 1 Not full
        step 1 Close valve V1
        step 1 Close valve V2
''')

# ---- a full one: a root, 15 gates, 16 steps below each

FULL = [Cell(ROOT, 'run', 20, 1, 'All fifteen gates')]
for gate in range(15):
    FULL.append(Cell(0, 'run' if gate % 2 else 'choice', 12, 1 + gate % 3, 'Gate %d' % (gate + 1)))
    top = len(FULL) - 1
    FULL += [Cell(top, 'wait' if (gate + k) % 5 == 0 else 'step', 4 + (3 * gate + 5 * k) % 9, 1 + k % 2, 'abcd'[k % 4] * (k % 3))
             for k in range(16)]

# ---- a wide one, with labels in two languages, and the widest boxes that a full table can have

BILINGUAL = table('''
- run 280 1 Saison des Salzgartens - Salt season
0 step 140 2 Seetor 1 oeffnen - Open sea gate 1
0 run 1023 1 Becken fuellen - Fill the pond
2 repeat 256 1 Bis 90 cm - Until 90 cm
3 wait 255 1 Eine Stunde warten - Wait an hour
2 choice 400 3 Kruste - Crust
5 step 90 1 Weiss: rechen - White: rake
5 step 301 2 Grau: ablassen - Grey: drain
0 wait 64 1 Regen - Rain
''')
WIDEST = [Cell(c.father, c.kind, 1023, c.d, c.label) for c in FULL]



def ranks(cells, given):
    """The plan with these ranks, and 0 for every other cell."""
    return [Cell(c.father, c.kind, c.w, c.d, c.label, given.get(i, 0)) for i, c in enumerate(cells)]


# the rain first, then the outer pond and its brine (a tie: in file order), the pans last; of the crusts the grey one first
RANKED = ranks(POND, {37: 1, 1: 2, 11: 2, 24: 3, 29: 1, 36: 1})

# name, plan, allowance; the width where document 01 gives it
COMPUTED = [('F-0', F, 0, 30), ('pond', POND, 12, None), ('full', FULL, 20, None)]

# name, plan, allowance, of those in the wide form
IN_WIDE = [('bilingual', BILINGUAL, 40), ('widest', WIDEST, 0), ('ranked', RANKED, 12)]

# plan, allowance, x, width and rows, by hand: ranks that exchange B's children, reverse D's, put N's last branch first, tie two of D's
BY_RANK = [
    (ranks(B, {1: 1}), 0, [0, 0, -6], 10, 4),
    (ranks(D, {1: 9, 2: 3, 3: 2, 4: 1}), 0, [0, 3, 0, -3, -6], 11, 4),
    (ranks(N, {1: 255}), 0, [0, 6, 0], 9, 4),
    (ranks(D, {1: 7, 3: 7}), 0, [0, 0, -6, 3, -3], 11, 4),
]


# ---- what each refusal is put to, and the edges

def chain(depths, last='step'):
    cells = [Cell(i - 1 if i else ROOT, 'run', 2, d) for i, d in enumerate(depths)]
    cells[-1].kind = KINDS[last]
    return cells


def brothers(kind, k):
    return [Cell(ROOT, kind, 9)] + [Cell(0, 'step', 2)] * k


ONE = [Cell(ROOT, 'step', 5)]
LONG = 'Forty letters, the most that a label has'


def changed(cells, c, **fields):
    out = [Cell(x.father, x.kind, x.w, x.d, x.label, x.rank) for x in cells]
    for k, v in fields.items():
        setattr(out[c], k, v)
    return out


# file, number, cell
REFUSED = [
    (b'', 2, 0),
    (plan_file(ONE)[1:], 2, 0),                                        # 15 bytes
    (plan_file(ONE, letters=b' ' * 16369), 2, 0),                      # 16,385
    (plan_file(ONE, mark=b'ST'[::-1]), 3, 0),
    (plan_file(ONE, mark=b'\x53\x56'), 3, 0),
    (plan_file(ONE, count=0), 4, 0),
    (plan_file(ONE, begin=1), 4, 0),
    (plan_file(brothers('run', 256)), 4, 0),                           # 257 cells
    (plan_file(ONE, mark=WIDE)[1:], 4, 0),                             # 17 bytes
    (plan_file(ONE)[:-2] + WIDE, 4, 0),                                # old records, wide mark
    (plan_file(ONE, mark=WIDE)[:-2] + OLD, 4, 0),                      # wide records, old mark
    (plan_file(ONE, letters=b'\x1f'), 5, 0),
    (plan_file(ONE, letters=b'\x7f'), 5, 0),
    (plan_file(changed(B, 0, father=0)), 6, 0),
    (plan_file(changed(B, 1, father=1)), 6, 1),
    (plan_file(changed(B, 2, father=ROOT)), 6, 2),
    (plan_file(changed(B, 1, kind=0)), 7, 1),
    (plan_file(changed(B, 2, kind=6)), 7, 2),
    (plan_file(changed(B, 1, w=0)), 8, 1),
    (plan_file(changed(B, 1, d=0)), 8, 1),
    (plan_file(changed(B, 2, d=16)), 8, 2),
    (plan_file(changed(B, 2, w=1024), mark=WIDE), 8, 2),
    (plan_file(changed(B, 1, w=255), letters=b'x' * 41, labels=[(0, 0), (0, 41), (0, 0)]), 9, 1),
    (plan_file(B, letters=b'x', labels=[(0, 0), (1, 1), (0, 0)]), 9, 1),
    (plan_file(B, letters=b'x', labels=[(2, 0), (0, 1), (0, 0)]), 9, 0),
    (plan_file(B, letters=b'xx', labels=[(0, 0), (0, 2), (0, 0)]), 10, 1),
    (plan_file(changed(B, 2, father=1)), 11, 1),                       # a step with a son
    (plan_file([Cell(ROOT, 'run', 2)]), 11, 0),
    (plan_file(brothers('run', 17)), 11, 0),
    (plan_file(brothers('repeat', 2)), 11, 0),
    (plan_file(brothers('choice', 1)), 11, 0),
    (plan_file(brothers('wait', 2)), 11, 0),
    (plan_file(chain([1] * 33)), 12, 32),
    (plan_file(chain([15] * 15 + [14, 1])), 13, 16),                   # 257 rows
]
ACCEPTED = [
    (ONE, 65535, None),
    (ONE, 0, b' ' * 16368),                                            # a file of 16,384 bytes
    ([Cell(ROOT, 'step', 42, 1, LONG)], 0, None),
    (brothers('run', 16), 0, None),
    (chain([1] * 32), 0, None),
    (chain([15] * 16), 0, None),
    (chain([1, 1], 'wait'), 0, None),
]


# ---- all of it written

def main():
    plans = Path('plans')
    plans.mkdir(exist_ok=True)
    files, lists = [], []

    def keep(file, text):
        files.append(file)
        lists.append(text)

    def store(name, cells, allowance, text, mark=OLD):
        border = {KINDS[k]: b for k, b in BORDER.items()}
        assert all(c.w >= len(c.label) + border[c.kind] for c in cells), name                        # question 10
        (plans / (name + '.plan')).write_bytes(plan_file(cells, allowance, mark=mark))
        (plans / (name + '.txt')).write_text(text)
        keep(plan_file(cells, allowance, mark=mark), text)

    for name, cells, allowance, x, width, rows in WORKED:
        found = placement(cells, allowance)
        assert (found[0], found[2], found[3]) == (x, width, rows), (name, found)
        store(name, cells, allowance, listing(cells, allowance, x, found[1], width, rows))
    for name, cells, allowance, width in COMPUTED:
        found = placement(cells, allowance)
        assert width in (None, found[2]), (name, found)
        store(name, cells, allowance, listing(cells, allowance, *found))
    for name, cells, allowance in IN_WIDE:
        store(name, cells, allowance, listing(cells, allowance, *placement(cells, allowance)), WIDE)
    for cells, allowance, letters in ACCEPTED:
        keep(plan_file(cells, allowance, letters), listing(cells, allowance, *placement(cells, allowance)))
    for name, cells, allowance, _, _, _ in WORKED:
        keep(plan_file(cells, allowance, mark=WIDE), (plans / (name + '.txt')).read_text())          # the same plan, the same listing
    for cells, allowance, x, width, rows in BY_RANK:
        found = placement(cells, allowance)
        assert (found[0], found[2], found[3]) == (x, width, rows), found
        keep(plan_file(cells, allowance, mark=WIDE), listing(cells, allowance, x, found[1], width, rows))
    for w in (255, 256, 1023):
        one = [Cell(ROOT, 'step', w)]
        keep(plan_file(one, mark=WIDE), listing(one, 0, *placement(one, 0)))
    for file, number, cell in REFUSED:
        keep(file, 'refused %d %d\n' % (number, cell))

    printed = bytes.fromhex('55704152756e' 'FFFF020401020000' '0000010301010200' '0000010501030300' '0600030000005354')
    assert printed == (plans / 'printed.plan').read_bytes()
    one = Path('crates/sheet')
    (one / 'stdin').write_bytes(printed)
    (one / 'stdout').write_text('sheet 3 0 9 4\n0 0 0 4 1 Up\n1 -4 2 3 1 A\n2 0 2 5 1 Run\n')
    many = Path('crates/sheet_tests')
    (many / 'stdin').write_bytes(b''.join(struct.pack('<H', len(f)) + f for f in files))
    (many / 'stdout').write_text(''.join(lists))
    print('%d plans in plans/, %d files for sheet_tests' % (len(WORKED) + len(COMPUTED) + len(IN_WIDE), len(files)))


if __name__ == '__main__':
    main()

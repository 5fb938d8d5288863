#!/usr/bin/env python3
"""Writes the cases of crates/planfile_tests: stdin (the files) and stdout (what Read and Label must answer).

Every expectation is written here by hand, from documents 01 and 02; nothing is computed by the engine.
Run it in the repository's root: python3 tools/file_cases.py
"""
import struct

STEP, RUN, REPEAT, CHOICE, WAIT = 1, 2, 3, 4, 5
ROOT = 65535


def cell(parent, kind, w, d=1, length=0, start=0):
    return (parent, kind, w, d, length, start)


def plan(cells, letters=b'', allowance=0, begin=None, count=None, mark=b'\x53\x54'):
    body = b''.join(struct.pack('<HBBBBH', p, k, w, d, n, s) for p, k, w, d, n, s in cells)
    begin = len(letters) if begin is None else begin
    count = len(cells) if count is None else count
    return letters + body + struct.pack('<HHH', begin, count, allowance) + mark


OLD, WIDE = b'\x53\x54', b'\x53\x55'


def wide_plan(cells, letters=b'', allowance=0, begin=None, count=None, mark=WIDE, ranks={}):
    """The wide form: records of 10 bytes; ranks: those that are not zero."""
    body = b''.join(struct.pack('<HBBHBBH', p, k, d, w, n, ranks.get(c, 0), s) for c, (p, k, w, d, n, s) in enumerate(cells))
    begin = len(letters) if begin is None else begin
    count = len(cells) if count is None else count
    return letters + body + struct.pack('<HHH', begin, count, allowance) + mark


CASES = []


def case(file, expect, room=256, at=0, label=None):
    """expect: ('refused', number, cell), or ('plan', n, allowance, records shown)."""
    lines = []
    if expect[0] == 'refused':
        lines.append('refused %d %d' % expect[1:])
    else:
        lines.append('plan %d %d' % expect[1:3])
        lines += expect[3]
    lines.append('label ' + label)
    CASES.append((file, room, at, '\n'.join(lines) + '\n'))


def refused(file, number, cell_at_fault=0, room=256, at=0, label=None):
    # Label puts the same questions but the first
    case(file, ('refused', number, cell_at_fault), room, at, label or '%d %d ' % (number, cell_at_fault))


def shown(cells, letters=b'', ranks={}):
    """The first four records, and the blank one after the last where it is among them."""
    rows = []
    for c in range(min(4, len(cells) + 1)):
        if c < len(cells):
            p, k, w, d, n, s = cells[c]
            rows.append('%d %d %d %d %d %d %d %s' % (p, k, ranks.get(c, 0), w, d, n, s, letters[s:s + n].decode()))
        else:
            rows.append('0 0 0 0 0 0 0 ')
    return rows


def accepted(cells, letters=b'', allowance=0, at=0, label='0 0 ', form=plan):
    case(form(cells, letters, allowance), ('plan', len(cells), allowance, shown(cells, letters)), 256, at, label)


def ranked(cells, ranks):
    case(wide_plan(cells, ranks=ranks), ('plan', len(cells), 0, shown(cells, ranks=ranks)), 256, 0, '0 0 ')


ONE = [cell(ROOT, STEP, 5)]
TWO = [cell(ROOT, RUN, 4), cell(0, STEP, 3)]


def star(k, kind=RUN, w=10):
    return [cell(ROOT, kind, w)] + [cell(0, STEP, 2) for _ in range(k)]


def chain(n, d=1, w=4):
    return [cell(ROOT if c == 0 else c - 1, STEP if c == n - 1 else RUN, w, d) for c in range(n)]


def wide(n):
    """n cells, no parent with more than 16 children."""
    cells = [cell(ROOT, RUN, 9)]
    for c in range(1, n):
        cells.append([(c - 1) // 16, None])
    parents = {c[0] for c in cells[1:]}
    return [cells[0]] + [cell(c[0], RUN if i in parents else STEP, 3) for i, c in enumerate(cells) if i > 0]


def low(rows_last):
    """A chain whose last box ends in the given row: a box of D 1, boxes of D 15, and a last one."""
    cells, row = [cell(ROOT, RUN, 4, 1)], 2
    while row + 15 < rows_last:
        cells.append(cell(len(cells) - 1, RUN, 4, 15))
        row += 16
    return cells + [cell(len(cells) - 1, STEP, 4, rows_last - row)]


def changed(cells, c, **fields):
    names = ['parent', 'kind', 'w', 'd', 'length', 'start']
    r = list(cells[c])
    for k, v in fields.items():
        r[names.index(k)] = v
    return cells[:c] + [tuple(r)] + cells[c + 1:]


# ---- the paper's 38 bytes
PAPER = bytes.fromhex('557041 52756e'.replace(' ', '')) + bytes.fromhex('FFFF020401020000 0000010301010200 0000010501030300 0600030000005354'.replace(' ', ''))
assert PAPER[:6] == b'UpARun' and len(PAPER) == 38
case(PAPER, ('plan', 3, 0, ['65535 2 0 4 1 2 0 Up', '0 1 0 3 1 1 2 A', '0 1 0 5 1 3 3 Run', '0 0 0 0 0 0 0 ']), 256, 2, '0 0 Run')

# ---- question 1: a table to fill of 256 records; Label does not ask it
refused(plan(ONE), 1, room=255, label='0 0 ')
accepted(ONE)
refused(b'', 1, room=0, label='2 0 ')

# ---- question 2: 16 to 16,384 bytes
refused(b'', 2)
refused(plan(ONE)[1:], 2)                                                   # 15 bytes
accepted(ONE)                                                               # 16 bytes
letters = b'x' * (16384 - 16)
case(plan(ONE, letters), ('plan', 1, 0, shown(ONE)), label='0 0 ')          # 16,384 bytes
refused(plan(ONE, letters + b'x'), 2)                                       # 16,385 bytes

# ---- question 3: the mark
refused(plan(ONE, mark=b'\x54\x53'), 3)
refused(plan(ONE, mark=b'\x53\x56'), 3)
refused(plan(ONE, mark=b'\x55\x53'), 3)                                          # the wide form's, high byte first
refused(plan(ONE, mark=b'\x52\x54'), 3)

# ---- question 4: n, and the length
refused(plan([], b'x' * 8), 4)                                              # no cell
refused(plan(ONE, count=2), 4)
refused(plan(ONE, begin=1), 4)
refused(plan(ONE, b'x', begin=0), 4)
refused(plan(TWO, count=1), 4)
full = wide(256)
accepted(full)                                                              # 256 cells
refused(plan(wide(257)), 4)                                                 # 257 cells
refused(plan(ONE, begin=65535, count=65535), 4)                             # no sum wraps
refused(plan(ONE, begin=0, count=8193), 4)                                  # 8 * 8193 = 8 modulo 65,536

# ---- question 5: each byte before the records, used or not
for b in (0, 31, 127, 255):
    refused(plan(ONE, bytes([b])), 5)
for b in (32, 126):
    accepted(ONE, bytes([b]))
refused(plan(ONE, b'abc\x1fdef'), 5)

# ---- question 6: parents
refused(plan([cell(0, STEP, 5)]), 6, 0)
refused(plan([cell(65534, STEP, 5)]), 6, 0)
refused(plan(changed(TWO, 1, parent=1)), 6, 1)
refused(plan(changed(TWO, 1, parent=65535)), 6, 1)
refused(plan(changed(star(3), 3, parent=3)), 6, 3)

# ---- question 7: kinds
for k in (0, 6, 255):
    refused(plan([cell(ROOT, k, 5)]), 7, 0)
refused(plan(changed(star(3), 2, kind=0)), 7, 2)

# ---- question 8: W and D
refused(plan([cell(ROOT, STEP, 0)]), 8, 0)
refused(plan([cell(ROOT, STEP, 5, 0)]), 8, 0)
refused(plan([cell(ROOT, STEP, 5, 16)]), 8, 0)
accepted([cell(ROOT, STEP, 255, 15)])
refused(plan(changed(star(3), 3, d=0)), 8, 3)

# ---- question 9: a label of at most 40 bytes, inside the label bytes, an empty one too
forty = b'abcdefghij' * 4
accepted([cell(ROOT, STEP, 42, 1, 40, 0)], forty, label='0 0 ' + forty.decode())
refused(plan([cell(ROOT, STEP, 255, 1, 41, 0)], forty + b'x'), 9, 0)
accepted([cell(ROOT, STEP, 6, 1, 3, 1)], b'abcd', label='0 0 bcd')
refused(plan([cell(ROOT, STEP, 6, 1, 3, 2)], b'abcd'), 9, 0)
accepted([cell(ROOT, STEP, 6, 1, 0, 4)], b'abcd')                           # empty, at the end
refused(plan([cell(ROOT, STEP, 6, 1, 0, 5)], b'abcd'), 9, 0)                # empty, past the end
refused(plan([cell(ROOT, STEP, 6, 1, 2, 65535)], b'abcd'), 9, 0)            # no sum wraps
accepted([cell(ROOT, RUN, 5, 1, 3, 0), cell(0, STEP, 5, 1, 3, 0)], b'abc', at=1, label='0 0 abc')   # shared bytes

# ---- question 10: W at least the label's length and the border: 2 for 1, 2, 5; 4 for 3, 4
for kind, border, sons in ((STEP, 2, 0), (RUN, 2, 1), (REPEAT, 4, 1), (CHOICE, 4, 2), (WAIT, 2, 0)):
    kids = [cell(0, STEP, 2) for _ in range(sons)]
    accepted([cell(ROOT, kind, 3 + border, 1, 3, 0)] + kids, b'abc', label='0 0 abc')
    refused(plan([cell(ROOT, kind, 2 + border, 1, 3, 0)] + kids, b'abc'), 10, 0)

# ---- question 11: children, each kind at both ends
for kind, least, most in ((STEP, 0, 0), (RUN, 1, 16), (REPEAT, 1, 1), (CHOICE, 2, 16), (WAIT, 0, 1)):
    for k in sorted({least, most}):
        accepted(star(k, kind))
    if least > 0:
        refused(plan(star(least - 1, kind)), 11, 0)
    refused(plan(star(most + 1, kind)), 11, 0)

# ---- question 12: levels
accepted(chain(32))                                                         # level 31
refused(plan(chain(33)), 12, 32)

# ---- question 13: rows
accepted(low(255))                                                          # 256 rows
refused(plan(low(256)), 13, 16)                                             # 257 rows
accepted(chain(16, 15))

# ---- question 14: a file's allowance is at most 65,535 by its size
accepted(ONE, allowance=65535)
accepted(TWO, allowance=1)

# ---- question 16: the cell named
case(plan(TWO), ('plan', 2, 0, shown(TWO)), at=1, label='0 0 ')
case(plan(TWO), ('plan', 2, 0, shown(TWO)), at=2, label='16 0 ')
case(plan(TWO), ('plan', 2, 0, shown(TWO)), at=65535, label='16 0 ')

# ---- two faults each: the order
bad6 = changed(star(3), 2, parent=2)
refused(plan(ONE, mark=b'ab')[1:], 2)                                       # 2 before 3
refused(plan(ONE, count=0, mark=b'ab'), 3)                                  # 3 before 4
refused(plan(ONE, b'\x00', begin=0), 4)                                     # 4 before 5
refused(plan([cell(0, STEP, 5)], b'\x00'), 5)                               # 5 before 6
refused(plan([cell(0, 9, 5)]), 6, 0)                                        # 6 before 7
refused(plan([cell(ROOT, 9, 0)]), 7, 0)                                     # 7 before 8
refused(plan([cell(ROOT, STEP, 0, 1, 41, 0)], forty + b'x'), 8, 0)          # 8 before 9
refused(plan([cell(ROOT, STEP, 1, 1, 5, 0)], b'abc'), 9, 0)                 # 9 before 10
refused(plan([cell(ROOT, STEP, 3, 1, 3, 0), cell(0, STEP, 2)], b'abc'), 10, 0)   # 10 before 11
refused(plan(changed(changed(star(3), 1, w=0), 2, parent=2)), 8, 1)         # record by record: 8 at 1 before 6 at 2
refused(plan(changed(changed(star(3), 1, kind=7), 2, parent=2)), 7, 1)      # 7 at 1 before 6 at 2
refused(plan(changed(changed(star(3), 1, length=1, start=9), 2, parent=2)), 9, 1)   # 9 at 1 before 6 at 2
refused(plan(changed(changed(star(3), 1, length=1, start=0), 2, parent=2), b'ab'), 10, 1)   # 10 at 1 before 6 at 2
refused(plan(changed(changed(star(3), 3, parent=3), 2, d=0)), 8, 2)         # 8 at 2 before 6 at 3
refused(plan(changed(star(17), 9, w=0)), 8, 9)                              # 8 before 11
refused(plan(changed(star(17), 9, length=1, start=1)), 9, 9)                # 9 before 11
lone = chain(33)
refused(plan(lone[:32] + [cell(31, RUN, 4)]), 11, 32)                       # 11 before 12
refused(plan(chain(33, 15)), 12, 32)                                        # 12 before 13
refused(plan(changed(chain(20, 15), 19, kind=RUN)), 11, 19)                 # 11 before 13
refused(plan([cell(ROOT, RUN, 4), cell(0, RUN, 4), cell(0, RUN, 4)]), 11, 1)   # the lowest cell: 1, not 2
refused(plan(chain(18, 15)), 13, 16)                                        # the lowest cell: 16, not 17
case(plan(chain(33)), ('refused', 12, 32), at=99, label='12 32 ')           # 12 before 16
refused(plan(ONE)[:12], 1, room=3, label='2 0 ')                            # 1 before 2

# ---- the wide form (document 02, E7): mark 53 55, records of 10 bytes
PAPER_WIDE = b'UpARun' + bytes.fromhex('FFFF0201040002000000 00000101030001000200 00000101050003000300 0600030000005355'.replace(' ', ''))
assert len(PAPER_WIDE) == 6 + 30 + 8
case(PAPER_WIDE, ('plan', 3, 0, ['65535 2 0 4 1 2 0 Up', '0 1 0 3 1 1 2 A', '0 1 0 5 1 3 3 Run', '0 0 0 0 0 0 0 ']), 256, 2, '0 0 Run')
accepted(ONE, form=wide_plan)                                               # 18 bytes
refused(wide_plan(ONE)[1:], 4)                                              # 17 bytes
refused(wide_plan(ONE)[2:], 4)                                              # 16 bytes
refused(wide_plan(ONE)[3:], 2)                                              # 15 bytes
refused(wide_plan([], b'x' * 10), 4)                                        # no cell
accepted(full, form=wide_plan)                                              # 256 cells
refused(wide_plan(wide(257)), 4)
letters = b'x' * (16384 - 18)
case(wide_plan(ONE, letters), ('plan', 1, 0, shown(ONE)), label='0 0 ')     # 16,384 bytes
refused(wide_plan(ONE, letters + b'x'), 2)
refused(wide_plan(ONE, count=2), 4)
refused(wide_plan(ONE, begin=1), 4)
refused(wide_plan(ONE, begin=65535, count=65535), 4)                        # no sum wraps

# one form's records under the other's mark: 10n against 8n
refused(plan(TWO, mark=WIDE), 4)
refused(wide_plan(TWO, mark=OLD), 4)
refused(wide_plan(ONE, mark=OLD), 4)
refused(plan(ONE, mark=WIDE), 4)                                            # 16 bytes
# 40 bytes are five old records and four wide ones, and say other things in each
refused(wide_plan([cell(ROOT, RUN, 3, 2)] + [cell(0, STEP, 3, 2)] * 3, mark=OLD, count=5), 7, 1)   # cell 1's kind is cell 1's parent
refused(plan([cell(ROOT, RUN, 3, 2)] + [cell(0, STEP, 3, 2)] * 4, mark=WIDE, count=4), 6, 1)       # cell 1's parent is cell 1's kind and W

# question 8: W to 1,023, where the old form's byte ends at 255
refused(wide_plan([cell(ROOT, STEP, 0)]), 8, 0)
for w in (2, 255, 256, 257, 511, 512, 1022, 1023):
    accepted([cell(ROOT, STEP, w, 15)], form=wide_plan)
for w in (1024, 1025, 32768, 65535):
    refused(wide_plan([cell(ROOT, STEP, w)]), 8, 0)
refused(wide_plan(changed(star(3), 3, w=1024)), 8, 3)
refused(wide_plan(changed(star(3), 2, d=0)), 8, 2)
refused(wide_plan(changed(star(3), 2, d=16)), 8, 2)

# byte 7 is the rank, and no question asks about it; the old form has none
for b in (1, 128, 255):
    ranked(ONE, {0: b})
ranked(star(3), {1: 2, 2: 1})
ranked(star(3), {1: 255, 2: 255, 3: 255})
refused(wide_plan(changed(star(3), 1, w=0), ranks={1: 1}), 8, 1)
refused(wide_plan(changed(star(3), 2, parent=2), ranks={1: 1}), 6, 2)
refused(wide_plan(star(17), ranks={9: 1}), 11, 0)

# the other questions put to it
refused(wide_plan(ONE), 1, room=255, label='0 0 ')
refused(wide_plan(ONE, b'\x7f'), 5)
refused(wide_plan(changed(TWO, 1, parent=1)), 6, 1)
accepted([cell(ROOT, STEP, 42, 1, 40, 0)], forty, label='0 0 ' + forty.decode(), form=wide_plan)
refused(wide_plan([cell(ROOT, STEP, 1023, 1, 41, 0)], forty + b'x'), 9, 0)
accepted([cell(ROOT, STEP, 6, 1, 0, 4)], b'abcd', form=wide_plan)
refused(wide_plan([cell(ROOT, STEP, 6, 1, 0, 5)], b'abcd'), 9, 0)
refused(wide_plan([cell(ROOT, REPEAT, 6, 1, 3, 0), cell(0, STEP, 2)], b'abc'), 10, 0)
refused(wide_plan(star(17)), 11, 0)
refused(wide_plan(chain(33)), 12, 32)
refused(wide_plan(low(256)), 13, 16)
accepted(TWO, allowance=65535, form=wide_plan)
case(wide_plan(TWO), ('plan', 2, 0, shown(TWO)), at=2, label='16 0 ')
accepted([cell(ROOT, RUN, 1023, 2, 2, 0), cell(0, STEP, 300, 1, 3, 2)], b'abcde', allowance=7, at=1, label='0 0 cde', form=wide_plan)

with open('crates/planfile_tests/stdin', 'wb') as f:
    for file, room, at, _ in CASES:
        f.write(struct.pack('<HHH', len(file), room, at) + file)
with open('crates/planfile_tests/stdout', 'w') as f:
    for _, _, _, text in CASES:
        f.write(text)
print('%d cases' % len(CASES))

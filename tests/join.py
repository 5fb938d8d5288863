#!/usr/bin/env python3
"""Two plan files joined, from documents 01 and 02 alone: an independent joiner for tests/join.sh.

    tests/join.py FIRST CELL SECOND OUT    writes the clean copy of the joined plan (E4, E10) into OUT

It supposes that both plans are accepted and that the join is: refusals are not its business.
"""
import struct
import sys

OLD, WIDE = 0x5453, 0x5553


def plan(name):
    """the cells of a plan file, each (parent, kind, width, depth, rank, text), and its allowance"""
    data = open(name, 'rb').read()
    begin, count, allowance, mark = struct.unpack('<4H', data[-8:])
    cells = []
    for c in range(count):
        if mark == OLD:
            parent, kind, width, depth, size, start = struct.unpack('<HBBBBH', data[begin + 8 * c:begin + 8 * c + 8])
            rank = 0
        else:
            parent, kind, depth, width, size, rank, start = struct.unpack('<HBBHBBH', data[begin + 10 * c:begin + 10 * c + 10])
        cells.append((parent, kind, width, depth, rank, data[start:start + size]))
    return cells, allowance


def written(cells, allowance):
    """the clean copy: labels in cell order, back to back; the old form where every width fits it and every rank is 0"""
    labels = b''.join(text for *_, text in cells)
    old = all(width <= 255 and rank == 0 for _, _, width, _, rank, _ in cells)
    records, start = b'', 0
    for parent, kind, width, depth, rank, text in cells:
        if old:
            records += struct.pack('<HBBBBH', parent, kind, width, depth, len(text), start)
        else:
            records += struct.pack('<HBBHBBH', parent, kind, depth, width, len(text), rank, start)
        start += len(text)
    return labels + records + struct.pack('<4H', len(labels), len(cells), allowance, OLD if old else WIDE)


def joined(first, cell, second):
    """the first's cells, then the second's raised, its root under the cell; the first's allowance"""
    (a, allowance), (b, _) = first, second
    hung = [(cell if i == 0 else len(a) + c[0],) + c[1:] for i, c in enumerate(b)]
    return a + hung, allowance


if __name__ == '__main__':
    first, cell, second, out = sys.argv[1:]
    open(out, 'wb').write(written(*joined(plan(first), int(cell), plan(second))))

#!/usr/bin/env python3
"""The points of a sheet, `column row` a line, from what a program prints of it: on the boundary of a box, counted from the least x.

    tests/points.py bitmap FILE      the points that are set in a bitmap by `strip`
    tests/points.py listing FILE     those of the boxes that a listing by `sheet` gives
    tests/points.py drawing FILE     those of the boxes that `plot` draws at pitch 1 with margins 0
"""
import re
import sys


def set_points(data):
    head, _, rows = data.partition(b'\n')
    word, columns, count = head.split()
    size = (int(columns) + 7) // 8
    assert word == b'P4' and len(rows) == size * int(count), 'no bitmap'
    for k, byte in enumerate(rows):
        for j in range(8):
            if byte >> (7 - j) & 1:
                assert 8 * (k % size) + j < int(columns), 'a point past the last column'
                yield 8 * (k % size) + j, k // size


def boundary(boxes):
    least = min(x for x, _, _, _ in boxes)
    for x, y, right, base in boxes:
        for column in range(x, right + 1):
            yield from ((column - least, y), (column - least, base))
        for row in range(y, base + 1):
            yield from ((x - least, row), (right - least, row))


def listed(data):
    for line in data.decode().splitlines()[1:]:
        _, x, y, width, depth = map(int, line.split()[:5])
        yield x, y, x + width, y + depth


def drawn(data):
    """A box is a path of five points; a connector has two."""
    for path in re.findall(r'<path d="M([^"]*)"', data.decode()):
        points = [tuple(float(n) for n in point.split()) for point in path.split('L')]
        if len(points) == 5:
            corners = points[0] + points[2]
            assert all(n == int(n) for n in corners), 'a corner off the lattice'
            yield tuple(int(n) for n in corners)


def main():
    kind, name = sys.argv[1:]
    data = open(name, 'rb').read()
    points = set_points(data) if kind == 'bitmap' else boundary(list(listed(data) if kind == 'listing' else drawn(data)))
    for column, row in sorted(set(points)):
        print(column, row)


main()

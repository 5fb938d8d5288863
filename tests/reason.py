#!/usr/bin/env python3
"""Checks a printed reason against its plan, from docs/RULES.md alone: nothing here lays anything out.

    tests/reason.py PLAN REASON      status 0: the reason holds; 1: it does not, and why not is told
"""
import struct
import sys


def plan(data):
    """Allowance, and (parent, kind, W, D, rank) of each cell."""
    begin, n, allowance = struct.unpack('<HHH', data[-8:-2])
    if data[-2:] == b'SU':
        rows = [struct.unpack_from('<HBBHBB', data, begin + 10 * c) for c in range(n)]
        return allowance, [(p, k, w, d, rank) for p, k, d, w, _, rank in rows]
    rows = [struct.unpack_from('<HBBB', data, begin + 8 * c) for c in range(n)]
    return allowance, [(p, k, w, d, 0) for p, k, w, d in rows]


class Rules:
    def __init__(self, allowance, cells):
        self.allowance, self.parent = allowance, [c[0] for c in cells]
        self.kind, self.W, self.D, rank = ([c[i] for c in cells] for i in (1, 2, 3, 4))
        every = range(len(cells))
        self.children = [sorted((c for c in every if c and self.parent[c] == p), key=lambda c: (rank[c], c)) for p in every]
        self.up = [[c] for c in every]                          # a cell and all above it
        self.row = [0] * len(cells)
        for c in every[1:]:
            self.up[c] += self.up[self.parent[c]]
            self.row[c] = self.row[self.parent[c]] + self.D[self.parent[c]] + 1
        self.bottom = [max(self.row[b] + self.D[b] for b in every if c in self.up[b]) for c in every]

    def neighbours(self, u, v):
        return u and v and self.parent[u] == self.parent[v] and self.place(v) == self.place(u) + 1

    def place(self, c):
        return self.children[self.parent[c]].index(c)

    def earlier(self, a, b):
        return any(u and v and self.parent[u] == self.parent[v] and self.place(u) < self.place(v) for u in self.up[a] for v in self.up[b])

    def appointed(self, p):
        k = len(self.children[p])
        return self.children[p][0 if self.kind[p] == 4 else (k + 2) // 2 - 1] if k else None

    def links(self, rule, a, b):
        """The distances of all links by the rule from a to b."""
        W, row, D, bottom = self.W[a], self.row, self.D, self.bottom
        if rule == 'S2' and (self.appointed(a) == b or self.appointed(b) == a):
            yield 0
        if rule == 'S3' and any(self.neighbours(u, b) for u in self.up[a]):
            yield W + 1
        if rule == 'S3' and any(self.neighbours(a, v) for v in self.up[b]):
            yield 1
        if rule == 'S4' and self.earlier(a, b) and row[a] <= bottom[b] and row[b] <= row[a] + D[a]:
            yield W + 1
        if rule == 'S4' and self.earlier(a, b) and self.children[a] and row[a] + D[a] + 1 <= bottom[b] and row[b] <= bottom[a]:
            yield 1
        if rule == 'S5' and self.earlier(a, b):
            yield W + 1 - self.allowance


def fault(data, text):
    """What is wrong with the reason, or None."""
    allowance, cells = plan(data)
    rules, lines = Rules(allowance, cells), [line.split(' ') for line in text.split('\n')]
    if lines.pop() != [''] or len(lines) < 2:
        return 'no reason'
    word, n, al, width, count = lines[0]
    if (word, int(n), int(al)) != ('why', len(cells), allowance) or int(count) != len(lines) - 2:
        return 'the first line'
    at, total = None, 0
    for a, b, rule, d, so_far in lines[1:-1]:
        a, b, d = int(a), int(b), int(d)
        if not (0 <= a < len(cells) and 0 <= b < len(cells)) or at not in (None, a):
            return 'the chain at %d' % a
        if d not in rules.links(rule, a, b):
            return 'no link by %s from %d to %d with %d' % (rule, a, b, d)
        at, total = b, total + d
        if int(so_far) != total:
            return 'the sum at %d' % b
    last, word, w, whole = lines[-1]
    if word != 'W' or at not in (None, int(last)) or not 0 <= int(last) < len(cells) or int(w) != rules.W[int(last)]:
        return 'the last line'
    if int(whole) != total + int(w) or int(whole) != int(width):
        return 'the width'


if __name__ == '__main__':
    with open(sys.argv[1], 'rb') as f:
        data = f.read()
    with open(sys.argv[2]) as f:
        found = fault(data, f.read())
    if found:
        print('%s: %s' % (sys.argv[2], found))
    sys.exit(1 if found else 0)

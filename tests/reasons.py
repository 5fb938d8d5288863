#!/usr/bin/env python3
"""Runs the program that prints reasons over plans, and lets tests/reason.py judge each: it must hold, and altered ones must not.

    tests/reasons.py WHY SHEET PLAN...      the plans, and a hundred random ones of both forms at allowances 0 to 65535
"""
import random
import struct
import subprocess
import sys

from reason import fault, plan

# 40 cells at allowance 10: its reason has a link by S5 that leads back to the left
BACK = bytes.fromhex(
    'ffff0208010000000000020d02000000010004090100000002000206030000000200010e010000000200030e030000000300050a01000000'
    '030001070200000000000209030000000500050902000000080004080100000002000506030000000a000502010000000a00010403000000'
    '08000208010000000900030a0100000000000207030000000e00030a030000000f00050d0300000011000407030000000800010d02000000'
    '130002030100000015000509020000000c0002060200000017000103030000001500030c030000000100050a030000001900030803000000'
    '10000203020000001b000404010000001c00020e010000001d00010c010000001d0005040300000020000504010000001e00050201000000'
    '1d000109010000002100030902000000130001080100000022000106010000002400010202000000000028000a005354')


def run(program, data):
    return subprocess.run([program], input=data, stdout=subprocess.PIPE, check=True).stdout.decode()


def random_plan(r):
    """A plan that no question refuses: kinds by the number of children, at most 12 cells deep."""
    n = r.choice((1, 2, 3, 5, 8, 13, 21, 40, 80, 160, 256))
    parent, level, count = [65535], [0], [0]
    for c in range(1, n):
        p = r.choice([p for p in range(max(0, c - r.choice((3, 12, 256))), c) if level[p] < 12 and count[p] < 16] or [p for p in range(c) if level[p] < 12 and count[p] < 16])
        parent.append(p)
        level.append(level[p] + 1)
        count.append(0)
        count[p] += 1
    kinds = {0: (1, 5), 1: (2, 3, 5)}
    wide = r.random() < 0.5
    body = b''
    for c in range(n):
        kind = r.choice(kinds.get(count[c], (2, 4)))
        w, d = r.choice((1, 2, 3, 9, r.randint(1, 255))), r.randint(1, 3)
        body += struct.pack('<HBBHBBH', parent[c], kind, d, max(w, 4), 0, r.randint(0, 3), 0) if wide else struct.pack('<HBBBBH', parent[c], kind, max(w, 4), d, 0, 0)
    return body + struct.pack('<HHH', 0, n, r.choice((0, 0, 1, 3, 5, 10, 50, 200, 65535))) + (b'SU' if wide else b'ST')


def altered(text, cells, r):
    """The same reason with one thing wrong."""
    lines = [line.split(' ') for line in text.split('\n')[:-1]]

    def with_line(i, line):
        return '\n'.join(' '.join(x) for x in lines[:i] + line + lines[i + 1:]) + '\n'

    links = range(1, len(lines) - 1)
    first, last = lines[0], lines[-1]
    yield 'a width one less', with_line(0, [first[:3] + [str(int(first[3]) - 1)] + first[4:]])
    yield 'a last width one more', with_line(len(lines) - 1, [last[:2] + [str(int(last[2]) + 1), last[3]]])
    yield 'a last sum one more', with_line(len(lines) - 1, [last[:3] + [str(int(last[3]) + 1)]])
    if links:
        i = r.choice(links)
        a, b, rule, d, total = lines[i]
        yield 'a distance one more', with_line(i, [[a, b, rule, str(int(d) + 1), total]])
        yield 'a sum one more', with_line(i, [[a, b, rule, d, str(int(total) + 1)]])
        yield 'a link left out', with_line(i, [])
        yield 'a link twice', with_line(i, [lines[i], lines[i]])
        yield 'turned round', with_line(i, [[b, a, rule, d, total]])
        yield 'another end', with_line(len(lines) - 1, [[str((int(last[0]) + 1) % cells)] + last[1:]])
        # rules that give no such link; distance, ends and sums as they were
        yield 'S1', with_line(i, [[a, b, 'S1', d, total]])
        if rule == 'S2' and int(d) == 0:
            yield 'S3 for S2', with_line(i, [[a, b, 'S3', d, total]])


def main():
    why, sheet = sys.argv[1:3]
    r = random.Random(20)
    plans = []
    for name in sys.argv[3:]:
        with open(name, 'rb') as f:
            plans.append((name, f.read()))
    plans.append(('the plan with a link that leads back', BACK))
    plans += [('random plan %d' % i, random_plan(r)) for i in range(100)]
    held, refused, by_rule = 0, 0, {}
    for name, data in plans:
        text, first = run(why, data), run(sheet, data).split('\n')[0].split(' ')
        if first[0] != 'sheet':
            sys.exit('tests/reasons.py: %s: %s' % (name, ' '.join(first)))
        found = fault(data, text)
        if found or text.split(' ')[:4] != ['why'] + first[1:4]:
            sys.exit('tests/reasons.py: %s: %s\n%s' % (name, found or 'another sheet', text))
        held += 1
        for line in text.split('\n')[1:-2]:
            rule = line.split(' ')[2] + (' back' if int(line.split(' ')[3]) < 0 else '')
            by_rule[rule] = by_rule.get(rule, 0) + 1
        for what, wrong in altered(text, len(plan(data)[1]), r):
            if not fault(data, wrong):
                sys.exit('tests/reasons.py: %s: %s holds:\n%s' % (name, what, wrong))
            refused += 1
    if not all(by_rule.get(s) for s in ('S2', 'S3', 'S4', 'S5', 'S5 back')):
        sys.exit('tests/reasons.py: not every rule is seen: %s' % by_rule)
    print('tests/reasons.py: %d reasons hold, %d altered ones do not; links: %s' % (held, refused, ', '.join('%s %d' % x for x in sorted(by_rule.items()))))


main()

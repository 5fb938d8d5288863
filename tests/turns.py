#!/usr/bin/env python3
"""The turns of Layout's walk of a plan file, worked out from the file alone: what the program `turns` prints of it.

    tests/turns.py FILE
"""
import sys


def pair(data, at):
    return data[at] + 256 * data[at + 1]


def main():
    data = open(sys.argv[1], 'rb').read()
    begin, count, mark = pair(data, len(data) - 8), pair(data, len(data) - 6), data[-1]
    size = 10 if mark == 0x55 else 8
    places = [begin + size * c for c in range(count)]
    parents = [pair(data, p) for p in places]
    ranks = [data[p + 7] if mark == 0x55 else 0 for p in places]
    children = [sorted((d for d in range(1, count) if parents[d] == c), key=lambda d: (ranks[d], d)) for c in range(count)]
    later = {d: e for ds in children for d, e in zip(ds, ds[1:])}
    chain, following = [0], (children[0] or [None])[0]
    while chain:
        print('open', *chain, end='' if following is None else f', next {following}')
        print()
        while following is not None:
            chain.append(following)
            following = (children[following] or [None])[0]
        following = later.get(chain.pop())
    print('none open')


main()

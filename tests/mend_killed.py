#!/usr/bin/env python3
"""Kills the program `mend` at random moments, some hundred times, with and without a second file there before: afterwards that file is absent, as it was, or whole,
and beside it there is nothing, or one file that says by its name what it is, second.unfinished-PID, with the first bytes of the mended one.

    tests/mend_killed.py PROGRAM PLAN MENDED
"""
import os
import random
import subprocess
import sys
import tempfile
import time

TIMES = 400
OLD = b'what stood here'


def main():
    program, plan, mended = sys.argv[1:4]
    whole = open(mended, 'rb').read()
    chance = random.Random(20261116)
    seen = {'absent': 0, 'as it was': 0, 'whole': 0}
    leftovers = 0
    with tempfile.TemporaryDirectory() as folder:
        second = os.path.join(folder, 'second')
        # within this many seconds a run is killed: longer where runs were killed before their end, shorter where they got there
        span = 0.002
        for number in range(TIMES):
            for name in os.listdir(folder):
                os.unlink(os.path.join(folder, name))
            there = number % 2 == 1
            if there:
                with open(second, 'wb') as f:
                    f.write(OLD)
            child = subprocess.Popen([program, second], stdin=open(plan, 'rb'), stdout=subprocess.DEVNULL, stderr=subprocess.DEVNULL)
            until = time.perf_counter() + chance.uniform(0, span)
            while time.perf_counter() < until:
                pass
            child.kill()
            child.wait()
            leftover = f'second.unfinished-{child.pid}'
            beside = [name for name in os.listdir(folder) if name != 'second']
            if beside and (beside != [leftover] or not whole.startswith(open(os.path.join(folder, leftover), 'rb').read())):
                print(f'tests/mend_killed.py: killed in run {number}, it left {beside}')
                return 1
            leftovers += len(beside)
            found = open(second, 'rb').read() if os.path.exists(second) else None
            if found == whole:
                seen['whole'] += 1
                span *= 0.9
            elif found == (OLD if there else None):
                seen['as it was' if there else 'absent'] += 1
                span *= 1.1
            else:
                print(f'tests/mend_killed.py: killed in run {number}, the second file is {found!r}')
                return 1
    print(f'mend, killed {TIMES} times:', ', '.join(f'{n} {what}' for what, n in seen.items()) + f'; {leftovers} left over')
    if not seen['whole'] or not seen['absent'] or not seen['as it was']:
        print('tests/mend_killed.py: one of the three was never seen')
        return 1
    return 0


sys.exit(main())

#!/usr/bin/env python3
"""Runs the examples of a page and holds what they print to what the page shows. An example is an indented line `$ COMMAND`; the
indented lines under it are what it prints, on standard output and standard error. They are run in turn, in a folder of their own.

    tests/readme.py PAGE...
"""
import os
import subprocess
import sys
import tempfile

ROOT = os.path.dirname(os.path.dirname(os.path.abspath(__file__)))


def examples(page):
    """The commands of a page with the lines that are shown under each."""
    found, shown = [], None
    for line in open(os.path.join(ROOT, page)).read().split('\n'):
        if line.startswith('    $ '):
            shown = []
            found.append((line[6:], shown))
        elif line.startswith('    ') and shown is not None:
            shown.append(line[4:])
        else:
            shown = None
    return found


def main():
    count = 0
    for page in sys.argv[1:]:
        with tempfile.TemporaryDirectory() as folder:
            for name in ('kuzpalen', 'target', 'plans', 'crates', 'crates.txt'):
                os.symlink(os.path.join(ROOT, name), os.path.join(folder, name))
            for command, shown in examples(page):
                run = subprocess.run(['bash', '-c', command], cwd=folder, stdin=subprocess.DEVNULL, stdout=subprocess.PIPE, stderr=subprocess.STDOUT)
                got = run.stdout.decode(errors='replace')
                wanted = ''.join(line + '\n' for line in shown)
                if got != wanted:
                    print(f'tests/readme.py: {page}: {command}\n--- shown\n{wanted}--- printed\n{got}', end='')
                    return 1
                count += 1
    if count == 0:
        print('tests/readme.py: no example was found')
        return 1
    print(f'examples of the pages: {count} run, each prints what is shown')
    return 0


sys.exit(main())

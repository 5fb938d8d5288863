#!/usr/bin/env python3
"""Runs a program whose standard error is a terminal, and prints what it wrote there; its standard output goes to a file.

    tests/on_terminal.py OUTPUT PROGRAM ARGUMENT...
"""
import os
import pty
import subprocess
import sys


def main():
    master, slave = pty.openpty()
    with open(sys.argv[1], 'wb') as output:
        child = subprocess.Popen(sys.argv[2:], stdin=subprocess.DEVNULL, stdout=output, stderr=slave)
    os.close(slave)
    said = b''
    while True:
        try:
            more = os.read(master, 4096)
        except OSError:  # the other side is gone
            break
        if not more:
            break
        said += more
    sys.stdout.write(said.decode().replace('\r\n', '\n'))
    return child.wait()


sys.exit(main())

#!/usr/bin/env python3
"""Runs a program whose standard input has the bytes of a file and then fails: a terminal whose other side is gone gives what was
written there, and after that an error, not an end.

    tests/cut_input.py FILE PROGRAM ARGUMENT...
"""
import os
import pty
import subprocess
import sys
import tty


def main():
    data = open(sys.argv[1], 'rb').read()
    master, slave = pty.openpty()
    tty.setraw(slave)
    assert os.write(slave, data) == len(data)
    os.close(slave)
    return subprocess.run(sys.argv[2:], stdin=master).returncode


sys.exit(main())

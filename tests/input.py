#!/usr/bin/env python3
"""Runs a command on a standard input that a shell cannot write down, and ends with its status.

    python3 input.py broken FILE COMMAND..     the file's bytes, and then a read that fails
    python3 input.py terminal COMMAND..        a terminal
"""

import os
import pathlib
import socket
import subprocess
import sys


def broken(file):
    """The reading end of a connection. Its other end is closed with a byte unread, so that what was
    sent can be read and the next read is an error (ECONNRESET) and no end."""
    near, far = socket.socketpair()
    far.sendall(b"x")
    near.sendall(pathlib.Path(file).read_bytes())
    near.close()
    return far


def main():
    kind, *words = sys.argv[1:]
    if kind == "broken":
        source = broken(words.pop(0))
    else:
        _, source = os.openpty()
    return subprocess.run(words, stdin=source).returncode


sys.exit(main())

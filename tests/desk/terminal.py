#!/usr/bin/env python3
"""Runs a command on a terminal and prints what it shows there: terminal.py COMMAND.."""
import os
import pty
import sys

shown = []


def read(descriptor):
    data = os.read(descriptor, 65536)
    shown.append(data)
    return data


sys.stdout.flush()
pty.spawn(sys.argv[1:], read)

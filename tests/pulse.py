#!/usr/bin/env python3
"""How long this machine let a process wait that only sleeps, at most, in milliseconds: it stands in a file until this is ended.

usage: pulse.py FILE
"""
import os
import sys
import time

most = 0
while True:
    before = time.monotonic()
    time.sleep(0.05)
    most = max(most, time.monotonic() - before - 0.05)
    with open(f"{sys.argv[1]}.new", "w", encoding="utf-8") as out:
        out.write(f"{1000 * most:.0f}\n")
    os.replace(f"{sys.argv[1]}.new", sys.argv[1])

#!/usr/bin/env python3
"""Each language's examples beside OLA, for tests/bindings.sh: a sender of levels lights OLA by multicast, and OLA lights a receiver.

usage: bindings_ola.py LANGUAGE=FOLDER..     a line 'ok NAME' or 'not ok NAME: what was seen' for each look

A folder has the commands `levels` and `receive`. It ends with 77 where it can't be had here. It is run by root in a network namespace of its own; the examples are
in another one, at the other end of a cable.
"""
import re
import signal
import subprocess
import sys

sys.dont_write_bytecode = True
import stage
from ola import check, Ola, wait
from stage import finish, PORT, ROOM, second_space, start, text_of

# The address of the examples' device.
OWN = "10.77.0.2"
# OLA shows the universes from HEARD on, one for each language, and sends those from SENT on.
HEARD, SENT = 11, 301


def told(count):
    """A frame of receive: its start code, so many slots at full, and the others at 0."""
    return rf"^1 [0-9]+ 00(?:ff){{{count}}}(?:00){{{512 - count}}}$"


def lights_olad(ola, inside, universes):
    """Each sender's slot 1 is full at OLA while it sends, and it ends well. The senders run at once, each on a universe of its own."""
    runs = {}
    for universe, (language, folder) in universes.items():
        said = open(f"{ROOM}/{language}.levels", "w", encoding="utf-8")
        words = [*inside, f"{folder}/levels", str(universe), "6", str(PORT), OWN]
        runs[universe] = start(words, stdin=subprocess.DEVNULL, stdout=said, stderr=said)
    is_lit = {universe: wait(lambda it=universe: ola.shows(it) == 255, 20) for universe in runs}
    for universe, (language, _) in universes.items():
        status = runs[universe].wait(timeout=30)
        seen = f"{str(ola.levels(universe))[:60]}, status {status}; {text_of(f'{language}.levels')[:200]}"
        check(f"{language}: levels lights olad", is_lit[universe] and status == 0, seen)


def has_joined(inside, universe):
    """Whether the examples' machine is a member of a universe's group."""
    groups = subprocess.run([*inside, "cat", "/proc/net/igmp"], stdout=subprocess.PIPE, encoding="ascii", check=True).stdout
    return f"{universe % 256:02X}{universe // 256:02X}FFEF" in groups


def is_lit_by_olad(ola, inside, language, folder, universe):
    """A receiver shows what OLA is ordered, and then that it is ordered to be dark."""
    name = f"{language}.heard"
    lines = open(f"{ROOM}/{name}", "w", encoding="utf-8")
    run = start([*inside, f"{folder}/receive", str(universe), "120", str(PORT), OWN], stdin=subprocess.DEVNULL, stdout=lines, stderr=lines)
    is_there = wait(lambda: has_joined(inside, universe), 20)
    ola.set(universe, [255] * 3)
    is_lit = stage.said(name, told(3))
    ola.set(universe, [0] * 3)
    is_dark = wait(lambda: re.search(told(0), text_of(name).rstrip("\n").rsplit("\n", 1)[-1]), 20)
    run.kill()
    run.wait()
    check(f"{language}: olad lights receive", is_there and is_lit and is_dark, f"{text_of(name)[-200:]}")


def main(words):
    signal.signal(signal.SIGTERM, lambda *_: finish(1))
    subprocess.run(["ip", "link", "set", "lo", "up"], check=False)
    _, inside = second_space()
    languages = [it.partition("=")[::2] for it in words]
    heard, sent = (dict(enumerate(languages, first)) for first in (HEARD, SENT))
    ola = Ola(inputs=heard, outputs=sent)
    lights_olad(ola, inside, heard)
    for universe, (language, folder) in sent.items():
        is_lit_by_olad(ola, inside, language, folder, universe)
    finish(0)


if __name__ == "__main__":
    main(sys.argv[1:])

#!/usr/bin/env python3
"""A gateway's screen on a terminal that takes nothing, of the launcher in the folder where this runs, at a port.

usage: screens.py PORT stuck | given_back     ends with a word of what isn't as it should be
"""
import fcntl
import os
import pty
import re
import select
import socket
import struct
import sys
import termios
import time
import tty

import e131

PORT = int(sys.argv[1])


def data(cid, number, universe, slots):
    return e131.data(universe, number, slots, struct.pack(">QQ", 0, cid), b"A desk with a long name")


def hears():
    with open("/proc/net/udp", encoding="utf-8") as table:
        return any(f":{PORT:04X} " in line for line in table)


def wait(is_there, what):
    end = time.time() + 30
    while not is_there():
        if time.time() > end:
            sys.exit(f"no {what}")
        time.sleep(0.01)


def octets_of(descriptor):
    octets = b""
    while select.select([descriptor], [], [], 0)[0]:
        octets += os.read(descriptor, 65536)
    return octets


def begin(*words):
    """A launcher on a terminal of 80 by 24; the process, and the other end of the terminal."""
    pid, terminal = pty.fork()
    if pid == 0:
        fcntl.ioctl(1, termios.TIOCSWINSZ, struct.pack("HHHH", 24, 80, 0, 0))
        os.execvp("bash", ["bash", "launcher", *words])
    return pid, terminal


def stuck():
    """The terminal takes nothing for a while: the light goes on, and then it has the newest levels."""
    widget, slave = pty.openpty()
    tty.setraw(slave)
    pid, terminal = begin("--widget", "1=" + os.ttyname(slave), "--seconds", "90")
    out = socket.socket(socket.AF_INET, socket.SOCK_DGRAM)
    number, shown, lit = 0, b"", b""

    def send_until(level, is_there, what):
        nonlocal number, shown, lit
        end = time.time() + 20
        while not is_there():
            if time.time() > end:
                sys.exit(f"no {what}")
            out.sendto(data(0xaa, number % 256, 1, bytes([level]) + bytes(511)), ("127.0.0.1", PORT))
            number += 1
            time.sleep(0.05)
            lit += octets_of(widget)
            if what != "light":
                shown += octets_of(terminal)

    def is_lit(level):
        return lit.rfind(bytes([0x7e, 6, 1, 2, 0, level])) > max(lit.rfind(bytes([0x7e, 6, 1, 2, 0, other])) for other in (1, 2) if other != level)

    send_until(1, lambda: b"A01" in shown and is_lit(1), "screen")
    os.write(terminal, b"\x13")
    time.sleep(1)
    shown += octets_of(terminal)
    before = len(shown)
    # (forty drawings' worth of new levels and counts)
    for level in (2, 1) * 20:
        send_until(level, lambda: is_lit(level), "light")
        time.sleep(0.05)
    send_until(2, lambda: is_lit(2), "light")
    if octets_of(terminal):
        sys.exit("the terminal isn't stuck")
    os.write(terminal, b"\x11")
    send_until(2, lambda: b"A02" in shown[before:], "newest screen")
    os.close(terminal)
    os.waitpid(pid, 0)


def given_back():
    """The terminal takes nothing while the gateway ends: it is given back, and told what is lost."""
    pid, terminal = begin("--seconds", "12")
    shown = b""

    def look(seconds=0.05):
        nonlocal shown
        while select.select([terminal], [], [], seconds)[0]:
            try:
                octets = os.read(terminal, 65536)
            except OSError:
                octets = b""
            if not octets:
                return False
            shown += octets
        return True

    wait(hears, "socket")
    out = socket.socket(socket.AF_INET, socket.SOCK_DGRAM)
    for place in [*range(1000)] * 3:
        out.sendto(data(place, 0, 1 + place % 900, b"\1"), ("127.0.0.1", PORT))
        if place % 25 == 24:
            look(0.01)
    end = time.time() + 9
    while b"sources on universes 1000 " not in shown:
        if time.time() > end:
            sys.exit("not all sources are there")
        look()
    os.write(terminal, b"\x13")
    # (until it has taken nothing for a while)
    look(1)
    wait(lambda: not hears(), "end")
    before = len(shown)
    time.sleep(0.5)
    look(0)
    if len(shown) > before:
        sys.exit("the terminal isn't stuck")
    os.write(terminal, b"\x11")
    while look(1) and b"not written" not in shown[before:]:
        pass
    os.close(terminal)
    os.waitpid(pid, 0)
    rows = shown[before:].partition(b"\x1b[?1049l")[2].replace(b"\r\n", b"\n")
    if not rows.startswith(b"sacn watch  sources on universes 1000 "):
        sys.exit(f"the terminal isn't given back: {shown[-60:]}")
    if not re.search(rb"\n[1-9][0-9]* lines not written\n", rows):
        sys.exit(f"what is lost isn't told: {rows[-60:]}")


if __name__ == "__main__":
    {"stuck": stuck, "given_back": given_back}[sys.argv[2]]()

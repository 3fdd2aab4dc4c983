#!/usr/bin/env python3
"""A watch's or a gateway's screen on a terminal of 80 by 24, steered by keys, of the launcher in the folder where this runs.

usage: keys.py PORT steered | typed | changed | lines | gateway     sends packets to PORT; ends with a word of what isn't as it should be
       keys.py PORT killed launcher|program                         whether the terminal has its modes again
       keys.py PORT told STATUS                                     whether TERM and CONT at once end each run with this status
"""
import fcntl
import os
import pty
import re
import select
import signal
import socket
import struct
import subprocess
import sys
import termios
import time

import e131

PORT = int(sys.argv[1])
COLUMNS, ROWS = 80, 24
RIGHT, LEFT, UP, DOWN = b"\x1b[C", b"\x1b[D", b"\x1b[A", b"\x1b[B"


def data(cid, number, universe, slots):
    return e131.data(universe, number, slots, struct.pack(">QQ", 0, cid))


class Screen:
    """What a run shows on a terminal, while packets come to it: of each universe its source and its levels."""

    def __init__(self, *words):
        self.pid, self.terminal = pty.fork()
        if self.pid == 0:
            fcntl.ioctl(1, termios.TIOCSWINSZ, struct.pack("HHHH", ROWS, COLUMNS, 0, 0))
            os.execvp(words[0], words)
        self.modes = termios.tcgetattr(self.terminal)
        self.out = socket.socket(socket.AF_INET, socket.SOCK_DGRAM)
        self.lit, self.number, self.next, self.octets, self.rows, self.has_ended = {}, 0, 0, b"", {}, False

    def look(self):
        """Sends what is due, and reads what was drawn."""
        if time.time() >= self.next:
            self.next = time.time() + 0.05
            self.number = (self.number + 1) % 256
            for universe, (cid, slots) in self.lit.items():
                self.out.sendto(data(cid, self.number, universe, slots), ("127.0.0.1", PORT))
        if select.select([self.terminal], [], [], 0.01)[0]:
            try:
                octets = os.read(self.terminal, 65536)
            except OSError:
                octets = b""
            self.has_ended = self.has_ended or not octets
            self.octets += octets
            self.draw()

    def draw(self):
        """The rows as the latest drawing left them."""
        begin = self.octets.rfind(b"\x1b[1;1H")
        if begin < 0:
            return
        for place, row in re.findall(rb"\x1b\[(\d+);1H((?:[^\x1b]|\x1b\[[0-9;]*m)*)\x1b\[K", self.octets[begin:]):
            self.rows[int(place)] = re.sub(rb"\x1b\[[0-9;]*m", b"", row).decode()
        cleared = re.findall(rb"\x1b\[(\d+);1H\x1b\[J", self.octets[begin:])
        for place in list(self.rows):
            if cleared and place >= int(cleared[-1]):
                del self.rows[place]

    def shows(self, pattern):
        return any(re.search(pattern, row) for row in self.rows.values())

    def wait(self, is_there, what, seconds=30):
        end = time.time() + seconds
        while not is_there():
            if time.time() > end or self.has_ended:
                sys.exit(f"no {what}: {[self.rows[place] for place in sorted(self.rows)]}")
            self.look()

    def waits_for(self, pattern):
        self.wait(lambda: self.shows(pattern), pattern)

    def press(self, keys, pattern):
        """What keys bring."""
        os.write(self.terminal, keys)
        self.waits_for(pattern)

    def ends(self):
        """The status of the run, once it ended by itself."""
        end = time.time() + 30
        while not self.has_ended and time.time() < end:
            self.look()
        if not self.has_ended:
            sys.exit("it doesn't end")
        return os.waitstatus_to_exitcode(os.waitpid(self.pid, 0)[1])

    def is_given_back(self):
        """Whether the terminal has the modes of the start, and shows what it showed before."""
        return termios.tcgetattr(self.terminal) == self.modes and b"\x1b[?1049l" in self.octets


def begin():
    screen = Screen("bash", "launcher")
    screen.waits_for("^sacn watch ")
    screen.lit = {1: (0xA, b"\xff\x80"), 7: (0xA, b"\x40"), 9: (0xB, b"\1" * 30)}
    screen.waits_for(r"^universe \d+: slots above 0")
    screen.waits_for(r"^A +7 sending")
    screen.waits_for(r"^B +9 sending")
    if not screen.shows(r"^A +1 sending"):
        sys.exit("one source has two letters")
    return screen


def steered():
    """Universes by the arrows, how levels are written, and the end."""
    screen = begin()
    screen.waits_for("q end")
    screen.press(b"1\r", r"^universe 1: slots above 0")
    screen.waits_for("^   1 Aff A80 ")
    screen.press(RIGHT, r"^universe 7: ")
    screen.waits_for("^   1 A40 ")
    screen.press(RIGHT, r"^universe 9: ")
    screen.waits_for("^   1 B01 ")
    screen.press(RIGHT, r"^universe 1: ")
    screen.press(LEFT, r"^universe 9: ")
    # (a sequence comes in pieces, and in the form that some terminals use)
    os.write(screen.terminal, b"\x1b")
    time.sleep(0.2)
    os.write(screen.terminal, b"O")
    time.sleep(0.2)
    screen.press(b"D", r"^universe 7: ")
    screen.press(LEFT, r"^universe 1: ")
    screen.press(b"d", "^   1 A255 A128 ")
    screen.press(b"%", "^   1 A100 A 50 ")
    screen.press(b"p", "^   1 A100 A100 ")
    screen.press(b"x", "^   1 Aff A80 ")
    os.write(screen.terminal, b"q")
    if screen.ends() != 0:
        sys.exit("q ends it with another status than 0")
    if not screen.is_given_back():
        sys.exit("the terminal isn't given back")


def typed():
    """Numbers, those that are taken back, and those that are none of a universe."""
    screen = begin()
    screen.press(b"6", "^universe 6_ ")
    screen.press(b"4000", "^universe 64000_ ")
    screen.press(b"\r", "^no universe 64000: 1 to 63999")
    screen.press(b"12", "^universe 12_ ")
    screen.press(b"\x7f", "^universe 1_ ")
    os.write(screen.terminal, b"\x1b")
    screen.wait(lambda: not screen.shows("^universe 1_ "), "end of what was typed")
    screen.press(b"63999\r", "^universe 63999: no levels heard yet")
    screen.press(b"9\r", "^universe 9: slots above 0")
    screen.waits_for("^   1 B01 ")
    os.kill(screen.pid, signal.SIGTERM)
    if screen.ends() != 0 or not screen.is_given_back():
        sys.exit("the terminal isn't given back")


def changed():
    """A slot that changes for one packet, and has its level again."""
    screen = begin()
    screen.press(b"1\r", "^   1 Aff A80 ")
    screen.press(b"f", r"^universe 1: \* changed since f")
    screen.number = (screen.number + 1) % 256
    screen.out.sendto(data(0xA, screen.number, 1, b"\xff\x81"), ("127.0.0.1", PORT))
    screen.waits_for(r"^   1 Aff A80\*")
    screen.press(b"f", "^universe 1: slots above 0")
    screen.waits_for("^   1 Aff A80 ")
    os.write(screen.terminal, b"\x03")
    if screen.ends() != 0 or not screen.is_given_back():
        sys.exit("the terminal isn't given back")


def lines():
    """A terminal that hands over whole lines: keys are answered once the line ends."""
    screen = begin()
    screen.press(b"d\n", r"the level, 0 to 255$")
    screen.press(b"7\n", "^universe 7: ")
    os.write(screen.terminal, b"q\n")
    if screen.ends() != 0:
        sys.exit("q ends it with another status than 0")


def gateway():
    """A gateway's screen is steered as a watch's, and no key ends it."""
    screen = begin()
    screen.waits_for("Ctrl-C end")
    screen.press(RIGHT, r"^universe 7: ")
    screen.waits_for("^   1 A40 ")
    screen.press(b"q", "^Ctrl-C ends the gateway")
    screen.press(LEFT, r"^universe 1: ")
    os.write(screen.terminal, b"\x03")
    if screen.ends() != -signal.SIGINT or not screen.is_given_back():
        sys.exit("the terminal isn't given back")


def killed(what):
    """The launcher or the program is killed outright: the terminal has its modes again."""
    screen = Screen("bash", "-c", "bash launcher; echo over; sleep 60")
    screen.waits_for("^sacn watch ")
    if termios.tcgetattr(screen.terminal)[3] & (termios.ICANON | termios.ECHO):
        sys.exit("keys aren't read one by one")
    launcher = subprocess.run(["pgrep", "-P", str(screen.pid)], capture_output=True, text=True, check=True).stdout.split()[0]
    of_launcher = subprocess.run(["ps", "--ppid", launcher, "-o", "pid=,args="], capture_output=True, text=True, check=True).stdout
    program = re.search(rf"^ *(\d+) .*sacn.* --port {PORT}", of_launcher, re.M)
    os.kill(int(launcher) if what == "launcher" else int(program[1]), signal.SIGKILL)
    end = time.time() + 30
    while time.time() < end and not (b"over" in screen.octets and screen.is_given_back()):
        screen.look()
    if not screen.is_given_back():
        sys.exit(f"the terminal isn't given back: {screen.octets[-60:]}")
    os.kill(screen.pid, signal.SIGKILL)
    os.waitpid(screen.pid, 0)


def told(status):
    """TERM and CONT at once, as what stops a service sends them, end each of eight runs."""
    for _ in range(8):
        screen = Screen("bash", "launcher")
        screen.waits_for("^sacn watch ")
        for it in signal.SIGTERM, signal.SIGCONT:
            os.kill(screen.pid, it)
        ended = screen.ends()
        if ended != int(status):
            sys.exit(f"it ends with {ended}")
        if not screen.is_given_back():
            sys.exit("the terminal isn't given back")


if __name__ == "__main__":
    {"steered": steered, "typed": typed, "changed": changed, "lines": lines, "gateway": gateway, "killed": killed, "told": told}[sys.argv[2]](*sys.argv[3:])

"""Looks at the frames that a gateway prints for tests/frames.sh: python3 frames.py SACN."""

import datetime
import os
import re
import pty
import queue
import socket
import subprocess
import sys
import tempfile
import threading

import e131

PORT = e131.free_udp_port()
# (a line of digits without its moment)
DARK_DIGITS = "1 " + "0" * 1026


def packet(number, levels):
    """A data packet of universe 1 with these levels by slot; all 512 slots stand in it."""
    return e131.data(1, number, bytes(levels.get(slot, 0) for slot in range(1, 513)), name=b"frames")


class Gateway:
    """A gateway of one port, and the lines that it prints."""

    def __init__(self, sacn, words, columns=None, terminal=False, zone=None):
        self.file = tempfile.NamedTemporaryFile("w", suffix=".toml")
        self.file.write(f"version = 1\nudp_port = {PORT}\n[[port]]\nnumber = 1\nuniverse = 1\n")
        self.file.flush()
        space = {name: value for name, value in os.environ.items() if name != "COLUMNS"}
        if columns:
            space["COLUMNS"] = str(columns)
        if zone:
            space["TZ"] = zone
        here, there = pty.openpty() if terminal else os.pipe()
        self.run = subprocess.Popen(
            [sacn, "gateway", self.file.name, *words, "--seconds", "300"], stdin=subprocess.DEVNULL, stdout=there, stderr=subprocess.PIPE, text=True, env=space
        )
        os.close(there)
        self.lines = queue.Queue()
        threading.Thread(target=self.read, args=[here], daemon=True).start()
        self.said = self.run.stderr.readline()
        self.sender = socket.socket(socket.AF_INET, socket.SOCK_DGRAM)
        self.number = 0

    def read(self, here):
        left = b""
        while True:
            try:
                octets = os.read(here, 65536)
            except OSError:
                octets = b""
            if not octets:
                return
            *whole, left = (left + octets).split(b"\n")
            for line in whole:
                self.lines.put(line.rstrip(b"\r").decode())

    def line(self):
        """The next line, within thirty seconds."""
        try:
            return self.lines.get(timeout=30)
        except queue.Empty:
            return "nothing"

    def light(self, levels):
        self.sender.sendto(packet(self.number, levels), ("127.0.0.1", PORT))
        self.number += 1

    def end(self):
        self.run.kill()
        self.run.wait()
        self.run.stderr.close()
        self.file.close()


def shows(sacn, words, looks, **where):
    """What is wrong with a gateway's lines: the first, and the one that each of these levels brings."""
    gateway = Gateway(sacn, words, **where)
    try:
        for levels, wanted in looks:
            if levels is not None:
                gateway.light(levels)
            line = re.sub("^([0-9]+) [0-9]+ ", "\\1 ", gateway.line())
            if line != wanted:
                yield f"{levels} is shown as {line[:90]!r}"
    finally:
        gateway.end()


def slots_stand_with_their_levels(sacn):
    yield from shows(
        sacn,
        ["--frames", "slots"],
        [(None, "port 1  dark"), ({1: 255, 2: 128, 512: 3}, "port 1  3 lit  1@255 2@128 512@3"), ({7: 1}, "port 1  1 lit  7@1"), ({}, "port 1  dark")],
    )


def a_line_is_no_wider_than_the_terminal(sacn):
    every = {slot: 255 for slot in range(1, 513)}
    # (a head of 16 letters; each slot has 6, and 3 are kept for the mark)
    yield from shows(sacn, ["--frames", "slots"], [(None, "port 1  dark"), (every, "port 1  512 lit  1@255 2@255 3@255 ..")], columns=40)
    # (14 letters and twice 6: both find room where the terminal has 26, and the first alone where it has 25)
    yield from shows(sacn, ["--frames", "slots"], [(None, "port 1  dark"), ({1: 255, 2: 255}, "port 1  2 lit  1@255 2@255")], columns=26)
    yield from shows(sacn, ["--frames", "slots"], [(None, "port 1  dark"), ({1: 255, 2: 255}, "port 1  2 lit  1@255 ..")], columns=25)


def a_terminal_has_slots(sacn):
    yield from shows(sacn, [], [(None, "port 1  dark"), ({1: 255}, "port 1  1 lit  1@255")], terminal=True)


def elsewhere_are_digits(sacn):
    yield from shows(sacn, [], [(None, DARK_DIGITS)])


def digits_may_be_asked_in_a_terminal(sacn):
    yield from shows(sacn, ["--frames", "digits"], [(None, DARK_DIGITS)], terminal=True)


def moment_of(line, hours):
    """How many seconds ago the time of day in front of a line was, in a zone so many hours east of UTC; None where the line has none."""
    found = re.match(r"(\d\d):(\d\d):(\d\d)\.(\d\d\d) ", line)
    if not found:
        return None
    hour, minute, second, milli = map(int, found.groups())
    now = datetime.datetime.now(datetime.timezone(datetime.timedelta(hours=hours)))
    now = (now.hour * 60 + now.minute) * 60 + now.second + now.microsecond / 1e6
    return (now - ((hour * 60 + minute) * 60 + second + milli / 1000)) % 86400


def lines_have_the_time_of_day(sacn):
    for form, looks, where in [
        ("digits", [(None, DARK_DIGITS)], {}),
        ("slots", [(None, "port 1  dark"), ({7: 1}, "port 1  1 lit  7@1")], {}),
        # (as many letters as fit behind the time, which has 13)
        ("slots", [(None, "port 1  dark"), ({1: 255, 2: 255}, "port 1  2 lit  1@255 2@255")], {"columns": 39}),
        ("slots", [(None, "port 1  dark"), ({1: 255, 2: 255}, "port 1  2 lit  1@255 ..")], {"columns": 38}),
    ]:
        gateway = Gateway(sacn, ["--frames", form, "--clock"], zone="XST-5:30", **where)
        try:
            said = [gateway.said]
            for levels, wanted in looks:
                if levels is not None:
                    gateway.light(levels)
                line = gateway.line()
                said.append(line)
                if re.sub("^([0-9]+) [0-9]+ ", "\\1 ", line[13:]) != wanted:
                    yield f"{levels} is shown as {line[:90]!r}"
            ago = [moment_of(line, 5.5) for line in said]
            if not all(it is not None and it < 120 for it in ago):
                yield f"{form}: {ago} s ago, {said[0][:60]!r}"
        finally:
            gateway.end()


def none_prints_no_frame(sacn):
    with tempfile.NamedTemporaryFile("w", suffix=".toml") as file:
        file.write(f"version = 1\nudp_port = {PORT}\n[[port]]\nnumber = 1\nuniverse = 1\n")
        file.flush()
        run = subprocess.run([sacn, "gateway", file.name, "--frames", "none", "--seconds", "1"], stdin=subprocess.DEVNULL, capture_output=True, text=True, timeout=60)
    if run.returncode or run.stdout:
        yield f"status {run.returncode}, {run.stdout[:40]!r}"


def refused(sacn, *words):
    run = subprocess.run([sacn, "gateway", "x.toml", *words], capture_output=True, text=True, timeout=60)
    if run.returncode != 2 or run.stdout:
        yield f"{words}: status {run.returncode}, {run.stdout[:40]!r}"


def other_words_are_refused(sacn):
    yield from refused(sacn, "--frames", "lines")
    yield from refused(sacn, "--frames")
    yield from refused(sacn, "--frames", "slots", "--watch")
    yield from refused(sacn, "--watch", "--clock")


LOOKS = [
    slots_stand_with_their_levels,
    a_line_is_no_wider_than_the_terminal,
    a_terminal_has_slots,
    elsewhere_are_digits,
    digits_may_be_asked_in_a_terminal,
    lines_have_the_time_of_day,
    none_prints_no_frame,
    other_words_are_refused,
]


def main(sacn):
    failed = 0
    for look in LOOKS:
        faults = list(look(os.path.abspath(sacn)))
        failed += bool(faults)
        print(f"not ok frames: {look.__name__}: {'; '.join(faults[:4])}" if faults else f"ok frames: {look.__name__}", flush=True)
    return 1 if failed else 0


if __name__ == "__main__":
    sys.exit(main(sys.argv[1]))

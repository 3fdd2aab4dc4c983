"""Runs desks on loopback for tests/desks.sh: python3 desks.py SACN."""

import contextlib
import fcntl
import os
import pty
import re
import select
import shutil
import signal
import socket
import struct
import subprocess
import sys
import tempfile
import termios
import threading
import time

import e131

TOP = os.path.dirname(os.path.dirname(os.path.abspath(__file__)))
UNIVERSES = [1, 2, 3, 4, 7]


def show(name="Desk", patch=""):
    text = f'version = 2\ncid = "00010203-0405-0607-0809-0a0b0c0d0e0f"\nname = "{name}"\nuniverses = {UNIVERSES}\n'
    text += "[[cue]]\nnumber = 1\nup = 0\ndown = 0\nlevels = [[1, 65535]]\n"
    for universe in UNIVERSES:
        text += f"[[patch]]\nchannel = 1\nuniverse = {universe}\nslot = 1\n"
    return text + patch


class Host:
    """What comes to a port of this machine: data packets in their order, and how many pages."""

    def __init__(self):
        self.socket = socket.socket(socket.AF_INET, socket.SOCK_DGRAM)
        self.socket.setsockopt(socket.SOL_SOCKET, socket.SO_RCVBUF, 1 << 20)
        self.socket.bind(("127.0.0.1", 0))
        self.port = self.socket.getsockname()[1]
        self.packets, self.pages, self.came = [], 0, threading.Condition()
        threading.Thread(target=self.listen, daemon=True).start()

    def listen(self):
        while True:
            packet = e131.read(self.socket.recv(2048))
            with self.came:
                if packet:
                    self.packets.append((packet.universe, packet.number, bool(packet.options & e131.TERMINATED)))
                else:
                    self.pages += 1
                self.came.notify_all()

    def universes(self):
        return sorted({universe for universe, _, _ in self.packets})

    def ends(self):
        """How many terminations came of each universe."""
        return {universe: sum(1 for of, _, ends in self.packets if ends and of == universe) for universe in UNIVERSES}

    def wait(self, test):
        """Whether this is so within twenty seconds."""
        with self.came:
            return self.came.wait_for(test, 20)


class Desk:
    def __init__(self, sacn, *words, text=None, command=None):
        self.file = tempfile.NamedTemporaryFile("w", suffix=".toml")
        self.file.write(text or show())
        self.file.flush()
        pipes = {"stdin": subprocess.PIPE, "stdout": subprocess.PIPE, "stderr": subprocess.PIPE}
        self.run = subprocess.Popen([*(command or [sacn]), "desk", self.file.name, *words], text=True, **pipes)

    def type(self, line):
        self.run.stdin.write(line + "\n")
        self.run.stdin.flush()
        return self.run.stdout.readline().rstrip("\n")

    def is_stopped(self):
        """Whether every universe stops within twenty seconds."""
        limit = time.time() + 20
        while time.time() < limit:
            if self.type("status").count(" stopped") == len(UNIVERSES):
                return True
        return False

    def end(self):
        """The status, and what it said from now on."""
        self.run.stdin.close()
        out, err = self.run.stdout.read(), self.run.stderr.read()
        return self.run.wait(20), out, err


class Terminal:
    """A desk on a terminal of its own, which echoes what is typed or doesn't: what is written to that, from where it was looked at."""

    def __init__(self, command, *words, text=None, columns=80, echoes=False, inputs=None, errors=None, **variables):
        self.file = tempfile.NamedTemporaryFile("w", suffix=".toml")
        self.file.write(text or show())
        self.file.flush()
        self.here, there = pty.openpty()
        fcntl.ioctl(there, termios.TIOCSWINSZ, struct.pack("HHHH", 5, columns, 0, 0))
        modes = termios.tcgetattr(there)
        if not echoes:
            modes[3] &= ~termios.ECHO
        termios.tcsetattr(there, termios.TCSANOW, modes)
        known = {name: word for name, word in os.environ.items() if name not in ("NO_COLOR", "SACN_TYPED", "COLUMNS")}
        # (a shell takes no signal that was ignored before it, as nohup has HUP)
        own = lambda: (signal.signal(signal.SIGHUP, signal.SIG_DFL), fcntl.ioctl(1, termios.TIOCSCTTY, 0))
        self.run = subprocess.Popen(
            [*command, "desk", self.file.name, *words],
            stdin=there if inputs is None else inputs,
            stdout=there,
            stderr=there if errors is None else errors,
            env={**known, "TERM": "xterm", **variables},
            start_new_session=True,
            preexec_fn=own,
        )
        os.close(there)
        self.text = ""

    def type(self, octets):
        os.write(self.here, octets.encode())

    def read(self):
        """Whether more comes within a tenth of a second; that is added."""
        if not select.select([self.here], [], [], 0.1)[0]:
            return False
        try:
            octets = os.read(self.here, 65536)
        except OSError:
            return False
        self.text += octets.decode()
        return bool(octets)

    def shows(self, pattern, seconds=20):
        """Whether what matches comes within so many seconds; what is looked at next stands behind it."""
        limit = time.time() + seconds
        while True:
            found = re.search(pattern, self.text)
            if found:
                self.text = self.text[found.end() :]
                return True
            if not self.read() and time.time() > limit:
                return False

    def end(self, octets="\x04"):
        """The status, and all that is there still, once these keys have ended it."""
        if octets:
            self.type(octets)
        limit = time.time() + 20
        while self.run.poll() is None and time.time() < limit:
            self.read()
        while self.read():
            pass
        if self.run.poll() is None:
            self.run.kill()
        return self.run.wait(), self.text


@contextlib.contextmanager
def launcher_of(sacn, known):
    """The words that run the launcher over a program, which knows this."""
    with tempfile.NamedTemporaryFile("w") as launcher:
        launcher.write(f'set -eu\n. "{TOP}/tools/run.sh"\nsacn_join=/nowhere\n{known}\nrun "{sacn}" "$@"\n')
        launcher.flush()
        yield ["bash", launcher.name]


def prompt(words):
    """The pattern of a prompt, and of what clears the line before it."""
    return "\r\x1b\\[K" + words + "> "


def line(words):
    return "\r\x1b\\[K" + words + "\r\n"


SECOND_CUE = "[[cue]]\nnumber = 2\nup = 3000\ndown = 0\nlevels = [[1, 30000]]\n"


def the_start_is_told(sacn):
    host = Host()
    desk = Desk(sacn, "--to", f"127.0.0.1:{host.port}", "--to", f"1-2,7=127.0.0.2:{host.port}")
    said = desk.run.stderr.readline()
    if said != f'desk "Desk" priority 100 universes 1-4,7 to 127.0.0.1:{host.port}, 1-2,7=127.0.0.2:{host.port}\n':
        yield f"it said {said!r}"
    desk.end()
    desk = Desk(sacn, "--to", f"127.0.0.1:{host.port}", "--standby", text=show("De\\u0007sk"))
    said = desk.run.stderr.readline()
    if said != f'desk "De\\u0007sk" priority 100 universes 1-4,7 to 127.0.0.1:{host.port}; it stands by: start UNIVERSE or start all begins\n':
        yield f"it said {said!r}"
    desk.end()


def hosts_get_their_universes(sacn):
    some, all_of_them = Host(), Host()
    # (the first is named twice: each packet comes once)
    words = ["--to", f"1-2,7=127.0.0.1:{some.port}", "--to", f"2=127.0.0.1:{some.port}", "--to", f"127.0.0.1:{all_of_them.port}"]
    desk = Desk(sacn, *words)
    if not some.wait(lambda: some.universes() == [1, 2, 7] and some.pages > 0):
        yield f"to 1-2,7 came {some.universes()} and {some.pages} pages"
    if not all_of_them.wait(lambda: all_of_them.universes() == UNIVERSES and all_of_them.pages > 0):
        yield f"to all came {all_of_them.universes()} and {all_of_them.pages} pages"
    status, _, _ = desk.end()
    if status or not all_of_them.wait(lambda: set(all_of_them.ends().values()) == {3}) or not some.wait(lambda: some.ends() == {1: 3, 2: 3, 3: 0, 4: 0, 7: 3}):
        yield f"status {status}, terminations {all_of_them.ends()} and {some.ends()}"
    twice = [packet for packet in some.packets if some.packets.count(packet) > 1]
    if len(some.packets) < 250 and twice:
        yield f"twice came {twice[:3]}"
    if some.universes() != [1, 2, 7]:
        yield f"to 1-2,7 came {some.universes()}"


def universes_that_the_show_has_not_are_refused(sacn):
    desk = Desk(sacn, "--to", "1,5-6=127.0.0.1")
    status, out, err = desk.end()
    if status != 2 or out or err != "error: --to 5-6=127.0.0.1: the show has none of these universes\n":
        yield f"status {status}, {out!r}, {err!r}"


def a_desk_stands_by(sacn):
    host = Host()
    desk = Desk(sacn, "--to", f"127.0.0.1:{host.port}", "--standby")
    if not desk.is_stopped():
        yield "its universes don't stop"
    if host.packets:
        yield f"it sent {host.packets[:3]}"
    for line, wanted in [
        ("start 9", "refused NoUniverse: the show has no universe 9; status lists them"),
        ("end 1", "refused Stopped: universe 1 has ended already"),
        ("end all", "ok, but no universe ends"),
        ("start 2", "ok universe 2 starts"),
    ]:
        answer = desk.type(line)
        if answer != wanted:
            yield f"{line!r} was answered {answer!r}"
    if not host.wait(lambda: host.universes() == [2]):
        yield f"after start 2 came {host.universes()}"
    answer = desk.type("start all")
    if answer != "ok universes 1,3-4,7 start":
        yield f"'start all' was answered {answer!r}"
    if not host.wait(lambda: host.universes() == UNIVERSES):
        yield f"after start all came {host.universes()}"
    if set(host.ends().values()) != {0}:
        yield f"it ended {host.ends()}"
    answer = desk.type("end all")
    if answer != "ok universes 1-4,7 end":
        yield f"'end all' was answered {answer!r}"
    if not host.wait(lambda: set(host.ends().values()) == {3}):
        yield f"after end all it ended {host.ends()}"
    status, _, _ = desk.end()
    if status:
        yield f"status {status}"


def a_desk_that_never_began_ends_nothing(sacn):
    host = Host()
    desk = Desk(sacn, "--to", f"127.0.0.1:{host.port}", "--standby")
    stopped = desk.is_stopped()
    status, out, _ = desk.end()
    if not stopped or status or host.packets or not out.startswith("sent "):
        yield f"status {status}, {out!r}, it sent {host.packets[:3]}"


def universes_that_end_are_waited_for(sacn):
    host = Host()
    desk = Desk(sacn, "--to", f"127.0.0.1:{host.port}")
    if not host.wait(lambda: host.universes() == UNIVERSES):
        yield f"at first came {host.universes()}"
    desk.run.stdin.write("end all\nstart all\n")
    desk.run.stdin.flush()
    answers = [desk.run.stdout.readline().rstrip("\n") for _ in range(2)]
    if answers != ["ok universes 1-4,7 end", "ok universes 1-4,7 start"]:
        yield f"they were answered {answers}"

    def is_again(universe):
        of_it = [ends for number, _, ends in host.packets if number == universe]
        return of_it.count(True) == 3 and not of_it[-1]

    if not host.wait(lambda: all(is_again(universe) for universe in UNIVERSES)):
        yield f"it ended {host.ends()}, and last came {host.packets[-5:]}"
    desk.end()


def long_patch(port):
    """A show of eight universes, whose patch has 4096 lines: more than wait for an output."""
    universes = range(1, 9)
    text = f'version = 2\ncid = "00010203-0405-0607-0809-0a0b0c0d0e0f"\nname = "Desk"\nuniverses = {list(universes)}\nsend_to = [{port}]\n'
    lines = []
    for universe in universes:
        for slot in range(1, 513):
            text += f"[[patch]]\nchannel = {slot}\nuniverse = {universe}\nslot = {slot}\n"
            lines.append(f"channel {slot} universe {universe} slot {slot}")
    return text, lines


def a_long_list_comes_whole(sacn):
    text, lines = long_patch(Host().port)
    desk = Desk(sacn, text=text)
    found = [desk.type("patch")]
    while found[-1] not in ("ok", ""):
        found.append(desk.run.stdout.readline().rstrip("\n"))
    if found != [*lines, "ok"]:
        yield f"{len(found)} lines, the last {found[-1]!r}"
    desk.end()


def an_order_behind_a_list_is_obeyed(sacn):
    """Also where nobody reads the list."""
    host = Host()
    desk = Desk(sacn, text=long_patch(host.port)[0])
    desk.run.stdin.write("patch\n")
    desk.run.stdin.flush()
    desk.run.stdin.write("end 3\n")
    desk.run.stdin.flush()
    if not host.wait(lambda: host.ends()[3] == 3):
        yield f"it ended {host.ends()}"
    desk.end()


def no_packet_is_a_failure(sacn):
    # (the broadcast address refuses each datagram of a socket that didn't ask for it)
    status, out, err = Desk(sacn, "--to", "255.255.255.255").end()
    if status != 4 or not out.startswith("sent 0 failed ") or not err.endswith("no packet could be sent: is this machine's network up, and are these the right hosts?\n"):
        yield f"status {status}, {out!r}, {err!r}"


def hosts_have_names(sacn):
    """The launcher looks names up; here by a table of its own, by which this machine has no address itself, or by that of an older one."""
    answer = 'then echo "127.0.0.1 STREAM stage-1"; else return 2; fi; }'
    for known in (
        'getent() { if [ "$*" = "-A ahostsv4 stage-1" ]; ' + answer,
        'getent() { if [ "$1" = -A ]; then return 64; fi; if [ "$*" = "ahostsv4 stage-1" ]; ' + answer,
    ):
        host = Host()
        with launcher_of(sacn, known) as command:
            desk = Desk(sacn, "--to", f"1-3=stage-1:{host.port}", f"--to=4=127.0.0.1:{host.port}", command=command)
            if not host.wait(lambda: host.universes() == [1, 2, 3, 4]):
                yield f"to the name came {host.universes()}"
            said = desk.end()[2].splitlines()
            if said[:2] != [f'desk "Desk" priority 100 universes 1-4,7 to 1-3,4=127.0.0.1:{host.port}', "no --to takes universe 7 of the show"]:
                yield f"it said {said[:2]}"
            status, out, err = Desk(sacn, "--to", "stage-2", command=command).end()
            if status != 2 or out or not err.startswith("sacn: --to stage-2: this machine knows no host stage-2 "):
                yield f"an unknown name: status {status}, {out!r}, {err!r}"


def a_prompt_tells_what_runs(sacn):
    host = Host()
    terminal = Terminal([sacn], "--to", f"127.0.0.1:{host.port}", text=show(patch=SECOND_CUE))
    if not terminal.shows(f" to 127.0.0.1:{host.port}\r\n" + prompt("no cue, next 1")):
        yield f"it began with {terminal.text!r}"
    for typed, wanted in [
        ("go", line("ok cue 1 up 0 s down 0 s") + prompt("cue 1, next 2")),
        ("", prompt("cue 1, next 2")),
        ("1 at 101", line("line 3: a level is 0 to 100, full or 65535 with set") + prompt("cue 1, next 2")),
        ("1 at 50", line("ok 1 at 50 %") + prompt("cue 1, next 2")),
        ("blackout", line("ok master at 0 %") + prompt("cue 1, next 2, blackout")),
        ("cues", line("cue 1 .* current") + line("cue 2 .*") + line("ok") + prompt("cue 1, next 2, blackout")),
        ("master 32768", line("ok") + prompt("cue 1, next 2, master 50 %")),
        ("restore", line("ok master at 100 %") + prompt("cue 1, next 2")),
        ("go", line("ok cue 2 up 3 s down 0 s") + prompt("cue 2, [1-3]\\.[0-9] s left")),
        # (each channel goes to its level in that cue, so no other fade is left)
        ("goto 1", line("ok cue 1 up 0 s down 0 s") + prompt("cue 1, next 2")),
        ("go", line("ok cue 2 up 3 s down 0 s") + prompt("cue 2, [1-3]\\.[0-9] s left")),
    ]:
        terminal.type(typed + "\n")
        if not terminal.shows("^" + wanted):
            yield f"{typed!r} was answered {terminal.text!r}"
    if not terminal.shows("^" + prompt("cue 2"), 20):
        yield f"behind the fade came {terminal.text!r}"
    status, text = terminal.end()
    if status or not re.fullmatch(line("sent [0-9]+ failed 0 refused 0"), text):
        yield f"status {status}, at the end came {text!r}"


def no_prompt_where_it_is_not_wanted(sacn):
    for why, variables in [("TERM=dumb", {"TERM": "dumb"}), ("NO_COLOR", {"NO_COLOR": "1"})]:
        terminal = Terminal([sacn], "--to", f"127.0.0.1:{Host().port}", **variables)
        terminal.type("go\n")
        if not terminal.shows("7 to 127.0.0.1:[0-9]+\r\nok cue 1 up 0 s down 0 s\r\n$") or not re.fullmatch("sent .*\r\n", terminal.end()[1]):
            yield f"with {why} it wrote {terminal.text!r}"
    inputs, typed = os.pipe()
    terminal = Terminal([sacn], "--to", f"127.0.0.1:{Host().port}", inputs=inputs)
    os.close(inputs)
    os.write(typed, b"go\n")
    if not terminal.shows("7 to 127.0.0.1:[0-9]+\r\nok cue 1 up 0 s down 0 s\r\n$"):
        yield f"ordered through a pipe it wrote {terminal.text!r}"
    os.close(typed)
    if not re.fullmatch("sent .*\r\n", terminal.end("")[1]):
        yield f"at the end of that pipe it wrote {terminal.text!r}"


def ten_thousand_lines_have_no_prompt(sacn):
    desk = Desk(sacn, "--to", f"127.0.0.1:{Host().port}")
    out, _ = desk.run.communicate("1 at 50\n" * 10000, 180)
    *answers, last = out.splitlines()
    lost = sum(int(it.split()[0]) for it in answers if it.endswith(" lines not written"))
    if answers.count("ok 1 at 50 %") + lost != 10000 or not last.startswith("sent ") or "\x1b" in out:
        yield f"{len(answers)} lines, {lost} not written, the last {last!r}"


def what_comes_unasked_takes_the_place_of_the_prompt(sacn):
    # (the broadcast address refuses each datagram of a socket that didn't ask for it)
    unasked = "255\\.255\\.255\\.255:5568 doesn't take packets: [0-9]+ failed \\([A-Za-z]+\\)"
    terminal = Terminal([sacn], "--to", "255.255.255.255")
    if not terminal.shows(prompt("no cue, next 1") + line(unasked) + prompt("no cue, next 1")):
        yield f"it wrote {terminal.text!r}"
    terminal.end()
    with tempfile.TemporaryFile("w+") as errors:
        terminal = Terminal([sacn], "--to", "255.255.255.255", errors=errors)
        if not terminal.shows(prompt("no cue, next 1")):
            yield f"where errors go to a file it wrote at first {terminal.text!r}"
        terminal.type("\n")
        if not terminal.shows("^" + prompt("no cue, next 1")):
            yield f"where errors go to a file it wrote {terminal.text!r}"
        terminal.end()
        errors.seek(0)
        said = errors.read()
        if not re.search(unasked, said) or "\x1b" in said:
            yield f"into the file went {said!r}"


def a_small_terminal_has_a_short_prompt(sacn):
    host = Host()
    with launcher_of(sacn, "edits_lines() { false; }") as command:
        terminal = Terminal(command, "--to", f"127.0.0.1:{host.port}", columns=20)
        if not terminal.shows("\r\n" + prompt("no cue")):
            yield f"it began with {terminal.text!r}"
        terminal.type("go\n")
        if not terminal.shows("^" + line("ok cue 1 up 0 s down 0 s") + prompt("cue 1")):
            yield f"'go' was answered {terminal.text!r}"
        status, text = terminal.end()
        if status or not re.fullmatch(line("sent .*"), text):
            yield f"status {status}, at the end came {text!r}"


def a_stopped_terminal_holds_nothing_up(sacn):
    """By Ctrl-S; what was written meanwhile, and the prompt, come with Ctrl-Q."""
    host = Host()
    terminal = Terminal([sacn], "--to", f"127.0.0.1:{host.port}")
    terminal.shows(prompt("no cue, next 1"))
    terminal.type("\x13")
    terminal.type("end 3\nend 4\n")
    if not host.wait(lambda: host.ends()[3] == 3 and host.ends()[4] == 3):
        yield f"it ended {host.ends()}"
    if terminal.read():
        yield f"while it was stopped it took {terminal.text!r}"
    terminal.type("\x11")
    if not terminal.shows(line("ok universe 3 ends") + "(" + prompt("no cue, next 1") + ")?" + line("ok universe 4 ends") + prompt("no cue, next 1")):
        yield f"then came {terminal.text!r}"
    status, _ = terminal.end()
    if status:
        yield f"status {status}"


def rlwrap_gives_arrows_and_a_history(sacn):
    host = Host()
    with launcher_of(sacn, "") as command, tempfile.TemporaryDirectory() as state:
        terminal = Terminal(command, "--to", f"127.0.0.1:{host.port}", text=show(patch=SECOND_CUE), echoes=True, XDG_STATE_HOME=state)
        if not terminal.shows("no cue, next 1> "):
            yield f"it began with {terminal.text!r}"
        for keys, wanted in [("go\r", "ok cue 1 up 0 s down 0 s\r.*cue 1, next 2> "), ("1 at 4\x1b[D5\x1b[C\r", "ok 1 at 54 %\r"), ("\x1b[A\x1b[A\r", "ok cue 2 up 3 s down 0 s\r.*cue 2, [0-3]\\.[0-9] s left> ")]:
            terminal.type(keys)
            if not terminal.shows("(?s)" + wanted):
                yield f"{keys!r} was answered {terminal.text!r}"
        # (half of an order is there still behind what comes unasked)
        terminal.type("stat")
        if not terminal.shows("(?s)cue 2> .*stat", 20):
            yield f"behind the fade came {terminal.text!r}"
        terminal.type("us\r")
        if not terminal.shows("cue 2 master 65535 sent"):
            yield f"'status' was answered {terminal.text!r}"
        status, text = terminal.end("\x03")
        if status or "sent " not in text or not host.wait(lambda: set(host.ends().values()) == {3}):
            yield f"by Ctrl-C: status {status}, {text!r}, it ended {host.ends()}"
        terminal = Terminal(command, "--to", f"127.0.0.1:{host.port}", echoes=True, XDG_STATE_HOME=state)
        terminal.shows("no cue, next 1> ")
        terminal.type("\x1b[A\r")
        if not terminal.shows("cue none master 65535 sent"):
            yield f"the history gave {terminal.text!r}"
        terminal.run.send_signal(signal.SIGTERM)
        status, text = terminal.end("")
        if status or "sent " not in text or not host.wait(lambda: set(host.ends().values()) == {6}):
            yield f"by TERM: status {status}, {text!r}, it ended {host.ends()}"


def a_desk_under_rlwrap_ends_well(sacn):
    """Whatever ends the launcher, its terminal, or that while Ctrl-S holds it."""
    ends = {
        "its terminal is closed": lambda desk: os.close(desk.here),
        "KILL": lambda desk: desk.run.kill(),
        "TERM behind Ctrl-S": lambda desk: (desk.type("\x13status\r"), time.sleep(0.5), desk.run.terminate()),
    }
    for why, end in ends.items():
        host = Host()
        with launcher_of(sacn, "") as command, tempfile.TemporaryDirectory() as state:
            terminal = Terminal(command, "--to", f"127.0.0.1:{host.port}", echoes=True, XDG_STATE_HOME=state)
            terminal.type("go\r")
            if not terminal.shows("ok cue 1 up 0 s down 0 s"):
                yield f"'go' was answered {terminal.text!r}"
            end(terminal)
            if not host.wait(lambda: set(host.ends().values()) == {3}):
                yield f"{why}: it ended {host.ends()}"
            if why == "TERM behind Ctrl-S":
                status, text = terminal.end("\x11")
                if status or "sent " not in text:
                    yield f"{why}: status {status}, {text!r}"
            else:
                terminal.run.wait(20)


LOOKS = [
    the_start_is_told,
    hosts_get_their_universes,
    universes_that_the_show_has_not_are_refused,
    a_desk_stands_by,
    a_desk_that_never_began_ends_nothing,
    universes_that_end_are_waited_for,
    a_long_list_comes_whole,
    an_order_behind_a_list_is_obeyed,
    no_packet_is_a_failure,
    hosts_have_names,
    a_prompt_tells_what_runs,
    no_prompt_where_it_is_not_wanted,
    ten_thousand_lines_have_no_prompt,
    what_comes_unasked_takes_the_place_of_the_prompt,
    a_small_terminal_has_a_short_prompt,
    a_stopped_terminal_holds_nothing_up,
    rlwrap_gives_arrows_and_a_history,
    a_desk_under_rlwrap_ends_well,
]
# What wants a program that a machine may not have.
WANTS = {rlwrap_gives_arrows_and_a_history: "rlwrap", a_desk_under_rlwrap_ends_well: "rlwrap"}


def main(sacn):
    failed = 0
    for look in LOOKS:
        if look in WANTS and shutil.which(WANTS[look]) is None:
            print(f"skipped desks: {look.__name__}: there is no {WANTS[look]}", flush=True)
            continue
        faults = list(look(os.path.abspath(sacn)))
        failed += bool(faults)
        print(f"not ok desks: {look.__name__}: {'; '.join(faults[:4])}" if faults else f"ok desks: {look.__name__}", flush=True)
    return 1 if failed else 0


if __name__ == "__main__":
    sys.exit(main(sys.argv[1]))

#!/usr/bin/env python3
"""The looks of nothing_blocks.sh, one by its name: nothing_blocks.py NAME. What was seen goes to standard error.

It ends with 0 where the look goes well, 1 where it doesn't, and 77 where it can't be had here. Where SPACE is set, it is in a network
namespace of its own, which it changes as it needs. It takes the built program of SACN.
"""
import ctypes
import os
import pty
import queue
import re
import signal
import socket
import subprocess
import sys
import termios
import threading
import time
import uuid

# (no folder of compiled files is left in the tree)
sys.dont_write_bytecode = True
import stage

# (main takes each look by its name)
from nothing_blocks_absent import (  # noqa: F401
    hosts_are_off_while_a_universe_rests, most_hosts_are_off_at_1024_universes, most_hosts_are_off_at_16_universes, most_hosts_are_off_at_170_universes,
    twenty_hosts_are_absent, two_hosts_are_absent,
)
from nothing_blocks_lives import another_life_lights_at_once, one_life_follows_another  # noqa: F401
from stage import (
    Console, Desk, finish, first_level, gateway, Heard, Interface, Lines, narrow, packet, PAGE, PORT, ROOM, SACN,
    said, sender, show, start, tell, text_of, TOP, udp, want, write,
)


def answers_that_nobody_reads():
    """A desk whose answers go to a pipe that nobody reads."""
    heard = Heard(udp())
    desk = Desk([SACN, "desk", show(4)], is_read=False, stderr=open(f"{ROOM}/desk", "w", encoding="utf-8"))
    narrow(desk.run.stdout)
    done = threading.Event()

    def orders():
        desk.run.stdin.write(b"go\n" + b"status\n" * 3000)
        desk.run.stdin.flush()
        done.set()

    threading.Thread(target=orders, daemon=True).start()
    limit = time.time() + 20
    while 1 not in heard.came and time.time() < limit:
        time.sleep(0.02)
    begin = time.time()
    time.sleep(6)
    greatest = heard.gap(range(1, 5), begin, time.time())
    want(greatest < 1, f"greatest gap in 6 s: {greatest:.2f} s (under 1)")
    want(done.wait(10), "its orders are taken")
    if done.is_set():
        end = time.time()
        desk.run.stdin.close()
        heard.wants_ends(range(1, 5), end, 2)


def a_stopped_terminal():
    """A desk in a terminal that Ctrl-S stops and Ctrl-Q continues."""
    heard = Heard(udp())
    master, slave = pty.openpty()
    modes = termios.tcgetattr(slave)
    modes[3] &= ~termios.ECHO
    termios.tcsetattr(slave, termios.TCSANOW, modes)
    desk = start([SACN, "desk", show(4)], stdin=slave, stdout=slave, stderr=slave)
    read = Lines(os.fdopen(os.dup(master), encoding="utf-8", errors="replace"))
    os.write(master, b"go\n")
    # (a prompt may stand before it, which is cleared)
    want(read.until(lambda line: line.removeprefix("\x1b[K").startswith("ok"), 20) is not None, "an order is answered before it is stopped")
    os.write(master, b"\x13")
    begin = time.time()
    for _ in range(40):
        os.write(master, b"status\n")
        time.sleep(0.05)
    time.sleep(3)
    greatest = heard.gap(range(1, 5), begin, time.time())
    want(greatest < 1, f"greatest gap while it is stopped for 5 s: {greatest:.2f} s (under 1)")
    os.write(master, b"\x11")
    os.write(master, b"goto 999\n")
    answer = read.until(lambda line: "no cue 999" in line, 5)
    want(answer is not None, f"an order after it goes on is answered after {answer} s")
    end = time.time()
    os.write(master, b"\x04")
    heard.wants_ends(range(1, 5), end, 3)


def frames_that_nobody_reads():
    """A gateway whose standard output is a pipe that nobody reads, an interface beside it."""
    interface = Interface("widget")
    out, narrow_end = os.pipe()
    narrow(out)
    run = gateway(["--widget", f"1={interface.link}"], stdout=narrow_end)
    os.close(narrow_end)
    console = Console()
    console.fade(160)
    console.shown(10, interface.shown, "the interface")
    # (in another order than those that were dropped: the newest frame is told by its level)
    console.send(255)
    time.sleep(0.3)
    read = Lines(os.fdopen(out, encoding="utf-8", errors="replace"))
    newest = read.until(lambda line: first_level(line) == 255, 20)
    want(newest is not None, f"read at last, the newest frame comes after {newest} s")
    limit = time.time() + 15
    while time.time() < limit and not re.search("[0-9]+ lines? not written", text_of("said") + "".join(line for _, line in read.lines)):
        console.fade(1)
        time.sleep(0.05)
    told = re.findall("[0-9]+ lines? not written", text_of("said") + "".join(line for _, line in read.lines))
    want(told != [], f"what is told of lines that weren't written: {told[:3]}")
    want(all(len(line.split()) == 3 and len(line.split()[2]) == 1026 for _, line in read.lines if " not written" not in line), "each line is whole")
    want(run.poll() is None, "the gateway goes on")


def come_and_go(console, count):
    """A source that comes and ends so many times, in five seconds or so."""
    begin = time.monotonic()
    for n in range(count):
        console.send(1 + n % 200)
        console.send(0, options=0x40)
        time.sleep(max(0, begin + 5 * (n + 1) / count - time.monotonic()))


def source_lines_that_nobody_reads():
    """A gateway whose standard error nobody reads, beside a source that comes and ends again and again."""
    unread, narrow_end = os.pipe()
    narrow(unread)
    run = gateway(stdout=subprocess.PIPE, stderr=narrow_end)
    os.close(narrow_end)
    lines = Lines(os.fdopen(run.stdout.fileno(), encoding="utf-8", closefd=False))
    console = Console()
    come_and_go(console, 2000)
    # (by its end, so that the console's first packet is taken as a new source's)
    console.shown(10, lambda level, seconds: lines.until(lambda line: first_level(line) == level, seconds), "standard output")


def source_lines_are_few():
    """With standard error read: at most some ten lines of sources a second, and how many weren't written."""
    run = gateway(stdout=subprocess.DEVNULL, stderr=subprocess.PIPE)
    lines = Lines(os.fdopen(run.stderr.fileno(), encoding="utf-8", closefd=False))
    begin = time.monotonic()
    come_and_go(Console(), 2000)
    time.sleep(2)
    took = time.monotonic() - begin
    written = sum(1 for _, line in lines.lines if line.startswith('"'))
    told = [int(number) for _, line in lines.lines for number in re.findall("^([0-9]+) source lines? not written", line)]
    want(0 < written <= 10 * (took + 2), f"{written} lines of sources in {took:.1f} s (at most {10 * (took + 2):.0f})")
    want(sum(told) > 1000, f"lines of sources that weren't written, as told: {sum(told)}")


def stuck_interfaces(count):
    """Interfaces that nobody reads, raw and cooked in turn, each with other room left."""
    made = [Interface(f"stuck{n}", is_raw=n % 2 == 0, is_read=False) for n in range(count)]
    for n, one in enumerate(made):
        os.write(one.slave, b"x" * 67 * n)
    return made


def widgets(interfaces):
    return [word for n, one in enumerate(interfaces) for word in ("--widget", f"{n + 1}={one.link}")]


def interfaces_that_nobody_reads():
    """Interfaces that take nothing beside one that works."""
    works = Interface("works")
    gateway(widgets([*stuck_interfaces(12), works]), ports=13)
    console = Console()
    console.fade(80)
    console.shown(20, works.shown, "the interface that works")


def an_interface_comes_back():
    """An interface that is closed and opened again works again with the frame as it is by then, beside one that nobody reads."""
    interface = Interface("widget")
    gateway(widgets([interface, *stuck_interfaces(12)]), ports=13)
    console = Console()
    console.fade(80)
    interface.close()
    for level in (201, 202, 203):
        console.send(level)
        time.sleep(0.3)
    again = Interface("widget")
    begin = time.monotonic()
    limit = time.time() + 8
    first = None
    while first is None and time.time() < limit:
        console.send(203)
        try:
            first = again.levels.get(timeout=0.2)
        except queue.Empty:
            pass
    took = time.monotonic() - begin
    want(first == 203 and took < 4, f"its first frame has level {first} (203) after {took:.2f} s (under 4)")


def flooding(rate=None):
    """Sends what a gateway refuses, what it doesn't hear, and other sources than the desk, until it is killed: at full speed, or so many a second."""
    sock = socket.socket(socket.AF_INET, socket.SOCK_DGRAM)
    sock.connect(("127.0.0.1", PORT))
    # (fifteen other sources of the desk's universe whose numbers rise, all dark)
    noise = [packet(n // 16, 0, cid=bytes([100 + n % 16]) * 16) for n in range(1008) if n % 16]
    noise += [b"no packet at all", packet(0, 9)[:300]] * 20 + [packet(n, 9, universe=2 + n) for n in range(39)]
    send = sender(sock, [ctypes.create_string_buffer(text, len(text)) for text in (noise * 2)[:1024]])
    begin, count = time.monotonic(), 0
    while True:
        send()
        count += 1024
        if rate is not None:
            time.sleep(max(0, begin + count / rate - time.monotonic()))


def a_flood():
    """A flood beside a desk that changes a port: the desk sends 40 packets a second, of which a full buffer loses some."""
    run = gateway(stdout=subprocess.PIPE)
    lines = Lines(os.fdopen(run.stdout.fileno(), encoding="utf-8", closefd=False))
    desk = Desk([SACN, "desk", show(1)], stderr=subprocess.DEVNULL, text=True)
    desk.order("go\n", "^ok")
    # (they leave the processors to the gateway and the desk, as a flood from other machines does)
    floods = [start(["nice", "-n", "5", sys.executable, __file__, "flooding"]) for _ in range(5)]
    # (longer than anything may wait)
    time.sleep(3)
    delays = []
    for n in range(20):
        time.sleep(0.25)
        desk.run.stdin.write(f"set 2 {257 * (n + 1)}\n")
        desk.run.stdin.flush()
        slot_3 = lambda line: int(line.split()[2][6:8], 16) == n + 1 if len(line.split()) == 3 else False
        delays.append(lines.until(slot_3, 4))
        if delays[-1] is None:
            break
    for flood in floods:
        flood.kill()
    late = None in delays
    want(not late and max(delays) < 1, f"{len(delays)} changes, " + ("one isn't shown in 4 s" if late else f"the latest shown after {max(delays):.2f} s (under 1)"))
    tell("   it says:", sorted(set(re.findall("^(?:refused|discarded|dropped) [A-Za-z]+", text_of("said"), re.M))))


def a_stopped_watch():
    """A watch that is stopped for four seconds while a source sends on."""
    watch = start([SACN, "watch", "--plain", "--each", "--port", str(PORT)], stdin=subprocess.PIPE, stdout=open(f"{ROOM}/lines", "w", encoding="utf-8"), stderr=open(f"{ROOM}/said", "w", encoding="utf-8"))
    said("said", "hears")
    console = Console()
    console.fade(40)
    watch.send_signal(signal.SIGSTOP)
    begin = time.monotonic()
    console.fade(160)
    watch.send_signal(signal.SIGCONT)
    stood = time.monotonic() - begin
    console.fade(80)
    watch.stdin.close()
    watch.wait(timeout=20)
    told = text_of("lines") + text_of("said")
    lost = re.findall(".* is lost.*", told)
    want(" appears at 127.0.0.1" in told and not lost, f"it tells losses: {lost}")
    # (a machine that is busy may let it stand for a second or two besides)
    stops = [float(it) for it in re.findall(r"not heard for ([0-9.]+) s: this program was stopped", told)]
    want(len([it for it in stops if 3 <= it <= stood + 1]) == 1 and max(stops) <= stood + 1, f"it tells a stop of so many seconds: {stops}, and stood for {stood:.1f}")


def asked(path, is_whole=True):
    line = socket.create_connection(("127.0.0.1", PAGE), timeout=10)
    line.sendall(f"GET {path} HTTP/1.1\r\nHost: 127.0.0.1:{PAGE}\r\n".encode() + (b"\r\n" if is_whole else b""))
    return line


def answer_of(line):
    """The status that a request is answered with; what happened instead."""
    try:
        octets = line.recv(4096)
        return octets[9:12].decode() if octets[:9] == b"HTTP/1.1 " else f"{len(octets)} octets"
    except OSError as fault:
        return type(fault).__name__


def page():
    start([SACN, "watch", "--listen", "127.0.0.1", "--port", str(PORT), "--page", str(PAGE)], stdin=subprocess.PIPE, stdout=subprocess.DEVNULL, stderr=open(f"{ROOM}/said", "w", encoding="utf-8"))
    said("said", "page http")


def a_page_beyond_its_connections():
    """Many more viewers than there is room for: each of them is told so."""
    page()
    lines = [asked("/events") for _ in range(120)]
    answers = [answer_of(line) for line in lines]
    counts = {answer: answers.count(answer) for answer in set(answers)}
    want(counts.get("200", 0) >= 1 and set(counts) == {"200", "503"}, f"120 viewers are answered: {counts}")


def half_heads():
    """Two hundred clients that send half a request head each, and an honest viewer."""
    page()
    lines = [asked("/", is_whole=False) for _ in range(200)]
    time.sleep(0.3)
    begin, answer = time.monotonic(), None
    while answer != "200" and time.monotonic() - begin < 10:
        line = asked("/state")
        line.settimeout(1)
        answer = answer_of(line)
        line.close()
        time.sleep(0.05)
    took = time.monotonic() - begin
    want(answer == "200" and took < 3, f"beside {len(lines)} half heads a viewer is let in after {took:.2f} s (under 3): {answer}")


def a_killed_launcher():
    """The launcher of a desk is killed outright: the desk ends its universes."""
    heard = Heard(udp())
    script = write("launcher", f'. "{TOP}/tools/run.sh"\nrun "{SACN}" desk "{show(4)}"\n')
    launcher = start(["bash", script], stdin=subprocess.PIPE, stdout=subprocess.PIPE, stderr=subprocess.DEVNULL, start_new_session=True)
    launcher.stdin.write(b"go\n")
    launcher.stdin.flush()
    answer = launcher.stdout.readline()
    limit = time.time() + 20
    while 4 not in heard.came and time.time() < limit:
        time.sleep(0.02)
    # (behind its first seconds, in which an end of input comes later)
    time.sleep(3)
    begin = time.time()
    launcher.kill()
    launcher.wait()
    while time.time() < begin + 5 and not all(sum(1 for _, o in heard.came.get(u, []) if o & 0x40) == 3 for u in range(1, 5)):
        time.sleep(0.05)
    want(answer.startswith(b"ok cue 1 "), f"an order is answered: {answer}")
    heard.wants_ends(range(1, 5), begin, 5)
    try:
        os.killpg(launcher.pid, signal.SIGKILL)
    except OSError:
        pass


def main(name):
    if name == "flooding":
        flooding(*map(int, sys.argv[2:]))
    if "SPACE" in os.environ:
        subprocess.run(["ip", "link", "set", "lo", "up"], check=False)
    try:
        globals()[name]()
    except Exception as fault:  # (what a look didn't foresee is no good look)
        want(False, f"{type(fault).__name__}: {fault}")
    finish(0 if stage.is_well else 1)


if __name__ == "__main__":
    main(sys.argv[1])

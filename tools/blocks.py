#!/usr/bin/env python3
"""Measures how late light is beside what blocks, or is gone. The gate doesn't run it; tests/nothing_blocks.sh says what must be so.

usage: blocks.py [absent] [flood] [viewers] [unread]

absent    64 universes that fade, sent to 64 hosts of which 63 are absent: the latest packet after its moment, answers to orders, the end
flood     300,000 datagrams a second beside a desk of 40 packets a second: the greatest gap of its port
viewers   a page with 32 viewers at 1000 universes of 44 packets a second, for a minute: datagrams lost
unread    twelve interfaces that nobody reads beside one that works: its greatest delay

It takes the program crates/sacn/out/sacn, or the path in SACN. Each runs in a network namespace of its own (as root, or as a user who may make one).
"""
import ctypes
import os
import re
import select
import socket
import subprocess
import sys
import time

TOP = os.path.dirname(os.path.dirname(os.path.realpath(__file__)))
sys.path.insert(0, f"{TOP}/tests")
sys.dont_write_bytecode = True
import nothing_blocks
import stage
from stage import SACN, PORT


def line_of(name, *words):
    print(f"{name}:", *words, flush=True)


def spread(values, unit):
    values = sorted(values)
    if not values:
        return "none"
    at = lambda part: values[min(len(values) - 1, int(len(values) * part))]
    return f"median {at(0.5):.1f}, 99 of 100 {at(0.99):.1f}, most {values[-1]:.1f} {unit}"


def absent():
    universes, hosts = range(1, 65), [f"10.77.0.{100 + n}" for n in range(63)]
    other, inside = stage.second_space()
    heard = stage.Heard(stage.tap(other, "vb"), skip=42)
    # (what takes the datagrams: a socket that nobody reads would have its host say that it is full)
    stage.gateway(space=inside)
    to = [word for host in [*hosts, "10.77.0.2"] for word in ("--to", host)]
    desk = stage.Desk([SACN, "desk", stage.show(64), *to], stderr=subprocess.DEVNULL, text=True)
    begin = time.time()
    answers = [desk.order("go\n", "^ok", 40)]
    while time.time() - begin < 30 and None not in answers:
        time.sleep(0.2)
        answers.append(desk.order("status\n", "^cue 1 ", 40))
    end = time.time()
    desk.run.stdin.close()
    moments = [[moment for moment, _ in heard.came.get(u, []) if begin + 1 < moment < end] for u in universes]
    gaps = [1000 * (b - a) - 25 for ones in moments for a, b in zip(ones, ones[1:])]
    line_of("absent", "a packet after its moment:", spread(gaps, "ms"), f"({sum(map(len, moments))} packets in {end - begin - 1:.0f} s, 40 a second are {int(64 * 40 * (end - begin - 1))})")
    line_of("absent", "an order's answer:", spread([1000 * a for a in answers if a is not None], "ms"), f"of {len(answers)}" + (", the last not in 40 s" if None in answers else ""))
    try:
        desk.run.wait(timeout=60)
        line_of("absent", f"the end: {1000 * (time.time() - end):.0f} ms")
    except subprocess.TimeoutExpired:
        line_of("absent", "the end: not in 60 s")


def sent_so_far():
    """The datagrams that this namespace has sent."""
    with open("/proc/net/snmp", encoding="utf-8") as lines:
        names, values = [line.split() for line in lines if line.startswith("Udp:")]
    return int(values[names.index("OutDatagrams")])


def flood():
    run = stage.gateway(stdout=subprocess.PIPE)
    lines = stage.Lines(os.fdopen(run.stdout.fileno(), encoding="utf-8", closefd=False))
    desk = stage.Desk([SACN, "desk", stage.show(1)], stderr=subprocess.DEVNULL, text=True)
    desk.order("go\n", "^ok")
    time.sleep(2)
    before = len(lines.lines)
    floods = [stage.start([sys.executable, f"{TOP}/tests/nothing_blocks.py", "flooding", "150000"]) for _ in range(2)]
    sent, begin = sent_so_far(), time.monotonic()
    time.sleep(20)
    sent, took = sent_so_far() - sent, time.monotonic() - begin
    moments = [int(line.split()[1]) for _, line in lines.lines[before:]]
    for one in floods:
        one.kill()
    gaps = [b - a for a, b in zip(moments, moments[1:])]
    time.sleep(1.5)
    dropped = sum(int(line.split()[-1]) for line in stage.text_of_sockets().splitlines() if f":{PORT:04X} 00000000" in line)
    line_of("flood", f"{sent / took:.0f} datagrams a second, of which the machine dropped {100 * dropped / sent:.1f} of 100")
    line_of("flood", f"greatest gap of a port of 40 changes a second: {max(gaps, default=20000)} ms, {len(moments)} of {40 * took:.0f} changes shown")
    late = re.findall("^dropped Late ([0-9]+)", stage.text_of("said"), re.M)
    line_of("flood", f"dropped as late: {sum(map(int, late))}")


def send_many(seconds):
    """1000 universes of 44 packets a second; how many were sent, and in how many seconds."""
    sock = socket.socket(socket.AF_INET, socket.SOCK_DGRAM)
    sock.connect(("127.0.0.1", PORT))
    texts = [ctypes.create_string_buffer(octets, len(octets)) for octets in (stage.packet(0, 0, universe=u) for u in range(1, 1001))]
    # (fifty at a time, spread over the turn, as a network brings them: no receive buffer wants to hold a thousand)
    parts = [(texts[at:at + 50], stage.sender(sock, texts[at:at + 50])) for at in range(0, 1000, 50)]
    begin, sent = time.monotonic(), 0
    for step in range(seconds * 44 * 20):
        part, send = parts[step % 20]
        turn = step // 20
        for text in part:
            text[111], text[126] = bytes([turn % 256]), bytes([turn % 251])
        sent += send()
        time.sleep(max(0, begin + (step + 1) / 880 - time.monotonic()))
    return sent, time.monotonic() - begin


def viewers(seconds=60):
    nothing_blocks.page()
    # (16 universes at most are merged at once)
    lines = [nothing_blocks.asked(f"/events?universe={1 + n % 16}") for n in range(32)]
    reader = os.fork()
    if reader == 0:
        while True:
            for line in select.select(lines, [], [])[0]:
                line.recv(1 << 20)
    for line in lines:
        line.close()
    sent, took = send_many(seconds)
    time.sleep(2)
    # (no viewer more than 32 is answered, so one goes first)
    os.kill(reader, 9)
    os.waitpid(reader, 0)
    heard = None
    for _ in range(100):
        line, text = nothing_blocks.asked("/state"), b""
        line.settimeout(5)
        try:
            while octets := line.recv(1 << 20):
                text += octets
        except OSError:
            pass
        found = re.search(rb'"datagrams":([0-9]+)', text)
        if found:
            heard = int(found.group(1))
            break
        time.sleep(0.1)
    dropped = sum(int(line.split()[-1]) for line in stage.text_of_sockets().splitlines() if f":{PORT:04X} 00000000" in line)
    lost = sent - (heard or 0)
    line_of("viewers", f"{sent} datagrams in {took:.1f} s, lost {lost} ({100 * lost / sent:.4f} of 100), {dropped} of them dropped by the machine")


def unread():
    works = stage.Interface("works")
    stage.gateway(nothing_blocks.widgets([*nothing_blocks.stuck_interfaces(12), works]), ports=13)
    console = stage.Console()
    console.fade(80)
    delays = []
    for level in range(201, 251):
        time.sleep(0.1)
        console.send(level)
        delays.append(works.shown(level, 5))
        if delays[-1] is None:
            break
    stuck = "it stands still" if None in delays else spread([1000 * delay for delay in delays], "ms")
    line_of("unread", f"the interface that works, of {len(delays)} changes: {stuck}")


def main(words):
    jobs = {"absent": absent, "flood": flood, "viewers": viewers, "unread": unread}
    if "SPACE" in os.environ:
        subprocess.run(["ip", "link", "set", "lo", "up"], check=False)
        jobs[words[0]]()
        stage.finish(0)
    flags = ["-n"] if subprocess.run(["unshare", "-n", "true"], stderr=subprocess.DEVNULL, check=False).returncode == 0 else ["-Urn"]
    for name in words or jobs:
        print(name, "at a load of", "%.1f" % os.getloadavg()[0], flush=True)
        subprocess.run(["unshare", *flags, sys.executable, __file__, name], env={**os.environ, "SPACE": "1"}, check=False)


main(sys.argv[1:])

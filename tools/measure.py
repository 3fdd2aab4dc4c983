#!/usr/bin/env python3
"""Measures the built program on loopback, as a rig loads it. The gate doesn't run it.

usage: measure.py [moments] [fades N] [resting] [node] [gateway] [page] [instructions] [recording]

moments   how long after its moment a packet goes out: of a change that is ordered, and of each repeat 25 ms after a packet
fades N   1024 universes of 512 slots that all fade, sent to N destinations: each universe's greatest gap, and pages
resting   1024 universes of 27 slots of which the lower half rests and the upper half fades: packets a second of each
node      a node of 16 ports and 16 universes of 16 sources: processor time for each datagram
gateway   the same of a gateway
page      the same of a page that nobody looks at
instructions  of a gateway and of a page for each datagram of 16 universes of one source, by valgrind
recording a recording of 1,000,000 packets of 200 universes, explained, and one of a tenth of it: packets a second, most memory

It takes the program crates/sacn/out/sacn, or the path in SACN, and prints the machine's load before each.
"""
import os
import socket
import struct
import subprocess
import sys
import tempfile
import time

TOP = os.path.dirname(os.path.dirname(os.path.realpath(__file__)))
SACN = os.environ.get("SACN", f"{TOP}/crates/sacn/out/sacn")
ROOM = tempfile.mkdtemp()
FIRST_PORT = 26200
# Linux's number of it, of which Python has no name.
SO_TIMESTAMPNS = 35


def write(name, text):
    path = f"{ROOM}/{name}"
    with open(path, "w", encoding="utf-8") as out:
        out.write(text)
    return path


def show(universes, ports, cue, patch):
    head = 'version = 1\ncid = "00010203-0405-0607-0809-0a0b0c0d0e0f"\nname = "Desk"\n'
    text = [head, f"universes = {universes}\nsend_to = {ports}\n", cue]
    # (wide: the low octet of a level changes each 25 ms of a long fade)
    text += [f"[[patch]]\nchannel = {c}\nuniverse = {u}\nslot = {s}\nwide = true\n" for c, u, s in patch]
    return write("show.toml", "".join(text))


def heard_at(port):
    heard = socket.socket(socket.AF_INET, socket.SOCK_DGRAM)
    heard.setsockopt(socket.SOL_SOCKET, socket.SO_RCVBUF, 4194304)
    heard.bind(("127.0.0.1", port))
    heard.settimeout(0.5)
    return heard


def percentiles(values):
    values = sorted(values)
    at = lambda part: values[min(len(values) - 1, int(len(values) * part))]
    return f"median {at(0.5):.2f}, 95 of 100 {at(0.95):.2f}, most {values[-1]:.2f}"


def moments():
    port = FIRST_PORT
    path = show([1], [port], "", [(1, 1, 1)])
    ordered = [1000 + 137 * n for n in range(200)]
    script = write("script.txt", "".join(f"{m} set 1 {257 * (1 + n % 255)}\n" for n, m in enumerate(ordered)))
    heard = heard_at(port)
    run = subprocess.Popen([SACN, "desk", path, "--script", script], stdin=subprocess.PIPE, stdout=subprocess.DEVNULL)
    # (the machine's own note of when each came, so that this program's delays don't count)
    heard.setsockopt(socket.SOL_SOCKET, SO_TIMESTAMPNS, 1)
    came = []
    while run.poll() is None:
        try:
            octets, notes, _, _ = heard.recvmsg(2048, 64)
        except TimeoutError:
            continue
        seconds, nanoseconds = struct.unpack("qq", notes[0][2])
        came.append((seconds * 1000 + nanoseconds / 1e6, octets[126] if len(octets) > 126 else None, octets[43]))
    run.stdin.close()
    packets = [(moment, level) for moment, level, kind in came if kind == 2 and level is not None]
    first = {}
    for moment, level in packets:
        first.setdefault(level, moment)
    changes = [first[1 + n % 255] - m for n, m in enumerate(ordered) if 1 + n % 255 in first]
    start = min(changes)
    print("  a change after its moment, ms:", percentiles([c - start for c in changes]), "of", len(changes))
    repeats = [b[0] - a[0] - 25 for a, b in zip(packets, packets[1:]) if a[1] == b[1] and 15 < b[0] - a[0] < 40]
    print("  a repeat after its moment, ms:", percentiles(repeats), "of", len(repeats))


def count(port, seconds, pages_from):
    """What comes in a process of its own: for each universe the packets and the greatest gap, and how many pages."""
    heard = heard_at(port)
    into = bytearray(2048)
    last, gaps, counts, pages = {}, {}, {}, 0
    begin = None
    while True:
        try:
            size = heard.recv_into(into)
        except TimeoutError:
            if begin is not None:
                break
            continue
        now = time.monotonic()
        begin = begin or now
        if now - begin > seconds:
            break
        if size < 126 or into[21] == 8:
            pages += 1
            continue
        if now - begin < 2:
            continue
        universe = into[113] << 8 | into[114]
        if universe in last:
            gap = now - last[universe]
            if gap > gaps.get(universe, 0):
                gaps[universe] = gap
        last[universe] = now
        counts[universe] = counts.get(universe, 0) + 1
    return counts, gaps, pages, begin


def listen(port, seconds):
    """Counts in a child process; its answer is read from the pipe."""
    read, wrote = os.pipe()
    if os.fork() == 0:
        os.close(read)
        counts, gaps, pages, _ = count(port, seconds, 0)
        with os.fdopen(wrote, "w") as out:
            out.write(repr((counts, gaps, pages)))
        os._exit(0)
    os.close(wrote)
    return read


def answer_of(read):
    with os.fdopen(read) as text:
        return eval(text.read())  # written by this file alone


def fades(number, seconds=60):
    ports = [FIRST_PORT + 10 + n for n in range(number)]
    universes = list(range(1, 1025))
    cue = "[[cue]]\nnumber = 1\nfade = 900000\nlevels = [[1, 65535]]\n"
    path = show(universes, ports, cue, [(1, u, 511) for u in universes])
    reads = [listen(port, seconds) for port in ports[:2]]
    others = [heard_at(port) for port in ports[2:]]
    time.sleep(0.3)
    run = subprocess.Popen([SACN, "desk", path, "--to", f"127.0.0.1:{ports[0]}"] + [w for p in ports[1:] for w in ("--to", f"127.0.0.1:{p}")], stdin=subprocess.PIPE, stdout=subprocess.PIPE)
    run.stdin.write(b"go\n")
    run.stdin.flush()
    for read in reads:
        counts, gaps, pages = answer_of(read)
        total = sum(counts.values())
        print(f"  {total / (seconds - 2):.0f} a second, {len(counts)} universes, {min(counts.values()) / (seconds - 2):.1f} to {max(counts.values()) / (seconds - 2):.1f} each a second; greatest gap {max(gaps.values()) * 1000:.0f} ms; {pages} pages")
    run.kill()
    run.wait()
    for other in others:
        other.close()


def resting(seconds=20):
    port = FIRST_PORT + 30
    universes = list(range(1, 1025))
    cue = "[[cue]]\nnumber = 1\nfade = 900000\nlevels = [[1, 65535]]\n"
    patch = [(1 if u > 512 else 2, u, 26) for u in universes]
    path = show(universes, [port], cue, patch)
    read = listen(port, seconds)
    time.sleep(0.3)
    run = subprocess.Popen([SACN, "desk", path], stdin=subprocess.PIPE, stdout=subprocess.DEVNULL)
    run.stdin.write(b"go\n")
    run.stdin.flush()
    counts, gaps, pages = answer_of(read)
    run.kill()
    run.wait()
    for name, part in (("resting", range(1, 513)), ("fading", range(513, 1025))):
        rates = [counts.get(u, 0) / (seconds - 2) for u in part]
        print(f"  {name}: {min(rates):.1f} to {max(rates):.1f} a second; greatest gap {max(gaps.get(u, 9) for u in part) * 1000:.0f} ms")
    print(f"  {pages} pages")


def packet(universe, source, number, level):
    slots = bytes([0]) + bytes([level]) * 512
    dmp = (0x7000 + 10 + len(slots)).to_bytes(2, "big") + bytes([2, 0xa1, 0, 0, 0, 1]) + len(slots).to_bytes(2, "big") + slots
    framing = b"\0\0\0\2" + b"source".ljust(64, b"\0") + bytes([100, 0, 0, number, 0]) + universe.to_bytes(2, "big")
    framing = (0x7000 + 2 + len(framing) + len(dmp)).to_bytes(2, "big") + framing + dmp
    root = b"\0\0\0\4" + bytes([source]) * 16
    root = (0x7000 + 2 + len(root) + len(framing)).to_bytes(2, "big") + root + framing
    return b"\0\x10\0\0ASC-E1.17\0\0\0" + root


def setup(port):
    ports = "".join(f"[[port]]\nnumber = {n}\nuniverse = {n}\n" for n in range(1, 17))
    return write("node.toml", f"version = 1\nudp_port = {port}\n{ports}")


def send_rounds(port, rounds, fades, pace):
    """Sends a packet of each source on each universe again and again; answers how many, and how many the socket dropped."""
    out = socket.socket(socket.AF_INET, socket.SOCK_DGRAM)
    level = lambda s, n: 1 + (s + n) % 200 if fades else s
    packets = [[packet(u, s, n, level(s, n)) for u in range(1, 17) for s in range(1, 17)] for n in range(256)]
    begin = time.monotonic()
    for n in range(rounds):
        for octets in packets[n % 256]:
            out.sendto(octets, ("127.0.0.1", port))
        if pace:
            time.sleep(max(0, begin + (n + 1) / 44 - time.monotonic()))
    time.sleep(0.3)
    lines = [line.split() for line in open("/proc/net/udp", encoding="utf-8")]
    return rounds * 256, sum(int(line[-1]) for line in lines if line[1].endswith(f":{port:04X}"))


def run_of(words, port, rounds, fades, pace):
    """Processor seconds of a run, user and system, how many datagrams it took, and how many were dropped."""
    run = subprocess.Popen([SACN, *words], stdout=subprocess.DEVNULL, stderr=subprocess.DEVNULL)
    time.sleep(0.5)
    sent, dropped = send_rounds(port, rounds, fades, pace)
    _, _, usage = os.wait4(run.pid, 0)
    return usage.ru_utime, usage.ru_stime, sent - dropped, dropped


def load_of(words, port, pace, rounds, turns):
    idle = run_of(words, port, 0, False, pace)
    for name, fades in (("all frames stay", False), ("each packet is a change", True)):
        user, system, took, dropped = run_of(words, port, rounds, fades, pace)
        spent = [(now - before * max(0, turns - took) / max(1, turns)) / took * 1e6 for now, before in ((user, idle[0]), (system, idle[1]))]
        print(f"  {name}: {took} datagrams, {dropped} dropped; a datagram: user {spent[0]:.2f} us, system {spent[1]:.2f} us")


def node():
    # A node never waits: what its turns without a datagram take is taken off.
    turns, port = 20_000_000, FIRST_PORT + 41
    load_of(["node", setup(port), "--turns", str(turns)], port, False, 4000, turns)


def gateway_on(port):
    return ["gateway", setup(port), "--listen", "127.0.0.1", "--seconds", "20"]


def page_on(port):
    return ["watch", "--page", str(port + 1), "--listen", "127.0.0.1", "--port", str(port), "--seconds", "20"]


def gateway():
    load_of(gateway_on(FIRST_PORT + 42), FIRST_PORT + 42, True, 18 * 44, 0)


def page():
    load_of(page_on(FIRST_PORT + 44), FIRST_PORT + 44, True, 18 * 44, 0)


def instructions_of(words, port, rounds, first, fades):
    """How many instructions a run takes in which so many rounds of sixteen universes come, 250 datagrams a second."""
    counted = ["valgrind", "--tool=callgrind", "--callgrind-out-file=/dev/null", SACN, *words]
    run = subprocess.Popen(counted, stdout=subprocess.DEVNULL, stderr=subprocess.PIPE, text=True)
    out = socket.socket(socket.AF_INET, socket.SOCK_DGRAM)
    time.sleep(3)
    for n in range(rounds):
        for universe in range(first, first + 16):
            out.sendto(packet(universe, 1, n % 256, 1 + n % 200 if fades else 1), ("127.0.0.1", port))
            time.sleep(0.004)
    said = run.communicate()[1]
    return next(int(line.split()[-1]) for line in said.splitlines() if "Collected" in line)


def instructions():
    rounds = 200
    for name, words_on, port in (("gateway", gateway_on, FIRST_PORT + 46), ("page", page_on, FIRST_PORT + 48)):
        idle = instructions_of(words_on(port), port, 0, 1, False)
        for kind, first, fades in (("each packet is a change", 1, True), ("the same levels", 1, False), ("other universes", 101, False)):
            took = instructions_of(words_on(port), port, rounds, first, fades)
            print(f"  {name}, {kind}: {(took - idle) / (16 * rounds):.0f} instructions a datagram")


def recorded(path, count):
    """Writes a recording of so many packets of 200 universes, 512 slots each, of which every one is a change."""
    frames = {}
    for universe in range(1, 201):
        octets = packet(universe, 1, 0, 0)
        to = bytes([239, 255, universe >> 8, universe & 255])
        ip = struct.pack(">BBHHHBBH4s4s", 0x45, 0, 28 + len(octets), 0, 0, 16, 17, 0, bytes([10, 0, 0, 1]), to)
        frames[universe] = bytearray(bytes(12) + b"\x08\x00" + ip + struct.pack(">HHHH", 5568, 5568, 8 + len(octets), 0) + octets)
    with open(path, "wb", buffering=1 << 22) as out:
        out.write(struct.pack("<IHHiIII", 0xA1B2C3D4, 2, 4, 0, 0, 65535, 1))
        for n in range(count):
            frame, turn, micros = frames[n % 200 + 1], n // 200, 125 * n
            # (behind 42 octets of Ethernet, IP and UDP: the sequence number and the first slot)
            frame[42 + 111], frame[42 + 126] = turn % 256, turn % 251
            out.write(struct.pack("<IIII", micros // 1_000_000, micros % 1_000_000, len(frame), len(frame)))
            out.write(frame)


def resident(process):
    """The most memory that a process had so far, in kilobytes."""
    try:
        with open(f"/proc/{process}/status", encoding="utf-8") as lines:
            return next((int(line.split()[1]) for line in lines if line.startswith("VmHWM:")), 0)
    except OSError:
        return 0


def recording():
    path = f"{ROOM}/recording.pcap"
    for count in (100_000, 1_000_000):
        recorded(path, count)
        for _ in range(3):
            with open(f"{ROOM}/told", "w", encoding="utf-8") as told:
                begin, most = time.monotonic(), 0
                run = subprocess.Popen([SACN, "explain", path, "--json"], stdin=subprocess.DEVNULL, stdout=told)
                while run.poll() is None:
                    most = max(most, resident(run.pid))
                    time.sleep(0.005)
                took = time.monotonic() - begin
            with open(f"{ROOM}/told", encoding="utf-8") as told:
                is_whole = f'"datagrams":{count},"refused":0,' in told.read() and run.returncode == 0
            counted = "all counted" if is_whole else "NOT COUNTED"
            print(f"  {count} packets in {took:.2f} s: {count / took:.0f} a second, at most {most / 1024:.1f} MB, {counted}")
    os.remove(path)


def main(words):
    jobs = {"recording": recording, "moments": moments, "resting": resting, "node": node, "gateway": gateway, "page": page, "instructions": instructions}
    words = words or ["moments", "fades", "2", "fades", "8", "resting", "node", "gateway", "page", "instructions", "recording"]
    while words:
        name = words.pop(0)
        more = [int(words.pop(0))] if name == "fades" else []
        print(name, *more, "at a load of", "%.1f" % os.getloadavg()[0], flush=True)
        (fades if name == "fades" else jobs[name])(*more)


main(sys.argv[1:])

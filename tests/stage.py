"""What nothing_blocks.py, ola.py and tools/blocks.py stand on: programs, packets, sockets that note when something came, terminals that stand for interfaces, and namespaces."""
import ctypes
import fcntl
import os
import pty
import queue
import re
import shutil
import socket
import struct
import subprocess
import sys
import tempfile
import threading
import time
import tty

import e131

TOP = os.path.dirname(os.path.dirname(os.path.realpath(__file__)))
SACN = os.environ.get("SACN", f"{TOP}/crates/sacn/out/sacn")
ROOM = tempfile.mkdtemp()
CID = e131.CID
# The ports are those of a namespace of its own, or what nothing_blocks.sh found free.
DESK, PORT, PAGE = "10.77.0.1", int(os.environ.get("STAGE_UDP", 5568)), int(os.environ.get("STAGE_PAGE", 8080))
# Linux's numbers, of which Python has no names.
SO_TIMESTAMPNS, SO_RCVBUFFORCE, CLONE_NEWNET, F_SETPIPE_SZ = 35, 33, 0x40000000, 1031
LIBC = ctypes.CDLL(None, use_errno=True)
started = []
is_well = True


def tell(*words):
    print(*words, file=sys.stderr, flush=True)


def want(is_so, words):
    """Notes whether something is as it should be, with what was seen."""
    global is_well
    tell("  " if is_so else "  WRONG:", words)
    is_well = is_well and is_so


def start(words, **more):
    run = subprocess.Popen(words, **more)
    started.append(run)
    return run


def write(name, text):
    with open(f"{ROOM}/{name}", "w", encoding="utf-8") as out:
        out.write(text)
    return f"{ROOM}/{name}"


def setup(ports=1):
    """A gateway's setup: so many ports, each of universe 1."""
    return write("node.toml", f"version = 1\nudp_port = {PORT}\n" + "".join(f"[[port]]\nnumber = {n}\nuniverse = 1\n" for n in range(1, ports + 1)))


def show(universes):
    """A show whose cue fades for a minute on slots 1 and 2 of so many universes, so that a packet goes out each 25 ms; channel 2 is slot 3."""
    text = 'version = 1\ncid = "00010203-0405-0607-0809-0a0b0c0d0e0f"\nname = "Desk"\n'
    text += f"universes = {list(range(1, universes + 1))}\nsend_to = [{PORT}]\n[[cue]]\nnumber = 1\nfade = 60000\nlevels = [[1, 65535]]\n"
    for universe in range(1, universes + 1):
        text += f"[[patch]]\nchannel = 1\nuniverse = {universe}\nslot = 1\nwide = true\n[[patch]]\nchannel = 2\nuniverse = {universe}\nslot = 3\n"
    return write("show.toml", text)


def packet(number, level, universe=1, options=0, cid=CID):
    return e131.data(universe, number, bytes([level]) + bytes(511), cid, b"light", options=options)


class Heard(threading.Thread):
    """What comes at a socket, each with the machine's own note of when, so that this program's delays don't count."""

    def __init__(self, sock, skip=0):
        super().__init__(daemon=True)
        self.sock, self.skip, self.came = sock, skip, {}
        for option in (SO_RCVBUFFORCE, socket.SO_RCVBUF):
            try:
                sock.setsockopt(socket.SOL_SOCKET, option, 4194304)
                break
            except OSError:
                pass
        sock.setsockopt(socket.SOL_SOCKET, SO_TIMESTAMPNS, 1)
        self.start()

    def run(self):
        while True:
            octets, notes, _, _ = self.sock.recvmsg(160 + self.skip, 64)
            packet_heard = e131.read(octets[self.skip:])
            if packet_heard and notes:
                seconds, nanoseconds = struct.unpack("qq", notes[0][2])
                self.came.setdefault(packet_heard.universe, []).append((seconds + nanoseconds / 1e9, packet_heard.options))

    def gap(self, universes, begin, end):
        """The greatest time without a packet on one of the universes, between two moments."""
        # (what came by then is taken once something that came later is)
        limit, greatest = time.time() + 1, 0
        while time.time() < limit and not any(came[-1][0] > end for came in list(self.came.values())):
            time.sleep(0.01)
        for universe in universes:
            moments = [begin] + [moment for moment, _ in self.came.get(universe, []) if begin < moment < end] + [end]
            greatest = max(greatest, max(b - a for a, b in zip(moments, moments[1:])))
        return greatest

    def wants_ends(self, universes, begin, seconds):
        """Three terminations of each universe, the last no later than so many seconds after a moment."""
        limit = time.time() + 2
        ends = lambda u: [moment - begin for moment, options in self.came.get(u, []) if options & 0x40]
        while time.time() < limit and not all(len(ends(u)) >= 3 for u in universes):
            time.sleep(0.05)
        fewest = min(len(ends(u)) for u in universes)
        last = max((moment for u in universes for moment in ends(u)), default=0)
        want(fewest == 3 and last < seconds, f"terminations of each universe: {fewest}, the last after {last:.2f} s (under {seconds})")


def udp():
    sock = socket.socket(socket.AF_INET, socket.SOCK_DGRAM)
    sock.bind(("127.0.0.1", PORT))
    return sock


class Lines(threading.Thread):
    """The lines that come from a file, each with its moment."""

    def __init__(self, file):
        super().__init__(daemon=True)
        self.file, self.lines, self.new = file, [], queue.Queue()
        self.start()

    def run(self):
        for line in self.file:
            self.lines.append((time.monotonic(), line))
            self.new.put(line)

    def until(self, is_it, seconds):
        """Whether such a line comes in so many seconds, and after how many it did."""
        begin = time.monotonic()
        while time.monotonic() - begin < seconds:
            try:
                if is_it(self.new.get(timeout=max(0.001, begin + seconds - time.monotonic()))):
                    return time.monotonic() - begin
            except queue.Empty:
                pass
        return None


def said(name, pattern, seconds=20):
    """Waits until a file has such a text in its whole lines; whether it came."""
    limit = time.time() + seconds
    while time.time() < limit:
        with open(f"{ROOM}/{name}", encoding="utf-8", errors="replace") as text:
            # (the program writes what it says at its start in pieces)
            if re.search(pattern, text.read().rpartition("\n")[0], re.M):
                return True
        time.sleep(0.05)
    return False


def text_of(name):
    with open(f"{ROOM}/{name}", encoding="utf-8", errors="replace") as text:
        return text.read()


def first_level(line):
    """The first slot's level of a gateway's line."""
    words = line.split()
    return int(words[2][2:4], 16) if len(words) == 3 else None


def gateway(words=(), ports=1, space=(), **outputs):
    """A gateway, once it has said that it hears, or has had time to where nobody reads that."""
    out = outputs.get("stdout") or open(f"{ROOM}/lines", "w", encoding="utf-8")
    err = outputs.get("stderr") or open(f"{ROOM}/said", "w", encoding="utf-8")
    run = start([*space, SACN, "gateway", setup(ports), *words, "--seconds", "100"], stdin=subprocess.DEVNULL, stdout=out, stderr=err)
    if "stderr" in outputs:
        limit = time.time() + 20
        while time.time() < limit and f":{PORT:04X} " not in text_of_sockets():
            time.sleep(0.05)
    else:
        said("said", "hears")
    return run


def text_of_sockets():
    with open("/proc/net/udp", encoding="utf-8") as lines:
        return lines.read()


def narrow(file):
    """A pipe that holds a page, so that it is full soon."""
    fcntl.fcntl(file, F_SETPIPE_SZ, 4096)


class Console:
    """A console of this script's, on one universe."""

    def __init__(self):
        self.sock, self.number, self.level = socket.socket(socket.AF_INET, socket.SOCK_DGRAM), 0, 0

    def send(self, level, options=0):
        self.sock.sendto(packet(self.number, level, options=options), ("127.0.0.1", PORT))
        self.number += 1

    def fade(self, count, pause=0.025):
        for _ in range(count):
            self.level = self.level % 200 + 1
            self.send(self.level)
            time.sleep(pause)

    def shown(self, count, is_shown, name):
        """Makes so many changes, each of which is shown within a second."""
        delays = []
        # (levels that a fade doesn't have, so that what was shown before isn't taken for a change)
        for level in range(201, 201 + count):
            # (the pause keeps two changes from being one)
            time.sleep(0.06)
            self.send(level)
            delays.append(is_shown(level, 4))
            if delays[-1] is None:
                break
        late = None in delays
        want(not late and max(delays) < 1, f"{name}: {len(delays)} changes, " + ("one isn't shown in 4 s" if late else f"the latest after {max(delays):.3f} s"))


class Interface(threading.Thread):
    """A terminal of this script's that stands for an interface, and may be read: what it showed last."""

    def __init__(self, name, is_raw=True, is_read=True):
        super().__init__(daemon=True)
        self.link, self.is_raw, self.is_read = f"{ROOM}/{name}", is_raw, is_read
        self.levels = queue.Queue()
        self.open()
        if is_read:
            self.start()

    def open(self):
        self.master, self.slave = pty.openpty()
        if self.is_raw:
            tty.setraw(self.slave)
        if os.path.lexists(self.link):
            os.unlink(self.link)
        os.symlink(os.ttyname(self.slave), self.link)

    def close(self):
        os.unlink(self.link)
        os.close(self.slave)
        os.close(self.master)

    def run(self):
        data = b""
        while True:
            try:
                data += os.read(self.master, 4096)
            except OSError:
                return
            while len(data) >= 518:
                if data[:5] != b"\x7e\x06\x01\x02\0" or data[517] != 0xE7:
                    tell("  WRONG: no packet:", data[:8])
                    os._exit(1)
                self.levels.put(data[5])
                data = data[518:]

    def shown(self, level, seconds):
        begin = time.monotonic()
        while time.monotonic() - begin < seconds:
            try:
                if self.levels.get(timeout=0.05) == level:
                    return time.monotonic() - begin
            except queue.Empty:
                pass
        return None


class Desk:
    """A desk, its answers read, or not."""

    def __init__(self, words, is_read=True, **more):
        self.run = start(words, stdin=subprocess.PIPE, stdout=subprocess.PIPE, **more)
        self.answers = Lines(self.run.stdout) if is_read else None

    def order(self, text, pattern, seconds=5):
        """How long an answer took; None where it doesn't come."""
        self.run.stdin.write(text)
        self.run.stdin.flush()
        return self.answers.until(lambda line: re.search(pattern, line), seconds)


def second_space():
    """Another network namespace behind a cable: this one is 10.77.0.1, that one 10.77.0.2, and nobody else is on the subnet."""
    if "SPACE" not in os.environ:
        finish(77)
    other = start(["unshare", "-n", "sleep", "1000"])
    mine = os.readlink("/proc/self/ns/net")
    for _ in range(400):
        if os.readlink(f"/proc/{other.pid}/ns/net") != mine:
            break
        time.sleep(0.05)
    inside = ["nsenter", "-t", str(other.pid), "-n"]
    try:
        subprocess.run(["ip", "link", "add", "va", "type", "veth", "peer", "name", "vb", "netns", str(other.pid)], check=True, stderr=subprocess.DEVNULL)
        for space, device, address in (([], "va", DESK), (inside, "vb", "10.77.0.2")):
            subprocess.run([*space, "ip", "address", "add", f"{address}/24", "dev", device], check=True)
            subprocess.run([*space, "ip", "link", "set", device, "up"], check=True)
    except (OSError, subprocess.CalledProcessError):
        finish(77)
    return other.pid, inside


def tap(process, device):
    """What comes in at a device of another process's namespace, as the machine sees it."""
    here, there = os.open("/proc/self/ns/net", os.O_RDONLY), os.open(f"/proc/{process}/ns/net", os.O_RDONLY)
    LIBC.setns(there, CLONE_NEWNET)
    sock = socket.socket(socket.AF_PACKET, socket.SOCK_RAW, socket.htons(0x0800))
    sock.bind((device, 0x0800))
    LIBC.setns(here, CLONE_NEWNET)
    return sock


def sender(sock, texts):
    """Sends at most 1024 buffers in one call of the machine."""

    class Vector(ctypes.Structure):
        _fields_ = [("base", ctypes.c_void_p), ("length", ctypes.c_size_t)]

    class Head(ctypes.Structure):
        _fields_ = [("name", ctypes.c_void_p), ("name_length", ctypes.c_uint), ("vectors", ctypes.POINTER(Vector)), ("count", ctypes.c_size_t),
                    ("control", ctypes.c_void_p), ("control_length", ctypes.c_size_t), ("flags", ctypes.c_int)]

    class Message(ctypes.Structure):
        _fields_ = [("head", Head), ("sent", ctypes.c_uint)]

    vectors = (Vector * len(texts))(*[Vector(ctypes.addressof(text), len(text)) for text in texts])
    messages = (Message * len(texts))()
    for n, message in enumerate(messages):
        message.head.vectors, message.head.count = ctypes.pointer(vectors[n]), 1
    return lambda: LIBC.sendmmsg(sock.fileno(), messages, len(texts), 0)


def finish(status):
    for run in started:
        if run.poll() is None:
            run.kill()
            run.wait()
    shutil.rmtree(ROOM, ignore_errors=True)
    sys.stderr.flush()
    os._exit(status)

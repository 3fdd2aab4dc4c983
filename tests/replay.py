"""Recordings for replay.sh, and what hears them. All values are E1.31's and the recording's own.

replay.py make              writes the recordings, and what of them is to be heard: a line of digits for each datagram, in files of that name
replay.py hear FILE WORD..  notes each datagram in a line of a file: the milliseconds of the machine's clock, the port, and its octets. A word is a port of 127.0.0.1, or
                            GROUP:PORT; it prints `hears` once it does.
replay.py packets FILE      the data packets of such a file, a line each: universe, number, `ends` of a terminated one, else `sends`, priority, the CID's last octet, name, and the
                            levels of slots 1 to 3; of a page `page`, the CID's last octet, and its universes
replay.py runs FILE         whether the packets of each universe have numbers that follow one another behind the first, and end with three terminated ones
"""

import selectors
import socket
import struct
import sys
import time

import e131

LEVELS = [(0, 1, 5), (100, 2, 9), (600, 1, 6), (1000, 1, 7)]
PAGE = e131.page([1, 2])
SYNCHRONIZATION = e131.synchronization(address=7)
JUNK = b"no packet"


def level(universe, value):
    return e131.data(universe, value, [value] * 512)


def evening(path, start=1000):
    """A second with each kind of datagram, and one to another port. Returns what is played, each with its moment."""
    played = [(moment, level(universe, value)) for moment, universe, value in LEVELS] + [(200, PAGE), (300, SYNCHRONIZATION), (400, JUNK)]
    played.sort(key=lambda it: it[0])
    recording = e131.Recording(path, start)
    for moment, octets in played:
        recording.sent(moment, 3, octets)
        if moment == 400:
            recording.sent(500, 3, level(1, 99), port=5569)
    recording.close()
    return played


def simple(path, datagrams):
    """A pcapng of simple packets, which have no moments."""

    def block(kind, body):
        body += bytes(-len(body) % 4)
        return struct.pack("<II", kind, len(body) + 12) + body + struct.pack("<I", len(body) + 12)

    with open(path, "wb") as file:
        file.write(block(0x0A0D0D0A, struct.pack("<IHHq", 0x1A2B3C4D, 1, 0, -1)))
        file.write(block(1, struct.pack("<HHI", 1, 0, 0)))
        for octets in datagrams:
            frame = e131.carried(3, octets)
            file.write(block(3, struct.pack("<I", len(frame)) + frame))


def write_lines(path, lines):
    with open(path, "w", encoding="ascii") as text:
        text.writelines(f"{line}\n" for line in lines)


def make():
    played = evening("evening.pcap")
    write_lines("evening", [octets.hex() for _, octets in played])
    write_lines("moments", [moment for moment, _ in played])
    write_lines("one", [octets.hex() for _, octets in played if octets not in (level(2, 9),)])
    # (universe 1 under the number 7: another packet of the same levels)
    moved = {level(1, value): e131.data(7, value, [value] * 512) for _, universe, value in LEVELS if universe == 1}
    write_lines("moved", [moved.get(octets, octets).hex() for _, octets in played])
    write_lines("between", [octets.hex() for moment, octets in played if 200 <= moment <= 600])
    write_lines("other", [level(1, 99).hex()])
    # Ten minutes, ten packets a second: slots 1 and 2 tell which one it is. It begins at 20:13 in UTC.
    recording = e131.Recording("long.pcap", 20 * 3600 + 13 * 60)
    for place in range(6000):
        recording.sent(100 * place, 3, e131.data(1, place, [place >> 8, place & 255]))
    recording.close()
    # Two packets with fifty minutes between them.
    recording = e131.Recording("far.pcap")
    recording.sent(0, 3, level(1, 1))
    recording.sent(3_000_000, 3, level(1, 2))
    recording.close()
    write_lines("far", [level(1, value).hex() for value in (1, 2)])
    e131.Recording("empty.pcap").close()
    simple("simple.pcapng", [level(1, value) for value in (1, 2)])
    # Frames of one port, a fifth of a second apart, for a node: two sources, the second at a higher priority, which ends.
    recording = e131.Recording("rig.pcap")
    other = bytes(range(16, 32))
    for place in range(6):
        recording.sent(200 * place, 3, e131.data(1, place, [10 + place] * 3))
    for place in range(3):
        recording.sent(1300 + 200 * place, 4, e131.data(1, place, [200, 0, place], cid=other, name=b"Other", priority=150))
    for place in range(3, 6):
        recording.sent(1900 + 30 * (place - 3), 4, e131.data(1, place, [0, 0, 0], cid=other, name=b"Other", priority=150, options=e131.TERMINATED))
    for place in range(6, 9):
        recording.sent(2100 + 200 * (place - 6), 3, e131.data(1, place, [20 + place] * 3))
    recording.close()
    # Two sources of one priority on universe 1, whose slots are merged by the highest: 50, 200, 30 and from a second on 50, 100, 30. One of them alone on 2, and on 9.
    recording = e131.Recording("pair.pcap")
    for place in range(9):
        recording.sent(200 * place, 3, e131.data(1, place, [10, 200 if place < 5 else 20, 0]))
        recording.sent(200 * place, 4, e131.data(1, place, [50, 100, 30], cid=other, name=b"Other"))
        recording.sent(200 * place, 3, e131.data(2, place, [7, 8, 9]))
        recording.sent(200 * place, 3, e131.data(9, place, [99, 98, 97]))
    recording.sent(1600, 3, PAGE)
    recording.close()
    # Universe 1 is sent once, at the beginning, and universe 2 for half a minute.
    recording = e131.Recording("gone.pcap")
    recording.sent(0, 3, e131.data(1, 0, [77, 88, 99]))
    for place in range(60):
        recording.sent(500 * place, 3, e131.data(2, place, [7, 8, 9]))
    recording.close()


def socket_of(word):
    group, _, port = word.rpartition(":")
    heard = socket.socket(socket.AF_INET, socket.SOCK_DGRAM)
    heard.setsockopt(socket.SOL_SOCKET, socket.SO_RCVBUF, 1 << 22)
    if group:
        heard.setsockopt(socket.SOL_SOCKET, socket.SO_REUSEADDR, 1)
        heard.bind((group, int(port)))
        heard.setsockopt(socket.IPPROTO_IP, socket.IP_ADD_MEMBERSHIP, socket.inet_aton(group) + socket.inet_aton("127.0.0.1"))
    else:
        heard.bind(("127.0.0.1", int(port)))
    return heard


def hear(path, words):
    looked = selectors.DefaultSelector()
    for word in words:
        looked.register(socket_of(word), selectors.EVENT_READ, word)
    with open(path, "w", encoding="ascii") as text:
        print("hears", flush=True)
        while True:
            for key, _ in looked.select():
                octets = key.fileobj.recv(4096)
                text.write(f"{time.monotonic_ns() // 1_000_000} {key.data} {octets.hex()}\n")
                text.flush()


def heard_in(path):
    with open(path, encoding="ascii") as text:
        return [bytes.fromhex(line.split()[2]) for line in text]


def packets(path):
    for octets in heard_in(path):
        packet = e131.read(octets)
        if packet:
            ends = "ends" if packet.options & e131.TERMINATED else "sends"
            print(packet.universe, packet.number, ends, packet.priority, packet.cid[15], packet.name.decode(), *packet.slots[:3])
        else:
            print("page", octets[37], *struct.unpack(f">{len(octets[120:]) // 2}H", octets[120:]))


def runs(path):
    found = {}
    for packet in filter(None, map(e131.read, heard_in(path))):
        found.setdefault(packet.universe, []).append(packet)
    for universe, sent in found.items():
        numbers = [packet.number for packet in sent]
        # (a copy goes before the first one, with a number less by 20)
        if numbers[0] != (numbers[1] - 20) % 256 or any((number + 1) % 256 != behind for number, behind in zip(numbers[1:], numbers[2:])):
            sys.exit(f"universe {universe} has the numbers {numbers}")
        ended = [bool(packet.options & e131.TERMINATED) for packet in sent]
        if ended[-3:] != [True] * 3 or any(ended[:-3]):
            sys.exit(f"universe {universe} ends {ended}")
    print(*sorted(found))


if sys.argv[1] == "make":
    make()
elif sys.argv[1] == "hear":
    hear(sys.argv[2], sys.argv[3:])
elif sys.argv[1] == "packets":
    packets(sys.argv[2])
else:
    runs(sys.argv[2])

"""Packets, and recordings of them, for what bench/counts runs: written octet by octet, as E1.31 (5 to 8) and pcap lay them out."""
import struct

SLOTS = 512
UDP_PORT = 5568


def data(source, universe, number, slots):
    """A data packet of priority 100 of the source whose CID is this octet sixteen times."""
    dmp = struct.pack(">HBBHHHB", 0x7000 | 11 + len(slots), 2, 0xA1, 0, 1, 1 + len(slots), 0) + slots
    head = struct.pack(">I64sBHBBH", 2, b"Desk %d" % source, 100, 0, number % 256, 0, universe)
    framing = struct.pack(">H", 0x7000 | 2 + len(head) + len(dmp)) + head + dmp
    return b"\0\x10\0\0ASC-E1.17\0\0\0" + struct.pack(">HI", 0x7000 | 22 + len(framing), 4) + bytes([source]) * 16 + framing


def levels(source, universe, turn):
    """Levels of which some are another at each turn."""
    return bytes((source * 31 + universe * 7 + slot * 3 + (turn if slot % 5 == 0 else 0)) % 256 for slot in range(SLOTS))


def record(moment, source, payload):
    """A packet of a recording: at a moment in milliseconds, sent by a host of its own."""
    udp = struct.pack(">HHHH", 5000, UDP_PORT, 8 + len(payload), 0) + payload
    address = bytes([10, 0, 0, source, 239, 255, 0, 1])
    frame = bytes(12) + b"\x08\0" + struct.pack(">BBHHHBBH", 0x45, 0, 20 + len(udp), 0, 0, 64, 17, 0) + address + udp
    return struct.pack("<IIII", moment // 1000, moment % 1000 * 1000, len(frame), len(frame)) + frame


def turns(sources, universes, count):
    """The packets of so many turns, in each of which every source sends on every universe: turn, source and packet."""
    for turn in range(count):
        for universe in range(1, universes + 1):
            for source in range(1, sources + 1):
                yield turn, source, data(source, universe, turn, levels(source, universe, turn))


def recording(sources, universes, count):
    """A recording in which all send forty times a second."""
    return struct.pack("<IHHIIII", 0xA1B2C3D4, 2, 4, 0, 0, 65535, 1) + b"".join(record(turn * 25, source, packet) for turn, source, packet in turns(sources, universes, count))

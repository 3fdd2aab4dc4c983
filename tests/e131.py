"""What the looks share in Python: packets of E1.31, made and read; recordings (pcap); and ports that nothing has."""

import atexit
import collections
import os
import random
import socket
import struct
import tempfile

CID = bytes(range(16))
PREVIEW, TERMINATED = 0x80, 0x40


def layer(octets):
    """What a layer is behind its flags and its length."""
    return struct.pack(">H", 0x7000 | 2 + len(octets)) + octets


def root(vector, cid, octets):
    """A datagram: the root layer (E1.31, 5) around the next one."""
    return b"\0\x10\0\0ASC-E1.17\0\0\0" + layer(struct.pack(">I", vector) + cid + octets)


def data(universe, number, slots=b"", cid=CID, name=b"Desk", priority=100, options=0, start=0):
    """A data packet (6.2 and 7); the slots stand behind the start code."""
    dmp = layer(struct.pack(">BBHHHB", 2, 0xA1, 0, 1, 1 + len(slots), start) + bytes(slots))
    return root(4, cid, layer(struct.pack(">I64sBHBBH", 2, name, priority, 0, number % 256, options, universe) + dmp))


def page(universes, number=0, last=0, cid=CID, name=b"Desk"):
    """A page of universe discovery (6.4 and 8)."""
    listed = layer(struct.pack(">IBB", 1, number, last) + b"".join(struct.pack(">H", it) for it in universes))
    return root(8, cid, layer(struct.pack(">I64sI", 2, name, 0) + listed))


def synchronization(cid=CID, number=0, address=0):
    """A synchronization packet (6.3)."""
    return root(8, cid, layer(struct.pack(">IBHH", 1, number, address, 0)))


Packet = collections.namedtuple("Packet", "cid name priority number options universe start slots")


def read(octets):
    """The data packet that a datagram is; None where it is none. Where it was cut, its slots are those that are there."""
    if octets[4:16] != b"ASC-E1.17\0\0\0" or octets[18:22] != b"\0\0\0\4" or octets[40:44] != b"\0\0\0\2" or len(octets) < 126:
        return None
    priority, _, number, options, universe = struct.unpack(">BHBBH", octets[108:115])
    return Packet(octets[22:38], octets[44:108].rstrip(b"\0"), priority, number, options, universe, octets[125], octets[126:])


def group(universe):
    """The address of a universe's group (9.3.1)."""
    return bytes([239, 255, universe >> 8, universe & 255])


def carried(host, payload, port=5568, fragment=0, to=group(1), from_port=5000):
    """A frame of Ethernet with a datagram of 10.0.0.x, from a port of its own to an address and a port."""
    udp = struct.pack(">HHHH", from_port, port, 8 + len(payload), 0) + payload
    ip = struct.pack(">BBHHHBBH", 0x45, 0, 20 + len(udp), 0, fragment, 64, 17, 0) + bytes([10, 0, 0, host]) + to
    return bytes(12) + b"\x08\0" + ip + udp


class Recording:
    """A recording (pcap of Ethernet) from 10.0.0.x; moments are milliseconds from its start, which is so many seconds after 1970."""

    def __init__(self, path, start=1000):
        self.start = start
        self.file = open(path, "wb")
        self.file.write(struct.pack("<IHHIIII", 0xA1B2C3D4, 2, 4, 0, 0, 65535, 1))

    def frame(self, moment, octets, kept=None):
        """A frame, of which so many octets were kept."""
        octets_kept = octets[:kept]
        self.file.write(struct.pack("<IIII", self.start + moment // 1000, moment % 1000 * 1000, len(octets_kept), len(octets)) + octets_kept)

    def sent(self, moment, host, payload, port=5568, kept=None, fragment=0, to=group(1), from_port=5000):
        """A datagram of this host from a port of its own, to an address and a port."""
        self.frame(moment, carried(host, payload, port, fragment, to, from_port), kept)

    def close(self):
        self.file.close()


def free_port(kind):
    """A port that nothing has, as free_port of lib.sh finds it, with a claim until this program ends."""
    while True:
        port = random.randrange(20000, 32000)
        claim = f"{tempfile.gettempdir()}/sacn-port-{port}"
        # (the claim comes first: a port that another one claimed isn't bound here, not even for a moment)
        try:
            os.mkdir(claim)
        except OSError:
            continue
        atexit.register(os.rmdir, claim)
        with socket.socket(socket.AF_INET, kind) as it:
            try:
                it.bind(("", port))
            except OSError:
                continue
        return port


def free_udp_port():
    return free_port(socket.SOCK_DGRAM)


def free_tcp_port():
    return free_port(socket.SOCK_STREAM)

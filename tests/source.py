"""Compares a source of the C library with a model of it over random lists of calls, for tests/source.sh.

usage: source.py LIBRARY COUNT [SEED]     a line 'ok WHAT' or 'not ok WHAT: why'

The model is written from E1.31-2018 and include/sacn.h alone. Each call's status, each octet and number that it writes, the first moment at which something
is due behind each poll, and at the end what is told of the universes are compared.
"""

import ctypes
import os
import random
import struct
import sys
from multiprocessing import Pool

DONE, NAME = 0, 1007
BAD_UNIVERSE, NO_UNIVERSE, RUNNING, ENDING, STOPPED, FULL, TOO_MANY, BAD_PRIORITY = range(2, 10)
GAP, KEEP_ALIVE, CYCLE = 25, 900, 10_000
REPEATS, TERMINATIONS = 3, 3
LAST_MOMENT = 2**64 - 1
STATES = {"running": 1, "ending": 2, "stopped": 3}
MAX_DATAGRAM, PAGE_UNIVERSES, MOST_UNIVERSES = 1144, 512, 1024


class Universe:
    """One universe: `owed` is how many packets it is to send at once (repeats, or terminations), None before its first one."""

    def __init__(self, number, priority):
        self.levels, self.priority, self.number = bytes(512), priority, number
        self.state, self.owed, self.shown, self.latest = "running", None, b"", None

    def wait(self):
        """How long its next packet waits behind the latest: the rate of 6.6.1 for what is new, and else until it keeps alive (6.6.2)."""
        is_pressing = self.state == "ending" or self.owed != 0 or self.levels != self.shown
        return GAP if is_pressing else KEEP_ALIVE

    def is_due(self, now):
        return self.state != "stopped" and (self.latest is None or now - self.latest >= self.wait())

    def due_from(self):
        """The first moment at which a packet is due."""
        if self.state == "stopped":
            return LAST_MOMENT
        return 0 if self.latest is None else min(self.latest + self.wait(), LAST_MOMENT)

    def note(self, now):
        """Its packet goes out."""
        if self.state == "ending":
            self.owed -= 1
            if self.owed == 0:
                self.state = "stopped"
        elif self.owed is None or self.levels != self.shown:
            self.owed = REPEATS
        elif self.owed:
            self.owed -= 1
        self.shown, self.latest, self.number = self.levels, now, (self.number + 1) % 256


class Model:
    def __init__(self, cid, name, priority, room, first):
        self.cid, self.name, self.priority, self.first = cid, name.ljust(64, b"\0"), priority, first
        self.room, self.universes, self.now = min(room, MOST_UNIVERSES), {}, 0
        self.begun, self.pages = None, []

    def add(self, universe):
        if not 1 <= universe <= 63999:
            return BAD_UNIVERSE
        known = self.universes.get(universe)
        if known is None:
            if len(self.universes) >= self.room:
                return FULL
            self.universes[universe] = Universe(self.first, self.priority)
            return DONE
        if known.state != "stopped":
            return RUNNING if known.state == "running" else ENDING
        known.state, known.owed = "running", None
        return DONE

    def levels(self, universe, slots):
        if universe not in self.universes:
            return NO_UNIVERSE
        if len(slots) > 512:
            return TOO_MANY
        self.universes[universe].levels = slots.ljust(512, b"\0")
        return DONE

    def set_priority(self, universe, priority):
        known = self.universes.get(universe)
        if known is None:
            return NO_UNIVERSE
        if priority > 200:
            return BAD_PRIORITY
        if known.priority != priority:
            known.priority = priority
            if known.state == "running":
                known.owed = None
        return DONE

    def end(self, universe):
        known = self.universes.get(universe)
        if known is None:
            return NO_UNIVERSE
        if known.state != "running":
            return ENDING if known.state == "ending" else STOPPED
        known.state, known.owed = "ending", TERMINATIONS
        return DONE

    def end_all(self):
        for universe in self.universes:
            self.end(universe)
        return DONE

    def poll(self, now):
        """The octets that are due and their universe, 0 of a page; none and 0 where nothing is due."""
        self.now = max(self.now, now)
        due = min((it for it, known in self.universes.items() if known.is_due(self.now)), default=None)
        if due is not None:
            known = self.universes[due]
            octets = self.data(due, known)
            known.note(self.now)
            return octets, due
        if not self.pages and (self.begun is None or self.now - self.begun >= CYCLE):
            self.begun, self.pages = self.now, self.cycle()
        return (self.pages.pop(0), 0) if self.pages else (b"", 0)

    def wakes(self):
        known = self.universes.values()
        if self.pages or self.begun is None or self.now - self.begun >= CYCLE or any(it.is_due(self.now) for it in known):
            return 0
        return min(self.begun + CYCLE, LAST_MOMENT, *(it.due_from() for it in known))

    def told(self):
        """Each universe by rising number: the moment of its latest packet, its state and the number of its next packet."""
        return [
            (LAST_MOMENT if known.latest is None else known.latest, universe, STATES[known.state], known.number)
            for universe, known in sorted(self.universes.items())
        ]

    # E1.31, tables 4-1 to 4-3 and 8-9: each layer's length is that from its own first octet on.
    def data(self, universe, known):
        options = 0x40 if known.state == "ending" else 0
        dmp = struct.pack(">HBBHHHB", 0x7000 | 523, 2, 0xA1, 0, 1, 513, 0) + known.levels
        framing = struct.pack(">HI64sBHBBH", 0x7000 | 600, 2, self.name, known.priority, 0, known.number, options, universe)
        return self.root(4, framing + dmp)

    def cycle(self):
        listed = sorted(it for it, known in self.universes.items() if known.state != "stopped")
        lists = [listed[at : at + PAGE_UNIVERSES] for at in range(0, len(listed), PAGE_UNIVERSES)] or [[]]
        return [self.page(it, place, len(lists) - 1) for place, it in enumerate(lists)]

    def page(self, universes, place, last):
        layer = struct.pack(f">HIBB{len(universes)}H", 0x7000 | 8 + 2 * len(universes), 1, place, last, *universes)
        return self.root(8, struct.pack(">HI64sI", 0x7000 | 74 + len(layer), 2, self.name, 0) + layer)

    def root(self, vector, layer):
        return struct.pack(">HH12sHI16s", 16, 0, b"ASC-E1.17", 0x7000 | 22 + len(layer), vector, self.cid) + layer


class Handle(ctypes.Structure):
    _fields_ = [("behind", ctypes.c_void_p)]


class Told(ctypes.Structure):
    _fields_ = [
        ("latest", ctypes.c_uint64), ("universe", ctypes.c_uint16), ("state", ctypes.c_uint8), ("number", ctypes.c_uint8), ("unused", ctypes.c_uint32)
    ]


class Library:
    """The library's calls of one source."""

    def __init__(self, path):
        loaded = ctypes.PyDLL(path)
        u8, u16, u64, size, text, handle = (
            ctypes.c_uint8, ctypes.c_uint16, ctypes.c_uint64, ctypes.c_size_t, ctypes.c_char_p, ctypes.POINTER(Handle)
        )
        for name, arguments in {
            "new": (text, text, size, u8, size, u8), "free": (), "add": (u16,), "levels": (u16, text, size), "priority": (u16, u8), "end": (u16,),
            "end_all": (), "poll": (u64, ctypes.c_void_p, ctypes.POINTER(size), ctypes.POINTER(u16)), "wakes": (ctypes.POINTER(u64),),
            "universe": (size, ctypes.POINTER(Told)),
        }.items():
            call = getattr(loaded, f"sacn_source_{name}")
            call.argtypes, call.restype = (handle, *arguments), ctypes.c_int
            setattr(self, name, call)


NUMBERS = (1, 2, 3, 7, 255, 256, 300, 63998, 63999)
STEPS = (0, 0, 1, 24, 25, 25, 25, 26, 50, 100, 899, 900, 901, 5000, 9999, 10_000, -30)


class Comparison:
    def __init__(self, library, chance):
        self.library, self.chance, self.handle = library, chance, Handle()
        self.out = ctypes.create_string_buffer(chance.randbytes(MAX_DATAGRAM), MAX_DATAGRAM)
        self.count, self.universe, self.moment = ctypes.c_size_t(77), ctypes.c_uint16(77), ctypes.c_uint64(77)
        self.asked = []
        self.now = chance.choice((0, 0, 5, 10**6, 2**63, LAST_MOMENT - 1000))

    def same(self, found, wanted, *asked):
        self.asked.append(asked)
        if found != wanted:
            calls = "; ".join(f"{name}({', '.join(repr(it)[:40] for it in words)})" for name, *words in self.asked[-6:])
            raise AssertionError(f"{str(found)[:90]}, and {str(wanted)[:90]} is wanted, behind {len(self.asked)} calls, last {calls}")

    def made(self, is_many):
        chance = self.chance
        cid, first, priority, room = chance.randbytes(16), chance.randrange(256), chance.choice((0, 100, 200)), 2000
        name = chance.choice((b"", b"Desk", "Bühne 1".encode(), b"x" * 63))
        if not is_many:
            room = chance.choice((0, 1, 2, 3, 5, 5, 9, 2000))
            if chance.random() < 0.1:
                name = chance.choice((b"x" * 64, b"\xff", b"a\0b", b"\xc3", b"\xed\xa0\x80", "ü".encode() * 32))
            if chance.random() < 0.1:
                priority = chance.choice((201, 255))
        status = self.library.new(self.handle, cid, name, len(name), priority, room, first)
        try:
            is_text = len(name) <= 63 and "\0" not in name.decode()
        except UnicodeDecodeError:
            is_text = False
        self.same(status, (BAD_PRIORITY if priority > 200 else DONE) if is_text else NAME, "new", name, priority, room, first)
        self.same(bool(self.handle.behind), status == DONE, "behind")
        self.model = Model(cid, name, priority, room, first)
        return status == DONE

    def order(self):
        chance, library, model = self.chance, self.library, self.model
        universe = chance.choice((*NUMBERS, *model.universes, *model.universes))
        call = chance.randrange(20)
        if call < 6:
            universe = chance.choice((*NUMBERS, 0, 64000, 65535))
            self.same(library.add(self.handle, universe), model.add(universe), "add", universe)
        elif call < 14:
            slots = chance.choice((b"", b"\0", b"\xff", b"\xff\x80", chance.randbytes(3), chance.randbytes(512), bytes(512), bytes(513)))
            self.same(library.levels(self.handle, universe, slots, len(slots)), model.levels(universe, slots), "levels", universe, slots)
        elif call < 16:
            priority = chance.choice((0, 100, 100, 200, 201, 255))
            self.same(library.priority(self.handle, universe, priority), model.set_priority(universe, priority), "priority", universe, priority)
        elif call < 19:
            self.same(library.end(self.handle, universe), model.end(universe), "end", universe)
        else:
            self.same(library.end_all(self.handle), model.end_all(), "end_all")

    def poll(self):
        """Polls at a moment until nothing is due, or once."""
        self.now = min(max(0, self.now + self.chance.choice(STEPS)), LAST_MOMENT)
        for _ in range(self.chance.choice((1, 1, 20))):
            before = self.out.raw
            octets, universe = self.model.poll(self.now)
            status = self.library.poll(self.handle, self.now, self.out, self.count, self.universe)
            self.same((status, self.count.value, self.universe.value), (DONE, len(octets), universe), "poll", self.now)
            self.same(self.out.raw, octets + before[len(octets) :], "octets")
            if not octets:
                break
        self.same(self.library.wakes(self.handle, self.moment), DONE, "wakes")
        self.same(self.moment.value, self.model.wakes(), "moment")

    def universes(self):
        told, found = Told(), []
        while self.library.universe(self.handle, len(found), told) == DONE:
            found.append((told.latest, told.universe, told.state, told.number))
        self.same(found, self.model.told(), "universes")

    def many(self):
        """More universes than stand on one page."""
        for universe in self.chance.sample(range(1, 64000), self.chance.choice((513, 600, 1025))):
            self.same(self.library.add(self.handle, universe), self.model.add(universe), "add", universe)
        self.now = min(self.now + 10_000, LAST_MOMENT)
        for _ in range(1100):
            octets, universe = self.model.poll(self.now)
            status = self.library.poll(self.handle, self.now, self.out, self.count, self.universe)
            self.same((status, self.out.raw[: len(octets)], self.universe.value), (DONE, octets, universe), "poll", self.now)

    def run(self, is_many):
        if not self.made(is_many):
            return
        if is_many:
            self.many()
        for _ in range(self.chance.randrange(5, 60)):
            if self.chance.random() < 0.55:
                self.poll()
            else:
                self.order()
        self.universes()
        self.same(self.library.free(self.handle), DONE, "free")
        self.same(self.handle.behind, None, "behind")


def compared(task):
    """What a part of the lists says that isn't so, and how many calls were compared."""
    path, seeds = task
    library, calls = Library(path), 0
    for seed in seeds:
        comparison = Comparison(library, random.Random(seed))
        try:
            comparison.run(seed % 4000 == 0)
        except AssertionError as fault:
            return f"list {seed}: {fault}", calls
        calls += len(comparison.asked)
    return None, calls


def main(path, count, seed="0"):
    first, count, size = int(seed), int(count), 500
    parts = [(path, range(at, min(at + size, first + count))) for at in range(first, first + count, size)]
    total = 0
    with Pool(os.cpu_count()) as pool:
        for fault, calls in pool.imap_unordered(compared, parts):
            if fault:
                print(f"not ok a source: {fault}")
                return 1
            total += calls
    print(f"ok a source does what a model does, in {count} lists of calls ({total} answers)")
    return 0


if __name__ == "__main__":
    sys.exit(main(*sys.argv[1:]))

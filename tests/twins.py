#!/usr/bin/env python3
"""Plain twins of a console and a node, written from E1.31 and docs/PROTOCOL.md: what these answer to the calls of a fixed
generator, as a file of rows (docs/ROWS.md), which tests/rows.sh has run.

usage: twins.py console|node

A console's twin looks for what is due in the lists of all that was ordered and sent, and keeps no counters; a node's goes over a list of its sources.
"""

import sys

DATA_LOSS = 2500  # milliseconds (E1.31, 6.7.1)
MOST_SOURCES = 16
SLOTS = 512


class Numbers:
    """A generator of fixed numbers, by a linear congruence modulo 2^64."""

    def __init__(self, state):
        self.state = state

    def below(self, bound):
        self.state = (self.state * 6364136223846793005 + 1442695040888963407) % 2**64
        return (self.state >> 33) % bound


def octets(values):
    """Octets as an answer writes them: VxN where N in a row are V."""
    said, at = [], 0
    while at < len(values):
        end = at
        while end < len(values) and values[end] == values[at]:
            end += 1
        said.append(str(values[at]) if end - at == 1 else f"{values[at]}x{end - at}")
        at = end
    return " ".join(said)


def row(call, answer):
    print(f"{call} = {answer}")


# A node.

KINDS = {"live": "", "termination": " terminated", "preview": " preview", "other": " start 221"}


class Said:
    """A packet of a source."""

    def __init__(self, cid, universe, number, kind, priority, levels):
        self.cid, self.universe, self.number, self.kind, self.priority, self.levels = cid, universe, number, kind, priority, levels

    def words(self):
        slots = f" slots {octets(self.levels)}" if self.levels else ""
        return f"cid {self.cid} universe {self.universe} number {self.number} priority {self.priority}{KINDS[self.kind]}{slots}"


class Source:
    def __init__(self, said, moment):
        self.cid, self.number, self.priority, self.levels, self.moment, self.is_live = said.cid, said.number, said.priority, said.levels, moment, True

    def held(self):
        if not self.is_live:
            return f"ended {self.number} 0 {self.moment}"
        return f"live {self.number} {self.priority} {self.moment} {octets(self.levels)}".rstrip()


class Table:
    """The sources of a universe, in a list."""

    def __init__(self):
        self.sources = []

    def expire(self, moment):
        """Forgets who wasn't heard for so long, also who has ended; how many those are."""
        gone = [it for it in self.sources if moment - it.moment >= DATA_LOSS]
        self.sources = [it for it in self.sources if it not in gone]
        return len(gone)

    def held(self, cid):
        return next((it.held() for it in self.sources if it.cid == cid), "none")

    def take(self, moment, said):
        for at, it in enumerate(self.sources):
            if it.cid == said.cid:
                # (in sequence are the 236 numbers behind the source's own: E1.31, 6.7.2)
                if not 1 <= (said.number - it.number) % 256 <= 236:
                    return "OutOfSequence"
                if said.kind == "live":
                    self.sources[at] = Source(said, moment)
                    return "Held"
                it.number = said.number
                if said.kind != "termination":
                    return "Observed"
                it.is_live, it.moment = False, moment
                return "EndedNow"
        if said.kind != "live":
            return "UnknownIgnored"
        if len(self.sources) >= MOST_SOURCES:
            return "SourcesExceeded"
        self.sources.append(Source(said, moment))
        return "Held"

    def merge(self):
        """The greatest level of each slot among the live sources of the greatest priority."""
        live = [it for it in self.sources if it.is_live]
        top = [it for it in live if it.priority == max(other.priority for other in live)]
        return [max((it.levels[slot] for it in top if slot < len(it.levels)), default=0) for slot in range(SLOTS)]


# The port's ranges are universe, slot, count and port slot.
PORTS = {5: [(9, 1, 512, 1)], 1: [(9, 2, 3, 1), (4, 1, 2, 10), (9, 1, 2, 511)], 200: [(4, 1, 4, 100)]}


def setup():
    ports = []
    for number, ranges in PORTS.items():
        inner = ", ".join("{universe = %d, slot = %d, count = %d, port_slot = %d}" % it for it in ranges)
        ports.append(f"{{number = {number}, range = [{inner}]}}")
    return f"| version = 2\n| port = [{', '.join(ports)}]"


def frame(tables, ranges):
    shown = [0] * 513
    merges = {universe: table.merge() for universe, table in tables.items()}
    for universe, slot, count, port_slot in ranges:
        shown[port_slot : port_slot + count] = merges[universe][slot - 1 : slot - 1 + count]
    return octets(shown)


def node(numbers, turns=6000):
    print(f"of node\nstory beside a plain node\n{setup()}\nsetup = ok")
    tables, moment, answers = {4: Table(), 9: Table()}, 0, set()
    for turn in range(turns):
        # moments go forward by about 20 ms a turn, and back now and then
        now = turn * 20 + numbers.below(90)
        moment = max(moment, now)
        what = numbers.below(16)
        if what == 0:
            row(f"tick {now}", sum(it.expire(moment) for it in tables.values()))
        elif what == 1:
            for it in tables.values():
                it.expire(moment)
            for port, ranges in PORTS.items():
                row(f"frame {now} {port}", frame(tables, ranges))
        else:
            kind = {0: "termination", 1: "preview", 2: "other"}.get(numbers.below(12), "live")
            universe = {0: 1, 1: 4, 2: 4, 3: 4}.get(numbers.below(8), 9)
            levels = [numbers.below(255), numbers.below(255), 0, numbers.below(9)]
            said = Said(numbers.below(20), universe, (turn // 4 + numbers.below(40)) % 256, kind, 98 + numbers.below(3), levels)
            for it in tables.values():
                it.expire(moment)
            answer = tables[universe].take(moment, said) if universe in tables else "OtherUniverse"
            answers.add(answer)
            row(f"take {now} {said.words()}", answer)
            row(f"held {universe} {said.cid}", tables[universe].held(said.cid) if universe in tables else "none")
        row("moment", moment)
    return len(answers) == 7


# A console: three universes that show channels 1 to 3 in slot 1, and three cues: times up and down, and levels by channel.

CUES = {10: (100, 0, {1: 65535}), 20: (0, 0, {2: 30000}), 30: (70, 200, {1: 0, 2: 10000})}
SHOW = """| version = 2
| cid = "00010203-0405-0607-0809-0a0b0c0d0e0f"
| name = "Desk"
| universes = [3, 1, 2]
| cue = [
| { number = 30, up = 70, down = 200, levels = [[1, 0], [2, 10000]] },
| { number = 10, up = 100, down = 0, levels = [[1, 65535]] },
| { number = 20, up = 0, down = 0, levels = [[2, 30000]] },
| ]
| patch = [
| { channel = 1, universe = 1, slot = 1 },
| { channel = 2, universe = 2, slot = 1 },
| { channel = 3, universe = 3, slot = 1 },
| ]"""
UNIVERSES = (1, 2, 3)
FIRST = 250


class Fade:
    def __init__(self, begins, ends, time, moment):
        self.begins, self.ends, self.time, self.moment = begins, ends, time, moment

    def level(self, now):
        passed = max(0, now - self.moment)
        if passed >= self.time:
            return self.ends
        # (both ways the part that has passed is rounded down)
        if self.begins < self.ends:
            return self.begins + (self.ends - self.begins) * passed // self.time
        return self.begins - (self.begins - self.ends) * passed // self.time


class Desk:
    def __init__(self):
        self.orders, self.pages = [], []
        self.packets = {it: [] for it in UNIVERSES}  # moment, whether it ends the stream, slot 1
        self.turns = {it: (False, 0) for it in UNIVERSES}  # whether it was ended, and how many packets came before

    def current(self, orders):
        """The current cue by some orders, 0 for none."""
        current = 0
        for _, word, *numbers in orders:
            if word == "go":
                current = self.next_cue(current)
            elif word == "goto":
                current = numbers[0]
        return current

    @staticmethod
    def next_cue(current):
        return min((it for it in CUES if it > current), default=None)

    def level(self, channel, now):
        """A channel's level by all orders, before the master."""
        fade = Fade(0, 0, 0, 0)
        current = 0
        for moment, word, *numbers in self.orders:
            level, times = None, (0, 0)
            if word == "go":
                current = self.next_cue(current)
                level, times = CUES[current][2].get(channel), CUES[current][:2]
            elif word == "goto":
                current = numbers[0]
                before = [CUES[it][2][channel] for it in sorted(CUES) if it <= current and channel in CUES[it][2]]
                cued = any(channel in it[2] for it in CUES.values())
                level, times = (before or [0])[-1] if cued else None, CUES[current][:2]
            elif word == "set" and numbers[0] == channel:
                level = numbers[1]
            if level is not None:
                begins = fade.level(moment)
                fade = Fade(begins, level, times[0] if begins < level else times[1], moment)
        return fade.level(now)

    def slot(self, universe, now):
        master = next((it[2] for it in reversed(self.orders) if it[1] == "master"), 65535)
        return self.level(universe, now) * master // 65535 // 256

    def is_due(self, universe, slot, now):
        packets = self.packets[universe]
        is_ended, before = self.turns[universe]
        since = packets[before:]
        waited = now - packets[-1][0] if packets else None

        def has_passed(wait):
            return waited is None or waited >= wait

        if is_ended:
            return len(since) < 3 and has_passed(25)
        alike = 0
        for it in reversed(since):
            if it[2] != slot:
                break
            alike += 1
        # a change comes once and three times more, and then each 900 ms (E1.31, 6.6.2)
        return has_passed(25) and alike < 4 or has_passed(900)

    def standing(self):
        return sum(1 for it in UNIVERSES if not (self.turns[it][0] and len(self.packets[it]) - self.turns[it][1] >= 3))

    def poll(self, now):
        for universe in UNIVERSES:
            slot = self.slot(universe, now)
            if self.is_due(universe, slot, now):
                packets = self.packets[universe]
                number, is_ended = (FIRST + len(packets)) % 256, self.turns[universe][0]
                packets.append((now, is_ended, slot))
                return f"packet {number} {64 if is_ended else 0} {universe} {slot}"
        if self.pages and now - self.pages[-1] < 10000:
            return "none"
        self.pages.append(now)
        return f"page {120 + 2 * self.standing()}"

    def order(self, now, word, *numbers):
        fault = self.fault(word, *numbers)
        if fault:
            return fault
        self.orders.append((now, word, *numbers))
        if word in ("end", "start"):
            self.turns[numbers[0]] = (word == "end", len(self.packets[numbers[0]]))
        return "ok"

    def fault(self, word, *numbers):
        if word == "go":
            return None if self.next_cue(self.current(self.orders)) else "NoCue"
        if word == "goto":
            return None if numbers[0] in CUES else "NoCue"
        if word == "set":
            return None if 1 <= numbers[0] <= 2048 else "ChannelRange"
        if word == "master":
            return None
        if numbers[0] not in UNIVERSES:
            return "NoUniverse"
        is_ended, before = self.turns[numbers[0]]
        if is_ended and len(self.packets[numbers[0]]) - before < 3:
            return "Ending"
        if is_ended == (word == "end"):
            return "Stopped" if is_ended else "Running"
        return None


def any_order(numbers):
    """A command, also of channels, cues and universes that aren't there."""
    which, one, level = numbers.below(9), numbers.below(5), numbers.below(65536)
    words = [("go",), ("goto", one % 4 * 10), ("set", one, level), ("master", level), ("end", one), ("end", one)]
    return words[which] if which < 6 else ("start", one)


# Of a console's orders: done, and refused for each of the six reasons in `fault`; of its polls: nothing, a page, levels, and a terminated packet.
KINDS_OF_A_CONSOLE = 7 + 4


def console(numbers, steps=3000):
    print("of console")
    for numbers in (numbers, Numbers(2026)):
        print(f"story beside a plain console\n{SHOW}\nshow {FIRST} = ok")
        desk, moment, kinds = Desk(), 0, set()
        for _ in range(steps):
            now = max(0, moment + numbers.below(40) - 10)
            moment = max(moment, now)
            if numbers.below(8) == 0:
                order = any_order(numbers)
                answer = desk.order(moment, *order)
                row(f"order {now} {' '.join(map(str, order))}", answer)
                kinds.add(("order", answer))
            else:
                answer = desk.poll(moment)
                row(f"poll {now}", answer)
                # (a packet's options are its second number)
                kinds.add(("poll", answer.split(" ")[0], answer.split(" ")[2] if answer.startswith("packet") else ""))
        if len(kinds) != KINDS_OF_A_CONSOLE:
            return False
    return True


if __name__ == "__main__":
    if not {"console": console, "node": node}[sys.argv[1]](Numbers(1)):
        sys.exit("an answer came too seldom to be compared")

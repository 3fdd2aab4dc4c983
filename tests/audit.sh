#!/usr/bin/env bash
# Audits recordings with the built program: each rule where a source breaks it and where it just doesn't, and faulty recordings; and what a watch and a gateway hear on
# loopback: a desk of ours, which conforms, and a source that breaks two rules.
# Prints 'ok NAME', 'not ok NAME: why' or 'skipped NAME: why' for each, as ./test counts them.
set -u
# shellcheck source=tests/lib.sh
. "$(dirname "$(readlink -f "$0")")/lib.sh"
need sacn
heard=$(free_udp_port)
shown=$(free_udp_port)

# A recording for each rule: NAME.pcap, and what is told of it: NAME.text. What is wanted stands here as the standard and the numbers of the packets have it.
python3 - <<'P' || verdict "the recordings are made" 1
import e131
def named(source, name): return b"Source %d" % source if name is None else name
def packet(source, number, universe=1, slots=b"\xff", start=0, name=None, ends=False):
    options = e131.TERMINATED if ends else 0
    return e131.data(universe, number, slots, bytes([source] * 16), named(source, name), options=options, start=start)
def page(source, universes, number=0, last=0, name=None):
    """A page of universe discovery (E1.31, 6.4 and 8)."""
    return e131.page(universes, number, last, bytes([source] * 16), named(source, name))
def with_pages(packets):
    """Beside these data packets, sorted, a list of each source's universes at its first one and each 10 s from then on, with the name and the address of the packet before."""
    pages = []
    for source in sorted({octets[22] for _, octets, *_ in packets}):
        own = [it for it in packets if it[1][22] == source]
        universes = sorted({int.from_bytes(octets[113:115], "big") for _, octets, *_ in own})
        for at in range(own[0][0], own[-1][0] + 1, 10000):
            _, before, address, *_ = [it for it in own if it[0] <= at][-1]
            pages.append((at, page(source, universes, name=before[44:108]), address))
    return packets + pages
def group(octets):
    """The group of a data packet's universe, or of pages (9.3.1 and 9.3.2)."""
    return bytes([239, 255]) + (octets[113:115] if octets[21] == 4 else b"\xfa\xd6")
def write(name, packets, text, lists=None):
    """Packets are (millisecond, octets, last number of the sender's address), and where it isn't their universe's group the address that they go to;
    with a list of universes each 10 s, or with these pages."""
    packets = sorted(packets, key=lambda it: it[0])
    recording = e131.Recording(name + ".pcap", 1700000000)
    for at, octets, address, *to in sorted(with_pages(packets) if lists is None else packets + lists, key=lambda it: it[0]):
        recording.sent(at, address, octets, to=to[0] if to else group(octets), from_port=5568)
    recording.close()
    open(name + ".text", "w", encoding="utf-8").write(text)
def stream(source, moments, address=5, numbers=None, ends=3, apart=20, **fields):
    """A stream whose numbers go up by one, and three packets that end it, 20 ms or so many apart."""
    numbers = range(len(moments)) if numbers is None else numbers
    made = [(at, packet(source, number, **fields), address) for at, number in zip(moments, numbers)]
    return made + [(moments[-1] + apart * (1 + it), packet(source, numbers[-1] + 1 + it, ends=True, **fields), address) for it in range(ends)]
steady = list(range(0, 20000, 25))
at = '"Source %d" %s at 10.0.0.5'
def who(source, address=5): return '"Source %d" %02x%02x..%02x at 10.0.0.%d' % (source, source, source, source, address)
write("conforms", stream(1, steady), who(1) + ": conforms\n")
# 44 a second, and one more: 50 packets in each of twenty seconds, whose 45th comes 880 ms behind its begin; the first second has none before it
edge = [1000 * second + 1000 * count // 44 for second in range(20) for count in range(44)]
write("rate44", stream(2, edge), who(2) + ": conforms\n")
# 45 in each second are told at the 45th of each one behind such a one; where every other second has 45, nowhere
write("rate45", stream(43, [1000 * second + 20 * count for second in range(20) for count in range(45)]),
      who(43) + ":\n  6.6.1 faster than 44 a second on 1 (19 times, the first at 1.880 s, the latest at 19.880 s)\n")
write("rate45once", stream(44, [1000 * second + 20 * count for second in range(20) for count in range(44 + second % 2)]), who(44) + ": conforms\n")
fast = list(range(0, 20000, 20))
write("rate50", stream(3, fast, universe=7) + stream(3, fast, universe=8),
      who(3) + ":\n  6.6.1 faster than 44 a second on 7-8 (38 times, the first at 1.880 s, the latest at 19.880 s)\n")
# 255 is followed by 1: in turns of 255 packets, of which the third ends with packet 765, and the fourth with packet 1020
def without_0(count): return [1 + it % 255 for it in range(count)]
long = list(range(0, 26000, 25))
write("skips", stream(4, long, numbers=without_0(len(long))),
      who(4) + ":\n  6.2.5 a number left out in each turn on 1 (2 times, the first at 19.125 s, the latest at 25.500 s)\n")
write("skips2", stream(5, steady[:764], numbers=without_0(764)), who(5) + ": conforms\n")
# two turns without 0, one that has it, one that lacks 100, and again two without 0: no number is left out in three turns
turn = list(range(1, 256))
lost = turn * 3 + [0] + turn[:99] + turn[100:] + turn * 2
write("skips1", stream(45, list(range(0, 25 * len(lost), 25)), numbers=lost), who(45) + ": conforms\n")
stays = [0, 1, 2, 2, 2, 2] + list(range(3, 3 + len(steady) - 6))
write("stays", stream(6, steady, numbers=stays), who(6) + ":\n  6.2.5 numbers that don't go up on 1 (once, at 0.125 s)\n")
stays = [0, 1, 2, 2, 2] + list(range(3, 3 + len(steady) - 5))
write("stays3", stream(7, steady, numbers=stays), who(7) + ": conforms\n")
second = [1000 * it for it in range(20)]
write("second", stream(8, second), who(8) + ": conforms\n")
write("silent", stream(9, second + [20001, 21000]), who(9) + ":\n  6.6.2 levels more than 1 s apart on 1 (once, at 20.001 s)\n")
# A packet is lost before a pause of 2.5 s, and an end comes before one of 10 s: neither is silence. Priorities for slots don't keep the levels alive.
pauses = stream(46, [0, 1000, 2000], ends=0) + stream(46, [4500, 5500], numbers=[4, 5]) + stream(46, [15000 + it for it in second], numbers=range(9, 29))
def listed(source, universes, *moments): return [(it, page(source, universes), 5) for it in moments]
write("silent2", pauses, who(46) + ": conforms\n", listed(46, [1], 0, 15010, 25010))
levels = [(it, {}) for it in second + [20000, 21001]] + [(it + 500, {"start": 0xdd}) for it in second + [20000]]
levels = [(at, packet(47, number, **fields), 5) for number, (at, fields) in enumerate(sorted(levels, key=lambda it: it[0]))]
write("silentdd", levels + [(21021 + 20 * it, packet(47, len(levels) + it, ends=True), 5) for it in range(3)],
      who(47) + ":\n  6.6.2 levels more than 1 s apart on 1 (once, at 21.001 s)\n")
# The recording begins with the latest repeats of a change; other levels have priorities for slots between them, in the same numbers; and an end comes before a beginning.
rests = [(0, {}), (900, {}), (1800, {}), (1825, {"start": 0xdd}), (1850, {"slots": b"\x07"}), (1875, {"start": 0xdd}), (2750, {"slots": b"\x07"})]
rests += [(2770 + 20 * it, {"slots": b"\x07", "ends": True}) for it in range(3)]
rests = [(at, packet(48, number, **fields), 5) for number, (at, fields) in enumerate(rests)]
write("change0", rests + stream(48, [3600 + it for it in steady], numbers=range(10, 10 + len(steady))), who(48) + ": conforms\n")
# other levels from packet 400 on, 10.000 s, and 501 ms without a packet behind the first, the second or the third that has them
def changed(source, copies):
    moments = [it if it < 10000 + 25 * copies else it + 476 for it in steady]
    old, new = stream(source, moments, ends=0), stream(source, moments, ends=3, slots=b"\x07")
    return old[:400] + new[400:]
for copies in (1, 2):
    write("change%d" % copies, changed(9 + copies, copies),
          who(9 + copies) + ":\n  6.6.2 changed levels sent fewer than three times on 1 (once, at 10.%03d s)\n" % (501 + 25 * (copies - 1)))
write("change3", changed(12, 3), who(12) + ": conforms\n")
# an end of two packets, behind which the stream goes on, or nothing comes
end = stream(13, steady, ends=2)
write("end2", end, who(13) + ":\n  6.2.6 ended by fewer than three packets on 1, and nothing came after them\n")
write("ended2", end + stream(13, [25000 + it for it in steady], numbers=range(802, 802 + len(steady))),
      who(13) + ":\n  6.2.6 ended by fewer than three packets on 1 (once, at 25.000 s)\n")
# Ends 19 ms apart on three universes: the second and the third packet of each, at 20.013 s and 20.032 s. And some 20 ms apart, with a packet that begins the stream again between
# the last one and the next, 9 ms later.
close = sum((stream(49, steady, universe=it, apart=19) for it in (1, 2, 3)), [])
write("close", close, who(49) + ": conforms\n  seen, no breach: 6.2.6 the packets of an end less than 20 ms apart on 1-3 (6 times, the first at 20.013 s, the latest at 20.032 s)\n")
again = [(20037, packet(50, 803), 5)] + [(20044 + 20 * it, packet(50, 804 + it, ends=True), 5) for it in range(3)]
write("close20", stream(50, steady) + again, who(50) + ": conforms\n")
write("name64", stream(14, steady[:1], name=b"n" * 64),
      '"' + "n" * 64 + '" 0e0e..0e at 10.0.0.5:\n  6.2.2 a name without an end on 1 (4 times, the first at 0.000 s, the latest at 0.060 s)\n'
      "  can't be seen in so short a recording: 6.2.5 numbers that don't go up; 6.2.5 a number left out in each turn; 6.6.1 faster than 44 a second; 6.6.2 levels more than 1 s apart; 6.6.2 changed levels sent fewer than three times; 8 no list of universes for 12 s; 8 a list that lacks a universe it sends\n")
write("name63", stream(15, steady, name=b"n" * 63 + b"\0"), '"' + "n" * 63 + '" 0f0f..0f at 10.0.0.5: conforms\n')
write("nametext", stream(16, steady, name=b"K\xe4se".ljust(64, b"\0")),
      '"K\u00e4se" 1010..10 at 10.0.0.5:\n  6.2.2 a name that isn\'t UTF-8 on 1 (803 times, the first at 0.000 s, the latest at 20.035 s)\n')
write("nametext8", stream(17, steady, name="K\u00e4se".encode() + b"\0\xe4".ljust(59, b"\0")), '"K\u00e4se" 1111..11 at 10.0.0.5: conforms\n')
# every second packet comes from another address; and one that moves, 2501 ms after its latest packet
two = [(moment, octets, 5 + number % 2) for number, (moment, octets, _) in enumerate(stream(18, steady))]
write("two", two, who(18) + ":\n  5.6 one CID at two addresses (802 times, the first at 0.025 s, the latest at 20.035 s)\n")
moves = stream(19, steady) + stream(19, [it + 22536 for it in steady], address=6, numbers=range(803, 803 + len(steady)))
write("moves", moves, who(19, 6) + ": conforms\n")
still = stream(19, steady) + stream(19, [it + 22535 for it in steady], address=6, numbers=range(803, 803 + len(steady)))
write("moves2500", still, who(19, 6) + ":\n  5.6 one CID at two addresses (once, at 22.535 s)\n")
text = [(10, packet(20, 1, start=0x17), 5), (20, packet(20, 2, start=0xdd), 5)]
write("start", [(0, packet(20, 0), 5)] + text + stream(20, [it + 30 for it in steady], numbers=range(3, 3 + len(steady))),
      who(20) + ": conforms\n  seen, no breach: 7.7 a start code other than 0 and 0xDD on 1 (once, at 0.010 s)\n")
# universe 1 by the groups of universes 0 and 257 and by one of no universe; and universe 257 by its own, to hosts, and to all of a network
def sent(packets, to): return [(moment, octets, address, bytes(to)) for moment, octets, address in packets]
strays = stream(21, steady)
write("group0", sent(strays[:200], [239, 255, 0, 0]) + sent(strays[200:400], [239, 255, 1, 1]) + sent(strays[400:], [224, 0, 0, 1]),
      who(21) + ":\n  9.3.1 sent to another multicast group than its universe's on 1 (803 times, the first at 0.000 s, the latest at 20.035 s)\n")
hosts = stream(22, steady, universe=257)
write("groups", sent(hosts[:200], [239, 255, 1, 1]) + sent(hosts[200:300], [10, 0, 0, 9]) + sent(hosts[300:400], [223, 255, 0, 1]) +
      sent(hosts[400:500], [240, 255, 0, 1]) + sent(hosts[500:600], [255, 255, 255, 255]) + sent(hosts[600:], [10, 255, 255, 255]), who(22) + ": conforms\n")
# universes 1 and 2 in turn by one counter: of the packets that follow one of the other universe and count on, packet 8 is the eighth
turns = [(25 * it, packet(23, it, universe=1 + it % 2), 5) for it in range(800)] + [(20000 + 20 * it, packet(23, 800 + it, universe=1 + it % 2, ends=True), 5) for it in range(6)]
write("counter", turns, who(23) + ":\n  6.2.5 one counter for several universes (798 times, the first at 0.200 s, the latest at 20.100 s)\n")
# universes 1 to 8 in turn, each by its own counter, which is one ahead of that before it: seven packets count on, and then one doesn't
write("counters", sum((stream(24, steady, universe=it, numbers=range(it, it + len(steady))) for it in range(1, 9)), []), who(24) + ": conforms\n")
# what can't be read: a printer at the port, and a source of priority 201, or of a vector of the drafts; and a priority of 200
def with_octets(octets, at, put): return octets[:at] + put + octets[at + len(put):]
def unread(at, put): return with_octets(packet(26, 0), at, put)
# the options (octet 112) with a reserved bit beside what they have, each in turn; and with Force_Synchronization, which is none
def with_options(packets, *bits): return [(moment, with_octets(octets, 112, bytes([octets[112] | bits[it % len(bits)]])), address) for it, (moment, octets, address) in enumerate(packets)]
write("bits", with_options(stream(40, steady), 0x01, 0x02, 0x04, 0x08, 0x10),
      who(40) + ":\n  6.2.6 reserved bits of the options set on 1 (803 times, the first at 0.000 s, the latest at 20.035 s)\n")
write("bit5", with_options(stream(41, steady), 0x20), who(41) + ": conforms\n")
printer = [(500, b"hello", 100, bytes([10, 0, 0, 9])), (1500, b"hello, printer", 100, bytes([10, 0, 0, 9]))]
printer_line = "10.0.0.100 sends what can't be read: no packets of streaming ACN (2 times, the first at 0.500 s, the latest at 1.500 s)\n"
tester = [(1000, unread(108, b"\xc9"), 9), (2500, unread(18, b"\0\0\0\3"), 9), (4000, unread(108, b"\xc9"), 9)]
write("unread", with_pages(stream(25, steady)) + printer + tester,
      who(25) + ": conforms\n" + printer_line +
      "10.0.0.9 sends what can't be read: 6.2.3 the priority is above 200 (2 times, the first at 1.000 s, the latest at 4.000 s)\n"
      "10.0.0.9 sends what can't be read: 5.5 the root vector is unknown (once, at 2.500 s)\n", [])
# two faults of each of 129 senders: what is kept has room for 256
pairs = [(10 * host + 5 * fault - 10, unread(*((108, b"\xc9"), (113, b"\0\0"))[fault]), host) for host in range(1, 130) for fault in (0, 1)]
faults = ("6.2.3 the priority is above 200", "6.2.7 the universe is out of range")
write("pairs", pairs, "".join("10.0.0.%d sends what can't be read: %s (once, at %.3f s)\n" % (host, faults[at // 5 % 2], at / 1000) for at, _, host in pairs[:256]) +
      "2 further packets that can't be read weren't told apart\n", [])
write("sends201", with_pages(stream(25, steady)) + [(4000, unread(108, b"\xc9"), 5)],
      who(25) + ": breaks no rule, but its address sends what can't be read\n10.0.0.5 sends what can't be read: 6.2.3 the priority is above 200 (once, at 4.000 s)\n", [])
# universes 0 and 64000, and nothing else; and 1 and 63999
write("outside", [(1000, unread(113, b"\0\0"), 9), (2000, unread(113, b"\xfa\0"), 9)],
      "10.0.0.9 sends what can't be read: 6.2.7 the universe is out of range (2 times, the first at 0.000 s, the latest at 1.000 s)\n", [])
write("inside", stream(26, steady, universe=1) + stream(26, steady, universe=63999), who(26) + ": conforms\n")
write("priority200", [(moment, with_octets(octets, 108, b"\xc8"), address) for moment, octets, address in stream(26, steady)], who(26) + ": conforms\n")
write("printer", [(0, b"hello", 100, bytes([10, 0, 0, 9]))],
      "no packets of streaming ACN\n10.0.0.100 sends what can't be read: no packets of streaming ACN (once, at 0.000 s)\n", [])
# One that breaks nearly all rules: a name of 64 octets that are no UTF-8, a reserved bit, the group of universe 2; one number four times, a start code, fifty packets a second for three seconds,
# a change that comes once, 1600 ms before a packet from another address, and an end of two packets.
crooked = [(0, 0, {})] + [(it, 0, {}) for it in (1, 2, 3)] + [(10, 1, {"start": 0x17})] + [(20 * it, 1 + it, {}) for it in range(1, 150)]
crooked += [(3000, 151, {"slots": b"\x80"}), (4600, 152, {"slots": b"\x80"})] + [(4600 + 20 * it, 152 + it, {"slots": b"\x80", "ends": True}) for it in (1, 2)]
crooked = [(at, packet(32, number, name=b"\xe4" * 64, **fields), 6 if at == 4600 else 5) for at, number, fields in crooked]
all_of_it = "on 1 (158 times, the first at 0.000 s, the latest at 4.640 s)\n"
write("crooked", sent(with_options(crooked, 0x01), [239, 255, 0, 2]),
      '"' + "\u00e4" * 64 + '" 2020..20 at 10.0.0.5:\n'
      "  5.6 one CID at two addresses (2 times, the first at 4.600 s, the latest at 4.620 s)\n"
      "  6.2.2 a name without an end " + all_of_it + "  6.2.2 a name that isn't UTF-8 " + all_of_it +
      "  6.2.5 numbers that don't go up on 1 (once, at 0.003 s)\n"
      "  6.2.6 ended by fewer than three packets on 1, and nothing came after them\n"
      "  6.2.6 reserved bits of the options set " + all_of_it +
      "  6.6.1 faster than 44 a second on 1 (2 times, the first at 1.880 s, the latest at 2.880 s)\n"
      "  6.6.2 levels more than 1 s apart on 1 (once, at 4.600 s)\n"
      "  6.6.2 changed levels sent fewer than three times on 1 (once, at 4.600 s)\n"
      "  seen, no breach: 7.7 a start code other than 0 and 0xDD on 1 (once, at 0.010 s)\n"
      "  9.3.1 sent to another multicast group than its universe's " + all_of_it +
      "  can't be seen in so short a recording: 6.2.5 a number left out in each turn; 8 no list of universes for 12 s; 8 a list that lacks a universe it sends\n", [])
# No list at all; one that is late twice, at the first packet more than 12 s after the list before; one that just isn't; and a source that comes back 3 s after its end with a list 13 s after the one before.
write("unlisted", stream(21, steady), who(21) + ":\n  8 no list of universes for 12 s (once, at 12.025 s)\n", [])
minute = list(range(0, 30000, 25))
write("late", stream(22, minute), who(22) + ":\n  8 no list of universes for 12 s (2 times, the first at 12.025 s, the latest at 25.025 s)\n", listed(22, [1], 0, 13010, 26000))
write("late12", stream(23, minute), who(23) + ": conforms\n", listed(23, [1], 0, 12010, 24015))
write("back", stream(24, steady[:400]) + stream(24, [13000 + it for it in steady[:400]], numbers=range(403, 803)), who(24) + ": conforms\n", listed(24, [1], 0, 13010))
# Of two universes the list has one, more than 10 s after both began; and just so long after. Another source's universes are none of it.
both = stream(25, steady, universe=1) + stream(25, steady, universe=2)
write("lacks", both, who(25) + ":\n  8 a list that lacks a universe it sends (2 times, the first at 10.001 s, the latest at 19.000 s)\n", listed(25, [1], 0, 10001, 19000))
write("lacks10", both, who(25) + ": conforms\n", listed(25, [1], 0, 10000) + listed(25, [1, 2], 20000))
short = stream(25, steady, universe=1) + stream(25, steady[:399], universe=2)
write("lacksnone", short, who(25) + ": conforms\n", listed(25, [1, 2], 0) + listed(25, [1], 10045, 20000))
# Two pages, of which each tells of its own part; the second lacks the universe behind its last number, and the first has none to tell of.
parts = stream(26, steady, universe=2) + stream(26, steady, universe=9)
write("pages", parts, who(26) + ": conforms\n", [(at, page(26, numbers, number, 1), 5) for at in (0, 10500) for number, numbers in enumerate(([1, 2], [9, 10]))])
write("pageslack", parts, who(26) + ":\n  8 a list that lacks a universe it sends (once, at 10.500 s)\n  seen, no breach: 8 a list with a universe that wasn't heard (2 times, the first at 12.001 s, the latest at 12.001 s)\n",
      [(at, page(26, numbers, number, 1), 5) for at in (0, 10500) for number, numbers in enumerate(([1, 2], [6, 8]))] + [(12001, page(26, [1, 2], 0, 1), 5), (12001, page(26, [6, 9], 1, 1), 5)])
# A universe that wasn't heard for more than 12 s; one that was; and a source of pages alone.
ended = stream(27, steady, universe=1) + stream(27, steady[:319], universe=9)
write("unheard", ended, who(27) + ": conforms\n  seen, no breach: 8 a list with a universe that wasn't heard (once, at 20.011 s)\n", listed(27, [1, 9], 0, 10000, 20011))
write("unheard12", ended, who(27) + ": conforms\n", listed(27, [1, 9], 0, 10000, 20010))
write("alone", [], who(28) + ": conforms\n  seen, no breach: 8 a list with a universe that wasn't heard (once, at 20.000 s)\n", listed(28, [1], 0, 10000, 20000))
# Two sources of one name: both are heard at 20.035 s, or the second one begins behind that.
def twins(begin):
    name = b"Desk".ljust(64, b"\0")
    return stream(29, steady, name=name) + stream(30, [begin + it for it in steady], address=6, name=name)
def desk(source, address, other=None):
    other = "  seen, no breach: 6.2.2 the name of another source too: %s\n" % other if other else ""
    return '"Desk" %02x%02x..%02x at 10.0.0.%d: conforms\n' % (source, source, source, address) + other
write("twins", twins(20035), desk(29, 5, "1e1e..1e at 10.0.0.6") + desk(30, 6, "1d1d..1d at 10.0.0.5"))
write("successor", twins(20036), desk(29, 5) + desk(30, 6))
# frames that can't be read: one cut short, two fragments, and one of IPv6
def framed(octets, address=5): return e131.carried(address, octets, to=group(octets), from_port=5568)
whole = [(at, framed(octets), None) for at, octets, _ in stream(42, steady) + listed(42, [1], 0, 10000, 20000)]
first = whole[0][1]
fragment = with_octets(first, 20, b"\x20")
lost = [(100, first, 60), (200, fragment, None), (300, fragment, None), (400, with_octets(first, 12, b"\x86\xdd"), None)]
recording = e131.Recording("frames.pcap", 1700000000)
for at, octets, kept in sorted(whole + lost, key=lambda it: it[0]): recording.frame(at, octets, kept)
recording.close()
rows = [("cut short, as by a snap length", 1), ("a fragment of IP", 2), ("IPv6", 1)]
open("frames.text", "w").write(who(42) + ": conforms\n\nframes that couldn't be read\n" + "".join("%-30s %d\n" % it for it in rows))
write("nothing", [], "no packets of streaming ACN\n")
# a clock that is 5 s behind for half a second: what comes before the latest moment is at it
recording = e131.Recording("clock.pcap", 1700000000)
for at, octets, address, to in [(*it, group(it[1])) for it in sorted(with_pages(stream(33, steady)), key=lambda it: it[0])]:
    recording.sent(at - 5000 if 10000 <= at < 10500 else at, address, octets, to=to, from_port=5568)
recording.close()
# five thousand sources, of a packet each
recording = e131.Recording("crowd.pcap", 1700000000)
for it in range(5000): recording.sent(0, 5, e131.data(1, 0, b"\xff", it.to_bytes(16, "big"), b"Source"))
recording.close()
# where the frames of a recording begin, of which the first octets are a header
at, octets = 24, open("silent.pcap", "rb").read()
with open("frames", "w") as frames:
    while at < len(octets):
        frames.write("%d\n" % at)
        at += 16 + int.from_bytes(octets[at + 8:at + 12], "little")
# The nearest on the other side, where it doesn't stand above. Forty-five a second in two seconds in a row, and in no other (rate45once has no two in a row):
write("rate45twice", stream(50, [1000 * second + 20 * count for second in range(20) for count in range(45 if second in (5, 6) else 44)]),
      who(50) + ":\n  6.6.1 faster than 44 a second on 1 (once, at 6.880 s)\n")
# priorities for slots, every second packet, count for the rate
def with_priorities(source, moments):
    return [(at, packet(source, number, start=0xdd if number % 2 else 0), 5) for number, at in enumerate(moments)] + \
        [(moments[-1] + 20 * (1 + it), packet(source, len(moments) + it, ends=True), 5) for it in range(3)]
write("ratedd44", with_priorities(49, edge), who(49) + ": conforms\n")
write("ratedd45", with_priorities(49, [1000 * second + 20 * count for second in range(20) for count in range(45)]),
      who(49) + ":\n  6.6.1 faster than 44 a second on 1 (19 times, the first at 1.880 s, the latest at 19.880 s)\n")
# three turns that pass over two numbers, 0 and 1
write("skipspair", stream(51, steady, numbers=[2 + it % 254 for it in range(len(steady))]), who(51) + ": conforms\n")
# a ninth universe beside those of `counters`: the eight packets behind that of universe 1 count on, in each turn
write("counters9", sum((stream(52, steady, universe=it, numbers=range(it, it + len(steady))) for it in range(1, 10)), []),
      who(52) + ":\n  6.2.5 one counter for several universes (803 times, the first at 0.000 s, the latest at 20.035 s)\n")
# two universes by one counter as in `counter`, but two packets of one and then two of the other: every second packet is on the universe of the one before
twos = [(25 * it, packet(64, it, universe=1 + it // 2 % 2), 5) for it in range(800)]
write("countertwos", twos + [(20000 + 20 * it, packet(64, 800 + it, universe=1 + it // 3, ends=True), 5) for it in range(6)], who(64) + ": conforms\n")
# other levels twice, as in change2, and then 500 ms without a packet, or 501 in which one is lost
def paused(source, pause, lost=0):
    moments = [it if it < 10050 else it + pause - 25 for it in steady]
    numbers = [it + (lost if it >= 402 else 0) for it in range(len(steady))]
    return stream(source, moments, numbers=numbers, ends=0)[:400] + stream(source, moments, numbers=numbers, slots=b"\x07")[400:]
write("change500", paused(53, 500), who(53) + ": conforms\n")
write("change501", paused(53, 501), who(53) + ":\n  6.6.2 changed levels sent fewer than three times on 1 (once, at 10.526 s)\n")
write("changelost", paused(53, 501, 1), who(53) + ": conforms\n")
# the start codes beside 0 and 0xDD, and the bit of a preview
starts = [(10 * it, packet(54, it, start=start), 5) for it, start in enumerate((0, 1, 0xdc, 0xdd, 0xde))]
write("starts", starts + stream(54, [it + 50 for it in steady], numbers=range(5, 5 + len(steady))),
      who(54) + ": conforms\n  seen, no breach: 7.7 a start code other than 0 and 0xDD on 1 (3 times, the first at 0.010 s, the latest at 0.040 s)\n")
write("bit7", with_options(stream(55, steady), 0x80), who(55) + ": conforms\n")
# A list 12,001 ms before a packet that none came before, and 12,000 ms; and a source silent for 2500 ms, of which a list is awaited since its first packet, and for 2501 ms,
# of which it is awaited anew (five of its packets are lost, so that nothing is told of its silence).
write("list12001", stream(56, minute), who(56) + ":\n  8 no list of universes for 12 s (once, at 22.000 s)\n", listed(56, [1], 0, 9999, 22010))
write("list12000", stream(56, minute), who(56) + ": conforms\n", listed(56, [1], 0, 10000, 22010))
def resumed(source, moment, universe=1, before=400, after=400):
    """A stream that sends until 25 ms * before - 25 ms, and goes on at this moment."""
    return stream(source, steady[:before], universe=universe, ends=0) + stream(source, [moment + it for it in steady[:after]], universe=universe, numbers=range(before + 5, before + 5 + after))
write("anew2500", resumed(57, 12475), who(57) + ":\n  8 no list of universes for 12 s (once, at 12.475 s)\n", listed(57, [1], 0, 13000))
write("anew2501", resumed(57, 12476), who(57) + ": conforms\n", listed(57, [1], 0, 13000))
# A list that lacks a universe whose stream paused for 2500 ms, and for 2501 ms, of which it was sent for 10 s no more; and one whose latest packet came so long before the list.
def beside_1(source, second): return stream(source, steady, universe=1) + second
write("lacks2500", beside_1(58, resumed(58, 7500, 2, 201)), who(58) + ":\n  8 a list that lacks a universe it sends (once, at 10.001 s)\n", listed(58, [1], 0, 10001) + listed(58, [1, 2], 20000))
write("lacks2501", beside_1(58, resumed(58, 7501, 2, 201)), who(58) + ": conforms\n", listed(58, [1], 0, 10001) + listed(58, [1, 2], 20000))
silenced = beside_1(59, stream(59, steady[:401], universe=2, ends=0))
write("lackslost2500", silenced, who(59) + ":\n  8 a list that lacks a universe it sends (once, at 12.500 s)\n", listed(59, [1, 2], 0, 5000) + listed(59, [1], 12500))
write("lackslost2501", silenced, who(59) + ": conforms\n", listed(59, [1, 2], 0, 5000) + listed(59, [1], 12501))
# Universe 4 between the last number of a page and the first of the next one, and in one page without it.
three = parts + stream(26, steady, universe=4)
write("pagesbetween", three, who(26) + ": conforms\n", [(at, page(26, numbers, number, 1), 5) for at in (0, 10500) for number, numbers in enumerate(([1, 2], [6, 9]))])
write("pagewhole", three, who(26) + ":\n  8 a list that lacks a universe it sends (once, at 10.500 s)\n", listed(26, [1, 2, 6, 9], 0, 10500))
# Lists alone, of a universe on which nothing is sent: 12,000 ms apart, which is one time, in which the third is 18 s behind the first; and 12,001 ms apart, behind which the time begins anew.
def silent_list(source, *moments): return listed(source, [1], *moments)
seen_silent = ": conforms\n  seen, no breach: 8 a list with a universe that wasn't heard (once, at %s s)\n"
write("alone12000", [], who(60) + seen_silent % "18.000", silent_list(60, 0, 12000, 18000))
write("aloneanew", [], who(60) + ": conforms\n", silent_list(60, 0, 12001, 18001, 24001))
write("aloneanew12001", [], who(60) + seen_silent % "24.002", silent_list(60, 0, 12001, 18001, 24002))
# a list that comes from another address than the packets before and behind it
write("listelsewhere", stream(65, steady), who(65) + ":\n  5.6 one CID at two addresses (2 times, the first at 10.000 s, the latest at 10.025 s)\n", listed(65, [1], 0, 20000) + [(10000, page(65, [1]), 6)])
write("listthere", stream(65, steady), who(65) + ": conforms\n", listed(65, [1], 0, 10000, 20000))
# Two sources at one time whose names differ in a letter's height, or only behind their first NUL; and two without a name.
def pair_of(one, other): return stream(61, steady, name=one.ljust(64, b"\0")) + stream(62, steady, address=6, name=other.ljust(64, b"\0"))
def pair_told(one, other, same=False):
    lines = ['"%s" %s at 10.0.0.%d' % it for it in ((one, "3d3d..3d", 5), (other, "3e3e..3e", 6))]
    seen = ["  seen, no breach: 6.2.2 the name of another source too: %s\n" % line.split('" ')[1] if same else "" for line in reversed(lines)]
    return "".join(line + ": conforms\n" + it for line, it in zip(lines, seen))
write("twinscase", pair_of(b"Desk", b"desk"), pair_told("Desk", "desk"))
write("twinsnul", pair_of(b"Desk", b"Desk\0x"), pair_told("Desk", "Desk", True))
write("twinsempty", pair_of(b"", b""), pair_told("", ""))
# what can't be read of 128 senders, two faults of each: all of it is told apart
told_apart = open("pairs.text").read().rpartition("2 further")[0]
write("pairs256", pairs[:256], told_apart, [])
write("pairs257", pairs[:257], told_apart + "1 further packet that can't be read wasn't told apart\n", [])
# A source heard for so many milliseconds: which rules want more (four packets of a source at rest are 3 s, and any 3 s have two whole seconds).
wants = [(501, "6.6.2 changed levels sent fewer than three times"), (1001, "6.6.2 levels more than 1 s apart"), (3000, "6.2.5 numbers that don't go up"), (3000, "6.6.1 faster than 44 a second"),
         (10001, "8 a list that lacks a universe it sends"), (12001, "8 no list of universes for 12 s")]
for heard_for in (500, 501, 1000, 1001, 2999, 3000, 10000, 10001, 12000, 12001):
    short = [words for least, words in wants if heard_for < least] + ["6.2.5 a number left out in each turn"]
    open("heard%d.rules" % heard_for, "w").write("".join(sorted(it + "\n" for it in short)))
    write("heard%d" % heard_for, stream(63, [*range(0, heard_for, 25), heard_for], ends=0), "")
# 1024 sources of a packet each; one more; and one more of two
for it in (1024, 1025, 1026):
    recording = e131.Recording("crowd%d.pcap" % it, 1700000000)
    for number in range(it): recording.sent(0, 5, e131.data(1, 0, b"\xff", min(number, 1024).to_bytes(16, "big"), b"Source"))
    recording.close()
# What is sent live: three packets of a name without an end, and one of priority 201.
for place, octets in enumerate([packet(31, number, name=b"n" * 64) for number in range(3)] + [with_octets(packet(31, 3), 108, b"\xc9")]):
    open("live%d.sacn" % place, "wb").write(octets)
P

# tells NAME STATUS WANTED-ERRORS WANTED-OUTPUT WORD..: an audit ends so, and prints this file
tells() {
  local name=$1 wanted=$2 said=$3 output=$4 status=0 first
  shift 4
  timeout 60 "$sacn" audit "$@" </dev/null >out 2>err || status=$?
  first=$(head -n 1 err)
  # shellcheck disable=SC2053
  [ "$status" = "$wanted" ] && [[ $first == $said ]] && cmp -s "$output" out
  verdict "$name" $? "status $status, '$first', it prints something else: $(diff "$output" out | head -n 4 | cut -c 1-160)"
}
for name in conforms rate44 rate45 rate45once rate50 skips skips1 skips2 stays stays3 second silent silent2 silentdd change0 change1 change2 change3 end2 ended2 close close20 name64 name63 nametext nametext8 two moves moves2500 start group0 groups counter counters bits bit5 unread pairs sends201 outside inside crooked priority200 printer frames unlisted late late12 back lacks lacks10 lacksnone pages pageslack unheard unheard12 alone twins successor nothing; do
  tells "$name" 0 "" $name.text $name.pcap
done
for name in rate45twice ratedd44 ratedd45 skipspair counters9 countertwos change500 change501 changelost starts bit7 list12001 list12000 anew2500 anew2501 lacks2500 lacks2501 lackslost2500 lackslost2501 pagesbetween pagewhole alone12000 aloneanew aloneanew12001 listelsewhere listthere twinscase twinsnul twinsempty pairs256 pairs257; do
  tells "$name" 0 "" $name.text $name.pcap
done
for name in 500 501 1000 1001 2999 3000 10000 10001 12000 12001; do
  "$sacn" audit "heard$name.pcap" </dev/null 2>err | sed -n "s/^  can't be seen in so short a recording: //p" | sed 's/; /\n/g' | LC_ALL=C sort | diff "heard$name.rules" - >differ
  verdict "what can't be seen in $name ms" $? "$(head -n 3 differ err)"
done
"$sacn" audit crowd1024.pcap >out 2>err && [ "$(grep -c '^"Source" ' out)" = 1024 ] && ! grep -q further out
verdict "1024 sources" $? "$(tail -n 1 out)"
"$sacn" audit crowd1025.pcap >out 2>err && [ "$(grep -c '^"Source" ' out)" = 1024 ] && [ "$(tail -n 1 out)" = "1 packet of further streams wasn't looked at" ]
verdict "one source more" $? "$(tail -n 1 out)"
"$sacn" audit crowd1026.pcap >out 2>err && [ "$(grep -c '^"Source" ' out)" = 1024 ] && [ "$(tail -n 1 out)" = "2 packets of further streams weren't looked at" ]
verdict "one source more, of two packets" $? "$(tail -n 1 out)"
# What is broken is told up to where a recording is faulty; what is no recording has nothing.
: >empty
{ cat rate50.pcap; printf 'cut'; } >cut.pcap
tells "a recording that is cut" 3 "refused cut.pcap octet * CutShort" rate50.text cut.pcap
# At the header of a frame, in its moment, and amid its octets: what came before is told, as of the recording that ends there.
wrong=
while read -r begins; do
  head -c "$begins" silent.pcap >whole.pcap
  timeout 20 "$sacn" audit whole.pcap >whole.text 2>/dev/null || wrong="$wrong $begins: status $?"
  for more in 1 9 20 100; do
    head -c $((begins + more)) silent.pcap >cut.pcap
    timeout 20 "$sacn" audit cut.pcap >out 2>err
    [ $? = 3 ] && grep -q "^refused cut.pcap octet $begins CutShort$" err && cmp -s out whole.text || wrong="$wrong $begins and $more: $(head -n 1 err)"
  done
done <frames
[ "$(wc -l <frames)" = 28 ] && [ -z "$wrong" ]
verdict "a recording that is cut anywhere" $? "$(wc -l <frames) frames,${wrong:0:200}"
printf 'no recording, but some other text' >other
tells "what is no recording" 3 "refused other octet 0 NotACapture" empty other
tells "a file that isn't there" 4 "device read absent" empty absent
"$sacn" audit clock.pcap >out 2>err && [ "$(head -n 1 out)" = '"Source 33" 2121..21 at 10.0.0.5: conforms' ] && [ ! -s err ]
verdict "a clock that goes back accuses nobody" $? "$(head -n 2 out)"
"$sacn" audit crowd.pcap >out 2>err && [ "$(tail -n 1 out)" = "3976 packets of further streams weren't looked at" ] && [ "$(grep -c '^"Source" ' out)" = 1024 ] && ! grep -q conforms out
verdict "five thousand sources" $? "$(tail -n 1 out), $(grep -c '^"Source" ' out) sources"
tells "another port" 0 "" nothing.text conforms.pcap --port 5569
cat silent.pcap | timeout 60 "$sacn" audit - >out 2>err && cmp -s out silent.text && [ ! -s err ]
verdict "standard input" $? "$(head -c 200 err out)"
# Objects: one a line, each a JSON document, of the same rules.
"$sacn" audit --json rate50.pcap >out 2>err && python3 - <<'P'
import json
objects = [json.loads(line) for line in open("out")]
assert [(it["event"], it["section"], it["universes"], it["first"], it["latest"], it["times"]) for it in objects] == [("breach", "6.6.1", [7, 8], 1880, 19880, 38)], objects
assert objects[0]["cid"] == "03" * 16 and objects[0]["name"] == "Source 3" and objects[0]["address"] == "10.0.0.5", objects
P
verdict "objects" $? "$(head -c 300 out)"
"$sacn" audit --json close.pcap >out 2>err && python3 - <<'P'
import json
objects = [json.loads(line) for line in open("out")]
told = [tuple(it.get(key) for key in ("event", "section", "rule", "universes", "first", "latest", "times")) for it in objects]
assert told == [("conforms", *[None] * 6), ("seen", "6.2.6", "the packets of an end less than 20 ms apart", [1, 2, 3], 20013, 20032, 6)], told
P
verdict "objects of ends that come close" $? "$(head -c 300 out)"
{ "$sacn" audit --json unread.pcap && "$sacn" audit --json frames.pcap; } >out 2>err && python3 - <<'P'
import json
objects = [json.loads(line) for line in open("out")]
unread = [tuple(it.get(key) for key in ("address", "section", "first", "latest", "times")) for it in objects if it["event"] == "unread"]
assert unread == [("10.0.0.100", None, 500, 1500, 2), ("10.0.0.9", "6.2.3", 1000, 4000, 2), ("10.0.0.9", "5.5", 2500, 2500, 1)], objects
frames = {"ms": 20035, "event": "unread_frames", "cut": 1, "fragments": 2, "ipv6": 1, "wrong_ipv4": 0, "other_links": 0, "too_long": 0}
assert [it for it in objects if it["event"] == "unread_frames"] == [frames] and objects[-1] == frames, objects
P
verdict "objects of what can't be read" $? "$(head -c 300 out)"
{ "$sacn" audit --json name64.pcap && "$sacn" audit --json counter.pcap && "$sacn" audit --json conforms.pcap; } >out 2>err && python3 - <<'P'
import json
objects = [json.loads(line) for line in open("out")]
told = [(it["ms"], it["event"], it.get("section"), it.get("rule"), it.get("universes"), it.get("first"), it.get("latest"), it.get("times")) for it in objects]
unseen = [("6.2.5", "numbers that don't go up"), ("6.2.5", "a number left out in each turn"), ("6.6.1", "faster than 44 a second"), ("6.6.2", "levels more than 1 s apart"),
          ("6.6.2", "changed levels sent fewer than three times"), ("8", "no list of universes for 12 s"), ("8", "a list that lacks a universe it sends")]
assert told == [(60, "breach", "6.2.2", "a name without an end", [1], 0, 60, 4)] + [(60, "unseen", *it, None, None, None, None) for it in unseen] + [
    (20100, "breach", "6.2.5", "one counter for several universes", None, 200, 20100, 798), (20035, "conforms", *[None] * 6)], told
P
verdict "objects of what can't be seen, of one counter and of what conforms" $? "$(head -c 300 out)"
"$sacn" audit --json twins.pcap >out 2>err && "$sacn" audit --json late.pcap >>out 2>>err && "$sacn" audit --json unheard.pcap >>out 2>>err && python3 - <<'P'
import json
objects = [json.loads(line) for line in open("out")]
twins, lists = [it for it in objects if it["name"] == "Desk"], [it for it in objects if it["name"] != "Desk"]
assert [(it["event"], it.get("section"), it.get("other")) for it in twins if it["cid"] == "1d" * 16] == [("conforms", None, None), ("seen", "6.2.2", "1e" * 16)], twins
assert [(it["event"], it.get("section"), it.get("other")) for it in twins if it["cid"] == "1e" * 16] == [("conforms", None, None), ("seen", "6.2.2", "1d" * 16)], twins
assert [(it["event"], it.get("section"), it.get("rule"), it.get("first"), it.get("latest"), it.get("times")) for it in lists] == [
    ("breach", "8", "no list of universes for 12 s", 12025, 25025, 2), ("conforms", None, None, None, None, None),
    ("seen", "8", "a list with a universe that wasn't heard", 20011, 20011, 1)], lists
P
verdict "objects of names and lists" $? "$(head -c 300 out)"

# OLA's packets and QLC+'s, judged here as tshark reads them, by the rules of which the packets of a universe tell.
cat >judge.py <<'P'
import subprocess, sys
fields = ["frame.time_epoch", "acn.dmx.seq_number", "acn.dmx.options", "acn.dmx.start_code2", "udp.payload"]
words = ["tshark", "-o", "acn.dmx_enable:TRUE", "--enable-heuristic", "acn", "-r", sys.argv[1], "-T", "fields"]
told = subprocess.run([*words, *(it for field in fields for it in ("-e", field))], capture_output=True, text=True, check=True).stdout
rows = [line.split("\t") for line in told.splitlines()]
def millis(epoch): return int(epoch.replace(".", "")) // 10**6
class Packet:
    def __init__(self, at, number, options, start, octets):
        self.at, self.number, self.ends, self.start = millis(at) - millis(rows[0][0]), int(number), int(options, 0) & 0x40, int(start, 0)
        self.levels = octets[2 * 126:]
packets = [Packet(*row) for row in rows if row[1]]
assert len(packets) > 5 and all(it.start == 0 for it in packets)
pairs = list(zip(packets, packets[1:]))
def follow(one, other): return other.number == (one.number + 1) % 256 and not one.ends
# a number that three turns in a row leave out, while all else goes up by one
left_out, turns = [], 0
for one, other in pairs:
    step = (other.number - one.number) % 256
    if step == 2 and one.number == 255: turns += 1
    elif step != 1: turns = 0
    if step == 2 and turns >= 3: left_out.append(other.at)
# more than 44 packets in each of two whole seconds in a row, told at the 45th of the second one
seconds = {}
for it in packets: seconds.setdefault((it.at - packets[0].at) // 1000, []).append(it.at)
fast = [of[44] for second, of in seconds.items() if len(of) > 44 and len(seconds.get(second - 1, [])) > 44]
apart = [other.at for one, other in pairs if follow(one, other) and other.at - one.at > 1000]
# levels that came fewer than three times before a pause of more than half a second
short, run = [], 1
for one, other in pairs:
    if follow(one, other) and other.at - one.at > 500 and run < 3: short.append(other.at)
    run = run + 1 if follow(one, other) and one.levels == other.levels else 1
close = [other.at for one, other in pairs if one.ends and other.ends and other.at - one.at < 20]
def line(rule, moments):
    if len(moments) == 1: print("  %s on 1 (once, at %.3f s)" % (rule, moments[0] / 1000))
    elif moments: print("  %s on 1 (%d times, the first at %.3f s, the latest at %.3f s)" % (rule, len(moments), moments[0] / 1000, moments[-1] / 1000))
line("6.2.5 a number left out in each turn", left_out)
line("seen, no breach: 6.2.6 the packets of an end less than 20 ms apart", close)
line("6.6.1 faster than 44 a second", fast)
line("6.6.2 levels more than 1 s apart", apart)
line("6.6.2 changed levels sent fewer than three times", short)
P
for it in "ola 3" "qlcplus-turns 2"; do
  set -- $it
  if ! command -v tshark >/dev/null; then
    skips "$1.pcap as tshark reads it" "there is no tshark"
    continue
  fi
  python3 judge.py "$top/examples/$1.pcap" >wanted 2>err
  "$sacn" audit "$top/examples/$1.pcap" >out 2>>err
  grep -E '^  (seen, no breach: )?6\.(2\.[56]|6\.[12]) ' out | diff wanted - >differ && [ "$(wc -l <wanted)" = "$2" ] && [ ! -s err ]
  verdict "$1.pcap breaks what its packets break as tshark reads them" $? "$(head -n 3 differ err | cut -c 1-160)"
done

# What is heard as it comes. A watch ends with its input.
printf 'version = 1\nudp_port = %s\n[[port]]\nnumber = 1\nuniverse = 1\n' "$shown" >node.toml
printf 'version = 1\ncid = "00010203-0405-0607-0809-0a0b0c0d0e0f"\nname = "Desk"\nuniverses = [1]\nsend_to = [%s]\n[[patch]]\nchannel = 1\nuniverse = 1\nslot = 1\n' "$heard" >show.toml
send_live() { python3 -c 'import socket, sys; s = socket.socket(socket.AF_INET, socket.SOCK_DGRAM); [s.sendto(open("live%d.sacn" % it, "rb").read(), ("127.0.0.1", int(sys.argv[1]))) for it in range(4)]' "$1"; }
mkfifo held orders
# hears_live WORD..: starts a watch that audits
hears_live() {
  : >hears
  "$sacn" watch --port "$heard" --audit "$@" <held >live 2>hears &
  watch=$!
  exec 4>held
  wait_for_line hears '^hears'
}
hears_live
: >answers
"$sacn" desk show.toml <orders >answers 2>desk &
desk=$!
exec 3>orders
# (how long this machine let a process wait that only sleeps: a desk that isn't let run can't keep its second)
python3 "$top/tests/pulse.py" stood 3>&- 4>&- &
pulse=$!
# Levels that rest, an end and a beginning, and the lists of 25 s, for as long as the rules want to be seen.
echo "1 at full" >&3
wait_for_line answers '^ok'
sleep 12
echo "end 1" >&3
sleep 1
echo "start 1" >&3
sleep 12
exec 3>&-
wait_for_end $desk
exec 4>&-
wait_for_end $watch
status=$?
# (two packets of an end, which the desk sends 25 ms apart, are told as close where one of them or the watch waited for more than 5)
others=$(tail -n +2 live)
[ "$(cat stood)" -gt 3 ] && others=$(grep -v '^  seen, no breach: 6\.2\.6 the packets of an end ' <<<"$others")
[ $status = 0 ] && [ "$(head -n 1 live)" = '"Desk" 0001..0f at 127.0.0.1: conforms' ] && [ -z "$others" ]
told=$?
kill $pulse
if [ $told != 0 ] && [ "$(cat stood)" -gt 20 ]; then
  skips "a desk that a watch hears conforms" "this machine stood still for $(cat stood) ms"
else
  verdict "a desk that a watch hears conforms" $told "status $status, $(head -c 300 live)"
fi
hears_live --json
send_live "$heard"
# (what was read before the end of standard input is told)
wait_until is_taken "$heard"
exec 4>&-
wait_for_end $watch
python3 - <<'P'
import json
objects = [json.loads(line) for line in open("live")]
broken = [(it["event"], it.get("cid"), it.get("section"), it.get("rule"), it.get("universes"), it.get("times")) for it in objects if it["event"] in ("breach", "unread")]
assert broken == [("breach", "1f" * 16, "6.2.2", "a name without an end", [1], 3), ("unread", None, "6.2.3", "the priority is above 200", None, 1)], objects
P
verdict "objects of a watch" $? "$(head -c 300 live)"
: >hears
"$sacn" gateway node.toml --audit --seconds 8 >frames 2>hears &
gateway=$!
wait_for_line hears '^hears'
send_live "$shown"
wait $gateway
status=$?
name=$(printf 'n%.0s' $(seq 64))
[ $status = 0 ] && grep -q '^1 [0-9]* 00ff' frames && grep -qxF "\"$name\" 1f1f..1f at 127.0.0.1:" hears && grep -qE '^  6\.2\.2 a name without an end on 1 \(3 times, the first at [0-9.]+ s, the latest at [0-9.]+ s\)$' hears &&
  [[ $(tail -n 1 hears) =~ ^"127.0.0.1 sends what can't be read: 6.2.3 the priority is above 200 (once, at "[0-9.]+" s)"$ ]]
verdict "a gateway tells once its seconds are over" $? "status $status, $(tail -n 4 hears)"

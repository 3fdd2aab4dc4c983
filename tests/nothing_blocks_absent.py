"""Looks of nothing_blocks.py at a desk beside hosts that are off: what it says of them, and what hosts that are on get meanwhile."""
import re
import socket
import subprocess
import time

from stage import Desk, gateway, Heard, Lines, ROOM, SACN, said, second_space, show, tap, text_of, want


def absent(count, universes):
    """A desk sends to hosts of its subnet of which all but the last are absent, while it fades."""
    other, inside = second_space()
    # (behind 42 octets of Ethernet, IP and UDP)
    heard = Heard(tap(other, "vb"), skip=42)
    gateway(space=inside)
    hosts = [f"10.77.0.{100 + n}" for n in range(count)]
    to = [word for host in [*hosts, "10.77.0.2"] for word in ("--to", host)]
    desk = Desk([SACN, "desk", show(universes), *to], stderr=open(f"{ROOM}/desk", "w", encoding="utf-8"), text=True)
    begin = time.time()
    answers = [desk.order("go\n", "^ok")]
    while time.time() - begin < 10 and None not in answers:
        time.sleep(0.5)
        answers.append(desk.order("status\n", "^cue 1 "))
    time.sleep(max(0, begin + 10 - time.time()))
    end = time.time()
    desk.run.stdin.close()
    all_of = range(1, universes + 1)
    greatest = heard.gap(all_of, begin, end)
    want(greatest < 1, f"greatest gap of {universes} universes in 10 s: {greatest:.2f} s (under 1)")
    late = [answer for answer in answers if answer is None or answer > 1]
    slowest = "one isn't answered in 5 s" if None in answers else f"the slowest answered after {max(answers):.2f} s (under 1)"
    want(not late, f"{len(answers)} orders, {slowest}")
    try:
        desk.run.wait(timeout=10)
    except subprocess.TimeoutExpired:
        pass
    heard.wants_ends(all_of, end, 2)
    want(desk.run.poll() == 0, f"the desk's status is {desk.run.poll()}")
    named = [host for line in text_of("desk").splitlines() for host in hosts_off(line)]
    want(named == hosts, f"absent hosts that are named: {len(named)} of {count}")
    said("said", "ended", 20)
    told = [line.rpartition(": ")[2] for line in text_of("said").splitlines() if line.startswith('"')]
    want(told == ["came", "ended"], f"the gateway tells of its source: {told}")


def two_hosts_are_absent():
    absent(2, 4)


def twenty_hosts_are_absent():
    absent(20, 64)


OFF = re.compile("([0-9., ]+) (doesn't answer on this network: is it on|don't answer on this network: are they on)[?]\n?")


def hosts_off(line):
    """The hosts of which a desk's line says that they don't answer."""
    found = OFF.fullmatch(line)
    return found[1].split(", ") if found else []


def datagrams_at(process):
    """How many datagrams came to the namespace of a process so far."""
    with open(f"/proc/{process}/net/snmp", encoding="utf-8") as lines:
        names, values = [line.split() for line in lines if line.startswith("Udp:")]
    return sum(int(value) for name, value in zip(names, values) if name in ("InDatagrams", "NoPorts", "InErrors"))


class Rig:
    """A desk of so many universes, of whose 64 hosts all but the last are off."""

    def __init__(self, universes, is_fading=True):
        self.other, self.inside = second_space()
        # (so that a host that is switched off is missed within seconds)
        for name, value in (("base_reachable_time_ms", 1000), ("delay_first_probe_time", 1)):
            with open(f"/proc/sys/net/ipv4/neigh/va/{name}", "w", encoding="utf-8") as out:
                out.write(f"{value}\n")
        gateway(space=self.inside)
        self.universes, self.hosts = universes, [f"10.77.0.{100 + n}" for n in range(63)]
        to = [word for host in [*self.hosts, "10.77.0.2"] for word in ("--to", host)]
        self.begin = time.monotonic()
        self.desk = Desk([SACN, "desk", show(universes), *to], stderr=subprocess.PIPE, text=True)
        self.said = Lines(self.desk.run.stderr)
        if is_fading:
            want(self.desk.order("go\n", "^ok", 20) is not None, "an order is answered")

    def rate(self, seconds):
        """The packets a second of each universe that come to hosts that are on."""
        before, begin = datagrams_at(self.other), time.monotonic()
        time.sleep(seconds)
        return (datagrams_at(self.other) - before) / (time.monotonic() - begin) / self.universes

    def share(self, host):
        """Which part of the packets at hosts that are on comes to this one, of four thousand."""
        wanted, counts, limit = socket.inet_aton(host), [0, 0], time.monotonic() + 20
        with tap(self.other, "vb") as sock:
            sock.settimeout(1)
            while sum(counts) < 4000 and time.monotonic() < limit:
                try:
                    octets = sock.recv(64)
                except TimeoutError:
                    continue
                # (behind 14 octets of Ethernet: UDP, and the address that it goes to)
                if octets[23] == socket.IPPROTO_UDP:
                    counts[octets[30:34] == wanted] += 1
        return counts[1] / max(1, sum(counts))

    def switch(self, host, is_on):
        subprocess.run([*self.inside, "ip", "address", "add" if is_on else "del", f"{host}/24", "dev", "vb"], check=True)

    def wants_first_line(self):
        """One line that has all hosts that are off, once the machine has asked for them for three seconds."""
        took = self.said.until(lambda line: hosts_off(line) == self.hosts, 25)
        moments = [moment for moment, line in self.said.lines if not line.startswith("desk ")]
        moment = moments[0] - self.begin if moments else 0
        want(took is not None and 3 < moment < 15, f"a line has all {len(self.hosts)} hosts that are off, {moment:.1f} s after the start (3 to 15)")

    def wants_lines(self, count):
        # (besides what it sends where)
        lines = [line for _, line in self.said.lines if not line.startswith("desk ")]
        want(len(lines) == count, f"it says {len(lines)} lines ({count}): {sorted(line[-60:] for line in lines)[:3]}")


def most_hosts_are_off(universes):
    """What a desk says of hosts that are off, how many packets one that is on gets beside them, and what is said of one that is switched on."""
    rig = Rig(universes)
    rig.wants_first_line()
    # (Linux forgets those that it has given up where there are many: that is no answer)
    subprocess.run(["ip", "neighbour", "flush", "all", "dev", "va"], check=True)
    # (a thousand universes take a processor, of which a busy machine gives a part)
    least = 20 if universes < 1000 else 10
    rate = rig.rate(8)
    want(rate > least, f"{rate:.1f} packets a second of each of {universes} universes at the host that is on (over {least})")
    rig.wants_lines(1)
    rig.switch(rig.hosts[5], True)
    took = rig.said.until(lambda line: line == f"{rig.hosts[5]} answers now\n", 20)
    want(took is not None and took < 8, f"a host that is switched on is told after {took} s (under 8)")
    # (how many there are in all a busy machine limits, but not which part of them comes to whom)
    both, share = rig.rate(4), rig.share(rig.hosts[5])
    want(both > least and 0.3 < share < 0.7, f"{both:.1f} packets a second at both (over {least}), of which that one has {100 * share:.0f} % (30 to 70)")
    rig.wants_lines(2)
    return rig


def most_hosts_are_off_at_16_universes():
    rig = most_hosts_are_off(16)
    rig.switch(rig.hosts[5], False)
    took = rig.said.until(lambda line: hosts_off(line) == [rig.hosts[5]], 25)
    want(took is not None and took > 3, f"one that is switched off again is told after {took} s (over 3)")
    time.sleep(3)
    rig.wants_lines(3)


def most_hosts_are_off_at_170_universes():
    most_hosts_are_off(170)


def most_hosts_are_off_at_1024_universes():
    most_hosts_are_off(1024)


def hosts_are_off_while_a_universe_rests():
    """They are told also where a packet a second is all that is sent, and again after a minute."""
    rig = Rig(1, is_fading=False)
    rig.wants_first_line()
    took = rig.said.until(lambda line: hosts_off(line) == rig.hosts, 80)
    want(took is not None and 55 < took < 75, f"they are told again after {took} s (55 to 75)")
    rig.wants_lines(2)

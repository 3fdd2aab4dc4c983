"""Lights a gateway of two setups, and one of each alone, for tests/setups.sh: python3 setups.py SACN."""

import os
import subprocess
import sys
import tempfile
import threading

import e131

# The UDP ports of the gateway of both setups, and of those of one alone.
BOTH, FIRST_ALONE, SECOND_ALONE = (e131.free_udp_port() for _ in range(3))
FIRST, SECOND = range(1, 17), range(17, 33)
# How long a line is waited for at most, in seconds.
PATIENCE = 60


def setup(udp_port, ports):
    """A setup in which port N shows universe N."""
    text = f"version = 1\nudp_port = {udp_port}\n"
    return text + "".join(f"[[port]]\nnumber = {port}\nuniverse = {port}\n" for port in ports)


def ranges(universes):
    """A setup in which eight universes share each port, a slot each."""
    text = f"version = 2\nudp_port = {BOTH}\n"
    for place, universe in enumerate(universes):
        if place % 8 == 0:
            text += f"[[port]]\nnumber = {place // 8 + 1}\n"
        text += f"[[port.range]]\nuniverse = {universe}\nslot = 1\ncount = 1\nport_slot = {place % 8 + 1}\n"
    return text


def show(universes):
    """Channel N on slot N of universe N."""
    text = f'version = 1\ncid = "00010203-0405-0607-0809-0a0b0c0d0e0f"\nname = "Desk"\nuniverses = {list(universes)}\nsend_to = [{BOTH}]\n'
    return text + "".join(f"[[patch]]\nchannel = {it}\nuniverse = {it}\nslot = {it}\n" for it in universes)


def frame(slot=0):
    """A frame of start code 0 in which this slot is full, and each other dark."""
    octets = bytearray(513)
    if slot:
        octets[slot] = 255
    return octets.hex()


class Run:
    """A run of the program, and the lines of its two outputs."""

    def __init__(self, sacn, *words):
        self.process = subprocess.Popen([sacn, *words], stdin=subprocess.PIPE, stdout=subprocess.PIPE, stderr=subprocess.PIPE, text=True)
        self.out, self.err = [], []
        self.came = threading.Condition()
        self.readers = [threading.Thread(target=self.read, args=it, daemon=True) for it in [(self.process.stdout, self.out), (self.process.stderr, self.err)]]
        for reader in self.readers:
            reader.start()

    def read(self, stream, lines):
        for line in stream:
            with self.came:
                lines.append(line.rstrip("\n"))
                self.came.notify_all()

    def waits(self, holds):
        with self.came:
            return self.came.wait_for(holds, PATIENCE)

    def says(self, words):
        return self.waits(lambda: any(line.startswith(words) for line in self.err))

    def frames(self, port):
        """The frames of a port, in order."""
        return [line.split()[2] for line in self.out if line.split()[0] == str(port)]

    def shows(self, port, wanted):
        return self.waits(lambda: self.frames(port)[-1:] == [wanted])

    def type(self, line):
        self.process.stdin.write(line + "\n")
        self.process.stdin.flush()

    def end(self):
        self.process.terminate()
        self.process.wait(PATIENCE)
        for reader in self.readers:
            reader.join(PATIENCE)


def verdict(name, why):
    print(f"not ok setups: {name}: {why}" if why else f"ok setups: {name}")
    return not why


def refused(sacn, status, line, *words):
    run = subprocess.run([sacn, "gateway", *words, "--seconds", "5"], stdin=subprocess.DEVNULL, capture_output=True, text=True, timeout=PATIENCE)
    if run.returncode == status and line in run.stderr and not run.stdout:
        return ""
    return f"status {run.returncode}, {run.stderr.strip()!r}"


def refusals(sacn):
    yield verdict("a port number of two setups is refused, and both files are named", refused(sacn, 3, "refused again.toml PortTaken 16: first.toml has it\n", "first.toml", "second.toml", "again.toml"))
    yield verdict("a setup of another UDP port is refused", refused(sacn, 3, f"refused second_alone.toml UdpPort {SECOND_ALONE}: first.toml has {BOTH}\n", "first.toml", "second_alone.toml"))
    yield verdict("an interface for a port of none of the setups is refused", refused(sacn, 2, "error: 33=device: NoPort\n", "first.toml", "second.toml", "--widget", "33=device"))
    advice = "what is more goes into a second setup: sacn gateway SETUP SETUP.. takes up to 32 of them\n"
    for name, many in [("ports", "ports"), ("ranges", "universes")]:
        text = f"refused {name}.toml Limit\n{name}.toml: "
        why = refused(sacn, 3, text, f"{name}.toml") or refused(sacn, 3, f"\n{name}.toml: {advice}", f"{name}.toml")
        yield verdict(f"a setup of seventeen {many} is refused, with what takes more", why)
    yield verdict("more than 32 setups are refused", refused(sacn, 2, "TooManySetups", *["first.toml"] * 33))


def light(desk, gateways):
    """Lights one channel after another, and then darkens all; returns what didn't show."""
    for port in [*FIRST, *SECOND]:
        desk.type(f"{port} at full")
        for run, ports in gateways:
            if port in ports and not run.shows(port, frame(port)):
                return f"port {port} isn't lit: {run.frames(port)[-1:]}"
    desk.type("blackout")
    for run, ports in gateways:
        for port in ports:
            if not run.shows(port, frame()):
                return f"port {port} isn't dark"
    return ""


def unlike_rule(run, ports):
    """The ports whose lines aren't those of the rule: at first dark, then with one slot full, then dark."""
    return [port for port in ports if run.frames(port) != [frame(), frame(port), frame()]]


def unlike_alone(both, alone, ports):
    return [port for port in ports if both.frames(port) != alone.frames(port)]


def heard_groups(run):
    return [line for line in run.err if line.startswith("group ")]


def main(sacn):
    files = {"first": setup(BOTH, FIRST), "second": setup(BOTH, SECOND), "again": setup(BOTH, [40, 16]), "show": show([*FIRST, *SECOND])}
    files.update(ports=setup(BOTH, range(1, 18)), ranges=ranges(range(1, 18)))
    files.update(first_alone=setup(FIRST_ALONE, FIRST), second_alone=setup(SECOND_ALONE, SECOND))
    for name, text in files.items():
        with open(f"{name}.toml", "w", encoding="utf-8") as file:
            file.write(text)
    passed = list(refusals(sacn))
    both = Run(sacn, "gateway", "first.toml", "second.toml", "--seconds", "600")
    first = Run(sacn, "gateway", "first_alone.toml", "--seconds", "600")
    second = Run(sacn, "gateway", "second_alone.toml", "--seconds", "600")
    hear = all(run.says(f"hears 0.0.0.0:{port}") for run, port in [(both, BOTH), (first, FIRST_ALONE), (second, SECOND_ALONE)])
    passed.append(verdict("a gateway of two setups hears at their port", "" if hear else f"{both.err}"))
    hosts = [word for port in (BOTH, FIRST_ALONE, SECOND_ALONE) for word in ("--to", f"127.0.0.1:{port}")]
    desk = Run(sacn, "desk", "show.toml", *hosts)
    why = light(desk, [(both, [*FIRST, *SECOND]), (first, FIRST), (second, SECOND)])
    passed.append(verdict("a desk lights 32 ports of one gateway", why))
    desk.process.stdin.close()
    desk.process.wait(PATIENCE)
    for run in (both, first, second):
        run.end()
    wrong = [it for run, ports in [(both, [*FIRST, *SECOND]), (first, FIRST), (second, SECOND)] for it in unlike_rule(run, ports)]
    passed.append(verdict("each port's lines are those of the rule", f"ports {wrong}" if wrong else ""))
    wrong = unlike_alone(both, first, FIRST) + unlike_alone(both, second, SECOND)
    passed.append(verdict("what is written of each setup is what a gateway of it alone writes", f"ports {wrong}" if wrong else ""))
    groups = [f"group 239.255.0.{universe} universe {universe}" for universe in [*FIRST, *SECOND]]
    passed.append(verdict("the groups of both are told", "" if heard_groups(both) == groups else f"{heard_groups(both)}"))
    print(f"{sum(passed)} passed, {len(passed) - sum(passed)} failed")
    return 0 if all(passed) else 1


if __name__ == "__main__":
    program = os.path.realpath(sys.argv[1])
    with tempfile.TemporaryDirectory() as room:
        os.chdir(room)
        status = main(program)
        os.chdir("/")
    sys.exit(status)

#!/usr/bin/env python3
"""The looks of ola.sh, one by its name: ola.py NAME. Each prints a line 'ok NAME' or 'not ok NAME: what was seen' for each of its checks.

It ends with 77 where it can't be had here. It is run by root in a network namespace of its own, which it changes as it needs, and takes the built
program of SACN and the helper of SACN_JOIN.
"""
import http.client
import json
import os
import re
import shlex
import signal
import socket
import subprocess
import sys
import time
import urllib.parse
import uuid

# (no folder of compiled files is left in the tree)
sys.dont_write_bytecode = True
import e131
import stage
from stage import DESK, finish, Heard, PORT, ROOM, SACN, second_space, start, tap, text_of, TOP, write

# Octets of a data packet (E1.31, table 4-1): the sequence number and the level of the first slot.
NUMBER, FIRST_LEVEL = 111, 126
# OLA's user here, since it refuses to be root: nobody.
USER = 65534
OLA_CID, OLA_NAME = uuid.UUID("0a0b0c0d-0e0f-4001-8203-040506070809"), "Lights of OLA"
OTHER_PLUGINS = """artnet dummy espnet ftdidmx gpio karate kinet milinst opendmx openpixelcontrol osc pathport renard sandnet shownet spi stageprofi uartdmx
usbdmx usbserial""".split()


def check(name, is_so, seen):
    """Prints what became of a check."""
    print(f"ok {name}" if is_so else f"not ok {name}: {seen}".replace("\n", " | "), flush=True)


def wait(is_so, seconds):
    """Waits until something is so, at most so many seconds; whether it is."""
    limit = time.monotonic() + seconds
    while not is_so():
        if time.monotonic() > limit:
            return False
        time.sleep(0.02)
    return True


def refused(number):
    """The held numbers at which a packet of this number is discarded (E1.31, 6.7.2): it less the held one, in signed 8-bit arithmetic, is above -20 and at most 0."""
    differences = {held: (number - held + 128) % 256 - 128 for held in range(256)}
    return {held for held, difference in differences.items() if -20 < difference <= 0}


class Ola:
    """OLA's daemon with one plugin, that of E1.31, by a folder of its own; asked and ordered as its pages do it."""

    def __init__(self, inputs=(), outputs=()):
        folder = f"{ROOM}/olad"
        os.mkdir(folder)
        for name in OTHER_PLUGINS:
            write(f"olad/ola-{name}.conf", "enabled = false\n")
        ports = f"input_ports = {max(1, len(inputs))}\noutput_ports = {max(1, len(outputs))}\n"
        write("olad/ola-e131.conf", f"cid = {OLA_CID}\nenabled = true\n{ports}ip = {DESK}\nprepend_hostname = false\n")
        write("olad/ola-server.conf", f"instance-name = {OLA_NAME}\n")
        # (11 is the plugin's number, and 1 its device's)
        patch = [f"11-1-I-{port} = {universe}\n" for port, universe in enumerate(inputs)]
        for port, universe in enumerate(outputs):
            patch.append(f"11-1-O-{port} = {universe}\n11-1-O-{port}_priority_mode = 1\n11-1-O-{port}_priority_value = 120\n")
        write("olad/ola-port.conf", "".join(patch))
        os.chmod(ROOM, 0o711)
        for name in [folder, *(f"{folder}/{it}" for it in os.listdir(folder))]:
            os.chown(name, USER, USER)
        words = ["setpriv", f"--reuid={USER}", f"--regid={USER}", "--clear-groups", "olad", "--config-dir", folder, "--no-register-with-dns-sd", "--log-level", "1"]
        said = open(f"{ROOM}/olad.said", "w", encoding="utf-8")
        self.run = start(words, stdin=subprocess.DEVNULL, stdout=said, stderr=said, env={**os.environ, "HOME": folder})
        self.line = http.client.HTTPConnection("127.0.0.1", 9090, timeout=20)
        last = [*inputs, *outputs][-1]
        if not wait(lambda: self.levels(last) is not None, 40):
            raise RuntimeError(f"olad isn't ready: {text_of('olad.said')[-300:]}")

    def asked(self, method, path, body=None):
        try:
            self.line.request(method, path, body, {"Content-Type": "application/x-www-form-urlencoded"} if body else {})
            return self.line.getresponse().read()
        except (OSError, http.client.HTTPException):
            self.line.close()
            return b""

    def levels(self, universe):
        """The levels of a universe of OLA's; none where it hasn't that universe."""
        answer = self.asked("GET", f"/get_dmx?u={universe}")
        state = json.loads(answer) if answer else {"error": "no answer"}
        return None if state["error"] else state["dmx"]

    def shows(self, universe):
        """The level of a universe's first slot; none where nothing was ever set there."""
        return (self.levels(universe) or [None])[0]

    def set(self, universe, levels):
        self.asked("POST", "/set_dmx", urllib.parse.urlencode({"u": universe, "d": ",".join(map(str, levels))}))


def first_packets(count):
    """The first two packets of each of so many universes that a desk sends which is lit at once, with their own octets."""
    sock = socket.socket(socket.AF_INET, socket.SOCK_DGRAM)
    sock.setsockopt(socket.SOL_SOCKET, stage.SO_RCVBUFFORCE, 8388608)
    sock.bind(("127.0.0.1", 0))
    sock.settimeout(30)
    universes = list(range(1, count + 1))
    text = f'version = 1\ncid = "{uuid.UUID(bytes=stage.CID)}"\nname = "Desk"\nuniverses = {universes}\nsend_to = [{PORT}]\n[[cue]]\nnumber = 1\nfade = 0\nlevels = [[1, 65535]]\n'
    show = write("again.toml", text + "".join(f"[[patch]]\nchannel = 1\nuniverse = {universe}\nslot = 1\n" for universe in universes))
    script = write("again.txt", "0 go\n")
    run = start([SACN, "desk", show, "--script", script, "--stay", "--to", f"127.0.0.1:{sock.getsockname()[1]}"], stdin=subprocess.PIPE, stdout=subprocess.DEVNULL)
    packets = {universe: [] for universe in universes}
    while any(len(it) < 2 for it in packets.values()):
        octets = sock.recv(2048)
        # (beside the data packets it lists its universes)
        packet = e131.read(octets)
        if packet:
            packets[packet.universe].append(octets)
    run.kill()
    run.wait()
    return {universe: it[:2] for universe, it in packets.items()}


class Lives:
    """Earlier lives of a desk at OLA, on each of 256 universes with another number: on universe u the number u - 1."""

    MARK, COUNT, TOGETHER = 257, 256, 32

    def __init__(self):
        # (of so many groups Linux lets a socket be a member only where it is told)
        with open("/proc/sys/net/ipv4/igmp_max_memberships", "w", encoding="utf-8") as out:
            out.write("400\n")
        self.ola = Ola(range(1, self.MARK + 1))
        self.sock = socket.socket(socket.AF_INET, socket.SOCK_DGRAM)
        self.marks = 0

    def send(self, octets):
        self.sock.sendto(octets, (DESK, PORT))

    def wait_for_all(self):
        """Waits until OLA has handled all that it was sent: it takes datagrams in their order, and so another source's, on another universe, last."""
        self.marks += 1
        level = 1 + self.marks % 255
        self.send(stage.packet(self.marks, level, self.MARK, cid=b"the last of them"))
        if not wait(lambda: self.ola.shows(self.MARK) == level, 20):
            raise RuntimeError("olad doesn't take a packet in 20 s")

    def end(self, universe):
        """Ends whatever life is held: of two numbers that lie 20 apart one is taken."""
        for number in (universe, universe + 20):
            self.send(stage.packet(number, 0, universe, 0x40))

    def tried(self, universes, packets, copies, level):
        """The universes that show the desk's level, once an earlier life's was shown on all of them; none where that life was too old by then."""
        for universe in universes:
            self.end(universe)
        self.wait_for_all()
        begin = time.monotonic()
        for universe in universes:
            self.send(stage.packet(universe - 1, level, universe))
        self.wait_for_all()
        held = [self.ola.shows(universe) for universe in universes]
        if set(held) != {level}:
            raise RuntimeError(f"olad shows {held} of an earlier life at {level}, from universe {universes[0]} on")
        for universe in universes:
            for copy in copies:
                self.send(packets[universe][copy])
        self.wait_for_all()
        # (E1.31, 6.7.1: a source is lost after 2.5 s, and its number with it)
        if time.monotonic() - begin > 2.4:
            return None
        shown = {universe: self.ola.shows(universe) for universe in universes}
        if not set(shown.values()) <= {level, 255}:
            raise RuntimeError(f"olad shows {shown}, where {level} was held and 255 sent")
        return {universe for universe, it in shown.items() if it == 255}

    def not_taken(self, packets, copies, level):
        """The held numbers at which OLA takes none of these of a desk's first packets."""
        lit = set()
        for first in range(1, self.COUNT + 1, self.TOGETHER):
            universes = range(first, first + self.TOGETHER)
            tries = (self.tried(universes, packets, copies, level) for _ in range(5))
            found = next((it for it in tries if it is not None), None)
            if found is None:
                raise RuntimeError("olad needs more than 2.4 s for 32 universes, five times")
            lit |= found
        return set(range(256)) - {universe - 1 for universe in lit}


def olad_takes_a_desk_that_is_started_again():
    """While OLA holds each of the 256 numbers of a desk's earlier life it takes the desk's two first packets; of one of them alone it discards what the rule says."""
    # (OLA wants a device with an address, on a cable)
    second_space()
    packets = first_packets(Lives.COUNT)
    numbers = {tuple(it[NUMBER] for it in two) for two in packets.values()}
    alike = all(two[0][:NUMBER] + two[0][NUMBER + 1:] == two[1][:NUMBER] + two[1][NUMBER + 1:] and two[0][FIRST_LEVEL] == 255 for two in packets.values())
    first, second = next(iter(numbers))
    check("a desk's first packet is sent twice, numbered 20 apart", alike and len(numbers) == 1 and second == (first + 20) % 256, f"numbers {numbers}, alike: {alike}")
    lives = Lives()
    failed = lives.not_taken(packets, (0, 1), 7)
    check("olad shows a desk that is started again at each of 256 held numbers", not failed, f"not at {sorted(failed)}")
    for copy, number, level in ((0, first, 8), (1, second, 9)):
        failed = lives.not_taken(packets, (copy,), level)
        wanted = refused(number)
        check(f"olad doesn't take {('the first', 'the second')[copy]} of them alone at 20 held numbers, those that the rule discards", failed == wanted and len(failed) == 20,
              f"not at {sorted(failed)}, and the rule says {sorted(wanted)}")


def olad_shows_what_a_desks_page_orders():
    """What is typed on a desk's page reaches OLA; a page of another key, or of another host, lights nothing."""
    second_space()
    ola, place, key = Ola(inputs=(1,)), "127.0.0.1:8571", "stage"
    text = f'version = 1\ncid = "{uuid.UUID(bytes=stage.CID)}"\nname = "Desk"\nuniverses = [1]\nsend_to = []\n[[cue]]\nnumber = 1\nfade = 0\nlevels = [[1, 65535]]\n'
    show = write("page.toml", text + "[[patch]]\nchannel = 1\nuniverse = 1\nslot = 1\n")
    said = open(f"{ROOM}/page.said", "w", encoding="utf-8")
    desk = start([SACN, "desk", show, "--to", DESK, "--page", place, "--key", key], stdin=subprocess.PIPE, stdout=subprocess.DEVNULL, stderr=said)
    is_served = stage.said("page.said", "page http")

    def order(text, **other):
        line = http.client.HTTPConnection(place, timeout=30)
        line.request("POST", "/order", text, {"Origin": f"http://{place}", "X-Key": key, **other})
        answer = line.getresponse()
        return answer.status, answer.read().decode().strip()

    seen = [(order("1 at full"), wait(lambda: ola.shows(1) == 255, 20)), (order("1 at 50"), wait(lambda: ola.shows(1) == 127, 20)), (order("blackout"), wait(lambda: ola.shows(1) == 0, 20))]
    wanted = [((200, "ok 1 at 100 %"), True), ((200, "ok 1 at 50 %"), True), ((200, "ok master at 0 %"), True)]
    check("olad shows what a desk's page orders", is_served and seen == wanted, f"{seen}; {text_of('page.said')}")
    refused = [order("restore", **{"Origin": "http://10.77.0.2:8571"})[0], order("restore", **{"X-Key": "Stage"})[0]]
    is_dark = not wait(lambda: ola.shows(1) != 0, 1.5)
    check("another page and another key light nothing at olad", refused == [403, 403] and is_dark, f"{refused}, {ola.shows(1)}")
    is_back = order("restore")[0] == 200 and wait(lambda: ola.shows(1) == 127, 20)
    desk.stdin.close()
    desk.wait(timeout=30)
    check("olad shows the levels of before once the page restores them", is_back, f"{ola.shows(1)}")


def olad_shows_what_is_played():
    """A recording of two sources that is played as one lights OLA with their merge; a desk of a higher priority stands above it, and lets it through again."""
    second_space()
    ola = Ola(inputs=(1,))
    recording = e131.Recording(f"{ROOM}/night.pcap")
    for place in range(300):
        recording.sent(200 * place, 3, e131.data(1, place, [10, 200, 0]))
        recording.sent(200 * place, 4, e131.data(1, place, [50, 100, 30], cid=b"the other source", name=b"Other"))
    recording.close()
    head = f'version = 1\ncid = "{uuid.UUID(bytes=stage.CID)}"\nuniverses = [1]\nsend_to = []\n'
    backup = write("backup.toml", f'{head}name = "Backup"\npriority = 90\n'.replace(str(uuid.UUID(bytes=stage.CID)), str(OLA_CID)))
    show = write("over.toml", f'{head}name = "Desk"\n[[cue]]\nnumber = 1\nfade = 0\nlevels = [[1, 65535]]\n[[patch]]\nchannel = 1\nuniverse = 1\nslot = 1\n')
    by = {"stdin": subprocess.PIPE, "stdout": subprocess.DEVNULL, "text": True}
    said = open(f"{ROOM}/played.said", "w", encoding="utf-8")
    player = start([SACN, "replay", f"{ROOM}/night.pcap", "--as", backup, "--multicast", "--bind", DESK], stderr=said, **by)
    merge, lit = [50, 200, 30], [255, 0, 0]

    def shows(levels):
        return wait(lambda: (ola.levels(1) or [])[:3] == levels, 20)

    is_merged = shows(merge)
    check("olad shows the merge of a recording that is played as a source", is_merged, f"{(ola.levels(1) or [])[:3]}; {text_of('played.said')}")
    desk = start([SACN, "desk", show, "--multicast", "--bind", DESK], stderr=subprocess.DEVNULL, **by)
    desk.stdin.write("go\n")
    desk.stdin.flush()
    is_over = shows(lit)
    desk.stdin.close()
    desk.wait(timeout=30)
    check("a desk of a higher priority stands above it, and lets it through", is_over and shows(merge), f"{is_over}, {(ola.levels(1) or [])[:3]}")
    player.stdin.write("quit\n")
    player.stdin.close()
    check("a playback that is ended ends well", player.wait(timeout=30) == 0, text_of("played.said"))


class Watch:
    """A watch of lines in another namespace that has joined groups there, started as users start it."""

    def __init__(self, inside, *words):
        # (what the launcher does once it has found the program)
        script = write("watch", f'. {shlex.quote(TOP)}/tools/run.sh\nsacn_join={shlex.quote(os.environ["SACN_JOIN"])}\nrun {shlex.quote(SACN)} watch "$@"\n')
        self.out, self.said = open(f"{ROOM}/lines", "w", encoding="utf-8"), open(f"{ROOM}/said", "w", encoding="utf-8")
        self.run = start([*inside, "bash", script, "--join", "vb", "--plain", "--each", *words], stdin=subprocess.DEVNULL, stdout=self.out, stderr=self.said)
        if not stage.said("said", "hears"):
            raise RuntimeError(f"the watch doesn't begin: {text_of('said')}")

    def tells(self, pattern, seconds=20):
        return stage.said("lines", pattern, seconds)

    def end(self):
        self.run.terminate()
        self.run.wait(timeout=30)

    def events(self):
        """The lines of sources: the universe, the source, and what is told of it."""
        found = re.findall(r'^ *[0-9.]+ s  universe +([0-9]+)  ([0-9a-f]{32}) "([^"]*)"  (.*)$', text_of("lines"), re.M)
        return [(int(universe), cid, name, what) for universe, cid, name, what in found]


def a_watch_hears_olad():
    """OLA sends universes 1, 128 and 129 by multicast; a watch joins 1 to 128 of itself, and others where they are named."""
    other, inside = second_space()
    heard = Heard(tap(other, "vb"), skip=42)
    ola = Ola(outputs=(129, 128, 1))
    source = (OLA_CID.hex, OLA_NAME)
    appears = f"appears at {DESK}:{PORT}, priority 120"

    def sends(levels):
        """Whether OLA's packets of all three come to the watch's device."""
        before = {universe: len(heard.came.get(universe, [])) for universe in (1, 128, 129)}
        for universe in (129, 128, 1):
            ola.set(universe, levels)
        return wait(lambda: all(len(heard.came.get(it, [])) > count for it, count in before.items()), 20)

    watch = Watch(inside)
    come = sends([255, 128])
    watch.tells("universe +1 .*appears")
    watch.tells("universe +128 .*appears")
    appeared = sorted(it for it in watch.events() if "appears" in it[3])
    check("a watch that joins hears universes 1 to 128 of olad, its name and priority, and no other", come and appeared == [(1, *source, appears), (128, *source, appears)],
          f"sent: {come}; told: {appeared}; {text_of('said')}")
    watch.end()
    watch = Watch(inside, "--universe", "129")
    come = sends([1, 2, 3])
    watch.tells("universe +129 .*appears")
    check("a watch that names a universe hears that one of olad alone", come and watch.events() == [(129, *source, appears)], f"sent: {come}; told: {watch.events()}")
    ola.run.terminate()
    watch.tells("ends its stream")
    check("a watch tells that olad ends its stream", watch.events()[-1:] == [(129, *source, "ends its stream")], f"told: {watch.events()}")
    watch.end()


def workspace(channels):
    """A workspace of QLC+ whose one scene begins by itself and fades for a minute, each channel to another level, so that something changes at each of its turns."""
    levels = ",".join(f"{channel},{255 - channel}" for channel in range(channels))
    return write("fade.qxw", f"""<?xml version="1.0" encoding="UTF-8"?>
<!DOCTYPE Workspace>
<Workspace xmlns="http://www.qlcplus.org/Workspace" CurrentWindow="VirtualConsole">
 <Creator><Name>Q Light Controller Plus</Name><Version>4.12.6</Version><Author>sacn</Author></Creator>
 <Engine Autostart="0">
  <InputOutputMap><Universe Name="Universe 1" ID="0"><Output Plugin="E1.31" UID="{DESK}" Line="0"/></Universe></InputOutputMap>
  <Fixture><Manufacturer>Generic</Manufacturer><Model>Generic</Model><Mode>Generic</Mode>
   <ID>0</ID><Name>Dimmers</Name><Universe>0</Universe><Address>0</Address><Channels>{channels}</Channels></Fixture>
  <Function ID="0" Type="Scene" Name="Fade"><Speed FadeIn="60000" FadeOut="0" Duration="0"/><FixtureVal ID="0">{levels}</FixtureVal></Function>
 </Engine>
</Workspace>
""")


class Numbers(Heard):
    """The sequence numbers that come at a socket, in their order, and the greatest time between two of them."""

    def __init__(self, sock, skip):
        self.numbers, self.greatest, self.latest = [], 0, None
        super().__init__(sock, skip)

    def run(self):
        while True:
            octets = self.sock.recv(2048)[self.skip:]
            if e131.read(octets):
                now = time.monotonic()
                self.greatest, self.latest = max(self.greatest, now - (self.latest or now)), now
                self.numbers.append(octets[NUMBER])

    def turns(self):
        """How often number 1 came behind 255."""
        return sum(1 for it in zip(self.numbers, self.numbers[1:]) if it == (255, 1))


def qlcplus(heard):
    """Starts QLC+ without a screen, which fades a scene, and waits until it sends. It is started again where it ends before that, as one start in sixteen did."""
    home = f"{ROOM}/home"
    os.mkdir(home, 0o700)
    said = open(f"{ROOM}/qlcplus.said", "w", encoding="utf-8")
    words = ["qlcplus", "--nowm", "--nogui", "--operate", "--open", workspace(64)]
    environment = {**os.environ, "HOME": home, "XDG_RUNTIME_DIR": home, "QT_QPA_PLATFORM": "offscreen"}
    run, limit = None, time.monotonic() + 25
    while not heard.numbers and time.monotonic() < limit:
        if run is None or run.poll() is not None:
            run = start(words, stdin=subprocess.DEVNULL, stdout=said, stderr=said, env=environment)
        time.sleep(0.05)
    return run


def a_watch_hears_qlcplus():
    """QLC+ fades a scene by multicast; a watch tells its numbering as what it is, and no packet as lost beside the two turns at which it can't know that yet."""
    name = "a watch that joins hears universe 1 of qlcplus"
    other, inside = second_space()
    heard = Numbers(tap(other, "vb"), 42)
    watch = Watch(inside)
    run = qlcplus(heard)
    if heard.numbers:
        is_heard = watch.tells("appears")
        first = watch.events()[:1]
        check(name, is_heard and first[0][0] == 1 and first[0][2].startswith("Q Light Controller Plus") and
              re.fullmatch(rf"appears at {re.escape(DESK)}:[0-9]+, priority 100", first[0][3]), f"told: {first}")
        # (four turns at fifty packets a second last 20.4 s)
        wait(lambda: run.poll() is not None or heard.turns() >= 4 and heard.numbers[-1] > 10, 35)
    else:
        print(f"skipped {name}: it sent nothing in 25 s: {text_of('qlcplus.said')[-100:]}".replace("\n", " | "))
    run.kill()
    run.wait()
    watch.tells("is lost", 20 if heard.numbers else 0)
    watch.end()
    tells_numbers(heard, [what for _, _, _, what in watch.events()[1:]])


def tells_numbers(heard, told):
    """What a watch has told of the numbers that came, and its table."""
    names = ("a watch tells that qlcplus leaves out number 0, and no loss after that", "a watch counts each packet of qlcplus, and two as skipped")
    came, turns = len(heard.numbers), heard.turns()
    if turns < 4 or heard.greatest > 2:
        for name in names:
            print(f"skipped {name}: it sent {came} packets with {turns} turns from number 255 to 1 (4), and none for {heard.greatest:.1f} s (at most 2)")
        return
    # (all others follow each other)
    others = sum(1 for a, b in zip(heard.numbers, heard.numbers[1:]) if b != a % 255 + 1)
    wanted = ["skipped 1 number"] * 2 + ["leaves out number 0 at each turn, which isn't counted as skipped"]
    told = [what for what in told if not what.startswith("is lost: ")]
    check(names[0], others == 0 and told == wanted, f"{came} packets, {turns} turns, {others} other skips; told: {told}")
    row = re.search(r"^ +1 lost +100 +[0-9.]+ +[0-9.]+ +([0-9]+) +0 +0 +([0-9]+) +0 +0 ", text_of("lines"), re.M)
    counts = row and (int(row[1]), int(row[2]))
    check(names[1], counts == (came, 2), f"{counts} of {came}; {text_of('lines')[-1500:]}")


def main(name):
    signal.signal(signal.SIGTERM, lambda *_: finish(1))
    subprocess.run(["ip", "link", "set", "lo", "up"], check=False)
    try:
        globals()[name]()
    except Exception as fault:  # (what a look didn't foresee is no good look)
        check(name, False, f"{type(fault).__name__}: {fault}")
    sys.stdout.flush()
    finish(0)


if __name__ == "__main__":
    main(sys.argv[1])

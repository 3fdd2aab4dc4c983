#!/usr/bin/env python3
"""Looks at the page that orders a desk: first at keys that are wrong, whose answers wait while the light goes on, and at many that order at once; then, in a headless
Chromium of 360 pixels, at its keypad, whose order the desk sends; last at a desk that ends, one that stands by and one with a script. Prints 'ok NAME', 'not ok NAME: why' or 'skipped NAME: why' for each look.

usage: desk_page.py SACN [PICTURES]

SACN is the built program; where PICTURES names a folder, pictures of the page are put there.
"""
import http.client
import json
import os
import shutil
import signal
import socket
import struct
import subprocess
import sys
import tempfile
import threading
import time
from chromium import Browser, start, started
import e131

# Linux's number, of which Python has no name.
SO_TIMESTAMPNS = 35
SACN = sys.argv[1]
PICTURES = sys.argv[2] if len(sys.argv) > 2 else None
ROOM = tempfile.mkdtemp()
UDP, PAGE, KEY = e131.free_udp_port(), e131.free_tcp_port(), "correct-Horse_9"
AT = f"127.0.0.1:{PAGE}"
# Cue 2 fades for a minute: while it does a packet is due each 25 ms. On a machine that is busy with other things one is this late at most, in seconds.
LONGEST = 0.8
SHOW = f"""version = 2
cid = "00010203-0405-0607-0809-0a0b0c0d0e0f"
name = "Desk"
universes = [1]
send_to = [{UDP}]
[[cue]]
number = 1
up = 0
down = 0
levels = [[1, 0]]
[[cue]]
number = 2
up = 60000
down = 60000
levels = [[1, 65535]]
[[patch]]
channel = 1
universe = 1
slot = 1
[[patch]]
channel = 5
universe = 1
slot = 5
"""


def verdict(name, is_well, why=""):
    print(f"ok desk_page: {name}" if is_well else f"not ok desk_page: {name}: {why}", flush=True)


class Light:
    """The packets that a desk sends: when each came, by the machine's own note, so that this program's delays don't count, and its slots."""

    def __init__(self):
        self.socket = socket.socket(socket.AF_INET, socket.SOCK_DGRAM)
        self.socket.setsockopt(socket.SOL_SOCKET, SO_TIMESTAMPNS, 1)
        self.socket.bind(("127.0.0.1", UDP))
        self.came = []
        threading.Thread(target=self.listen, daemon=True).start()

    def listen(self):
        while True:
            octets, notes, _, _ = self.socket.recvmsg(2048, 64)
            packet = e131.read(octets)
            if packet:
                seconds, nanoseconds = struct.unpack("qq", notes[0][2])
                self.came.append((seconds + nanoseconds / 1e9, packet.slots))

    def gap(self, begin, end):
        """The longest time without a packet between two moments, in seconds."""
        # (what came by then is taken soon)
        self.comes_after(end)
        times = [begin, *(at for at, _ in self.came if begin <= at <= end), end]
        return max(later - earlier for earlier, later in zip(times, times[1:]))

    def comes_after(self, moment, seconds=20):
        """Whether a packet came behind a moment, within so many seconds."""
        end = time.monotonic() + seconds
        while time.monotonic() < end:
            if self.came and self.came[-1][0] > moment:
                return True
            time.sleep(0.02)
        return False

    def shows(self, slot, level, seconds=20):
        """Whether a slot is at a level within so many seconds."""
        end = time.monotonic() + seconds
        while time.monotonic() < end:
            if self.came and self.came[-1][1][slot - 1] == level:
                return True
            time.sleep(0.02)
        return False


def asked(line, key=KEY, origin=f"http://{AT}", **more):
    """A connection on which an order was sent."""
    asking = http.client.HTTPConnection(AT, timeout=30)
    fields = {"Origin": origin, "X-Key": key, **more}
    asking.request("POST", "/order", line.encode(), {name: value for name, value in fields.items() if value is not None})
    return asking


def answered(asking):
    """The status of the answer there, and the answer; 0 where the connection ends without one."""
    try:
        answer = asking.getresponse()
        return answer.status, answer.read().decode().strip()
    except (OSError, http.client.HTTPException) as error:
        return 0, type(error).__name__


def post(line, **how):
    """The status of the answer to an order, the answer, and how long it took in seconds."""
    begin = time.monotonic()
    return *answered(asked(line, **how)), time.monotonic() - begin


def tried(line):
    """The status and the answer, or 0 also where no connection is had."""
    try:
        return post(line)[:2]
    except (OSError, http.client.HTTPException) as error:
        return 0, type(error).__name__


def wrong_keys(light):
    """Each wrong one waits twice as long as the one before, up to eight seconds, and nothing else waits for it. Four wait at once at most: meanwhile no order is taken."""
    light_begin = time.time()
    for wanted, how in [(0.5, {"key": "wrong"}), (1, {"key": KEY + "x"}), (2, {"key": KEY[:-1]})]:
        status, _, took = post("blackout", **how)
        verdict(f"{how} is refused after {wanted} s", status == 403 and wanted - 0.01 <= took < 2 * wanted + 2, f"{status} after {took:.2f} s")
    for origin in ("http://rig.example", "null", None):
        status, _, took = post("blackout", origin=origin)
        verdict(f"an order of the origin {origin} is refused, and no key is tried", status == 403 and took < 3.5, f"{status} after {took:.2f} s")
    later, threads = [], []

    def waits(key):
        begin, asking = time.monotonic(), asked("blackout", key=key)
        threads.append(threading.Thread(target=lambda: later.append((*answered(asking), time.monotonic() - begin))))
        threads[-1].start()

    for key in (None, "", "wrong"):
        waits(key)
    # (their orders are sent; by then they are there, and their answers wait)
    time.sleep(0.5)
    status, text, took = post("5 at 20")
    verdict("the right key waits for no wrong one", status == 200 and took < 3, f"{status} after {took:.2f} s: {text}")
    waits(KEY + "x")
    time.sleep(0.5)
    status, text, took = post("5 at 30")
    verdict("while four wait no order is taken", status == 503 and took < 3, f"{status} after {took:.2f} s: {text}")
    asking = http.client.HTTPConnection(AT, timeout=20)
    asking.request("GET", "/state")
    verdict("what runs is told meanwhile", json.loads(asking.getresponse().read())["master"] == 65535)
    for thread in threads:
        thread.join()
    seen = sorted(took for _, _, took in later)
    is_so = [status for status, _, _ in later] == [403] * 4 and 3.99 <= seen[0] < 7.5 and all(7.99 <= took < 15 for took in seen[1:])
    verdict("none waits longer than 8 s", is_so, f"{later}")
    gap = light.gap(light_begin, time.time())
    # (in one of three tries, since a machine that is busy may keep the desk from its processors once)
    for _ in range(2):
        if gap >= LONGEST:
            begin = time.time()
            post("blackout", key="wrong")
            gap = light.gap(begin, time.time())
    verdict("the light goes on meanwhile", gap < LONGEST, f"no packet for {gap * 1000:.0f} ms")


def together(light):
    """Orders of four pages at once: each has its own answer, also where one went away before it had it."""
    gone = http.client.HTTPConnection(AT, timeout=20)
    gone.request("POST", "/order", b"5 at 90", {"Origin": f"http://{AT}", "X-Key": KEY})
    gone.sock.close()
    told = {}
    threads = [threading.Thread(target=lambda part=part: told.update({part: post(f"5 at {part}")[:2]})) for part in (10, 20, 30, 40)]
    for thread in threads:
        thread.start()
    for thread in threads:
        thread.join()
    verdict("each of four orders has its own answer", told == {part: (200, f"ok 5 at {part} %") for part in (10, 20, 30, 40)}, f"{told}")
    verdict("and the next one is obeyed", post("5 at 60")[1] == "ok 5 at 60 %" and light.shows(5, 153))


def seventeen(heard):
    """Seventeen orders at once, for which there are eight places: each that is answered ok is obeyed, and no other is."""
    told = {}
    threads = [threading.Thread(target=lambda part=part: told.update({part: tried(f"7 at {part}")})) for part in range(1, 18)]
    for thread in threads:
        thread.start()
    for thread in threads:
        thread.join()
    obeyed = sorted(part for part, (status, _) in told.items() if status == 200)
    is_told = all(told[part][1] == "ok, but channel 7 is not patched" for part in obeyed)
    verdict("of seventeen orders at once each is obeyed, or told that there is no room", obeyed and is_told and {status for status, _ in told.values()} <= {0, 200, 503}, f"{told}")

    def obeyed_by_output():
        with open(heard, encoding="utf-8") as lines:
            return sorted(int(line.split()[-1]) for line in lines if line.startswith("page: 7 at "))

    end = time.monotonic() + 20
    while obeyed_by_output() != obeyed and time.monotonic() < end:
        time.sleep(0.05)
    said = obeyed_by_output()
    verdict("those that were obeyed are those that were answered", said == obeyed, f"{said}, answered {obeyed}")


def slow_readers():
    """Eight that ask, and neither read nor leave: one more still orders."""
    slow = [socket.create_connection(("127.0.0.1", PAGE), 20) for _ in range(8)]
    for line in slow:
        line.sendall(f"GET / HTTP/1.1\r\nHost: {AT}\r\n\r\n".encode())
    status, text, took = post("5 at 70")
    verdict("an order beside eight that don't read", status == 200 and text == "ok 5 at 70 %" and took < 4, f"{status} after {took:.2f} s: {text}")
    for line in slow:
        line.close()


def crowd(light):
    """Twenty connections that ask and ask: the light goes on, in one of three tries."""
    gap, told = LONGEST, []

    def asks(end):
        while time.time() < end:
            try:
                asking = http.client.HTTPConnection(AT, timeout=20)
                asking.request("GET", "/")
                told.append(asking.getresponse().status)
            except (OSError, http.client.HTTPException):
                told.append(0)

    for _ in range(3):
        if gap >= LONGEST:
            # (the fade begins anew, so that it doesn't end meanwhile)
            post("goto 1")
            post("goto 2")
            begin = time.time()
            threads = [threading.Thread(target=asks, args=[begin + 3]) for _ in range(20)]
            for thread in threads:
                thread.start()
            for thread in threads:
                thread.join()
            gap = light.gap(begin, time.time())
    verdict("20 that ask for the page again and again have answers", told.count(200) > 20 and set(told) <= {0, 200, 503} and told.count(0) < len(told) / 10, f"{ {status: told.count(status) for status in set(told)} }")
    verdict("the light goes on beside them", gap < LONGEST, f"no packet for {gap * 1000:.0f} ms")


def click(browser, selector):
    browser.js(f"document.querySelector({json.dumps(selector)}).click()")


def keypad(browser, light):
    browser.open(f"http://{AT}/")
    browser.view(360, 640)
    verdict("the cues are listed", browser.until("document.querySelectorAll('#cues button').length === 2", 20) is not None)
    browser.picture("desk-page-360")
    wide = browser.js("return document.documentElement.scrollWidth")
    verdict("nothing scrolls sideways at 360 pixels", wide <= 360, f"{wide} pixels")
    small = browser.js("return [...document.querySelectorAll('main button')].filter((one) => one.offsetHeight < 44 || one.offsetWidth < 44).map((one) => one.textContent)")
    verdict("each key is large enough for a finger", small == [], f"{small}")
    # 5 at 40: 40 % of 255 is 102
    for key in ("[data-put='5']", "[data-put=' at ']", "[data-put='4']", "[data-put='0']"):
        click(browser, key)
    verdict("the keypad types an order", browser.js("return document.getElementById('line').value") == "5 at 40")
    click(browser, "#enter")
    verdict("the key is asked for", browser.until("!document.getElementById('key-part').hidden", 20) is not None)
    browser.picture("desk-page-key")
    browser.js(f"document.getElementById('key').value = '{KEY}'")
    click(browser, "#key-form [type=submit]")
    verdict("the desk sends the level that was typed", light.shows(5, 102), f"{light.came[-1][1][4]}")
    verdict("its answer stands on the page", browser.until("document.querySelector('#answers span').textContent.startsWith('ok 5 at 40 %')", 20) is not None, browser.js("return document.getElementById('answers').textContent"))
    click(browser, "#blackout")
    verdict("a blackout", light.shows(5, 0) and browser.until("document.getElementById('blackout').getAttribute('aria-pressed') === 'true'", 20) is not None)
    click(browser, "#restore")
    verdict("and back", light.shows(5, 102))
    browser.js("const master = document.getElementById('master'); master.value = 50; master.dispatchEvent(new Event('input'))")
    # half of 102 is 51
    verdict("the master", light.shows(5, 51), f"{light.came[-1][1][4]}")
    click(browser, "#cues li:first-child button")
    verdict("a cue of the list", browser.until("document.getElementById('cue').textContent === '1' && document.getElementById('next').textContent === '2'", 20) is not None)
    verdict("the cue that runs is marked", browser.until("document.querySelector('#cues [aria-current=true] b').textContent === '1'", 20) is not None)
    browser.picture("desk-page-orders")
    kept = browser.js("return JSON.stringify([location.href, document.cookie, localStorage.length, sessionStorage.length])")
    verdict("the key is kept in the page alone", KEY not in kept and json.loads(kept)[1:] == ["", 0, 0], kept)
    browser.open(f"http://{AT}/")
    browser.until("document.querySelectorAll('#cues button').length === 2", 20)
    click(browser, "#go")
    verdict("a page that is loaded anew asks for it again", browser.until("!document.getElementById('key-part').hidden", 20) is not None)
    browser.js("document.getElementById('key').value = 'another-key'")
    click(browser, "#key-form [type=submit]")
    verdict("a wrong key is told, and asked for again", browser.until("document.getElementById('why').textContent === 'The desk refused that key.'", 30) is not None)
    logs = [entry for entry in browser.ask("POST", "/se/log", {"type": "browser"}) if entry["level"] == "SEVERE" and "403" not in entry["message"]]
    verdict("nothing goes wrong in the page", logs == [], f"{logs}")


def desk_of(name, *words):
    """A desk with a page that answers, and the file of what it says on standard output."""
    heard = f"{ROOM}/{name}"
    with open(heard, "wb") as out:
        desk = start(SACN, "desk", f"{ROOM}/show.toml", "--page", str(PAGE), "--key", KEY, *words, stdout=out)
    for _ in range(300):
        try:
            line = http.client.HTTPConnection(AT, timeout=20)
            line.request("GET", "/state")
            line.getresponse().read()
            return desk, heard
        except (OSError, http.client.HTTPException):
            time.sleep(0.1)
    raise RuntimeError(f"the desk's page doesn't answer: {name}")


def ended(desk):
    """Whether a desk ends by itself within thirty seconds, with status 0, once its input has ended."""
    desk.stdin.close()
    try:
        desk.wait(30)
    except subprocess.TimeoutExpired:
        pass
    return desk.returncode == 0


def says(heard, front, seconds=20):
    """Whether a line of a desk's standard output begins so within so many seconds."""
    end = time.monotonic() + seconds
    while time.monotonic() < end:
        with open(heard, encoding="utf-8") as lines:
            if any(line.startswith(front) for line in lines):
                return True
        time.sleep(0.02)
    return False


def told_state():
    asking = http.client.HTTPConnection(AT, timeout=20)
    asking.request("GET", "/state")
    return json.loads(asking.getresponse().read())


def tells(key, value, seconds=20):
    """Whether the page tells this of what runs within so many seconds."""
    end = time.monotonic() + seconds
    while time.monotonic() < end:
        if told_state()[key] == value:
            return True
        time.sleep(0.02)
    return False


def ending():
    """An order that comes while the desk ends is told so: it is sent to a desk that stands still, whose input ends then too."""
    desk, heard = desk_of("ending")
    first = post("goto 1")
    desk.send_signal(signal.SIGSTOP)
    late = asked("goto 2")
    desk.stdin.close()
    desk.send_signal(signal.SIGCONT)
    told = answered(late)
    is_told = told == (503, "The desk ends, and didn't obey this order.")
    verdict("an order that comes while the desk ends is told so", first[0] == 200 and is_told, f"{first} {told}")
    verdict("and the desk ends", ended(desk), f"{desk.returncode}")
    with open(heard, encoding="utf-8") as lines:
        said = [line for line in lines if line.startswith("page: ")]
    verdict("and it isn't obeyed", said == ["page: goto 1\n"], f"{said}")


def standing_by(light):
    desk, _ = desk_of("standby", "--standby")
    is_dark = tells("universes", [[1, 1, "ended"]])
    begin = time.time()
    answer = post("start all")[:2]
    is_sent = light.comes_after(begin)
    verdict("a page starts a desk that stands by", is_dark and answer == (200, "ok universe 1 starts") and is_sent, f"{told_state()} {answer}")
    verdict("and such a desk ends", ended(desk), f"{desk.returncode}")


def scripted():
    with open(f"{ROOM}/script.txt", "w", encoding="utf-8") as script:
        script.write("0 goto 1\n")
    desk, heard = desk_of("scripted", "--script", f"{ROOM}/script.txt", "--stay")
    is_gone = tells("cue", 1)
    answer = post("go")[:2]
    verdict("a page beside a script", is_gone and answer == (200, "ok cue 2 up 60 s down 60 s") and tells("cue", 2), f"{told_state()} {answer}")
    # (beside a script an input that ends within a second, and of which nothing was read, counts as none)
    desk.stdin.write(b"status\n")
    desk.stdin.flush()
    verdict("and such a desk is typed to", says(heard, "cue 2 master 65535 "))
    verdict("and ends", ended(desk), f"{desk.returncode}")


def main():
    with open(f"{ROOM}/show.toml", "w", encoding="utf-8") as show:
        show.write(SHOW)
    light = Light()
    desk, heard = desk_of("ordered")
    post("goto 2")
    wrong_keys(light)
    together(light)
    seventeen(heard)
    slow_readers()
    crowd(light)
    if shutil.which("chromium") and shutil.which("chromedriver"):
        browser = Browser(PICTURES)
        try:
            keypad(browser, light)
        finally:
            browser.ask("DELETE", "")
    else:
        print("skipped desk_page: there is no Chromium with its driver")
    verdict("the end of its input ends the desk", ended(desk), f"{desk.returncode}")
    ending()
    standing_by(light)
    scripted()


try:
    main()
finally:
    for process in started:
        process.kill()
    shutil.rmtree(ROOM, ignore_errors=True)

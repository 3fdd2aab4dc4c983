"""Types orders into a desk for tests/orders.sh: python3 orders.py SACN."""

import os
import socket
import subprocess
import sys
import tempfile
import threading
import time

import e131


def show(port):
    """Channel N on slot N, but channel 11, which stands nowhere; channel 12 is wide, on slots 20 and 21."""
    text = f'version = 2\ncid = "00010203-0405-0607-0809-0a0b0c0d0e0f"\nname = "Desk"\nuniverses = [1]\nsend_to = [{port}]\n'
    text += "[[cue]]\nnumber = 1\nup = 0\ndown = 0\nlevels = [[1, 65535]]\n[[cue]]\nnumber = 5\nup = 1500\ndown = 0\nlevels = [[2, 65535]]\n"
    for channel in range(1, 11):
        text += f"[[patch]]\nchannel = {channel}\nuniverse = 1\nslot = {channel}\n"
    return text + "[[patch]]\nchannel = 12\nuniverse = 1\nslot = 20\nwide = true\n"


class Desk:
    """A desk, and the frames of universe 1 that came from it."""

    def __init__(self, sacn):
        self.listener = socket.socket(socket.AF_INET, socket.SOCK_DGRAM)
        self.listener.bind(("127.0.0.1", 0))
        self.file = tempfile.NamedTemporaryFile("w", suffix=".toml")
        self.file.write(show(self.listener.getsockname()[1]))
        self.file.flush()
        self.run = subprocess.Popen([sacn, "desk", self.file.name], stdin=subprocess.PIPE, stdout=subprocess.PIPE, stderr=subprocess.PIPE, text=True)
        self.frames = []
        self.came = threading.Condition()
        threading.Thread(target=self.listen, daemon=True).start()

    def listen(self):
        while True:
            try:
                octets = self.listener.recv(2048)
            except OSError:
                return
            packet = e131.read(octets)
            if packet:
                with self.came:
                    self.frames.append(packet.slots)
                    self.came.notify_all()

    def type(self, line, answers=1):
        self.run.stdin.write(line + "\n")
        self.run.stdin.flush()
        return [self.run.stdout.readline().rstrip("\n") for _ in range(answers)]

    def shows(self, wanted):
        """Whether a frame comes, within thirty seconds, that has these slots."""
        with self.came:
            return self.came.wait_for(lambda: any(all(frame[slot - 1] == level for slot, level in wanted.items()) for frame in self.frames), 30)

    def forget(self):
        with self.came:
            self.frames.clear()

    def end(self):
        self.run.stdin.close()
        self.run.wait(60)
        self.listener.close()
        self.file.close()


def level(percent, octet=0):
    """The high octet of a percent's level, or the low one."""
    return (percent * 65535 // 100 >> 8, percent * 65535 // 100 & 255)[octet]


def said(desk, line, *wanted):
    found = desk.type(line, len(wanted))
    return [] if found == list(wanted) else [f"{line!r} was answered {found}"]


def lit(desk, line, answer, slots):
    desk.forget()
    faults = said(desk, line, answer)
    return faults if faults or desk.shows(slots) else [f"{line!r} didn't show {slots}"]


def a_percent_is_a_level(desk):
    yield from lit(desk, "1 at 50", "ok 1 at 50 %", {1: level(50)})
    yield from lit(desk, "1 at 30%", "ok 1 at 30 %", {1: level(30)})
    yield from lit(desk, "2 at full", "ok 2 at 100 %", {2: 255})
    yield from lit(desk, "12 at 1", "ok 12 at 1 %", {20: level(1), 21: level(1, 1)})
    yield from said(desk, "12 at 50.25", "ok 12 at 50.25 %")
    yield from said(desk, "12 at 0.5", "ok 12 at 0.5 %")
    yield from lit(desk, "all at 0", "ok all at 0 %", {1: 0, 2: 0, 20: 0, 21: 0})


def many_channels_are_set_at_once(desk):
    desk.forget()
    yield from said(desk, "1 thru 10 - 4 at 60", "ok 1 thru 10 - 4 at 60 %")
    there = {slot: 0 if slot == 4 else level(60) for slot in range(1, 11)}
    if not desk.shows(there):
        yield "the span wasn't shown"
    partly = [frame for frame in desk.frames if 0 < sum(frame[slot - 1] == level(60) for slot in there) < 9]
    if partly:
        yield f"{len(partly)} frames had a part of it"
    yield from lit(desk, "1 + 5 + 9 at 20", "ok 1 + 5 + 9 at 20 %", {1: level(20), 5: level(20), 9: level(20), 2: level(60)})


def what_is_not_patched_is_said(desk):
    yield from said(desk, "11 at 50", "ok, but channel 11 is not patched")
    yield from said(desk, "9 thru 15 at 50", "ok, but channels 11, 13 thru 15 are not patched")
    yield from said(desk, "set 11 65535", "ok, but channel 11 is not patched")
    yield from said(desk, "set 1 255", "ok 1 at 0.4 %")
    yield from said(desk, "set 1 65535", "ok 1 at 100 %")
    yield from said(desk, "3 - 3 at 50", "ok, but no channel is chosen")
    yield from said(desk, "1 + 2048 at 50", "ok, but channel 2048 is not patched")
    yield from said(desk, "5 + 1 thru 2048 at 0", "ok, but channels 11, 13 thru 2048 are not patched")
    yield from said(desk, "1 thru 2048 at 0", "ok all at 0 %")


def the_master_goes_down_and_up(desk):
    yield from said(desk, "1 at full", "ok 1 at 100 %")
    yield from lit(desk, "blackout", "ok master at 0 %", {1: 0})
    yield from lit(desk, "restore", "ok master at 100 %", {1: 255})


def cues_go_back(desk):
    yield from said(desk, "back", "refused NoCue: no cue is before this one")
    yield from said(desk, "cues", "cue 1 up 0 s down 0 s channels 1", "cue 5 up 1.500 s down 0 s channels 1", "ok")
    yield from said(desk, "go", "ok cue 1 up 0 s down 0 s")
    yield from said(desk, "back", "refused NoCue: no cue is before this one")
    yield from said(desk, "go", "ok cue 5 up 1.500 s down 0 s")
    yield from said(desk, "cues", "cue 1 up 0 s down 0 s channels 1", "cue 5 up 1.500 s down 0 s channels 1 current", "ok")
    yield from said(desk, "go", "refused NoCue: no cue is behind this one; goto CUE goes to any")
    yield from said(desk, "back", "ok cue 1 up 0 s down 0 s")
    yield from said(desk, "cues", "cue 1 up 0 s down 0 s channels 1 current", "cue 5 up 1.500 s down 0 s channels 1", "ok")


def cues_are_gone_to(desk):
    yield from said(desk, "goto 5", "ok cue 5 up 1.500 s down 0 s")
    yield from said(desk, "goto 1", "ok cue 1 up 0 s down 0 s")
    yield from said(desk, "goto 2", "refused NoCue: the show has no cue 2; cues lists them")
    yield from said(desk, "master 32768", "ok")


def universes_end_and_start(desk):
    yield from said(desk, "start 1", "refused Running: universe 1 runs already")
    yield from said(desk, "start all", "ok, but no universe starts")
    yield from said(desk, "end 2", "refused NoUniverse: the show has no universe 2; status lists them")
    yield from said(desk, "end 1", "ok universe 1 ends")
    limit = time.time() + 20
    while not desk.type("status")[0].endswith(" 1 stopped"):
        if time.time() > limit:
            yield "it doesn't stop"
            break
    yield from said(desk, "end 1", "refused Stopped: universe 1 has ended already")
    yield from said(desk, "start 1", "ok universe 1 starts")
    yield from said(desk, "end all", "ok universe 1 ends")


def the_patch_is_listed(desk):
    rows = [f"channel {channel} universe 1 slot {channel}" for channel in range(1, 11)]
    yield from said(desk, "patch", *rows, "channel 12 universe 1 slots 20 thru 21", "ok")


def what_is_no_order_says_why(desk):
    for line, why in [
        ("1 at 101", "a level is 0 to 100, full or 65535 with set"),
        ("1 at", "a level is 0 to 100, full or 65535 with set"),
        ("0 at 5", "a channel is 1 to 2048"),
        ("2049 at 5", "a channel is 1 to 2048"),
        ("9 thru 3 at 5", "a span goes backwards"),
        ("1 to 3 at 5", "a number, thru or at was expected"),
        ("at 5", "there is nothing before at"),
        (" + ".join(["1"] * 65) + " at 5", "a selection has at most 64 parts"),
        ("blakout", '"blakout" isn\'t an order; the nearest is blackout; help lists them'),
        ("gotoo 5", '"gotoo" isn\'t an order; the nearest is goto; help lists them'),
        ("jump", '"jump" isn\'t an order; help lists them'),
        ("ju\x07mp\u00e9", '"ju\\u0007mp\\u00e9" isn\'t an order; help lists them'),
        ("x" * 100, f'"{"x" * 32}.." isn\'t an order; help lists them'),
        ("go 5", "nothing may stand behind go"),
        ("blackout 5", "nothing may stand behind blackout"),
        ("status all", "nothing may stand behind status"),
        ("goto", "behind goto stands CUE, and no more"),
        ("goto 65536", "a cue is a number of 0 to 65535"),
        ("set 1", "behind set stands CHANNEL LEVEL, and no more"),
        ("set 1 65536", "a channel is 1 to 2048, a level 0 to 65535"),
        ("master -1", "a level is 0 to 65535"),
        ("master", "behind master stands LEVEL, and no more"),
        ("end", "behind end stands UNIVERSE or all, and no more"),
        ("start x", "a universe is 1 to 63999, or all"),
    ]:
        answer = desk.type(line)[0]
        if not answer.startswith("line ") or answer.partition(": ")[2] != why:
            yield f"{line[:20]!r} was answered {answer!r}"
    yield from said(desk, "set 2049 5", "refused ChannelRange: a channel is 1 to 2048")
    yield from said(desk, "set 0 5", "refused ChannelRange: a channel is 1 to 2048")


def an_order_of_all_channels_is_answered_at_once(desk):
    """The median of twenty such orders: a machine that is busy may let a desk stand still for longer."""
    took = []
    for count in range(20):
        begin = time.monotonic()
        yield from said(desk, f"all at {count}", f"ok all at {count} %")
        took.append(time.monotonic() - begin)
    if sorted(took)[10] > 0.025:
        yield f"they took {[round(1000 * it) for it in took]} ms"


def many_lines_at_once_are_all_answered(desk):
    """Ten thousand orders piped at once, each for all channels."""
    with tempfile.NamedTemporaryFile("w+") as answers:
        lines = "".join(f"all at {count % 101}\n" for count in range(10_000))
        run = subprocess.run([desk.run.args[0], "desk", desk.file.name], input=lines, stdout=answers, stderr=subprocess.PIPE, text=True, timeout=120)
        answers.seek(0)
        found = answers.read().splitlines()
    wanted = [f"ok all at {count % 101} %" for count in range(10_000)]
    if run.returncode or found[:-1] != wanted:
        yield f"status {run.returncode}, {len(found)} answers, of which {sum(a == b for a, b in zip(found, wanted))} as they should be"


LOOKS = [
    a_percent_is_a_level,
    many_channels_are_set_at_once,
    what_is_not_patched_is_said,
    the_master_goes_down_and_up,
    cues_go_back,
    cues_are_gone_to,
    universes_end_and_start,
    the_patch_is_listed,
    what_is_no_order_says_why,
    an_order_of_all_channels_is_answered_at_once,
    many_lines_at_once_are_all_answered,
]


def main(sacn):
    failed = 0
    for look in LOOKS:
        desk = Desk(os.path.abspath(sacn))
        try:
            faults = list(look(desk))
        finally:
            desk.end()
        failed += bool(faults)
        print(f"not ok orders: {look.__name__}: {'; '.join(faults[:4])}" if faults else f"ok orders: {look.__name__}", flush=True)
    return 1 if failed else 0


if __name__ == "__main__":
    sys.exit(main(sys.argv[1]))

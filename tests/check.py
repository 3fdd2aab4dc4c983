#!/usr/bin/env python3
"""Some thousand changed examples, by a fixed seed: the first fault that check tells of each is the one that the file's own command answers.

check.py SACN EXAMPLES: prints 'ok check: ..' or 'not ok check: ..', as ./test counts them.
"""
import random
import re
import subprocess
import sys

import e131

sacn, examples = sys.argv[1:]
SEED = 1
EACH = 400
VALUES = (
    "0 1 -1 2 3 255 256 512 513 514 1000 2048 2049 63999 64000 65535 65536 3600000 3600001 4294967295 4294967296 "
    '9223372036854775807 9223372036854775808 1.0 true false "" "x" [] {} [1] [[1,1]] [{}] 1979-05-27 0x10 1_0'
).split()
WORDS = "0 1 2 256 65535 65536 18446744073709551615 18446744073709551616 -1 +1 x go goto set master end start order look noise - 0g 00 # poll".split()
LINES = [
    "colour = 1", "version = 1", "version = 2", "version = 3", "universe = 1", "first = 256", "wide = true", "[[cue]]", "[[port]]", "[[console]]",
    "[[node]]", "[[port.range]]", "[[console.show.cue]]", "[[node.setup.port]]", "cue = []", "patch = 1", "port = []", "priority = 201", "number = 1",
    "send_to = [5568, 0]", "levels = [[1, 2], [3]]", "fade = 3600001", "up = 3600001", "slot = 512", "= 1", "]", "# text", "",
]
SHOW = f"""version = 1
cid = "10010203-0405-0607-0809-0a0b0c0d0e0f"
name = "Desk"
priority = 100
universes = [3, 1]
send_to = [{e131.free_udp_port()}]
[[cue]]
number = 1
fade = 0
levels = [[1, 65535], [2048, 0]]
[[cue]]
number = 2
fade = 3600000
levels = []
[[patch]]
channel = 1
universe = 1
slot = 1
wide = true
[[patch]]
channel = 2
universe = 3
slot = 512
"""
SETUP = f"""version = 1
udp_port = {e131.free_udp_port()}
[[port]]
number = 1
universe = 1
[[port]]
number = 255
universe = 63999
"""


def below(text, key):
    """A document as the table at a key."""
    return re.sub(r"\[\[(\w+(?:\.\w+)*)\]\]", rf"[[{key}.\1]]", f"[{key}]\n{text}")


def world(shows, setups):
    text = "version = 1\n"
    for show in shows:
        text += "[[console]]\nfirst = 3\n" + below(show, "console.show")
    for setup in setups:
        text += "[[node]]\n" + below(setup, "node.setup")
    return text


def read(name):
    with open(f"{examples}/{name}", encoding="utf-8") as file:
        return file.read()


show2, setup2 = read("show.toml"), read("node.toml").replace("version = 2\n", f"version = 2\nudp_port = {e131.free_udp_port()}\n")
SOURCES = {
    "show": [SHOW, show2],
    "setup": [SETUP, setup2],
    "world": [read("world.toml"), world([SHOW, show2], [SETUP, setup2])],
    "script": [read("script.txt") + "700 goto 1\n800 set 1 2\n900 start 2\r\n"],
    "schedule": [read("schedule.txt") + "noise 0 0 00Ff\nrestart-node 0\nrestart-console 0 255\norder 0 0 set 1 2\n"],
}


def changed(chance, kind, text):
    """A text after some small change."""
    way = chance.randrange(8)
    lines = text.split("\n")
    at = chance.randrange(len(lines))
    if way == 0:
        del lines[at]
    elif way == 1:
        lines.insert(at, lines[at])
    elif way == 2:
        other = chance.randrange(len(lines))
        lines[at], lines[other] = lines[other], lines[at]
    elif way == 3 and kind in ("script", "schedule"):
        words = lines[at].split(" ")
        words[chance.randrange(len(words)) :] = chance.choices(WORDS, k=chance.randrange(4))
        lines[at] = " ".join(words)
    elif way == 3:
        lines.insert(at, chance.choice(LINES))
    elif way == 4:
        place = chance.randrange(len(text) + 1)
        return text[:place] + chance.choice(["", " ", "\r", "=", '"', "[", "}", "é", "\x1b", "x", "7", "\n"]) + text[place + chance.randrange(2) :]
    else:
        values = WORDS if kind in ("script", "schedule") else VALUES
        places = list(re.finditer(r"\b\d+\b|\"[^\"\n]*\"|\[[^\[\]\n]*\]" if way > 5 else r"\b\w+\b", text))
        if not places:
            return text
        place = chance.choice(places)
        return text[: place.start()] + chance.choice(values) + text[place.end() :]
    return "\n".join(lines)


NAME = re.compile(
    r": ((?:(?:Console|Node) \d+ )?(?:Toml|MissingKey|UnknownKey|KeyValue|Version|Cue|Patch|PortTaken|Limit|RangeEnd|Overlap|SameCid"
    r"|UnknownWord|WordCount|Number|Hex))(?: (?:ChannelRange|FadeRange|NumberTaken|Full|NoUniverse|SlotRange|SlotTaken))?: "
)


def checked(kind, names):
    """What check says first of each file: 'right', or the reader's words."""
    run = subprocess.run([sacn, "check", "--as", kind, *names], capture_output=True, text=True, check=False)
    first = {}
    for line in run.stdout.splitlines():
        name, rest = line.split(": ", 1)
        if name in first:
            continue
        found = NAME.search(": " + rest)
        number = re.match(r"line (\d+): ", rest)
        if rest.startswith("right: "):
            first[name] = "right"
        elif found is None or rest.endswith(": another file"):
            first[name] = "unknown: " + rest
        elif kind in ("script", "schedule"):
            first[name] = f"line {number[1]} {found[1]}"
        else:
            first[name] = found[1]
    if run.returncode != (0 if set(first.values()) == {"right"} else 3):
        first[names[0]] = f"status {run.returncode}"
    return first


COMMANDS = {
    "show": lambda name: ["console", name, "empty", "--turns", "1"],
    "setup": lambda name: ["node", name, "--turns", "1"],
    "world": lambda name: ["sim", name, "empty"],
    "script": lambda name: ["console", "show", name, "--turns", "1"],
    "schedule": lambda name: ["sim", "world", name],
}


def answered(kind, name):
    """What the file's own command says of it."""
    run = subprocess.run([sacn, *COMMANDS[kind](name)], capture_output=True, text=True, check=False)
    said = run.stderr.partition("\n")[0]
    if run.returncode == 3 and not said.startswith("refused step "):
        return said.removeprefix("refused ")
    return "right"


def write(name, text):
    with open(name, "w", encoding="utf-8", newline="") as file:
        file.write(text)


def main():
    write("empty", "")
    write("show", SHOW)
    write("world", read("world.toml"))
    for kind, sources in SOURCES.items():
        chance = random.Random(f"{SEED} {kind}")
        names, told = [], set()
        for at in range(EACH):
            text = chance.choice(sources)
            for _ in range(chance.choice([1, 1, 1, 2, 3])):
                text = changed(chance, kind, text)
            names.append(f"{kind}{at}")
            write(names[-1], text)
        first = checked(kind, names)
        wrong = ""
        for name in names:
            answer = answered(kind, name)
            told.add(re.sub(r"\d+ ?", "", answer))
            if first.get(name) != answer and not wrong:
                with open(name, encoding="utf-8") as file:
                    wrong = f"{name}: '{first.get(name)}', and its command says '{answer}': {file.read()!r}"
        if wrong:
            print(f"not ok check: {wrong}")
        elif len(told) < 4:
            print(f"not ok check: {EACH} changed texts of a {kind} give only {sorted(told)}")
        else:
            print(f"ok check: {EACH} changed texts of a {kind}: {', '.join(sorted(told))}")


main()

#!/usr/bin/env python3
"""One network, told by each of the program's views, which must agree, universe by universe.

usage: views.py SACN

A network of five sources on three universes is written as a recording, which `explain --json` and the page of a recording are given, and sent in its own time to a
`watch --json`, to the page of a watch and to a gateway with a page, whose frames are looked at too. What each should tell of it is written here by hand, from the standard's rules: what was taken of each source and what
became of it, the levels of each universe, and who gives each: of the live sources at the greatest priority (E1.31, 6.2.3) the first by CID whose level is the
merged one. Prints 'ok NAME' or 'not ok NAME: what was seen' for each.
"""
import json
import os
import shutil
import socket
import subprocess
import sys
import tempfile
import time
import urllib.request

import e131
from e131 import PREVIEW, TERMINATED

SACN = sys.argv[1]
ROOM = tempfile.mkdtemp()
LINES, LIVE, GATEWAY = (e131.free_udp_port() for _ in range(3))
PAGE, LIVE_PAGE, GATEWAY_PAGE = (e131.free_tcp_port() for _ in range(3))
# The gateway's ports, each with a universe.
PORTS = {1: 1, 2: 2}
# Its octets are a quote, a mark of HTML, a backslash, a letter of two octets and one of four.
NAME = 'A "<b>\\é\N{GRINNING FACE}'
CIDS = {letter: bytes([16 * digit + digit]) * 16 for digit, letter in enumerate("ABCDE", 10)}
NAMES = {"A": NAME, "B": "Beta", "C": "Cue", "D": "Desk", "E": "Eyes"}
# The last moment of the recording, in milliseconds.
END = 5000


def packet(source, universe, number, levels, priority=100, options=0, start=0):
    """A data packet of E1.31."""
    return e131.data(universe, number, levels, CIDS[source], NAMES[source].encode(), priority, options, start)


def network():
    """What is sent: moments in milliseconds, and datagrams."""
    sent = []
    for turn, moment in enumerate(range(0, END + 1, 250)):
        # On universe 1 B comes first, and is gone after a second; two numbers of A are lost on the way, and a packet comes again.
        if moment <= 1000:
            sent.append((moment, packet("B", 1, turn, [10, 100, 60])))
        sent.append((moment, packet("A", 1, turn + (2 if moment >= 1500 else 0), [10, 200, 30, 0, 50])))
        if moment == 2000:
            sent.append((moment, sent[-1][1]))
        # On universe 2 D has the lower priority, and is followed once C has ended its stream; then it rises above itself.
        sent.append((moment, packet("D", 2, turn, [1, 2, 3], priority=90 if moment < 4000 else 95)))
        if moment < 2000:
            sent.append((moment, packet("C", 2, turn, [250], priority=120)))
        if moment == 2000:
            sent += [(moment, packet("C", 2, turn + again, [250], priority=120, options=TERMINATED)) for again in range(3)]
        # On the last universe nothing is for the stage: levels for a preview, and another start code.
        sent.append((moment, packet("E", 63999, turn, [9], options=PREVIEW) if turn % 2 else packet("E", 63999, turn, [9], start=0xDD)))
        if moment == 3000:
            sent.append((moment, b"no packet"))
    return sent


# What is so at the end: B is lost, 2500 ms after its last packet at 1000 ms, and C has ended its stream.
TOLD = {
    (1, "A"): dict(state="sending", priority=100, live=21, preview=0, terminated=0, other=0, skipped=2, late=0, repeated=1),
    (1, "B"): dict(state="lost", priority=100, live=5, preview=0, terminated=0, other=0, skipped=0, late=0, repeated=0),
    (2, "C"): dict(state="ended", priority=120, live=8, preview=0, terminated=3, other=0, skipped=0, late=0, repeated=0),
    (2, "D"): dict(state="sending", priority=95, live=21, preview=0, terminated=0, other=0, skipped=0, late=0, repeated=0),
    (63999, "E"): dict(state="sending", priority=100, live=0, preview=10, terminated=0, other=11, skipped=0, late=0, repeated=0),
}
# What `explain` tells of that before all else: who did what on which universes, and when.
INCIDENTS = [
    dict(act="appeared", source="B", universes=[1], ms=0),
    dict(act="appeared", source="A", universes=[1], ms=0),
    dict(act="rivals", source="B", universes=[1], ms=0, rival="A", priority=100, sources=2),
    dict(act="appeared", source="D", universes=[2], ms=0),
    dict(act="appeared", source="C", universes=[2], ms=0),
    dict(act="appeared", source="E", universes=[63999], ms=0),
    dict(act="ended", source="C", universes=[2], ms=2000),
    dict(act="lost", source="B", universes=[1], ms=3500),
]
# At some moments the levels of each universe, and who gives each.
LIT = {
    500: {1: ([10, 200, 60, 0, 50], "AAB-A"), 2: ([250], "C"), 63999: ([], "")},
    1900: {1: ([10, 200, 60, 0, 50], "AAB-A"), 2: ([250], "C"), 63999: ([], "")},
    END: {1: ([10, 200, 30, 0, 50], "AAA-A"), 2: ([1, 2, 3], "DDD"), 63999: ([], "")},
}
REFUSED = 1


def verdict(name, is_so, seen=""):
    print(f"ok views: {name}" if is_so else f"not ok views: {name}: {str(seen)[:900]}".replace("\n", " | "), flush=True)


def recording(sent):
    """A file of the format pcap, whose frames are Ethernet's."""
    path = f"{ROOM}/network.pcap"
    written = e131.Recording(path, start=0)
    for moment, octets in sent:
        written.sent(moment, 1, octets, from_port=5568)
    written.close()
    return path


def start(name, *words):
    """A run, which ends when its standard input does."""
    with open(f"{ROOM}/{name}.out", "w", encoding="utf-8") as out, open(f"{ROOM}/{name}.err", "w", encoding="utf-8") as err:
        return subprocess.Popen([SACN, *words], stdin=subprocess.PIPE, stdout=out, stderr=err)


def served(port):
    limit = time.monotonic() + 20
    while time.monotonic() < limit:
        try:
            return state(port, 1)
        except OSError:
            time.sleep(0.05)
    return None


def hears(port):
    """Waits until somebody hears at a UDP port."""
    limit, wanted = time.monotonic() + 20, f":{port:04X} "
    while time.monotonic() < limit:
        with open("/proc/net/udp", encoding="utf-8") as table:
            if any(wanted in line for line in table):
                return
        time.sleep(0.05)


def takes(ports):
    """Waits until no datagram waits at any of these UDP ports: what was sent there is read."""
    limit, wanted = time.monotonic() + 20, tuple(f":{port:04X}" for port in ports)
    while time.monotonic() < limit:
        with open("/proc/net/udp", encoding="utf-8") as table:
            rows = [line.split() for line in table]
        if not any(row[1].endswith(wanted) and int(row[4].partition(":")[2], 16) for row in rows[1:]):
            return
        time.sleep(0.01)


def state(port, universe, at=None):
    query = f"universe={universe}" + ("" if at is None else f"&at={at}")
    with urllib.request.urlopen(f"http://127.0.0.1:{port}/state?{query}", timeout=20) as answer:
        return json.load(answer)


def sources_of(rows):
    """The rows of sources as TOLD has them."""
    letters = {CIDS[it].hex(): it for it in CIDS}
    return {(row["universe"], letters.get(row["cid"])): {key: row[key] for key in TOLD[(1, "A")]} for row in rows}


def named(rows):
    return {row["cid"]: row["name"] for row in rows}


def lit_of(document):
    """The levels of a page's document up to the last one above 0, and the letter of who gives each."""
    levels = list(bytes.fromhex(document["levels"]))
    winners = [int(document["winners"][at : at + 4], 16) for at in range(0, 4 * len(levels), 4)]
    lit = max((at + 1 for at, level in enumerate(levels) if level), default=0)
    letters, cids = {CIDS[it].hex(): it for it in CIDS}, {row["place"]: row["cid"] for row in document["sources"]}
    return levels[:lit], "".join(letters[cids[it - 1]] if it else "-" for it in winners[:lit]) + "?" * any(winners[lit:])


def setup():
    """The file of a node with these ports."""
    path = f"{ROOM}/node.toml"
    with open(path, "w", encoding="utf-8") as out:
        out.write(f"version = 1\nudp_port = {GATEWAY}\n")
        out.writelines(f"[[port]]\nnumber = {port}\nuniverse = {universe}\n" for port, universe in PORTS.items())
    return path


def frames_of(name):
    """The latest frame that a gateway printed of each port: its levels up to the last one above 0."""
    found = {}
    with open(f"{ROOM}/{name}", encoding="utf-8") as text:
        for line in text:
            port, _, octets = line.split()
            levels = list(bytes.fromhex(octets))[1:]
            found[int(port)] = levels[: max((at + 1 for at, level in enumerate(levels) if level), default=0)]
    return found


def told(name, rows, refused):
    """Whether a view's rows and its count of refused datagrams are what is so."""
    verdict(f"{name} tells of each source what is so", sources_of(rows) == TOLD, sources_of(rows))
    verdict(f"{name} tells each source's name as it is", named(rows) == {CIDS[it].hex(): NAMES[it] for it in CIDS}, named(rows))
    verdict(f"{name} counts what it refuses", refused == REFUSED, refused)


def lines_of(name):
    with open(f"{ROOM}/{name}", encoding="utf-8") as text:
        return [json.loads(line) for line in text]


def events_of(lines):
    """What happened, without its moments, by universe; what is of no universe stands under None."""
    found = {}
    for line in lines:
        if "event" in line:
            words = {key: line[key] for key in line if key not in ("ms", "time", "since", "address", "port")}
            found.setdefault(line.get("universe"), []).append(words)
    return found


def incidents_of(lines):
    """What each source did, as INCIDENTS has it; each was once, at one moment. What isn't so stands as it was told."""
    found = []
    for line in lines:
        row = row_of(line)
        is_named = line["name"] == NAMES.get(row["source"]) and line.get("rival_name") == NAMES.get(row.get("rival"))
        found.append(row if is_named and line["first"] == line["latest"] == line["ms"] and line["times"] == 1 else line)
    return found


def unlike_events(incidents, heard):
    """The incidents of a watch that aren't what INCIDENTS has, each at the moment of its event among the other objects, since the moments are those of this run."""
    if len(incidents) != len(INCIDENTS):
        return incidents
    moments = {(it["event"], it["universe"], it.get("cid")): it["ms"] for it in reversed(heard) if "universe" in it and "event" in it}
    told = [it | {"ms": wanted["ms"], "first": wanted["ms"], "latest": wanted["ms"]} for it, wanted in zip(incidents, INCIDENTS)]
    named = [(it["act"], it["universes"][0], it["cid"] if it["act"] != "rivals" else None) for it in incidents]
    are_timely = [it["first"] == it["latest"] == it["ms"] == moments.get(name) for it, name in zip(incidents, named)]
    return [] if all(are_timely) and incidents_of(told) == INCIDENTS else (incidents, moments)


def row_of(line):
    """What an incident's object tells, with a letter for each CID."""
    letters = {CIDS[it].hex(): it for it in CIDS}
    row = dict(act=line["act"], source=letters.get(line["cid"]), universes=line["universes"], ms=line["ms"])
    if "rival" in line:
        row |= dict(rival=letters.get(line["rival"]), priority=line["priority"], sources=line["sources"])
    return row


def hear(sent):
    """What a watch's lines, its page and a gateway's page tell of what is sent in its own time, and that gateway's frames; None where this machine came to a stand meanwhile, which both would tell."""
    runs = [start("lines", "watch", "--json", "--listen", "127.0.0.1", "--port", str(LINES))]
    runs.append(start("live", "watch", "--listen", "127.0.0.1", "--port", str(LIVE), "--page", str(LIVE_PAGE)))
    runs.append(start("gateway", "gateway", setup(), "--listen", "127.0.0.1", "--page", str(GATEWAY_PAGE)))
    try:
        served(LIVE_PAGE)
        served(GATEWAY_PAGE)
        for port in (LINES, LIVE, GATEWAY):
            hears(port)
        sender, begin, latest = socket.socket(socket.AF_INET, socket.SOCK_DGRAM), time.monotonic(), 0
        for moment, octets in sent:
            time.sleep(max(0, begin + moment / 1000 - time.monotonic()))
            latest = max(latest, time.monotonic() - begin - moment / 1000)
            for port in (LINES, LIVE, GATEWAY):
                sender.sendto(octets, ("127.0.0.1", port))
        # (a page is answered in the turn in which it asks, behind what was read by then)
        takes((LINES, LIVE, GATEWAY))
        live, lit = ({universe: state(port, universe) for universe in LIT[END]} for port in (LIVE_PAGE, GATEWAY_PAGE))
        runs[0].stdin.close()
        runs[0].wait(20)
        heard = lines_of("lines.out")
        stood = latest > 0.5 or any(it["kind"] == "stopped" for it in live[1]["alarms"]) or any(it.get("event") == "stopped" for it in heard)
        return None if stood else (live, heard, lit, frames_of("gateway.out"))
    finally:
        for run in runs:
            run.kill()
            run.wait()


def main():
    sent = network()
    file = recording(sent)
    live, heard, lit, frames = next(filter(None, (hear(sent) for _ in range(5))), (None,) * 4)
    if live is None:
        print("skipped views: this machine comes to a stand", flush=True)
        return
    runs = [start("page", "explain", "--page", str(PAGE), file)]
    try:
        verdict("a recording's page is served", served(PAGE) is not None)
        explained = subprocess.run([SACN, "explain", "--json", file], capture_output=True, encoding="utf-8", check=False)
        lines = [json.loads(line) for line in explained.stdout.splitlines()]
        incidents = [it for it in lines if it.get("event") == "incident"]
        is_first = lines[: len(incidents)] == incidents
        verdict("explain tells first what each source did", is_first and incidents_of(incidents) == INCIDENTS, incidents)
        lines = [it for it in lines if it not in incidents]
        alongside = [it for it in heard if it.get("event") == "incident"]
        heard = [it for it in heard if it not in alongside]
        unlike = unlike_events(alongside, heard)
        verdict("a watch tells what each source did, once, at the moment of its event", not unlike, unlike)
        for name, all_rows in (("explain", lines), ("a watch's lines", heard)):
            rows = [it for it in all_rows if it.get("row") == "source"]
            told(name, rows, sum(it["refused"] for it in all_rows if it.get("row") == "counts"))
        for name, seen in (("a watch's page", live), ("a gateway's page", lit)):
            told(name, seen[1]["sources"], seen[1]["counts"]["refused"])
            for universe, wanted in LIT[END].items():
                verdict(f"{name} tells the levels of universe {universe}, and who gives them", lit_of(seen[universe]) == wanted, lit_of(seen[universe]))
        wanted = {port: LIT[END][universe][0] for port, universe in PORTS.items()}
        verdict("a gateway's frames are the levels that its page shows", frames == wanted, frames)
        for moment, levels in LIT.items():
            for universe, wanted in levels.items():
                document = state(PAGE, universe, moment)
                verdict(f"a recording's page tells the levels of universe {universe} at {moment} ms, and who gives them", lit_of(document) == wanted, lit_of(document))
        told("a recording's page", document["sources"], document["counts"]["refused"])
        first, second = events_of(lines), events_of(heard)
        for universe in sorted({*first, *second}, key=str):
            verdict(f"explain and a watch tell the same events of universe {universe}", first.get(universe) == second.get(universe), (first.get(universe), second.get(universe)))
        kinds = [[it["kind"] for it in document["alarms"]] for document in (state(PAGE, 1, END), live[1], lit[1])]
        verdict("all pages have the same alarms", kinds[0] == kinds[1] == kinds[2] and sorted({*kinds[0]}) == ["ended", "lost", "refused", "rivals", "skipped"], kinds)
    finally:
        for run in runs:
            run.kill()
        shutil.rmtree(ROOM)


if __name__ == "__main__":
    os.umask(0o77)
    main()

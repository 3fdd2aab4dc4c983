#!/usr/bin/env bash
# Runs gateways and desks as their users do, on loopback and in network namespaces of its own, and looks at what comes of it.
# Prints a line 'ok NAME', 'not ok NAME' or 'skipped NAME: why' for each, and 'N passed, M failed' at the end.
# It takes the built program: crates/sacn/out/sacn, or the path in SACN.
set -u
# shellcheck source=tests/lib.sh
. "$(dirname "$(readlink -f "$0")")/lib.sh"
# (its looks stand by their names alone)
label=
work=$room
# (each look has a port of its own, so that what one leaves behind is nothing to the next)
udp=

show() { # PORT UNIVERSES..
  local port=$1 list
  shift
  list=$(IFS=,; echo "$*")
  printf 'version = 1\ncid = "00010203-0405-0607-0809-0a0b0c0d0e0f"\nname = "Desk"\nuniverses = [%s]\nsend_to = [%s]\n' "$list" "$port"
  printf '[[cue]]\nnumber = 1\nfade = 0\nlevels = [[1, 65535]]\n[[cue]]\nnumber = 2\nfade = 0\nlevels = [[1, 0]]\n'
  for universe in "$@"; do
    printf '[[patch]]\nchannel = 1\nuniverse = %s\nslot = 1\n' "$universe"
  done
}

setup() { # PORT UNIVERSE
  printf 'version = 1\nudp_port = %s\n[[port]]\nnumber = 1\nuniverse = %s\n' "$1" "$2"
}

# Waits until a gateway has written its first line, which it does after its first turn (what comes before that one ends shows in it).
ready() { # FILE
  wait_until test -s "$1"
}

# Whether a look goes well in one of three tries: what it asks for needs processors that nothing else keeps for long.
in_three_tries() { # NAME
  for _ in 1 2 3; do
    udp=$(free_udp_port)
    "$1" && return
  done
  return 1
}

# The first slot of each line that a gateway wrote.
levels() { # FILE
  cut -d ' ' -f 3 "$1" | cut -c 3-4 | tr '\n' ' '
}

# Waits until a gateway has written that it is lit.
is_lit() { [ "$(levels "$work/lines")" = "00 ff " ]; }
lit() { wait_until is_lit; }

a_desk_lights_a_gateway() {
  setup "$udp" 1 >"$work/node.toml"
  show "$udp" 1 >"$work/show.toml"
  : >"$work/lines"
  "$sacn" gateway "$work/node.toml" --seconds 10 >"$work/lines" 2>"$work/said" &
  local pid=$!
  ready "$work/lines"
  : >"$work/answers"
  (echo go; lit; echo status; echo "goto 9"; echo jump; wait_for_line "$work/answers" '^line 4: ') | "$sacn" desk "$work/show.toml" >"$work/answers" 2>"$work/desk" || return 1
  wait "$pid" || return 1
  [ "$(levels "$work/lines")" = "00 ff 00 " ] || return 1
  grep -q '^".*" 0001..0f at 127.0.0.1, priority [0-9]*, universe 1: came$' "$work/said" || return 1
  grep -q '^".*" 0001..0f at 127.0.0.1, priority [0-9]*, universe 1: ended$' "$work/said" || return 1
  [ "$(sed -n 1p "$work/answers")" = "ok cue 1 up 0 s down 0 s" ] || return 1
  sed -n 2p "$work/answers" | grep -q '^cue 1 master 65535 sent [0-9]* failed 0 1 running$' || return 1
  [ "$(sed -n 3p "$work/answers")" = "refused NoCue: the show has no cue 9; cues lists them" ] || return 1
  [ "$(sed -n 4p "$work/answers")" = 'line 4: "jump" isn'"'"'t an order; help lists them' ] || return 1
  sed -n 5p "$work/answers" | grep -q '^sent [0-9]* failed 0 refused '
}

a_script_ends_the_desk() {
  show "$udp" 1 >"$work/show.toml"
  printf '0 go\n200 go\n' >"$work/script.txt"
  "$sacn" desk "$work/show.toml" --script "$work/script.txt" </dev/null >"$work/answers" || return 1
  grep -q '^sent [0-9]* failed 0 refused ' "$work/answers"
}

a_port_is_shared() {
  setup "$udp" 1 >"$work/node.toml"
  python3 - "$sacn" "$work/node.toml" "$udp" <<'P'
import socket, subprocess, sys
def shared():
    s = socket.socket(socket.AF_INET, socket.SOCK_DGRAM)
    s.setsockopt(socket.SOL_SOCKET, socket.SO_REUSEADDR, 1)
    s.setsockopt(socket.SOL_SOCKET, socket.SO_REUSEPORT, 1)
    s.bind(("0.0.0.0", int(sys.argv[3])))
    return s
first = shared()
after = subprocess.run([sys.argv[1], "gateway", sys.argv[2], "--beside", "--seconds", "1"], capture_output=True).returncode
first.close()
running = subprocess.Popen([sys.argv[1], "gateway", sys.argv[2], "--seconds", "2"], stdout=subprocess.PIPE, stderr=subprocess.PIPE)
running.stderr.readline()
shared().close()
running.communicate()
sys.exit(after or running.returncode)
P
}

bursts_lose_nothing() {
  {
    printf 'version = 1\nudp_port = %s\n' "$udp"
    for n in $(seq 1 16); do printf '[[port]]\nnumber = %s\nuniverse = %s\n' "$n" "$n"; done
  } >"$work/node.toml"
  python3 - "$sacn" "$work/node.toml" "$work/lines" "$udp" <<'P'
import socket, subprocess, sys, time
import e131
port = int(sys.argv[4])
run = subprocess.Popen([sys.argv[1], "gateway", sys.argv[2], "--seconds", "8"], stdout=open(sys.argv[3], "w"), stderr=subprocess.PIPE)
run.stderr.readline()
if b"receive buffer" in run.stderr.readline():
    open(sys.argv[3] + ".small", "w").close()
    run.kill()
    sys.exit(0)
out = socket.socket(socket.AF_INET, socket.SOCK_DGRAM)
bursts = 44 * 2
start = time.time()
for burst in range(bursts):
    for universe in range(1, 201):
        out.sendto(e131.data(universe, burst, bytes([1 + burst]) + bytes(511), name=b"burst"), ("127.0.0.1", port))
    time.sleep(max(0, start + (burst + 1) / 44 - time.time()))
# (so long it has to take what waits there, before its drops are counted)
time.sleep(0.5)
drops = [int(line.split()[-1]) for line in open("/proc/net/udp") if line.split()[1].endswith(f":{port:04X}")]
run.wait()
latest = {}
for line in open(sys.argv[3]):
    port, _, frame = line.split()
    if frame[2:4] != "00": latest[int(port)] = int(frame[2:4], 16)
print("of", bursts, "bursts of 200 the socket dropped", drops, file=sys.stderr)
sys.exit(0 if drops == [0] and latest == {port: bursts for port in range(1, 17)} else 1)
P
}

a_stop_drops_the_backlog() {
  setup "$udp" 1 >"$work/node.toml"
  show "$udp" 1 >"$work/show.toml"
  : >"$work/lines"
  "$sacn" gateway "$work/node.toml" --seconds 12 >"$work/lines" 2>"$work/said" &
  local pid=$!
  ready "$work/lines"
  # (the desk sends on for two seconds, in which the gateway is stopped, which it is for three more)
  (echo go; lit; sleep 2) | "$sacn" desk "$work/show.toml" >/dev/null &
  local desk=$!
  lit
  kill -STOP "$pid"
  wait "$desk"
  sleep 3
  kill -CONT "$pid"
  wait "$pid"
  grep -q '^dropped Late [0-9]' "$work/said" || return 1
  [ "$(levels "$work/lines")" = "00 ff 00 " ]
}

a_lost_source_goes_dark() {
  setup "$udp" 1 >"$work/node.toml"
  python3 - "$sacn" "$work/node.toml" "$top/examples/levels.sacn" "$udp" <<'P'
import socket, subprocess, sys, time
run = subprocess.Popen([sys.argv[1], "gateway", sys.argv[2], "--seconds", "8"], stdout=subprocess.PIPE, stderr=subprocess.PIPE, text=True)
# (Its first line, of the first turn, comes before anything is sent.)
is_dark = run.stdout.readline().split()[2].strip("0") == ""
out = socket.socket(socket.AF_INET, socket.SOCK_DGRAM)
sent = time.monotonic()
out.sendto(open(sys.argv[3], "rb").read(), ("127.0.0.1", int(sys.argv[4])))
lines = [(time.monotonic() - sent, line.split()[2]) for line in run.stdout]
is_lit = [frame.strip("0") != "" for _, frame in lines]
print("moments", [moment for moment, _ in lines], is_lit, file=sys.stderr)
# (2500 ms of the gateway's clock, in whole milliseconds. Its lit line may bear a later moment than the packet, so the packet's own counts.)
sys.exit(0 if is_dark and is_lit == [True, False] and lines[1][0] > 2.498 else 1)
P
}

an_interface_gets_frames() {
  setup "$udp" 1 >"$work/node.toml"
  show "$udp" 1 >"$work/show.toml"
  python3 - "$sacn" "$work" <<'P'
import os, pty, select, subprocess, sys, time, tty
sacn, work = sys.argv[1], sys.argv[2]
link = work + "/widget"
def terminal():
    master, slave = pty.openpty()
    tty.setraw(slave)
    if os.path.lexists(link): os.unlink(link)
    os.symlink(os.ttyname(slave), link)
    return master, slave
# What comes until it is whole frames, and enough.
def read(master, is_enough):
    data, end = b"", time.time() + 20
    while time.time() < end and not (data and len(data) % 518 == 0 and is_enough(data)):
        ready, _, _ = select.select([master], [], [], 0.1)
        if ready:
            try: data += os.read(master, 65536)
            except OSError: break
    return data
def frames(data):
    found = [data[at:at + 518] for at in range(0, len(data) - 517, 518)]
    assert all(f[:4] == b"\x7e\x06\x01\x02" and f[-1] == 0xe7 for f in found), data[:20]
    return [f[5] for f in found]
master, slave = terminal()
run = subprocess.Popen([sacn, "gateway", work + "/node.toml", "--widget", "1=" + link, "--seconds", "12"], stdout=subprocess.PIPE, stderr=subprocess.PIPE, text=True)
run.stderr.readline()
dark = frames(read(master, lambda data: len(data) >= 3 * 518))
assert len(dark) >= 3 and set(dark) == {0}, dark
desk = subprocess.Popen([sacn, "desk", work + "/show.toml"], stdin=subprocess.PIPE, stdout=subprocess.DEVNULL, text=True)
desk.stdin.write("go\n"); desk.stdin.flush()
lit = frames(read(master, lambda data: data[-513] == 255))
assert lit and lit[-1] == 255, lit
os.unlink(link)
os.close(slave); os.close(master)
# (for so long it is away)
time.sleep(1.2)
master, slave = terminal()
again = frames(read(master, lambda data: True))
assert again and again[0] == 255, again
desk.stdin.close(); desk.wait()
said = run.communicate()[1]
assert "widget 1 " in said and "works again" in said, said
P
}

a_stuck_interface_costs_itself_alone() {
  { setup "$udp" 1; printf '[[port]]\nnumber = 2\nuniverse = 1\n'; } >"$work/node.toml"
  show "$udp" 1 >"$work/show.toml"
  python3 - "$sacn" "$work" <<'P'
import os, pty, select, subprocess, sys, time, tty
sacn, work = sys.argv[1], sys.argv[2]
def terminal(is_raw):
    master, slave = pty.openpty()
    if is_raw: tty.setraw(slave)
    return master, slave
# What comes until it is enough.
def read(master, is_enough):
    data, end = b"", time.time() + 20
    while time.time() < end and not is_enough(data):
        ready, _, _ = select.select([master], [], [], 0.1)
        if ready: data += os.read(master, 65536)
    return data
# The first slot of each packet; there is nothing between them, and the last may have come in part.
def frames(data):
    found = [data[at:at + 518] for at in range(0, len(data) - 517, 518)]
    assert all(f[:4] == b"\x7e\x06\x01\x02" and f[-1] == 0xe7 for f in found), data[:20]
    return [f[5] for f in found]
def is_lit(data): return 255 in frames(data)
for is_raw in (True, False):
    stuck, full = terminal(is_raw)
    works, beside = terminal(True)
    # Nobody reads one terminal: it is full, but for less than a packet.
    os.set_blocking(full, False)
    written = 0
    try:
        while True: written += os.write(full, b"x" * 64)
    except BlockingIOError: pass
    before = os.read(stuck, 300)
    words = ["--widget", "1=" + os.ttyname(full), "--widget", "2=" + os.ttyname(beside), "--seconds", "15"]
    run = subprocess.Popen([sacn, "gateway", work + "/node.toml"] + words, stdout=subprocess.DEVNULL, stderr=subprocess.PIPE, text=True)
    run.stderr.readline()
    dark = frames(read(works, lambda data: len(data) >= 3 * 518))
    assert len(dark) >= 3 and set(dark) == {0}, dark
    desk = subprocess.Popen([sacn, "desk", work + "/show.toml"], stdin=subprocess.PIPE, stdout=subprocess.DEVNULL, text=True)
    desk.stdin.write("go\n"); desk.stdin.flush()
    lit = frames(read(works, is_lit))
    assert lit and lit[-1] == 255, lit
    # Now it is read: what comes after its old octets is whole packets, up to the frame as it is.
    left = written - len(before)
    later = read(stuck, lambda data: is_lit(data[left:]))
    assert set(later[:left]) == {ord("x")}, later[:20]
    assert is_lit(later[left:]), frames(later[left:])
    desk.stdin.close(); desk.wait()
    run.communicate()
    for descriptor in (stuck, full, works, beside): os.close(descriptor)
P
}

# A gateway whose outputs nobody reads, beside a source of which each packet is another level: its interface gets frames all the same. What
# is read of it later is whole lines, one of which says how many are missing, and the newest frame.
an_unread_output_holds_nothing_up() {
  setup "$udp" 1 >"$work/node.toml"
  python3 - "$sacn" "$work" "$udp" <<'P'
import os, socket, subprocess, sys, time
import e131
work = sys.argv[2]
def packet(number, level, ends=False):
    return e131.data(1, number, bytes([level]) + bytes(511), name=b"unread", options=e131.TERMINATED if ends else 0)
open(work + "/device", "w").close()
run = subprocess.Popen([sys.argv[1], "gateway", work + "/node.toml", "--widget", "1=" + work + "/device", "--seconds", "16"],
                       stdout=subprocess.PIPE, stderr=subprocess.PIPE)
run.stderr.readline()
out = socket.socket(socket.AF_INET, socket.SOCK_DGRAM)
place = ("127.0.0.1", int(sys.argv[3]))
def paced(count, gap):
    """The numbers below it, one in so many seconds by the clock, so that a late machine doesn't send beyond the gateway's end."""
    due = time.monotonic()
    for number in range(count):
        yield number
        due += gap
        time.sleep(max(gap / 2, due - time.monotonic()))
sizes = []
for count in paced(600, 0.005):
    out.sendto(packet(count % 256, 1 + count % 255), place)
    if count in (400, 599): sizes.append(os.path.getsize(work + "/device"))
time.sleep(0.5)
last = 1 + 599 % 255
# a thousand ends and beginnings, of which few lines may come
for count in paced(1000, 0.001):
    out.sendto(packet((600 + count) % 256, last, count % 2 == 0), place)
out.sendto(packet(1600 % 256, last), place)
written, said = run.communicate()
lines = written.decode().splitlines()
missing = [line for line in lines if line.endswith(" lines not written")]
frames = [line.split() for line in lines if line not in missing]
sources = [line for line in said.decode().splitlines() if line.startswith("\"")]
passed = [int(line.split()[0]) for line in said.decode().splitlines() if line.endswith(" source lines not written")]
assert run.returncode == 0, run.returncode
assert sizes[1] - sizes[0] > 20 * 518, sizes
assert all(len(frame) == 3 and frame[0] == "1" and len(frame[2]) == 1026 for frame in frames)
assert written.endswith(b"\n") and len(missing) >= 1 and int(missing[0].split()[0]) > 0
assert "%02x" % last in [frame[2][2:4] for frame in frames[-3:]]
assert sum(passed) > 0 and len(sources) <= 10 * 13, (sources, passed)
P
}

# A gateway's account of sources has room for 1024. Behind 1120 that came and were lost it still tells of a new one; and of one that sends all the while it tells once that it came, and once that it is lost.
sources_are_told_for_months() {
  {
    printf 'version = 2\nudp_port = %s\n' "$udp"
    for universe in $(seq 16); do
      case $universe in 1 | 9) printf '[[port]]\nnumber = %d\n' "$universe" ;; esac
      printf '[[port.range]]\nuniverse = %d\nslot = 1\ncount = 1\nport_slot = %d\n' "$universe" "$universe"
    done
  } >"$work/node.toml"
  python3 - "$sacn" "$work" "$udp" <<'P'
import re, socket, subprocess, sys, time
import e131
work = sys.argv[2]
def packet(cid, number, universe): return e131.data(universe, number, b"\x09", cid, b"months")
steady, last = bytes([0xee] * 16), bytes([0xdd] * 16)
run = subprocess.Popen([sys.argv[1], "gateway", work + "/node.toml", "--seconds", "600"], stdout=subprocess.DEVNULL, stderr=open(work + "/months", "w"))
out = socket.socket(socket.AF_INET, socket.SOCK_DGRAM)
def send(octets): out.sendto(octets, ("127.0.0.1", int(sys.argv[3])))
def told(pattern): return len(re.findall(pattern, open(work + "/months").read(), re.M))
def counted(): return told(": (came|lost)$") + sum(int(count) for count in re.findall("^([0-9]+) source lines not written$", open(work + "/months").read(), re.M))
number = 0
def go_on():
    global number
    send(packet(steady, number, 1))
    number += 1
def until(is_so, what, each=lambda: None):
    limit = time.monotonic() + 20
    while not is_so():
        assert time.monotonic() < limit, (what, open(work + "/months").read()[-600:])
        each()
        time.sleep(0.1)
until(lambda: told("^hears "), "it hears")
until(lambda: told('^"months" eeee..ee .*: came$'), "the steady one came", go_on)
# (a universe holds 16 sources; each is told, or counted, as it comes and as it is lost)
for turn in range(5):
    for universe in range(1, 17):
        for count in range(14):
            send(packet(bytes([turn, universe, count] + [1] * 13), 0, universe))
        go_on()
        time.sleep(0.02)
    until(lambda: counted() == 1 + 2 * 16 * 14 * (turn + 1), f"turn {turn}", go_on)
send(packet(last, 0, 1))
until(lambda: told('^"months" dddd..dd .*: came$'), "the new one came", go_on)
until(lambda: told('^"months" eeee..ee .*: lost$'), "the steady one is lost")
run.terminate()
run.wait()
assert told('^"months" eeee..ee .*: came$') == 1 and told('^"months" eeee..ee .*: lost$') == 1, open(work + "/months").read()[-800:]
P
}

# What a source does on several universes within a second is one line, whose time of day is that of its beginning; and each source that lights a port is told, also where
# the gateway ends before its second is over.
what_a_source_does_is_one_line() {
  {
    printf 'version = 2\nudp_port = %s\n[[port]]\nnumber = 1\n' "$udp"
    for universe in $(seq 8); do printf '[[port.range]]\nuniverse = %d\nslot = 1\ncount = 16\nport_slot = %d\n' "$universe" $((16 * universe - 15)); done
  } >"$work/node.toml"
  python3 - "$sacn" "$work" "$udp" <<'P'
import os, re, socket, subprocess, sys, time
import e131
work = sys.argv[2]
def packet(cid, name, universe, slots, priority=100, ends=False, number=None):
    number = int(ends) if number is None else number
    return e131.data(universe, number, slots, cid, name, priority, e131.TERMINATED if ends else 0)
one, two = bytes([0xaa] * 16), bytes([0xbb] * 16)
out = socket.socket(socket.AF_INET, socket.SOCK_DGRAM)
def send(octets): out.sendto(octets, ("127.0.0.1", int(sys.argv[3])))
def begin(seconds, *more):
    said = open(work + "/said", "w")
    words = [sys.argv[1], "gateway", work + "/node.toml", "--frames", "digits", "--seconds", str(seconds), *more]
    run = subprocess.Popen(words, stdout=open(work + "/lines", "w"), stderr=said, env=dict(os.environ, TZ="UTC0"))
    until(lambda: told("hears "), "it hears")
    return run
def whole(name): return [line for line in open(work + name) if line.endswith("\n")]
def told(pattern): return len(re.findall(pattern, open(work + "/said").read(), re.M))
def until(is_so, what):
    limit = time.monotonic() + 20
    while not is_so():
        assert time.monotonic() < limit, (what, open(work + "/said").read()[-600:])
        time.sleep(0.05)
def began():
    """The first comes, and once its frame stands it ends and the second comes; None where this machine stood still so long that the first may have been lost before."""
    run = begin(30, "--clock")
    first = time.monotonic()
    for universe in (1, 2, 3, 4, 5, 8): send(packet(one, b"one", universe, b"\xff"))
    until(lambda: any(line.split()[3][2:4] == "ff" for line in whole("/lines")), "the first's frame")
    for universe in (1, 2, 3, 4, 5, 8): send(packet(one, b"one", universe, b"\xff", ends=True))
    send(packet(two, b"two", 2, b"\x07", 90)), send(packet(two, b"two", 3, b"\x07"))
    if time.monotonic() - first < 2: return run
    run.terminate(), run.wait()
run = next(filter(None, (began() for _ in range(10))))
until(lambda: told('"two".*: lost$'), "the second is lost")
run.terminate(), run.wait()
lines = [line for line in open(work + "/said").read().splitlines() if re.search(": [a-z]+$", line)]
wanted = ['"one" aaaa..aa at 127.0.0.1, priority 100, universes 1-5, 8: came', '"one" aaaa..aa at 127.0.0.1, priority 100, universes 1-5, 8: ended',
          '"two" bbbb..bb at 127.0.0.1, priorities 90-100, universes 2-3: came', '"two" bbbb..bb at 127.0.0.1, priorities 90-100, universes 2-3: lost']
assert [line[13:] for line in lines] == wanted, lines
def millis(line):
    hours, minutes, seconds = line[:12].split(":")
    return (int(hours) * 60 + int(minutes)) * 60000 + round(float(seconds) * 1000)
# (the frame is written in the turn of the packet that came first, and the line a second later; a machine that is busy may take its time over a turn)
lit = next(line for line in open(work + "/lines") if line.split()[3][2:4] == "ff")
day = 86400000
assert abs((millis(lines[0]) - millis(lit) + day // 2) % day - day // 2) <= 900, (lines[0], lit[:40])
# one that comes, ends and comes within a second: each is told, in its order
run = begin(30)
for number, ends in enumerate((False, True, False)):
    send(packet(one, b"one", 1, b"\xff", ends=ends, number=number))
until(lambda: told(": came$") == 2, "it came again")
run.terminate(), run.wait()
assert re.findall(": ([a-z]+)$", open(work + "/said").read(), re.M) == ["came", "ended", "came"], open(work + "/said").read()
# a source more each 250 ms, of which each lights a slot of its own: so few that a line of each may come in one second
run = begin(2)
count = 0
while run.poll() is None and count < 9:
    send(packet(bytes([0xc0 + count] * 16), b"source %d" % count, 1, bytes(count) + b"\xff"))
    count += 1
    time.sleep(0.25)
run.wait()
frame = open(work + "/lines").read().splitlines()[-1].split()[2]
lights = {number for number in range(16) if frame[2 + 2 * number : 4 + 2 * number] == "ff"}
came = {int(number) for number in re.findall('^"source ([0-9]+)" .*: came$', open(work + "/said").read(), re.M)}
assert lights and lights == came, (lights, came)
P
}

# A gateway and a watch that hear nothing say so once, after five seconds, and what was joined where the launcher says it; one that hears something doesn't.
silence_is_said() {
  local port heard watched
  port=$(free_udp_port)
  heard=$(free_udp_port)
  watched=$(free_udp_port)
  setup "$port" 1 >"$work/node.toml"
  "$sacn" gateway "$work/node.toml" --seconds 10 >/dev/null 2>"$work/silent" &
  local silent=$!
  "$sacn" watch --port "$watched" --plain --seconds 10 </dev/zero >/dev/null 2>"$work/watch" &
  local watch=$!
  setup "$udp" 1 >"$work/joined.toml"
  SACN_JOINED="eth0 joined a group" "$sacn" gateway "$work/joined.toml" --seconds 10 >/dev/null 2>"$work/joined" &
  local joined=$!
  setup "$heard" 1 >"$work/lit.toml"
  : >"$work/lines"
  "$sacn" gateway "$work/lit.toml" --seconds 10 >"$work/lines" 2>"$work/said" &
  local lit=$!
  ready "$work/lines"
  cat "$top/examples/levels.sacn" >"/dev/udp/127.0.0.1/$heard"
  wait "$silent" "$watch" "$joined" "$lit"
  grep -qx "nothing heard for 5 s at 0\.0\.0\.0:$udp; eth0 joined a group; is the console on this network, or does it send by unicast to another host?" "$work/joined" || return 1
  [ "$(grep -c "^nothing heard for 5 s at 0\.0\.0\.0:$port; .*--join DEVICE\$" "$work/silent")" = 1 ] &&
    [ "$(grep -c "^nothing heard for 5 s at 0\.0\.0\.0:$watched; " "$work/watch")" = 1 ] && ! grep -q '^nothing heard' "$work/said"
}

Ctrl_C_ends_each_universe() {
  show "$udp" 1 2 >"$work/show.toml"
  python3 - "$sacn" "$work/show.toml" "$udp" <<'P'
import socket, subprocess, sys, time
import e131
heard = socket.socket(socket.AF_INET, socket.SOCK_DGRAM)
heard.bind(("127.0.0.1", int(sys.argv[3]))); heard.settimeout(0.2)
run = subprocess.Popen([sys.argv[1], "desk", sys.argv[2]], stdin=subprocess.PIPE, stdout=subprocess.PIPE, text=True)
# (It runs once it is heard.)
end = time.time() + 20
while time.time() < end:
    try:
        heard.recv(2048)
        break
    except socket.timeout: pass
run.stdin.close()
ends = {}
while True:
    is_over = run.poll() is not None
    try:
        packet = e131.read(heard.recv(2048))
    except socket.timeout:
        if is_over: break
        continue
    if packet and len(packet.slots) == 512 and packet.options & e131.TERMINATED:
        ends[packet.universe] = ends.get(packet.universe, 0) + 1
sys.exit(0 if ends == {1: 3, 2: 3} and run.wait() == 0 else 1)
P
}

bad_words_are_named() {
  setup "$udp" 1 >"$work/node.toml"
  show "$udp" 1 >"$work/show.toml"
  "$sacn" gateway "$work/node.toml" --listen 300.1.1.1 2>"$work/said"
  [ $? -eq 2 ] && grep -q '300.1.1.1: Address' "$work/said" || return 1
  "$sacn" desk "$work/show.toml" --to 10.0.0.1:0 2>"$work/said" </dev/null
  [ $? -eq 2 ] && grep -q '10.0.0.1:0: Port' "$work/said" || return 1
  "$sacn" desk "$work/show.toml" --to 10.0.0.1:65536 2>"$work/said" </dev/null
  [ $? -eq 2 ] && grep -q '10.0.0.1:65536: Port' "$work/said" || return 1
  "$sacn" gateway "$work/node.toml" --listen 192.0.2.1 2>"$work/said"
  [ $? -eq 4 ] && grep -q "^device socket 192.0.2.1:$udp AddrNotAvailable\$" "$work/said" || return 1
  "$sacn" gateway "$work/absent.toml" 2>"$work/said"
  [ $? -eq 4 ] && grep -q "^device read $work/absent.toml$" "$work/said" || return 1
  "$sacn" desk "$work/show.toml" >"$work/answers" <&- || return 1
  head -c 1048576 /dev/zero | tr '\0' x >"$work/long"
  echo >>"$work/long"
  echo go >>"$work/long"
  "$sacn" desk "$work/show.toml" <"$work/long" >"$work/answers" || return 1
  [ "$(sed -n 1p "$work/answers")" = "line 1: a line has at most 65536 octets" ] && [ "$(sed -n 2p "$work/answers")" = "ok cue 1 up 0 s down 0 s" ]
}

a_small_stack_is_enough() {
  setup "$udp" 1 >"$work/node.toml"
  show "$udp" 1 >"$work/show.toml"
  { echo 'version = 1'; echo "x = $(printf '[%.0s' $(seq 80))$(printf ']%.0s' $(seq 80))"; } >"$work/nested.toml"
  (
    ulimit -s 256 || exit 1
    "$sacn" gateway "$work/nested.toml" 2>"$work/said"
    [ $? -eq 3 ] || exit 1
    : >"$work/lines"
    "$sacn" gateway "$work/node.toml" --seconds 10 >"$work/lines" 2>"$work/said" &
    ready "$work/lines"
    (echo go; lit) | "$sacn" desk "$work/show.toml" >"$work/answers" || exit 1
    wait $! || exit 1
    [ "$(levels "$work/lines")" = "00 ff 00 " ] || exit 1
    "$sacn" watch --plain --port "$udp" --seconds 1 </dev/null >"$work/lines" 2>"$work/said" || exit 1
    "$sacn" explain "$top/examples/qlcplus.pcap" >"$work/lines" </dev/null
  )
}

groups_are_printed() {
  setup "$udp" 258 >"$work/node.toml"
  [ "$("$sacn" groups "$work/node.toml" --device eth0)" = "ip address add 239.255.1.2/32 dev eth0 autojoin
ip address add 239.255.250.214/32 dev eth0 autojoin" ]
}

multicast_between_namespaces() {
  local a=sacn-a-$$ b=sacn-b-$$ status=1
  setup 5568 1 >"$work/node.toml"
  show 5568 1 >"$work/show.toml"
  ip netns add "$a" && ip netns add "$b" &&
    ip link add va netns "$a" type veth peer name vb netns "$b" &&
    ip -n "$a" address add 10.77.0.1/24 dev va && ip -n "$b" address add 10.77.0.2/24 dev vb &&
    ip -n "$a" link set va up && ip -n "$b" link set vb up &&
    ip -n "$a" route add 239.255.0.0/16 dev va &&
    "$sacn" groups "$work/node.toml" --device vb | while read -r line; do ip -n "$b" ${line#ip }; done && {
    : >"$work/lines"
    ip netns exec "$b" "$sacn" gateway "$work/node.toml" --seconds 10 >"$work/lines" 2>"$work/said" &
    local pid=$!
    ready "$work/lines"
    # (a desk goes on for a while)
    (echo go; lit; sleep 0.2) | ip netns exec "$a" "$sacn" desk "$work/show.toml" --multicast >/dev/null 2>"$work/desk"
    wait "$pid"
    [ "$(levels "$work/lines")" = "00 ff 00 " ] && grep -q ' at 10.77.0.1, .*: came$' "$work/said" && status=0
  }
  ip netns del "$a" 2>/dev/null
  ip netns del "$b" 2>/dev/null
  return "$status"
}

# The broadcast address refuses each datagram of a socket that didn't ask for it.
a_host_that_refuses_stops_no_other() {
  setup "$udp" 1 >"$work/node.toml"
  show "$udp" 1 >"$work/show.toml"
  : >"$work/lines"
  "$sacn" gateway "$work/node.toml" --seconds 10 >"$work/lines" 2>"$work/said" &
  local pid=$!
  ready "$work/lines"
  # (it goes on for a while)
  (echo go; lit; sleep 0.2) | "$sacn" desk "$work/show.toml" --to "255.255.255.255:$udp" --to "127.0.0.1:$udp" >"$work/answers" 2>"$work/desk" || return 1
  wait "$pid" || return 1
  [ "$(levels "$work/lines")" = "00 ff 00 " ] || return 1
  [ "$(sed -n 1p "$work/desk")" = "desk \"Desk\" priority 100 universes 1 to 255.255.255.255:$udp, 127.0.0.1:$udp" ] || return 1
  [ "$(sed -n 2p "$work/desk")" = "255.255.255.255:$udp doesn't take packets: 1 failed (PermissionDenied)" ] || return 1
  ! sed 1d "$work/desk" | grep -q 127.0.0.1 || return 1
  grep -q '^sent 0 failed [1-9][0-9]* refused ' "$work/answers"
}

# A desk that fades 16 universes to 20 addresses that nobody has and one that hears: no universe of that one waits for the others.
absent_hosts_stop_no_other() {
  local a=sacn-a-$$ b=sacn-b-$$ status=1
  printf 'version = 1\ncid = "00010203-0405-0607-0809-0a0b0c0d0e0f"\nname = "Desk"\nuniverses = [1,2,3,4,5,6,7,8,9,10,11,12,13,14,15,16]\nsend_to = [5568]\n' >"$work/show.toml"
  printf '[[cue]]\nnumber = 1\nfade = 900000\nlevels = [[1, 65535]]\n' >>"$work/show.toml"
  for universe in $(seq 16); do printf '[[patch]]\nchannel = 1\nuniverse = %s\nslot = 1\nwide = true\n' "$universe"; done >>"$work/show.toml"
  ip netns add "$a" && ip netns add "$b" &&
    ip link add va netns "$a" type veth peer name vb netns "$b" &&
    ip -n "$a" address add 10.77.0.1/24 dev va && ip -n "$b" address add 10.77.0.2/24 dev vb &&
    ip -n "$a" link set va up && ip -n "$b" link set vb up &&
    python3 - "$sacn" "$work/show.toml" "$a" "$b" <<'P' && status=0
import subprocess, sys, time
sacn, show, a, b = sys.argv[1:]
hear = '''
import socket, time
import e131
s = socket.socket(socket.AF_INET, socket.SOCK_DGRAM); s.bind(("10.77.0.2", 5568)); s.settimeout(0.2)
print("ready", flush=True)
last, gap, end = {}, 0, time.monotonic() + 7
while time.monotonic() < end:
    try: packet = e131.read(s.recv(2048))
    except TimeoutError: continue
    if not packet: continue
    now = time.monotonic()
    gap = max(gap, now - last.get(packet.universe, now)); last[packet.universe] = now
print(len(last), gap)
'''
run = subprocess.Popen(["ip", "netns", "exec", b, sys.executable, "-c", hear], stdout=subprocess.PIPE, text=True)
run.stdout.readline()
absent = [f"10.77.0.{100 + host}" for host in range(20)]
to = [word for host in absent + ["10.77.0.2"] for word in ("--to", host)]
desk = subprocess.Popen(["ip", "netns", "exec", a, sacn, "desk", show, *to], stdin=subprocess.PIPE, stdout=subprocess.PIPE, stderr=subprocess.PIPE, text=True)
desk.stdin.write("go\n"); desk.stdin.flush()
time.sleep(6)
said = [line for line in desk.communicate()[1].splitlines() if not line.startswith("desk ")]
universes, gap = run.communicate()[0].split()
print("universes", universes, "greatest gap", gap, "it says", said, file=sys.stderr)
sys.exit(0 if universes == "16" and float(gap) < 1.5 and said == [", ".join(absent) + " don't answer on this network: are they on?"] else 1)
P
  ip netns del "$a" 2>/dev/null
  ip netns del "$b" 2>/dev/null
  return "$status"
}

[ -x "$sacn" ] || { echo "not ok the program is built: $sacn isn't there"; exit 1; }
tests="a_desk_lights_a_gateway a_script_ends_the_desk a_port_is_shared a_stop_drops_the_backlog
  a_lost_source_goes_dark an_interface_gets_frames an_unread_output_holds_nothing_up a_stuck_interface_costs_itself_alone sources_are_told_for_months what_a_source_does_is_one_line silence_is_said Ctrl_C_ends_each_universe bad_words_are_named groups_are_printed a_small_stack_is_enough a_host_that_refuses_stops_no_other"
for test in $tests; do
  udp=$(free_udp_port)
  "$test"
  verdict "$test" $?
done
in_three_tries bursts_lose_nothing
status=$?
if [ -e "$work/lines.small" ]; then echo "skipped bursts_lose_nothing: this machine gives a socket too little room"; else verdict bursts_lose_nothing "$status"; fi
if ip netns add "sacn-try-$$" 2>/dev/null && ip -n "sacn-try-$$" link add va type veth peer name vb 2>/dev/null; then
  ip netns del "sacn-try-$$"
  multicast_between_namespaces
  verdict multicast_between_namespaces $?
  in_three_tries absent_hosts_stop_no_other
  verdict absent_hosts_stop_no_other $?
else
  ip netns del "sacn-try-$$" 2>/dev/null
  echo "skipped multicast_between_namespaces: no network namespaces can be made here"
  echo "skipped absent_hosts_stop_no_other: no network namespaces can be made here"
fi
echo "$passed passed, $failed failed"
[ "$failed" -eq 0 ]

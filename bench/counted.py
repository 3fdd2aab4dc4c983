"""What bench/counts counts: the instructions of each workload, and of calls and commands that no workload makes.

Each run is made by valgrind in one environment, in which the C library doesn't choose by the processor how it copies (PINNED). So counts are alike where the processor has
AVX2 and where it hasn't, and nothing is copied by one long instruction, which valgrind counts once for each octet.
"""
import os
import re
import shutil
import subprocess
import sys
import tempfile

import packets
from workloads import run_in, workloads

TOP = os.path.dirname(os.path.dirname(os.path.realpath(__file__)))
SEED, ROUNDS = 1, "1"
# A run that takes longer than so many seconds is ended: it waits for something that doesn't come.
LONGEST = 900
VALGRIND = ["valgrind", "--command-line-only=yes", "--tool=cachegrind", "--cache-sim=no", "--cachegrind-out-file=/dev/null"]
PINNED = {"GLIBC_TUNABLES": "glibc.cpu.hwcaps=-AVX2,-ERMS", "LC_ALL": "C"}
# Calls of the C library: the name in bench/calls.c, and how many are made.
CALLS = {
    "c-monitor": ("monitor", 20000),
    "c-node": ("node", 10000),
    "c-rows": ("rows", 500),
    "c-fixtures": ("fixtures", 500),
    "c-master": ("master", 500),
    "c-few": ("few", 1000),
}
# What is asked of the program, and how often: a file's datagram, a second of a watch's screen, the document of a recording's page, a second of a gateway.
COMMANDS = {"decode": 100, "screen": 20, "page": 50, "gateway": 2}
# The recording of the page: how many sources send on how many universes, and how often. It ends so many milliseconds after its beginning.
RECORDED = 16, 16, 4
LAST = 75
# The gateway: how many universes its ports show, and how many a source sends at each moment.
PORTS, SENT = 16, 64


class Lacking(Exception):
    """What isn't there, so that something can't be counted: for a person."""


class Failed(Exception):
    """A run that didn't end as it should: for a person."""


def names():
    """All that is counted, in order."""
    return [*(it[0] for it in workloads(SEED)), *CALLS, *COMMANDS]


def environment(more):
    return {"PATH": os.environ["PATH"], **PINNED, **more}


def refs(log):
    """The count at the end of what valgrind wrote."""
    with open(log, encoding="utf-8", errors="replace") as text:
        found = re.findall(r"I +refs: +([\d,]+)", text.read())
    if len(found) != 1:
        raise Failed("valgrind told no count")
    return int(found[0].replace(",", ""))


class Counter:
    """Runs programs under valgrind, in a folder of its own."""

    def __init__(self, room, program, library, machine):
        self.room, self.program, self.library, self.machine = room, program, library, machine

    def count(self, words, folder=None, given=os.devnull, **more):
        """The instructions of a run that ends well."""
        with tempfile.NamedTemporaryFile(dir=self.room) as log, open(given, "rb") as text:
            try:
                ran = subprocess.run(
                    [*VALGRIND, f"--log-file={log.name}", *words], cwd=folder or self.room, env=environment(more), stdin=text, stdout=subprocess.DEVNULL, stderr=subprocess.PIPE, check=False, timeout=LONGEST
                )
            except subprocess.TimeoutExpired as late:
                raise Failed(f"{' '.join(words[:4])}: it didn't end in {LONGEST} s") from late
            if ran.returncode:
                raise Failed(f"{' '.join(words[:4])}: status {ran.returncode} {ran.stderr.decode(errors='replace')[-200:].strip()}")
            return refs(log.name)

    def each(self, calls, run):
        """The instructions of one call: what so many more cost, over their number, so that starting counts for nothing."""
        return round((run(2 * calls) - run(calls)) / calls)

    def workload(self, crate, words):
        built = f"{TOP}/crates/{crate}/out/{crate}"
        if not os.access(built, os.X_OK):
            raise Lacking(f"crates/{crate}/out/{crate} isn't built")
        words, folder, given = run_in(TOP, words)
        return self.count([built, *words[:-1], ROUNDS], folder, given)

    def call(self, name):
        kind, calls = CALLS[name]
        if isinstance(self.library, (Lacking, Failed)):
            raise self.library
        return self.each(calls, lambda count: self.count([f"{self.room}/calls", kind, str(count)]))

    def command(self, name):
        if not self.program:
            raise Lacking("crates/sacn/out/sacn isn't built")
        return self.each(COMMANDS[name], getattr(self, name))

    def decode(self, count):
        return self.count([self.program, "decode", *["datagram"] * count])

    def screen(self, seconds):
        """In which the same packets come at the same moments of a clock of its own."""
        words = ["watch", "--listen", "127.0.0.1", "--seconds", str(seconds)]
        return self.still(words, STILL_PACKETS=f"{self.room}/heard", COLUMNS="160", LINES="50")

    def page(self, callers):
        """Of which each caller asks for the document at the recording's end."""
        asked = f"GET /state?at={LAST} HTTP/1.1\r\nHost: 127.0.0.1:8080\r\n\r\n"
        return self.still(["explain", "recording", "--page", "8080", "--seconds", "1"], STILL_ASKED=asked, STILL_CALLERS=str(callers))

    def gateway(self, seconds):
        """In which each universe comes two hundred times, and each frame is another one at each."""
        words = ["gateway", "setup", "--listen", "127.0.0.1", "--seconds", str(seconds)]
        return self.still(words, STILL_PACKETS=f"{self.room}/sent", STILL_TOGETHER=str(SENT), STILL_PIPED="1")

    def still(self, words, **more):
        """Counts a run of the program on a machine that is the same in each run (still.c)."""
        if isinstance(self.machine, (Lacking, Failed)):
            raise self.machine
        return self.count([self.program, *words], LD_PRELOAD=self.machine, **more)


def program_of(given):
    """The program that is counted: the given one, the built one, or else the released one of this very tree; nothing where there is none."""
    built, released = given or f"{TOP}/crates/sacn/out/sacn", f"{TOP}/release/x86_64-linux/sacn"
    if given or os.access(built, os.X_OK):
        return os.path.realpath(built)
    try:
        with open(f"{TOP}/release/RELEASE", encoding="utf-8") as lines:
            code = next((it.split()[1] for it in lines if it.startswith("code ")), None)
    except OSError:
        return None
    own = subprocess.run([f"{TOP}/sacn", "--code"], stdout=subprocess.PIPE, encoding="utf-8", check=False).stdout.strip()
    return released if code == own and os.access(released, os.X_OK) else None


def compiler():
    return shutil.which(os.environ.get("CC", "cc")) or shutil.which("gcc") or shutil.which("clang")


def compiled(*words):
    ran = subprocess.run([compiler(), "-O2", "-Wall", "-Wextra", *words], stdout=subprocess.DEVNULL, stderr=subprocess.PIPE, encoding="utf-8", check=False)
    if ran.returncode:
        raise Failed(f"{' '.join(words)}: {ran.stderr[-400:]}")


def linked(room, prefix):
    """Builds the calls of the C library from an installed one, or else from the archive that is built here; a `Lacking` where there is none."""
    if not compiler():
        return Lacking("a C compiler isn't there")
    if not prefix:
        if not os.path.isfile(f"{TOP}/crates/sacn_c/out/libsacn_c.a"):
            return Lacking("crates/sacn_c/out/libsacn_c.a isn't built")
        prefix = f"{room}/prefix"
        ran = subprocess.run([f"{TOP}/tools/library.sh", prefix], stdout=subprocess.DEVNULL, stderr=subprocess.PIPE, encoding="utf-8", check=False)
        if ran.returncode:
            raise Failed(f"tools/library.sh: {ran.stderr[-400:].strip()}")
    compiled("-std=c11", "-falign-functions=32", f"-I{prefix}/include", "-o", f"{room}/calls", f"{TOP}/bench/calls.c", f"{prefix}/lib/libsacn.a")
    return prefix


def stilled(room):
    """Builds what stands between the program and its machine (still.c); a `Lacking` where there is no compiler."""
    if not compiler():
        return Lacking("a C compiler isn't there")
    compiled("-std=gnu11", "-shared", "-fPIC", "-o", f"{room}/still.so", f"{TOP}/bench/still.c")
    return f"{room}/still.so"


def built(build, *words):
    """What a build gives, or why it gives nothing: that is told of each thing that wants it."""
    try:
        return build(*words)
    except Failed as why:
        return why


def prepared(room, program, prefix):
    """A counter, with all the files that it wants."""
    with open(f"{room}/datagram", "wb") as out:
        out.write(packets.data(1, 1, 0, packets.levels(1, 1, 0)))
    with open(f"{room}/heard", "wb") as out:
        out.write(b"".join(packet for _, _, packet in packets.turns(4, 4, 1)))
    with open(f"{room}/sent", "wb") as out:
        out.write(b"".join(packet for _, _, packet in packets.turns(1, SENT, 1)))
    with open(f"{room}/setup", "w", encoding="utf-8") as out:
        out.write("version = 1\n" + "".join(f"[[port]]\nnumber = {it}\nuniverse = {it}\n" for it in range(1, PORTS + 1)))
    with open(f"{room}/recording", "wb") as out:
        out.write(packets.recording(*RECORDED))
    return Counter(room, program_of(program), built(linked, room, prefix), built(stilled, room))


def jobs(counter):
    """For each name what counts it."""
    found = {name: lambda crate=crate, words=words: counter.workload(crate, words) for name, crate, words in workloads(SEED)}
    found.update({name: lambda name=name: counter.call(name) for name in CALLS})
    found.update({name: lambda name=name: counter.command(name) for name in COMMANDS})
    return found


def first_line(*words):
    try:
        return subprocess.run(words, stdout=subprocess.PIPE, stderr=subprocess.DEVNULL, encoding="utf-8", check=False).stdout.split("\n")[0]
    except OSError:
        return ""


def machine():
    """What counts depend on beside the code: the processor that it was built for, the C library, valgrind, and the compiler of the C parts."""
    try:
        with open(f"{TOP}/crates/sacn_bench/out/sacn_bench.tree", encoding="utf-8") as stamp:
            processor = stamp.read().split("\n")[1]
    except (OSError, IndexError):
        processor = "x86-64-v2"
    libc = re.sub(r"^ldd \((.*)\) .*$", r"\1", first_line("ldd", "--version"))
    return {"processor": processor, "libc": libc, "valgrind": first_line("valgrind", "--version"), "compiler": first_line(compiler() or "cc", "--version")}


if __name__ == "__main__":
    sys.exit(__doc__)

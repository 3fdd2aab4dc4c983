#!/usr/bin/env python3
"""Proves the crates that a program or a static library stands on, side by side, and then builds it.

usage: prove.py PROGRAM SUM [--cpu NAME]

SUM stands for all that the program is made from; it is written beside the program, with the processor that it is built for and the kit that proved it.

Each crate is proved in a room of its own (tools/proof.py), a folder with the crate and what is built of the crates below it, so that no check waits for
another that it has nothing to do with. What is proved goes back into the crate's out/ at once, with the sum of all that it was made from: a later run, also after
one that was ended, proves what has changed and what stands above it. Status 0: built; 1: not; 130: interrupted.
"""
import fcntl
import hashlib
import os
import shutil
import signal
import subprocess
import sys
import tempfile
import time

TOP = os.path.dirname(os.path.dirname(os.path.realpath(__file__)))
# The most memory that the check of a crate was seen to take, in bytes.
NEED = 3_500_000_000
# The processor that the kit builds for where none is named.
DEFAULT_CPU = "x86-64-v2"
LAST_LINES = 20
PARTS = ("src", "specs", "proofs")


class Stopped(Exception):
    """The run ends: why, for a person."""


def say(text):
    print(f"sacn: {text}", file=sys.stderr, flush=True)


def libraries():
    """The crates of crates.txt, each with the crates of the repository that it names."""
    found = {}
    with open(f"{TOP}/crates.txt", encoding="utf-8") as lines:
        for line in lines:
            name, colon, below = line.partition("#")[0].partition(":")
            if colon:
                found[name.split()[0]] = below.split()
    return {name: [it for it in below if it in found] for name, below in found.items()}


def below(crates, name):
    """All crates below one, lowest first."""
    found = []
    for it in crates[name]:
        found += [other for other in [*below(crates, it), it] if other not in found]
    return found


def lines_of(name):
    """How many lines a crate has, which tells roughly how long its proof takes."""
    count = 0
    for part in PARTS:
        for at, _, names in os.walk(f"{TOP}/crates/{name}/{part}"):
            for it in names:
                with open(f"{at}/{it}", "rb") as text:
                    count += text.read().count(b"\n")
    return count


def sums(crates, kit):
    """For each crate the sum of all that its proof is made from: its files, its line of crates.txt, the kit, and the sums of those below."""
    found = {}

    def sum_of(name):
        if name not in found:
            made = hashlib.sha256(repr((kit, name, [(it, sum_of(it)) for it in crates[name]])).encode())
            for part in PARTS:
                for at, folders, names in os.walk(f"{TOP}/crates/{name}/{part}"):
                    folders.sort()
                    for it in sorted(names):
                        with open(f"{at}/{it}", "rb") as text:
                            made.update(repr((os.path.relpath(f"{at}/{it}", TOP), text.read())).encode())
            found[name] = made.hexdigest()
        return found[name]

    return {name: sum_of(name) for name in crates}


def is_proved(name, sum):
    """Whether an earlier run proved the crate of this sum, and what that built is there."""
    try:
        with open(f"{TOP}/crates/{name}/out/proof", encoding="utf-8") as it:
            return it.read() == sum and os.path.isdir(f"{TOP}/crates/{name}/out/rlib/{name}.rlib") and not os.path.exists(f"{TOP}/crates/{name}/out/rlib/stamp")
    except OSError:
        return False


def lanes():
    """How many checks run side by side: one a processor, and no more than there is memory for."""
    processors = len(os.sched_getaffinity(0))
    with open("/proc/meminfo", encoding="utf-8") as lines:
        free = next((1024 * int(it.split()[1]) for it in lines if it.startswith("MemAvailable:")), NEED)
    return max(1, min(processors, free // NEED))


def jobs_each(most, count):
    """How many jobs each of so many checks gets. A check keeps its jobs to its end, and others end before it: so there are twice
    as many jobs as lanes, and where few checks are under way none of the processors waits for them."""
    return max(1, min(most, 2 * most // max(count, 1)))


def link_or_copy(source, to):
    try:
        os.link(source, to)
    except OSError:
        shutil.copy2(source, to)


class Proof:
    """The check of one crate, in a room of its own."""

    def __init__(self, name, lower, command):
        self.name = name
        self.home = f"{TOP}/crates/{name}"
        self.room = tempfile.mkdtemp(prefix="sacn-prove-")
        self.log = f"{self.room}/log"
        self.command = command
        self.process = None
        self.began = time.monotonic()
        try:
            self.fill(lower)
            with open(self.log, "wb") as log:
                self.process = subprocess.Popen(
                    self.command,
                    cwd=self.room,
                    stdin=subprocess.DEVNULL,
                    stdout=log,
                    stderr=subprocess.STDOUT,
                    start_new_session=True,
                )
        except OSError:
            self.leave()
            raise

    def fill(self, lower):
        shutil.copy2(f"{TOP}/HANDLES", self.room)
        with open(f"{TOP}/crates.txt", encoding="utf-8") as lines, open(f"{self.room}/crates.txt", "w", encoding="utf-8") as own:
            own.writelines(it for it in lines if it.split(":")[0].split()[:1] in [[name] for name in [*lower, self.name]])
        for name in lower:
            self.bring(name, "out/rlib")
        self.bring(self.name)

    def bring(self, name, *more):
        for part in (*PARTS, *more):
            if os.path.isdir(f"{TOP}/crates/{name}/{part}"):
                shutil.copytree(f"{TOP}/crates/{name}/{part}", f"{self.room}/crates/{name}/{part}", copy_function=link_or_copy)

    def end(self):
        """Ends the check and all that it started."""
        if self.process and self.process.poll() is None:
            os.killpg(self.process.pid, signal.SIGKILL)
            self.process.wait()

    def give(self, sum):
        """Gives the crate what was built of it, and the sum of what it was made from."""
        made, out = f"{self.room}/crates/{self.name}/out", f"{self.home}/out"
        os.makedirs(out, exist_ok=True)
        if os.path.exists(f"{out}/proof"):
            os.remove(f"{out}/proof")
        for name in os.listdir(made):
            if os.path.isdir(f"{out}/{name}"):
                shutil.rmtree(f"{out}/{name}")
            shutil.move(f"{made}/{name}", f"{out}/{name}")
        with open(f"{out}/proof", "w", encoding="utf-8") as it:
            it.write(sum)

    def leave(self):
        """Clears the room."""
        shutil.rmtree(self.room, ignore_errors=True)

    def last_lines(self):
        with open(self.log, encoding="utf-8", errors="replace") as log:
            return log.read().rstrip().split("\n")[-LAST_LINES:]


class Progress:
    """Where the run is: one line that is written again on a terminal, and elsewhere a line for each change."""

    def __init__(self, count):
        self.count = count
        self.began = time.monotonic()
        self.is_terminal = sys.stderr.isatty()
        self.last = None

    def show(self, done, running):
        minutes = int(time.monotonic() - self.began) // 60
        names = ", ".join(it.name for it in running)
        text = f"sacn: {done} of {self.count} crates proved, {minutes} min" + (f"; under way: {names}" if names else "")
        if self.is_terminal:
            width = shutil.get_terminal_size().columns - 1
            print(f"\r\x1b[K{text[:width]}", end="", file=sys.stderr, flush=True)
        elif (done, names) != self.last:
            print(text, file=sys.stderr, flush=True)
        self.last = done, names

    def end(self):
        if self.is_terminal and self.last:
            print(file=sys.stderr, flush=True)


def prove(crates, program, cpu, kit):
    """Proves what stands below the program, and then the program, and builds it."""
    needed, sum_of = [*below(crates, program), program], sums(crates, kit)
    progress, running, most = Progress(len(needed)), [], lanes()
    done = [name for name in needed if is_proved(name, sum_of[name])]
    # A crate comes first behind which the longest chain of lines waits, its own among them.
    chain = {name: lines_of(name) for name in needed}
    for name in reversed(needed):
        chain[name] += max((chain[it] for it in needed if name in crates[it]), default=0)
    left = sorted((it for it in needed if it not in done), key=lambda name: -chain[name])
    try:
        while left or running:
            ready = [it for it in left if all(lower in done for lower in crates[it])][: most - len(running)]
            jobs = str(jobs_each(most, len(running) + len(ready)))
            for name in ready:
                words = [sys.executable, f"{TOP}/tools/proof.py", name, jobs, *([cpu] if cpu and name == program else [])]
                running.append(Proof(name, below(crates, name), words))
                left.remove(name)
            progress.show(len(done), running)
            time.sleep(0.2)
            for proof in [it for it in running if it.process.poll() is not None]:
                if proof.process.returncode:
                    progress.end()
                    raise Stopped("\n".join([f"{proof.name} was not proved; the end of what its check said:", *proof.last_lines()]))
                proof.give(sum_of[proof.name])
                proof.leave()
                running.remove(proof)
                done.append(proof.name)
        progress.show(len(done), running)
        progress.end()
    finally:
        for proof in running:
            proof.end()
            proof.leave()


def interrupted(number, _):
    raise KeyboardInterrupt


def stamp_of(program):
    return f"{TOP}/crates/{program}/out/{program}.tree"


def is_built(program, tree):
    try:
        with open(stamp_of(program), encoding="utf-8") as stamp:
            return stamp.readline().rstrip("\n") == tree
    except OSError:
        return False


def main(program, tree, *words):
    for it in (signal.SIGINT, signal.SIGTERM, signal.SIGHUP):
        signal.signal(it, interrupted)
    cpu = words[1] if words[:1] == ("--cpu",) else ""
    # The folder itself is the lock, which ends with this process.
    folder = os.open(TOP, os.O_RDONLY)
    try:
        fcntl.flock(folder, fcntl.LOCK_EX | fcntl.LOCK_NB)
    except BlockingIOError:
        say("another run proves this tree; waiting for it to end")
        fcntl.flock(folder, fcntl.LOCK_EX)
        if is_built(program, tree):
            return
    began = time.monotonic()
    kit = subprocess.run(["rt", "version"], stdout=subprocess.PIPE, encoding="utf-8", check=False).stdout.strip()
    prove(libraries(), program, cpu, kit)
    with open(stamp_of(program), "w", encoding="utf-8") as stamp:
        stamp.write(f"{tree}\n{cpu or DEFAULT_CPU}\n{kit}\n")
    say(f"proved and built in {int(time.monotonic() - began)} s")


if __name__ == "__main__":
    try:
        main(*sys.argv[1:])
    except KeyboardInterrupt:
        print(file=sys.stderr)
        say("interrupted; what was proved is kept")
        sys.exit(130)
    except Stopped as why:
        say(why)
        sys.exit(1)
    except OSError as why:
        say(f"{why.strerror or why}: {why.filename or 'a file'}")
        sys.exit(1)

#!/usr/bin/env python3
"""The kit's gate, `rt ci`, with its must-fail edits tried many to a check, as edits.py says.

usage: gate.py [--anew] [NAME..]         as `rt ci`, at the top of the repository: the gate, or (kit 13f) some crates and those below them
       gate.py edits [--anew] NAME..     as `rt must-fail`: the edits of these crates alone, begun with what `rt check` kept
       gate.py further [--anew] [NAME..] as the first for these crates, or all that have some, but with their edits of further-edits/, which
                                         the gate leaves out, in place of those of must-fail/. (Kit 13b: over what ./test left of this very tree, or else over
                                         libraries that are proved first; it tries no tests and runs no programs.)

All else is the kit's: every proof from nothing (or, by a kit that keeps them, kept of an earlier run on this machine of the same files), each edit's text,
what is printed, and the last line.

There are two ways in, by what the kit has: kit 13f checks a crate as it stands before its edits (here only where some are left), and takes names and
--anew; kit 13b has one function that tries a crate's edits, and proves all anew.
"""
import copy
import glob
import hashlib
import importlib.machinery
import importlib.util
import os
import pathlib
import shutil
import subprocess
import sys
import tempfile
import time
import types
from collections import Counter

sys.dont_write_bytecode = True
import edits as way
import texts


def load(path):
    loader = importlib.machinery.SourceFileLoader("rt", path)
    made = importlib.util.module_from_spec(importlib.util.spec_from_loader("rt", loader))
    sys.modules["rt"] = made
    loader.exec_module(made)
    return made


class Together:
    """The way of kit 13f with edits, but that those of a crate are first tried together. Only for what is left does the kit check the crate as it stands."""

    def __init__(self, rt):
        self.rt, self.edits, self.told, self.done = rt, {}, {}, set()
        self.kits = {it: getattr(rt, it) for it in ("add_edits", "seeded", "must_fail")}
        for name in self.kits:
            setattr(rt, name, getattr(self, name))
        # (what an edit came to is kept from run to run: under names of this way's own, so that neither takes the other's)
        own = hashlib.sha256(b"".join(pathlib.Path(it.__file__).read_bytes() for it in (way, texts))).hexdigest()
        name_of = rt.Kept.of_edit
        rt.Kept.of_edit = lambda kept, edit, sum: name_of(kept, edit, f"{own} {sum}")

    def add_edits(self, tasks, crate, edits, *given, **named):
        """As the kit's, which gives what tells the results, and what tells those of earlier runs, by the edits' numbers."""
        results, known = self.kits["add_edits"](tasks, crate, edits, *given, **named)
        self.edits[crate.folder] = edits, known
        return results, known

    def seeded(self, crate, flags, start=None):
        """As the kit's: makes the folder over which each edit of a crate is tried, from what the tries of all together proved. None is left to try where those
        refused all: an empty name says so."""
        edits, known = self.edits[crate.folder]
        room = tempfile.mkdtemp(prefix=f"rt-edits-{os.getpid()}-")
        self.rt.SEEDS.append(room)
        try:
            kept = f"{room}/kept"
            self.rt.linked(start, kept) if start else os.mkdir(kept)
            tried = way.Crate(self.rt, crate, [it for at, it in enumerate(edits) if at not in known()], flags, kept)
            rest = tried.every()
            self.told.update(tried.told)
            if rest:
                return self.kits["seeded"](crate, flags, kept)
            self.done.add(crate.folder)
            return ""
        except Exception as error:  # (whatever it is: the kit's way is left)
            print(f"rt: {crate.name}: its edits can't be tried together: {error!r}", flush=True)
            return self.kits["seeded"](crate, flags, start)
        finally:
            shutil.rmtree(room, ignore_errors=True)

    def must_fail(self, crate, edit, flags, kept=None):
        """As the kit's, of what wasn't refused together: what an edit comes to, and what to say."""
        return (kept or crate.folder in self.done) and self.told.get(edit) or self.kits["must_fail"](crate, edit, flags, kept)


class TogetherAtOnce:
    """The same over kit 13b, whose one function tries all edits of a crate in turn."""

    def __init__(self, rt):
        self.rt, self.kits = rt, rt.must_fail_all
        rt.must_fail_all = self.must_fail_all

    def must_fail_all(self, crate, files, flags):
        """As the kit's: for each edit whether it is refused, and what to say."""
        try:
            return self.try_all(crate, files, flags)
        except Exception as error:  # (whatever it is: the gate goes on)
            print(f"rt: {crate.name}: its edits can't be tried together: {error!r}", flush=True)
            return self.kits(crate, files, flags)

    def try_all(self, crate, files, flags):
        rt = self.rt
        with tempfile.TemporaryDirectory(prefix="rt-edits-") as kept:
            tried = way.Crate(rt, crate, files, flags, kept)
            rest = tried.every()
            alone = {it: rt.must_fail(crate, it, flags, kept) for it in rest}
            if any(not it[0] for it in alone.values()) or rest and rt.checked(crate, {}, flags, kept).returncode:
                alone = {it: rt.must_fail(crate, it, flags) for it in rest}
        return [tried.told.get(it) or alone[it] for it in files]


# The kit guesses the memory of a check from the lines that it reads, and begins none that may not fit. The checks of this tree took at most about half of
# that, so great ones, behind which most others wait, stood back for small ones.
SHARE_OF_NEED = 0.6


# The processor seconds that the proof of a crate takes, and that of its tests: a file that is written anew now and then from what the gate says at its end.
SECONDS = "bench/seconds.txt"
# A crate that it lacks is taken for so many seconds a line.
SECONDS_A_LINE = 0.15

# A check keeps to its end the jobs that it begins with, which are few where much else is under way. So crates on which nearly the longest chain hangs were each alone for minutes in
# the end: these get as many jobs as half of the processors, from their beginning on.
NEARLY = 0.7


def seconds_of():
    """What SECONDS says, by crate: of its proof and of its tests; nothing where there is no such file."""
    known = {}
    if not os.path.exists(SECONDS):
        return known
    with open(SECONDS, encoding="utf-8") as rows:
        for row in rows:
            name, *numbers = row.partition("#")[0].split()[:3] or [""]
            if name:
                known[name] = [*map(int, numbers), 0][:2]
    return known


def hurry(rt):
    """Has the kit begin first what the longest chain of work waits for, by measured seconds in place of lines, and the crates of the longest chains checked by more than one job."""
    crates_of, ci, in_lanes, hurried, known = rt.crates_of, rt.Crate.ci, rt.in_lanes, set(), seconds_of()

    def work_of(crate, lines, place=0):
        return known[crate][place] if crate in known else lines * SECONDS_A_LINE

    def by_seconds(tasks):
        places = {"proof": 0, "tests": 1}
        return in_lanes({
            key: (waits, work_of(key[0], lines, places[key[1]]) if len(key) == 2 and key[1] in places and lines else lines * SECONDS_A_LINE, needs, call)
            for key, (waits, lines, needs, call) in tasks.items()
        })

    def chains_of(crates):
        """For each crate the seconds of the longest chain through it."""
        own = {it.name: work_of(it.name, it.count(rb"\n")) for it in crates}
        under, over = {}, {}
        for it in crates:
            under[it.name] = own[it.name] + max((under[dep.name] for dep in it.deps), default=0)
        for it in reversed(crates):
            over[it.name] = own[it.name] + max((over[up.name] for up in crates if it.name in {dep.name for dep in up.deps} and up.name in over), default=0)
        return {name: under[name] + over[name] - own[name] for name in own}

    def with_chains(root, *aside):  # (kit 13b says where what earlier runs left goes)
        crates = crates_of(root, *aside)
        chains = chains_of(crates)
        hurried.update(name for name, lines in chains.items() if lines >= NEARLY * max(chains.values()))
        return crates

    def with_jobs(crate, flags, tests):
        jobs = rt.processors() // 2 if crate.name in hurried and not tests else 1
        if flags[:1] == ["--jobs"]:
            flags = ["--jobs", str(max(jobs, int(flags[1]))), *flags[2:]]
        return ci(crate, flags, tests)

    rt.crates_of, rt.Crate.ci, rt.in_lanes = with_chains, with_jobs, by_seconds


class Spent:
    """The processor seconds of the kit's checks, by crate and by what they were for, and their memory. It stands where the kit looks for Python's `subprocess`."""

    KINDS = "proof", "tests", "edits"

    def __init__(self, rt):
        self.took, self.most, self.began, in_lanes = [], Counter(), time.monotonic(), rt.in_lanes
        rt.subprocess = rt.rtlib.subprocess = self

        def told(tasks):
            given = in_lanes(tasks)
            self.tell()
            return given

        rt.in_lanes = told

    def __getattr__(self, name):
        return getattr(subprocess, name)

    def run(self, words, **how):
        """As the library's, which doesn't say what a process took."""
        if "--crate-name" not in words or how.get("stdout") != subprocess.PIPE or how.get("stderr") != subprocess.STDOUT:
            return subprocess.run(words, **how)
        with subprocess.Popen(words, **how) as ran:
            said = ran.stdout.read()
            _, status, took = os.wait4(ran.pid, 0)
            ran.returncode = os.waitstatus_to_exitcode(status)
        kind = "tests" if "--test" in words else "edits" if "--incremental" in words else "proof"
        crate = words[words.index("--crate-name") + 1]
        self.took.append((crate, kind, took.ru_utime + took.ru_stime))
        self.most[crate] = max(self.most[crate], took.ru_maxrss // 1000)
        return subprocess.CompletedProcess(words, ran.returncode, said)

    def tell(self):
        seconds, by_kind = Counter(), Counter()
        for crate, kind, took in self.took:
            seconds[crate, kind] += took
            by_kind[kind] += took
        for crate in sorted({it for it, _ in seconds}):
            parts = [f"{kind} {seconds[crate, kind]:.0f}" for kind in self.KINDS if seconds[crate, kind]]
            print(f"rt: processor seconds, {crate}: {', '.join(parts)}; at most {self.most[crate]} MB")
        minutes = [f"{kind} {by_kind[kind] / 60:.0f}" for kind in self.KINDS]
        print(f"rt: processor minutes: {', '.join(minutes)}; by the clock {(time.monotonic() - self.began) / 60:.0f}", flush=True)


def gate():
    """The kit's command as a module, with its way of trying edits changed."""
    found = shutil.which("rt")
    if not found:
        sys.exit("gate: the kit's command rt isn't on the PATH")
    rt = load(os.path.realpath(found))
    if hasattr(rt, "seeded"):
        Together(rt)
    else:
        TogetherAtOnce(rt)
    Spent(rt)
    if hasattr(rt, "crates_of"):
        hurry(rt)
    if hasattr(rt, "need"):
        need = rt.need
        rt.need = lambda crate: int(SHARE_OF_NEED * need(crate))
    return rt


# The folder beside must-fail/ with the edits that tell less: each is refused too, and only `further` tries them.
FURTHER = "further-edits"


def further(rt, names):
    """Has the gate's way try the edits of the other folder, and returns the crates that it is to be called for: these, or all that have some."""
    of_folder = rt.edits_of

    def edits_of(crate):
        with tempfile.TemporaryDirectory(prefix="rt-further-") as room:
            os.symlink(f"{crate.folder}/{FURTHER}", f"{room}/must-fail")
            given = of_folder(types.SimpleNamespace(folder=room))
        return tuple([it.replace(f"{room}/must-fail", f"{crate.folder}/{FURTHER}") for it in some] for some in given)

    rt.edits_of = edits_of
    return names or sorted(os.path.basename(os.path.dirname(it)) for it in glob.glob(f"crates/*/{FURTHER}"))


def is_left_by_the_gate():
    """Whether the test command has passed this very tree here, so that each library in out/ is the gate's."""
    try:
        with open("crates/sacn/out/sacn.tree", encoding="utf-8") as it:
            made_of = it.readline().rstrip("\n")
        return made_of == subprocess.run(["./sacn", "--tree"], stdout=subprocess.PIPE, encoding="utf-8", check=True).stdout.rstrip("\n")
    except (OSError, subprocess.CalledProcessError):
        return False


def over_libraries(rt, names, is_anew):
    """Tries edits of some crates with kit 13b, side by side, over the gate's libraries or those that are proved here first. Says what `rt ci` says, and counts each
    of these crates, which is proved, and each edit."""
    rt.rtlib.guarded()
    rt.rtlib.Crate = rt.Crate
    rt.Crate.allowed, rt.Crate.cuts_libraries = rt.handles_of(os.getcwd()), True
    known = rt.rtlib.crates_below(os.getcwd())
    crates = [it for it in known if it.name in names]
    lacking = {*names} - {it.name for it in crates}
    if lacking:
        sys.exit(f"gate: crates.txt names no {', '.join(sorted(lacking))}")
    wanted = [it for it in known if any(it.name == own.name or it.name in {dep.name for dep in own.below()} for own in crates)]
    locks = rt.rtlib.lock(wanted)
    is_built = not is_anew and is_left_by_the_gate()

    def proof(crate, given, jobs):
        crate = copy.copy(crate)
        with tempfile.TemporaryFile("a+", errors="replace") as crate.out:
            is_well = all(given[it.name, "proof"] for it in crate.below()) and (is_built or not rt.Crate.ci(crate, ["--jobs", str(jobs)], False))
            crate.out.seek(0)
            said = crate.out.read()
        if not is_well:
            rt.say(f"{crate.name} NOT PROVED\n{said[-2000:]}")
        return is_well

    def edits(crate, given, _):
        good, bad = rt.edits_of(crate)
        return [*((False, f"{it}: BAD EDIT") for it in bad), *(rt.must_fail_all(crate, good, ["--jobs", "1"]) if good and given[crate.name, "proof"] else [])]

    tasks = {}
    for it in sorted(wanted, key=lambda crate: len(crate.below())):
        os.makedirs(f"{it.folder}/out", exist_ok=True)
        lines = 0 if is_built else it.count(rb"\n")
        tasks[it.name, "proof"] = ([(dep.name, "proof") for dep in it.below()], lines, rt.need(it), lambda given, jobs, it=it: proof(it, given, jobs))
    for it in crates:
        tasks[it.name, "edits"] = ([(it.name, "proof")], it.count(rb"\n"), rt.need(it), lambda given, jobs, it=it: edits(it, given, jobs))
    given = rt.in_lanes(tasks)
    tried = [(it, *one) for it in crates for one in given[it.name, "edits"]]
    for _, _, text in tried:
        rt.say(text)
    passed = sum(given[it.name, "proof"] for it in crates) + sum(refused for _, refused, _ in tried)
    failed = len(crates) + len(tried) - passed
    for it in locks or ():
        os.close(it)
    print(f"{passed} passed, {failed} failed")
    return 1 if failed else 0


def main(words):
    rt = gate()
    if words[:1] == ["further"]:
        names = further(rt, [it for it in words[1:] if it != "--anew"])
        if not names:
            sys.exit(f"gate: no crate has a folder {FURTHER}")
        if not hasattr(rt, "where_disk_lasts"):
            return over_libraries(rt, names, "--anew" in words)
        return rt.where_disk_lasts(rt.ci, "--anew" in words, names)
    call, given = (rt.edits_alone, [words[1:]]) if words[:1] == ["edits"] else (rt.ci, ["--anew" in words, [it for it in words if it != "--anew"]])
    if hasattr(rt, "where_disk_lasts"):
        return rt.where_disk_lasts(call, *given)
    if call == rt.ci:
        if given[1]:
            sys.exit("gate: this kit proves all crates or none: only `edits` takes names")
        return rt.ci()
    return rt.edits_alone([it for it in words[1:] if it != "--anew"])


if __name__ == "__main__":
    sys.exit(main(sys.argv[1:]))

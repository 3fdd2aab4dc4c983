#!/usr/bin/env python3
"""Builds the archive for C over the libraries that the kit's gate has just proved.

usage: archive.py [CRATE]     a static library of crates.txt; sacn_c where none is named

rt ci leaves each library in its out/ as what it states and its code, without the mark by which rt's other commands take a library for
their own: so these would prove all of them again. What rt ci does over them for a program is done here for the static library, which rt ci
proves but never builds: its own crate is proved once more, and nothing below it. Where the test command has passed this very tree that is noted, as
./sacn library notes it, and a later run finds it done.

Status 0: built; 3: what the gate leaves isn't there; else not built.
"""
import os
import shutil
import subprocess
import sys

TOP = os.path.dirname(os.path.dirname(os.path.realpath(__file__)))


def say(text):
    print(f"sacn: {text}", file=sys.stderr, flush=True)


def is_of_the_gate(crate):
    """Whether a library is as rt ci leaves it: other commands mark what they have built, by a file beside it."""
    return os.path.isdir(crate.rlib) and not os.path.exists(f"{os.path.dirname(crate.rlib)}/stamp")


def kit_folder():
    """Where the kit is, whose command is on the PATH; nothing where there is none."""
    rt = shutil.which("rt")
    return os.path.dirname(os.path.dirname(os.path.realpath(rt))) if rt else None


def kit_library():
    """The kit's own words for each crate."""
    sys.path.insert(0, f"{kit_folder()}/bin")
    import rtlib

    return rtlib


def build(kit, name):
    rtlib = kit_library()
    crates = rtlib.crates_below(TOP)
    crate = next((it for it in crates if it.name == name and it.is_static), None)
    if crate is None:
        say(f"crates.txt names no static library {name}")
        return 2
    rtlib.lock(crates)
    lacking = [it.name for it in crate.below() if not is_of_the_gate(it)]
    if lacking:
        say(f"the gate has not left its build of {', '.join(lacking)}")
        return 3
    os.makedirs(f"{crate.folder}/out", exist_ok=True)
    words = crate.words(["--jobs", str(max(1, min(2, rtlib.cores())))], keeps=False)
    made = ["--toolchain", f"{kit}/toolchain", "--backend", "llvm", "-o", f"out/lib{name}.a"]
    return crate.call(rtlib.RATTLE, "build", *words, *made)


def output(*words):
    return subprocess.run(words, stdout=subprocess.PIPE, encoding="utf-8", check=True).stdout.rstrip("\n")


def noted(name):
    """What is noted beside what was built of a crate: of which tree, for which processor and by which kit; nothing where nothing is."""
    try:
        with open(f"crates/{name}/out/{name}.tree", encoding="utf-8") as it:
            return it.read()
    except OSError:
        return ""


def main(name="sacn_c"):
    kit = kit_folder()
    if not kit:
        say("the kit's command rt isn't on the PATH")
        return 1
    os.chdir(TOP)
    note = f"{output('./sacn', '--tree')}\nx86-64-v2\n{output('rt', 'version')}\n"
    if noted(name) == note and os.path.isfile(f"crates/{name}/out/lib{name}.a"):
        return 0
    status = build(kit, name)
    # (behind the program's note stands what the gate said)
    if status == 0 and noted("sacn").startswith(note):
        with open(f"crates/{name}/out/{name}.tree", "w", encoding="utf-8") as it:
            it.write(note)
    return status


if __name__ == "__main__":
    sys.exit(main(*sys.argv[1:]))

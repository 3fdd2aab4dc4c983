#!/usr/bin/env python3
"""Proves one crate from nothing, as the kit's gate does, over the libraries below it as they were proved so, and builds what it is for.

usage: proof.py NAME JOBS [CPU]     in a folder with crates.txt, HANDLES and crates/, as tools/prove.py makes it

What stands above a library then loads what it states and not its proofs, which takes three quarters of the time of `rt lib`. (Such a library is without the mark
that rt's other commands want, so they make their own.) Status 0: proved and built; else not.
"""
import os
import shutil
import sys
import tempfile

import gate


def build_program(rt, crate, flags):
    """Checks a program, and has LLVM compile and link what that check proved."""
    words = crate.words(flags, keeps=False)
    with tempfile.TemporaryDirectory(prefix="sacn-checked-") as room:
        status = crate.prove(["check", *words, "-o", f"{room}/checked"])
        for flag in ("--logic-built", "--jobs"):
            at = words.index(flag)
            words = [*words[:at], *words[at + 2 :]]
        words = [*words, "--crate-checked", f"{room}/checked", "--toolchain", f"{rt.KIT}/toolchain"]
        return status or crate.compile_by("llvm", words, f"out/{crate.name}")


def build(name, jobs, cpu):
    rt = gate.load(os.path.realpath(shutil.which("rt")))
    rt.rtlib.guarded()
    rt.rtlib.Crate = rt.Crate
    rt.Crate.allowed = rt.handles_of(os.getcwd())
    rt.Crate.cuts_libraries = True
    crate = next(it for it in rt.rtlib.crates_below(os.getcwd()) if it.name == name)
    flags = ["--jobs", jobs, *(["--cpu", cpu] if cpu else [])]
    os.makedirs(f"{crate.folder}/out", exist_ok=True)
    if crate.is_program:
        return build_program(rt, crate, flags)
    if crate.is_static:
        made = ["--toolchain", f"{rt.KIT}/toolchain", "--backend", "llvm", "-o", f"out/lib{name}.a"]
        return crate.call(rt.rtlib.RATTLE, "build", *crate.words(flags, keeps=False), *made)
    return crate.build_rlib(flags, anew=True)


if __name__ == "__main__":
    sys.exit(build(*sys.argv[1:3], sys.argv[3] if len(sys.argv) > 3 else ""))

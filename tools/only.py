#!/usr/bin/env python3
"""Proves some functions of a crate, and those of the crate that they call, over libraries below that needn't be proved.

usage: only.py NAME FUNCTION.. [--flags WORD..]     at the top of the repository; FUNCTION as m::T::f, or a module; with '' alone only the front end runs, in seconds

A crate below whose files and whose libraries' files are those of PROVED, a checkout that the gate has gone over (PROVED in the environment), is read as it
was proved there; each other one as source, unproved. So a chain of crates can be rebuilt before any of them is proved. It gives no verdict: the gate does.
The flags are those of `rattle check`, as --allow-holes; with --start m::f, which writes the files of an answer, no FUNCTION is proved.
"""
import filecmp
import os
import shutil
import subprocess
import sys

KIT = os.path.dirname(os.path.dirname(os.path.realpath(shutil.which("rt") or "/rt")))
TOP = os.path.dirname(os.path.dirname(os.path.realpath(__file__)))
PROVED = os.environ.get("PROVED", "")


def rows():
    """What each crate is (its words), and what it stands on, by name."""
    found = {}
    with open(f"{TOP}/crates.txt", encoding="utf-8") as text:
        for line in text:
            head, colon, below = line.partition("#")[0].partition(":")
            if colon:
                found[head.split()[0]] = (head.split()[1:], below.split())
    return found


class Crates:
    def __init__(self):
        self.rows, self.known = rows(), {}

    def own(self, name):
        return [it for it in self.rows[name][1] if it in self.rows]

    def of_kit(self, name):
        return [it for it in self.rows[name][1] if it not in self.rows]

    def below(self, name):
        found = {}
        for it in self.own(name):
            found.update(dict.fromkeys([*self.below(it), it]))
        return list(found)

    def is_same(self, name):
        if name not in self.known:
            here, there = (f"{top}/crates/{name}" for top in (TOP, PROVED))
            files = files_of(here)
            same = os.path.isdir(there) and files == files_of(there) and all(filecmp.cmp(f"{here}/{it}", f"{there}/{it}", False) for it in files)
            self.known[name] = same and all(self.is_same(it) for it in self.own(name))
        return self.known[name]

    def library(self, name):
        """Where a crate's proved library is, if it is one of these files."""
        path = f"{PROVED}/crates/{name}/out/rlib/{name}.rlib"
        return path if PROVED and os.path.isdir(path) and self.is_same(name) else None

    def words(self, name):
        below = self.below(name)
        sources = [it for it in below if not self.library(it)]
        kits = {"core", "std", *self.of_kit(name), *(kit for it in sources for kit in self.of_kit(it))}
        named = {*self.own(name), *(it for source in sources for it in self.own(source))}
        words = [word for it in sorted(kits) for word in ("--extern", f"{it}={KIT}/rlibs/{it}.rlib")] + ["-L", f"dependency={KIT}/rlibs"]
        for it in below:
            path = self.library(it)
            if path:
                words += ["--extern", f"{it}={path}"] * (it in named) + ["-L", f"dependency={os.path.dirname(path)}"]
            else:
                uses = dict.fromkeys(["core", "std", *self.of_kit(it), *self.own(it)])
                words += ["--lib", f"{it}:{','.join(uses)}={TOP}/crates/{it}/src/lib.rt"]
        return words + ["--crate-type", "staticlib"] * ("staticlib" in self.rows[name][0])


def files_of(folder):
    parts = [f"{at}/{it}" for part in ("src", "specs", "proofs") for at, _, names in os.walk(f"{folder}/{part}") for it in names]
    return sorted(os.path.relpath(it, folder) for it in parts)


def main(words):
    at = words.index("--flags") if "--flags" in words else len(words)
    name, functions, flags = words[0] if words else "", words[1:at], words[at + 1 :]
    crates = Crates()
    if name not in crates.rows or not functions:
        sys.exit(__doc__)
    root = next(it for it in ("src/main.rt", "src/lib.rt") if os.path.exists(f"{TOP}/crates/{name}/{it}"))
    logic = ["--antt-project", f"{KIT}/rattle/logic/antt-project.json", "--logic-built", f"{KIT}/logic_built", "--links", f"{name}=", "--jobs", "2"]
    asked = [] if "--start" in flags else [word for it in functions for word in ("--only", it)]
    return subprocess.call([f"{KIT}/bin/rattle", "check", "--crate-name", name, root, *crates.words(name), *logic, *asked, *flags], cwd=f"{TOP}/crates/{name}")


if __name__ == "__main__":
    sys.exit(main(sys.argv[1:]))

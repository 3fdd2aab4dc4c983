#!/usr/bin/env python3
"""Makes the release from a tree that the test command has just passed: release/x86_64-linux, release/aarch64-linux and release/RELEASE.

usage: release.py VERSION

The program for x86-64 is the one that the gate built, stripped. For aarch64 the program's own crate is checked once more for that processor, over the libraries that
the gate has left, and linked by Debian's cross compiler with runtime/heap.c and runtime/runtime.c in place of the kit's archives, which are x86's. Packages:
gcc-aarch64-linux-gnu, libc6-dev-arm64-cross. `sacn-join`, the helper that joins groups, is C alone, and is built for both. Beside each program stands the library for C, as
tools/library.sh installs it: that for aarch64 is made as the program is.

Status 0: made; 1: not, and why.
"""
import hashlib
import os
import shutil
import subprocess
import sys
import tempfile

import archive

TOP = os.path.dirname(os.path.dirname(os.path.realpath(__file__)))
RELEASE = f"{TOP}/release"
BUILT = f"{TOP}/crates/sacn/out/sacn"
TARGET = "aarch64-unknown-linux-gnu"
CROSS = "aarch64-linux-gnu-"
C = ["-std=gnu11", "-O2", "-Wall", "-Wextra", "-Werror"]


class Stopped(Exception):
    """No release is made: why, for a person."""


def output(*words):
    return subprocess.run(words, cwd=TOP, stdout=subprocess.PIPE, encoding="utf-8", check=True).stdout.strip()


def stamped():
    """What the test command noted of the program that it built: the tree's sum, the processor, the kit and the gate's closing line."""
    try:
        with open(f"{BUILT}.tree", encoding="utf-8") as it:
            tree, cpu, kit, gate = (it.read().split("\n") + [""] * 4)[:4]
    except OSError as error:
        raise Stopped("there is no program of the test command here: run ./test") from error
    if tree != output("./sacn", "--tree") or cpu != "x86-64-v2" or not gate.endswith(" 0 failed"):
        raise Stopped("the program here isn't the one that the test command built and passed of this very tree: run ./test")
    return kit, gate


def strip(words, made, to):
    subprocess.run([*words, "-s", "-o", to, made], check=True)
    os.chmod(to, 0o755)


def built_for_arm(name, made):
    """Puts the object file of a program or the archive of a library for aarch64 at a place; the verdict of the check that made it."""
    rtlib = archive.kit_library()
    crates = rtlib.crates_below(TOP)
    crate = next(it for it in crates if it.name == name)
    held = rtlib.lock(crates)
    lacking = [it.name for it in crate.below() if not archive.is_of_the_gate(it)]
    if lacking:
        raise Stopped(f"the gate has not left its build of {', '.join(lacking)}: run ./test")
    words = crate.words(["--jobs", "2"], keeps=False)
    made_by = ["--toolchain", f"{archive.kit_folder()}/toolchain", "--backend", "llvm", "--target", TARGET, "-o", made]
    ran = subprocess.run(
        [*rtlib.guarded(), rtlib.RATTLE, "build", *words, *made_by], cwd=crate.folder, stdin=subprocess.DEVNULL, stdout=subprocess.PIPE, stderr=subprocess.STDOUT, encoding="utf-8", check=False
    )
    for it in held:
        os.close(it)
    verdict = next((it for it in ran.stdout.split("\n") if it.startswith("logic=proved ")), "")
    # (what is made of a program is an object file: the kit links for x86 alone)
    if not verdict or not os.path.isfile(made):
        raise Stopped(f"{name} isn't proved and compiled for {TARGET}: {ran.stdout[-2000:]}")
    return verdict


def put_library(prefix, strip_by, folder):
    """Puts the library that tools/library.sh installed into a folder of the release."""
    shutil.copy2(f"{prefix}/lib/libsacn.a", f"{folder}/libsacn.a")
    subprocess.run([strip_by, "--strip-unneeded", "-o", f"{folder}/libsacn.so.1", f"{prefix}/lib/libsacn.so.1"], check=True)


def make(version):
    os.chdir(TOP)
    kit, gate = stamped()
    if not shutil.which(f"{CROSS}gcc"):
        raise Stopped("there is no aarch64-linux-gnu-gcc: apt install gcc-aarch64-linux-gnu libc6-dev-arm64-cross")
    with tempfile.TemporaryDirectory(prefix="sacn-release-") as room:
        for name in ("x86_64-linux", "aarch64-linux"):
            os.makedirs(f"{room}/release/{name}")
        strip(["strip"], BUILT, f"{room}/release/x86_64-linux/sacn")
        verdict = built_for_arm("sacn", f"{room}/sacn")
        subprocess.run([f"{CROSS}gcc", *C, "-o", f"{room}/arm", f"{room}/sacn", f"{TOP}/runtime/heap.c", f"{TOP}/runtime/runtime.c"], check=True)
        strip([f"{CROSS}strip"], f"{room}/arm", f"{room}/release/aarch64-linux/sacn")
        for prefix, name in (("", "x86_64-linux"), (CROSS, "aarch64-linux")):
            subprocess.run([f"{prefix}gcc", *C, "-o", f"{room}/join", f"{TOP}/runtime/join.c"], check=True)
            strip([f"{prefix}strip"], f"{room}/join", f"{room}/release/{name}/sacn-join")
        if archive.build(archive.kit_folder(), "sacn_c"):
            raise Stopped("the library for C isn't proved and built")
        subprocess.run([f"{TOP}/tools/library.sh", f"{room}/prefix"], check=True)
        put_library(f"{room}/prefix", "strip", f"{room}/release/x86_64-linux")
        library_verdict = built_for_arm("sacn_c", f"{room}/libsacn_c.a")
        subprocess.run([f"{TOP}/tools/library.sh", f"{room}/prefix-arm", f"{room}/libsacn_c.a", CROSS], check=True)
        put_library(f"{room}/prefix-arm", f"{CROSS}strip", f"{room}/release/aarch64-linux")
        lines = [f"version {version}", f"code {output('./sacn', '--code')}", f"kit {kit}", f"gate {gate}", f"aarch64 {verdict}", f"aarch64-library {library_verdict}"]
        for folder in ("x86_64-linux", "aarch64-linux"):
            for name in sorted(os.listdir(f"{room}/release/{folder}")):
                with open(f"{room}/release/{folder}/{name}", "rb") as it:
                    lines.append(f"{folder}/{name} {hashlib.sha256(it.read()).hexdigest()}")
        with open(f"{room}/release/RELEASE", "w", encoding="utf-8") as it:
            it.write("".join(f"{line}\n" for line in lines))
        shutil.rmtree(RELEASE, ignore_errors=True)
        shutil.copytree(f"{room}/release", RELEASE)
    print("\n".join(lines))


def main(words):
    if len(words) != 1:
        print("usage: release.py VERSION", file=sys.stderr)
        return 1
    try:
        make(words[0])
    except (Stopped, OSError, subprocess.CalledProcessError) as why:
        print(f"release: {why}", file=sys.stderr)
        return 1
    return 0


if __name__ == "__main__":
    sys.exit(main(sys.argv[1:]))

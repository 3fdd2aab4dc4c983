#!/usr/bin/env bash
# What the documents and the list of crates say of this tree: links lead to what is there, files and steps that are named are there, crates.txt
# rises, rules and public types' names stand once in the code, the README is short, and docs/DEFINITIONS.md is what tools/definitions.py makes of specs/. Prints 'ok NAME' or 'not ok NAME: why' for each, as ./test counts them. Of this tree it runs tools/definitions.py alone.
set -u
# shellcheck source=tests/lib.sh
. "$(dirname "$(readlink -f "$0")")/lib.sh"
need python3
cd "$top" && python3 tests/house.py

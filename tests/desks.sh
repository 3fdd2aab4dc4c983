#!/usr/bin/env bash
# Runs desks on loopback: what they say at their start, which hosts get which universes, a desk that stands by, lists that are long, and a run of which no packet went out.
# Prints a line 'ok NAME' or 'not ok NAME: why' for each. It takes the built program: crates/sacn/out/sacn, or the path in SACN.
set -u
# shellcheck source=tests/lib.sh
. "$(dirname "$(readlink -f "$0")")/lib.sh"
need python3
# (what waits for an answer that never comes ends as a failure)
timeout -k 5 900 python3 "$top/tests/desks.py" "$sacn"

#!/usr/bin/env bash
# Runs one gateway of two setups behind one port, beside a gateway of each setup alone, lights all from one desk, on loopback, and compares their lines.
# Prints a line 'ok NAME' or 'not ok NAME: why' for each. It takes the built program: crates/sacn/out/sacn, or the path in SACN.
set -u
# shellcheck source=tests/lib.sh
. "$(dirname "$(readlink -f "$0")")/lib.sh"
need python3
# (what waits for an answer that never comes ends as a failure)
timeout -k 5 900 python3 "$top/tests/setups.py" "$sacn"

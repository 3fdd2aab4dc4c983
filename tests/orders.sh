#!/usr/bin/env bash
# Types orders into a desk as a crew does, and looks at its answers and at the levels that it sends, on loopback.
# Prints a line 'ok NAME' or 'not ok NAME: why' for each. It takes the built program: crates/sacn/out/sacn, or the path in SACN.
set -u
# shellcheck source=tests/lib.sh
. "$(dirname "$(readlink -f "$0")")/lib.sh"
need python3
# (what waits for an answer that never comes ends as a failure)
timeout -k 5 900 python3 "$top/tests/orders.py" "$sacn"

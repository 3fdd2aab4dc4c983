#!/usr/bin/env bash
# One network, told by each of the program's views: tests/views.py tells what it compares.
# Prints 'ok NAME', 'not ok NAME: why' or 'skipped NAME: why' for each, as ./test counts them.
set -u
# shellcheck source=tests/lib.sh
. "$(dirname "$(readlink -f "$0")")/lib.sh"
need sacn
# (what waits for an answer that never comes ends as a failure)
timeout -k 5 900 python3 "$top/tests/views.py" "$sacn"

#!/usr/bin/env bash
# Drives the page of a watch in a headless Chromium, where the machine has one: tests/page_browser.py tells what it looks at.
set -u
# shellcheck source=tests/lib.sh
. "$(dirname "$(readlink -f "$0")")/lib.sh"
need sacn
cd "$here" && python3 "$top/tests/page_browser.py" "$sacn" "$@"

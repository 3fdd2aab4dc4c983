#!/usr/bin/env bash
# A source of the library for C beside a model of it (tests/source.py), over 100,000 random lists of calls, through ctypes; SOURCE_LISTS has another number.
# It takes the library in the folder SACN_LIBRARY_PREFIX (as ./sacn library lays one out), and else makes it as tests/library.sh does.
set -u
# shellcheck source=tests/lib.sh
. "$(dirname "$(readlink -f "$0")")/lib.sh"
need python3
prefix=${SACN_LIBRARY_PREFIX:-}
case $prefix in "" | /*) ;; *) prefix=$here/$prefix ;; esac
if [ -z "$prefix" ] && ! command -v "${CC:-cc}" >/dev/null && ! command -v gcc >/dev/null && ! command -v clang >/dev/null; then
  skips "all" "this machine has no C compiler, and SACN_LIBRARY_PREFIX names no library"
  exit 0
fi
if [ -z "$prefix" ]; then
  prefix=$room/prefix
  if ! library_installed "$prefix" >"$room/said" 2>&1; then
    verdict "install" 1 "$(tail -n 1 "$room/said")"
    exit 0
  fi
fi
if [ ! -f "$prefix/lib/libsacn.so.1" ]; then
  skips "all" "there is no shared object"
  exit 0
fi
python3 "$top/tests/source.py" "$prefix/lib/libsacn.so.1" "${SOURCE_LISTS:-100000}" >"$room/told" 2>"$room/said"
case $(tail -n 1 "$room/told") in
  "ok "*) verdict "$(sed 's/^ok //' "$room/told")" 0 ;;
  *) verdict "a source does what a model does" 1 "$(cat "$room/told" "$room/said" | tail -n 1)" ;;
esac

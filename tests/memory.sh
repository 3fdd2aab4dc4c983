#!/usr/bin/env bash
# Runs the built programs with their first, second, third .. request for memory refused, until a run meets no such request. A refused run
# ends with 'refused OutOfMemory', status 3 and a prefix of what is printed else, or prints all of it, where a growth asked again for less.
# Prints 'ok NAME', 'not ok NAME: why' or 'skipped NAME: why' for each program and command, as ./test counts them.
set -u
# shellcheck source=tests/lib.sh
. "$(dirname "$(readlink -f "$0")")/lib.sh"
compiler=$(command -v "${CC:-cc}" || command -v gcc || command -v clang || true)
if [ -z "$compiler" ]; then
  echo "skipped memory: this machine has no C compiler"
  exit 0
fi
"$compiler" -O2 -shared -fPIC -o "$room/refuse.so" "$top/tests/c/refuse.c" || { verdict "refuse.c" 1 "it doesn't compile"; exit 0; }
MOST=20000

# at_0 NAME FILE: what a node prints has the moment of its clock, which may have gone on by its first turn
at_0() { if [ "$1" = "sacn node" ]; then sed -i -E 's/^1 [0-9]{1,5} /1 0 /' "$2"; fi; }

# each_refused NAME WANTED-STATUS WANTED-ERRORS INPUT PROGRAM [WORD..]
each_refused() {
  local name=$1 wanted=$2 said=$3 input=$4 at status refused=0 whole=0
  shift 4
  if [ ! -x "$1" ]; then
    skips "$name" "it isn't built"
    return
  fi
  "$@" <"$input" >"$room/all" 2>/dev/null || { verdict "$name" 1 "it fails with ample memory"; return; }
  at_0 "$name" "$room/all"
  for at in $(seq "$MOST"); do
    rm -f "$room/told"
    status=0
    REFUSE_AT=$at REFUSE_TOLD=$room/told LD_PRELOAD=$room/refuse.so "$@" <"$input" >"$room/out" 2>"$room/err" || status=$?
    [ -s "$room/told" ] || break
    at_0 "$name" "$room/out"
    if [ "$status" = 0 ] && cmp -s "$room/out" "$room/all"; then
      whole=$((whole + 1))
    elif [ "$status" = "$wanted" ] && [ "$(cat "$room/err")" = "$said" ] && [ "$(head -c "$(stat -c %s "$room/out")" "$room/all" | cmp - "$room/out" 2>&1)" = "" ]; then
      refused=$((refused + 1))
    else
      verdict "$name" 1 "with request $at refused: status $status, '$(head -n 1 "$room/err")'"
      return
    fi
  done
  # Few runs can go on without what they asked for: a growth that is refused asks again for less.
  [ "$refused" -gt 0 ] && [ "$at" -lt "$MOST" ] && [ $((10 * whole)) -le "$refused" ]
  verdict "$name: $refused requests refused, and $whole that were asked again for less" $?
}

examples=$top/examples
each_refused "the calls that take memory" 3 "" /dev/null "$top/crates/refusals/out/refusals"
each_refused "sacn" 3 "refused OutOfMemory" "$examples/desk.hex" "$sacn"
each_refused "sacn decode" 3 "refused OutOfMemory" /dev/null "$sacn" decode "$examples/levels.sacn" "$examples/universes.sacn"
each_refused "sacn sim" 3 "refused OutOfMemory" /dev/null "$sacn" sim "$examples/world.toml" "$examples/schedule.txt"
each_refused "sacn console" 3 "refused OutOfMemory" /dev/null "$sacn" console "$examples/show.toml" "$examples/script.txt" --turns 1
{ echo "udp_port = $(free_udp_port)"; cat "$examples/node.toml"; } >"$room/node.toml"
each_refused "sacn node" 3 "refused OutOfMemory" /dev/null "$sacn" node "$room/node.toml" --turns 1

# in_small_spaces NAME PROGRAM [WORD..]: in an address space that is too small it ends as a refused request does, and never by a signal. (What is smaller still
# the machine's loader refuses, with 127.)
in_small_spaces() {
  local name=$1 size status refused=0 whole=0
  shift
  if [ ! -x "$1" ]; then
    skips "$name" "it isn't built"
    return
  fi
  for size in $(seq 3000 50 8000); do
    status=0
    # shellcheck disable=SC2016
    timeout 60 bash -c 'ulimit -v "$1" && shift && exec "$@"' small "$size" "$@" </dev/null >/dev/null 2>"$room/err" || status=$?
    case $status in
      0) whole=$((whole + 1)) ;;
      127) ;;
      3) [ "$(tail -n 1 "$room/err")" = "refused OutOfMemory" ] && refused=$((refused + 1)) || status=other ;;
      *) status=other ;;
    esac
    if [ "$status" = other ]; then
      verdict "$name" 1 "it doesn't end as it should in $size kB: $(tail -n 1 "$room/err")"
      return
    fi
    [ "$whole" -lt 3 ] || break
  done
  [ "$refused" -gt 0 ] && [ "$whole" -gt 0 ]
  verdict "$name" $? "$refused refused, $whole went on"
}
udp=$(free_udp_port)
in_small_spaces "a watch in a small address space" "$sacn" watch --plain --port "$udp" --seconds 1
in_small_spaces "a page in a small address space" "$sacn" watch --page "127.0.0.1:$(free_tcp_port)" --port "$udp" --seconds 1
in_small_spaces "a recording told in a small address space" "$sacn" explain "$examples/ola.pcap"

# shellcheck shell=bash
# What the scripts of this folder share, each of which begins with:
#
#   set -u
#   . "$(dirname "$(readlink -f "$0")")/lib.sh"
#
# It is then in a folder of its own, `room`. Whatever ends it, what it started is ended, and that folder removed. It has:
#
#   top, sacn                                the tree, and the built program: crates/sacn/out/sacn, or the path in SACN
#   here                                     the folder in which it was started
#   verdict NAME STATUS [WHY]                prints `ok SCRIPT: NAME`, or where the status isn't 0 `not ok SCRIPT: NAME: WHY`
#                                            (a `$(..)` in NAME would leave its own status for a `$?` behind it: put it into a variable before)
#   skips NAME WHY                           prints `skipped SCRIPT: NAME: WHY`
#   passed, failed                           how many of both were well, and how many not
#   need WORD..                              ends the script as skipped where one of these commands isn't there; `sacn` is the program
#   wait_until COMMAND [WORD..]              runs this until it ends well, for `patience` seconds or 40; whether it did
#   wait_for_line FILE PATTERN [SECONDS]     the same, until the file has such a line (of grep -E) as a whole
#   wait_for_end PID                         waits for a process of this shell's, which is killed outright where it goes on for a minute; its status
#   is_taken PORT                            whether no datagram waits at a UDP port: what was sent there is read (of this machine's network, or this namespace's)
#   library_installed PREFIX                 installs the library for C in a folder: what the gate or the launcher has proved of it isn't proved again
#   free_udp_port, free_tcp_port             prints a port that nothing has, another one each time
#   tried NAME WORD..                        `rt try` of a crate of tests/programs: builds it, unproved but with checks and an address sanitizer, and runs it
#
# Its Python finds e131.py: packets, recordings and ports.

here=$PWD
top=$(cd "$(dirname "$(readlink -f "${BASH_SOURCE[0]}")")/.." && pwd)
sacn=${SACN:-$top/crates/sacn/out/sacn}
case $sacn in /*) ;; *) sacn=$here/$sacn ;; esac
# (what stands in front of the name of each look)
label="$(basename "$0" .sh): "
passed=0
failed=0
export PYTHONPATH=$top/tests${PYTHONPATH:+:$PYTHONPATH} PYTHONDONTWRITEBYTECODE=1

claims=${TMPDIR:-/tmp}
room=$(mktemp -d) || exit 1
cd "$room" || exit 1
: >"$room/.claims"
cleanup() {
  local claim
  # (also what it waits for in front, where a signal ends it)
  # shellcheck disable=SC2046
  kill $(jobs -p) $(cat "/proc/$$/task/$$/children" 2>/dev/null) 2>/dev/null
  while read -r claim; do rmdir "$claim"; done <"$room/.claims"
  cd /
  rm -rf "$room"
}
trap cleanup EXIT

verdict() {
  if [ "$2" = 0 ]; then
    echo "ok $label$1"
    passed=$((passed + 1))
  else
    echo "not ok $label$1${3:+: ${3//$'\n'/ | }}"
    failed=$((failed + 1))
  fi
}

skips() { echo "skipped $label$1: $2"; }

need() {
  local word why
  for word in "$@"; do
    why="there is no $word"
    case $word in sacn) word=$sacn why="sacn isn't built" ;; esac
    command -v "$word" >/dev/null && continue
    echo "skipped $(basename "$0" .sh): $why"
    exit 0
  done
}

wait_until() {
  local end=$((SECONDS + ${patience:-40}))
  until "$@"; do
    [ "$SECONDS" -le "$end" ] || return 1
    sleep 0.05
  done
}

# (the program writes what it says at its start in pieces: a line without its end may not be all of it)
has_whole_line() { grep -qsE -- "$2" "$1" && { [ -z "$(tail -c 1 "$1")" ] || sed '$d' "$1" | grep -qE -- "$2"; }; }
wait_for_line() { patience=${3:-40} wait_until has_whole_line "$1" "$2"; }

is_gone() { ! kill -0 "$1" 2>/dev/null; }
wait_for_end() {
  patience=${patience:-60} wait_until is_gone "$1" || kill -KILL "$1" 2>/dev/null
  wait "$1" 2>/dev/null
}

# The gate builds no archive, but leaves its build of the libraries below it: so after the gate one crate is proved once more, and nothing else.
# Elsewhere the launcher proves what isn't proved yet.
library_installed() {
  if [ -n "${SACN_GATE_SECONDS:-}" ] && python3 "$top/tools/archive.py"; then
    "$top/tools/library.sh" "$1"
  else
    "$top/sacn" library "$1"
  fi
}

# (in a copy of the crates, whose list has those of tests/programs too; their files are named .rs, since the gate wants each .rt in a crate that it proves)
tried() {
  local name=$1 longest=()
  shift
  # (it has ten minutes, where the kit gives it more than one)
  if rt 2>&1 | grep -qF -- '--seconds'; then longest=(--seconds 600); fi
  mkdir -p tree &&
    tar -C "$top" --exclude='crates/*/out' -c HANDLES crates | tar -C tree -x &&
    cp -r "$top/tests/programs/." tree/crates &&
    cat "$top/crates.txt" "$top/tests/programs/list" >tree/crates.txt &&
    find "tree/crates/$name" -name '*.rs' -exec sh -c 'for it; do mv "$it" "${it%.rs}.rt"; done' sh {} + &&
    (cd "tree/crates/$name" && rt try "${longest[@]}" "$@")
}

is_taken() { awk -v port=":$(printf %04X "$1")" '$2 ~ port "$" && $5 !~ /:0+$/ { waits = 1 } END { exit waits }' /proc/net/udp; }

# free_port TABLE: a port of which this table of the kernel's tells no socket, and to which no other script has a claim, which is a folder until it ends. It is
# below those that the kernel gives to sockets by itself, so that none gets it before it is used.
free_port() {
  local port
  while :; do
    port=$((20000 + RANDOM % 12000))
    if ! grep -qsi ":$(printf %04x "$port") " "/proc/net/$1" "/proc/net/${1}6" && mkdir "$claims/sacn-port-$port" 2>/dev/null; then break; fi
  done
  echo "$claims/sacn-port-$port" >>"$room/.claims"
  echo "$port"
}
free_udp_port() { free_port udp; }
free_tcp_port() { free_port tcp; }

#!/usr/bin/env bash
# Runs desks, gateways, a watch and its page beside what blocks or is gone, and looks whether that delays the light of another: hosts that are absent, outputs and interfaces
# that nobody reads, a flood, programs that are stopped or killed. Each look (tests/nothing_blocks.py) is in a network namespace of its own, some beside each other.
# Prints a line 'ok NAME', 'not ok NAME' or 'skipped NAME: why' for each, and 'N passed, M failed' at the end; what was seen goes to standard error.
# It takes the built program: crates/sacn/out/sacn, or the path in SACN; words name the looks that are wanted.
set -u
# shellcheck source=tests/lib.sh
. "$(dirname "$(readlink -f "$0")")/lib.sh"
# (its looks stand by their names alone)
label=
export SACN=$sacn
looks=("two_hosts_are_absent twenty_hosts_are_absent answers_that_nobody_reads a_stopped_terminal an_interface_comes_back"
  "frames_that_nobody_reads source_lines_that_nobody_reads source_lines_are_few interfaces_that_nobody_reads a_stopped_watch a_killed_launcher"
  "a_page_beyond_its_connections half_heads another_life_lights_at_once one_life_follows_another hosts_are_off_while_a_universe_rests most_hosts_are_off_at_16_universes
  most_hosts_are_off_at_170_universes"
  "most_hosts_are_off_at_1024_universes"
  "a_flood")
[ $# = 0 ] || looks=("$@")
[ -x "$SACN" ] || { echo "not ok the program is built: $SACN isn't there"; exit 1; }
if ! command -v python3 >/dev/null; then
  for name in ${looks[*]}; do echo "skipped $name: no python3"; done
  exit 0
fi

# How a look gets a network namespace of its own: as root, or as a user who may make one.
space=
for try in "unshare -n" "unshare -Urn"; do
  if $try ip link set lo up 2>/dev/null; then space=$try; break; fi
done
if [ -z "$space" ]; then
  STAGE_UDP=$(free_udp_port)
  STAGE_PAGE=$(free_tcp_port)
  export STAGE_UDP STAGE_PAGE
fi

look() { # NAME
  local status=0
  if [ -n "$space" ]; then
    SPACE=1 timeout 180 $space python3 "$top/tests/nothing_blocks.py" "$1" 2>"$room/$1" || status=$?
  else
    timeout 180 python3 "$top/tests/nothing_blocks.py" "$1" 2>"$room/$1" || status=$?
  fi
  echo "$status" >"$room/$1.status"
}

for group in "${looks[@]}"; do
  for name in $group; do
    look "$name" &
    # (without namespaces they share their ports)
    [ -n "$space" ] || wait
  done
  wait
  for name in $group; do
    # (what fails beside others is tried once more alone, and then a third time: it needs processors that nothing else keeps for long)
    for _ in 2 3; do
      case $(<"$room/$name.status") in 0 | 77) break ;; esac
      sed "s/^/# $name, tried again:/" "$room/$name" >&2
      look "$name"
    done
    sed "s/^/# $name:/" "$room/$name" >&2
    status=$(<"$room/$name.status")
    if [ "$status" = 77 ]; then skips "$name" "no network namespaces can be made here"; else verdict "$name" "$status"; fi
  done
done
echo "$passed passed, $failed failed"
[ "$failed" -eq 0 ]

#!/usr/bin/env bash
# Runs the tests of tests/programs/core_tests and loop_tests: what no row says of cores and loops. Prints 'ok NAME' or 'not ok NAME: why' for each, as ./test
# counts them.
set -u
# shellcheck source=tests/lib.sh
. "$(dirname "$(readlink -f "$0")")/lib.sh"
need rt

for program in core_tests loop_tests; do
  tried "$program" --test >told 2>&1
  status=$?
  run=0
  while read -r _ name _ outcome; do
    [ "$outcome" = ok ]
    verdict "$program: $name" $? "$outcome"
    run=$((run + 1))
  done < <(grep -E '^test .+ \.\.\. ' told)
  [ "$status" = 0 ] && [ "$run" = "$(grep -rho '#\[test\]' "$top/tests/programs/$program/src" | wc -l)" ]
  verdict "$program: each of its tests was run" $? "status $status, $run tests, '$(tail -n 3 told | head -c 300)'"
done
[ "$failed" = 0 ]

#!/usr/bin/env bash
# Prints how many seconds each module of a check took, in a crate that was checked with one job. A check writes a file into out/incremental for each module: the time between
# two of these is that of the second one, and a line has that of the file after its own.
set -eu
find out/incremental -type f -printf '%T@ %f\n' | sort -n |
  awk 'NR > 1 {print $1 - last, name} {last = $1; name = $2}' | sort -rn | head

#!/usr/bin/env bash
# Times what the calls of every turn cost, each beside hand-written C: ./sacn library first builds and proves the library where that isn't done yet.
#
#   tools/speed.sh [fast] [PREFIX]   `fast` makes few calls, and only says whether the answers agree; PREFIX is where the library is installed
set -eu
top=$(cd "$(dirname "$(readlink -f "$0")")/.." && pwd)
words=()
if [ "${1-}" = fast ]; then words=(fast); shift; fi
room=$(mktemp -d)
trap 'rm -rf "$room"' EXIT
prefix=${1-$room/prefix}
if [ ! -f "$prefix/lib/libsacn.a" ]; then "$top/sacn" library "$prefix"; fi
"${CC:-cc}" -std=c11 -O2 -falign-functions=32 -Wall -Wextra -Werror -I"$prefix/include" -o "$room/speed" "$top"/tools/speed/*.c "$prefix/lib/libsacn.a"
"$room/speed" ${words[@]+"${words[@]}"}

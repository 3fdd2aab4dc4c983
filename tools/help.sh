#!/usr/bin/env bash
# Writes the help of the built program and of each of its commands into docs/help.txt and docs/help/, which the launcher
# prints where nothing is built. tests/words.sh says where one isn't the program's.
set -euo pipefail
top=$(cd "$(dirname "$(readlink -f "$0")")/.." && pwd)
sacn=${SACN:-$top/crates/sacn/out/sacn}
rm -rf "$top/docs/help"
mkdir "$top/docs/help"
"$sacn" --help >"$top/docs/help.txt"
sed -n '/^Commands:/,/^$/s/^  \([a-z]*\) .*/\1/p' "$top/docs/help.txt" | while read -r command; do
  "$sacn" "$command" --help >"$top/docs/help/$command.txt" </dev/null
done

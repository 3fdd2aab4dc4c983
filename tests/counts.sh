#!/usr/bin/env bash
# The instructions of the built programs, counted anew where valgrind is: none may be more than 3 % above its line of bench/counts.txt. Then what bench/counts says of
# faulty files and of counts beside their lines, and bench/run of checkouts that do other work. Prints 'ok NAME', 'not ok NAME: why' or 'skipped NAME: why' for each.
set -u
# shellcheck source=tests/lib.sh
. "$(dirname "$(readlink -f "$0")")/lib.sh"
need python3

# The gate builds no archive for C, but leaves its build of the libraries below it (status 3: it isn't there).
library=()
if [ -n "${SACN_GATE_SECONDS:-}" ]; then
  status=0
  python3 "$top/tools/archive.py" >"$room/said" 2>&1 && "$top/tools/library.sh" "$room/prefix" >"$room/said" 2>&1 || status=$?
  if [ "$status" = 0 ]; then library=(--library "$room/prefix"); elif [ "$status" != 3 ]; then verdict "the library for C is there" 1 "status $status, $(tail -n 1 "$room/said")"; fi
fi
status=0
"$top/bench/counts" ${library[@]+"${library[@]}"} >"$room/told" 2>"$room/err" || status=$?
sed -E 's/^(ok|not ok|skipped) /&counts: /' "$room/told"
if [ "$status" != 0 ] && ! grep -q '^not ok' "$room/told"; then verdict "they are counted" 1 "status $status, $(head -n 1 "$room/err")"; fi

# faulty NAME WANTED FILTER..: what a filter makes of the file of counts is refused, by these lines, before anything is counted
faulty() {
  local name=$1 wanted=$2 status=0
  shift 2
  "$@" <"$room/whole" >"$room/counts.txt"
  timeout 60 "$top/bench/counts" --file "$room/counts.txt" >"$room/out" 2>"$room/err" || status=$?
  [ "$status" = 2 ] && [ "$(cat "$room/err")" = "$wanted" ] && [ ! -s "$room/out" ]
  verdict "$name" $? "status $status, $(cat "$room/err" "$room/out" | head -n 3)"
}
python3 - "$top" >"$room/whole" <<'P'
import sys
sys.dont_write_bytecode = True
sys.path.insert(0, f"{sys.argv[1]}/bench")
import counted
print("processor: any\nlibc: any\nvalgrind: any\ncompiler: any")
for it in counted.names():
    print(it, 1000)
P
end=$(wc -l <"$room/whole")
last=$(tail -n 1 "$room/whole" | cut -d ' ' -f 1)
faulty "a workload is lacking" "counts.txt:$((end - 1)): after the last line files is lacking" sed '/^files /d'
faulty "the head lacks a word" "counts.txt:$((end - 1)): after the last line libc is lacking" sed '/^libc:/d'
# shellcheck disable=SC2016
faulty "a workload that isn't there" "counts.txt:$((end + 1)): nothing: there is no workload or call of this name" sed '$anothing 5'
faulty "a word that no head has" "counts.txt:1: weather: the head has no such word" sed '1iweather: fine'
faulty "a line twice" "counts.txt:$((end + 1)): $last stands twice, first in line $end" sed "\$a$last 1000"
faulty "words for a number" "counts.txt:6: frames: 'many' is no count" sed 's/^frames .*/frames many/'
for value in 0 -5 1e6 1.5 007 9999999999999999999; do faulty "$value for a number" "counts.txt:6: frames: '$value' is no count" sed "s/^frames .*/frames $value/"; done
faulty "a name alone" "counts.txt:6: 'frames': a line is NAME COUNT, or WORD: TEXT in the head" sed 's/^frames .*/frames/'
faulty "a word more" "counts.txt:6: 'frames 1 2': a line is NAME COUNT, or WORD: TEXT in the head" sed 's/^frames .*/frames 1 2/'
faulty "two faults" "counts.txt:5: lines: 'a' is no count
counts.txt:6: frames: 'b' is no count" sed 's/^lines .*/lines a # as it was/; s/^frames .*/frames b/'
status=0
"$top/bench/counts" --file "$room/absent" >"$room/out" 2>"$room/err" || status=$?
[ "$status" = 2 ] && grep -q 'No such file' "$room/err"
verdict "no file" $? "status $status, $(head -n 1 "$room/err")"
python=$(python3 -c 'import sys; print(sys.executable)')
PATH=$room/none "$python" "$top/bench/counts" --file "$room/whole" >"$room/out" 2>"$room/err"
status=$?
[ "$status" = 0 ] && [ "$(grep -cE "^skipped [a-z-]+: valgrind isn't there$" "$room/out")" = "$((end - 4))" ] && [ ! -s "$room/err" ]
verdict "without valgrind each is skipped by name" $? "$(head -n 1 "$room/out" "$room/err")"
for words in "--raise lines" "--only nothing" "--anew" "--write --anew --only lines"; do
  status=0
  # shellcheck disable=SC2086
  "$top/bench/counts" $words >"$room/out" 2>"$room/err" || status=$?
  [ "$status" = 2 ] && [ ! -s "$room/out" ]
  verdict "the words $words" $? "status $status"
done

# Counts beside their lines, and what --write makes of them.
python3 - "$top" "$room" <<'P'
import importlib.machinery, importlib.util, sys
sys.dont_write_bytecode = True
top, room = sys.argv[1:]
sys.path.insert(0, f"{top}/bench")
loader = importlib.machinery.SourceFileLoader("counts", f"{top}/bench/counts")
counts = importlib.util.module_from_spec(importlib.util.spec_from_loader("counts", loader))
loader.exec_module(counts)

def look(name, given, wanted):
    print(f"ok counts: {name}" if given == wanted else f"not ok counts: {name}: {given!r}")

def short(now):
    fits, said = counts.verdict("it", now, 100000)
    return fits, said.split(":")[0], "lowered" in said

look("the same, and 3 % above or below", [short(it) for it in (100000, 103000, 97000)], [(True, "ok it", False)] * 3)
look("more than 3 % above", short(103001), (False, "not ok it", False))
look("more than 3 % below", short(96999), (True, "ok it", True))
look("more than 3 % above on another machine", [counts.verdict("it", it, 100000, counts.TOLERANCE_ELSEWHERE)[0] for it in (103001, 110000, 110001)], [True, True, False])
before, now = {"a": 100, "b": 100, "c": 100, "d": 100}, {"a": 90, "b": 101, "c": 150, "e": 7}
look("lower ones are written, and lacking ones", counts.merged("abcde", before, now, []), {"a": 90, "b": 100, "c": 100, "d": 100, "e": 7})
look("a higher one where it is raised", counts.merged("abcde", before, now, ["c"]), {"a": 90, "b": 100, "c": 150, "d": 100, "e": 7})
head = {it: f"{it} 1.0 (of here)" for it in counts.HEAD}
counts.write(f"{room}/written", "ab", head, {"a": 90, "b": 100})
file = counts.File(f"{room}/written", "ab")
look("what is written is read back", (file.head, file.counts, file.faults + file.lacking), (head, {"a": 90, "b": 100}, []))
look("another machine is told", counts.others(head, {**head, "libc": "2.99"}), ["libc 'libc 1.0 (of here)', and here it is '2.99'"])
P

# bench/run: a crate whose programs print their words.
for it in old new; do
  mkdir -p "$room/$it/bench" "$room/$it/crates/sacn_bench/out" "$room/$it/crates/sacn_bench/src/deep"
  echo "fn main" | tee "$room/$it/crates/sacn_bench/src/main.rt" "$room/$it/crates/sacn_bench/src/deep/work.rt" >/dev/null
  # shellcheck disable=SC2016
  printf '#!/bin/sh\necho "$@"\n' >"$room/$it/crates/sacn_bench/out/sacn_bench"
  chmod +x "$room/$it/crates/sacn_bench/out/sacn_bench"
done
rows=$(grep -cvE '^ *(#|$)' "$top/bench/workloads.txt")
"$top/bench/run" "$room/old" "$room/new" >"$room/out" 2>"$room/err" && [ "$(wc -l <"$room/out")" = "$((rows + 1))" ]
verdict "two checkouts of one source are run" $? "$(head -n 1 "$room/err")"
# (a program that says something more behind the words of one workload)
words=$(awk '$1 == "lists" { $1 = $2 = ""; print $3 }' "$top/bench/workloads.txt")
printf '#!/bin/sh\necho "$@"\ncase $1 in %s) echo more ;; esac\n' "$words" >"$room/new/crates/sacn_bench/out/sacn_bench"
status=0
"$top/bench/run" "$room/old" "$room/new" >"$room/out" 2>"$room/err" || status=$?
[ "$status" = 1 ] && grep -qF "the outputs differ" "$room/err"
verdict "another output ends the run" $? "status $status, $(head -n 1 "$room/err")"
"$top/bench/run" --may-differ lists "$room/old" "$room/new" >"$room/out" 2>"$room/err" && grep -q '^lists .* another text$' "$room/out" && [ "$(grep -c 'another text' "$room/out")" = 1 ]
verdict "a workload that may tell another text is marked" $? "$(head -n 1 "$room/err")"
cp "$room/old/crates/sacn_bench/out/sacn_bench" "$room/new/crates/sacn_bench/out/sacn_bench"
# other NAME FILE: the run ends before it begins, and names the file
other() {
  local status=0
  "$top/bench/run" "$room/old" "$room/new" >"$room/out" 2>"$room/err" || status=$?
  [ "$status" = 1 ] && [ ! -s "$room/out" ] && grep -qF "run: crates/sacn_bench/src/$2 isn't the same in $room/old and $room/new" "$room/err"
  verdict "$1" $? "status $status, $(head -n 1 "$room/err")"
}
# (a workload that the older source lacks, with a file of its own)
rows_of() { printf 'mod work;\n%sconst JOBS: [&str; %d] = [\n    "frames",%s\n];\n"frames" => work::frames(&work)?,\n%sfn main\n' "$1" "$2" "$3" "$4"; }
source=crates/sacn_bench/src
rows_of "" 1 "" "" >"$room/old/$source/main.rt"
rows_of $'mod lists;\n' 2 ' "lists",' $'"lists" => lists::lists(&work)?,\n' >"$room/new/$source/main.rt"
echo "fn lists" >"$room/new/$source/lists.rt"
"$top/bench/run" "$room/old" "$room/new" >"$room/out" 2>"$room/err" && grep -q "^lists  *- .* not in $room/old\$" "$room/out" && [ "$(grep -c 'not in' "$room/out")" = 1 ]
verdict "a workload that the older source lacks is measured alone" $? "$(head -n 1 "$room/err")"
echo "fn more" >>"$room/new/$source/main.rt"
other "another table of workloads is named" main.rt
cp "$room/old/$source/main.rt" "$room/new/$source/main.rt"
rm "$room/new/$source/lists.rt"
echo "fn more" >"$room/new/crates/sacn_bench/src/more.rt"
other "a file more is named" more.rt
"$top/bench/run" --other "$source/more.rt" "$room/old" "$room/new" >"$room/out" 2>"$room/err"
verdict "a file that may be another is none that ends the run" $? "$(head -n 1 "$room/err")"
echo "fn another" >"$room/old/crates/sacn_bench/src/deep/work.rt"
other "the first file that differs is named" deep/work.rt
rm "$room/old/crates/sacn_bench/src/deep/work.rt"
other "a file that is lacking is named" deep/work.rt
exit 0

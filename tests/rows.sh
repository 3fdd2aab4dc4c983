#!/usr/bin/env bash
# Runs the rows of tests/rows, those that plain twins in Python write (tests/twins.py), and rows that are wrong, each of which has to be told by file and
# line. Prints 'ok NAME' or 'not ok NAME: why' for each, as ./test counts them. The program is tests/programs/rows, which is built once.
set -u
# shellcheck source=tests/lib.sh
. "$(dirname "$(readlink -f "$0")")/lib.sh"
need rt

# ends NAME STATUS WANTED LABEL: a file of rows, read from standard input, is to be told so, and nothing else of it
labels=()
wanted=()
ends() {
  labels+=("$4")
  wanted+=("$1"$'\n'"$2"$'\n'"$3"$'\n')
  { echo "$1" && cat && printf '\f'; } >>files
}

# told WHAT WANTED LINE..: the same of a file of these lines
told() {
  local what=$1 said=$2
  shift 2
  ends bad.rows 1 "bad.rows:$said" "$what" < <(printf '%s\n' "$@")
}

files=0
for file in "$top"/tests/rows/*.rows; do
  [ -f "$file" ] || continue
  files=$((files + 1))
  name=$(basename "$file")
  stories=$(grep -c '^story ' "$file")
  steps=$(grep -cvE '^(#|\||of |story |[[:space:]]*$)' "$file")
  ends "$name" 0 "$name: $steps steps of $stories stories" "$name: $steps steps of $stories stories" <"$file"
done
if [ "$files" = 0 ]; then verdict "files" 1 "there are none"; fi
for it in "console: 6002 steps of 2 stories" "node: 17996 steps of 1 stories"; do
  if ! command -v python3 >/dev/null; then
    skips "a plain ${it%%:*}" "there is no python3"
    continue
  fi
  python3 "$top/tests/twins.py" "${it%%:*}" >twin.rows || verdict "the twin of a ${it%%:*}" 1 "it ends with status $?"
  ends "${it%%:*}" 0 "$it" "a ${it%%:*} answers as its plain twin does" <twin.rows
done

long=$(printf 'x%.0s' $(seq 4001))
told "a wrong answer" "3: wanted '2', came '0'" "of sources" "story one" "expire 5 = 2"
told "an answer without what is wanted" "3: wanted '', came '0'" "of sources" "story one" "expire 5"
told "an unknown family" "1: unknown family" "of colours" 
told "no family" "1: no family was said before" "story one"
told "a second family" "2: the family was said before, or isn't one word" "of sources" "of node" "story one" "renewals = 0"
told "an unknown call" "3: unknown call" "of sources" "story one" "shine 1 = 2" "renewals = 0"
told "a step before a story" "2: no story began before" "of sources" "renewals = 0" "story one" "renewals = 0"
told "a story without a name" "2: a story has no name" "of sources" "story" "story one" "renewals = 0"
told "too few words" "3: too few words, or too many" "of sources" "story one" "expire = 0"
told "too many words" "3: too few words, or too many" "of sources" "story one" "expire 5 6 = 0"
told "a word that is no number" "3: a word isn't what stands there" "of sources" "story one" "expire +5 = 0"
told "a number that is too great" "3: a word isn't what stands there" "of sources" "story one" "take 0 number 256 = Held"
told "a call that another has to come before" "3: what the call needs isn't there" "of node" "story one" "tick 0 = 0"
told "a long line" "4: the line has more than 4000 octets" "of sources" "story one" "renewals = 0" "# $long"
told "two wrong lines" "3: wanted '1', came '0'"$'\n'"bad.rows:5: wanted '2', came '0'" "of sources" "story one" "renewals = 1" "renewals = 0" "renewals = 2"
told "no step" "1: the file has no step" "of sources" "story one"
ends bad.rows 1 "bad.rows:1: the file has no step" "nothing at all" </dev/null
ends bad.rows 1 "bad.rows: the file isn't read as UTF-8 text" "octets that are no text" < <(printf 'of sources\nstory one\nrenewals = \xff\n')

tried rows <files >told 2>said || verdict "the program" $? "$(tail -n 3 said)"
place=0
while [ "$place" -lt "${#labels[@]}" ]; do
  found=
  IFS= read -r -d $'\f' found
  found=${found#$'\n'}
  [ "$found" = "${wanted[$place]}" ]
  verdict "${labels[$place]}" $? "'$(head -c 300 <<<"$found")'"
  place=$((place + 1))
done <told
[ "$failed" = 0 ]

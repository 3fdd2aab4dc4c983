#!/usr/bin/env bash
# The manual and the completions: each option that a command's help prints stands in all of them, and the tools that read them take them.
# Prints 'ok NAME', 'not ok NAME: why' or 'skipped NAME: why' for each, as ./test counts them.
set -u
# shellcheck source=tests/lib.sh
. "$(dirname "$(readlink -f "$0")")/lib.sh"
need sacn

# makes FILE WORD..: standard output goes to the file; nothing else is said, and the status is 0
makes() {
  local file=$1 status=0
  shift
  "$sacn" "$@" >"$file" 2>err || status=$?
  [ "$status" = 0 ] && [ -s "$file" ] && [ ! -s err ]
  verdict "$*" $? "status $status, '$(head -c 200 err)'"
}
makes page manual
for shell in bash zsh fish; do makes $shell completion $shell; done

# With the escapes of roff taken back.
sed 's/\\f[BIR]//g;s/\\-/-/g;s/\\&//g' page >plain

# part FILE START END: the lines from the one that is the start up to the next that begins with the end
part() { awk -v start="$2" -v end="$3" '$0 == start {on = 1; next} on && index($0, end) == 1 {exit} on' "$1"; }

# The commands are those that the program's own help lists, the options those of each command's help.
commands=$("$sacn" --help | awk '/^Commands:/ {on = 1; next} on && NF == 0 {exit} on {print $1}')
if [ -z "$commands" ]; then verdict "commands" 1 "help lists none"; fi
for command in $commands; do
  missing=
  part plain ".SS $command" ".S" >of_page
  awk -v start="    if [[ \$command == $command ]]; then" 'index($0, start) == 1 {on = 1; next} on && $0 == "    fi" {exit} on' bash >of_bash
  part zsh "    if [[ \$command == $command ]]; then" "    fi" >of_zsh
  grep -F "'__fish_seen_subcommand_from $command'" fish >of_fish
  options=$("$sacn" "$command" --help | awk '/^Options:/ {on = 1; next} on && NF == 0 {exit} on' | grep -oE '^ +(-[a-z], )?--[a-z]+(-[a-z]+)*' | tr -d ' ' | tr , '\n')
  [ -n "$options" ] || missing=" no options"
  for option in $options; do
    grep -qE -- "^$option( |\$)" of_page || missing+=" $option of page"
    grep -qF -- "options+=' $option'" of_bash || missing+=" $option of bash"
    grep -qE -- "\+=\('\*?$option\[" of_zsh || missing+=" $option of zsh"
    case $option in --*) wanted=" -l ${option#--} " ;; *) wanted=" -s ${option#-} " ;; esac
    grep -qF -- "$wanted" of_fish || missing+=" $option of fish"
  done
  usage=$("$sacn" "$command" --help | sed -n 's/^Usage: //p')
  grep -qxF -- ".B $usage" of_page && grep -qxF -- "$usage" plain || missing+=" usage"
  for value in $("$sacn" "$command" --help | grep -oE '^ +--[a-z-]+ <[^>]+>' | sed 's/^ *//;s/ <.*//'); do
    name=$("$sacn" "$command" --help | sed -n "s/^ *$value <\([^>]*\)>.*/\1/p")
    grep -qF -- "$value $name" of_page || missing+=" value of $value"
  done
  # Nothing else stands there, and what does is told of.
  for option in $(grep -oE -- '^--?[a-z]+(-[a-z]+)*' of_page) $(grep -oE -- "options\\+=' [-a-z]+'" of_bash | grep -oE -- '--?[a-z]+(-[a-z]+)*'); do
    grep -qxF -- "$option" <<<"$options" || missing+=" $option of help"
  done
  missing+=$(awk 'name != "" && ($0 == "" || index($0, ".") == 1) {printf " words on %s", name} {name = last == ".TP" ? $1 : ""; last = $0}' of_page)
  [ -z "$missing" ]
  verdict "$command and its options stand in all" $? "it lacks$missing"
done

usage=$("$sacn" --help | sed -n 's/^Usage: //p')
grep -qxF -- "$usage" plain
verdict "how the program is called" $? "'$usage' isn't in the page"

# What reads them takes them.
# takes NAME TOOL WORD..: the tool, where it is there, ends well and says nothing
takes() {
  local name=$1 status=0
  shift
  if ! command -v "$1" >/dev/null; then
    skips "$name" "no $1 here"
    return
  fi
  "$@" >said 2>&1 || status=$?
  [ "$status" = 0 ] && [ ! -s said ]
  verdict "$name" $? "status $status, '$(head -c 200 said)'"
}
takes "groff takes the page" groff -man -Tutf8 -ww -z page
takes "mandoc takes the page" mandoc -T lint -W warning page
takes "bash takes its completions" bash -n bash
takes "zsh takes its completions" zsh -n zsh
takes "fish takes its completions" fish -n fish

# Words completed by bash itself, in a folder of one file.
touch setup.toml
# offers WANTED WORD..: what bash offers for the last of these words, one a line
offers() {
  local wanted=$1 found
  shift
  found=$(bash --norc -c '. ./bash; COMP_WORDS=("$@"); COMP_CWORD=$(($# - 1)); _sacn; printf "%s\n" "${COMPREPLY[@]}"' sacn "$@" 2>/dev/null | sort | tr '\n' ' ')
  [ "$found" = "$wanted" ]
  verdict "bash offers $* $wanted" $? "'$found'"
}
offers "gateway " sacn ga
offers "setup.toml " sacn gateway set
offers "setup.toml " sacn explain x --setup set
offers "bash fish zsh " sacn completion ""
offers "--standby --stay " sacn desk --s""t
offers " " sacn gateway x --seconds ""

# The version is told with the kits that the tree takes.
diff <("$sacn" --version | grep '^kit ') <(sed 's/^/kit /' "$top/tools/kit") >said
verdict "the kit of --version" $? "$(cat said)"

#!/usr/bin/env bash
# The launcher's ways to fail, over a small tree of no real crates and a kit that only pretends: each says what it met, and leaves nothing behind.
# Prints 'ok NAME', 'not ok NAME: why' or 'skipped NAME: why' for each, as ./test counts them.
set -u
# shellcheck source=tests/lib.sh
. "$(dirname "$(readlink -f "$0")")/lib.sh"
tree=$room/tree
mkdir -p "$tree/tools" "$room/bin" "$room/rooms"
cp "$top/sacn" "$tree/"
cp "$top/tools/prove.py" "$top/tools/run.sh" "$top/tools/kit" "$tree/tools/"
mkdir -p "$tree/docs/help"
echo "help that was kept" >"$tree/docs/help.txt"
echo "help of node that was kept" >"$tree/docs/help/node.txt"
printf '#!/bin/sh\necho installed in "$1"\n' >"$tree/tools/library.sh"
chmod +x "$tree/tools/library.sh"
echo "Handles allowed: Net." >"$tree/HANDLES"
printf '%s\n' "low:" "left: low" "right: low" "sacn: left right" "apart: low" "sacn_c staticlib: right" >"$tree/crates.txt"
for name in low left right sacn apart sacn_c; do
  mkdir -p "$tree/crates/$name/src"
  echo "//! $name" >"$tree/crates/$name/src/lib.rt"
done

# The kit that pretends: KIT_SAYS is its version, KIT_FAILS the crate that it can't prove, KIT_SLEEPS for how long a proof takes.
cat >"$room/bin/rt" <<'KIT'
#!/usr/bin/env bash
name=$(basename "$PWD")
case $1 in
  version) echo "${KIT_SAYS-$(tail -n 1 "$KIT_FILE")}" ;;
  try) cat >/dev/null; echo tried "$name" "$@"; echo "checked: ended status=3" >&2; echo "run=ended status=3 runners=1 proved=no" >&2; echo "refused TooShort" >&2; exit 3 ;;
esac
KIT
# What proves one crate by it.
cat >"$tree/tools/proof.py" <<'PROOF'
import os, sys, time
name = sys.argv[1]
with open(os.environ["KIT_LOG"], "a") as log:
    print(name, file=log)
time.sleep(float(os.environ.get("KIT_SLEEPS", "0")))
if os.environ.get("KIT_FAILS") == name:
    sys.exit(f"fn {name}::wrong: not proved")
os.makedirs(f"crates/{name}/out/rlib/{name}.rlib")
if name == "sacn":
    with open("crates/sacn/out/sacn", "w") as made:
        made.write('#!/bin/sh\necho proved "$@"\n')
    os.chmod("crates/sacn/out/sacn", 0o755)
PROOF
chmod +x "$room/bin/rt"
export KIT_FILE=$tree/tools/kit KIT_LOG=$room/log TMPDIR=$room/rooms
usual=$PATH

# Runs the launcher with the kit that pretends; what it said and its status are left in $room.
launch() {
  : >"$KIT_LOG"
  PATH=$room/bin:$usual "$tree/sacn" "$@" >"$room/out" 2>"$room/err" </dev/null
  status=$?
}
anew() { rm -rf "$tree"/crates/*/out; }
says() { grep -qF -- "$1" "$room/err"; }
prints() { grep -qF -- "$1" "$room/out"; }
# check NAME TEST..: the test's answer is the case's.
check() {
  local name=$1
  shift
  if "$@"; then verdict "$name" 0; else
    verdict "$name" 1 "$* (status $status)"
    sed 's/^/# /' "$room/err"
  fi
}
nothing_left() { [ -z "$(ls -A "$room/rooms")" ] && ! grep -lsF "$tree/tools/proof.py" /proc/[0-9]*/cmdline >/dev/null; }
refused() { [ "$status" = 1 ] && says "$1"; }

no_kit() {
  PATH=$room/none:/usr/bin:/bin "$tree/sacn" prove >"$room/out" 2>"$room/err" </dev/null
  status=$?
  refused "the kit's command rt isn't on the PATH"
}
if PATH=/usr/bin:/bin command -v rt >/dev/null; then skips "no kit" "a kit is in /usr/bin"; else check "no kit is named, with where it looked" no_kit; fi

another_kit() { KIT_SAYS="rattle-kit-99" launch prove; refused "wants $(head -n 1 "$KIT_FILE"), or $(tail -n 1 "$KIT_FILE")" && says "it is rattle-kit-99"; }
check "another kit than the tree's is named, with where it stands" another_kit

each_kit() { local kit; while read -r kit; do anew; KIT_SAYS=$kit launch prove && KIT_SAYS=rattle-kit-99 launch --version && prints "kit $kit" || return 1; done <"$KIT_FILE"; }
check "each kit of the tree's proves it, and the version tells which did" each_kit

runs_unproved() { anew; launch; [ "$status" = 3 ] && prints "tried" && says "isn't proved on this machine yet: ./sacn prove" && says "refused TooShort" && ! says "run=ended"; }
check "what lights no stage runs unproved at once, and says so" runs_unproved

kept_help() { local text=$1; shift; launch "$@"; [ "$status" = 0 ] && [ "$(cat "$room/out")" = "$text" ] && says "isn't proved on this machine yet" && [ ! -s "$KIT_LOG" ]; }
help_is_kept() { anew; for word in -h --help; do kept_help "help that was kept" $word && kept_help "help of node that was kept" node $word || return 1; done; }
check "help is there at once, also of what lights a stage" help_is_kept

help_wants_no_kit() { PATH=$room/none:/usr/bin:/bin "$tree/sacn" node --help >"$room/out" 2>"$room/err" </dev/null && prints "help of node"; }
check "help wants no kit" help_wants_no_kit

stage_is_proved() { anew; launch node x; [ "$status" = 0 ] && prints "proved node x" && ! prints tried; }
check "what lights a stage is proved first" stage_is_proved

not_needed_is_left() { ! grep -qx apart "$KIT_LOG" && [ "$(tail -n 1 "$KIT_LOG")" = sacn ] && [ "$(head -n 1 "$KIT_LOG")" = low ]; }
check "what the program doesn't stand on isn't proved, and what it stands on comes first" not_needed_is_left

built_is_used() { launch decode; [ "$status" = 0 ] && prints "proved decode" && [ ! -s "$KIT_LOG" ]; }
check "a build of this very tree is used" built_is_used

built_helps() { launch node --help; [ "$status" = 0 ] && prints "proved node --help" && [ ! -s "$room/err" ]; }
check "its own help too" built_helps

changed_is_not_used() { echo "//! more" >>"$tree/crates/left/src/lib.rt"; launch decode; [ "$status" = 3 ] && prints tried; }
check "a build of another tree isn't" changed_is_not_used

# A released program that pretends, of this very tree, with the text that says so.
arch=$(uname -m)
make_release() {
  local file
  mkdir -p "$tree/release/$arch-linux"
  printf '#!/bin/sh\n[ "$1" = --help ] || echo released "$@"\n' >"$tree/release/$arch-linux/sacn"
  printf '#!/bin/sh\necho joined "$@" >&2\n' >"$tree/release/$arch-linux/sacn-join"
  chmod +x "$tree/release/$arch-linux"/*
  {
    printf 'version 9.8.7\ncode %s\nkit rattle-kit-9\n' "$("$tree/sacn" --code)"
    for file in sacn sacn-join; do echo "$arch-linux/$file $(sha256sum <"$tree/release/$arch-linux/$file" | cut -d ' ' -f 1)"; done
  } >"$tree/release/RELEASE"
}
# (no kit and no Python are there, nor anything beside bash and coreutils)
mkdir "$room/core"
for tool in bash env readlink dirname basename uname sha256sum sort paste cut head tail cat mktemp sleep stty mkdir; do ln -s "$(command -v "$tool")" "$room/core/$tool"; done
bare() { PATH=$room/core HOME=$room/home XDG_STATE_HOME= "$tree/sacn" "$@" >"$room/out" 2>"$room/err" </dev/null; status=$?; }
released_runs() { anew; make_release; bare gateway x && prints "released gateway x" && says "proved and built elsewhere, from this very tree; ./sacn prove proves" && [ "$(wc -l <"$room/err")" = 1 ]; }
check "the released program of this very tree runs at once, without a kit, and says so" released_runs
released_once() { bare gateway x && prints "released gateway x" && [ ! -s "$room/err" ] && rm -r "$room/home" && : >"$room/home" && bare gateway x && says "proved and built elsewhere" && bare gateway x && says "proved and built elsewhere"; }
check "once on a machine, and each time where that can't be noted" released_once
rm -f "$room/home"
alone_on_a_terminal() { script -qec "$tree/sacn" /dev/null >"$room/out" 2>"$room/err" </dev/null; status=$?; prints "reads one datagram as hexadecimal digits, up to Ctrl-D" && bare && ! says "reads one datagram"; }
if command -v script >/dev/null; then check "alone on a terminal it says what it reads" alone_on_a_terminal; else skips "alone on a terminal" "no script"; fi
released_version() { bare --version && prints "release 9.8.7" && prints "kit rattle-kit-9" && prints "proved and built elsewhere"; }
check "the version tells that it is the released one" released_version
proved_goes_first() { launch prove; launch node x; [ "$status" = 0 ] && prints "proved node x" && [ ! -s "$room/err" ] && launch --version && prints "proved and built on this machine"; }
check "a program proved here goes before it" proved_goes_first
proof_changes_nothing() { anew; mkdir -p "$tree/crates/left/proofs" && echo "-- a lemma" >"$tree/crates/left/proofs/L.antt"; echo "//! a test" >"$tree/crates/apart/src/more.rt"; bare decode x && prints "released decode x"; }
check "a proof, or code that it doesn't stand on, makes it no other tree's" proof_changes_nothing
changed_code_is_another() { echo "//! more" >>"$tree/crates/left/src/lib.rt"; launch decode x; [ "$status" = 3 ] && prints tried; }
check "other code does" changed_code_is_another
changed_line_is_another() { make_release; sed -i 's/^sacn: left right/sacn: left  right/' "$tree/crates.txt"; launch decode x; [ "$status" = 3 ] && prints tried; }
check "another line of crates.txt does" changed_line_is_another
damaged() { make_release; echo "#" >>"$tree/release/$arch-linux/$1"; bare gateway x; [ "$status" = 4 ] && says "$arch-linux/$1 is not the released one: its SHA-256 is" && says "./sacn prove" && [ ! -s "$room/out" ]; }
check "a released program with other octets is named and never run" damaged sacn
check "nor is its helper" damaged sacn-join
unfit() {
  make_release
  printf '#!/bin/sh\necho "libc.so.6: version GLIBC_9 not found" >&2\nexit 1\n' >"$tree/release/$arch-linux/sacn"
  sed -i "s#^$arch-linux/sacn .*#$arch-linux/sacn $(sha256sum <"$tree/release/$arch-linux/sacn" | cut -d ' ' -f 1)#" "$tree/release/RELEASE"
  bare gateway x
  [ "$status" = 4 ] && says "GLIBC_9 not found" && says "./sacn prove"
}
check "a machine on which it can't run is told why, and what to do" unfit
other_processor() {
  make_release
  rm "$room/core/uname"
  printf '#!/bin/sh\necho riscv64\n' >"$room/core/uname" && chmod +x "$room/core/uname"
  bare gateway x
  [ "$status" != 0 ] && says "no released program for riscv64"
}
check "another processor is named" other_processor
ln -sf "$(command -v uname)" "$room/core/uname"

joins() { local wanted=$1; shift; bare "$@"; [ "$status" = 0 ] && [[ "$(grep '^joined' "$room/err")" =~ ^joined\ $wanted$ ]]; }
make_release
join_words() {
  joins '[0-9]+ lo 239.255.250.214 239.255.0.7 239.255.1.0' watch --universe 7 --join lo --universe=256 && prints "released watch --universe 7 --universe=256" &&
    joins '[0-9]+ lo 239.255.250.214 239.255.0.255 239.255.1.0 239.255.1.1' watch --universe 255-257 --join lo && prints "released watch --universe 255-257" &&
    joins '--lists 5568 [0-9]+ lo 239.255.250.214( 239.255.0.[0-9]+){128}' watch --join=lo && joins '--lists 5570 [0-9]+ lo 239.255.250.214( 239.255.0.[0-9]+){128}' watch --port 5570 --join lo --plain && prints "released watch --port 5570 --plain"
}
check "a watch joins the universes that are named, or the first and the lists" join_words
join_recorded() {
  joins '[0-9]+ lo 239.255.250.214 239.255.0.7' record night.pcapng --universe 7 --join lo && prints "released record night.pcapng --universe 7" &&
    joins '--lists 5570 [0-9]+ lo 239.255.250.214( 239.255.0.[0-9]+){128}' record --port 5570 --join lo night.pcapng && prints "released record --port 5570 night.pcapng"
}
check "so does a recording" join_recorded
split_is() { [ "$(. "$tree/tools/run.sh"; split_join "${@:2}"; echo "${words[*]}|$device")" = "$1" ]; }
file_is_no_device() {
  split_is "record night.pcapng|" record --join night.pcapng && split_is "record night.pcapng|eth9" record --join eth9 night.pcapng && split_is "record ./night|lo" record --join lo ./night &&
    split_is "record night.pcapng|" record night.pcapng --join && split_is "watch|eth9.5" watch --join eth9.5
}
check "a recording that isn't there yet is no device" file_is_no_device
# A program that says what was joined for it.
printf '#!/usr/bin/env bash\necho "${SACN_JOINED-nothing was joined}"\n' >"$room/joined"
chmod +x "$room/joined"
joined() { local wanted=$1; shift; (sacn_join=$tree/release/$arch-linux/sacn-join; . "$tree/tools/run.sh" && SACN_JOINED=x run "$room/joined" "$@") >"$room/out" 2>"$room/err" </dev/null; status=$?; grep -qxF -- "$wanted" "$room/out"; }
joined_is_told() {
  joined "lo joined the discovery group, universes 1 to 128 and those that sources list; --universe 1-512 joins others" watch --join lo &&
    joined "lo joined the discovery group and universe 7; --universe names others" watch --universe 7 --join lo &&
    joined "lo joined the discovery group and universes 255-257, 600; --universe names others" watch --universe 255-257 --join=lo --universe=600 &&
    joined "lo joined the discovery group and the setup's universes" gateway x --join lo && joined "lo joined the discovery group and the setups' universes" gateway x --join lo --seconds 3 y && joined "nothing was joined" watch && joined "nothing was joined" gateway x && joined "nothing was joined" record x &&
    joined "lo joined the discovery group and universe 7; --universe names others" record x --universe 7 --join lo
}
check "the program is told what was joined for it" joined_is_told
# A program that says how much stack it has.
printf '#!/usr/bin/env bash\necho "stack $(ulimit -S -s)"\n' >"$room/stacked"
chmod +x "$room/stacked"
stacked() { (ulimit -S -s "$1" && . "$tree/tools/run.sh" && run "$room/stacked" gateway) >"$room/out" 2>"$room/err" </dev/null; }
stack_is_raised() { stacked 256 && prints "stack 1024" && stacked 2048 && prints "stack 2048" && [ ! -s "$room/err" ]; }
check "a stack that is too small is raised, and no other" stack_is_raised
stack_is_told() { (ulimit -S -s 512; ulimit -H -s 512; . "$tree/tools/run.sh" && run "$room/stacked" gateway) >"$room/out" 2>"$room/err" </dev/null; prints "stack 512" && says "512 kB"; }
check "one that can't be raised is told" stack_is_told
# A program that says what it reads: a setup that is the number of its universe.
printf '#!/usr/bin/env bash\nif [ "$1" = groups ]; then echo "ip address add 239.255.0.$(<"$2")/32 dev lo"; else echo "$1 reads $(cat)"; fi\n' >"$room/reads"
chmod +x "$room/reads"
joins_by_input() { (sacn_join=$tree/release/$arch-linux/sacn-join; . "$tree/tools/run.sh" && run "$room/reads" gateway - --join lo) >"$room/out" 2>"$room/err" < <(echo 7); prints "gateway reads 7" && grep -qE '^joined [0-9]+ lo 239.255.250.214 239.255.0.7$' "$room/err" && nothing_left; }
check "a setup on standard input is read to join, and by the gateway" joins_by_input
joins_of_several() {
  echo 8 >"$room/eight" && echo 9 >"$room/nine" || return 1
  (sacn_join=$tree/release/$arch-linux/sacn-join; . "$tree/tools/run.sh" && run "$room/reads" gateway "$room/eight" --from 10.0.0.1 - --join lo --seconds 3 "$room/nine") >"$room/out" 2>"$room/err" < <(echo 7)
  prints "gateway reads 7" && grep -qE '^joined [0-9]+ lo 239.255.250.214 239.255.0.8 239.255.0.7 239.255.0.9$' "$room/err" && nothing_left
}
check "the groups of each of several setups are joined" joins_of_several
join_alone() { bare gateway --join "$tree/crates.txt" --listen 10.0.0.1; [ "$status" = 2 ] && says "hears no group"; }
check "--join with an address of its own is refused" join_alone
rm -rf "$tree/release" "$tree/crates/left/proofs" "$tree/crates/apart/src/more.rt"

library_is_proved() { anew; launch library /x && prints "installed in /x" && [ "$(tail -n 1 "$KIT_LOG")" = sacn_c ] && ! grep -qx -e left -e sacn "$KIT_LOG" && [ ! -e "$tree/crates/sacn_c/out/sacn" ]; }
check "the library is proved with what it stands on, and installed" library_is_proved

library_once() { launch library /x && prints "installed in /x" && [ ! -s "$KIT_LOG" ]; }
check "a library of this very tree is installed at once" library_once

library_wants_a_folder() { launch library; [ "$status" = 2 ] && says "library wants one word"; }
check "a library without a folder is refused" library_wants_a_folder

failing_crate() { anew; KIT_FAILS=left launch prove; refused "left was not proved" && says "fn left::wrong: not proved" && [ ! -e "$tree/crates/sacn/out/sacn" ]; }
check "a crate that isn't proved is named, with the end of its log" failing_crate
check "and nothing of the run is left" nothing_left

interrupted() {
  anew
  : >"$KIT_LOG"
  (PATH=$room/bin:$usual KIT_SLEEPS=30 exec setsid "$tree/sacn" prove >"$room/out" 2>"$room/err" </dev/null) &
  wait_for_line "$KIT_LOG" low 60
  kill -INT -- "-$!"
  wait_for_end $!
  status=$?
  [ "$status" = 130 ] && says "interrupted; what was proved is kept"
}
check "an interrupt ends the run" interrupted
check "and leaves no process and no room" nothing_left

goes_on() { anew; KIT_FAILS=right launch prove; [ -e "$tree/crates/low/out/proof" ] && launch prove && ! grep -qx low "$KIT_LOG" && [ -x "$tree/crates/sacn/out/sacn" ]; }
check "the next start goes on from what was proved" goes_on

two_at_once() {
  anew
  : >"$KIT_LOG"
  PATH=$room/bin:$usual KIT_SLEEPS=3 "$tree/sacn" prove >/dev/null 2>&1 </dev/null &
  wait_for_line "$KIT_LOG" low 60
  KIT_LOG=$KIT_LOG.own launch prove
  wait
  [ "$status" = 0 ] && says "another run proves this tree; waiting for it to end" && [ ! -s "$KIT_LOG.own" ] && [ -x "$tree/crates/sacn/out/sacn" ]
}
check "a second run waits for the first, says so, and takes what that built" two_at_once

desk_ends_well() {
  anew
  launch prove
  printf '#!/bin/sh\ntrap "" INT\nwhile read -r line; do echo "took $line"; done\necho "ended all"\nexit 7\n' >"$tree/crates/sacn/out/sacn"
  : >"$room/out"
  (PATH=$room/bin:$usual exec setsid "$tree/sacn" desk show.toml >"$room/out" 2>"$room/err" < <(exec 2>/dev/null; echo go; sleep 30)) &
  local launcher=$!
  wait_for_line "$room/out" "took go"
  kill -TERM "$launcher"
  wait_for_end "$launcher"
  status=$?
  [ "$status" = 7 ] && prints "took go" && prints "ended all"
}
check "TERM ends a desk's input, and the desk ends what it has lit" desk_ends_well

# A rlwrap that pretends: it says what it was given, and becomes what it wraps.
printf '#!/usr/bin/env bash\necho "wrapped: $*"\nwhile [ "$1" != bash ]; do shift; done\nexec "$@"\n' >"$room/bin/rlwrap"
chmod +x "$room/bin/rlwrap"
# desk_on_terminal TERM [COLUMNS]: runs a desk on a terminal, at which Ctrl-D is typed
desk_on_terminal() {
  local columns=${2-80}
  printf '#!/bin/sh\necho "typed at: $SACN_TYPED"\nread -r line\necho "ended all"\nexit 7\n' >"$tree/crates/sacn/out/sacn"
  : >"$room/out"
  (wait_for_line "$room/out" "typed at: "; printf '\004') | PATH=$room/bin:$usual TERM=$1 XDG_STATE_HOME=$room/state script -qec "stty rows 24 cols $columns; exec $tree/sacn desk show.toml" /dev/null >"$room/out" 2>"$room/err"
  status=$?
  [ "$status" = 7 ] && prints "typed at: terminal" && prints "ended all"
}
desk_is_wrapped() { desk_on_terminal xterm && grep -qF "wrapped: --no-warnings --ansi-colour-aware --command-name sacn-desk --history-filename $room/state/sacn/desk_history bash " "$room/out"; }
desk_history_is_not_kept() { rm -rf "$room/state" && : >"$room/state" && desk_on_terminal xterm && prints "--history-filename /dev/null --histsize -300 bash " && rm "$room/state"; }
dumb_is_not_wrapped() { desk_on_terminal dumb && ! prints "wrapped"; }
unsized_is_not_wrapped() { desk_on_terminal xterm 0 && ! prints "wrapped"; }
without_rlwrap() { mv "$room/bin/rlwrap" "$room/rlwrap" && hash -r && if PATH=$room/bin:$usual command -v rlwrap >/dev/null; then sed -i 's/-v rlwrap/-v no-rlwrap/' "$tree/tools/run.sh"; fi && desk_on_terminal xterm && ! prints "wrapped"; }
if command -v script >/dev/null; then
  check "a desk on a terminal runs under rlwrap, with a history of its own" desk_is_wrapped
  check "where that can't be kept, without" desk_history_is_not_kept
  check "on a dumb terminal it runs alone" dumb_is_not_wrapped
  check "so it does on one that says no size" unsized_is_not_wrapped
  check "so it does where there is no rlwrap" without_rlwrap
else skips "a desk on a terminal" "no script"; fi

# Runs a desk with no input until TERM, which comes so many seconds after its start, or once its input has ended; the program that pretends tells whether its input ended
# before, and after how long.
desk_without_input() { # SECONDS-OR-END WORD..
  local pause=$1
  shift
  rm -f "$room/told"
  : >"$room/out"
  printf '#!/usr/bin/env bash\ntrap "" INT\necho began\nread -r line\nif [ -e "%s" ]; then echo "ended when told"; else echo "ended early"; fi\n[ $SECONDS -ge 1 ] && echo "after a second"\nexit 7\n' "$room/told" >"$tree/crates/sacn/out/sacn"
  PATH=$room/bin:$usual setsid "$tree/sacn" desk show.toml "$@" >"$room/out" 2>"$room/err" </dev/null &
  local launcher=$!
  wait_for_line "$room/out" began
  if [ "$pause" = end ]; then wait_for_line "$room/out" ended; else sleep "$pause"; fi
  : >"$room/told"
  kill -TERM "$launcher" 2>/dev/null
  wait_for_end "$launcher"
  status=$?
  [ "$status" = 7 ]
}
script_needs_no_input() { desk_without_input 1 --script s.txt --stay && prints "ended when told" && desk_without_input 1 --script=s.txt && prints "ended when told"; }
check "a desk with a script and no input goes on until it is told to end" script_needs_no_input
early_end_counts() { desk_without_input 0 --script s.txt && prints "ended when told" && prints "after a second"; }
check "what ends a desk in its first second isn't lost" early_end_counts
no_input_is_its_end() { desk_without_input end && prints "ended early"; }
check "a desk without a script and without input ends at once" no_input_is_its_end

# The processes of a session.
has_left() { [ -z "$(session "$1")" ]; }
session() { sed -n "s/^\([0-9]*\) .*) [A-Y] [0-9]* [0-9]* $1 .*/\1/p" /proc/[0-9]*/stat 2>/dev/null; }
# Kills the launcher of a program outright, which has its input from a file or else from a pipe that stays: the program's input ends, and
# nothing of the launcher's is left.
killed_outright() { # FILE-OR-NONE WORD..
  local input=$1 launcher orders verdict
  shift
  rm -f "$room/told"
  # (what ran before said that it began, too)
  : >"$room/out"
  printf '#!/usr/bin/env bash\ntrap "" INT\necho began\nwhile read -r line; do echo "took $line"; done\nif [ -e "%s" ]; then echo "ended all"; else echo "ended early"; fi\n' "$room/told" >"$tree/crates/sacn/out/sacn"
  mkfifo "$room/orders"
  exec {orders}<>"$room/orders"
  rm "$room/orders"
  PATH=$room/bin:$usual setsid "$tree/sacn" "$@" >"$room/out" 2>"$room/err" <"${input:-/proc/self/fd/$orders}" &
  launcher=$!
  wait_for_line "$room/out" began
  : >"$room/told"
  kill -KILL "$launcher"
  wait "$launcher" 2>/dev/null
  status=$?
  wait_for_line "$room/out" ended
  wait_until has_left "$launcher"
  prints "ended all" && [ -z "$(session "$launcher")" ]
  verdict=$?
  exec {orders}<&-
  kill $(session "$launcher") 2>/dev/null
  return "$verdict"
}
check "a desk whose launcher is killed comes to the end of its input, though another holds that" killed_outright "" desk show.toml
check "so does a desk with a script and no input" killed_outright /dev/null desk show.toml --script s.txt --stay
check "so does a watch" killed_outright "" watch
check "so does a recording" killed_outright "" record night.pcapng

full_disk() {
  anew
  launch prove
  : >"$KIT_LOG"
  echo "//! more" >>"$tree/crates/low/src/lib.rt"
  head -c 200000 /dev/zero >>"$tree/crates/low/src/lib.rt"
  TMPDIR=$room/small launch prove
  [ "$status" = 1 ] && says "No space left on device"
}
mkdir "$room/small"
if mount -t tmpfs -o size=64k none "$room/small" 2>/dev/null; then
  check "no room on the disk is said" full_disk
  umount "$room/small"
else
  skips "no room on the disk" "this machine lets no small disk be made"
fi

every_command_is_placed() {
  local words stage name
  words=$("$top/crates/sacn/out/sacn" --help 2>/dev/null | sed -n '/^Commands:/,/^$/s/^  \([a-z]*\) .*/\1/p')
  stage=$(sed -n 's/^stage="\(.*\)"$/\1/p' "$top/sacn")
  for name in $words; do
    case " $stage decode sim groups explain audit check manual completion " in *" $name "*) ;; *) echo "# $name"; return 1 ;; esac
  done
  [ -n "$words" ]
}
status=0
if [ -x "$top/crates/sacn/out/sacn" ]; then check "each command of the program is known to light a stage or not to" every_command_is_placed; else skips "each command is placed" "the program isn't built"; fi

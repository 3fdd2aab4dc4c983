#!/usr/bin/env bash
# Runs the built program's promised commands, one datagram on standard input, decode, sim, console and node, and compares status, standard output and
# standard error with what is written here by hand. Prints 'ok NAME', 'not ok NAME: why' or 'skipped NAME: why' for each run, as ./test counts them.
set -u
# shellcheck source=tests/lib.sh
. "$(dirname "$(readlink -f "$0")")/lib.sh"
need sacn

# octets DIGITS..: the octets of hexadecimal digits, blanks anywhere between them
octets() {
  local digits
  digits=$(tr -cd '[:xdigit:]' <<<"$*")
  # shellcheck disable=SC2059
  printf "$(sed 's/../\\x&/g' <<<"$digits")"
}

# said STATUS OUTPUT ERRORS NAME: the last run ended so; OUTPUT and ERRORS are texts
said() {
  local status=$1 output=$2 errors=$3 name=$4
  [ "$ran" = "$status" ] && cmp -s <(printf %s "$output") out && cmp -s <(printf %s "$errors") err
  verdict "$name" $? "status $ran, it prints '$(head -c 200 out)' and says '$(head -c 200 err)'"
}

# run INPUT [WORD..]: a run on this file; its outputs are in out and err, its status in ran
run() {
  local input=$1
  shift
  ran=0
  "$sacn" "$@" <"$input" >out 2>err || ran=$?
}

# refusal FILE CAUSE: what is said of a file that is refused: the cause alone, and behind it the file's name
refusal() { printf 'refused %s\nsacn: %s: refused %s\n' "$2" "$1" "$2"; }

# explains NAME [WORD..]: bad words have status 2, an explanation, and no output
explains() {
  local name=$1
  shift
  run /dev/null "$@"
  [ "$ran" = 2 ] && [ ! -s out ] && [ -s err ]
  verdict "$name" $? "status $ran"
}

# slots COUNT DIGITS: so many slots at one level, as a frame prints them
slots() { printf "%$1s" "" | sed "s/ /$2/g"; }

# ---- One datagram on standard input.
cid=00010203-0405-0607-0809-0a0b0c0d0e0f
front="0010 0000 4153432d45312e3137000000"
desk="4465736b $(slots 60 00)"
digits="$front
706e 00000004 000102030405060708090A0B0C0D0E0F
7058 00000002
$desk
64 0000 00 00 0001"$'\r'"
700b 02"$'\t'"a1 0000 0001 0001 0 0"
data="data
cid $cid
name Desk
priority 100
number 0
preview no
terminated no
universe 1
group 239.255.0.1
start 0
slots 0
frame 00$(slots 512 00)
"
printf %s "$digits" >digits
run digits
said 0 "$data" "" "digits on standard input, with blanks of every kind between them"
while IFS='|' read -r name text refusal; do
  printf "$text" >input
  run input
  said 3 "" "$refusal"$'\n' "$name"
done <<'ROWS'
no digits|%s|refused TooShort
blanks alone| \t\r\n|refused TooShort
an odd number of digits|001|refused Hex
a letter that is no digit|0g|refused Hex
a postamble that isn't none|0010 0001|refused Postamble
ROWS
slots 1048576 x >input
run input
said 3 "" "refused Hex"$'\n' "1048576 octets on standard input are read"
slots 1048577 x >input
run input
said 3 "" "refused TooLarge"$'\n' "one octet more isn't"
explains "a command that isn't" read
explains "decode without a file" decode
explains "an option before any command" --turns
explains "help without its dashes" help
for word in --help -h; do
  run /dev/null $word
  if [ "$ran" = 0 ] && [ "$(head -c 13 out)" = "Streaming ACN" ] && [ ! -s err ]; then echo "ok commands: $word"; else echo "not ok commands: $word: status $ran"; fi
done

# ---- Devices that fail: a folder can't be read, and /dev/full takes nothing.
ran=0
"$sacn" </ >out 2>err || ran=$?
said 4 "" "device read"$'\n' "standard input that fails"
# full INPUT [WORD..]: a run whose standard output takes nothing
full() {
  local input=$1
  shift
  ran=0
  : >out
  "$sacn" "$@" <"$input" >/dev/full 2>err || ran=$?
}
if [ -c /dev/full ]; then
  full digits
  said 4 "" "device write"$'\n' "standard output that fails"
  full /dev/null
  said 3 "" "refused TooShort"$'\n' "a refusal where nothing was to be written"
else
  echo "skipped commands: standard output that fails: there is no /dev/full"
fi

# ---- Files of datagrams.
octets "$digits" >data
octets "$front 7021 00000008 000102030405060708090a0b0c0d0e0f 700b 00000001 0000000000" >sync
octets "$front 706a 00000008 000102030405060708090a0b0c0d0e0f 7054 00000002 $desk 00000000 700a 00000001 00 00 0001" >list
printf '\0\20' >short
run /dev/null decode sync data list
said 0 "sync
${data}page
cid $cid
name Desk
page 0
last 0
universes 1
known 1
" "" "files are decoded in their order"
run /dev/null decode sync short sync
said 3 "sync"$'\n' "$(refusal short TooShort)"$'\n' "what stands before a refused file is printed"
run /dev/null decode sync absent/file
said 4 "" "device read"$'\n'"sacn: absent/file: device read"$'\n' "all files are read before any is printed"
head -c 1048577 /dev/zero >large
run /dev/null decode large absent/file
said 3 "" "$(refusal large TooLarge)"$'\n' "a file has a limit, and the first that is over it is refused"

# ---- `-` is standard input, where a word is a file that is read.
run data decode -
said 0 "$data" "" "a datagram's octets on standard input"
run list decode sync - data
said 0 "sync
page
cid $cid
name Desk
page 0
last 0
universes 1
known 1
$data" "" "standard input stands among files in its place"
run short decode sync -
said 3 "sync"$'\n' "$(refusal - TooShort)"$'\n' "standard input that is refused is named"
run sync decode ./-
said 4 "" "device read"$'\n'"sacn: ./-: device read"$'\n' "a file of that name is another"
cp data ./-
run sync decode ./-
said 0 "$data" "" "and is read"
rm ./-

# ---- Worlds: one console of universe 1, whose cue takes channel 1 on slot 1 to full at once, and one node.
world="version = 1
[[console]]
[console.show]
version = 1
cid = \"$cid\"
name = \"Desk\"
universes = [1]
[[console.show.cue]]
number = 1
fade = 0
levels = [[1, 65535]]
[[console.show.patch]]
channel = 1
universe = 1
slot = 1
[[node]]
[node.setup]
version = 1
[[node.setup.port]]
number = 1
universe = 1
"
schedule="look 0 1 0
order 0 0 go
poll 0 0
deliver 0 0 1000
look 0 1 3499
look 0 1 900
look 0 1 3500
look 0 2 3500
"
lines="0 1 0 dark
0 1 3499 1@255
0 1 900 1@255
0 1 3500 dark
0 2 3500 noport
"
# simulates NAME WORLD SCHEDULE STATUS LINES REFUSAL
simulates() {
  printf %s "$2" >world
  printf %s "$3" >schedule
  run /dev/null sim world schedule
  said "$4" "$5" "$6" "$1"
}
simulates "looks are printed" "$world" "$schedule" 0 "$lines" ""
simulates "a refused event ends the run" "$world" "${schedule}deliver 5 0 3500
look 0 1 3500
" 3 "$lines" "$(refusal schedule "step 8 NoDatagram")"$'\n'
simulates "noise expires what a node holds" "$world" "look 0 1 0
order 0 0 go
poll 0 0
deliver 0 0 1000
look 0 1 3499
noise 0 3500 -
look 0 1 900
look 0 1 3500
look 0 2 3500
" 0 "0 1 0 dark
0 1 3499 1@255
0 1 900 dark
0 1 3500 dark
0 2 3500 noport
" ""
simulates "a node that restarts holds nothing" "$world" "order 0 0 go
poll 0 0
deliver 0 0 1000
look 0 1 1000
restart-node 0
look 0 1 900
" 0 "0 1 1000 1@255
0 1 900 dark
" ""
simulates "a level is the nearest of 256" "$world" "order 0 0 set 1 32768
poll 0 0
deliver 0 0 0
look 0 1 0
" 0 "0 1 0 1@128"$'\n' ""
while IFS='|' read -r name text script file refusal; do
  simulates "$name" "$(printf "$text")" "$(printf "$script")" 3 "" "$(refusal "$file" "$refusal")"$'\n'
done <<'ROWS'
a world that isn't TOML|version = |%s|world|Toml
a world of another version|version = 2\n|%s|world|Version
a console without a show|version = 1\n[[console]]\n|%s|world|MissingKey
a key that no world has|version = 1\ncolour = 1\n|%s|world|UnknownKey
a console's show is refused before the schedule|version = 1\n[[console]]\n[console.show]\nversion = 3\n|jump\n|world|Console 0 Version
a node's setup is refused by its number|version = 1\n[[node]]\n[node.setup]\nversion = 1\n[[node]]\n[node.setup]\n|%s|world|Node 1 MissingKey
a moment's number that is none|version = 1\n|look 0 300 0\n|schedule|line 1 Number
digits that are none|version = 1\n|\nnoise 0 5 zz\n|schedule|line 2 Hex
a console that isn't there|version = 1\n|# nothing\npoll 0 0\n|schedule|step 0 NoConsole
ROWS
simulates "two consoles of one CID" "version = 1
[[console]]
[console.show]
version = 1
cid = \"$cid\"
name = \"Desk\"
universes = [1]
[[console]]
[console.show]
version = 1
cid = \"${cid^^}\"
name = \"Twin\"
universes = [2]
" "" 3 "" "$(refusal world SameCid)"$'\n'
printf %s "$world" >world
printf %s "$schedule" >schedule
run world sim - schedule
said 0 "$lines" "" "a world on standard input"
run schedule sim world -
said 0 "$lines" "" "a schedule there"
printf 'poll 9 0\n' >faulty
run faulty sim world -
said 3 "" "$(refusal - "step 0 NoConsole")"$'\n' "one that is refused is named"
if [ -c /dev/full ]; then
  printf %s "$world" >world
  printf 'look 0 1 0\npoll 9 0\n' >schedule
  full /dev/null sim world schedule
  said 4 "" "device write"$'\n' "an output that fails is named where a line was written"
  printf 'poll 9 0\nlook 0 1 0\n' >schedule
  full /dev/null sim world schedule
  said 3 "" "$(refusal schedule "step 0 NoConsole")"$'\n' "and not where none was"
fi

# ---- Consoles and nodes on 127.0.0.1. Nobody listens where the console sends.
port=$(free_udp_port)
show="version = 1
cid = \"$cid\"
name = \"Desk\"
universes = [1]
send_to = [$port]
[[cue]]
number = 1
fade = 0
levels = [[1, 65535]]
[[patch]]
channel = 1
universe = 1
slot = 1
"
printf %s "$show" >show
printf '0 go\n0 end 9\n' >script
run /dev/null console show script --turns 1 --first 255
said 0 "sent 1 failed 0 refused 1"$'\n' "" "a console counts what it sent"
while IFS='|' read -r name script refusal; do
  printf "$script" >script
  run /dev/null console show script --turns 1
  said 3 "" "$(refusal script "$refusal")"$'\n' "$name"
done <<'ROWS'
an order that isn't|0 jump\n|line 1 UnknownWord
an order with a word too few|\n0 set 1\n|line 2 WordCount
a moment that is no number|x go\n|line 1 Number
a script that is no text|\xff\n|NotText
ROWS
printf 'version = 3\n' >other
printf 'x go\n' >script
run /dev/null console other script --turns 1
said 3 "" "$(refusal other Version)"$'\n' "a show is refused before its script"
run /dev/null console other absent/file --turns 1
said 4 "" "device read"$'\n'"sacn: absent/file: device read"$'\n' "files are read before their texts"
run show console - script --turns 1
said 3 "" "$(refusal script "line 1 Number")"$'\n' "a show on standard input"
printf '0 go\n0 end 9\n' >script
run script console show - --turns 1 --first 255
said 0 "sent 1 failed 0 refused 1"$'\n' "" "a script there"
printf 'version = 1\ncolour = 1\n' >setup
run /dev/null node setup --turns 1
said 3 "" "$(refusal setup UnknownKey)"$'\n' "a key that no setup has"
run setup node - --turns 1
said 3 "" "$(refusal - UnknownKey)"$'\n' "a setup on standard input that is refused"
printf 'version = 1\nudp_port = %s\n[[port]]\nnumber = 1\nuniverse = 1\n' "$port" >setup
# What a node prints has the moment of its clock, which may have gone on by its first turn.
at_0() { sed -i -E 's/^1 [0-9]{1,5} /1 0 /' out; }
run /dev/null node setup --turns 3
at_0
said 0 "1 0 $(slots 513 00)"$'\n' "" "a node prints its first frame"
run setup node - --turns 3
at_0
said 0 "1 0 $(slots 513 00)"$'\n' "" "a node of a setup on standard input too"
ran=0
: >out
if [ -c /dev/full ]; then
  full /dev/null node setup --turns 1000000000
  said 4 "" "device write"$'\n' "a node ends where its lines can't be written"
fi
"$sacn" node setup --turns 1000000000 >held 2>/dev/null &
holder=$!
wait_until test -s held
run /dev/null node setup --turns 1
said 4 "" "device socket"$'\n' "a socket that is taken"
kill "$holder"
wait "$holder" 2>/dev/null
explains "a node without its turns" node x
explains "no turns" node x --turns 0
explains "a turn too many" node x --turns 1000000001
explains "turns with a sign" node x --turns +5
explains "turns twice" node x --turns 5 --turns 5
explains "a first number for a node" node x --turns 5 --first 5
explains "a console without a script" console x --turns 5
explains "a first number over 255" console x y --turns 5 --first 256
explains "a first number with a sign" console x y --turns 5 --first +6

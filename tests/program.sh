#!/usr/bin/env bash
# Runs the built program on files of the greatest length and of one octet more, on words and files that are none, and on faulty texts where the
# socket is taken. Prints 'ok NAME', 'not ok NAME: why' or 'skipped NAME: why' for each run, as ./test counts them.
set -u
# shellcheck source=tests/lib.sh
. "$(dirname "$(readlink -f "$0")")/lib.sh"
need sacn
examples=$top/examples
MOST=1048576

# ends NAME WANTED-STATUS WANTED-ERRORS WANTED-OUTPUT INPUT [WORD..]: a run ends so
ends() {
  local name=$1 wanted=$2 said=$3 output=$4 input=$5 status=0
  shift 5
  "$sacn" "$@" <"$input" >"$room/out" 2>"$room/err" || status=$?
  [ "$status" = "$wanted" ] && [ "$(head -n 1 "$room/err")" = "$said" ] && cmp -s "$output" "$room/out"
  verdict "$name" $? "status $status, '$(head -n 1 "$room/err")', $(cmp "$output" "$room/out" 2>&1)"
}

# padded FILE OCTET: the file, and the octet again and again up to the greatest length; and the same with one more
padded() {
  { cat "$1"; head -c "$((MOST - $(stat -c %s "$1")))" /dev/zero | tr '\0' "$2"; } >"$room/most"
  { cat "$room/most"; printf %s "$2"; } >"$room/over"
}

# up_to NAME FILE OCTET INPUT-OR-WORDS..: the words, where MOST and OVER stand for the two files, end as with the file, and are refused
up_to() {
  local name=$1 file=$2 octet=$3
  shift 3
  padded "$file" "$octet"
  "$sacn" "${@//FILE/$file}" </dev/null >"$room/plain" 2>/dev/null
  ends "$name of $MOST octets" 0 "" "$room/plain" /dev/null "${@//FILE/$room/most}"
  ends "$name of one octet more" 3 "refused TooLarge" /dev/null /dev/null "${@//FILE/$room/over}"
}

"$sacn" <"$examples/desk.hex" >"$room/desk" 2>/dev/null
padded "$examples/desk.hex" ' '
ends "standard input of $MOST octets" 0 "" "$room/desk" "$room/most"
ends "standard input of one octet more" 3 "refused TooLarge" /dev/null "$room/over"
up_to "a datagram's file" "$examples/levels.sacn" x decode FILE
up_to "a world" "$examples/world.toml" $'\n' sim FILE "$examples/schedule.txt"
up_to "a schedule" "$examples/schedule.txt" $'\n' sim "$examples/world.toml" FILE
up_to "a show" "$examples/show.toml" $'\n' console FILE "$examples/script.txt" --turns 1
up_to "a script" "$examples/script.txt" $'\n' console "$examples/show.toml" FILE --turns 1

ends "a word that is no text" 2 "error: a word of the command line is no text" /dev/null /dev/null decode $'\xff'
ends "a folder as a file" 4 "device read" /dev/null /dev/null decode "$examples"
ends "a folder as a world" 4 "device read" /dev/null /dev/null sim "$examples" "$examples/schedule.txt"

# The commands that run a rig name the file that they refuse.
"$sacn" groups "$examples/node.toml" --device eth0 >"$room/plain" 2>/dev/null
padded "$examples/node.toml" $'\n'
ends "groups of a setup of $MOST octets" 0 "" "$room/plain" /dev/null groups "$room/most" --device eth0
ends "groups of a setup of one octet more" 3 "refused $room/over TooLarge" /dev/null /dev/null groups "$room/over" --device eth0
ends "a gateway's setup of one octet more" 3 "refused $room/over TooLarge" /dev/null /dev/null gateway "$room/over"
ends "a desk's show of one octet more" 3 "refused $room/over TooLarge" /dev/null /dev/null desk "$room/over"
ends "a desk's script of one octet more" 3 "refused $room/over TooLarge" /dev/null /dev/null desk "$examples/show.toml" --script "$room/over"
ends "a folder as a gateway's setup" 4 "device read $examples" /dev/null /dev/null gateway "$examples"
ends "a folder as a desk's show" 4 "device read $examples" /dev/null /dev/null desk "$examples"
ends "an address that is no text" 2 "error: a word of the command line is no text" /dev/null /dev/null gateway "$room/most" --from $'\xff'

# A show has at most eight ports to send to.
for count in 8 9; do
  ports=
  for _ in $(seq "$count"); do ports+=${ports:+, }$(free_udp_port); done
  sed "s/^universes.*/&\nsend_to = [$ports]/" "$examples/show.toml" >"$room/ports$count.toml"
done
echo "sent 1 failed 0 refused 0" >"$room/one"
ends "a show of eight ports to send to" 0 "" "$room/one" /dev/null console "$room/ports8.toml" /dev/null --turns 1
ends "a show of nine ports to send to" 3 "refused KeyValue" /dev/null /dev/null console "$room/ports9.toml" /dev/null --turns 1

# A setup with a port of its own. What a node prints has the moment of its clock, so only the status and the refusal are looked at.
port=$(free_udp_port)
{ printf 'udp_port = %s\n' "$port"; cat "$examples/node.toml"; } >"$room/node.toml"
padded "$room/node.toml" $'\n'
if "$sacn" node "$room/most" --turns 1 >"$room/out" 2>/dev/null && [ "$(cut -d ' ' -f 1 "$room/out")" = 1 ]; then
  verdict "a setup of $MOST octets" 0
  ends "a setup of one octet more" 3 "refused TooLarge" /dev/null /dev/null node "$room/over" --turns 1
else
  verdict "a setup of $MOST octets" 1 "'$(head -c 80 "$room/out")'"
fi

# Where another node has taken the port, a faulty text is refused as it is elsewhere, and a good one meets the socket.
"$sacn" node "$room/node.toml" --turns 1000000000 >"$room/held" 2>/dev/null &
holder=$!
wait_until test -s "$room/held"
{ printf 'udp_port = %s\nodd = 1\n' "$port"; cat "$examples/node.toml"; } >"$room/odd.toml"
ends "a good setup meets a taken socket" 4 "device socket" /dev/null /dev/null node "$room/node.toml" --turns 1
ends "a faulty setup is refused before the socket" 3 "refused UnknownKey" /dev/null /dev/null node "$room/odd.toml" --turns 1
kill "$holder"
wait "$holder" 2>/dev/null

# Every command runs in a stack of 1024 kB, of which the environment takes 200 here, while a desk sends and a browser asks.
large=$(head -c 100000 /dev/zero | tr '\0' x)
port=$(free_udp_port)
page=$(free_tcp_port)
sed "1a udp_port = $port" "$examples/node.toml" >"$room/node.toml"
sed "1a send_to = [$port]" "$examples/show.toml" >"$room/show.toml"
# small INPUT WORD..: a run there ends well
small() {
  local input=$1 status=0
  shift
  (ulimit -S -s 1024 && LARGE=$large LARGER=$large exec timeout 60 "$sacn" "$@") <"$input" >"$room/out" 2>"$room/err" || status=$?
  verdict "a small stack: ${1:-no command}" "$status" "$*: status $status, $(head -n 1 "$room/err")"
}
"$sacn" desk "$room/show.toml" --script "$examples/script.txt" --stay </dev/null >"$room/held" 2>&1 &
holder=$!
small "$examples/desk.hex"
small /dev/null decode "$examples/levels.sacn" "$examples/universes.sacn"
small /dev/null sim "$examples/world.toml" "$examples/schedule.txt"
small /dev/null console "$room/show.toml" "$examples/script.txt" --turns 1
small /dev/null node "$room/node.toml" --turns 1
small /dev/null gateway "$room/node.toml" --seconds 1
small /dev/null desk "$room/show.toml" --script "$examples/script.txt"
small /dev/null watch --port "$port" --seconds 1
# A browser asks once, as soon as it is answered; it is waited for, since it may be at work still when the watch has ended.
reaches_page() { { exec 3<>"/dev/tcp/127.0.0.1/$page"; } 2>/dev/null; }
(wait_until reaches_page && printf 'GET /state HTTP/1.1\r\nHost: 127.0.0.1:%s\r\n\r\n' "$page" >&3 && head -c 15 <&3 >"$room/asked") &
browser=$!
small /dev/null watch --port "$port" --seconds 5 --page "$page"
wait "$browser"
[ "$(cat "$room/asked")" = "HTTP/1.1 200 OK" ]
verdict "a small stack: a page is answered" $? "$(cat "$room/asked")"
small /dev/null explain "$examples/ola.pcap"
small /dev/null explain "$examples/ola.pcap" --setup "$room/node.toml" --json
small /dev/null explain "$examples/ola.pcap" --page "$page" --seconds 1
small /dev/null check "$room/show.toml" "$room/node.toml" "$examples/world.toml"
small /dev/null groups "$room/node.toml" --device lo
small /dev/null manual
small /dev/null completion bash
kill "$holder"
wait "$holder" 2>/dev/null

# A pipe that nobody reads any more ends what tells people something quietly, and the others as a device that fails.
# unread STATUS ERRORS WORD..: a run into such a pipe
unread() {
  local wanted=$1 said=$2 status=0 gone
  shift 2
  (
    trap '' PIPE
    exec {gone}> >(:)
    while { echo >&"$gone"; } 2>/dev/null; do sleep 0.02; done
    trap - PIPE
    exec timeout 60 "$sacn" "$@" >&"$gone" {gone}>&-
  ) </dev/null 2>"$room/err" || status=$?
  [ "$status" = "$wanted" ] && [ "$(cat "$room/err")" = "$said" ]
  verdict "a pipe that nobody reads: $1" $? "$*: status $status, $(head -n 1 "$room/err")"
}
unread 0 "" explain "$examples/ola.pcap"
unread 0 "" explain "$examples/ola.pcap" --each
unread 0 "" explain "$examples/ola.pcap" --json --setup "$examples/node.toml"
unread 0 "" check "$examples/show.toml" "$examples/node.toml"
unread 0 "hears 127.0.0.1:$port" watch --listen 127.0.0.1 --port "$port" --seconds 1
unread 4 "device write" decode "$examples/levels.sacn"
unread 4 "device write" manual
unread 4 "device write" groups "$room/node.toml" --device lo
unread 4 "device write" console "$room/show.toml" "$examples/script.txt" --turns 1

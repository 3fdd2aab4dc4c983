#!/usr/bin/env bash
# Starts watches and gateways beside a gateway that a desk lights, on loopback: none takes its packets away.
# Prints a line 'ok NAME' or 'not ok NAME: why' for each, and 'N passed, M failed' at the end. It takes the built program: crates/sacn/out/sacn, or
# the path in SACN.
set -u
# shellcheck source=tests/lib.sh
. "$(dirname "$(readlink -f "$0")")/lib.sh"
[ -x "$sacn" ] || { echo "not ok beside: the program is built: $sacn isn't there"; exit 1; }
port=$(free_udp_port)
free=$(free_udp_port)
joined=$(free_udp_port)
page=$(free_tcp_port)

printf 'version = 1\nudp_port = %s\n[[port]]\nnumber = 1\nuniverse = 1\n' "$port" >node.toml
printf 'version = 1\ncid = "00010203-0405-0607-0809-0a0b0c0d0e0f"\nname = "Desk"\nuniverses = [1]\nsend_to = [%s]\n[[patch]]\nchannel = 1\nuniverse = 1\nslot = 1\n' "$port" >show.toml
"$sacn" gateway node.toml --seconds 600 >frames 2>said &
wait_for_line said '^hears'
mkfifo orders
"$sacn" desk show.toml <orders >answers 2>desk &
exec 3>orders
echo "1 at full" >&3
wait_for_line frames ' 00ff'
[ "$(tail -n 1 frames | cut -d ' ' -f 3 | cut -c 1-4)" = 00ff ]
verdict "the gateway is lit" $? "$(tail -n 1 frames | cut -c 1-40)"

others=0
for try in $(seq 20); do
  form=--plain
  [ $((try % 2)) = 0 ] && form="--page 127.0.0.1:$page"
  # (unquoted: an option, or an option and its value)
  # shellcheck disable=SC2086
  "$sacn" watch --port "$port" $form --seconds 3 </dev/zero >told 2>refused
  status=$?
  { [ $status = 4 ] && [ ! -s told ] && grep -q "^port $port has a receiver on this machine: .* --page PORT or --watch; or add --beside here" refused; } || others=$((others + 1))
done
verdict "each of twenty watches ends with status 4 and says why" "$others" "$others of them: status $status, $(head -n 1 refused)"

others=0
for try in $(seq 20); do
  form=
  [ $((try % 4)) = 0 ] && form="--listen 127.0.0.1"
  [ $((try % 4)) = 1 ] && form="--page 127.0.0.1:$page"
  # shellcheck disable=SC2086
  "$sacn" gateway node.toml $form --seconds 3 </dev/null >told 2>refused
  status=$?
  { [ $status = 4 ] && [ ! -s told ] && [ "$(wc -l <refused)" = 1 ] && grep -q "^port $port has a receiver on this machine: .* this gateway would take it away\. .*; or add --beside here" refused; } || others=$((others + 1))
done
verdict "each of twenty further gateways ends with status 4 and says why" "$others" "$others of them: status $status, $(head -n 1 refused)"

# (2500 ms after a packet went elsewhere its source would be lost)
"$sacn" watch --port "$free" --plain --seconds 4 </dev/zero >told 2>hears
verdict "a watch of a free port hears" $? "$(head -n 1 hears)"
! grep -q lost said && [ "$(tail -n 1 frames | cut -d ' ' -f 3 | cut -c 1-4)" = 00ff ]
verdict "the gateway is lit as before" $? "$(tail -n 2 said)"

"$sacn" watch --port "$port" --beside --plain --seconds 1 </dev/zero >told 2>hears && grep -q "^hears 0.0.0.0:$port" hears
verdict "with --beside a watch shares the port" $? "$(head -n 1 hears)"
"$sacn" gateway node.toml --beside --seconds 1 >told 2>hears && grep -q "^hears 0.0.0.0:$port" hears
verdict "with --beside a gateway shares the port" $? "$(head -n 1 hears)"

# (what joins groups for a watch hears lists at that port, which takes nothing of what is sent to this machine)
join=$top/release/$(uname -m)-linux/sacn-join
if [ -x "$join" ]; then
  printf '. "%s/tools/run.sh"\nsacn_join=%s\nrun "%s" watch "$@"\n' "$top" "$join" "$sacn" >launcher
  bash launcher --port "$joined" --plain --join lo --seconds 1 </dev/zero >told 2>hears && grep -q "^hears 0.0.0.0:$joined" hears
  verdict "a watch that joins groups hears" $? "$(head -n 1 hears)"
  bash launcher --port "$port" --plain --join lo --seconds 1 </dev/zero >told 2>refused
  [ $? = 4 ] && grep -q "^sacn: port $port has a receiver on this machine: " refused
  verdict "beside a gateway it is refused" $? "$(head -n 1 refused)"
  bash launcher --port "$port" --plain --join lo --beside --seconds 1 </dev/zero >told 2>hears && grep -q "^hears 0.0.0.0:$port" hears
  verdict "with --beside it hears there" $? "$(head -n 1 hears)"
else
  skips "a watch that joins groups" "there is no sacn-join for this processor"
fi

echo "$passed passed, $failed failed"
[ "$failed" = 0 ]

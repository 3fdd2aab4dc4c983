#!/usr/bin/env bash
# The release: that the program which the gate built is the released one, octet by octet; the one for aarch64 beside it, under qemu; the helper that joins
# groups, in network namespaces; packages; and how long a new user waits for the first light. Prints 'ok NAME', 'not ok NAME: why' or 'skipped NAME: why' for each.
set -u
# shellcheck source=tests/lib.sh
. "$(dirname "$(readlink -f "$0")")/lib.sh"
built=$sacn
release=$top/release
running=()
leave() {
  cleanup
  for it in near far; do ip netns del "sacn-$it-$$" 2>/dev/null; done
}
trap leave EXIT
ok() { verdict "$1" 0; }
fails() { verdict "$1" 1 "$2"; }
of_release() { [ ! -f "$release/RELEASE" ] || sed -n "s#^$1 ##p" "$release/RELEASE"; }
export PATH_WITHOUT_KIT=/usr/local/sbin:/usr/sbin:/usr/bin:/sbin:/bin

is_current=
if [ ! -f "$release/RELEASE" ]; then
  skips "the octets" "there is no release"
elif [ "$(of_release code)" != "$("$top/sacn" --code)" ]; then
  skips "the octets" "the release is of another tree: its code is $(of_release code)"
elif [ "$(of_release kit)" != "$(rt version 2>/dev/null)" ]; then
  is_current=1
  skips "the octets" "the release was made by $(of_release kit), and this machine has $(rt version 2>/dev/null)"
else
  is_current=1
  strip -s -o "$room/stripped" "$built" 2>/dev/null || : >"$room/stripped"
  if cmp "$room/stripped" "$release/x86_64-linux/sacn" >"$room/said" 2>&1; then ok "what the gate built is the released program, octet by octet"; else fails "the octets" "$(head -n 1 "$room/said")"; fi
  for name in {x86_64,aarch64}-linux/{sacn,sacn-join,libsacn.a,libsacn.so.1}; do
    if [ "$(sha256sum <"$release/$name" | cut -d ' ' -f 1)" = "$(of_release "$name")" ]; then ok "$name is what RELEASE says"; else fails "$name" "it isn't what RELEASE says"; fi
  done
fi

# ---- What the program for aarch64 asks of C.
if command -v cc >/dev/null; then
  cc -std=gnu11 -O2 -Wall -Wextra -Werror -o "$room/runtime" "$top/tests/c/runtime.c" && FIRST=value "$room/runtime" one "" three >"$room/said" && ok "each function of the C beside aarch64's program" || fails "runtime.c" "$(head -n 1 "$room/said")"
else
  skips "runtime.c" "this machine has no C compiler"
fi
arm=(qemu-aarch64 -L /usr/aarch64-linux-gnu)
has_arm=
if ! command -v qemu-aarch64 >/dev/null || [ ! -e /usr/aarch64-linux-gnu/lib/libc.so.6 ]; then
  skips "aarch64" "qemu-user or libc6-dev-arm64-cross isn't there"
else
  if command -v aarch64-linux-gnu-gcc >/dev/null; then
    aarch64-linux-gnu-gcc -std=gnu11 -O2 -Wall -Wextra -Werror -o "$room/runtime-arm" "$top/tests/c/runtime.c" && FIRST=value "${arm[@]}" "$room/runtime-arm" one "" three >"$room/said" && ok "and on aarch64" || fails "runtime.c on aarch64" "$(head -n 1 "$room/said")"
  fi
  if [ -n "$is_current" ] && [ -x "$built" ]; then has_arm=1; else skips "aarch64" "no release of this tree"; fi
fi

# ---- aarch64's program beside this one.
alike() { # NAME INPUT WORD..
  local name=$1 input=$2 status=0 other=0
  shift 2
  "$built" "$@" <"$input" >"$room/out" 2>"$room/err" || status=$?
  "${arm[@]}" "$release/aarch64-linux/sacn" "$@" <"$input" >"$room/out-arm" 2>"$room/err-arm" || other=$?
  # (a usage names the program by its path)
  sed -i "s#$release/aarch64-linux/sacn#$built#g" "$room/err-arm" "$room/out-arm"
  if [ "$status" = "$other" ] && cmp -s "$room/out" "$room/out-arm" && cmp -s "$room/err" "$room/err-arm"; then return 0; fi
  echo "# $name: status $status and $other"
  return 1
}
every_command_is_alike() {
  local count=0 it
  # (a console of more turns sends what has become due by its clock; in three it sends what is due at once)
  cd "$top/examples" || return 1
  alike "a datagram" desk.hex && alike "no datagram" /dev/null || return 1
  for it in "decode levels.sacn universes.sacn" "sim world.toml schedule.txt" "explain ola.pcap" "explain ola.pcap --each" "explain qlcplus.pcap --json" "explain ola.pcap --setup node.toml" "explain qlcplus.pcap --setup node.toml --json" \
    "explain show.toml" "check show.toml node.toml world.toml script.txt schedule.txt" "check desk.hex" "groups node.toml --device eth0" "groups show.toml --device eth0" "manual" "completion bash" "completion zsh" \
    "completion fish" "--help" "gateway --help" "decode nothere" "jump" "console show.toml script.txt --turns 3" "node show.toml --turns 1"; do
    # shellcheck disable=SC2086
    alike "$it" /dev/null $it || return 1
    count=$((count + 1))
  done
  echo "$count" >"$room/count"
}
setup() { printf 'version = 1\nudp_port = %s\n[[port]]\nnumber = 1\nuniverse = 1\n' "$1"; }
show() { printf 'version = 1\ncid = "00010203-0405-0607-0809-0a0b0c0d0e0f"\nname = "Desk"\nuniverses = [1]\nsend_to = [%s]\n[[cue]]\nnumber = 1\nfade = 0\nlevels = [[1, 65535]]\n[[patch]]\nchannel = 1\nuniverse = 1\nslot = 1\n' "$1"; }
arm_lights() {
  local port
  port=$(free_udp_port)
  setup "$port" >"$room/node.toml" && show "$port" >"$room/show.toml"
  : >"$room/said"
  "${arm[@]}" "$release/aarch64-linux/sacn" gateway "$room/node.toml" --seconds 20 >"$room/lines" 2>"$room/said" &
  running+=($!)
  wait_for_line "$room/said" '^hears' || return 1
  (echo go; wait_for_line "$room/lines" '^1 [0-9]+ 00ff') | "${arm[@]}" "$release/aarch64-linux/sacn" desk "$room/show.toml" >"$room/answers" 2>&1
  wait_for_line "$room/lines" '^1 [0-9]+ 00ff' && wait_for_line "$room/said" 'universe 1: ended$' && grep -q '^ok cue 1 ' "$room/answers"
}
arm_serves() {
  local page
  page=$(free_tcp_port)
  : >"$room/said"
  "${arm[@]}" "$release/aarch64-linux/sacn" watch --port "$(free_udp_port)" --page "$page" --seconds 20 </dev/zero >/dev/null 2>"$room/said" &
  running+=($!)
  wait_for_line "$room/said" '^page' || return 1
  exec 3<>"/dev/tcp/127.0.0.1/$page"
  printf 'GET / HTTP/1.1\r\nHost: 127.0.0.1:%s\r\nConnection: close\r\n\r\n' "$page" >&3
  timeout 20 head -c 4000 <&3 >"$room/page"
  exec 3>&-
  grep -q '^HTTP/1.1 200' "$room/page"
}
# The library for C: its calls by the archive, and the examples by the shared object.
arm_built() { # NAME FILE LIBRARY
  aarch64-linux-gnu-gcc -D_DEFAULT_SOURCE -std=c99 -O2 -Wall -Wextra -Werror -I"$top/include" -o "$room/$1" "$2" "$release/aarch64-linux/$3" 2>"$room/said"
}
arm_calls() { arm_built smoke-arm "$top/tests/c/library.c" libsacn.a && "${arm[@]}" "$room/smoke-arm" >"$room/said" 2>&1; }
arm_hears() {
  local port
  port=$(free_udp_port)
  show "$port" >"$room/show.toml"
  arm_built receive-arm "$top/examples/c/receive.c" libsacn.so.1 || return 1
  "${arm[@]}" -E LD_LIBRARY_PATH="$release/aarch64-linux" "$room/receive-arm" 1 20 "$port" 127.0.0.1 >"$room/lines" 2>"$room/said" &
  running+=($!)
  wait_until grep -q "$(printf ':%04X ' "$port")" /proc/net/udp || return 1
  (echo go; wait_for_line "$room/lines" '^1 [0-9]+ 00ff') | "$built" desk "$room/show.toml" >/dev/null 2>&1
  wait_for_line "$room/lines" '^1 [0-9]+ 00ff' && wait_for_line "$room/lines" '^1 [0-9]+ 0000'
}
arm_sends() {
  local port
  port=$(free_udp_port)
  setup "$port" >"$room/node.toml" && show "$port" >"$room/show.toml"
  arm_built send-arm "$top/examples/c/send.c" libsacn.so.1 || return 1
  "$built" gateway "$room/node.toml" --listen 127.0.0.1 --seconds 20 >"$room/lines" 2>"$room/told" </dev/null &
  running+=($!)
  wait_for_line "$room/told" '^hears' || return 1
  timeout 20 "${arm[@]}" -E LD_LIBRARY_PATH="$release/aarch64-linux" "$room/send-arm" "$room/show.toml" "$port" 500 >"$room/said" 2>&1 &&
    wait_for_line "$room/lines" '^1 [0-9]+ 00ff' && wait_for_line "$room/told" 'universe 1: ended$'
}
if [ -n "$has_arm" ]; then
  if (every_command_is_alike) >"$room/said"; then ok "aarch64's program ends as x86's in $(cat "$room/count") runs"; else fails "aarch64's program" "$(tail -n 1 "$room/said")"; fi
  if arm_lights; then ok "a gateway and a desk on aarch64"; else fails "a gateway and a desk on aarch64" "$(tail -n 1 "$room/said")"; fi
  if arm_serves; then ok "the page on aarch64"; else fails "the page on aarch64" "$(head -n 1 "$room/page")"; fi
  if ! command -v aarch64-linux-gnu-gcc >/dev/null; then
    skips "the library on aarch64" "there is no aarch64-linux-gnu-gcc"
  else
    if arm_calls; then ok "each call and each refusal of the library on aarch64"; else fails "the library on aarch64" "$(head -n 1 "$room/said")"; fi
    if arm_hears; then ok "receive.c on aarch64 hears a desk"; else fails "receive.c on aarch64" "$(head -n 1 "$room/said")"; fi
    if arm_sends; then ok "a gateway hears send.c on aarch64"; else fails "send.c on aarch64" "$(head -n 1 "$room/said")"; fi
  fi
fi

# ---- The first light, as a new user has it: from a clone, without a kit, and from a package.
seconds_until() { # FILE COMMAND..: how long until its first line, which is a frame
  local file=$1 start end
  shift
  # (before the start, so that what an earlier one wrote isn't taken for this one's)
  : >"$file"
  start=$(date +%s%N)
  # (the input of what is started ends with this script)
  PATH=$PATH_WITHOUT_KIT setsid "$@" >"$file" 2>"$room/said" </dev/null &
  running+=($!)
  # (looked for each 10 ms, since it is measured)
  for _ in $(seq 1000); do [ -s "$file" ] && break; sleep 0.01; done
  end=$(date +%s%N)
  kill "${running[-1]}" 2>/dev/null
  wait "${running[-1]}" 2>/dev/null
  unset 'running[-1]'
  echo $(((end - start) / 1000000))
}
# light NAME COMMAND..: the fastest of three tries counts, since the machine may be busy
light() {
  local name=$1 least=100000 took
  shift
  for _ in 1 2 3; do
    took=$(seconds_until "$room/lines" "$@")
    if [ "$took" -lt "$least" ]; then least=$took; fi
  done
  if grep -qE '^1 [0-9]+ 0000' "$room/lines" && [ "$least" -lt 5000 ]; then ok "first light $name: $least ms"; else fails "first light $name" "after $least ms: $(head -n 1 "$room/said")"; fi
}
if [ -z "$is_current" ]; then
  skips "first light" "no release of this tree"
else
  setup "$(free_udp_port)" >"$room/node.toml"
  mkdir "$room/clone"
  (cd "$top" && cp -r sacn crates.txt HANDLES tools release examples docs "$room/clone/" && find crates -path '*/out' -prune -o -name '*.rt' -print0 | xargs -0 cp --parents -t "$room/clone")
  # (where nothing can be noted the launcher says each time which program runs)
  : >"$room/none"
  XDG_STATE_HOME=$room/none light "from a clone" "$room/clone/sacn" gateway "$room/node.toml"
  if grep -q 'proved and built elsewhere, from this very tree' "$room/said"; then ok "and it says where it was proved"; else fails "where it was proved" "$(head -n 1 "$room/said")"; fi
fi

# ---- Packages.
# documents FOLDER: what of the documents there leads nowhere: links, examples, commands of a clone
documents() {
  local file folder target
  for file in "$1"/README.md "$1"/CHANGELOG.md "$1"/docs/{RIG,FILES,PROTOCOL,AUDIT,THEOREMS}.md; do
    [ -s "$file" ] || echo "$file isn't there"
    folder=$(dirname "$file")
    grep -oE '\]\([^)]*\)' "$file" | sed -E 's/^\]\(//; s/\)$//; s/#.*//' | while IFS= read -r target; do
      case $target in '' | http*) ;; *) [ -e "$folder/$target" ] || echo "$file: $target" ;; esac
    done
    # (what is told of earlier releases is as it was)
    [ "${file##*/}" != CHANGELOG.md ] || continue
    grep -oE '[^ \`(|]*examples/[a-z0-9.]+' "$file" | while IFS= read -r target; do [ -e "$room/amd64$target" ] || echo "$file: $target"; done
    grep -nE '\./sacn ([a-oq-z<]|--help)' "$file" | sed "s#^#$file: #"
  done
}
if [ -z "$is_current" ] || ! command -v dpkg-deb >/dev/null; then
  skips "packages" "no release of this tree, or no dpkg-deb"
elif ! "$top/sacn" package "$room/packages" >"$room/said" 2>&1; then
  fails "packages" "$(tail -n 1 "$room/said")"
else
  version=$(of_release version)
  ok "packages: $(cd "$room/packages" && echo *)"
  dpkg-deb -x "$room/packages/sacn_${version}_amd64.deb" "$room/amd64"
  dpkg-deb -x "$room/packages/sacn_${version}_arm64.deb" "$room/arm64"
  # (where no folder is named they come into the tree)
  if ! git -C "$top" rev-parse >/dev/null 2>&1; then
    skips "git and packages" "this tree is no repository"
  else
    seen=$(ls "$room/packages" | git -C "$top" check-ignore --stdin -n -v | grep '^::')
    if [ -z "$seen" ]; then ok "git sees no package"; else fails "git and packages" "$(head -n 1 <<<"$seen")"; fi
  fi
  light "from a package" "$room/amd64/usr/bin/sacn" gateway "$room/node.toml"
  if [ ! -s "$room/said" ] || ! grep -q 'sacn:' "$room/said"; then ok "a package's program says nothing of its own"; else fails "a package's program" "$(head -n 1 "$room/said")"; fi
  if [ "$("$room/amd64/usr/bin/sacn" --version | sed -n 2p)" = "release $version" ]; then ok "a package's version"; else fails "a package's version" "$("$room/amd64/usr/bin/sacn" --version | sed -n 2p)"; fi
  problem=$(documents "$room/amd64/usr/share/doc/sacn")
  if [ -z "$problem" ]; then ok "a package's documents: links, commands and examples are there"; else fails "a package's documents" "$(head -n 1 <<<"$problem")"; fi
  # What C and Python programs are built with, and what loads them, from the packages alone.
  for it in "libsacn1_${version}_amd64" "libsacn-dev_${version}_amd64" "python3-sacn-core_${version}_all"; do dpkg-deb -x "$room/packages/$it.deb" "$room/library"; done
  loaded=$room/library/usr/lib/x86_64-linux-gnu
  if ! command -v cc >/dev/null; then
    skips "a package's library" "there is no cc"
  elif cc -D_DEFAULT_SOURCE -std=c99 -Wall -Wextra -Werror -I"$room/library/usr/include" -L"$loaded" -o "$room/smoke" "$top/tests/c/library.c" -lsacn 2>"$room/said" && LD_LIBRARY_PATH=$loaded "$room/smoke" >"$room/said" 2>&1; then
    ok "a program in C, built and run by the packages of the library"
  else
    fails "a package's library" "$(head -n 1 "$room/said")"
  fi
  if ! command -v python3 >/dev/null; then
    skips "a package's module for Python" "there is no python3"
  elif (unset SACN_LIBRARY; LD_LIBRARY_PATH=$loaded PYTHONPATH=$room/library/usr/lib/python3/dist-packages python3 -B -c 'import sacn_core; sacn_core.load()') 2>"$room/said"; then
    ok "a package's module for Python finds the library"
  else
    fails "a package's module for Python" "$(tail -n 1 "$room/said")"
  fi
  if [ -n "$has_arm" ]; then
    if [ "$("${arm[@]}" "$room/arm64/usr/lib/sacn/sacn" decode "$top/examples/levels.sacn" | sed -n 2p)" = "cid 00010203-0405-0607-0809-0a0b0c0d0e0f" ]; then ok "the package for arm64"; else fails "the package for arm64" "it decodes otherwise"; fi
  fi
  if command -v lintian >/dev/null; then
    lintian --allow-root --fail-on error,warning "$room"/packages/*.deb >"$room/said" 2>&1 && ok "lintian has nothing to say" || fails "lintian" "$(head -n 1 "$room/said")"
  else
    skips "lintian" "it isn't there"
  fi
  if command -v systemd-analyze >/dev/null; then
    for it in gateway desk page; do
      exposure=$(systemd-analyze security --offline=yes "$top/packaging/sacn-$it@.service" 2>/dev/null | sed -n 's/.*Overall exposure level for [^:]*: \([0-9]*\)\.\([0-9]\).*/\1\2/p')
      if [ "${exposure:-99}" -lt 20 ]; then ok "the service of a $it is exposed by less than 2.0"; else fails "the service of a $it" "exposed by ${exposure:-an unknown level} tenths"; fi
    done
  else
    skips "services" "systemd-analyze isn't there"
  fi
fi

# ---- Groups, joined without a privilege, between two hosts of this script's own.
near=sacn-near-$$ far=sacn-far-$$
if ! command -v ip >/dev/null || ! ip netns add "$near" 2>/dev/null || ! ip netns add "$far" 2>/dev/null || ! ip -n "$near" link add eth0 type veth peer name eth0 netns "$far" 2>/dev/null; then
  skips "groups" "this machine lets no network namespaces be made"
elif ! command -v cc >/dev/null || [ ! -x "$built" ]; then
  skips "groups" "no C compiler, or sacn isn't built"
else
  cc -std=gnu11 -O2 -Wall -Wextra -Werror -o "$room/sacn-join" "$top/runtime/join.c" || fails "join.c" "it isn't compiled"
  chmod 755 "$room"
  for it in "$near 1" "$far 2"; do
    set -- $it
    ip -n "$1" address add "10.99.0.$2/24" dev eth0
    ip -n "$1" link set eth0 up
    ip -n "$1" link set lo up
    ip -n "$1" route add default via "10.99.0.$((3 - $2))" 2>/dev/null
  done
  printf '. "%s/tools/run.sh"\nsacn_join=%s\nrun "%s" "$@"\n' "$top" "$room/sacn-join" "$built" >"$room/run"
  are_joined() { [ "$(joined)" = "$1" ]; }
  joined() { ip -n "$near" maddress show dev eth0 | grep -c 'inet *239\.255\.'; }
  printf 'version = 1\nudp_port = 5568\n[[port]]\nnumber = 1\nuniverse = 1\n[[port]]\nnumber = 2\nuniverse = 300\n' >"$room/node.toml"
  : >"$room/said"
  ip netns exec "$near" setpriv --reuid 65534 --regid 65534 --clear-groups bash "$room/run" gateway --join "$room/node.toml" --seconds 60 >"$room/lines" 2>"$room/said" </dev/null &
  running+=($!)
  wait_for_line "$room/said" '^hears' || fails "a gateway that joins" "$(head -n 1 "$room/said")"
  if [ "$(joined)" = 3 ]; then ok "nobody joins the groups of a setup, and the lists'"; else fails "the groups of a setup" "$(joined) are joined"; fi
  show 5568 >"$room/show.toml"
  (echo go; wait_for_line "$room/lines" '^1 [0-9]+ 00ff') | ip netns exec "$far" "$built" desk "$room/show.toml" --multicast --bind 10.99.0.2 >/dev/null 2>&1
  if wait_for_line "$room/lines" '^1 [0-9]+ 00ff' && wait_for_line "$room/said" ' at 10.99.0.2, .*universe 1: came$'; then ok "a gateway that joined hears a desk's group"; else fails "a gateway that joined" "$(tail -n 1 "$room/said")"; fi
  # (the one that holds the groups is the child of the other)
  pkill -n -f "$room/sacn-join"
  if wait_for_line "$room/said" '^sacn: what joined the groups on eth0 was ended'; then ok "the helper's end is told, and the gateway goes on"; else fails "the helper's end" "$(tail -n 1 "$room/said")"; fi
  kill "${running[-1]}"
  wait "${running[-1]}" 2>/dev/null
  unset 'running[-1]'

  : >"$room/told"
  : >"$room/said"
  ip netns exec "$near" setpriv --reuid 65534 --regid 65534 --clear-groups bash "$room/run" watch --join eth0 --plain --each --seconds 60 >"$room/told" 2>"$room/said" </dev/null &
  running+=($!)
  wait_for_line "$room/said" '^hears' || fails "a watch that joins" "$(head -n 1 "$room/said")"
  printf 'version = 1\ncid = "00010203-0405-0607-0809-0a0b0c0d0e0f"\nname = "Desk"\nuniverses = [%s 900]\nsend_to = [5568]\n' "$(seq -s , 1 40 | sed 's/$/,/')" >"$room/wide.toml"
  (wait_for_line "$room/told" 'universe +900 .*appears') | ip netns exec "$far" "$built" desk "$room/wide.toml" --multicast --bind 10.99.0.2 >/dev/null 2>&1
  # (the first 128 are joined anyhow, and the group of the lists)
  if wait_for_line "$room/told" 'universe +900 .*appears' && [ "$(joined)" = 130 ]; then ok "a watch joins what is listed beside the first 128"; else fails "a watch that joins" "$(joined) groups are joined; $(tail -n 1 "$room/told")"; fi
  # What follows the standard's layout, to the group of a universe: a packet of a source that lists nothing, or a page of a list of so many universes.
  cat >"$room/sends.py" <<'P'
import socket, sys
import e131
kind, universe, count = sys.argv[1], int(sys.argv[2]), int(sys.argv[3])
cid = bytes([7]) * 16
out = socket.socket(socket.AF_INET, socket.SOCK_DGRAM)
out.setsockopt(socket.IPPROTO_IP, socket.IP_MULTICAST_IF, socket.inet_aton("10.99.0.2"))
if kind == "packet":
    out.sendto(e131.data(universe, 1, bytes(512), cid, b"Plain"), (socket.inet_ntoa(e131.group(universe)), 5568))
else:
    lasts = (count + 511) // 512
    for page in range(lasts):
        numbers = range(universe + page * 512, min(universe + count, universe + page * 512 + 512))
        out.sendto(e131.page(numbers, page, lasts - 1, cid, b"Lister"), ("239.255.250.214", 5568))
P
  if command -v python3 >/dev/null; then
    ip netns exec "$far" python3 "$room/sends.py" packet 7 1
    if wait_for_line "$room/told" 'universe +7 .*"Plain" +appears'; then ok "a watch hears a source that lists nothing"; else fails "a source that lists nothing" "$(tail -n 1 "$room/told")"; fi
    ip netns exec "$far" python3 "$room/sends.py" list 2000 3000
    if wait_for_line "$room/said" '^sacn: sources list more than 1024 universes on eth0' && [ "$(joined)" = 1153 ] && [ "$(grep -c 'list more than' "$room/said")" = 1 ]; then ok "lists take no more than a bound, which is told once"; else fails "a list of 3000 universes" "$(joined) groups are joined; $(tail -n 1 "$room/said")"; fi
  else
    skips "a source that lists nothing" "python3 isn't there"
  fi
  kill "${running[-1]}"
  wait "${running[-1]}" 2>/dev/null
  unset 'running[-1]'
  wait_until are_joined 0
  if [ "$(joined)" = 0 ]; then ok "the groups are left at its end"; else fails "the groups at its end" "$(joined) are still joined"; fi
  # A device that doesn't say that it takes multicast; and a group that the machine refuses for a while.
  ip -n "$near" link set eth0 multicast off
  : >"$room/told"
  : >"$room/said"
  ip netns exec "$near" bash "$room/run" watch --join eth0 --plain --each --seconds 60 >"$room/told" 2>"$room/said" </dev/null &
  running+=($!)
  wait_for_line "$room/said" '^hears' || fails "a watch on a device without multicast" "$(head -n 1 "$room/said")"
  if command -v python3 >/dev/null; then
    ip netns exec "$far" python3 "$room/sends.py" packet 7 1
    if wait_for_line "$room/told" 'universe +7 .*"Plain" +appears'; then ok "a device without multicast is heard all the same"; else fails "a device without multicast" "$(tail -n 1 "$room/said")"; fi
    ip netns exec "$near" sysctl -qw net.ipv4.igmp_max_memberships=0
    for _ in 1 2 3; do ip netns exec "$far" python3 "$room/sends.py" list 2000 600; done
    wait_for_line "$room/said" "universe 2599 isn't joined on eth0: No buffer space available" || fails "groups that are refused" "$(tail -n 1 "$room/said")"
    holds=$(for it in $(pgrep -f "$room/sacn-join"); do ls "/proc/$it/fd" | wc -l; done | sort -n | tail -n 1)
    ip netns exec "$near" sysctl -qw net.ipv4.igmp_max_memberships=20
    ip netns exec "$far" python3 "$room/sends.py" list 2000 600
    wait_until are_joined 729
    if [ "$(joined)" = 729 ] && [ "$(grep -c "isn't joined" "$room/said")" = 600 ] && [ "$holds" -lt 20 ]; then ok "groups that are refused are told once, tried again, and take no descriptors"; else fails "groups that are refused" "$(joined) are joined, $holds descriptors; $(tail -n 1 "$room/said")"; fi
  fi
  kill "${running[-1]}"
  wait "${running[-1]}" 2>/dev/null
  unset 'running[-1]'
  ip netns exec "$near" bash "$room/run" watch --join nosuch --seconds 5 >/dev/null 2>"$room/said" </dev/null
  if [ $? = 4 ] && grep -q 'no groups on nosuch: No such device' "$room/said"; then ok "a device that isn't there is named"; else fails "a device that isn't there" "$(head -n 1 "$room/said")"; fi
  ip -n "$near" route del default
  ip netns exec "$near" bash "$room/run" watch --join --seconds 5 >/dev/null 2>"$room/said" </dev/null
  if [ $? = 4 ] && grep -q 'no default route' "$room/said"; then ok "no default route is told"; else fails "no default route" "$(head -n 1 "$room/said")"; fi
fi

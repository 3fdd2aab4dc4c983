#!/usr/bin/env bash
# The bindings for Python, Rust and C++ over the C library: their declarations beside sacn.h (tests/bindings.py), each one's own tests, and in each
# language a receiver that is lit by a sender: the examples, by multicast, on a loopback of their own where the machine lets one be made. At the end the
# examples light OLA and are lit by it (tests/bindings_ola.py), in namespaces.
# Prints 'ok NAME', 'not ok NAME: why' or 'skipped NAME: why' for each. It takes the library in the folder SACN_LIBRARY_PREFIX (as ./sacn library lays
# one out), and else makes it as tests/library.sh does.
set -u
# shellcheck source=tests/lib.sh
. "$(dirname "$(readlink -f "$0")")/lib.sh"
# A folder given by where this was started.
given=${SACN_LIBRARY_PREFIX:-}
case $given in "" | /*) ;; *) given=$here/$given ;; esac
ok() { verdict "$1" 0; }
fails() { verdict "$1" 1 "${2-}"; }

prefix=${given:-$room/prefix}
if [ -z "$given" ] && ! command -v "${CC:-cc}" >/dev/null && ! command -v gcc >/dev/null && ! command -v clang >/dev/null; then
  skips "all" "this machine has no C compiler, and SACN_LIBRARY_PREFIX names no library"
  exit 0
fi
if [ -z "$given" ] && ! library_installed "$prefix" >"$room/said" 2>&1; then
  fails "install" "$(tail -n 1 "$room/said")"
  exit 0
fi
if [ ! -f "$prefix/lib/libsacn.a" ] || [ ! -f "$prefix/include/sacn.h" ]; then
  fails "install" "$prefix has no lib/libsacn.a or no include/sacn.h"
  exit 0
fi

# example LANGUAGE NAME COMMAND..: an example of a language, as a command that takes the example's words
example() {
  local file=$room/$1/$2
  shift 2
  mkdir -p "${file%/*}"
  printf '#!/usr/bin/env bash\nexec' >"$file"
  printf ' %q' "$@" >>"$file"
  printf ' "$@"\n' >>"$file"
  chmod 755 "$file"
}

python() {
  if ! python3 -c 'import sys; sys.exit(sys.version_info < (3, 9))' 2>/dev/null; then skips "Python" "there is no python3 of 3.9 or later"; return; fi
  if ! python3 -B "$top/tests/bindings.py" "$top" >"$room/told" 2>&1 && ! grep -q '^not ok ' "$room/told"; then fails "declarations" "$(tail -n 1 "$room/told")"; fi
  while read -r line; do
    case $line in "ok "*) ok "${line#ok bindings: }" ;; "not ok "*) fails "${line#not ok bindings: }" ;; esac
  done <"$room/told"
  if [ ! -f "$prefix/lib/libsacn.so" ]; then skips "Python" "there is no shared object"; return; fi
  if SACN_LIBRARY=$prefix/lib/libsacn.so python3 -B "$top/bindings/python/test_sacn_core.py" >"$room/said" 2>&1; then
    ok "Python: $(sed -n 's/^Ran \([0-9]*\) tests.*/\1 tests/p' "$room/said")"
  else
    fails "Python" "$(grep -m 2 -E '^(FAIL|ERROR|[A-Za-z]*Error)' "$room/said" | tr '\n' ' ')"
  fi
  for it in receive send levels; do
    example python $it env SACN_LIBRARY="$prefix/lib/libsacn.so" PYTHONPATH="$top/bindings/python" python3 -B "$top/examples/python/$it.py"
  done
}

c() {
  local compiler
  compiler=$(command -v "${CC:-cc}" || command -v gcc || command -v clang)
  if [ -z "$compiler" ]; then skips "C" "there is no compiler"; return; fi
  for it in receive levels; do
    if "$compiler" -D_DEFAULT_SOURCE -std=c99 -O1 -Wall -Wextra -Werror -I"$prefix/include" -o "$room/$it.c" "$top/examples/c/$it.c" "$prefix/lib/libsacn.a" 2>"$room/said"; then
      example c $it "$room/$it.c"
    else
      fails "$it.c" "$(grep -m 1 error "$room/said")"
    fi
  done
}

rust() {
  if ! command -v cargo >/dev/null; then skips "Rust" "there is no cargo"; return; fi
  if [ "$(rustc --version | sed -nE 's/^rustc 1\.([0-9]+).*/\1/p')" -lt 65 ]; then skips "Rust" "its compiler is older than 1.65"; return; fi
  export CARGO_TARGET_DIR=$room/target
  local manifest=$top/bindings/rust/Cargo.toml
  if SACN_LIB_DIR=$prefix/lib cargo test --offline --locked --manifest-path "$manifest" >"$room/said" 2>&1; then
    ok "Rust: $(awk '/^test result: ok/ { count += $4 } END { print count }' "$room/said") tests"
  else
    fails "Rust" "$(grep -m 1 -E '^(error|test .* FAILED|thread .* panicked)|libsacn' "$room/said")"
    return
  fi
  if SACN_LIB_DIR=$prefix/lib cargo build -q --offline --locked --examples --manifest-path "$manifest" 2>"$room/said"; then
    for it in receive send levels; do example rust $it "$CARGO_TARGET_DIR/debug/examples/$it"; done
  else
    fails "Rust's examples" "$(grep -m 1 -E '^error' "$room/said")"
  fi
  # (without a folder the library is the one that pkg-config tells, and a folder without one is named)
  if ! command -v pkg-config >/dev/null || [ ! -f "$prefix/lib/libsacn.so" ]; then
    skips "Rust by pkg-config" "there is no pkg-config, or no shared object"
  elif env -u SACN_LIB_DIR PKG_CONFIG_PATH="$prefix/lib/pkgconfig" LD_LIBRARY_PATH="$prefix/lib" cargo test -q --offline --locked --test core --manifest-path "$manifest" >"$room/said" 2>&1; then
    ok "Rust by pkg-config"
  else
    fails "Rust by pkg-config" "$(grep -m 1 -E '^(error|test .* FAILED)|libsacn' "$room/said")"
  fi
  if SACN_LIB_DIR=$room cargo build -q --offline --locked --manifest-path "$manifest" >"$room/said" 2>&1 || ! grep -q "libsacn isn't linked: $room has neither" "$room/said"; then
    fails "Rust without a library" "$(head -n 1 "$room/said")"
  else
    ok "Rust without a library says where it looked"
  fi
}

cxx() {
  local compiler watched=() flags=(-std=c++17 -O1 -Wall -Wextra -Wpedantic -Wshadow -Wconversion -Werror)
  compiler=$(command -v "${CXX:-c++}" || command -v g++ || command -v clang++)
  if [ -z "$compiler" ]; then skips "C++" "there is no compiler"; return; fi
  local how="C++"
  if "$compiler" -fsanitize=address,undefined -x c++ - -o "$room/try" <<<'int main() { return 0; }' 2>/dev/null && "$room/try"; then
    flags+=(-g -fsanitize=address,undefined)
    how="C++, with sanitizers"
  elif command -v valgrind >/dev/null; then
    watched=(valgrind -q --error-exitcode=99 --leak-check=full)
    how="C++, under valgrind"
  fi
  if ! "$compiler" "${flags[@]}" -I"$prefix/include" -o "$room/test" "$top/bindings/cxx/test_sacn.cpp" "$prefix/lib/libsacn.a" >"$room/said" 2>&1; then
    fails "C++" "$(grep -m 1 -E 'error' "$room/said")"
    return
  fi
  if ${watched[@]+"${watched[@]}"} "$room/test" >"$room/said" 2>&1; then ok "$how: $(grep -c 'CHECK(' "$top/bindings/cxx/test_sacn.cpp") looks"; else fails "$how" "$(head -n 1 "$room/said")"; fi
  for it in receive send levels; do
    if "$compiler" -std=c++17 -O1 -Wall -Wextra -Werror -I"$prefix/include" -I"$top/bindings/cxx" -o "$room/$it.cxx" "$top/examples/cxx/$it.cpp" "$prefix/lib/libsacn.a" 2>"$room/said"; then
      example cxx $it "$room/$it.cxx"
    else
      fails "$it.cpp" "$(grep -m 1 error "$room/said")"
    fi
  done
}

# A network that is a loopback alone, where the machine lets one be made.
apart=()
if unshare -n ip link set lo up 2>/dev/null; then
  apart=(unshare -n)
elif unshare -rn ip link set lo up 2>/dev/null; then
  apart=(unshare -rn)
fi

# lit FOLDER SENDER UNIVERSE PORT [APART]: a folder's receiver joins the universe's group, and a sender lights slot 1 for a second and ends its stream.
# It says what isn't so. APART, where the network has nothing up yet.
lit() {
  local folder=$1 sender=$2 universe=$3 port=$4 receiver group sent on off
  if [ -n "${5-}" ]; then ip link set lo up; fi
  "$folder/receive" "$universe" 120 "$port" 127.0.0.1 >"$folder/heard" 2>"$folder/said" &
  receiver=$!
  group=$(printf '%02X%02XFFEF' $((universe % 256)) $((universe / 256)))
  wait_until grep -q "$group" /proc/net/igmp
  timeout 30 "$folder/$sender" "$universe" 1 "$port" 127.0.0.1 >"$folder/sent" 2>&1
  sent=$?
  # (start code, slot 1 and nothing else; and then dark, since it was told that the stream has ended, and not since it was lost)
  wait_until is_through "$folder/heard"
  kill "$receiver" 2>/dev/null
  wait "$receiver" 2>/dev/null
  if [ "$sent" != 0 ]; then
    echo "the sender ends with status $sent: $(head -n 1 "$folder/sent")"
  elif [ -z "$on" ]; then
    echo "it isn't lit: $(head -qn 1 "$folder/said" "$folder/sent" | cut -c 1-200 | tr '\n' ' ')"
  elif [ -z "$off" ]; then
    echo "it stays lit"
  elif [ $((off - on)) -ge 3000 ]; then
    echo "it is dark after $((off - on)) ms"
  fi
}
is_through() {
  on=$(grep -m 1 -E '^1 [0-9]+ 00ff0{1022}$' "$1" | cut -d ' ' -f 2)
  off=$(tail -n 1 "$1" | grep -E '^1 [0-9]+ 0{1026}$' | cut -d ' ' -f 2)
  [ -n "$on" ] && [ -n "$off" ]
}
export -f lit is_through wait_until

# lights LANGUAGE FOLDER UNIVERSE PORT SENDER..: by its player of a show, its sender of levels
lights() {
  local problem sender
  for sender in "${@:5}"; do
    if [ ! -x "$room/$2/receive" ] || [ ! -x "$room/$2/$sender" ]; then skips "$1: $sender lights a receiver" "there are no examples"; continue; fi
    problem=$(${apart[@]+"${apart[@]}"} bash -c 'lit "$@"' lit "$room/$2" $sender "$3" "$4" "${apart[*]-}")
    if [ -z "$problem" ]; then ok "$1: $sender lights a receiver by multicast, and ends"; else fails "$1: $sender lights a receiver" "$problem"; fi
  done
}

python
c
rust
cxx
lights "Python" python 61 "$(free_udp_port)" send levels
lights "C" c 60 "$(free_udp_port)" levels
lights "Rust" rust 62 "$(free_udp_port)" send levels
lights "C++" cxx 300 "$(free_udp_port)" send levels

# Why OLA can't be had here; nothing where it can.
why_not() {
  for it in olad python3 ip unshare nsenter setpriv; do
    command -v "$it" >/dev/null || { echo "there is no $it"; return; }
  done
  if [ "$(id -u)" != 0 ]; then echo "it wants root"; return; fi
  unshare -n true 2>/dev/null || echo "no network namespaces can be made here"
}

beside_ola() {
  local folders=() it status=0 why
  for it in Python=python C=c Rust=rust C++=cxx; do
    if [ -x "$room/${it#*=}/receive" ] && [ -x "$room/${it#*=}/levels" ]; then folders+=("${it%%=*}=$room/${it#*=}"); fi
  done
  why=$(why_not)
  if [ ${#folders[@]} = 0 ]; then why="there are no examples"; fi
  if [ -n "$why" ]; then skips "beside OLA" "$why"; return; fi
  # (OLA isn't run by root, and reads its folder in there)
  chmod 711 "$room"
  TMPDIR=$room SPACE=1 timeout -k 5 300 unshare -n python3 "$top/tests/bindings_ola.py" "${folders[@]}" >"$room/told" 2>"$room/said" || status=$?
  sed -E "s/^(not ok|ok) /&$label/" "$room/told"
  if [ "$status" = 77 ]; then skips "beside OLA" "no network namespaces can be joined here"; return; fi
  if [ "$status" != 0 ]; then fails "beside OLA" "status $status: $(tail -n 1 "$room/said")"; fi
}
beside_ola

#!/usr/bin/env bash
# Installs the C library outside the repository, and runs what uses it: the smoke test of every call and refusal, with the compiler's sanitizers and
# under valgrind where it is there; the examples in C against the built program on loopback, and the one in Python through the shared object.
# Prints 'ok NAME', 'not ok NAME: why' or 'skipped NAME: why' for each, as ./test counts them.
set -u
# shellcheck source=tests/lib.sh
. "$(dirname "$(readlink -f "$0")")/lib.sh"
compiler=$(command -v "${CC:-cc}" || command -v gcc || command -v clang || true)
if [ -z "$compiler" ]; then
  echo "skipped library: this machine has no C compiler"
  exit 0
fi
prefix=$room/prefix
export PKG_CONFIG_PATH=$prefix/lib/pkgconfig

ok() { verdict "$1" 0; }
fails() { verdict "$1" 1 "$2"; }

if ! library_installed "$prefix" >"$room/said" 2>&1; then
  fails "install" "$(tail -n 1 "$room/said")"
  exit 0
fi
ok "install"

# The flags as a user gets them: by the installed file where pkg-config is there, and else by hand.
flags=(-I"$prefix/include" -L"$prefix/lib")
if command -v pkg-config >/dev/null; then
  if [ "$(pkg-config --cflags sacn | tr -d ' ')" = "-I$prefix/include" ]; then ok "pkg-config"; else fails "pkg-config" "$(pkg-config --cflags sacn 2>&1)"; fi
else
  skips "pkg-config" "it isn't there"
fi
# What the shared object gives out is listed for Debian: a call that is gone or new is seen here.
if ! command -v nm >/dev/null || [ ! -f "$prefix/lib/libsacn.so.1" ]; then
  skips "what the shared object gives out" "no nm, or no shared object"
else
  nm -D --defined-only "$prefix/lib/libsacn.so.1" | awk '{ print $3 }' | sort >"$room/given"
  sed -n 's/^ \([a-z_]*\)@Base .*/\1/p' "$top/packaging/libsacn1.symbols" | sort | diff - "$room/given" >"$room/said"
  verdict "what the shared object gives out is packaging/libsacn1.symbols" $? "$(grep '^[<>]' "$room/said" | head -n 3)"
fi
# (the archive, by name: the shared object stands beside it)
library=$prefix/lib/libsacn.a

# built NAME [FLAG..]: builds a C file against the prefix, without a warning
built() {
  local name=$1 file=$2
  shift 2
  if "$compiler" -D_DEFAULT_SOURCE -Wall -Wextra -Werror "${flags[@]}" "$@" -o "$room/$name" "$file" "$library" 2>"$room/said"; then return 0; fi
  fails "$name" "$(grep -m 1 error "$room/said")"
  return 1
}

if built smoke "$top/tests/c/library.c" -std=c99 -Wpedantic -O2; then
  if "$room/smoke" >"$room/said"; then ok "each call and each refusal"; else fails "each call and each refusal" "$(head -n 1 "$room/said")"; fi
  if command -v valgrind >/dev/null; then
    if valgrind -q --error-exitcode=99 --leak-check=full "$room/smoke" >"$room/said" 2>&1; then ok "under valgrind"; else fails "under valgrind" "$(head -n 1 "$room/said")"; fi
  else
    skips "under valgrind" "it isn't there"
  fi
fi
if "$compiler" -fsanitize=address,undefined -x c - -o "$room/try" <<<'int main(void) { return 0; }' 2>/dev/null && "$room/try"; then
  if built sanitized "$top/tests/c/library.c" -std=c99 -g -fsanitize=address,undefined; then
    if "$room/sanitized" >"$room/said" 2>&1; then ok "with sanitizers"; else fails "with sanitizers" "$(head -n 1 "$room/said")"; fi
  fi
else
  skips "with sanitizers" "this compiler has none"
fi
# Each request for memory is refused in turn; nothing may be lost then.
if built memory "$top/tests/c/memory.c" -std=c99 -O2 -Wl,--wrap=malloc -Wl,--wrap=realloc; then
  watched=()
  if command -v valgrind >/dev/null; then watched=(valgrind -q --error-exitcode=99 --leak-check=full); fi
  if ${watched[@]+"${watched[@]}"} "$room/memory" >"$room/said" 2>&1; then ok "without memory"; else fails "without memory" "$(head -n 1 "$room/said")"; fi
fi
if command -v c++ >/dev/null; then
  printf '#include <sacn.h>\nint main() { struct sacn_node node = {}; return sacn_node_free(&node) == SACN_NULL ? 0 : 1; }\n' >"$room/plus.cpp"
  if c++ -Wall -Wextra -Werror "${flags[@]}" -o "$room/plus" "$room/plus.cpp" "$library" 2>"$room/said" && "$room/plus"; then ok "C++"; else fails "C++" "$(head -n 1 "$room/said")"; fi
else
  skips "C++" "there is no compiler"
fi

# Against the program.
show() {
  cat <<TOML
version = 2
cid = "00010203-0405-0607-0809-0a0b0c0d0e0f"
name = "Desk"
universes = [1]
send_to = [$1]
[[cue]]
number = 1
up = 0
down = 0
levels = [[1, 65535]]
[[patch]]
channel = 1
universe = 1
slot = 1
TOML
}
setup() { printf 'version = 1\nudp_port = %s\n[[port]]\nnumber = 1\nuniverse = 1\n' "$1"; }
lit='^1 [0-9]+ 00ff00'

# bound PORT: waits until a UDP port of this machine is bound
bound() { patience=30 wait_until grep -q "$(printf ':%04X ' "$1")" /proc/net/udp; }

# hears NAME PORT COMMAND..: the command shows what a desk sends, which then ends its universe: lit, and dark
hears() {
  local name=$1 port=$2
  shift 2
  show "$port" >"$room/show.toml"
  "$@" >"$room/heard" 2>"$room/said" &
  bound "$port"
  printf 'go\n' | { cat; wait_for_line "$room/heard" "$lit"; } | timeout 60 "$sacn" desk "$room/show.toml" >/dev/null 2>&1
  wait "$!"
  if grep -qE "$lit" "$room/heard" && tail -n 1 "$room/heard" | grep -qE '^1 [0-9]+ 0000'; then ok "$name"; else fails "$name" "$(head -n 1 "$room/said" "$room/heard" | tr '\n' ' ')"; fi
}

if [ ! -x "$sacn" ]; then
  skips "receive.c, send.c and receive.py beside the program" "sacn isn't built"
else
  port=$(free_udp_port)
  setup "$port" >"$room/node.toml"
  if built receive "$top/examples/c/receive.c" -std=c99 -O2; then hears "receive.c hears a desk" "$port" "$room/receive" 1 8 "$port" 127.0.0.1; fi
  if command -v python3 >/dev/null && [ -f "$prefix/lib/libsacn.so" ]; then
    hears "receive.py hears a desk" "$port" env SACN_LIBRARY="$prefix/lib/libsacn.so" PYTHONPATH="$top/bindings/python" python3 "$top/examples/python/receive.py" 1 8 "$port" 127.0.0.1
  else
    skips "receive.py" "no python3, or no shared object"
  fi
  if built send "$top/examples/c/send.c" -std=c99 -O2; then
    show "$port" >"$room/show.toml"
    timeout 60 "$sacn" gateway "$room/node.toml" --listen 127.0.0.1 --seconds 8 >"$room/heard" 2>"$room/said" </dev/null &
    bound "$port"
    "$room/send" "$room/show.toml" "$port" 500 >"$room/sent"
    wait "$!"
    if grep -qE "$lit" "$room/heard" && grep -q 'ended' "$room/said"; then ok "a gateway hears send.c: $(cat "$room/sent")"; else fails "a gateway hears send.c" "$(head -n 1 "$room/said")"; fi
  fi
fi
# What is timed gives the same answers as hand-written C: a hundredth of the calls tells.
if "$top/tools/speed.sh" fast "$prefix" >"$room/said" 2>&1; then ok "$(wc -l <"$room/said") measures, with the answers of hand-written C"; else fails "measures" "$(grep -m 1 -E 'DIFFER|error|speed' "$room/said")"; fi

#!/usr/bin/env bash
# Installs all that a C program needs, from the archive that ./sacn library has proved and built.
#
#   tools/library.sh PREFIX                 installs sacn.h and sacn.hpp in PREFIX/include and, in PREFIX/lib, libsacn.a, libsacn.so.1 with its link libsacn.so, and pkgconfig/sacn.pc
#   tools/library.sh PREFIX ARCHIVE CROSS   the same for another processor, from an archive of the proved code, by CROSSgcc and its kin
set -eu
top=$(cd "$(dirname "$(readlink -f "$0")")/.." && pwd)
if { [ $# != 1 ] && [ $# != 3 ]; } || [ -z "$1" ]; then
  echo "usage: library.sh PREFIX [ARCHIVE CROSS]" >&2
  exit 2
fi
archive=$top/crates/sacn_c/out/libsacn_c.a
if [ -n "${2-}" ]; then archive=$(realpath "$2"); fi
cross=${3-}
mkdir -p "$1/include" "$1/lib/pkgconfig"
prefix=$(cd "$1" && pwd)
if [ -n "$cross" ]; then compiler=$(command -v "${cross}gcc" || true); else compiler=$(command -v "${CC:-cc}" || command -v gcc || command -v clang || true); fi
if [ -z "$compiler" ]; then
  echo "sacn: this machine has no C compiler${cross:+ ${cross}gcc}" >&2
  exit 1
fi

room=$(mktemp -d)
trap 'rm -rf "$room"' EXIT
# compiled FILE.C: into an object of the same name
compiled() {
  local name=${1##*/}
  "$compiler" -std=c99 -O2 -fPIC -falign-functions=32 -Wall -Wextra -I"$top/include" -c -o "$room/${name%.c}.o" "$1"
}
compiled "$top/crates/sacn_c/border/border.c"
# The proved code, and what it calls for malloc, realloc and free: the kit's own part of the heap, or ours where the kit has none.
if [ -n "$cross" ]; then
  (cd "$room" && "${cross}ar" x "$archive")
  compiled "$top/runtime/heap.c"
else
  rt=$(readlink -f "$(command -v rt || true)" || true)
  if [ -z "$rt" ]; then
    echo "sacn: the kit's command rt isn't on the PATH" >&2
    exit 1
  fi
  if [ ! -f "$archive" ]; then
    echo "sacn: the archive isn't built: ./sacn library PREFIX proves and builds it first" >&2
    exit 1
  fi
  (cd "$room" && ar x "$(dirname "$(dirname "$rt")")/c/liblibc_c.a" && ar x "$archive")
fi
# Functions begin at multiples of 32 octets, wherever a program's linker puts them: on some processors a jump across such a border costs a read 3 ns.
if command -v "${cross}objcopy" >/dev/null; then
  for it in "$room"/*.o; do "${cross}objcopy" --set-section-alignment '.text*=32' "$it" || echo "sacn: objcopy aligns no sections here" >&2; done
fi
(cd "$room" && "${cross}ar" rcs libsacn.a ./*.o)
# The shared object gives out what the header names, and not the proved calls beneath, which refuse no null pointer.
printf '{ global: %s local: *; };\n' "$(grep -oE '\bsacn_[a-z_]+\(' "$top/include/sacn.h" | tr '(' ';' | sort -u | tr -d '\n')" >"$room/names"
"$compiler" -shared -o "$room/libsacn.so.1" -Wl,--whole-archive "$room/libsacn.a" -Wl,--no-whole-archive -Wl,--version-script="$room/names" -Wl,-soname,libsacn.so.1 -Wl,-z,now ||
  echo "sacn: the archive makes no shared object here" >&2

install -m 644 "$top/include/sacn.h" "$top/bindings/cxx/sacn.hpp" "$prefix/include/"
install -m 644 "$room/libsacn.a" "$prefix/lib/libsacn.a"
if [ -f "$room/libsacn.so.1" ]; then
  install -m 755 "$room/libsacn.so.1" "$prefix/lib/libsacn.so.1"
  ln -sf libsacn.so.1 "$prefix/lib/libsacn.so"
fi
version=$(sed -n 's/^## \([0-9][0-9.]*\)$/\1/p' "$top/CHANGELOG.md" | head -n 1)
cat >"$prefix/lib/pkgconfig/sacn.pc" <<PC
prefix=$prefix
includedir=\${prefix}/include
libdir=\${prefix}/lib

Name: sacn
Description: Streaming ACN (ANSI E1.31-2018) over proved cores
Version: $version
Cflags: -I\${includedir}
Libs: -L\${libdir} -lsacn
Libs.private: -lc
PC
echo "sacn: installed in $prefix" >&2

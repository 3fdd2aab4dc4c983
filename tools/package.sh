#!/usr/bin/env bash
# Makes packages of the release: a .deb for Debian and its kin and a .tar.gz for others, for each processor, and what C programs need.
#
#   tools/package.sh [FOLDER]     into FOLDER; without one into this one
#
# It wants dpkg-deb, gzip and tar, and a release of this very tree (tools/release.py).
set -eu
top=$(cd "$(dirname "$(readlink -f "$0")")/.." && pwd)
say() { echo "sacn: $*" >&2; }
release=$top/release
if [ ! -f "$release/RELEASE" ]; then
  say "there is no release here: tools/release.py makes one from a tree that ./test passed"
  exit 1
fi
of_release() { local name=$1 key value; while read -r key value; do if [ "$key" = "$name" ]; then echo "$value"; fi; done <"$release/RELEASE"; }
if [ "$(of_release code)" != "$("$top/sacn" --code)" ]; then
  say "the release is of another tree than this one: check out its commit, or make it anew (tools/release.py)"
  exit 1
fi
for tool in dpkg-deb gzip tar; do
  command -v "$tool" >/dev/null || { say "there is no $tool here, which makes packages"; exit 1; }
done
version=$(of_release version)
mkdir -p "${1:-.}"
folder=$(cd "${1:-.}" && pwd)
room=$(mktemp -d)
trap 'rm -rf "$room"' EXIT
program=$release/$(uname -m)-linux/sacn
# (all that is packed bears the moment of the commit, so that the same tree gives the same packages)
moment=$(git -C "$top" log -1 --format=%ct 2>/dev/null || date +%s)
export SOURCE_DATE_EPOCH=$moment

for name in {x86_64,aarch64}-linux/{sacn,sacn-join,libsacn.a,libsacn.so.1}; do
  sum=$(sha256sum <"$release/$name")
  if [ "${sum%% *}" != "$(of_release "$name")" ]; then say "$release/$name is not the released one: its SHA-256 is ${sum%% *}"; exit 4; fi
done

packed() { gzip -9n >"$1"; chmod 644 "$1"; }

# What is packed of the documents in docs/.
documents="RIG FILES PROTOCOL AUDIT THEOREMS"
commands="gateway|desk|watch|record|replay|explain|audit|check|decode|sim|console|node|groups|manual|completion|--help|<"

# A document on standard input, without links to what isn't packed.
linked() {
  sed -E -e "s#\\]\\((((docs/)?(${documents// /|})\\.md|CHANGELOG\\.md|(docs/)?[a-z-]+\\.png|https?:|\\#)[^)]*)\\)#]\x01\\1\x02#g" \
    -e 's#!?\[([^]]*)\]\([^)]*\)#\1#g' -e 's#\x01#(#g; s#\x02#)#g'
}

# The same as it is read beside an installed program: the command is `sacn`, and examples stand in the package.
installed() { linked | sed -E -e '/^In a clone the command is/d' -e "s#\\./sacn ($commands)#sacn \\1#g" -e 's#(^|[^A-Za-z/])examples/([a-z]+\.[a-z]+)#\1/usr/share/doc/sacn/examples/\2#g'; }

# The README's part for who has no tree.
readme() {
  if [ "$(grep -cE '^## (How it is proved and tested|Documents)$' "$top/README.md")" != 2 ]; then say "README.md has other headings than packages know"; exit 1; fi
  sed '/^## How it is proved/,/^## Documents/{/^## Documents/!d}' "$top/README.md"
}

# tree FOLDER PROCESSOR: lays out all but what is Debian's own.
tree() {
  local root=$1 from=$release/$2-linux
  install -d "$root/usr/bin" "$root/usr/lib/sacn" "$root/usr/share/man/man1" "$root/usr/share/bash-completion/completions" "$root/usr/share/fish/vendor_completions.d" \
    "$root/usr/share/zsh/vendor-completions" "$root/usr/share/doc/sacn/examples" "$root/usr/share/doc/sacn/docs" "$root/lib/systemd/system" "$root/etc/sacn"
  install -m 755 "$top/packaging/sacn" "$root/usr/bin/sacn"
  install -m 755 "$from/sacn" "$from/sacn-join" "$root/usr/lib/sacn/"
  install -m 644 "$top/tools/run.sh" "$release/RELEASE" "$root/usr/lib/sacn/"
  "$program" manual | packed "$root/usr/share/man/man1/sacn.1.gz"
  "$program" completion bash >"$root/usr/share/bash-completion/completions/sacn"
  "$program" completion fish >"$root/usr/share/fish/vendor_completions.d/sacn.fish"
  "$program" completion zsh >"$root/usr/share/zsh/vendor-completions/_sacn"
  install -m 644 "$top"/packaging/*.service "$root/lib/systemd/system/"
  for it in "$top"/examples/*; do if [ -f "$it" ]; then install -m 644 "$it" "$root/usr/share/doc/sacn/examples/"; fi; done
  readme | installed >"$root/usr/share/doc/sacn/README.md"
  linked <"$top/CHANGELOG.md" >"$root/usr/share/doc/sacn/CHANGELOG.md"
  for it in $documents; do installed <"$top/docs/$it.md" >"$root/usr/share/doc/sacn/docs/$it.md"; done
  chmod 644 "$root"/usr/share/doc/sacn/{,docs/}*.md
  install -m 644 "$top"/docs/*.png "$root/usr/share/doc/sacn/docs/"
  news sacn | packed "$root/usr/share/doc/sacn/changelog.gz"
  copyright >"$root/usr/share/doc/sacn/copyright"
}

# news PACKAGE: a changelog as Debian's tools read it
news() {
  printf '%s (%s) unstable; urgency=medium\n\n  * Release %s: CHANGELOG.md says what it has.\n\n -- Fetchserge maintainers <maintainers@users.noreply.fetchserge.example>  %s\n' "$1" "$version" "$version" "$(LC_ALL=C date -u -R -d "@$moment")"
}

copyright() {
  printf 'Format: https://www.debian.org/doc/packaging-manuals/copyright-format/1.0/\nUpstream-Name: sacn\n\nFiles: *\n'
  printf 'Copyright: 2026 Fetchserge maintainers\nLicense: Expat or Apache-2.0\n\nLicense: Expat\n'
  sed -n '/^Permission/,$p' "$top/LICENSE-MIT" | sed 's/^$/./; s/^/ /'
  printf '\nLicense: Apache-2.0\n On Debian systems the text of this licence stands in /usr/share/common-licenses/Apache-2.0.\n'
}

# control ARCHITECTURE PACKAGE DEPENDS SECTION [MULTI-ARCH]: Debian's words on a package; then its description on standard input.
control() {
  printf 'Package: %s\nVersion: %s\nArchitecture: %s\nMaintainer: Fetchserge maintainers <maintainers@users.noreply.fetchserge.example>\n' "$2" "$version" "$1"
  printf 'Depends: %s\nSection: %s\nPriority: optional\nInstalled-Size: %s\n' "$3" "$4" "$(du -sk "$root" | cut -f 1)"
  if [ -n "${5-}" ]; then echo "Multi-Arch: $5"; fi
  cat
}

# debian FILE: packs what is laid out, with the sums of its files, and what lintian is answered.
debian() {
  local name=${1%%_*} sums
  if [ -f "$top/packaging/$name.lintian-overrides" ]; then
    install -d "$root/usr/share/lintian/overrides"
    install -m 644 "$top/packaging/$name.lintian-overrides" "$root/usr/share/lintian/overrides/$name"
  fi
  sums=$(cd "$root" && find . -path ./DEBIAN -prune -o -type f -printf '%P\0' | LC_ALL=C sort -z | xargs -0 md5sum)
  echo "$sums" >"$root/DEBIAN/md5sums"
  chmod 644 "$root/DEBIAN/md5sums"
  find "$root" -newermt "@$moment" -print0 | xargs -0r touch -h -d "@$moment"
  dpkg-deb --root-owner-group -Zxz --build "$root" "$folder/$1" >/dev/null
  say "made $folder/$1"
}

for pair in x86_64:amd64 aarch64:arm64; do
  processor=${pair%:*} architecture=${pair#*:}
  root=$room/sacn_${version}_$architecture
  tree "$root" "$processor"
  tar -C "$room" --owner=0 --group=0 --numeric-owner --sort=name --mtime="@$moment" -czf "$folder/sacn_${version}_$architecture.tar.gz" "${root##*/}"
  say "made $folder/sacn_${version}_$architecture.tar.gz"
  install -d "$root/DEBIAN"
  install -m 755 "$top/packaging/postrm" "$root/DEBIAN/postrm"
  control "$architecture" sacn "bash (>= 4.4), libc6 (>= 2.34)" net >"$root/DEBIAN/control" <<'TEXT'
Suggests: rlwrap
Description: streaming ACN for stage lighting: gateway, desk, watch
 Both ends of ANSI E1.31-2018 (streaming ACN, sACN), each function proved to
 keep its contract: a gateway that merges what consoles send and gives DMX512
 frames, a desk that plays the cues of a show, a watch on the network with a
 page for browsers, and an explainer of recordings.
TEXT
  debian "sacn_${version}_$architecture.deb"
done

# The library for C, by processor: what programs load (libsacn1), and what they are built with (libsacn-dev).
for pair in x86_64:amd64 aarch64:arm64; do
  processor=${pair%:*} architecture=${pair#*:}
  triple=$processor-linux-gnu from=$release/$processor-linux
  root=$room/libsacn1_${version}_$architecture
  install -d "$root/DEBIAN" "$root/usr/lib/$triple" "$root/usr/share/doc/libsacn1"
  install -m 644 "$from/libsacn.so.1" "$root/usr/lib/$triple/"
  install -m 644 "$top/packaging/libsacn1.symbols" "$root/DEBIAN/symbols"
  echo "libsacn 1 libsacn1 (>= $(sed -n 's/.*@Base //p' "$top/packaging/libsacn1.symbols" | sort -V | tail -n 1))" >"$root/DEBIAN/shlibs"
  echo "activate-noawait ldconfig" >"$root/DEBIAN/triggers"
  news libsacn1 | packed "$root/usr/share/doc/libsacn1/changelog.gz"
  copyright >"$root/usr/share/doc/libsacn1/copyright"
  control "$architecture" libsacn1 "libc6 (>= 2.14)" libs same >"$root/DEBIAN/control" <<'TEXT'
Description: streaming ACN for stage lighting: shared library
 The proved cores of the node, the console, the merge of sources, universe
 discovery and the monitor of streaming ACN (ANSI E1.31-2018).
TEXT
  debian "libsacn1_${version}_$architecture.deb"

  root=$room/libsacn-dev_${version}_$architecture
  install -d "$root/DEBIAN" "$root/usr/include" "$root/usr/lib/$triple/pkgconfig" "$root/usr/share/doc/libsacn-dev/examples"
  install -m 644 "$top/include/sacn.h" "$top/bindings/cxx/sacn.hpp" "$root/usr/include/"
  install -m 644 "$from/libsacn.a" "$root/usr/lib/$triple/"
  ln -s libsacn.so.1 "$root/usr/lib/$triple/libsacn.so"
  printf 'Name: sacn\nDescription: Streaming ACN (ANSI E1.31-2018) over proved cores\nVersion: %s\nLibs: -lsacn\nLibs.private: -lc\n' "$version" >"$root/usr/lib/$triple/pkgconfig/sacn.pc"
  install -m 644 "$top/docs/LIBRARY.md" "$root/usr/share/doc/libsacn-dev/"
  install -m 644 "$top"/examples/c/*.c "$top"/examples/cxx/*.cpp "$root/usr/share/doc/libsacn-dev/examples/"
  news libsacn-dev | packed "$root/usr/share/doc/libsacn-dev/changelog.gz"
  copyright >"$root/usr/share/doc/libsacn-dev/copyright"
  control "$architecture" libsacn-dev "libsacn1 (= $version), libc6-dev | libc-dev" libdevel same >"$root/DEBIAN/control" <<'TEXT'
Description: streaming ACN for stage lighting: library for C and C++
 The proved cores of the node, the console, the merge of sources, universe
 discovery and the monitor of streaming ACN (ANSI E1.31-2018), with headers,
 an archive and examples.
TEXT
  debian "libsacn-dev_${version}_$architecture.deb"
done

root=$room/python3-sacn-core_${version}_all
install -d "$root/DEBIAN" "$root/usr/lib/python3/dist-packages" "$root/usr/share/doc/python3-sacn-core/examples"
install -m 644 "$top/bindings/python/sacn_core.py" "$root/usr/lib/python3/dist-packages/"
install -m 644 "$top"/examples/python/*.py "$root/usr/share/doc/python3-sacn-core/examples/"
news python3-sacn-core | packed "$root/usr/share/doc/python3-sacn-core/changelog.gz"
copyright >"$root/usr/share/doc/python3-sacn-core/copyright"
control all python3-sacn-core "libsacn1 (>= $version), python3 (>= 3.9)" python >"$root/DEBIAN/control" <<'TEXT'
Description: streaming ACN for stage lighting: module for Python
 One module over the shared library of libsacn1: the node, the console, the
 merge of sources, universe discovery, the monitor and packets of streaming ACN
 (ANSI E1.31-2018), with annotated types, exceptions and examples.
TEXT
debian "python3-sacn-core_${version}_all.deb"

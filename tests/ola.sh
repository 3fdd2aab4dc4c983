#!/usr/bin/env bash
# Runs a desk and a watch beside OLA (olad) and QLC+ (qlcplus), other programs that send and hear E1.31: a desk that is started again lights at once at
# OLA, which shows what a desk's page orders too, and a watch hears both by multicast. Each look (tests/ola.py) is in network namespaces of its own, beside the others.
# Prints a line 'ok NAME', 'not ok NAME: what was seen' or 'skipped NAME: why' for each check, and 'N passed, M failed' at the end.
# It takes the built program: crates/sacn/out/sacn, or the path in SACN; words name the looks that are wanted.
set -u
# shellcheck source=tests/lib.sh
. "$(dirname "$(readlink -f "$0")")/lib.sh"
export SACN=$sacn
export SACN_JOIN=${SACN_JOIN:-$top/release/$(uname -m)-linux/sacn-join}
looks=(olad_takes_a_desk_that_is_started_again olad_shows_what_a_desks_page_orders olad_shows_what_is_played a_watch_hears_olad a_watch_hears_qlcplus)
[ $# = 0 ] || looks=("$@")
[ -x "$SACN" ] || { echo "not ok ola: the program is built: $SACN isn't there"; exit 1; }
# (OLA isn't run by root, and reads its folder in there)
chmod 711 "$room"
trap 'exit 1' INT TERM HUP

# Why a look can't be had here; nothing where it can.
why_not() { # LOOK
  local other
  case $1 in *qlcplus*) other=qlcplus ;; *) other=olad ;; esac
  for it in "$other" python3 ip unshare nsenter setpriv; do
    command -v "$it" >/dev/null || { echo "there is no $it"; return; }
  done
  if [ "$(id -u)" != 0 ]; then echo "it wants root"; return; fi
  case $1 in a_watch_*) [ -x "$SACN_JOIN" ] || { echo "there is no sacn-join for this processor"; return; } ;; esac
  unshare -n true 2>/dev/null || echo "no network namespaces can be made here"
}

for look in "${looks[@]}"; do
  why=$(why_not "$look")
  if [ -n "$why" ]; then skips "$look" "$why" >"$room/$look"; continue; fi
  # (its own end comes long before; the second limit is for what doesn't heed the first)
  TMPDIR=$room SPACE=1 timeout -k 5 240 unshare -n python3 "$top/tests/ola.py" "$look" >"$room/$look" 2>"$room/$look.said" &
  echo $! >"$room/$look.pid"
done
for look in "${looks[@]}"; do
  status=0
  if [ -f "$room/$look.pid" ]; then wait "$(<"$room/$look.pid")" || status=$?; fi
  if [ "$status" = 77 ]; then skips "$look" "no network namespaces can be joined here" >"$room/$look"; status=0; fi
  if [ "$status" != 0 ]; then echo "not ok $look: it ended with status $status: $(tail -n 1 "$room/$look.said")" >>"$room/$look"; fi
  cat "$room/$look"
  passed=$((passed + $(grep -c '^ok ' "$room/$look")))
  failed=$((failed + $(grep -c '^not ok ' "$room/$look")))
done
echo "$passed passed, $failed failed"
[ "$failed" -eq 0 ]

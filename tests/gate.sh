#!/usr/bin/env bash
# The gate's way with must-fail edits, many to a check, over a small crate that the kit itself proves: what is refused for a goal of its own is, also where
# it is a function's second edit, and what would only fall with a function that it calls isn't. Prints 'ok NAME' or 'not ok NAME: why' for each, as ./test counts them.
set -u
# shellcheck source=tests/lib.sh
. "$(dirname "$(readlink -f "$0")")/lib.sh"
crate=$room/crates/sums
mkdir -p "$crate/src" "$crate/specs" "$crate/must-fail"
cp "$top/HANDLES" "$room/"
mkdir -p "$crate/further-edits"
echo "sums:" >"$room/crates.txt"
cat >"$crate/src/lib.rt" <<'RATTLE'
#![tactic(auto)]
//! Two sums and a number.
pub mod add;
pub mod laws;
pub mod limits;
RATTLE
echo "pub mod Sums" >"$crate/specs/Lib.antt"
cat >"$crate/specs/Sums.antt" <<'ANTT'
-- What the sums are.
use Rattle.std.specs.Prelude.{ℕ, ◌+◌}

-- the sum of three
abbrev pub of_three : ℕ → ℕ → ℕ → ℕ
of_three a b c = a + b + c
ANTT
cat >"$crate/src/limits.rt" <<'RATTLE'
//! A number.

/// The greatest summand.
pub const MOST: u8 = 100;
RATTLE
cat >"$crate/src/laws.rt" <<'RATTLE'
//! What the number is.
ghost use Rattle.std.specs.Prelude.{◌≡◌};
ghost use Rattle.sums.specs.declared.limits.TheConstants.{MOST};

/// The greatest summand is a hundred.
pub fn numbers()
    ensures most { MOST ≡ 100 }
{}
RATTLE
cat >"$crate/src/add.rt" <<'RATTLE'
//! Three sums.
ghost use Rattle.std.specs.Prelude.{◌≡◌, ◌+◌, ◌≤◌};
ghost use Rattle.sums.specs.Sums.{of_three};

/// One more.
pub fn next(n: u8) -> u8
    requires { n ≤ 200 }
    ensures { result ≡ n + 1 }
{
    n + 1
}

/// Two more.
pub fn after_next(n: u8) -> u8
    requires { n ≤ 100 }
    ensures { result ≡ n + 2 }
{
    next(next(n))
}

/// The sum of three.
pub fn all(a: u8, b: u8, c: u8) -> u8
    requires first { a ≤ 80 }
    requires second { b ≤ 80 }
    requires third { c ≤ 80 }
    ensures { result ≡ of_three a b c }
{
    let two = a + b;
    two + c
}
RATTLE
edit() { printf 'file: src/%s.rt\nold: %s\nnew: %s\n' "$2" "$3" "$4" >"$crate/${5:-must-fail}/$1.edit"; }
edit adds_two add "    n + 1" "    n + 2"
edit adds_three add "    n + 1" "    n + 3"
edit turned_round add "    n + 1" "    1 + n"
edit as_before add "    next(next(n))" "    next(n) + 1"
edit in_the_head add "    ensures { result ≡ n + 2 }" "    ensures { result ≡ n + 2 } { n } fn other(n: u8) -> u8 requires { n ≤ 100 } ensures { result ≡ n + 2 }"
printf '# falls in add::all\nfile: specs/Sums.antt\nold: of_three a b c = a + b + c\nnew: of_three a b c = a + b\n' >"$crate/must-fail/sum_of_two.edit"
edit another_most limits "pub const MOST: u8 = 100;" "pub const MOST: u8 = 99;"
edit adds_four add "    n + 1" "    n + 4" further-edits
# (two of them: kit 13f tries a single edit in its own way)
edit after_three add "    next(next(n))" "    next(next(next(n)))" further-edits

# (from nothing, also where an earlier run on this machine has tried the same)
said=$(cd "$room" && python3 "$top/tools/gate.py" --anew 2>&1)
status=$?
count() {
  grep -qE "$2" <<<"$said"
  verdict "$1" $? "$(tail -n 4 <<<"$said")"
}
# What the kit calls the functions of an impl of a trait whose own type is a path: by all its words.
named=$(cd "$top/tools" && python3 -B -c 'import texts; print(*texts.impl_of(["impl From<io::Error> for Fault {", "    fn from(error: io::Error) -> Fault {"], 1, "    ")[1])')
[ "$named" = "FaultFrom FaultFromIoError" ]
verdict "an impl is found by the kit's name" $? "$named"

# A copy of a function begins with its attributes, and not with what documents it.
first=$(cd "$top/tools" && python3 -B -c 'import texts; print(texts.first_attribute(["}", "/// [a]", "#[inline]", "#[tactic(auto)]", "fn f()"], 4))')
[ "$first" = 2 ]
verdict "a copy has its function's attributes" $? "from line $first"

count "a sum that is wrong is refused for its own goal" '^rt: must-fail sums/adds_three\.edit: refused, as it must be: add::next: '
count "and one more of that function in a copy of it" '^rt: must-fail sums/adds_two\.edit: refused, as it must be: add::next_edit[0-9]*: '
count "a body behind a head is its function's" '^rt: must-fail sums/in_the_head\.edit: refused, as it must be: add::after_next: '
count "a number falls by the law that states it" '^rt: must-fail sums/another_most\.edit: refused, as it must be: laws::numbers: '
count "another definition falls in the function that its edit names" '^rt: must-fail sums/sum_of_two\.edit: refused, as it must be: add::all: '
count "what falls only with what it calls, and what means the same, is tried alone" '^rt: sums: 5 of 7 edits refused together; one by one: as_before\.edit turned_round\.edit$'
count "what means the same with a function that it calls is told" '^rt: must-fail sums/as_before\.edit: NOT REFUSED'
count "what means the same is told" '^rt: must-fail sums/turned_round\.edit: NOT REFUSED'
count "the last line counts them, and the status says so (status $status)" "^6 passed, $((2 * status)) failed\$"

said=$(cd "$room" && env -u CI python3 "$top/tools/gate.py" further 2>&1)
status=$?
count "further edits are tried in the same way" '^rt: must-fail sums/adds_four\.edit: refused, as it must be: '
count "and those of must-fail are not (status $status)" "^3 passed, $status failed"

# One alone, which kit 13f tries in its own way.
rm "$crate/further-edits/after_three.edit"
said=$(cd "$room" && env -u CI python3 "$top/tools/gate.py" further --anew 2>&1)
status=$?
count "a further edit that stands alone is refused as well" '^rt: must-fail sums/adds_four\.edit: refused, as it must be: '
count "and is the only one that is tried (status $status)" "^2 passed, $status failed"

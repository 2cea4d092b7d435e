#!/usr/bin/env bash
# The function log2_scaled of the crate `logarithm`, called from C.
#
#   bench/log2.sh             ns a call beside glibc's log2, and the ratio, in several runs
#   bench/log2.sh compare N   N values against MPFR: each lies in the promised enclosure
#
# The crate exports no C function, so a crate that does is written beside a copy of it, outside the repository.
set -eu
root=$(cd "$(dirname "$0")/.." && pwd)

if [ ! -e /usr/include/mpfr.h ]; then
    { apt-get update && apt-get install -y libmpfr-dev; } >/dev/null 2>&1 || { echo "log2: libmpfr-dev is missing" >&2; exit 1; }
fi

work=$(mktemp -d)
trap 'rm -rf "$work"' EXIT
mkdir -p "$work/crates/log2_c/src"
(cd "$root" && find crates/laws crates/logarithm -path 'crates/*/out' -prune -o -type f -exec cp --parents -t "$work" {} +)
printf 'laws:\nlogarithm: laws\nlog2_c staticlib: logarithm\n' >"$work/crates.txt"

cat >"$work/crates/log2_c/src/lib.rt" <<'RATTLE'
// The logarithm, for C.
#![tactic(auto)]

const UNIT: u64 = 281474976710656;

// A value out of range has the answer 0.
fn log2_or_0(x: u64) -> u64 {
    if x < 1 {
        return 0;
    }
    if x < 2 * UNIT {
        return logarithm::log2_scaled(x);
    }
    0
}

// One call for all values.
#[unsafe(no_mangle)]
pub extern "C" fn log2_all(xs: &[u64], rs: &mut [u64]) {
    for (r, x) in rs.iter_mut().zip(xs) {
        *r = log2_or_0(*x);
    }
}
RATTLE

(cd "$work/crates/log2_c" && rt lib) >"$work/log" 2>&1 || { cat "$work/log" >&2; exit 1; }
archive=$work/crates/log2_c/out/liblog2_c.a
if objdump -d "$archive" | grep -qE '[[:space:]]i?div[a-z]*[[:space:]]'; then
    echo "log2: a division is left in the machine code" >&2
    exit 1
fi
cc -O2 -Wall -o "$work/log2" "$root/bench/log2.c" "$archive" -lmpfr -lgmp -lm
"$work/log2" "$@"

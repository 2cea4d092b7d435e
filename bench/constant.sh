#!/usr/bin/env bash
# The cost of a viscosity-gravity constant beside plain C.
#
#   bench/constant.sh         ns a constant and ratios, several repetitions, at both temperatures, for a lab's oils and over the full ranges
#   bench/constant.sh count   instructions a constant by valgrind's callgrind, which a noisy machine does not change
#
# Two of ours are measured: the C calls, one for each constant, and the calculation in one call for all oils. No C function does the second, so a crate
# that does is written beside a copy of those below it, outside the repository.
set -eu
case ${1:-time} in
time | count) ;;
*) sed -n '2,5p' "$0" >&2; exit 2 ;;
esac
. "$(dirname "$0")/measure.bash"

mkdir -p "$work/crates/constant_c/src" "$work/crates/constant_c/proofs/constants"
(cd "$root" && find crates/laws crates/logarithm crates/gravity_constant -path 'crates/*/out' -prune -o -type f -exec cp --parents -t "$work" {} +)
printf 'laws:\nlogarithm: laws\ngravity_constant: laws logarithm\nconstant_c staticlib: gravity_constant\n' >"$work/crates.txt"

cat >"$work/crates/constant_c/src/lib.rt" <<'RATTLE'
// Constants of many oils, for C.
#![tactic(auto)]

ghost use Rattle.std.specs.Prelude.{◌≡◌, ◌+◌, ◌<◌, ◌≤◌, length};

use gravity_constant::{Constant, Refusal, Temperature};

// The constant, or zeros where it is refused.
fn constant_or_zeros(answer: Result<Constant, Refusal>) -> Constant {
    answer.unwrap_or(Constant {
        thousandths: 0,
        lower: 0,
        upper: 0,
    })
}

fn put(out: &mut [i32], at: usize, x: i32)
    requires { at < length out.old }
    ensures { length out.new ≡ length out.old }
{
    out[at] = x;
}

// The three numbers of a constant, from place `at` on.
fn put_constant(out: &mut [i32], at: usize, c: Constant)
    requires { at + 3 ≤ length out.old }
    ensures { length out.new ≡ length out.old }
{
    put(out, at, c.thousandths);
    put(out, at + 1, c.lower);
    put(out, at + 2, c.upper);
}

// Each oil has three places of `out`.
fn constants(t: Temperature, viscosities: &[u32], densities: &[u32], out: &mut [i32]) {
    let mut i: usize = 0;
    let mut at: usize = 0;
    while i < viscosities.len() {
        if i >= densities.len() {
            return;
        }
        if out.len() - at < 3 {
            return;
        }
        let answer = gravity_constant::answer_constant(t, viscosities[i], densities[i]);
        put_constant(out, at, constant_or_zeros(answer));
        at += 3;
        i += 1;
    }
}

#[unsafe(no_mangle)]
pub extern "C" fn constants_40(viscosities: &[u32], densities: &[u32], out: &mut [i32]) {
    constants(Temperature::At40, viscosities, densities, out);
}

#[unsafe(no_mangle)]
pub extern "C" fn constants_100(viscosities: &[u32], densities: &[u32], out: &mut [i32]) {
    constants(Temperature::At100, viscosities, densities, out);
}
RATTLE

cat >"$work/crates/constant_c/proofs/constants/Invariants.antt" <<'ANTT'
-- Both indices stay within their slices, and the results keep their number.
use Rattle.std.specs.Prelude.{◌≡◌, ◌≤◌, ◌-◌, length}
use Rattle.constant_c.proofs.constants.Given as goal

abbrev pub invariant-loop-i : goal.invariant-loop-i
invariant-loop-i l = (l.i ≤ length l.viscosities) × (l.at ≤ length l.out) × (length l.out ≡ length l.fn.out)

abbrev pub decreases-loop-i : goal.decreases-loop-i
decreases-loop-i l = length l.viscosities - l.i
ANTT

(cd "$work/crates/constant_c" && rt lib) >"$work/log" 2>&1 || { cat "$work/log" >&2; exit 1; }
gcc -std=gnu11 -Wall -Wextra -Werror -O2 -I"$root/include" "$root/bench/constant.c" "$archive" "$work/crates/constant_c/out/libconstant_c.a" -lm -o "$work/constant"

if [ "${1:-time}" = time ]; then
    "$work/constant" time
    exit
fi
need valgrind
for oils in lab40 full40 lab100 full100; do
    for what in printed folded call many; do
        echo "$oils $what: $(($(of_two_passes "$work/constant" run $what $oils) / 4000)) instructions a constant"
    done
done

#!/usr/bin/env bash
# The cost of an index beside plain C and beside MPFR intervals.
#
#   bench/index.sh           ns a pair and ratios, several repetitions, for oils below H, above H and a planner's mix
#   bench/index.sh count     instructions a pair by valgrind's callgrind, which a noisy machine does not change
#   bench/index.sh size      code size of the archive's objects, and the stack that each call uses
set -eu
. "$(dirname "$0")/measure.bash"
need libmpfr-dev

awk -f "$root/bench/table.awk" "$root/data/table1.txt" >"$work/table.h"
gcc -std=gnu11 -Wall -Wextra -Werror -O2 -I"$root/include" -I"$work" "$root/bench/index.c" "$archive" -lmpfr -lgmp -lm -o "$work/index"

case ${1:-time} in
time) "$work/index" time ;;
count)
    need valgrind
    for oils in below above mix; do
        for what in plain printed sheet pair interval; do
            echo "$oils $what: $(($(of_two_passes "$work/index" run $what $oils) / 4000)) instructions a pair"
        done
    done
    ;;
size)
    size "$archive"
    gcc -std=gnu11 -Wall -Wextra -Werror -O2 -I"$root/include" "$root/bench/stack.c" "$archive" -o "$work/stack"
    "$work/stack"
    ;;
*) sed -n '2,6p' "$0" >&2; exit 2 ;;
esac

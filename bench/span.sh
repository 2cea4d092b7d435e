#!/usr/bin/env bash
# The cost of a span beside a vi_pair for each of its pairs and beside plain C.
#
#   bench/span.sh               ns a span and ratios, several repetitions, for oils above H, below H, a planner's mix and others, and for narrow spans
#   bench/span.sh count         instructions a span by valgrind's callgrind, which a noisy machine does not change
#   bench/span.sh sweep         the ratio to the pairs while the index rises, at some y1, until it is above the target or u1 cannot be less
#   bench/span.sh sweep-count   the same in instructions, until u1 cannot be less
set -eu
case ${1:-time} in
time | sweep | count | sweep-count) ;;
*) sed -n '2,7p' "$0" >&2; exit 2 ;;
esac
. "$(dirname "$0")/measure.bash"

awk -f "$root/bench/table.awk" "$root/data/table1.txt" >"$work/table.h"
gcc -std=gnu11 -Wall -Wextra -Werror -O2 -I"$root/include" -I"$work" "$root/bench/span.c" "$archive" -lm -o "$work/span"

swept='2000 2200 2400 2600 3000 5000 10000' # y1

of_a_span() { # WHAT KIND
    echo $(($(of_two_passes "$work/span" run "$@") / 600))
}

ratio_of() { # KIND
    local pairs span
    pairs=$(of_a_span pairs "$1")
    span=$(of_a_span span "$1")
    echo "$1 $span $pairs" | awk '{ printf "%s span: %d, pairs: %d instructions a span, ratio %.3f\n", $1, $2, $3, $2 / $3 }'
}

case ${1:-time} in
time) "$work/span" time ;;
sweep) "$work/span" sweep $swept ;;
count)
    need valgrind
    for kind in $("$work/span" list); do
        for what in plain pairs span; do
            echo "$kind $what: $(of_a_span $what "$kind") instructions a span"
        done
    done
    ;;
sweep-count)
    need valgrind
    for y1 in $swept; do
        index=100
        while "$work/span" run span $y1:$index 0 2>/dev/null; do
            ratio_of $y1:$index
            index=$((index + 100))
        done
        ratio_of $y1:thin
    done
    ;;
esac

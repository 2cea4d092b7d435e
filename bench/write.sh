#!/usr/bin/env bash
# The cost of writing a sheet beside plain C that writes the same, and its share where the sheet is worked too.
#
#   bench/write.sh         ns a pair and ratios, several repetitions, for sheets of 1 pair, of 60 and of 2,000, one of 60 again and again, and one of
#                          2,000 at an odd address
#   bench/write.sh count   instructions a pair by valgrind's callgrind, which a noisy machine does not change
set -eu
case ${1:-time} in
time | count) ;;
*) sed -n '2,6p' "$0" >&2; exit 2 ;;
esac
. "$(dirname "$0")/measure.bash"
awk -f "$root/bench/table.awk" "$root/data/table1.txt" >"$work/table.h"
build_aligned "$work/write" "$root/bench/write.c" -lm

if [ "${1:-time}" = time ]; then
    "$work/write" time
    exit
fi
need valgrind
"$work/write" list >"$work/cases"
while read -r name pairs; do
    for what in bare shifts optimized bytes copy call work both; do
        of_two_passes "$work/write" run $what "$name" | awk -v what="$name $what" -v pairs="$pairs" \
            '{ printf "%s: %.1f instructions a pair\n", what, $1 / pairs / 2 }'
    done
done <"$work/cases"

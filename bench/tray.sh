#!/usr/bin/env bash
# The cost of a put, a take and a summary beside plain C with the same tray, which keeps its summary too.
#
#   bench/tray.sh         ns a call and ratios, several repetitions, with none, 1, 63 or 64 samples held, puts and takes for an oil by A and one by B;
#                         the sample that is taken is the only one, or has an index between the lowest and the highest, or the lowest
#   bench/tray.sh count   instructions a call by valgrind's callgrind, which a noisy machine does not change
set -eu
case ${1:-time} in
time | count) ;;
*) sed -n '2,6p' "$0" >&2; exit 2 ;;
esac
. "$(dirname "$0")/measure.bash"
build_aligned "$work/tray" "$root/bench/tray.c"

of_tray() { # WHAT CASE OIL
    of_two_passes "$work/tray" run "$@"
}

if [ "${1:-time}" = time ]; then
    "$work/tray" time
    exit
fi
need valgrind
bare=$(of_tray bare put-first A)
for oil in A B; do
    echo "oil by $oil, vi_pair alone: $((($(of_tray pair put-first $oil) - bare) / 4000)) instructions"
done
"$work/tray" list >"$work/cases"
while read -r name oil; do
    for what in plain call; do
        echo "$name $oil $what: $((($(of_tray $what "$name" "$oil") - bare) / 4000)) instructions a call"
    done
done <"$work/cases"
echo "subtracted from each: $((bare / 4000)) of the bare loop"

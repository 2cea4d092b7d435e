#!/usr/bin/env bash
# Works constants by the library, with samples/constants.c, and audits their records: some by whole powers; the limits of all ranges and 20,000
# spread over them in quick mode; and records changed by hand, each of which the audit must refuse. On 10,000 records at the edge of what
# is right it must give the verdict of tests/audit/constant_edges.py.
#
#   tests/audit-constants.sh                what the gate runs, less than a minute
#   tests/audit-constants.sh 40 9500 8700   one constant of your own by whole powers: the temperature, the viscosity in thousandths of a
#                                           mm²/s and the density in 0.0001 g/ml, 9500 for 9.500 and 8700 for 0.8700
#
# tests/audit-command.sh tries the options, and the lines that are no records.
set -euo pipefail
. "$(dirname "$0")/compare/common.sh"
have_headers
find_archive
bash "$root/audit/build.sh" "$work/audit" || die "building the audit"
build constants -I"$root/include" "$root/samples/constants.c" "$archive"
for compiler in 'gcc -std=c99' 'g++ -x c++'; do
    $compiler -Wall -Wextra -Werror -fsyntax-only -I"$root/include" "$root/samples/constants.c" || die "samples/constants.c by $compiler"
done

if [ $# -eq 3 ]; then
    echo "$1 $2 $3" | "$work/constants" >"$work/one" || die "no constant of $1 $2 $3"
    "$work/audit" --constants "$work/one" || die "the audit ends with exit code $?"
    exit 0
fi
[ $# -eq 0 ] || die "usage: tests/audit-constants.sh [temperature viscosity density], whole numbers, 40 9500 8700 for 9.500 mm²/s and 0.8700 g/ml"

# audited WHAT OPTIONS ..: the questions on standard input get records that the audit finds right.
audited() {
    "$work/constants" >"$work/records" || die "$1: no constant"
    "$work/audit" "${@:2}" --constants "$work/records" >"$work/out" || { grep WRONG "$work/out"; die "$1: the audit refuses a record"; }
    echo "$1: $(tail -n 1 "$work/out")"
}

# holds PATTERN: some record matches.
holds() { grep -Eq "$1" "$work/records" || die "no record is $1"; }

# ---- by whole powers ----

# The logarithm: above zero; below it; exactly 0 and exactly -3, where both sides are the same number. x is 4000, 81 * 500, 1700, 500.
printf '%s\n' '40 9500 8700' '40 46000 8750' '100 2500 8700' '100 1300 8700' '40 6500 8600' '100 1800 9000' '40 5501 5000' '100 801 5000' |
    audited "whole powers"
grep -q '5^26968' "$work/out" || die "no powers were worked out"
holds '^40 9500 8700 0 840 '
holds '^100 1800 9000 0 880 '
holds '^100 1300 .* -[0-9]+ -[0-9]+$'

echo '40 9500 8700' | "$work/constants" >"$work/records" || die "no constant of docs/EVIDENCE.md"
grep -Fq "The file then has the line \`$(cat "$work/records")\`:" "$root/docs/EVIDENCE.md" || die "docs/EVIDENCE.md shows another record"

# ---- quick ----

for viscosity in '40 5500' '40 5501' '40 6500' '40 1000000000' '40 1000000001' '40 0' '40 4294967295' \
    '100 800' '100 801' '100 1800' '100 500000' '100 500001' '100 0' '100 4294967295'; do
    for density in 0 4999 5000 8700 15000 15001 4294967295; do echo "$viscosity $density"; done
done | audited "limits" --quick
holds '^40 1000000000 5000 0 -905 '
holds '^40 1000000000 15000 0 2592 '
holds '^40 1000000001 4999 21$'
holds '^100 500001 15001 21$'
holds '^100 801 4999 22$'
holds '^100 500000 15001 22$'
[ "$(awk 'NF == 7' "$work/records" | wc -l)" -eq 18 ] || die "not just 18 of the limits are answered"

awk 'BEGIN {
    for (i = 0; i < 10000; i++) {
        print 40, int(5500 + exp(log(999994500) * i / 9999) + 0.5), 5000 + i * 7919 % 10001
        print 100, int(800 + exp(log(499200) * i / 9999) + 0.5), 5000 + i * 6101 % 10001
    }
}' | audited "spread" --quick
grep -q ': 20000 records checked' "$work/out" || die "the spread has not 20,000 records"

# ---- the audit against constant_edges.py, record by record ----

edges=$root/tests/audit/constant_edges.py
judged=0 refused=0
for seed in 1 2 3 4 5; do
    python3 "$edges" questions $seed | "$work/constants" >"$work/records" || die "working the edges"
    python3 "$edges" change $seed "$work/records" "$work/changed" "$work/expected" || die "changing the edges"
    "$work/audit" --quick --constants "$work/changed" >"$work/out" || true
    sed -n 's/^ *WRONG: record \([0-9]*\):.*/\1/p' "$work/out" >"$work/found"
    cmp -s "$work/expected" "$work/found" ||
        die "the audit and constant_edges.py differ, seed $seed, record $(diff "$work/expected" "$work/found" | sed -n 2p)"
    judged=$((judged + 2000))
    refused=$((refused + $(wc -l <"$work/found")))
done
[ $refused -gt 1000 ] && [ $refused -lt $((judged - 1000)) ] || die "the edges are one-sided: $refused of $judged"
echo "audit and constant_edges.py: the same verdict on $judged records at the edge, $refused of them refused"

# ---- changed records ----

# refuses WHAT REASON RECORD: the audit must find this record wrong, and for this reason
mode=--quick
changes=0
refuses() {
    local code=0
    echo "$3" | "$work/audit" $mode --constants - >"$work/out" 2>&1 || code=$?
    [ $code = 1 ] && grep -q "WRONG: record 0: $2" "$work/out" || die "not refused, or for another reason: $1: $3"
    changes=$((changes + 1))
}

# Numerators are free, so that one more or less may be right as well. Those made here are wrong of any library: the whole numbers beside the
# logarithm times Q are known, and k is changed where the formula is not near a half.
# changed TEMPERATURE VISCOSITY DENSITY K BELOW ABOVE: k and those whole numbers
changed() {
    local oil="$1 $2 $3" k=$4 below=$5 above=$6 before=$changes
    echo "$oil 0 $k $below $above" | "$work/audit" --quick --constants - >"$work/out" || die "not right: $oil 0 $k $below $above"
    refuses "k + 1" "k is not" "$oil 0 $((k + 1)) $below $above"
    refuses "k - 1" "k is not" "$oil 0 $((k - 1)) $below $above"
    refuses "-k" "k is not" "$oil 0 $((-k)) $below $above"
    refuses "k of all ones" "k is not" "$oil 0 2147483647 $below $above"
    refuses "the least k" "k is not" "$oil 0 -2147483648 $below $above"
    refuses "lower one above the logarithm" "the lower fraction is above" "$oil 0 $k $((below + 1)) $((above + 1))"
    refuses "upper one below the logarithm" "the upper fraction is below" "$oil 0 $k $((below - 1)) $((above - 1))"
    refuses "exchanged" "the lower numerator is above" "$oil 0 $k $((above + 1)) $below"
    refuses "65 apart" "the numerators are more than 64 apart" "$oil 0 $k $((above - 65)) $above"
    refuses "65 apart upwards" "the numerators are more than 64 apart" "$oil 0 $k $below $((below + 65))"
    refuses "all there is apart" "the numerators are more than 64 apart" "$oil 0 $k -2147483648 2147483647"
    refuses "the least numerators" "a numerator is more than 64 from" "$oil 0 $k -2147483648 -2147483648"
    refuses "the greatest numerators" "a numerator is more than 64 from" "$oil 0 $k 2147483647 2147483647"
    refuses "the signs turned" "a numerator\|k is not\|the .* fraction is" "$oil 0 $k $((-above - 1)) $((-below - 1))"
    refuses "refused by 21" "the number is not" "$oil 21"
    refuses "refused by 22" "the number is not" "$oil 22"
    refuses "refused by 23" "refused by 23, and the divisor is above zero" "$oil 23"
    refuses "the row's number" "the number is not" "$oil 5"
    echo "refused: $oil, $((changes - before)) changes of k $k, $below and $above"
}
changed 40 9500 8700 840 10100890 10100891
changed 40 1000000000 5000 -905 100663255 100663256
changed 40 6500 8600 844 0 0
changed 40 5600 8700 876 -16777216 -16777216
changed 100 2500 8700 835 3866291 3866292
changed 100 1300 8700 861 -5050446 -5050445
changed 100 801 15000 1485 -50331648 -50331648
refuses "21 answered" "the number is not" "40 5500 8700 0 840 -50331648 -50331648"
refuses "21 answered, from above" "the number is not" "100 500001 8700 0 665 45269536 45269537"
refuses "22 answered" "the number is not" "40 9500 4999 0 415 10100890 10100891"
refuses "22 where 21 belongs" "the number is not" "40 5500 4999 22"
refuses "21 where 22 belongs" "the number is not" "100 801 15001 21"
refuses "23 where 21 belongs" "the number is not" "100 800 8700 23"
refuses "the other temperature's answer" "k is not\|the .* fraction is" "100 9500 8700 0 840 10100890 10100891"
mode=                           # whole powers have to refuse as well
refuses "lower one above, by whole powers" "the lower fraction is above" "40 9500 8700 0 840 10100891 10100892"
refuses "upper one below, by whole powers" "the upper fraction is below" "100 1300 8700 0 861 -5050447 -5050446"

# ---- the lines of samples/constants.c ----

# no_line LINES PATTERN: they are not taken, and standard error says which and why
no_line() {
    local code=0
    printf %b "$1" | "$work/constants" >"$work/out" 2>"$work/err" || code=$?
    [ $code = 2 ] && grep -q "^line $2 is not 40 or 100, a viscosity and a density" "$work/err" || die "samples/constants.c takes '$1'"
}
for line in '41 9500 8700' '40 9500' '40 9500 8700 0' '40 -9500 8700' '+40 9500 8700' '40 9.500 8700' '40 4294967296 8700' \
    '40 9500 99999999999999999999' 'forty 1 2' '40 9500 8700x' "$(printf '4%.0s' {1..300})" "#$(printf ' %.0s' {1..1100})"; do
    no_line "$line\n" "1: \"${line:0:60}\""
    no_line "\n# oils\n40 9500 8700\n$line" "4: \"${line:0:60}\""
done
said=$(printf '\n# oils\n 40\t9500 8700 \r\n' | "$work/constants") && [[ $said =~ ^"40 9500 8700 0 840 "[0-9]+" "[0-9]+$ ]] || die "blanks are not taken: $said"
! echo '40 9500 8700' | "$work/constants" >/dev/full 2>"$work/err" || die "samples/constants.c passes on a full disk"
grep -q 'No space left' "$work/err" || die "samples/constants.c does not say that the disk is full"

echo "audit-constants: passed: 8 records by whole powers, 20,000 and the limits in quick mode, $judged at the edge judged as by constant_edges.py, $changes changed records refused"

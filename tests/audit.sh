#!/usr/bin/env bash
# Works a sheet by the library and audits it: two records by B, one settled and
# one near, by whole powers, and three by A that are exactly a half; the whole of
# a full sheet in quick mode; and records changed by hand, each of which the audit
# must refuse. On 10,000 records at the edge of what is right it must give the
# verdict of the comparison's own code.
#
# The near one, u 144936 y 16776, has an exact index so close to 124.5 that no p
# and P settle it. Both were chosen because H/U has small terms: (22830, 5050),
# document 01's own, is 5795/4566; the other is 223/183. Less than a minute in all.
#
#   tests/audit.sh                  what the gate runs
#   tests/audit.sh 2467594 425516   one pair of your own by whole powers: u and y in
#                                   thousandths of a mm²/s, 28489 for 28.489
#
# tests/audit-command.sh tries the options, and what holds nothing to check.
set -euo pipefail
. "$(dirname "$0")/compare/common.sh"
have_headers
find_archive
bash "$root/audit/build.sh" "$work/audit" || die "building the audit"
build make_sheet "$root/tests/audit/make_sheet.c" "$archive"

if [ $# -eq 2 ]; then
    echo "$1 $2" | "$work/make_sheet" >"$work/one.sheet" ||
        die "no sheet of $1 and $2: u and y are whole numbers of thousandths of a mm²/s, 28489 for 28.489"
    "$work/audit" "$work/one.sheet" || die "the audit ends with exit code $?"
    exit 0
fi
[ $# -eq 0 ] || die "usage: tests/audit.sh [u y], whole numbers of thousandths of a mm²/s, 28489 for 28.489"

# ---- two records by whole powers, three exactly a half ----

small=$work/small.sheet
printf '%s\n' '73300 8860' '22830 5050' '20000 1999' '144936 16776' '7986 2000' '8034 2000' '7970 2000' | "$work/make_sheet" >"$small" ||
    die "the small sheet is refused"
first=21                        # make_sheet puts the result block here
byte() { od -An -tu1 -N1 -j "$2" "$1" | tr -d ' '; }
word() { od -An -tu4 -N4 -j "$2" "$1" | tr -d ' '; }
at() { echo $((first + 16 * $1 + $2)); }
[ "$(byte "$small" "$(at 1 1)")" = 2 ] || die "22.830 5.050 is not settled"
[ "$(byte "$small" "$(at 3 1)")" = 3 ] || die "144.936 16.776 is not near"
"$work/audit" --record 1 --record 3 --record 4 --record 5 --record 6 "$small" || die "the audit refuses a record"

# ---- a full sheet, quick ----

full=$work/full.sheet
{
    printf '%s\n' '73300 8860' '22830 5050' '20000 1999' '2000 2000' '1000000001 2000' '5 500001' '2001 2000' \
        '500001 500000' '1000000000 2000' '9780 4000'
    awk '!/^#/ && NR % 5 == 0 { print $2, $3 }' "$root/data/hard-cases.txt"
    awk 'BEGIN { for (i = 0; i < 2000; i++) { y = 2000 + i * 249; print int(y * (2 + i % 23)), y } }'
} >"$work/pairs"
head -n 2000 "$work/pairs" >"$work/pairs.2000"  # two steps: a pipe cut short is an error here
"$work/make_sheet" <"$work/pairs.2000" >"$full" || die "the full sheet is refused"
"$work/audit" --quick "$full" >"$work/out" || { grep WRONG "$work/out"; die "the audit refuses a record"; }
grep -q '2000 records checked' "$work/out" || die "the full sheet has not 2,000 records"
tail -n 1 "$work/out"
"$work/audit" --quick --sample 20 --seed 3 "$full" | tail -n 1

# ---- the audit against oil.c, record by record ----

build edges "$root"/tests/audit/edges.c "$root"/tests/compare/oil.c "$archive"
judged=0 refused=0
for seed in 1 2 3 4 5; do
    "$work/edges" $seed "$work/edge.sheet" "$work/expected" || die "making the sheet of edges"
    "$work/audit" --quick "$work/edge.sheet" >"$work/out" || true
    sed -n 's/^ *WRONG: record \([0-9]*\):.*/\1/p' "$work/out" >"$work/found"
    cmp -s "$work/expected" "$work/found" ||
        die "the audit and oil.c differ, seed $seed, record $(diff "$work/expected" "$work/found" | sed -n 2p)"
    judged=$((judged + 2000))
    refused=$((refused + $(wc -l <"$work/found")))
done
[ $refused -gt 1000 ] && [ $refused -lt $((judged - 1000)) ] || die "the edges are one-sided: $refused of $judged"
echo "audit and oil.c: the same verdict on $judged records at the edge, $refused of them refused"

# ---- changed records ----

# poke OFFSET VALUE LENGTH: the number, least byte first, into the changed copy
poke() {
    local i bytes=
    for ((i = 0; i < $3; i++)); do bytes+=$(printf '\\x%02x' $((($2 >> (8 * i)) & 255))); done
    printf "$bytes" | dd of="$work/changed" bs=1 seek="$1" conv=notrunc status=none
}

# refuses RECORD NAME OFFSET VALUE LENGTH: with this change the audit must fail
mode=--quick
refuses() {
    cp "$small" "$work/changed"
    poke "$(at "$1" "$3")" "$4" "$5"
    local code=0
    "$work/audit" $mode --record "$1" "$work/changed" >"$work/out" 2>&1 || code=$?
    [ $code = 1 ] || die "not refused: record $1, $2"
    echo "refused: record $1, $2: $(sed -n 's/^ *WRONG: record [0-9]*: //p' "$work/out")"
    changes=$((changes + 1))
}

# p - 1 or P + 1 may be true as well, since document 01 leaves p and P free. The
# changes made here are false of any p and P: p = P + 1 is above Q*N, P = p - 1
# below it, p = 0 shows no index above 100.5, P = 2Q - 1 none in question.
changes=0
for i in 1 3; do
    index=$(word "$small" "$(at $i 4)")
    p=$(word "$small" "$(at $i 8)")
    P=$(word "$small" "$(at $i 12)")
    refuses $i "index + 1" 4 $((index + 1)) 4
    refuses $i "index - 1" 4 $((index - 1)) 4
    refuses $i "p = P + 1" 8 $((P + 1)) 4
    refuses $i "P = p - 1" 12 $((p - 1)) 4
    refuses $i "p = 0" 8 0 4
    refuses $i "P = 2Q - 1" 12 33554431 4
    refuses $i "P of all ones" 12 4294967295 4
    refuses $i "p of all ones" 8 4294967295 4
    refuses $i "the mark flipped" 1 $((5 - $(byte "$small" "$(at $i 1)"))) 1
    refuses $i "method A" 1 1 1
    refuses $i "byte 2" 2 1 1
    refuses $i "byte 3" 3 128 1
    refuses $i "a number" 0 4 1
done
refuses 0 "index + 1" 4 93 4
refuses 0 "method B" 1 2 1
refuses 4 "0.5 to the greater number" 4 1 4
refuses 4 "0.5 beyond both numbers beside it" 4 4294967295 4
refuses 5 "−2.5 by its size, to −3" 4 4294967293 4
refuses 5 "−2.5 to −1" 4 4294967295 4
refuses 6 "1.5 to the smaller number" 4 1 4
refuses 0 "p not zero" 8 1 4
refuses 2 "answered" 0 0 1
refuses 2 "another number" 0 2 1
refuses 2 "an index" 4 100 4
mode=                           # whole powers have to refuse as well
refuses 3 "p = P + 1, by whole powers" 8 $((P + 1)) 4

echo "audit: passed: 2 records by whole powers and 3 that are exactly a half, a sheet of 2,000 in quick mode, $judged at the edge judged as by oil.c, $changes changed records refused"

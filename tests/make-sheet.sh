#!/usr/bin/env bash
# samples/make-sheet: the sheet of its numbers and of its lines, and what it does not take, with the pair or the line; and how it comes by the library.
set -u
cd "$(dirname "$0")/.." || exit 1
unset VI_LIBRARY
tools/build shared >/dev/null || { echo "make-sheet: FAILED: tools/build shared"; exit 1; }
work=$(mktemp -d)
trap 'rm -rf "$work"' EXIT
checks=0
bad=0

# expect WHAT STATUS ERR LINES WORDS ..: the exit status, and a pattern of a line of standard error, with these lines on standard input;
# nothing is written where the status is not 0, and nothing said where it is.
expect() {
    local what=$1 status=$2 err=$3 lines=$4 got
    shift 4
    checks=$((checks + 1))
    printf %b "$lines" | samples/make-sheet "$@" >"$work/out" 2>"$work/err"
    got=$?
    if [ "$got" -ne "$status" ] || ! grep -q -e "$err" <(cat "$work/err"; echo) ||
        { [ "$status" -ne 0 ] && [ -s "$work/out" ]; } || { [ "$status" -eq 0 ] && [ -s "$work/err" ]; }; then
        echo "make-sheet, $what: status $got, wrote $(wc -c <"$work/out") bytes, said: $(tail -n 1 "$work/err" | cut -c 1-200)"
        bad=1
    fi
}

# same WHAT FILE: what was written is this file.
same() {
    checks=$((checks + 1))
    cmp "$work/out" "$2" || { echo "make-sheet, $1: another sheet"; bad=1; }
}

expect "numbers" 0 '' '' 73300 8860 22830 5050 20000 1999
same "numbers" samples/three.sheet
expect "lines" 0 '' '73300 8860\n22830 5050\n20000 1999\n'
same "lines" samples/three.sheet
expect "blanks, and no end of the last line" 0 '' ' 73300\t8860\r\n22830  5050\n20000 1999 '
same "blanks" samples/three.sheet
printf '\1\0\0\0\20\0\0\0\30\0\0\0\50\0\0\0\377\377\377\377\0\0\0\0\0\0\0\0\0\0\0\0\0\0\0\0\0\0\0\0' >"$work/edges"
expect "the greatest number and the least" 0 '' '' 4294967295 0
same "the greatest number and the least" "$work/edges"
expect "2,000 lines" 0 '' "$(yes '73300 8860\n' | head -n 2000 | tr -d '\n')"

no='is not two whole numbers of thousandths, .* 28489 for 28.489'
for pair in '28.489 5.000' 'foo bar' 1 '1 2x' '-1 2' '1 -2' '+1 2' '1,2 3' '1_0 2' '4294967296 2' '2 99999999999999999999' '² 2'; do
    expect "'$pair'" 1 "^make-sheet: line 1: \"$pair\" $no" "$pair\n"
    expect "'$pair' after a pair" 1 "^make-sheet: line 2: \"$pair\" $no" "73300 8860\n$pair\n"
    expect "'$pair' as numbers" 1 "^make-sheet: pair 2: \"$pair\" $no" '' 73300 8860 $pair
done
expect "three words" 1 "^make-sheet: line 1: \"1 2 3\" $no" '1 2 3\n'
expect "an empty line" 1 "^make-sheet: line 2: \"\" $no" '73300 8860\n\n20000 1999\n'
expect "no lines" 1 '^make-sheet: 0 pairs; a sheet here has 1 to 2000' ''
expect "2,001 lines" 1 '^make-sheet: 2001 pairs; a sheet here has 1 to 2000' "$(yes '73300 8860\n' | head -n 2001 | tr -d '\n')"

expect "--help" 0 '' '' --help
grep -q '^make-sheet \[U Y\]\.\.\.: ' "$work/out" || { echo "make-sheet, --help: no usage"; bad=1; }
checks=$((checks + 1))
said=$(samples/make-sheet 1 2 2>&1 >/dev/full) && { echo "make-sheet, a full disk: status 0"; bad=1; }
[ "$said" = "make-sheet: No space left on device" ] || { echo "make-sheet, a full disk: $said"; bad=1; }

# ---- the library, in a copy of the scripts with a tools/build of this test's own

real=$PWD/target/shared/libviscosity_index.so
top=$work/top
python=$(python3 -c 'import sys; print(sys.executable)')
mkdir -p "$top/samples" "$top/tools" "$work/with-rt" "$work/without"
cp samples/make-sheet samples/writer.py "$top/samples"
printf '#!/bin/sh\n' | tee "$work/with-rt/rt" >"$top/tools/build"
chmod +x "$work/with-rt/rt" "$top/tools/build"

# makes WHAT STATUS ERR FOLDER BUILD: the exit status and a pattern of a line of standard error, empty for nothing said, where the commands are those of
# FOLDER and BUILD is what tools/build does; where the status is 0, the three pairs are written.
makes() {
    local what=$1 status=$2 err=$3 got
    printf '#!/bin/sh\nPATH=/usr/bin:/bin\n%s\n' "$5" >"$top/tools/build"
    checks=$((checks + 1))
    PATH=$work/$4 "$python" "$top/samples/make-sheet" 73300 8860 22830 5050 20000 1999 >"$work/out" 2>"$work/err"
    got=$?
    if [ "$got" -ne "$status" ] || ! grep -q -e "$err" <(cat "$work/err"; echo) || { [ -z "$err" ] && [ -s "$work/err" ]; }; then
        echo "make-sheet, $what: status $got, said: $(tail -n 1 "$work/err" | cut -c 1-200)"
        bad=1
    fi
    [ "$status" -ne 0 ] || same "$what" samples/three.sheet
}
built="cd '$top'; mkdir -p target/shared; cp '$real' target/shared"

makes "no kit, and no library" 1 'rt, .* is not on the path; it has to be' without false
makes "a library that cannot be built" 1 '^why not$' with-rt 'echo why not; exit 1'
rm -rf "$top/target"
makes "the first time" 0 'proving and building the library .* takes some minutes' with-rt "$built"
makes "the second time" 0 '' with-rt "$built"
makes "no kit" 0 'rt, .* is not on the path: the library is used as it is' without false
makes "a library that no longer builds" 1 'the library could not be built' with-rt false
export VI_LIBRARY=$real
makes "a library that is named" 0 '' without false
VI_LIBRARY=$work/none
makes "no library of that name" 1 "/none is no library that can be used: " without false
VI_LIBRARY=$work/out
makes "a file that is no library" 1 "/out is no library that can be used: " without false

[ $bad -eq 0 ] && echo "make-sheet: ok, $checks checks"
exit $bad

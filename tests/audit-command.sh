#!/usr/bin/env bash
# The audit passes nothing that it did not check: its usage, its options, the sheets that hold nothing to check, the lines that are no
# constants, a report that cannot be written; and the numbers that tests/audit/make_sheet.c and tests/audit.sh do not take. All in quick mode, a few seconds.
set -u
. "$(dirname "$0")/compare/common.sh"
have_headers
find_archive
bash "$root/audit/build.sh" "$work/audit" || die "building the audit"
build make_sheet "$root/tests/audit/make_sheet.c" "$archive"
cd "$root" || die "no folder $root"
ulimit -f 65536 # a run without end stops at 64 MiB
checks=0
bad=0

# holds FILE PATTERN: some line matches; the file is empty where the pattern is.
holds() {
    if [ -z "$2" ]; then [ ! -s "$1" ]; else grep -q -e "$2" "$1"; fi
}

# expect WHAT STATUS OUT ERR COMMAND ..: the exit status, a pattern of a line of standard output, one of standard error.
expect() {
    local what=$1 status=$2 out=$3 err=$4 got
    shift 4
    checks=$((checks + 1))
    timeout 60 "$@" >"$work/out" 2>"$work/err"
    got=$?
    if [ "$got" -ne "$status" ] || ! holds "$work/out" "$out" || ! holds "$work/err" "$err"; then
        echo "$name, $what: status $got, printed: $(tail -n 1 "$work/out" | tr -d '\0' | cut -c 1-200), said: $(tail -n 1 "$work/err" | cut -c 1-200)"
        bad=1
    fi
}

# nothing WHAT ERR WORDS ..: with these words the audit checks nothing and says why.
nothing() {
    expect "$1" 2 '' "^audit: nothing was checked: $2" "$work/audit" --quick "${@:3}"
}

# passes WHAT OUT WORDS ..: with these words it passes.
passes() {
    expect "$1" 0 "^audit: $2" '' "$work/audit" --quick "${@:3}"
}

printf '%s\n' '73300 8860' '22830 5050' '20000 1999' | "$work/make_sheet" >"$work/worked" || die "making the sheet"
first=21 # make_sheet puts the result block here
awk 'BEGIN { for (i = 0; i < 2000; i++) print 9000 + 7 * i, 2000 + i }' | "$work/make_sheet" >"$work/full" || die "making the full sheet"

# ---- the usage ----

for word in --quick '--constants FILE' 'temperature viscosity density number' '- is standard input' '--record I .* counted from 0' '--sample N' '--seed S' --help '^  0  every' '^  1  a record' '^  2  nothing'; do
    expect "--help, $word" 0 "$word" '' "$work/audit" --help
    expect "-h, $word" 0 "$word" '' "$work/audit" -h
done
nothing "no sheet" "no sheet is named; audit --help"
nothing "two sheets" "two sheets are named" "$work/worked" "$work/full"
nothing "no option" "--quack is no option" --quack "$work/worked"

# ---- the numbers of options ----

for option in --record --sample --seed; do
    nothing "$option at the end" "$option without a number" "$work/worked" $option
    for number in -3 +1 1x x 0x1 1.5 ' 1' '' 18446744073709551616 18446744073709551617; do
        nothing "$option '$number'" "$option $number: a whole number from " $option "$number" "$work/worked"
    done
done
nothing "--sample 0" "--sample 0: a whole number from 1 " --sample 0 "$work/worked"
nothing "--sample 2^32" "--sample 4294967296" --sample 4294967296 "$work/worked"
nothing "--record 2^32" "--record 4294967296" --record 4294967296 "$work/worked"
passes "the greatest seed" "passed: 3 records" --seed 18446744073709551615 "$work/worked"

# ---- the records chosen ----

passes "all" "passed: 3 records checked" "$work/worked"
passes "the first record is 0" "passed: 1 record checked" --record 0 "$work/worked"
grep -q 'u 73300 y 8860' "$work/out" || die "--record 0 is not the first pair"
passes "the last record" "passed: 1 record checked" --record 2 "$work/worked"
nothing "the record after the last" "--record 3: the sheet has 3 records, counted from 0" --record 3 "$work/worked"
nothing "one of two beyond" "--record 2000: the sheet has 3 records" --record 2000 --record 0 "$work/worked"
nothing "the greatest number" "--record 4294967295: " --record 4294967295 "$work/worked"
passes "one named twice" "passed: 1 record checked" --record 1 --record 1 "$work/worked"
passes "one named and drawn" "passed: 3 records checked" --record 1 --sample 3 "$work/worked"
passes "more than there are" "--sample 5: the sheet has 3 records, all are checked" --sample 5 "$work/worked"
passes "more than there are, once" "passed: 3 records checked" --sample 5 "$work/worked"

# drawn SEED N: the records of a sample, in order.
drawn() { "$work/audit" --quick --seed "$1" --sample "$2" "$work/full" | grep '^record' | sort -u; }
for n in 1 20 1999 2000; do
    passes "a sample of $n" "passed: $n record" --sample $n "$work/full"
    [ "$(drawn 1 $n | wc -l)" -eq "$n" ] || die "a record is drawn twice, or not shown, in a sample of $n"
done
[ "$(drawn 1 20)" = "$(drawn 1 20)" ] || die "a seed does not draw the same sample again"
[ "$(drawn 1 20)" != "$(drawn 2 20)" ] || die "another seed draws the same sample"

# ---- sheets with nothing to check ----

nothing "no records" "the sheet has no records" samples/empty.sheet
nothing "a record of none" "the sheet has no records" --record 0 samples/empty.sheet
nothing "a sample of none" "the sheet has no records" --sample 1 samples/empty.sheet
nothing "a refused sheet" "the sheet is refused, it fails question 12" samples/refused.sheet
nothing "no such file" "samples/none.sheet: No such file" samples/none.sheet
nothing "a folder" "samples: Is a directory" samples
truncate -s 16777216 "$work/long"
nothing "a long file" ".*/long: the file is longer than 16,777,215 bytes" "$work/long"
for sheet in three refused-pairs results-first; do
    nothing "$sheet.sheet, not worked" "the sheet is not worked" "samples/$sheet.sheet"
    nothing "a record of $sheet.sheet" "the sheet is not worked" --record 1 "samples/$sheet.sheet"
done

# zero RECORD ..: a copy of the worked sheet with these records of zeros.
zero() {
    local i
    cp "$work/worked" "$work/changed"
    for i in "$@"; do
        dd if=/dev/zero of="$work/changed" bs=1 count=16 seek=$((first + 16 * i)) conv=notrunc status=none
    done
}

# poke OFFSET BYTE: the copy with this byte there in its result block.
poke() {
    printf "$2" | dd of="$work/changed" bs=1 seek=$((first + $1)) conv=notrunc status=none
}

# fails WHAT REASON: the copy is a worked sheet with a wrong record.
fails() {
    expect "$1" 1 "$2" '' "$work/audit" --quick "$work/changed"
    holds "$work/out" '^audit: FAILED: [13] records* checked' || die "$1: the last line is not FAILED"
}

zero 0 1 2
nothing "all zeros" "the sheet is not worked" "$work/changed"
poke 0 '\5' && poke 16 '\377'
nothing "no number above 4" "the sheet is not worked" "$work/changed"
poke 0 '\4'
fails "a number of 4" "WRONG: record 0: the number is not"
zero 0 1 2
poke 1 '\4' && poke 17 '\377'
nothing "no method above 3" "the sheet is not worked" "$work/changed"
poke 1 '\3'
fails "a method of 3" "WRONG: record 0: the method is not A"
zero 0 1
fails "two records of zeros" "WRONG: record 1: the method is not B"
zero 0 2
fails "the others of zeros" "WRONG: record 2: the number is not"
zero 1
fails "one record of zeros" "WRONG: record 1: the method is not B"
for byte in 0 2 3 4; do # number, bytes 2 and 3, index
    echo '22830 5050' | "$work/make_sheet" >"$work/changed" || die "making a sheet of one pair"
    poke $byte '\1'
    fails "byte $byte of the only record" "WRONG: record 0: "
done

# ---- constants ----

# Blank lines and comments are no records; a tab and a carriage return are blanks.
cat >"$work/constants" <<'LINES'
# temperature viscosity density number k lower upper

40 9500 8700 0 840 10100890 10100891
  100\t1300 8700 0 861 -5050446 -5050445   # a logarithm below zero
#40 1 1 1
40 5500 8700 21
40 1000000000 5000 0 -905 100663255 100663256
100 801 15001 22
LINES
sed -i 's/\\t/\t/; 7s/$/\r/' "$work/constants"
passes "constants" "passed: 5 records checked, 0 wrong" --constants "$work/constants"
passes "constants, the option first and last" "passed: 1 record checked" --record 4 --constants "$work/constants" --seed 3
grep -q '^  100 C, viscosity 801, density 15001: number 22$' "$work/out" || die "--record 4 is not the fifth constant"
passes "--record 1 of constants" "passed: 1 record checked" --constants "$work/constants" --record 1
grep -q ' k 861, lower -5050446, upper -5050445$' "$work/out" || die "--record 1 is not the second constant"
nothing "the constant after the last" "--record 5: the file has 5 records, counted from 0" --record 5 --constants "$work/constants"
passes "a sample of constants" "2 of 5 records drawn, seed 7" --sample 2 --seed 7 --constants "$work/constants"
passes "a sample of constants, once" "passed: 2 records checked" --sample 2 --seed 7 --constants "$work/constants"
passes "more than there are constants" "--sample 9: the file has 5 records, all are checked" --sample 9 --constants "$work/constants"
expect "standard input" 0 '^audit: passed: 5 records' '' bash -c '"$1" --quick --constants - <"$2"' _ "$work/audit" "$work/constants"
expect "no end of the last line" 0 '^audit: passed: 1 record' '' bash -c 'printf "40 5500 8700 21" | "$1" --quick --constants -' _ "$work/audit"
expect "standard input closed" 2 '' 'nothing was checked: -: Bad file' bash -c '"$1" --constants - <&-' _ "$work/audit"
sed 's/ 861 / 862 /' "$work/constants" >"$work/changed"
expect "a wrong constant" 1 '^  WRONG: record 1: k is not that of the lower fraction' '' "$work/audit" --quick --constants "$work/changed"
holds "$work/out" '^audit: FAILED: 5 records checked, 1 wrong' || die "a wrong constant: the last line is not FAILED"
passes "the others of a file with a wrong constant" "passed: 1 record checked" --record 0 --constants "$work/changed"

nothing "--constants at the end" "--constants without a name: a file is asked, or - for standard input" --constants
nothing "--constants before an option" "--constants --record: a file is asked" --constants --record 0 "$work/constants"
nothing "constants and a sheet" "two files are named, .*constants and .*worked" --constants "$work/constants" "$work/worked"
nothing "a sheet and constants" "two files are named, .*worked and .*constants" "$work/worked" --constants "$work/constants"
nothing "two files of constants" "two files are named" --constants "$work/constants" --constants "$work/constants"
nothing "- as a sheet" "- is no option" -
nothing "no file of constants" ".*/none: No such file" --constants "$work/none"
nothing "a folder of constants" "samples: Is a directory" --constants samples
nothing "a long file of constants" ".*/long: the file is longer" --constants "$work/long"
nothing "a sheet as constants" "line 1: .* is not temperature" --constants "$work/worked"
nothing "constants as a sheet" "the sheet is refused, it fails question 12" "$work/constants"
for lines in '' '\n\n' '# none\n' '  # none'; do
    printf "$lines" >"$work/changed"
    nothing "no constants, '$lines'" "the file has no records" --constants "$work/changed"
done
yes '40 1 1 21' | head -n 1000001 >"$work/changed"
nothing "1,000,001 constants" "line 1000001: a file has at most 1000000 constants" --constants "$work/changed"
sed -i 1d "$work/changed"
passes "the last of 1,000,000 constants" "passed: 1 record checked" --record 999999 --constants "$work/changed"

# no_constant LINE REASON: with this line among others nothing is checked, and standard error says which it is and why.
no_constant() {
    printf '40 5500 8700 21\n\n%b\n100 801 15001 22\n' "$1" >"$work/changed"
    nothing "the line '$1'" "line 3: \"${1%%[\\#]*}\" $2" --constants "$work/changed"
}
for line in 40 '40 9500' '40 9500 8700' '40 9500 8700 0 840' '40 9500 8700 0 840 10100890' '40 9500 8700 0 840 10100890 10100891 0' \
    'x 9500 8700 21' '40 9500 8700 21x' '40 9.5 8700 21' '+40 9500 8700 21' '40 9500 8700 -' '40 9500 8700 --21' '40,9500,8700,21' \
    '40 4294967296 8700 21' '40 9500 8700 99999999999999999999' '40 9500 8700 0x15' '40 9500 8700 0 840 - 1' '40 5500 8700 21\0 1'; do
    no_constant "$line" 'is not temperature viscosity density number, nor that with k lower upper; whole numbers are asked'
done
for line in '0 9500 8700 21' '41 9500 8700 21' '-40 9500 8700 21' '4294967295 9500 8700 21' '1 0 0 21'; do
    no_constant "$line" 'has another temperature than 40 or 100'
done
no_constant '40 -9500 8700 21' 'has a viscosity, density or number below zero'
no_constant '40 9500 -8700 22' 'has a viscosity, density or number below zero'
no_constant '40 9500 8700 -21' 'has a viscosity, density or number below zero'
no_constant '40 9500 8700 0' 'has number 0 without k, lower and upper'
no_constant '40 9500 8700 0#840 10100890 10100891' 'has number 0 without k, lower and upper'
no_constant '40 5500 8700 21 0 0 0' 'has more than a number that is not 0'
for answer in '2147483648 0 0' '-2147483649 0 0' '840 -2147483649 0' '840 0 2147483648'; do
    no_constant "40 9500 8700 0 $answer" 'has a k, lower or upper of more than 32 bits'
done

# ---- the sheet of samples/make-sheet, worked ----

# tests/make-sheet.sh holds three.sheet to samples/make-sheet, and rt holds the file stdout to what vi_work writes of stdin.
cmp samples/three.sheet crates/vi_work/stdin || die "vi_work does not read three.sheet"
passes "three.sheet, worked" "passed: 3 records checked" crates/vi_work/stdout

# docs/EVIDENCE.md shows the report on this pair, but for the last line's time.
echo '22830 5050' | "$work/make_sheet" >"$work/one" || die "making a sheet of one pair"
passes "the pair of docs/EVIDENCE.md" "passed: 1 record checked" "$work/one"
shown() { awk -v n="$1" '/^    record 0$/ { at++ } at == n { print substr($0, 5) } /^      right$/ && at == n { exit }' docs/EVIDENCE.md; }
diff <(shown 1) <(sed '$d' "$work/out") || die "docs/EVIDENCE.md shows another report"

# Then that on a constant, whose record it shows too; tests/audit-constants.sh holds the record to the library.
sed -n 's/^The file then has the line `\([-0-9 ]*\)`.*/\1/p' docs/EVIDENCE.md >"$work/one"
passes "the constant of docs/EVIDENCE.md" "passed: 1 record checked" --constants "$work/one"
diff <(shown 2) <(sed '$d' "$work/out") || die "docs/EVIDENCE.md shows another report on a constant"

# ---- a report that cannot be written ----

unwritten() {
    expect "$1" 2 '' '^audit: the report could not be written: ' bash -c "\"\$@\" $2" _ "$work/audit" "${@:3}"
}
unwritten "a full disk" '>/dev/full' --quick "$work/worked"
unwritten "the usage to a full disk" '>/dev/full' --help
unwritten "output closed" '>&-' --quick "$work/worked"
unwritten "constants to a full disk" '>/dev/full' --quick --constants "$work/constants"

# Only the end of the last line is past what the file may hold, 1,024 bytes.
passes "a short report" "passed: 1 record checked" --record 0 "$work/worked"
truncate -s $((1024 - $(wc -c <"$work/out") + 20)) "$work/short"
expect "the last line" 2 '' 'the report could not be written: File too large' \
    bash -c 'trap "" XFSZ; ulimit -f 1; "$@" >>"$0"' "$work/short" "$work/audit" --quick --record 0 "$work/worked"
[ "$(wc -c <"$work/short")" -eq 1024 ] && grep -aq 'audit: passed: 1 record' "$work/short" || die "the report was cut before its last line"

# ---- the lines of make_sheet, the numbers of tests/audit.sh ----

# no_line WHAT ERR LINES: make_sheet does not take the lines, and writes nothing.
no_line() {
    expect "make_sheet, $1" 2 '' "$2" bash -c 'printf %b "$2" | "$1"' _ "$work/make_sheet" "$3"
}
for line in '28.489 5.000' 'foo bar' 1 '1 2 3' '-1 2' '1 -2' '+1 2' '1,2' '4294967296 2' '2 18446744073709551617' ''; do
    no_line "'$line'" "^line 1: \"$line\" is not two whole numbers of thousandths" "$line\n"
    no_line "'$line' after a pair" "^line 2: \"$line\" is not two whole numbers" "73300 8860\n$line\n"
done
no_line "no lines" "^standard input has no line" ''
no_line "2,001 lines" "^line 2001: a sheet has at most 2000 pairs" "$(yes '73300 8860\n' | head -n 2001 | tr -d '\n')"

hint='audit: FAILED: no sheet of .* thousandths of a mm²/s, 28489 for 28.489'
expect "audit.sh 28.489 5.000" 1 "$hint" '^line 1: "28.489 5.000"' bash tests/audit.sh 28.489 5.000
expect "audit.sh foo bar" 1 "$hint" '^line 1: "foo bar"' bash tests/audit.sh foo bar
expect "audit.sh -28489 5000" 1 "$hint" '^line 1: "-28489 5000"' bash tests/audit.sh -28489 5000
expect "audit.sh 28489" 1 'FAILED: usage: .*28489 for 28.489' '' bash tests/audit.sh 28489
expect "audit.sh 73300 8860" 0 '^audit: passed: 1 record checked' '' bash tests/audit.sh 73300 8860

[ $bad -eq 0 ] || die "see above"
echo "$name: passed: $checks checks"

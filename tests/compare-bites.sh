#!/usr/bin/env bash
# Shows that the comparison can fail: each of these wrong libraries, made from
# the real one by tests/compare/wrong.c, wrong_constants.c, wrong_trays.c,
# wrong_numbers.c, wrong_kept.c, wrong_spans.c and wrong_writes.c, must be noticed.
# The real one must pass the same short run, and so must four that choose otherwise
# where document 01 or the constant's request leaves the choice free, one that finds
# the span by a walk, and a writer of our own. Then every last digit of the table and
# of the two formulas, one more and one less.
set -euo pipefail
. "$(dirname "$0")/compare/common.sh"
have_headers
find_archive
short=(--pairs 200000 --sheets 4000 --constants 400000 --powers 0 --trays 60000 --spans 120000 --writes 40000)
short_trays=(--pairs 0 --sheets 0 --constants 0 --powers 0 --trays 60000 --spans 0 --writes 0)
short_spans=(--pairs 0 --sheets 0 --constants 0 --powers 0 --trays 0 --spans 120000 --writes 0)
short_writes=(--pairs 0 --sheets 0 --constants 0 --powers 0 --trays 0 --spans 0 --writes 40000)

# In the order of the numbers that wrong.c gives them.
wrong=(
    "L of one row changed by one digit (39.0: 1661)"
    "H of one row changed by one digit (7.5: 53.98)"
    "halves rounded down"
    "negative halves rounded by their size"
    "p and P swapped"
    "all marked near"
    "the result block left as found"
    "100 to all"
    "the first record copied down the sheet"
    "invented fractions"
    "every pair refused"
    "the quadratics used at 70.000 itself"
    "H rounded to a hundredth before the fraction"
    "a spare byte of a record not zero"
    "question 4 asked first"
    "the record's length not asked"
    "a refused sheet changed"
    "a refused pair stops the sheet"
    "a byte after the result block changed"
    "P always zero"
    "procedure B at H itself"
    "P just below Q*N"
    "p just above Q*N"
    "blocks that share a byte accepted"
    "2,001 pairs refused by the wrong question"
    "halves rounded to the greater number"
    "halves rounded to the odd number"
    "halves below zero rounded to the greater number"
    "the even number taken less than a thousandth off a half"
    "procedure B in single precision"
    "procedure B with five-digit logarithms"
    "a row too low exactly on a row"
    "the spacing of 0.2 kept above 30.0"
)

# Likewise, wrong_constants.c.
wrong_constants=(
    "formula 2's coefficients at 40 degrees"
    "the natural logarithm"
    "k rounded toward zero below zero"
    "k by a logarithm of three decimals"
    "k one more"
    "fractions exchanged"
    "fractions invented"
    "fractions of a negative logarithm without their sign"
    "a negative logarithm cut toward zero"
    "the lower fraction just above the logarithm"
    "the upper fraction just below the logarithm"
    "a logarithm beside a fraction taken for it"
    "fractions 65 apart"
    "k fits the lower fraction only"
    "k fits the upper fraction only"
    "the density asked first"
    "the density taken in 16 bits"
    "every constant refused by 23"
    "the row's count not asked"
    "a refused row changed"
    "the row left as found"
    "a number beside the row changed"
    "the first constant to all"
    "100 degrees answered for 40"
    "40 degrees answered for 100"
    "viscosity 5,500 at 40 degrees answered"
    "viscosity 5,501 at 40 degrees refused"
    "viscosity 1,000,000,000 at 40 degrees refused"
    "viscosity 1,000,000,001 at 40 degrees answered"
    "viscosity 800 at 100 degrees answered"
    "viscosity 801 at 100 degrees refused"
    "viscosity 500,000 at 100 degrees refused"
    "viscosity 500,001 at 100 degrees answered"
    "density 4,999 answered"
    "density 5,000 refused"
    "density 15,000 refused"
    "density 15,001 answered"
)

# The numbers that follow: right, but chosen otherwise.
right_constants=(
    "the other k where two fit"
    "fractions 64 apart, the lower one far below"
    "fractions 64 apart, the upper one far above"
)

# Likewise, wrong_trays.c.
wrong_trays=(
    "put replaces a held number"
    "put holds a number twice"
    "32 with 63 held"
    "the sixty-fifth sample overwrites the last"
    "31 asked before the pair's questions"
    "32 asked before the pair's questions"
    "32 asked before 31"
    "the sizes asked after the pair's questions"
    "a refused pair stored"
    "a put refused by 31 changes the sample"
    "a refused pair's record filled"
    "the record filled where 31 or 32 refuses"
    "the record of a put left as found"
    "a sample answered but not stored"
    "y stored where u is"
    "the fractions of a sample not stored"
    "fractions other than the pair call's"
    "the number taken in 7 bits"
    "the count remembered in the library"
    "take gives the first sample"
    "take leaves the sample"
    "take frees the next place too"
    "number 0 never held"
    "y before u in the pair taken out"
    "a refused take changes the pair"
    "a refused take changes the record"
    "the sample's number in the record taken out"
    "the record of the take before"
    "the sum in 32 bits"
    "near counted as settled"
    "settled counted as A"
    "the lowest of an empty tray not 0"
    "an empty tray holds 1"
    "the lowest never above 0"
    "the highest never below 0"
    "the lowest leaves, another has the same index"
    "the highest leaves, another has the same index"
    "equal indices added once"
    "the index by A without its sign"
    "a summary changes the tray"
    "the last place not seen by the summary"
    "the row left as found"
    "a number beside the row changed"
    "put with a longer tray"
    "put with a longer record"
    "take with a longer tray"
    "take with a longer record"
    "take with a longer pair"
    "summary of a longer tray"
    "summary into a longer row"
    "put into the last free place"
    "the eighth number of a place left as found"
    "all eight numbers of a place cleared"
    "method 4 in a place not held"
    "method 4 of a place in the record"
    "the last of several places taken"
    "a place's number read in 8 bits"
    "fractions in the record of a place by A"
    "the index by B with a sign"
)

# The number that follows: right, but with other fractions.
right_trays=("fractions as wide as they may be, of pair and tray alike")

# Likewise, wrong_numbers.c.
wrong_numbers=(
    "put compares numbers by their lowest byte"
    "put compares numbers by 16 bits"
    "put compares numbers by 24 bits"
    "put compares numbers by 31 bits"
    "put compares numbers in single precision"
    "take compares numbers by their lowest byte"
    "take compares numbers by 16 bits"
    "take compares numbers by 24 bits"
    "take compares numbers by 31 bits"
    "take compares numbers in single precision"
    "numbers cut to one byte by put and take, as before #104"
    "numbers cut to 16 bits by put and take"
    "numbers cut to 24 bits by put and take"
    "numbers cut to 31 bits by put and take"
    "numbers stored in 16 bits"
    "4,294,967,295 taken for no sample: answered, but not stored"
    "4,294,967,295 taken for no sample: never held"
    "4,294,967,295 taken for no sample: not in the summary"
    "number 0 taken for a free place: overwritten"
    "number 0 taken for a free place: not in the summary"
    "numbers above 2,147,483,647 refused"
    "numbers above 999,999,999 refused"
    "4,294,967,295 refused"
)

# Likewise, wrong_kept.c.
wrong_kept=(
    "the lowest kept when it leaves"
    "the highest kept when it leaves"
    "the lowest found among other indices than the one that left"
    "the highest found among other indices than the one that left"
    "the count of A not taken down"
    "the count of B settled not taken down"
    "the count of B near not taken down"
    "the sum taken down by another sample's index"
    "the sum not taken down"
    "the empty tray answers its last summary"
    "a put not kept"
    "a put refused by 31 or 32 kept"
    "a take refused by 33 kept"
    "the kept sum cut to 32 bits"
    "a refresh that walks over the places"
    "the lowest and the highest kept in each other's place"
    "the higher 32 bits kept first"
)

# Likewise, wrong_spans.c.
wrong_spans=(
    "the least at u1"
    "the greatest at u2"
    "both at the middle of u1 and u2"
    "only y1 and y2 looked at"
    "only y1 and y2 looked at across 70,000"
    "only y1, y2 and both sides of 70,000 looked at"
    "only y1, y2 and the middle looked at"
    "the last y left out"
    "the first y left out"
    "every second y looked at"
    "the least of the first half"
    "42 at 200"
    "42 only above 201"
    "42 asked before 41"
    "42 asked after 1"
    "y2 - y1 taken in 8 bits"
    "y2 - y1 taken in 16 bits"
    "41 asked of u only"
    "41 asked of y only"
    "41 asked of numbers with sign"
    "question 4 put to u2"
    "question 4 put to u1 against y1"
    "question 1 put to y2"
    "question 2 put to y1"
    "question 3 put to u1"
    "the row's numbers exchanged"
    "the row left as found"
    "a refused row changed"
    "a number beside the row changed"
    "the row's count not asked"
    "a longer row taken"
    "the answer of the span before"
    "the index by A in 16 bits"
    "the index by B in 8 bits"
    "the index without its sign"
    "near indices one lower"
    "the index of a near pair where the pair call settles it"
    "the quadratics used at 70.000 itself"
)

# The number that follows: right.
right_spans=("a walk over the pair calls, which the wrong ones start from")

# Likewise, wrong_writes.c.
wrong_writes=(
    "52 asked before 51"
    "53 asked before 51"
    "53 asked before 52"
    "51 answered 0"
    "an odd row written without its last number"
    "2,001 pairs written"
    "2,000 pairs refused"
    "a row of no pairs refused"
    "a buffer a byte short taken"
    "a buffer a byte long taken"
    "the row's count taken in 16 bits"
    "the row's count taken in 32 bits"
    "the buffer's length taken in 16 bits"
    "the buffer's length taken in 32 bits"
    "a pair refused that is no oil"
    "a refused writing that writes the header"
    "a buffer a byte long written, though refused"
    "a refused buffer cleared"
    "a number read behind an odd row"
    "the first number of a row of none read"
    "the count of numbers in the header"
    "the total one less"
    "the result block before the pairs"
    "the pair block at 0 by the header"
    "the most significant byte first"
    "y before u"
    "the first pair written for all"
    "the last pair left out"
    "the last pair first"
    "a pair like the one before it left out"
    "numbers of pairs cut to 31 bits"
    "numbers of pairs above 1,000,000,000 cut"
    "the written result block left as found"
    "the last byte of the result block left as found"
    "the written sheet worked"
    "a byte in front of the buffer changed"
    "a byte behind the buffer changed"
    "a buffer refused that is not aligned"
    "the row cleared"
    "the sheet written before"
)

# The number that follows: right.
right_writes=("a writer of our own, which the wrong ones start from")

build_compare sound
"$work/sound" "${short[@]}" >"$work/out" 2>&1 || { cat "$work/out"; die "the real library fails the short run"; }

# must_notice SOURCE NUMBER NAME WRAPS OPTIONS: the fault of that number, of that source.
must_notice() {
    local what
    build_compare wrong -DWRONG="$2" "$root/tests/compare/$1" "-Wl,$4"
    if "$work/wrong" "${@:5}" >"$work/out" 2>&1; then
        die "not noticed: $3"
    fi
    what=$(sed -n 's/^compare: FAILED: //p' "$work/out" | head -1)
    [ -n "$what" ] || { cat "$work/out"; die "ended without a verdict: $3"; }
    echo "noticed: $3: $what"
}

# must_pass SOURCE NUMBER NAME WRAPS SHOWN OPTIONS: the library of that number, of that source, is right. SHOWN says to sed what to print of its run.
must_pass() {
    build_compare right -DWRONG="$2" "$root/tests/compare/$1" "-Wl,$4"
    "$work/right" "${@:6}" >"$work/out" 2>&1 || { cat "$work/out"; die "not let pass: $3"; }
    echo "passes: $3: $(sed -n "$5" "$work/out")"
}

for i in "${!wrong[@]}"; do
    must_notice wrong.c $((i + 1)) "${wrong[$i]}" --wrap=vi_pair,--wrap=vi_sheet "${short[@]}"
done
constants=--wrap=vi_constant_40,--wrap=vi_constant_100
for i in "${!wrong_constants[@]}"; do
    must_notice wrong_constants.c $((i + 1)) "${wrong_constants[$i]}" "$constants" "${short[@]}"
done
for i in "${!right_constants[@]}"; do
    must_pass wrong_constants.c $((${#wrong_constants[@]} + i + 1)) "${right_constants[$i]}" "$constants" 's/^k from .*; widest/widest/p' "${short[@]}"
done
trays=--wrap=vi_pair,--wrap=vi_tray_put,--wrap=vi_tray_take,--wrap=vi_tray_summary
for i in "${!wrong_trays[@]}"; do
    must_notice wrong_trays.c $((i + 1)) "${wrong_trays[$i]}" "$trays" "${short_trays[@]}"
done
for i in "${!right_trays[@]}"; do
    must_pass wrong_trays.c $((${#wrong_trays[@]} + i + 1)) "${right_trays[$i]}" "$trays" 's/^index from .*; widest/widest/p' "${short_trays[@]}"
done
calls=--wrap=vi_tray_put,--wrap=vi_tray_take,--wrap=vi_tray_summary
for i in "${!wrong_numbers[@]}"; do
    must_notice wrong_numbers.c $((i + 1)) "${wrong_numbers[$i]}" "$calls" "${short_trays[@]}"
done
for i in "${!wrong_kept[@]}"; do
    must_notice wrong_kept.c $((i + 1)) "${wrong_kept[$i]}" "$calls" "${short_trays[@]}"
done
spans=--wrap=vi_span
for i in "${!wrong_spans[@]}"; do
    must_notice wrong_spans.c $((i + 1)) "${wrong_spans[$i]}" "$spans" "${short_spans[@]}"
done
for i in "${!right_spans[@]}"; do
    must_pass wrong_spans.c $((${#wrong_spans[@]} + i + 1)) "${right_spans[$i]}" "$spans" 's/^\(spans [0-9]*: answered [0-9]*\).*/\1/p' "${short_spans[@]}"
done
writes=--wrap=vi_write_sheet
for i in "${!wrong_writes[@]}"; do
    must_notice wrong_writes.c $((i + 1)) "${wrong_writes[$i]}" "$writes" "${short_writes[@]}"
done
for i in "${!right_writes[@]}"; do
    must_pass wrong_writes.c $((${#wrong_writes[@]} + i + 1)) "${right_writes[$i]}" "$writes" 's/^\(writings [0-9]*: written [0-9]*\).*/\1/p' "${short_writes[@]}"
done
# Needs no library: the wrong ones are our own with another table.
from=$root/tests/compare
build digits "$from"/{digits,harness,pairs,constants,oil,constant}.c
"$work/digits" || die "a changed digit is not noticed"

noticed=$((${#wrong[@]} + ${#wrong_constants[@]} + ${#wrong_trays[@]} + ${#wrong_numbers[@]} + ${#wrong_kept[@]} + ${#wrong_spans[@]} +
    ${#wrong_writes[@]}))
echo "compare-bites: passed: $noticed wrong libraries noticed, the real one passes"

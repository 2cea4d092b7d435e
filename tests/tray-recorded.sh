#!/usr/bin/env bash
# A list of calls with numbers up to 255 gets the answers that the tray of change request #102 gave before #104 widened the numbers and #105 let the tray keep
# its summary: the calls of tests/recorded/tray-of-102.txt, made again by tests/c/replay.c, print the same file, byte for byte. Then shows that the test can
# fail: a changed, cut or empty record and wrong trays are told.
set -eu
cd "$(dirname "$0")/.."
work=$(mktemp -d)
trap 'rm -rf "$work"' EXIT

. tests/archive.bash
record=tests/recorded/tray-of-102.txt
# The record's last line: what its calls have met.
end='end: 2114 calls: put in 242 by A, 343 by B settled, 147 by B near, taken out 732, summaries 251; refused by 1: 23, 2: 24, 3: 33, 4: 25, 5: 159, 31: 46, 32: 22, 33: 67; 256 numbers, at most 64 held, 136 indices below zero'

# The faults of tests/c/wrong_replay.c, in the order of their numbers.
wrong=(
    "numbers read in 7 bits"
    "number 0 never held"
    "number 255 never held"
    "32 with 63 held"
    "the record filled where 31 refuses"
    "a sample that is taken out again and again"
    "a refused take that changes the pair"
    "a longer record not asked for"
    "the sum in 32 bits"
    "a refused pair stored"
    "a byte behind the record changed"
)

die() {
    echo "tray-recorded: FAILED: $*"
    exit 1
}

# build PROGRAM WORDS...: the replay, linked with the library.
build() {
    gcc -std=c99 -Wall -Wextra -Werror -O2 -Iinclude tests/c/replay.c "${@:2}" "$archive" -o "$work/$1" || die "building $1"
}

# same PROGRAM RECORD: whether the replay prints the record again.
same() {
    "$work/$1" <"$2" >"$work/printed" 2>"$work/said" && cmp -s "$work/printed" "$2"
}

# must_tell WHAT PROGRAM RECORD [quiet]: the replay says what is wrong with the record, or prints another line, which is shown unless quiet.
must_tell() {
    local line
    if same "$2" "$3"; then
        die "not told: $1"
    fi
    line=$(cat "$work/said")
    [ -n "$line" ] || line=$(diff "$3" "$work/printed" | sed -n 's/^> //p' | head -n 1)
    [ -n "$line" ] || die "ended without an answer: $1"
    [ "${4:-}" = quiet ] || echo "told: $1: ${line:0:80}"
}

build replay
[ "$(tail -n 1 "$record")" = "$end" ] || die "$record does not end as it was recorded"
same replay "$record" || {
    cat "$work/said"
    diff "$record" "$work/printed" | head
    die "other answers than those recorded"
}
"$work/replay" make >"$work/list"
sed -e '/^#/d' -e 's/:.*//' "$record" | cmp -s - "$work/list" || die "the record's calls are not those that replay makes"

lines=$(wc -l <"$record")
bytes=0
for ((line = 3; line <= lines; line += 111)); do
    sed "${line}s/.\$/x/" "$record" >"$work/changed"
    must_tell "a changed byte in line $line" replay "$work/changed" quiet
    bytes=$((bytes + 1))
done
sed "${lines}d" "$record" >"$work/cut"
must_tell "a record without its end" replay "$work/cut"
sed 1000d "$record" >"$work/cut"
must_tell "a record without one of its calls" replay "$work/cut"
sed -n -e '/^#/p' -e '/^end/p' "$record" >"$work/cut"
must_tell "a record without calls" replay "$work/cut"
: >"$work/cut"
must_tell "an empty record" replay "$work/cut"
for i in "${!wrong[@]}"; do
    build wrong tests/c/wrong_replay.c -DWRONG=$((i + 1)) -Wl,--wrap=vi_tray_put,--wrap=vi_tray_take,--wrap=vi_tray_summary
    must_tell "${wrong[$i]}" wrong "$record"
done
calls=${end#end: }
echo "tray-recorded: passed: ${calls%%:*} give the answers recorded, byte for byte; $bytes changed bytes, 4 cut records and ${#wrong[@]} wrong trays are told"

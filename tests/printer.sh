#!/usr/bin/env bash
# The built printing program, on sheets of every kind, among them those that vi_write_sheet writes: tests/printer.py.
set -eu
cd "$(dirname "$0")/.."
work=$(mktemp -d)
trap 'rm -rf "$work"' EXIT

tools/build vi_print >"$work/check.log" 2>&1 || { tail -n 5 "$work/check.log"; exit 1; }
. tests/archive.bash
gcc -std=c99 -Wall -Wextra -Werror -O1 -Iinclude tests/c/write.c "$archive" -o "$work/write"
python3 tests/printer.py target/bin/vi_print "$work/write"

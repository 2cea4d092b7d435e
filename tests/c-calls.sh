#!/usr/bin/env bash
# The C functions, linked from the archive, on every question at its edge, on sheets of every shape, rows of every count, trays of every fill and sheets
# that are written: tests/c/calls.c. The archive has no undefined symbol: it calls no function of the C library.
set -eu
cd "$(dirname "$0")/.."
work=$(mktemp -d)
trap 'rm -rf "$work"' EXIT

. tests/archive.bash
undefined=$(nm -u "$archive")
if grep ' U ' <<<"$undefined"; then
    echo "C calls: the archive calls other functions"
    exit 1
fi
gcc -std=c99 -Wall -Wextra -Werror -O1 -g -fsanitize=address,undefined -Iinclude tests/c/calls.c "$archive" -o "$work/calls"
"$work/calls"

#!/usr/bin/env bash
# Prints the table of docs/EVIDENCE.md: how often ordinary arithmetic gives the
# wrong index. Needs no library.
#   tests/hard/precision.sh [random oils in a line]
set -euo pipefail
. "$(dirname "$0")/../compare/common.sh"
have_headers
build precision "$root"/tests/hard/precision.c "$root"/tests/compare/oil.c -ffp-contract=off
"$work/precision" "$root/data/hard-cases.txt" "$@"

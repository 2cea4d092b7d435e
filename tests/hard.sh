#!/usr/bin/env bash
# Compares the library with oil.c on the pairs whose index is closest to a half.
set -euo pipefail
. "$(dirname "$0")/compare/common.sh"
have_headers
find_archive
build check "$root"/tests/hard/check.c "$root"/tests/compare/oil.c "$archive"
"$work/check" "$root/data/hard-cases.txt" || die "a hard case"

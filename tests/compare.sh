#!/usr/bin/env bash
# Compares the library with an implementation that shares nothing with it.
#   tests/compare.sh                              what the gate runs
#   tests/compare.sh --pairs 50000000 --seed 7    a longer run; also --sheets M, --constants C, --trays T, --spans W,
#                                                 --writes V
# 7 million pairs, 100,000 sheets, 10 million constants, 2 million calls with trays, 1.5 million spans and 400,000 calls
# that write a sheet unless told otherwise, and four constants by whole powers; --powers 0 and --writes 0 leave these out.
set -euo pipefail
. "$(dirname "$0")/compare/common.sh"
have_headers
find_archive
build_compare compare
"$work/compare" "$@" || die "the library differs from document 01 or from change request #101, #102, #104, #105, #106, #107 or #108"

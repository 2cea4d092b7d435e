#!/usr/bin/env bash
# Writes data/hard-cases.txt to standard output. Needs no library.
set -euo pipefail
. "$(dirname "$0")/../compare/common.sh"
have_headers
build search "$root"/tests/hard/search.c "$root"/tests/compare/oil.c
"$work/search"

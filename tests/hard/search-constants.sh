#!/usr/bin/env bash
# Prints the questions of the constant that lie closest to a fraction or to a
# half; tests/compare/constants.c names them. Needs no library.
set -euo pipefail
. "$(dirname "$0")/../compare/common.sh"
have_headers
build search "$root"/tests/hard/search_constants.c "$root"/tests/compare/constant.c
"$work/search"

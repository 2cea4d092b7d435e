#!/usr/bin/env bash
# Builds the audit: audit/build.sh PROGRAM. Needs GMP and MPFR (Debian:
# libgmp-dev libmpfr-dev), and nothing of the library.
set -euo pipefail
here=$(cd "$(dirname "$0")" && pwd)
[ $# -eq 1 ] || { echo "usage: audit/build.sh PROGRAM"; exit 2; }
gcc -std=gnu11 -Wall -Wextra -Werror -O2 -I"$here/../tests/compare" "$here"/*.c -o "$1" -lmpfr -lgmp

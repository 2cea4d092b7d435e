#!/usr/bin/env bash
# Near marks against the fewest possible: bench/near.sh [N [SEED]], N random oils below H (10,000,000 if not said).
set -eu
root=$(cd "$(dirname "$0")/.." && pwd)
work=$(mktemp -d)
trap 'rm -rf "$work"' EXIT
. "$root/tests/archive.bash"
gcc -std=gnu11 -Wall -Wextra -Werror -O2 -I"$root/include" "$root/bench/near.c" "$root/tests/compare/oil.c" "$archive" -lmpfr -lgmp -lm -o "$work/near"
"$work/near" "$@"

#!/usr/bin/env bash
# The C example of README.md builds without a warning, links the archive and prints what its comment says.
set -eu
cd "$(dirname "$0")/.."
work=$(mktemp -d)
trap 'rm -rf "$work"' EXIT

. tests/archive.bash
sed -n '/^```c$/,/^```$/p' README.md | sed '/^```/d' >"$work/readme.c"
gcc -std=c99 -Wall -Wextra -Werror -Iinclude "$work/readme.c" "$archive" -o "$work/readme"
said=$("$work/readme")
[ "$said" = "index 92" ] || { echo "README: its C example prints '$said'"; exit 1; }
echo "README: its C example builds and prints $said"

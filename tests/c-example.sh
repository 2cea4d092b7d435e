#!/usr/bin/env bash
# The C examples build without a warning as C and as C++ against the header, link the archive, and print what is stored beside them.
set -eu
cd "$(dirname "$0")/.."
work=$(mktemp -d)
trap 'rm -rf "$work"' EXIT

. tests/archive.bash
flags=(-Wall -Wextra -Werror -O2 -Iinclude)
for example in example tray span; do
    gcc -std=c99 "${flags[@]}" "samples/c/$example.c" "$archive" -o "$work/c"
    g++ -x c++ "${flags[@]}" "samples/c/$example.c" -x none "$archive" -o "$work/c++"
    for program in c c++; do
        "$work/$program" | diff - "samples/c/$example.stdout"
    done
done
echo "C examples: built by gcc and by g++, and both print the stored lines"

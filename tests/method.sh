#!/usr/bin/env bash
# The answers, the printed lines, the worked sheet and the numbers of docs/METHOD.md are right: tests/method.py.
set -eu
cd "$(dirname "$0")/.."
work=$(mktemp -d)
trap 'rm -rf "$work"' EXIT

tools/build vi_print vi_work >"$work/check.log" 2>&1 || { tail -n 5 "$work/check.log"; exit 1; }
python3 tests/method.py target/bin/vi_print target/bin/vi_work

#!/usr/bin/env bash
# docs/PERFORMANCE.md says how much stack each C call takes and how much to reserve: bench/stack.c measures the first, and the second is more.
set -eu
cd "$(dirname "$0")/.."
work=$(mktemp -d)
trap 'rm -rf "$work"' EXIT

. tests/archive.bash
gcc -std=gnu11 -Wall -Wextra -Werror -O2 -Iinclude bench/stack.c "$archive" -o "$work/stack"
measured=$("$work/stack")
for call in vi_pair vi_sheet vi_write_sheet vi_span vi_constant_40 vi_constant_100 vi_tray_put vi_tray_take vi_tray_summary; do
    bytes=$(sed -n "s/.*$call \([0-9]*\) bytes.*/\1/p" <<<"$measured")
    row=$(sed -n "s/^| \`$call\`[^|]*| \([0-9,]*\) bytes | \([0-9,]*\) .*/\1 \2/p" docs/PERFORMANCE.md | tr -d ,)
    read -r said reserve <<<"$row" || true
    if [ -z "$bytes" ] || [ "${said:-0}" -ne "$bytes" ] || [ "${reserve:-0}" -le "$bytes" ]; then
        echo "stack: $call takes ${bytes:-unmeasured} bytes; docs/PERFORMANCE.md says ${said:-nothing}, and to reserve ${reserve:-nothing}"
        exit 1
    fi
done
echo "$measured, as docs/PERFORMANCE.md says"

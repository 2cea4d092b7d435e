#!/usr/bin/env bash
# The pictures of docs/pictures are what tools/pictures draws from the library's answers, byte for byte; and each is well-formed XML.
set -u
cd "$(dirname "$0")/.." || exit 1
work=$(mktemp -d)
trap 'rm -rf "$work"' EXIT
bad=0
miss() { echo "pictures: $*"; bad=1; }

tools/build vi_work >"$work/check.log" 2>&1 || { tail -n 5 "$work/check.log"; exit 1; }
tools/pictures "$work/drawn" || exit 1
names=$({ ls "$work/drawn"; ls docs/pictures; } | sort -u)
for name in $names; do
    cmp -s "$work/drawn/$name" "docs/pictures/$name" || miss "docs/pictures/$name is not what tools/pictures draws"
    python3 - "$work/drawn/$name" <<'END' || miss "$name is not well-formed XML"
import os, sys, xml.dom.minidom
try:
    os.path.exists(sys.argv[1]) and xml.dom.minidom.parse(sys.argv[1])
except Exception as error:
    sys.exit(str(error))
END
done
[ "$bad" -eq 0 ] && echo "pictures: $(wc -w <<<"$names") are what tools/pictures draws"
exit "$bad"

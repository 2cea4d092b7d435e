#!/usr/bin/env bash
# Two million values of log2_scaled against MPFR, powers of two and their neighbours and the ends of slots among them: each lies in the
# promised enclosure, and none falls below a smaller number's.
cd "$(dirname "$0")/.." || exit 1
if found=$(bench/log2.sh compare 2000000 2>&1); then
    echo "log2-enclosure: ok, ${found#log2: }"
else
    echo "log2-enclosure: failed: ${found//$'\n'/; }"
    exit 1
fi

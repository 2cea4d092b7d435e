#!/usr/bin/env bash
# The tables of the crate `logarithm`, in its source and in its specs/, are what tools/log-tables writes.
cd "$(dirname "$0")/.." || exit 1
if found=$(tools/log-tables --check); then
    echo "log-tables: ok, both files are up to date"
else
    echo "log-tables: failed: ${found//$'\n'/; }"
    exit 1
fi

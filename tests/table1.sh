#!/usr/bin/env bash
# The static of the source and the list of specs/ are what data/table1.txt gives.
cd "$(dirname "$0")/.." && tools/table1 --check && echo "Table 1: the static and the definition are up to date"

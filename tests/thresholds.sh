#!/usr/bin/env bash
# The table of thresholds of procedure B and its copy in specs/ are what tools/thresholds gives.
cd "$(dirname "$0")/.." && tools/thresholds --check && echo "thresholds: the static and the definition are up to date"

#!/usr/bin/env bash
# The coefficients of the two polynomials that guess an index are what tools/guesses gives.
cd "$(dirname "$0")/.." && tools/guesses --check && echo "guesses: the coefficients in the source are up to date"

#!/usr/bin/env bash
# Compares the tokens of fcc's preprocessor with those of gcc, over generated files. `compare_preprocessor.py` says which.
# `compare-preprocessor.sh COUNT` generates so many files in place of 400.
set -eu
cd "$(dirname "${BASH_SOURCE[0]}")/.."
for tool in gcc python3; do
    command -v "$tool" >/dev/null || { echo "compare-preprocessor: skipped, no $tool"; exit 0; }
done
exec python3 scripts/compare_preprocessor.py "$@"

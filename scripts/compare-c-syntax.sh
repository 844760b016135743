#!/usr/bin/env bash
# Compares which C files fcc's reader finds in the grammar with what gcc says of them, over generated files. `compare_c_syntax.py` says which.
# `compare-c-syntax.sh COUNT` generates so many files in place of 300.
set -eu
cd "$(dirname "${BASH_SOURCE[0]}")/.."
for tool in gcc python3; do
    command -v "$tool" >/dev/null || { echo "compare-c-syntax: skipped, no $tool"; exit 0; }
done
exec python3 scripts/compare_c_syntax.py "$@"

#!/usr/bin/env bash
# Times fcc's reading of Fortran files up to their statements, on long texts of many shapes, each at half its size and whole: where a time grows in
# proportion, the whole takes about twice as long. `time_fortran.py` says which texts. Words behind the script's name leave only the texts that have one of
# them in their names.
set -eu
cd "$(dirname "${BASH_SOURCE[0]}")/.."
command -v python3 >/dev/null || { echo "time-fortran: skipped, no python3"; exit 0; }
exec python3 scripts/time_fortran.py "$@"

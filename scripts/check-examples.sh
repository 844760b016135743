#!/usr/bin/env bash
# Each example is run by a test: the files of examples/letter are those of the stored run of the program.
cd "$(dirname "${BASH_SOURCE[0]}")/.." || exit 2
for file in p.f90 q.c; do
    cmp "examples/letter/$file" "crates/fcc/data/$file" || exit 1
done

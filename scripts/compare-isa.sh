#!/usr/bin/env bash
# Compares rv_isa's words with the GNU assembler and disassembler for RISC-V (Debian: binutils-riscv64-linux-gnu).
# Each row with edge operands is assembled, and its words go through crates/isa_table, which decodes and encodes them again.
# Then random words go through it: what decodes must assemble to the word, and what doesn't must be no row to the disassembler.
# `compare-isa.sh --rows` prints the words of the rows and what isa_table must print for them (crates/isa_table/stdin and stdout).
set -eu
cd "$(dirname "${BASH_SOURCE[0]}")/.."
for tool in riscv64-linux-gnu-as riscv64-linux-gnu-objcopy riscv64-linux-gnu-objdump python3; do
    command -v "$tool" >/dev/null || { echo "compare-isa: skipped, no $tool"; exit 0; }
done
exec python3 scripts/compare_isa.py "$@"

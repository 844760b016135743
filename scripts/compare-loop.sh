#!/usr/bin/env bash
# Compares the instructions a turn of a loop that sums 100,000 numbers with those of gcc for RISC-V (Debian: gcc-riscv64-linux-gnu) at -O0 and -O1,
# where the bound is a parameter, and where it is a constant. Ours are those that a test of crates/back_end finds where it runs the loop.
set -eu
cd "$(dirname "${BASH_SOURCE[0]}")/.."
for tool in riscv64-linux-gnu-gcc awk; do
    command -v "$tool" >/dev/null || { echo "compare-loop: skipped, no $tool"; exit 0; }
done

# From a label to the branch that goes back to it: how many instructions, and how many of them load or store.
count='
/^[.A-Za-z_0-9]+:/ { sub(/:.*/, ""); at[$0] = all; touched[$0] = memory; next }
/^\t[a-z]/ {
    all++
    if ($1 ~ /^(l[bhwd]u?|s[bhwd])$/) memory++
    target = $NF
    sub(/.*,/, "", target)
    if ($1 ~ /^(b|j$)/ && target in at) printf "%d instructions a turn, %d of them in memory\n", all - at[target], memory - touched[target]
}'

loop='{ unsigned long i = 0, s = 0; while (i < n) { s = s + i; i = i + 1; } return s; }'
of_gcc() {
    printf '%s\n' "$2" | riscv64-linux-gnu-gcc -march=rv64im -mabi=lp64 "$1" -S -x c -o - - | awk "$count"
}

ours=$(sed -n 's/.*more.saturating_sub(less), 100 \* \([0-9]*\)).*/\1/p' crates/back_end/src/tests/sums.rt)
echo "back_end, the bound a constant: ${ours:?} instructions a turn, 0 of them in memory"
riscv64-linux-gnu-gcc --version | head -n 1
for level in -O0 -O1; do
    echo "gcc $level, the bound a parameter: $(of_gcc "$level" "unsigned long sum(unsigned long n) $loop")"
    echo "gcc $level, the bound a constant: $(of_gcc "$level" "enum { n = 100000 }; unsigned long sum(void) $loop")"
done

#!/bin/sh
# How many instructions the program as C takes beside the proved build for x86-64, by valgrind: bench/program.sh [PROVED [AS_C]], at the root.
set -eu
proved=$(realpath "${1:-crates/onfiseq/out/onfiseq}") as_c=$(realpath "${2:-onfiseq}")
root=$PWD
work=$(mktemp -d)
trap 'rm -rf -- "$work"' EXIT
cd -- "$work"
cp -r -- "$root/examples" .
for _ in $(seq 600); do cat examples/small_chip/erase_block.trace; done > erases.trace

count() { valgrind --tool=callgrind --callgrind-out-file=/dev/null "$@" 2>&1 >/dev/null | sed -n 's/.*Collected : \([0-9]*\).*/\1/p'; }
compare() {
    one=$(count "$proved" "$@") other=$(count "$as_c" "$@")
    awk -v one="$one" -v other="$other" -v words="$*" 'BEGIN { printf "%.1f million, %.1f million, %.2f times: %s\n", one / 1e6, other / 1e6, other / one, words }'
}

chip=examples/small_chip/chip.page
compare check $chip 1 erases.trace
compare check $chip 1 erases.trace --all --recorded
compare ops $chip 1 erases.trace --no-summary
compare capture $chip 1 examples/hosts/linux_boot.vcd boot.trace
compare run examples/two_luns.run --quiet
compare verify $chip examples/retry.asm

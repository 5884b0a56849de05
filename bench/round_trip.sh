#!/bin/bash
# Whether traces that are drawn as waveforms and captured again come back byte for byte: runs of 1 to 40 jobs that read, program and erase on 8 LUNs of 4 targets,
# each with one worker and with three. `bench/round_trip.sh PROGRAM`, by hand.
set -euo pipefail
program=$(realpath "$1")
bench=$(cd "$(dirname "$0")" && pwd)
folder=$(mktemp -d)
trap 'rm -rf "$folder"' EXIT
cd "$folder"
count=0
for work in read program erase; do
    for jobs in $(seq 40); do
        python3 "$bench/make_run.py" run "$work" "$jobs"
        "$program" asm run/words.asm run/words.nmp > /dev/null
        for workers in 1 3; do
            "$program" run run/run --quiet --trace a.trace --workers "$workers" > /dev/null
            "$program" wave run/chip.page 4 a.trace a.vcd > /dev/null
            "$program" capture run/chip.page 4 a.vcd b.trace > /dev/null 2>&1
            cmp a.trace b.trace
            count=$((count + 1))
        done
    done
done
echo "$count traces came back"

#!/bin/bash
# How long a channel with many jobs in its backlog takes: 8,192 and 65,536 erases of one block each, by one worker and by eight, on 8 LUNs in turn, on
# one LUN after the other, and all on one LUN. Of three runs in turn it prints the seconds of each, without the reading and judging of the files.
set -eu
bench=$(cd "$(dirname "$0")" && pwd)
onfiseq=$bench/../bin/onfiseq
work=$(mktemp -d)
trap 'rm -rf -- "$work"' EXIT

seconds() {
    "$onfiseq" run "$1" --workers "$2" --quiet --stats 2>&1 > "$work/said" | sed -n 's/.*seconds \([0-9.]*\).*/\1/p'
}

for order in in_turn lun_by_lun one_lun; do
    for jobs in 8192 65536; do
        files=$work/$order-$jobs
        python3 "$bench/make_run.py" "$files" erase "$jobs" "$order"
        "$onfiseq" asm "$files/words.asm" "$files/words.nmp" > "$work/said"
        for workers in 1 8; do
            echo "$order, $jobs jobs, $workers at work: $(seconds "$files/run" $workers) $(seconds "$files/run" $workers) $(seconds "$files/run" $workers) s"
        done
    done
done

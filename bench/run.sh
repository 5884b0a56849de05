#!/bin/bash
# How fast a channel is run: 1,000 jobs on 8 LUNs, each of which reads a whole page of 4,096 + 256 bytes or programs one, by one worker: some 4,377,000
# items. For each kind of job three runs in turn: without printing, with the trace printed into a file, and the same work in plain Rust without
# contracts (`bench/plain`), its data item by item and by runs; and, where valgrind is there, the instructions an item of each.
set -eu
bench=$(cd "$(dirname "$0")" && pwd)
onfiseq=$bench/../bin/onfiseq
built=$bench/../crates/onfiseq/out/onfiseq
plain=$bench/plain/target/release/plain
work=$(mktemp -d)
trap 'rm -rf -- "$work"' EXIT
(cd "$bench/plain" && cargo build --release --quiet)

# Makes the files of a run of this kind with so many jobs.
make_run() {
    python3 "$bench/make_run.py" "$work/$1-$2" "$1" "$2"
    "$onfiseq" asm "$work/$1-$2/words.asm" "$work/$1-$2/words.nmp" > "$work/said"
}

seconds() {
    ( time -p "$@" > "$work/said" 2> "$work/errors" ) 2>&1 | sed -n 's/^real //p'
}

instructions() {
    valgrind --tool=callgrind --callgrind-out-file=/dev/null "$@" 2>&1 > "$work/said" | sed -n 's/.*Collected : //p'
}

# The instructions an item of a program: what 100 jobs more take. The number of jobs stands for @ in the words.
instructions_an_item() {
    local few many
    few=$(instructions "${@//@/100}")
    many=$(instructions "${@//@/200}")
    echo $(((many - few) / 437700))
}

for kind in read program; do
    make_run "$kind" 1000
    for turn in 1 2 3; do
        echo "$kind, run $turn: $(seconds "$built" run "$work/$kind-1000/run" --quiet) s quiet," \
            "$(seconds "$built" run "$work/$kind-1000/run") s printed into a file," \
            "$(seconds "$plain" run "$kind" items 1000) s plain by items," \
            "$(seconds "$plain" run "$kind" runs 1000) s plain by runs"
    done
    if command -v valgrind > /dev/null; then
        make_run "$kind" 100
        make_run "$kind" 200
        echo "$kind, instructions an item: $(instructions_an_item "$built" run "$work/$kind-@/run" --quiet) quiet," \
            "$(instructions_an_item "$built" run "$work/$kind-@/run") printed," \
            "$(instructions_an_item "$plain" run "$kind" items @) plain by items," \
            "$(instructions_an_item "$plain" run "$kind" runs @) plain by runs"
    fi
done

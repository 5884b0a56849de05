#!/bin/sh
# How fast a trace is checked, printed and read, beside a program that checks the same in plain Rust without contracts (`bench/plain`): of traces of
# erases and of page reads, 10 million items long, three runs of each in turn; and, where valgrind is there, the instructions an item.
set -eu
bench=$(cd "$(dirname "$0")" && pwd)
cd "$bench/plain"
cargo build --release --quiet
plain=$bench/plain/target/release/plain
cd "$bench/../crates/bench"
rt run > /dev/null 2>&1
ours=$(pwd)/out/bench
items=10000000

# What a program tells of its time, behind its name.
tell_time() {
    name=$1
    shift
    "$@" "$items" 2>&1 > /dev/null | sed "s/^/$name, /"
}

for turn in 1 2 3; do
    tell_time "erases" "$ours" trace
    tell_time "erases, plain" "$plain" trace
    tell_time "page reads" "$ours" reads
    tell_time "page reads, plain by items" "$plain" reads items
    tell_time "page reads, plain by runs" "$plain" reads runs
    tell_time "page reads" "$ours" text
done

instructions() {
    valgrind --tool=callgrind --callgrind-out-file=/dev/null "$@" 2>&1 | sed -n 's/.*Collected : //p'
}

# The instructions an item of a program, given with the words that stand before the number of items, the making of the trace included.
tell_instructions() {
    name=$1
    shift
    few=$(instructions "$@" 100000)
    many=$(instructions "$@" 200000)
    echo "$name: $(((many - few) / 100000)) instructions an item"
}

if command -v valgrind > /dev/null; then
    tell_instructions "erases" "$ours" trace
    tell_instructions "erases, plain" "$plain" trace
    tell_instructions "page reads" "$ours" reads
    tell_instructions "page reads, plain by items" "$plain" reads items
    tell_instructions "page reads, plain by runs" "$plain" reads runs
    tell_instructions "page reads, printed and read" "$ours" text
fi

#!/bin/bash
# How fast a bus is, beside one that is the same in plain Rust without contracts (`bench/plain`): pages of 4,096 + 256 bytes are
# programmed, read again whole byte by byte, and erased, with status polls. For three runs in turn a line of time for each of these
# steps, the processor time of both programs and its ratio; and, where valgrind is there, the instructions an item.
# `bench/bus.sh [PAGES]`; 1,000 pages where no number is given.
set -eu
pages=${1:-1000}
bench=$(cd "$(dirname "$0")" && pwd)
cd "$bench/plain"
cargo build --release --quiet
plain=$bench/plain/target/release/plain
cd "$bench/../crates/bench"
rt run > /dev/null 2>&1
proved=./out/bench
said=$(mktemp)
trap 'rm -f "$said"' EXIT

# The milliseconds of processor time of a program, whose own lines go to the end of the file `said`.
millis() {
    local TIMEFORMAT='%3U %3S'
    { time "$@" >> "$said" 2>&1; } 2>&1 | { read -r user system; echo $((10#${user/./} + 10#${system/./})); }
}

instructions() {
    valgrind --tool=callgrind --callgrind-out-file=/dev/null "$@" 2>&1 | sed -n 's/.*Collected : //p'
}

for turn in 1 2 3; do
    : > "$said"
    ours=$(millis "$proved" bus "$pages")
    theirs=$(millis "$plain" bus "$pages")
    cat "$said"
    echo "run $turn: $ours ms proved, $theirs ms plain, $((ours * 100 / theirs)) to 100"
done
if command -v valgrind > /dev/null; then
    items=87290 # of ten pages more, which end no block
    ours=$((($(instructions "$proved" bus 20) - $(instructions "$proved" bus 10)) / items))
    theirs=$((($(instructions "$plain" bus 20) - $(instructions "$plain" bus 10)) / items))
    echo "$ours instructions an item proved, $theirs plain, $((ours * 100 / theirs)) to 100"
fi

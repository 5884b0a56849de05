#!/bin/bash
# What an item costs through the library for C: nanoseconds, and instructions (valgrind, the difference of two sizes) beside those of `check` in one call.
# At the root, after tools/c_library.py.
set -euo pipefail
mkdir -p out/c
cc -std=gnu99 -O2 -Iinclude bench/push.c crates/onfiseq_c/out/libonfiseq_c.a -o out/c/push
count() {
    valgrind --tool=cachegrind --cache-sim=no --cachegrind-out-file=/dev/null out/c/push "$1" "$2" 2>&1 | sed -n 's/.*I *refs: *//p' | tr -d ,
}
for how in push push_all ask check; do
    out/c/push "$how" 1000000
    if command -v valgrind > /dev/null; then
        echo "$how: $((($(count "$how" 20000) - $(count "$how" 10000)) / 100000)) instructions an item"
    fi
done

#!/bin/bash
# What a monitor costs in a run of Verilator: instructions of a bus item with it and without (valgrind, the difference of two sizes), on a test bench that
# does nothing but drive the pins (bench/load.sv). At the root: over release/onfiseq.c, and over the libraries where tools/c_library.py has built them.
set -euo pipefail
here=$PWD
room=out/verilator
rm -rf $room
mkdir -p $room
cp examples/small_chip/chip.page $room
cd $room
sv=$here/examples/systemverilog
cc -O2 -DONFISEQ_STACK=ONFISEQ_STACK_BEGIN -DONFISEQ_MEMORY=65536 -DONFISEQ_WITHOUT_VERIFY -DONFISEQ_WITHOUT_LIVE -I"$here/include" -c "$here/release/onfiseq.c" -o one_file.o
build() { # NAME WATCH LAG SOURCES..
    local name=$1 watch=$2 lag=$3
    shift 3
    verilator --binary --timing --top-module load -O3 -GWATCH="$watch" -GLAG="$lag" -Mdir "$name" -CFLAGS "-O2 -I$here/include" \
        "$sv/onfiseq_pkg.sv" "$sv/onfiseq_monitor.sv" "$here/bench/load.sv" "$sv/onfiseq_dpi.c" "$@" > build.log 2>&1 || { tail -20 build.log; exit 1; }
}
count() {
    valgrind --tool=cachegrind --cache-sim=no --cachegrind-out-file=/dev/null "$1/Vload" "+COUNT=$2" 2>&1 | sed -n 's/.*I *refs: *//p' | tr -d ,
}
# An erase has 9 cycles and a ready.
an_item() {
    echo $((($(count "$1" 2000) - $(count "$1" 1000)) / 10000))
}
measure() { # WHAT SOURCES..
    local what=$1 lag
    shift
    for lag in 0 64; do
        build "with_$lag" 1 $lag "$@"
        echo "over $what, LAG $lag: $(($(an_item "with_$lag") - bench)) instructions an item above the bench"
    done
}
build without 0 0 "$here/$room/one_file.o"
bench=$(an_item without)
echo "the bench alone: $bench instructions an item"
measure "the one C file" "$here/$room/one_file.o"
libraries=("$here/crates/onfiseq_c/out/libonfiseq_c.a" "$here/crates/onfiseq_text_c/out/libonfiseq_text_c.a")
if [ -f "${libraries[0]}" ]; then
    measure "the libraries" "${libraries[@]}"
fi

#!/bin/bash
# Runs a program on a simulated Cortex-M board, with its words and its output by semihosting: run.sh BOARD CPU PROGRAM WORDS.. (QEMU_WORDS: more for qemu-system-arm)
board=$1 cpu=$2 program=$3
shift 3
words="arg=program"
for it in "$@"; do words="$words,arg=$it"; done
exec qemu-system-arm -M "$board" -cpu "$cpu" -nographic -monitor none -serial none ${QEMU_WORDS:-} -semihosting-config "enable=on,target=native,$words" -kernel "$program"

#!/bin/bash
# What words without cycles cost a run: `seek 0` 2.7e8 times in three nested loops, without giving up the bus, and 1.7e7 times in two, with a `yield` behind each. It prints the seconds
# of the job and the most memory that the process had.
set -eu
bench=$(cd "$(dirname "$0")" && pwd)
onfiseq=${ONFISEQ:-$bench/../bin/onfiseq}
work=$(mktemp -d)
trap 'rm -rf -- "$work"' EXIT
python3 "$bench/make_run.py" "$work" erase 0

# Runs a text of these loops around these words.
run_loops() {
    local name=$1 turns=$2 words=$3
    { printf 'rows 1\nbuffer 0\nbudget 0\n'; for n in $turns; do echo "loop $n"; done; printf '%b' "$words"; for n in $turns; do echo next; done; echo 'end 0'; } > "$work/$name.asm"
    printf 'page %s/chip.page\ntargets 1\njob 0 0 0 %s/%s.asm - -\n' "$work" "$work" "$name" > "$work/$name.run"
    python3 - "$onfiseq" "$work/$name.run" "$name" <<'PY'
import re, resource, subprocess, sys
said = subprocess.run([sys.argv[1], "run", sys.argv[2], "--quiet", "--stats"], capture_output=True, text=True)
seconds = re.search(r"seconds ([0-9.]*)", said.stderr)
peak = resource.getrusage(resource.RUSAGE_CHILDREN).ru_maxrss
print(f"{sys.argv[3]}: {seconds.group(1) if seconds else said.stderr.strip()} s, {peak / 1000:.0f} MB")
PY
}

run_loops in_one_turn "16 4096 4096" 'seek 0\n'
run_loops in_many_turns "4096 4096" 'seek 0\nyield\n'

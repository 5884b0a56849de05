"""Passes on what the gate prints, and lists before its last line the minute at which each step ended, the processor time of each crate, and once more each
line that says what failed, since whoever reads a long print reads its end.
Where a file is named, the last line goes there. With --table the minutes go into docs/develop/minutes.tsv (`tools/minutes.py`): the rows of the crates that this
run proved, divided by its pace; the others stay.

    python3 tools/kept | python3 tools/gate_minutes.py [--table] [FILE]

A step is a crate's proof or tests proved, its edits begun, or a program or tests run. Processor time is read each second off the provers of this
session. Other work beside the gate makes each of them slower by what it takes of the caches. The last line but one says how fast the machine is beside that of
the table: the median of what each step takes longer. docs/develop/GATE.md says what the minutes are for.
"""
import collections
import datetime
import glob
import os
import re
import statistics
import subprocess
import sys
import threading
import time

import minutes
from minutes import KINDS, TABLE

STEP = re.compile(r"^rt: (\S+?):? (proved|NOT PROVED|its tests (are )?(proved|NOT PROVED|passed|FAILED)|trying its must-fail edits.*|ran\b.*)$")
FAILURE = re.compile(r"NOT PROVED|FAILED|BAD EDIT|: no proof|is not proved|must prove:|error\[|^error|was not refused|^test .* FAILED|they differ first")
# How many of those lines are said again, each cut after so many characters.
MOST_FAILURES, LONGEST = 60, 300
LAST = re.compile(r"^\d+ passed, \d+ failed$")


def kind_of(words, folder):
    """What a prover works on: a crate's own proof, its tests, or one of its must-fail edits."""
    if "rt-edit" in folder:
        return "edits"
    return "tests" if b"--test" in words else "proof"


def read_prover(folder):
    """The crate of a running prover, what it works on, and its seconds of processor time so far; None where this is no prover."""
    try:
        with open(f"{folder}/cmdline", "rb") as file:
            words = file.read().split(b"\0")
        if not words[0].endswith(b"/rattle") or b"--crate-name" not in words:
            return None
        with open(f"{folder}/stat", encoding="utf-8", errors="replace") as file:
            ticks = file.read().rsplit(")", 1)[1].split()
        where = os.readlink(f"{folder}/cwd")
        is_of_another = os.getsid(int(os.path.basename(folder))) != os.getsid(0)
    except (OSError, IndexError):
        return None
    if is_of_another:
        return None
    crate = words[words.index(b"--crate-name") + 1].decode()
    # Its own time and that of its children that have ended.
    return crate, kind_of(words, where), sum(map(int, ticks[11:15])) / os.sysconf("SC_CLK_TCK")


class Provers:
    """The processor time of the provers of a run."""

    def __init__(self):
        self.seconds = {}
        self.is_over = False

    def watch(self):
        while not self.is_over:
            for folder in glob.glob("/proc/[0-9]*"):
                prover = read_prover(folder)
                if prover:
                    crate, kind, seconds = prover
                    self.seconds[crate, kind, folder] = seconds
            time.sleep(1)

    def minutes(self):
        """The minutes of each crate by kind, the dearest first."""
        crates = collections.defaultdict(lambda: dict.fromkeys(KINDS, 0.0))
        for (crate, kind, _), seconds in self.seconds.items():
            crates[crate][kind] += seconds / 60
        return sorted(crates.items(), key=lambda row: -sum(row[1].values()))

    def ratios(self):
        """How many times as long as in the table each step takes that takes a minute there."""
        before, _ = minutes.read()
        given = {name: row.minutes for name, row in before.items()}
        return [row[kind] / given[name][kind] for name, row in self.minutes() if name in given for kind in KINDS if given[name][kind] >= 1 and row[kind] > 0]

    def pace(self):
        """The median of those, 1 where there are none."""
        return statistics.median(self.ratios() or [1])

    def write(self, clock):
        """Puts the minutes of the crates that were proved into the table."""
        rows, measured = minutes.read()
        pace, found = self.pace(), dict(self.minutes())
        for name, row in found.items():
            before = rows[name].minutes if name in rows else dict.fromkeys(KINDS, 0.0)
            rows[name] = minutes.Row({kind: row[kind] / pace if row[kind] else before[kind] for kind in KINDS}, minutes.sum_of(name))
        crates = {os.path.basename(folder) for folder in glob.glob("crates/*")}
        kit = subprocess.run(["rt", "version"], capture_output=True, text=True, check=False).stdout.split()
        line = f"{datetime.date.today()}, {len(found)} crates, {kit[0] if kit else 'no kit'}, {os.cpu_count()} processors, pace {pace:.2f}, {clock / 60:.0f} minutes by the clock"
        minutes.write({name: row for name, row in rows.items() if name in crates}, [*(measured if len(found) < len(crates) else []), line])

    def table(self):
        """A line for each crate, the dearest first, and one for all."""
        rows = self.minutes()
        every = {kind: sum(row[kind] for _, row in rows) for kind in KINDS}
        for name, row in [*rows, ("all", every)]:
            each = ", ".join(f"{row[kind]:5.1f} {kind}" for kind in KINDS)
            yield f"processor minutes {sum(row.values()):6.1f}  {name}: {each}\n"


def main():
    begun, steps, failures, last = time.monotonic(), [], [], None
    provers = Provers()
    watch = threading.Thread(target=provers.watch, daemon=True)
    watch.start()
    for line in sys.stdin:
        if LAST.match(line):
            last = line
            continue
        if STEP.match(line):
            steps.append(f"minute {(time.monotonic() - begun) / 60:5.1f}  {line[4:]}")
        if FAILURE.search(line) and "refused, as it must be" not in line and len(failures) < MOST_FAILURES:
            failures.append(f"failed: {line.strip()[:LONGEST]}\n")
        sys.stdout.write(line)
        sys.stdout.flush()
    provers.is_over = True
    watch.join()
    clock = time.monotonic() - begun
    steps = [step if step.endswith("\n") else step + "\n" for step in steps]
    pace = f"pace: {provers.pace():.2f} times the minutes of {TABLE}, the median of {len(provers.ratios())} steps\n"
    sys.stdout.write("".join([*steps, *provers.table(), pace, f"minutes by the clock: {clock / 60:.1f}\n", *failures]))
    words = [word for word in sys.argv[1:] if word != "--table"]
    if "--table" in sys.argv:
        provers.write(clock)
    if last and words:
        with open(words[0], "w", encoding="utf-8") as file:
            file.write(last)
    elif last:
        sys.stdout.write(last)


main()

"""How many refused microprograms show a run, by shape: refused_runs.py N [SEED [SHAPE [PROGRAM]]]. docs/model/ACCEPTANCE.md says what is measured.

N random programs of each shape are made and judged as `acceptance.py` makes and judges them. PROGRAM, bin/onfiseq if nothing is said, verifies each that is
refused with `--counter`, and `check` judges the trace that it writes. A line of a shape counts the refused programs that are wrong by the oracle, how many of
them have a run and how many have it at the refused word; the refused programs that are right, and how many of them have a run, which none should; those that
break on ways alone that no status byte leads along; and the runs of which `check` says something else than `verify`.
LIBRARY is as in `acceptance.py`. SHOWN=1 prints each wrong program without a run. ROWS names the table of the page, docs/model/refused_runs.tsv, to which a row for
each shape goes.
"""
import datetime
import os
import random
import re
import subprocess
import sys
import tempfile
from collections import Counter
from pathlib import Path

import acceptance
import onfiseq
import shares

RULES = {"V7", "V11", "V12", "V16"}


def run_of(program, page, words, folder):
    """What `verify` says of the run of a refusal: its word and reason, and what `check` says of its trace; None where none is written."""
    text, trace = folder / "program.asm", folder / "run.trace"
    text.write_text(acceptance.text_of(words))
    trace.unlink(missing_ok=True)
    said = subprocess.run([program, "verify", page, text, "--counter", trace], capture_output=True, text=True, check=False)
    code, word = re.match(r"refused (\S+) at (\d+)", said.stdout).groups()
    if not trace.exists():
        return None, code, int(word)
    other = re.search(r"the run that is written ends at word (\d+) for (V\d+)", said.stderr)
    end = (other.group(2), int(other.group(1))) if other else (code, int(word))
    judged = subprocess.run([program, "check", page, "1", trace], capture_output=True, text=True, check=False)
    return end, code, (judged.stdout.strip(), len(trace.read_text().splitlines()))


def judge_run(end, judged):
    """Whether the trace is what the end says: its last item breaks a rule, or it is legal for a reason that needs no cycle."""
    verdict, items = judged
    if verdict == "legal":
        return end[0] not in ("V7", "V12")
    return verdict.endswith("at %d" % (items - 1)) and end[0] in RULES


def measure(lib, program, shape, luns, count, seed, folder):
    oracle, rng, tally = acceptance.Oracle(lib, luns), random.Random("%s %s %d" % (seed, shape, luns)), Counter()
    page = folder / "chip.page"
    page.write_bytes(oracle.page)
    maker = acceptance.Maker(rng, shape, oracle)
    for _ in range(count):
        words = maker.program_of_shape()
        code, at = acceptance.verdict(lib, oracle.page, words)
        if not code:
            continue
        kind = "wrong" if oracle.judge_runs(words) else "right" if oracle.judge(words) is None else "unmet"
        end, _, judged = run_of(program, page, words, folder)
        tally[kind] += 1
        if end is None:
            if kind == "wrong" and os.environ.get("SHOWN"):
                print("%s at %d, %s:\n%s" % (code, at, oracle.judge(words), acceptance.text_of(words)))
            continue
        tally[kind, "run"] += 1
        tally[kind, "same"] += end == (code, at)
        tally[kind, "untrue"] += not judge_run(end, judged)
    return tally


def row_of(shape, luns, count, tally):
    """A row of the page's table."""
    counted = (tally[key] for key in ("wrong", ("wrong", "run"), ("wrong", "same"), "right", ("right", "run"), "unmet"))
    return shares.Runs(shape, luns, count, *counted, str(datetime.date.today()), shares.sum_of(shares.SEARCH))


def main():
    count, seed = int(sys.argv[1]), sys.argv[2] if len(sys.argv) > 2 else "1"
    only, program = sys.argv[3] if len(sys.argv) > 3 else "", os.path.abspath(sys.argv[4] if len(sys.argv) > 4 else "bin/onfiseq")
    lib = onfiseq.load(os.environ.get("LIBRARY", "out/libonfiseq.so"))
    for shape, luns in acceptance.SHAPES:
        if only not in "%s%d" % (shape, luns):
            continue
        with tempfile.TemporaryDirectory() as folder:
            tally = measure(lib, program, shape, luns, count, seed, Path(folder))
        print(
            "%s, %d LUN: wrong %d, with a run %d, at the refused word %d; right %d, with a run %d; on ways alone that no status leads along %d, with a run %d; untrue %d"
            % (shape, luns, *(tally[key] for key in ("wrong", ("wrong", "run"), ("wrong", "same"), "right", ("right", "run"), "unmet", ("unmet", "run"))), sum(tally[kind, "untrue"] for kind in ("wrong", "right", "unmet"))),
            flush=True,
        )
        if "ROWS" in os.environ:
            shares.keep(Path(os.environ["ROWS"]), row_of(shape, luns, count, tally))


main()

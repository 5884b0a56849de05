"""Runs `onfiseq run` and `onfiseq check` with each of their requests for memory refused in turn, and runs with each of their threads.

    python3 tools/fail_runs.py [PROGRAM]

PROGRAM is the built program (crates/onfiseq/out/onfiseq when none is given). A run of two jobs with an image, two buffers and a trace is
made by one worker and by three. Where a request is refused, it ends with status 4 and `out of memory`, prints nothing on standard output,
and every file is as it was before, or all are written where only the printing was left; so it does where a thread can't be started.
Otherwise it ends as a run to which nothing is refused, with the same files: a list that is made of others asks for all its room at first,
and goes on without it. The trace of such a run is judged alone, and with a vendor's sequences, times, images and a copy. Where a request is
refused, a check ends with status 4 and prints nothing, or with the status and the lines of one to which nothing is refused, and its copy is
whole or as before. Ends with status 1 at the first run that isn't so.
"""
import shutil
import sys
import tempfile
from pathlib import Path

from refusing import build_refuser, run_refused

ROOT = Path(__file__).resolve().parent.parent
PROGRAM = Path(sys.argv[1] if len(sys.argv) > 1 else ROOT / "crates/onfiseq/out/onfiseq").resolve()
CHIP = ROOT / "examples/two_luns"
OUTPUTS = ("die.img", "first", "second", "trace")
# How a trace is judged, behind its page, its targets and its path.
CHECKS = (
    (),
    ("--all", "--vendor", "linux", "--timing", "0", "--unit", "1ns", "--data", "--write", "copy"),
)
MOST = 100_000


def stop(what):
    print(f"fail_runs: {what}", file=sys.stderr)
    sys.exit(1)


def empty_image(page):
    """The image of an erased die of this page (docs/model/MODEL.md)."""
    number = lambda data: int.from_bytes(data, "little")
    sizes = (number(page[80:84]), number(page[84:86]), number(page[92:96]), number(page[96:100]), 0)
    return b"NDI1" + b"".join(size.to_bytes(4, "little") for size in sizes)


def make_inputs(folder):
    """The page, the words and the data of the run, and the run: a page is programmed and then read on each of two LUNs."""
    for name in ("chip.page", "data", "program_page.nmp"):
        shutil.copy(CHIP / name, folder / name)
    text = folder / "read_page.nmp"
    made = run_refused("", [PROGRAM, "asm", ROOT / "examples/read_page.asm", text])
    if made.status != 0:
        stop(f"asm: {made.output}{made.errors}")
    lines = [f"page {folder}/chip.page", "targets 1", f"image 0 0 {folder}/die.img"]
    for lun, output in ((0, "first"), (1, "second")):
        lines.append(f"job 0 {lun} 0 {folder}/program_page.nmp {folder}/data -")
        lines.append(f"job 0 {lun} 0 {text} - {folder}/{output}")
    (folder / "run").write_text("\n".join(lines) + "\n")


def put_outputs(folder):
    """What stands in the outputs before a run."""
    for name in OUTPUTS:
        (folder / name).write_bytes(f"as before: {name}\n".encode())
    (folder / "die.img").write_bytes(empty_image((folder / "chip.page").read_bytes()))


def contents(folder):
    """Every file of the folder, with what it holds."""
    return {path.name: path.read_bytes() for path in folder.iterdir() if not path.name.startswith("refuser")}


def try_run(refuser, folder, workers, **refused):
    """A run with something refused; what it left behind, and how it ended."""
    put_outputs(folder)
    before = contents(folder)
    words = [PROGRAM, "run", folder / "run", "--quiet", "--workers", str(workers), "--trace", folder / "trace"]
    ended = run_refused(refuser, words, **refused)
    return ended, before, contents(folder)


def is_alike(after, whole, workers):
    """The files of a run are those of one to which nothing was refused; by several workers the items of a trace may stand in another order."""
    if workers > 1:
        after, whole = ({**files, "trace": len(files["trace"].splitlines())} for files in (after, whole))
    return after == whole


def judge(what, workers, ran, whole):
    """Whether a run of which something was refused was out of memory; stops where it went wrong."""
    ended, before, after = ran
    is_kept = after == before or is_alike(after, whole[2], workers)
    if ended.status == 4 and ended.output == "" and "out of memory" in ended.errors and is_kept:
        return True
    if ended.status == 0 and ended.output == whole[0].output and is_alike(after, whole[2], workers):
        return False
    changed = sorted(name for name in {**before, **after} if before.get(name) != after.get(name))
    stop(f"{what} of {workers} workers: status {ended.status}, {ended.output!r}, {ended.errors!r}, changed: {changed}")


def refuse_each(refuser, folder, workers):
    whole = try_run(refuser, folder, workers)
    if whole[0].status != 0 or whole[0].requests is None:
        stop(f"a run to which nothing is refused ended with {whole[0]}")
    short = passed = 0
    for number in range(1, MOST):
        ran = try_run(refuser, folder, workers, request=number)
        if ran[0].requests is not None and ran[0].requests < number:
            break
        if judge(f"request {number}", workers, ran, whole):
            short += 1
        else:
            passed += 1
    if short == 0:
        stop(f"no request of {workers} workers was refused")
    for number in range(1, whole[0].threads + 1):
        ran = try_run(refuser, folder, workers, thread=number)
        if not judge(f"thread {number}", workers, ran, whole):
            stop(f"thread {number} of {workers} workers wasn't missed")
    print(f"onfiseq run by {workers}: {short} requests refused, and out of memory; {passed} refused, and done all the same; "
          f"{whole[0].threads} threads refused, and out of memory")


def try_check(refuser, folder, words, request):
    """A check with a request refused: how it ended, and its copy."""
    (folder / "copy").write_text("as before\n")
    ended = run_refused(refuser, words, request=request)
    return ended, (folder / "copy").read_bytes()


def judge_check(what, ran, whole, before):
    """Whether a check of which a request was refused was out of memory; stops where it went wrong."""
    ended, copy = ran
    if ended.status == 4 and ended.output == "" and "out of memory" in ended.errors and copy in (before, whole[1]):
        return True
    if (ended.status, ended.output, copy) == (whole[0].status, whole[0].output, whole[1]):
        return False
    stop(f"{what}: status {ended.status}, {ended.output!r}, {ended.errors!r}")


def refuse_check(refuser, folder, options):
    """Refuses each request of a check in turn."""
    put_outputs(folder)
    made = run_refused("", [PROGRAM, "run", folder / "run", "--quiet", "--times", "0", "--trace", folder / "trace"])
    if made.status != 0:
        stop(f"a run with times ended with {made}")
    named = [folder / "copy" if word == "copy" else word for word in options]
    words = [PROGRAM, "check", folder / "chip.page", "1", folder / "trace", "--recorded", *named]
    whole = try_check(refuser, folder, words, 0)
    if whole[0].status not in (0, 2) or whole[0].requests is None:
        stop(f"a check to which nothing is refused ended with {whole[0]}")
    short = 0
    for number in range(1, whole[0].requests + 1):
        ran = try_check(refuser, folder, words, number)
        short += judge_check(f"request {number} of {' '.join(map(str, words))}", ran, whole, b"as before\n")
    if short == 0:
        stop(f"no request of a check {options} was out of memory")
    print(f"onfiseq check {' '.join(options)}: {short} of {whole[0].requests} requests refused, and out of memory")


def main():
    if not PROGRAM.is_file():
        stop(f"{PROGRAM} isn't there: run rt ci, or bin/onfiseq")
    with tempfile.TemporaryDirectory() as name:
        folder = Path(name)
        refuser = build_refuser(folder)
        make_inputs(folder)
        for workers in (1, 3):
            refuse_each(refuser, folder, workers)
        for options in CHECKS:
            refuse_check(refuser, folder, options)


main()

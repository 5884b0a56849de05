"""Kills `onfiseq run` and `onfiseq asm` at random moments, and looks at what they leave.

    python3 tools/kill_runs.py [PROGRAM] [KILLS]

PROGRAM is the built program (crates/onfiseq/out/onfiseq when none is given), KILLS how often a run is killed (200). A run programs and reads pages; its
image and its buffer are plain files, or links to files, or stand in a folder of a full file system where one can be mounted. After each kill the image, the
buffer and the trace are whole, as they were before or as a run makes them; a file named like a part of ours stays as it is; nothing else is there
but parts of the killed run. Ends with status 1 at the first that isn't so.
"""
import os
import random
import shutil
import signal
import subprocess
import sys
import tempfile
import time
from pathlib import Path

ROOT = Path(__file__).resolve().parent.parent
PROGRAM = Path(sys.argv[1] if len(sys.argv) > 1 else ROOT / "crates/onfiseq/out/onfiseq").resolve()
KILLS = int(sys.argv[2]) if len(sys.argv) > 2 else 200
CHIP = ROOT / "examples/two_luns"
OUTPUTS = ("die.img", "buffer", "trace")
OURS = "a file of a user, named like a part of ours\n"


def onfiseq(*words, **options):
    return subprocess.run([PROGRAM, *words], capture_output=True, check=False, **options)


def stop(what):
    print(f"kill_runs: {what}", file=sys.stderr)
    sys.exit(1)


def number(data):
    return int.from_bytes(data, "little")


def empty_image(page):
    """The image of an erased die of this page (docs/model/MODEL.md)."""
    sizes = (number(page[80:84]), number(page[84:86]), number(page[92:96]), number(page[96:100]), 0)
    return b"NDI1" + b"".join(size.to_bytes(4, "little") for size in sizes)


def make_inputs(folder):
    """Word files of a text that programs a page and of one that reads it, the page and the data."""
    for name in ("program_page", "read_page"):
        made = onfiseq("asm", ROOT / f"examples/{name}.asm", folder / f"{name}.nmp")
        if made.returncode != 0:
            stop(f"asm {name}: {made.stdout.decode()}{made.stderr.decode()}")
    shutil.copy(CHIP / "chip.page", folder / "chip.page")
    shutil.copy(CHIP / "data", folder / "data")


def make_run(folder, out):
    """The run: a page is programmed, with the image of its die, and then read into a buffer."""
    (folder / "run").write_text("\n".join([
        f"page {folder}/chip.page",
        "targets 1",
        f"image 0 0 {out}/die.img",
        f"job 0 0 0 {folder}/program_page.nmp {folder}/data -",
        f"job 0 0 0 {folder}/read_page.nmp - {out}/buffer",
        "",
    ]))


def begin(folder, out):
    words = [PROGRAM, "run", folder / "run", "--quiet", "--trace", out / "trace"]
    return subprocess.Popen(words, stdout=subprocess.DEVNULL, stderr=subprocess.DEVNULL)


def contents(out):
    return {name: (out / name).read_bytes() for name in OUTPUTS}


def put(out, contents_of):
    for name, data in contents_of.items():
        (out / name).write_bytes(data)


def make_outputs(out, old, behind=None):
    """The folder of the outputs, with their old contents: plain files, or links to files in another folder."""
    out.mkdir(exist_ok=True)
    (out / ".onfiseq-part-0").write_text(OURS)
    if behind:
        behind.mkdir()
        for name in old:
            (behind / name).touch()
            (out / name).symlink_to(behind / name)
    put(out, old)


def look(out, old, new):
    """Each output is whole, and nothing else has changed. How many are new."""
    now = contents(out)
    for name, data in now.items():
        if data not in (old[name], new[name]):
            stop(f"{out / name} has {len(data)} bytes, neither those from before nor those of a run")
    if (out / ".onfiseq-part-0").read_text() != OURS:
        stop("a file of a user was taken for a part of ours")
    return sum(now[name] != old[name] for name in OUTPUTS)


def remove_parts(folder):
    """Removes what killed runs have left; how many there were. Nothing else may be new."""
    parts = [path for path in folder.iterdir() if path.name not in OUTPUTS and path.name != ".onfiseq-part-0"]
    for path in parts:
        if not path.name.startswith(".onfiseq-part-"):
            stop(f"{path} was made")
        path.unlink()
    return len(parts)


def kill_some(folder, out, behind, old, new, kills):
    """Kills so many runs; how many outputs were new, and how many parts were left."""
    begun = time.monotonic()
    begin(folder, out).wait()
    whole = time.monotonic() - begun
    changed = left = 0
    for _ in range(kills):
        put(out, old)
        run = begin(folder, out)
        time.sleep(random.uniform(0, whole))
        run.send_signal(signal.SIGKILL)
        run.wait()
        changed += look(out, old, new)
        left += remove_parts(out) + (remove_parts(behind) if behind else 0)
    return changed, left


def fill_disk(folder, out, old):
    """A run whose outputs don't fit the file system: they stay as they were."""
    mounted = subprocess.run(["mount", "-t", "tmpfs", "-o", "size=32k,nr_inodes=64", "none", out], capture_output=True, check=False)
    if mounted.returncode != 0:
        return "no file system could be mounted"
    try:
        make_outputs(out, {name: data[:64] if name != "die.img" else data for name, data in old.items()})
        before = contents(out)
        with open(out / "filler", "wb", buffering=0) as filler:
            try:
                while True:
                    filler.write(b"x" * 4096)
            except OSError:
                pass
        status = begin(folder, out).wait()
        if status != 2:
            stop(f"a run on a full file system ended with status {status}")
        if contents(out) != before:
            stop("a run on a full file system changed an output")
        (out / "filler").unlink()
        if remove_parts(out):
            stop("a run on a full file system left a part")
    finally:
        subprocess.run(["umount", out], check=False)
    return "each output stayed"


def main():
    if not PROGRAM.exists():
        stop(f"there is no program {PROGRAM}: build it first (bin/onfiseq --help)")
    with tempfile.TemporaryDirectory() as place:
        place = Path(place)
        folder = place / "inputs"
        folder.mkdir()
        make_inputs(folder)
        old = {"die.img": empty_image((folder / "chip.page").read_bytes()), "buffer": b"old buffer\n" * 99, "trace": b"old trace\n" * 99}
        for kind in ("plain", "links"):
            out, behind = place / kind, place / "behind" if kind == "links" else None
            make_outputs(out, old, behind)
            make_run(folder, out)
            if begin(folder, out).wait() != 0:
                stop("the run doesn't end with status 0")
            new = contents(out)
            changed, left = kill_some(folder, out, behind, old, new, KILLS // 2)
            print(f"{kind}: {KILLS // 2} runs killed, {changed} outputs were new, {left} parts left, each output whole")
            if behind and not all((out / name).is_symlink() for name in OUTPUTS):
                stop("a link was replaced")
        out = place / "full"
        out.mkdir()
        make_run(folder, out)
        print(f"full file system: {fill_disk(folder, out, old)}")


main()

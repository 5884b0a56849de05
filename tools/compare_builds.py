"""Compares two builds of the program byte for byte: the proved one for x86-64, and the one that make builds of release/program.

    python3 tools/compare_builds.py [--made N] [--seed N] [REFERENCE OTHER]

at the root; REFERENCE is crates/onfiseq/out/onfiseq and OTHER ./onfiseq where none are named. Each case of tools/cases and each command of the pages is run by both, in folders
of the same files, and so are N made commands (1,000 where no number is given): traces, programs, captures, run files and pages that are changed at random. Both must end with the
same status, print the same on both streams, and leave the same files. Two things differ from run to run of one build, and aren't compared: the times of --stats, and what the
files of a run with several workers hold. Prints how many were compared, and the first that differ.
"""
import argparse
import os
import random
import re
import shutil
import subprocess
import sys
import tempfile
from concurrent.futures import ThreadPoolExecutor
from pathlib import Path

ROOT = Path(__file__).resolve().parent.parent
SECONDS = 60

# The commands of the made inputs: what stands for @ is the changed file, and % a name that is written.
MADE = {
    "asm": ("verify chip.page @", "asm @ %", "explain chip.page @", "lint chip.page @", "verify chip.page @ --profile onfi", "verify chip.page @ --run %"),
    "nmp": ("verify chip.page @", "dis @", "once --base 4", "upgrade @ %", "explain chip.page @"),
    "trace": (
        "check chip.page 1 @", "check chip.page 1 @ --all", "check chip.page 1 @ --profile onfi", "check chip.page 1 @ --recorded", "check chip.page 1 @ --recorded --readies-from-status",
        "ops chip.page 1 @", "draw chip.page 1 @ %", "wave chip.page 1 @ %", "image chip.page 1 @ %",
    ),
    "vcd": ("capture chip.page 1 @ %", "capture chip.page 1 @ % --times", "timing chip.page 1 @ --mode 0", "capture chip.page 1 @ - --vendor linux"),
    "run": ("run @", "run @ --quiet --trace %", "run @ --workers 3 --quiet"),
    "page": ("page @", "check @ 1 boot.trace", "verify @ seed0.asm"),
}
# How often a run that differed is made again.
TURNS = 8
TIMES = re.compile(rb"seconds [0-9.]+, cycles a second \d+")
NUMBERS = [b"0", b"1", b"3", b"7", b"16", b"255", b"4096", b"65536", b"99999999999", b"-1", b"ff", b"60", b"d0", b"30", b"x"]


def state_of(folder):
    """The files below a folder, with what they hold."""
    return {str(path.relative_to(folder)): path.read_bytes() for path in sorted(folder.rglob("*")) if path.is_file() and not path.is_symlink()}


class Ran:
    """What came of a run."""

    def __init__(self, program, words, folder, given):
        try:
            ran = subprocess.run([program, *words], cwd=folder, input=given, stdout=subprocess.PIPE, stderr=subprocess.PIPE, timeout=SECONDS)
            self.told = (ran.returncode, ran.stdout, ran.stderr)
        except subprocess.TimeoutExpired:
            self.told = ("no end", b"", b"")


def differing(words, one, other, folders):
    """What two runs of a command left otherwise, in words; nothing where all is the same."""
    for name, x, y in zip(("the status", "standard output", "standard error"), one.told, other.told):
        if x != y and not ("--stats" in words and TIMES.sub(b"", x) == TIMES.sub(b"", y)):
            return "%s: %.200r and %.200r" % (name, x, y)
    left, right = map(state_of, folders)
    if "--workers" in words:
        left, right = dict.fromkeys(left), dict.fromkeys(right)
    changed = sorted(name for name in left.keys() | right.keys() if left.get(name) != right.get(name))
    return "the file " + changed[0] if changed else ""


def twin(reference, other, log, words):
    """Runs both builds, the reference in a copy of this folder; a line of the log for each. Prints what the other printed, and ends as it."""
    here, given = Path.cwd(), b"" if sys.stdin.isatty() else sys.stdin.buffer.read()
    with tempfile.TemporaryDirectory() as room:
        copy = Path(room) / "copy"
        shutil.copytree(here, copy, symlinks=True)
        shutil.copytree(here, Path(room) / "before", symlinks=True)
        one, two = Ran(reference, words, copy, given), Ran(other, words, here, given)
        told = differing(words, one, two, (copy, here))
        for turn in range(TURNS if words[:1] == ["run"] else 0):
            # a host stores jobs while a worker runs, so two runs of one build may differ in the order on the bus: they must come to the same once
            if not told:
                break
            folders = [Path(room) / ("again%d.%d" % (turn, which)) for which in (0, 1)]
            for folder in folders:
                shutil.copytree(Path(room) / "before", folder, symlinks=True)
            told = differing(words, *(Ran(program, words, folder, given) for program, folder in zip((reference, other), folders)), folders)
    with open(log, "a") as it:
        it.write("%s\t%s\n" % (told.replace("\n", " "), " ".join(words)))
    sys.stdout.buffer.write(two.told[1])
    sys.stderr.buffer.write(two.told[2])
    sys.stdout.flush()
    os._exit(two.told[0] if isinstance(two.told[0], int) else 124)


def play_with(tool, reference, other):
    """Plays the cases or the pages by both: the lines of the log."""
    with tempfile.TemporaryDirectory() as room:
        script, log = room + "/onfiseq", room + "/log"
        Path(log).touch()
        Path(script).write_text('#!/bin/sh\nexec "%s" -ES "%s" --twin "%s" "%s" "%s" -- "$@"\n' % (sys.executable, __file__, reference, other, log))
        os.chmod(script, 0o755)
        subprocess.run([sys.executable, "tools/" + tool, script], cwd=ROOT, stdout=subprocess.DEVNULL, stderr=subprocess.DEVNULL)
        return Path(log).read_text(errors="replace").splitlines()


def seeds():
    """The files that are changed, by kind."""
    found = {kind: [] for kind in MADE}
    for kind, paths in (
        ("asm", ROOT.glob("examples/**/*.asm")), ("nmp", ROOT.glob("examples/**/*.nmp")), ("trace", ROOT.glob("examples/**/*.trace")), ("vcd", ROOT.glob("examples/**/*.vcd")),
        ("run", ROOT.glob("examples/*.run")), ("page", ROOT.glob("examples/**/*.page")),
    ):
        found[kind] += [path.read_bytes() for path in sorted(paths)]
    return found


def host_trace(number):
    """The trace of a Linux host that boots, with a bug where a number is given."""
    with tempfile.TemporaryDirectory() as room:
        bug = ["--bug", str(number)] if number else []
        subprocess.run([sys.executable, "examples/hosts/linux_boot.py", *bug, room + "/vcd", room + "/trace"], cwd=ROOT, check=True, stdout=subprocess.DEVNULL)
        return Path(room + "/vcd").read_bytes(), Path(room + "/trace").read_bytes()


def change(draw, held):
    """A changed copy: lines dropped, doubled, exchanged or cut, a word that is another number, or bytes that are others."""
    if b"\0" in held[:300]:
        data = bytearray(held)
        for _ in range(draw.randrange(4)):
            data[draw.randrange(len(data))] = draw.randrange(256)
        return bytes(data[: draw.choice((len(data), len(data), draw.randrange(len(data) + 1)))])
    lines = held.split(b"\n")
    for _ in range(draw.randrange(5)):
        at, other = draw.randrange(len(lines)), draw.randrange(len(lines))
        kind = draw.randrange(5)
        if kind == 0:
            del lines[at : at + draw.randrange(1, 4)]
        elif kind == 1:
            lines.insert(other if other < len(lines) else 0, lines[at])
        elif kind == 2:
            lines[at], lines[other] = lines[other], lines[at]
        elif kind == 3:
            words = lines[at].split(b" ")
            words[draw.randrange(len(words))] = draw.choice(NUMBERS)
            lines[at] = b" ".join(words)
        else:
            lines[at] = lines[at][: draw.randrange(len(lines[at]) + 1)]
        lines = lines or [b""]
    return b"\n".join(lines)


class Made:
    """Made commands: each from a number of its own."""

    def __init__(self, reference, other, seed):
        self.programs, self.seed, self.seeds = (reference, other), seed, seeds()
        for number in range(0, 21, 4):
            recording, trace = host_trace(number)
            self.seeds["trace"].append(trace)
            self.seeds["vcd"] += [recording] if number < 8 else []

    def fill(self, folder, name, held):
        """The files of a command."""
        folder.mkdir()
        (folder / "examples").symlink_to(ROOT / "examples")
        shutil.copy(ROOT / "examples/small_chip/chip.page", folder / "chip.page")
        (folder / "boot.trace").write_bytes(self.seeds["trace"][-1])
        (folder / "seed0.asm").write_bytes(self.seeds["asm"][0])
        (folder / name).write_bytes(held)

    def compare(self, number):
        """Runs a made command by both builds: what differs, with its words, or nothing."""
        draw = random.Random("%d %d" % (self.seed, number))
        kind = draw.choice(sorted(MADE))
        held, line = change(draw, draw.choice(self.seeds[kind])), draw.choice(MADE[kind])
        name = "made." + kind
        words = line.replace("@", name).replace("%", "written").split()
        with tempfile.TemporaryDirectory() as room:
            folders = [Path(room) / "one", Path(room) / "two"]
            for folder in folders:
                self.fill(folder, name, held)
            ran = [Ran(program, words, folder, held) for program, folder in zip(self.programs, folders)]
            told = differing(words, *ran, folders)
        return "%s\tmade %d: %s" % (told, number, line) if told else "\t" + str(ran[0].told[0])


def say(what, lines):
    """Says how a comparison went: whether all was the same."""
    wrong = [line for line in lines if line.partition("\t")[0]]
    print("compare_builds: %d %s, %s" % (len(lines), what, "%d DIFFER" % len(wrong) if wrong else "all the same"), flush=True)
    for line in wrong[:10]:
        told, _, words = line.partition("\t")
        print("    %s: %s" % (words, told))
    return not wrong and bool(lines)


def main():
    if sys.argv[1:2] == ["--twin"]:
        twin(*sys.argv[2:5], sys.argv[6:])
    words = argparse.ArgumentParser(prog="compare_builds")
    words.add_argument("reference", nargs="?", default="crates/onfiseq/out/onfiseq")
    words.add_argument("other", nargs="?", default="onfiseq")
    words.add_argument("--made", type=int, default=1000)
    words.add_argument("--seed", type=int, default=1)
    given = words.parse_args()
    programs = [os.path.abspath(path) for path in (given.reference, given.other)]
    for path in programs:
        if not os.access(path, os.X_OK):
            sys.exit("compare_builds: %s isn't there" % os.path.relpath(path))
    is_same = say("commands of the cases", play_with("cases.py", *programs))
    is_same &= say("commands of the pages", play_with("paste.py", *programs))
    made = Made(*programs, given.seed)
    with ThreadPoolExecutor(os.cpu_count()) as pool:
        lines = list(pool.map(made.compare, range(given.made)))
    is_same &= say("made commands", lines) if given.made else True
    print("compare_builds: of the made commands %d ended with 0" % sum(line.endswith("\t0") for line in lines))
    return 0 if is_same else 1


if __name__ == "__main__":
    sys.exit(main())

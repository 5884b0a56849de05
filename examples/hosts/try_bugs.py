"""Tries the recordings of examples/hosts/linux_boot.py: each ready is found, and each of 20 mistakes at its place.

    python3 examples/hosts/try_bugs.py [PROGRAM]

PROGRAM is the built program (onfiseq when none is given). Each recording is captured and checked, of a host with R/B# and of one that asks for the status:
with a note for each sequence outside of the profile; of the host with R/B# also with `--vendor linux`, which passes over those. (A vendor file can't say that
a sequence is polled in its midst and gives data then, as the other host does.)
"""
import subprocess
import sys
import tempfile
from pathlib import Path

HERE = Path(__file__).resolve().parent
PAGE = HERE.parent / "small_chip/chip.page"
# What the boot has that is outside of the profile.
NOTES = 5


def make(folder, words):
    ran = subprocess.run([sys.executable, HERE / "linux_boot.py", *words, f"{folder}/host.vcd", f"{folder}/host.trace"], capture_output=True, text=True, check=True)
    return ran.stdout.strip()


def judge(program, folder, polls):
    """Whether the capture of a recording is its trace, the lines that `check --all` prints of it, and, of a host with R/B#, those with `--vendor linux`."""
    subprocess.run([program, "capture", PAGE, "1", f"{folder}/host.vcd", f"{folder}/seen.trace"], capture_output=True, check=True)
    same = Path(f"{folder}/seen.trace").read_text() == Path(f"{folder}/host.trace").read_text()
    words = [program, "check", PAGE, "1", f"{folder}/seen.trace", "--all"]
    told = [subprocess.run([*words, *more], capture_output=True, text=True).stdout.splitlines() for more in ([], ["--vendor", "linux"])]
    return same, told[0], None if polls else told[1]


def main(program):
    wrong = 0
    with tempfile.TemporaryDirectory() as folder:
        for polls in ([], ["--polls"]):
            make(folder, polls)
            same, lines, vendor = judge(program, folder, polls)
            good = same and len(lines) == NOTES and vendor in (None, ["legal"])
            wrong += not good
            print(*polls, "no bug:", "fine" if good else (lines, vendor))
            for bug in range(1, 21):
                at = make(folder, [*polls, "--bug", str(bug)])
                same, lines, vendor = judge(program, folder, polls)
                good = len(lines) > NOTES and lines[NOTES].endswith(f" at {at}") and vendor in (None, lines[NOTES:])
                wrong += not good
                print(*polls, "bug", bug, "at", at, "told" if good else (lines[NOTES:], vendor))
    sys.exit(wrong != 0)


main(sys.argv[1] if len(sys.argv) > 1 else "onfiseq")

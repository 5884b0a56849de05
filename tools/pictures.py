"""Draws the pictures of the pages anew, and compares them.

    python3 tools/pictures.py [PROGRAM]            says which differs, and ends with 1
    python3 tools/pictures.py [PROGRAM] --write    writes them

PROGRAM is the built program (crates/onfiseq/out/onfiseq when none is given).
"""
import subprocess
import sys
import tempfile
from pathlib import Path

ROOT = Path(__file__).resolve().parent.parent
# A read, and two erases without a `wait` between.
ERASE_AGAIN = "rows 1\nbuffer 0\nbudget 17\ncmd 00\naddr 0 5\ncmd 30\nwait\ncmd 60\naddr 2 3\ncmd d0\ncmd 60\naddr 2 3\ncmd d0\nwait\nend 0\n"
# Each picture: where it stands, the command that draws it, what that reads on standard input, and its status. A run has one worker, so its trace is always the same.
PICTURES = (
    ("docs/use/two_luns.svg", ("run", "examples/two_luns.run", "--quiet"), "", 0),
    ("docs/use/refused_again.svg", ("verify", "examples/small_chip/chip.page", "examples/retry.asm"), "", 1),
    ("docs/use/refused.svg", ("verify", "examples/small_chip/chip.page", "-"), ERASE_AGAIN, 1),
)


def draw(program, words, text, status, folder):
    """The picture that a command draws."""
    picture = folder / "picture.svg"
    ran = subprocess.run([program, *words, "--draw", picture], cwd=ROOT, input=text, capture_output=True, text=True, check=False)
    if ran.returncode != status:
        sys.exit(f"{' '.join(words)}: status {ran.returncode}\n{ran.stderr}")
    return picture.read_bytes()


def main():
    words = [word for word in sys.argv[1:] if word != "--write"]
    program = Path(words[0] if words else ROOT / "crates/onfiseq/out/onfiseq").resolve()
    different = []
    for path, words, text, status in PICTURES:
        with tempfile.TemporaryDirectory() as folder:
            picture = draw(program, words, text, status, Path(folder))
        if "--write" in sys.argv:
            (ROOT / path).write_bytes(picture)
        if (ROOT / path).read_bytes() != picture:
            different.append(path)
    print("\n".join(f"{path} isn't what the program draws" for path in different) or f"pictures: {len(PICTURES)}, as the program draws them")
    sys.exit(1 if different else 0)


main()

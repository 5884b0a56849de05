"""Tries that `onfiseq` loses no file that it names twice, whatever the paths.

    python3 tools/same_files.py [PROGRAM]

PROGRAM is the built program (crates/onfiseq/out/onfiseq when none is given). Each command is to write over a file that it reads, or to write one file
twice, by another path of that file: with `./`, `//` and `..`, absolute, by a symbolic link, by a hard link, by a link to a file that isn't there, and as
standard input. It ends with status 3 and says so, and every file is as it was. A folder that isn't there is told before a run and before a drawing,
with the line of the run file that names it. Ends with status 1 at the first command that doesn't.
"""
import os
import subprocess
import sys
import tempfile
from pathlib import Path

ROOT = Path(__file__).resolve().parent.parent
PROGRAM = Path(sys.argv[1] if len(sys.argv) > 1 else ROOT / "crates/onfiseq/out/onfiseq").resolve()
CHIP = ROOT / "examples/small_chip"
RUN = "page chip.page\ntargets 1\nimage 0 0 die.img\njob 0 0 0 erase_block.asm - out.bin\n"
OVER, TWICE, FOLDER = "would be written over", "would be written twice", "there is no such folder to write it into"
# The words of a command, its status, and what it says.
TRIED = (
    ("wave chip.page 1 t.trace ./t.trace", 3, OVER),
    ("wave chip.page 1 t.trace .//t.trace", 3, OVER),
    ("wave chip.page 1 t.trace sub/../t.trace", 3, OVER),
    ("wave chip.page 1 t.trace {here}/t.trace", 3, OVER),
    ("wave chip.page 1 t.trace soft", 3, OVER),
    ("wave chip.page 1 soft t.trace", 3, OVER),
    ("wave chip.page 1 t.trace hard", 3, OVER),
    ("wave chip.page 1 t.trace folder/t.trace", 3, OVER),
    ("draw chip.page 1 t.trace ./chip.page", 3, OVER),
    ("draw chip.page 1 - ./t.trace", 3, OVER),
    ("asm erase_block.asm ./erase_block.asm", 3, OVER),
    ("check chip.page 1 t.trace --write ./t.trace --readies-from-status", 3, OVER),
    ("wave chip.page 1 t.trace ./v --vendor v", 3, OVER),
    ("capture chip.page 1 erase_block.vcd sub/../v --vendor v", 3, OVER),
    ("verify chip.page erase_block.asm --counter new --draw ./new", 3, TWICE),
    ("run x.run --trace a --wave ./a", 3, TWICE),
    ("run x.run --trace a --draw {here}/sub/../a", 3, TWICE),
    ("run x.run --trace nowhere --wave missing", 3, TWICE),
    ("run x.run --trace ahead --wave missing", 3, TWICE),
    ("run x.run --wave ./x.run", 3, OVER),
    ("run x.run --wave chip.page", 3, "chip.page would be written over: line 1 of x.run reads it as chip.page"),
    ("run x.run --trace ./erase_block.asm", 3, "line 4 of x.run reads it as erase_block.asm"),
    ("run x.run --draw die.img", 3, "line 3 of x.run writes it as die.img"),
    ("run x.run --draw sub/../out.bin", 3, "line 4 of x.run writes it as out.bin"),
    ("run x.run --wave none/w.vcd", 2, "file fault none/w.vcd\nnone/w.vcd: " + FOLDER),
    ("run lost.run", 2, "file fault none/out\nlost.run:3: none/out: " + FOLDER),
    ("run x.run --wave sub", 2, "sub: it is a directory"),
    ("wave chip.page 1 t.trace none/w.vcd", 2, "none/w.vcd: " + FOLDER),
    ("asm erase_block.asm none/w", 2, "none/w: " + FOLDER),
    ("capture chip.page 1 erase_block.vcd none/w", 2, "none/w: " + FOLDER),
)


def make_files(here):
    for name in ("chip.page", "erase_block.asm", "erase_block.vcd"):
        (here / name).write_bytes((CHIP / name).read_bytes())
    (here / "t.trace").write_bytes((CHIP / "erase_block.trace").read_bytes())
    (here / "x.run").write_text(RUN)
    (here / "v").write_text("da\n")
    (here / "lost.run").write_text("page chip.page\ntargets 1\njob 0 0 0 erase_block.asm - none/out\n")
    page = (here / "chip.page").read_bytes()
    sizes = (page[80:84], page[84:86] + bytes(2), page[92:96], page[96:100], bytes(4))
    (here / "die.img").write_bytes(b"NDI1" + b"".join(sizes))
    (here / "sub").mkdir()
    os.symlink(".", here / "folder")
    os.symlink("sub/../t.trace", here / "soft")
    os.symlink("missing", here / "nowhere")
    os.symlink(here / "sub/ahead", here / "ahead")
    os.symlink("../missing", here / "sub/ahead")
    os.link(here / "t.trace", here / "hard")


def look(here):
    """Every name below the folder, with what a link says or a file holds."""
    seen = {}
    for path in sorted(here.rglob("*")):
        name = path.relative_to(here).as_posix()
        if path.is_symlink():
            seen[name] = os.readlink(path)
        elif path.is_file():
            seen[name] = path.read_bytes()
    return seen


def main():
    with tempfile.TemporaryDirectory() as folder:
        here = Path(folder).resolve()
        make_files(here)
        before = look(here)
        for line, status, words in TRIED:
            given = [word.format(here=here) for word in line.split()]
            with open(here / "t.trace", "rb") as trace:
                ran = subprocess.run([PROGRAM, *given], cwd=here, stdin=trace, capture_output=True, text=True, check=False)
            if ran.returncode != status or words not in ran.stderr or ran.stdout:
                sys.exit(f"same_files: {line}: status {ran.returncode}, {ran.stdout!r}, {ran.stderr!r}")
            if look(here) != before:
                sys.exit(f"same_files: {line}: not all files are as they were")
        kept = here / "kept.asm"
        kept.write_bytes((here / "erase_block.asm").read_bytes())
        for line in ("asm kept.asm kept.nmp", "upgrade kept.nmp ./kept.nmp", "run x.run --quiet --trace a --wave b"):
            ran = subprocess.run([PROGRAM, *line.split()], cwd=here, capture_output=True, text=True, check=False)
            if ran.returncode != 0:
                sys.exit(f"same_files: {line}: {ran.stderr!r}")
    print(f"same_files: {len(TRIED)} commands lose no file")


main()

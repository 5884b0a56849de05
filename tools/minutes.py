"""The table of processor minutes, docs/develop/minutes.tsv: what the gate takes for each crate, and of which text of it that was measured.

`gate_minutes.py --table` writes it, `house.py` reads it. A minute is one of the machine of 2026-11-29, by which later measures are divided (the pace).
"""
import hashlib
from pathlib import Path

ROOT = Path(__file__).resolve().parent.parent
TABLE = "docs/develop/minutes.tsv"
KINDS = ("proof", "tests", "edits")
# What of a crate the gate's provers read.
READ = ("src", "specs", "proofs", "must-fail")
HEAD = "# Processor minutes of each crate: its proof, its tests, its wrong bodies in the gate, and the sum of the text that was measured.\n"


def sum_of(name):
    """A sum of the crate's text, by which a row says what it is of."""
    made = hashlib.sha256()
    for part in READ:
        for file in sorted((ROOT / "crates" / name / part).rglob("*")):
            if file.is_file():
                made.update(f"{file.relative_to(ROOT)}\n".encode() + file.read_bytes())
    return made.hexdigest()[:12]


class Row:
    """A crate's minutes by kind, and the sum of its text ('' where a row is older than that column)."""

    def __init__(self, minutes, text=""):
        self.minutes, self.text = minutes, text

    def total(self):
        return sum(self.minutes.values())

    def is_older(self, name):
        """Whether the crate's text is another one by now."""
        return self.text != sum_of(name)


def read():
    """The rows by crate, and the lines that say how they were measured."""
    file = ROOT / TABLE
    lines = file.read_text(encoding="utf-8").splitlines() if file.exists() else []
    rows = {}
    for name, *numbers in (line.split("\t") for line in lines if line and not line.startswith("#")):
        rows[name] = Row(dict(zip(KINDS, map(float, numbers[:3]))), *numbers[3:])
    return rows, [line[12:] for line in lines if line.startswith("# measured: ")]


def write(rows, measured):
    """Writes the table."""
    with open(ROOT / TABLE, "w", encoding="utf-8") as table:
        table.write(HEAD + "".join(f"# measured: {line}\n" for line in measured))
        for name, row in sorted(rows.items()):
            table.write("\t".join([name, *(f"{row.minutes[kind]:.1f}" for kind in KINDS), row.text]) + "\n")

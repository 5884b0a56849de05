"""How many right programs the verifier refuses, and how many refusals show a run: two files of docs/model, which `bench/acceptance.py` and `bench/refused_runs.py`
write, and which `house.py` brings into ACCEPTANCE."""
from collections import namedtuple
from pathlib import Path

import minutes

ROOT = Path(__file__).resolve().parent.parent
ACCEPTANCE, RUNS = ROOT / "docs/model/acceptance.tsv", ROOT / "docs/model/refused_runs.tsv"
ORDER = ("straight", "branches", "loops", "both")
# A shape on so many LUNs: of so many programs how many are right, and refused; how many of the right ones are clear, and refused; the day, and the sum of the text.
Share = namedtuple("Share", "shape luns programs right refused clear clear_refused day text")
# The same of the runs of refused programs: how many are wrong, show a run, and show it at the refused word; how many are right, and show one; how many are neither.
Runs = namedtuple("Runs", "shape luns programs wrong shown same right right_shown unmet day text")
# The crates that say what is accepted, and the one that searches.
VERIFIER, SEARCH = ("micro_claims", "micro_walk", "micro_verify"), ("refused_run",)


def sum_of(crates):
    return "-".join(minutes.sum_of(name)[:6] for name in crates)


def read(file, kind):
    """The rows of a file."""
    lines = file.read_text(encoding="utf-8").splitlines() if file.exists() else []
    cells = (line.split("\t") for line in lines if not line.startswith("#"))
    return [kind(it[0], *map(int, it[1:-2]), *it[-2:]) for it in cells]


def keep(file, row):
    """Puts a row into a file, in the place of that of its shape."""
    rows = {(it.luns, ORDER.index(it.shape)): it for it in (*read(file, type(row)), row)}
    lines = ["\t".join(map(str, it)) for _, it in sorted(rows.items())]
    file.write_text("\n".join(["# " + ", ".join(row._fields), *lines]) + "\n", encoding="utf-8")


def share(refused, right):
    return f"{100 * refused / max(right, 1):.2f} %" if refused else "0"


def measured(row, crates):
    return row.day if row.text == sum_of(crates) else f"{row.day}, an older text"


def table(heads, rows):
    lines = (heads, ["---"] * len(heads), *([f"{it:,}" if isinstance(it, int) else it for it in row] for row in rows))
    return "".join("| " + " | ".join(line) + " |\n" for line in lines)


def table_shares():
    """How many right programs are refused."""
    rows = [
        (it.shape, it.luns, it.programs, it.right, it.refused, share(it.refused, it.right), it.clear, it.clear_refused, share(it.clear_refused, it.clear), measured(it, VERIFIER))
        for it in read(ACCEPTANCE, Share)
    ]
    return table(("shape", "LUNs", "N", "right", "refused", "share", "right, clear", "refused", "share", "measured"), rows)


def table_runs():
    """How many refusals show a run."""
    found = read(RUNS, Runs)
    rows = [(it.shape, it.luns, it.programs, it.wrong + it.right + it.unmet, it.wrong, it.shown, it.same, it.right, it.right_shown, measured(it, SEARCH)) for it in found]
    wrong, shown, right, right_shown, unmet = (sum(getattr(it, name) for it in found) for name in ("wrong", "shown", "right", "right_shown", "unmet"))
    said = (
        f"So {shown:,} of {wrong:,} wrong programs show a run, {share(shown, wrong)}, and {right_shown or 'none'} of {right:,} right ones.\n"
        f"The other {unmet:,} break on ways alone that no status byte leads along.\n"
    )
    return table(("shape", "LUNs", "N", "refused", "wrong", "with a run", "at the refused word", "right", "with a run", "measured"), rows) + "\n" + said

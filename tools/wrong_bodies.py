"""Tries the wrong bodies of crates, and keeps a table of which clause refuses each.

    python3 tools/wrong_bodies.py [--write] [NAME..] [NAME/EDIT..]

at the root, once the crates below those named are proved (`rt check` in them). Without names it tries those of every crate; `NAME/EDIT` tries one edit.

A wrong body is an edit that turns the meaning of a function: `crates/NAME/must-fail/*.edit`, which the gate tries too, and `crates/NAME/wrong/*.edit`,
which are tried here alone. Each is applied to a copy of its crate, as `rt must-fail` does, over what `rt check` keeps of it; the prover must refuse it.
Run it for a crate whenever one of its clauses or definitions changes.

`--write` brings what was seen into docs/model/WRONG_BODIES.md, the rows of the edits that were tried, with the commit that was tried; other rows stay.
The exit status is 0 where each edit was refused by a clause.
"""
import glob
import os
import re
import shutil
import subprocess
import sys
import tempfile

from kit_gate import load_gate

PAGE = "docs/model/WRONG_BODIES.md"
HEAD = """# Wrong bodies

Each row is an edit that turns the meaning of one function, and where the prover refuses it: the goal of a clause that can't be shown any more.
The gate tries those in `crates/NAME/must-fail`; the others, in `crates/NAME/wrong`, are tried by `python3 tools/wrong_bodies.py --write NAME`.
The last column names the commit that was tried.

| crate | wrong body | file, and the goal that is left open | commit |
|---|---|---|---|
"""
ROW = re.compile(r"^\| `(\w+)` \| `(\w+)` \| (.*) \| `?([0-9a-f]+)`? \|$")


def edits_of(crate):
    return sorted(glob.glob(f"{crate.folder}/must-fail/*.edit") + glob.glob(f"{crate.folder}/wrong/*.edit"), key=os.path.basename)


def name_of(edit):
    return os.path.basename(edit).removesuffix(".edit")


def wanted_of(crate, names):
    """The edits of a crate that the names ask for: all where none is given, or its own."""
    every = edits_of(crate)
    return every if not names or crate.name in names else [edit for edit in every if f"{crate.name}/{name_of(edit)}" in names]


def clause_of(said):
    """Where the prover refuses an edit, out of what it says: the file and the goal that is left open, and not the line, which moves."""
    found = re.search(r"refused, as it must be(?: \(.*?\))?: (?:note: )?(\S+?):\d+:\d+: (?:error: )?(.*)", said)
    if not found:
        return said.partition(": refused, as it must be")[2].strip(" :") or "refused"
    file, words = found.groups()
    goal = re.search(r"\(`([^`]+)`\)", words)
    return f"`{file}`: `{goal[1]}`" if goal else f"`{file}`: {words}".replace("|", "/").strip()


def try_edits(gate, crate, edits):
    """What comes of each edit, over a copy of what `rt check` keeps of the crate: its name, whether the prover refuses it, and what is said."""
    with tempfile.TemporaryDirectory(prefix="wrong-bodies-") as room:
        kept = f"{room}/kept"
        if crate.has_kept():
            shutil.copytree(f"{crate.folder}/out/incremental", kept)
        else:
            os.mkdir(kept)
        for edit in edits:
            came, said = gate.must_fail(crate, edit, ["--jobs", "1"], kept)
            yield name_of(edit), came in (gate.REFUSED, gate.AT_LIMIT), said


def read_rows():
    """The rows of the page, by crate and edit."""
    if not os.path.exists(PAGE):
        return {}
    with open(PAGE, encoding="utf-8") as page:
        found = filter(None, map(ROW.match, page.read().splitlines()))
        return {(row[1], row[2]): (row[3], row[4]) for row in found}


def write_rows(rows):
    """Writes the table anew; the sections after it stay."""
    with open(PAGE, encoding="utf-8") as page:
        _, mark, rest = page.read().partition("\n## ")
    with open(PAGE, "w", encoding="utf-8") as page:
        page.write(HEAD)
        for (crate, edit), (clause, commit) in sorted(rows.items()):
            page.write(f"| `{crate}` | `{edit}` | {clause} | `{commit}` |\n")
        page.write(mark + rest)


def prepare(gate, root):
    """The crates of the repository, as the gate sees them."""
    gate.rtlib.stop, gate.rtlib.Crate = gate.stop, gate.Crate
    gate.Crate.cuts_libraries, gate.Crate.allowed = True, gate.handles_of(root)
    gate.rtlib.guarded()
    return gate.rtlib.crates_below(root)


def main():
    words = sys.argv[1:]
    names = [word for word in words if word != "--write"]
    gate = load_gate()
    commit = subprocess.run(["git", "rev-parse", "--short=9", "HEAD"], capture_output=True, text=True, check=True).stdout.strip()
    rows, passed = read_rows(), True
    for crate in prepare(gate, os.getcwd()):
        edits = wanted_of(crate, names)
        if not edits:
            continue
        if any(below.build_rlib(["--jobs", "1"], anew=False) for below in crate.below()):
            sys.exit(f"wrong_bodies: what {crate.name} stands on is not proved")
        kept = {name_of(edit) for edit in edits_of(crate)} - {name_of(edit) for edit in edits}
        rows = {key: row for key, row in rows.items() if key[0] != crate.name or key[1] in kept}
        for edit, refused, said in try_edits(gate, crate, edits):
            print(f"{crate.name} {edit}: {clause_of(said) if refused else said}", flush=True)
            passed = passed and refused
            if refused:
                rows[crate.name, edit] = clause_of(said), commit
    if "--write" in words:
        write_rows(rows)
    sys.exit(0 if passed else 1)


main()

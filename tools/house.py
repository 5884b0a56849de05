"""Makes what the pages say of the house out of the house itself, and compares it.

    python3 tools/house.py            says what differs, and ends with 1
    python3 tools/house.py --write    writes it

at the root; it takes seconds and proves nothing. It looks at

- the crates that carry the house, with what they stand on: docs/develop/ARCHITECTURE.md's picture, and its counts, from crates.txt, whose lines stand under headings;
- the way of the data, as a picture;
- what a change of a crate proves again, in minutes, and which rows are older than their crate's text: docs/develop/GATE.md, from docs/develop/minutes.tsv
  (`minutes.py`), which `gate_minutes.py --table` writes;
- the wrong bodies by what they do: docs/model/WRONG_BODIES.md, from the edits of the crates and from the rows of that page that say which were tried;
- the tables of pauses (PINS), of bounds of work (TIMING), of the sizes of records (C), and of where commands of the bus and catch-alls stand (ARCHITECTURE),
  from the sources (`tables.py`);
- the shares of right programs that are refused: docs/model/ACCEPTANCE.md, from what two benches have written (`shares.py`);
- the names of `page --declare` in DATASHEET's table;
- each name in backticks of five pages, which must stand somewhere in the repository, and of each page in the crate or the file that the page names for it
  (`signpost.py`); each file that a page names; each link, and that each page of docs has one to it;
- the crates of ARCHITECTURE's table, which must be all; lines over 200 characters outside of tables; and PROVED.md's lines, at most 200;
- each crate that crates.txt names for another, which must stand in a file of that one;
- the number of the release: what says it besides release/VERSION, which has it;
- what the header declares: docs/develop/declarations.txt, and that ONFISEQ_VERSION counts up where a declaration has changed or is gone (`declarations.py`);
- the figures of the libraries for C: the tables of C.md and SPEED.md, and whether they are of the header's records (`figures.py`).

What is made stands in a page between a line `<!-- house: NAME -->` and a line `<!-- end -->`.
"""
import html
import re
import sys
from pathlib import Path

import declarations
import figures
import minutes
import shares
import signpost
import tables

ROOT = Path(__file__).resolve().parent.parent
WRONG_BODIES = "docs/model/WRONG_BODIES.md"
# What a page has of the sources, and which function makes it (`tables.py`).
OF_SOURCES = {
    "pauses": tables.table_pauses, "bounds": tables.table_bounds, "records": tables.table_records,
    "commands": tables.table_commands, "catch_alls": tables.table_catch_alls, "shares": shares.table_shares, "runs": shares.table_runs,
}
PAGES_OF_SOURCES = ("docs/use/PINS.md", "docs/use/TIMING.md", "docs/use/C.md", "docs/model/ACCEPTANCE.md")
LOOKED_UP = ("docs/model/PROVED.md", "docs/model/PROOF.md", "docs/develop/ARCHITECTURE.md", "docs/develop/DOORS.md", "docs/develop/GATE.md")
SOURCES = ("crates", "tools", "examples", "bench", "include", "bin", "release")
# Crates whose wrong bodies were written and not tried since; one that `wrong_bodies.py --write` has tried has a row, and so no such words.
UNTRIED = ("csv_text", "vendor_file")
TRIED = re.compile(r"^\| `(\w+)` \| `(\w+)` \| .* \| `?[0-9a-f]+`? \|$", re.M)
MADE = re.compile(r"(<!-- house: (\w+) -->\n).*?(<!-- end -->)", re.S)
# Words in backticks that no file of ours has, as they are of the kit, of the system or of another tool.
ELSEWHERE = set("PID autogroup rt rattle gcc clang main std core apt gtkwave vcd2fst iverilog vvp dac8208d650f15bf".split())


# What says the number of the release besides release/VERSION, and how it stands there.
NUMBERED = {
    "crates/seq_cli/src/command_line.rt": r'\.version\("(.+?)"\)',
    "include/onfiseq.h": r'#define ONFISEQ_RELEASE "(.+?)"',
    "examples/python/onfiseq/__init__.py": r'__version__ = "(.+?)"',
    "examples/python/pyproject.toml": r'(?m)^version = "(.+?)"$',
    "examples/rust/Cargo.toml": r'(?m)^version = "(.+?)"$',
    "examples/rust/onfiseq-sys/Cargo.toml": r'(?m)^version = "(.+?)"$',
    "examples/systemverilog/onfiseq.core": r"(?m)^name: ::onfiseq:(.+)$",
    "tools/packages/debian/changelog": r"^onfiseq \((.+?)\)",
}


class Crate:
    """A crate: the heading above its line of crates.txt, and the crates of ours that it stands on."""

    def __init__(self, name, layer, named):
        self.name, self.layer, self.named = name, layer, named
        self.folder = ROOT / "crates" / name

    def files(self, *kinds):
        parts = (self.folder / part for part in ("src", "specs", "proofs"))
        return [file for part in parts if part.is_dir() for file in sorted(part.rglob("*")) if file.suffix in kinds]

    def text(self):
        return "".join(file.read_text(encoding="utf-8") for file in self.files(".rt", ".antt"))

    def functions(self):
        pattern = re.compile(r"^\s*(?:pub(?:\(crate\))? )?(?:const )?fn \w", re.M)
        return sum(len(pattern.findall(file.read_text(encoding="utf-8"))) for file in self.files(".rt"))

    def edits(self, folder):
        return sorted((self.folder / folder).glob("*.edit"))


def read_crates():
    """The crates by name, in the order of crates.txt."""
    crates, layer = {}, ""
    for line in (ROOT / "crates.txt").read_text(encoding="utf-8").splitlines():
        if line.startswith("## "):
            layer = line[3:].strip()
        head, colon, names = line.partition("#")[0].partition(":")
        if colon:
            crates[head.split()[0]] = Crate(head.split()[0], layer, names.split())
    return crates


def list_above(crates, name):
    """The crates that stand on this one, and itself."""
    above, grown = {name}, True
    while grown:
        grown = {crate.name for crate in crates.values() if above & set(crate.named)} - above
        above |= grown
    return above


# ---- pictures

def box(x, y, wide, text, note="", fill="#eef3fb"):
    """A box with a word in it, and a note that a pointer shows."""
    title = f"<title>{html.escape(note)}</title>" if note else ""
    return (f'<g>{title}<rect x="{x}" y="{y}" width="{wide}" height="24" rx="4" fill="{fill}" stroke="#5b7bb0"/>'
            f'<text x="{x + wide / 2:g}" y="{y + 16}" text-anchor="middle">{html.escape(text)}</text></g>\n')


def sheet(wide, high, name, drawn):
    return (f'<svg xmlns="http://www.w3.org/2000/svg" width="{wide}" height="{high}" viewBox="0 0 {wide} {high}" role="img" font-family="sans-serif" font-size="12">\n'
            f'<title>{html.escape(name)}</title>\n<rect width="{wide}" height="{high}" fill="#ffffff"/>\n{drawn}</svg>\n')


# The crates that carry the house: the middle of each box from left to right, and its row.
CARRIERS = {
    "seq_cli": (430, 0), "program_commands": (130, 1), "seq_run": (430, 1), "trace_commands": (740, 1), "micro_verify": (90, 2), "recording": (740, 2),
    "seq_inputs": (300, 3), "channel_work": (480, 3), "seq_live": (610, 3), "trace_faults": (800, 3), "micro_walk": (130, 4), "seq_core": (450, 4),
    "micro_program": (250, 5), "target_bus": (470, 5), "onfi_cycle": (430, 6), "nand_geometry": (430, 7),
}
WIDE, ROW = 870, 56


def list_below(crates, name):
    """The crates on which this one stands."""
    below = {it for it in crates[name].named if it in crates}
    return below.union(*(list_below(crates, it) for it in below))


def list_edges(crates):
    """From each crate that carries the house to those of them that its line names, where none of these stands on another."""
    for name in CARRIERS:
        named = [it for it in crates[name].named if it in CARRIERS]
        yield from ((name, under) for under in named if not any(under in list_below(crates, between) for between in named))


def draw_layers(crates):
    """The crates that carry the house, each with an arrow to what it stands on."""
    lines = boxes = ""
    for name, under in list_edges(crates):
        (x, row), (to_x, to_row) = CARRIERS[name], CARRIERS[under]
        lines += f'<line x1="{x}" y1="{36 + ROW * row}" x2="{to_x}" y2="{12 + ROW * to_row}" stroke="#333" marker-end="url(#head)"/>\n'
    for name, (x, row) in CARRIERS.items():
        wide, above = 16 + 7 * len(name), len(list_above(crates, name)) - 1
        boxes += box(x - wide / 2, 12 + ROW * row, wide, name, f"{name} stands on {', '.join(crates[name].named) or 'nothing'}; {above} crates stand on it")
    high = 48 + ROW * max(row for _, row in CARRIERS.values())
    return sheet(WIDE, high, "The crates that carry the house; an arrow goes to what a crate stands on", HEAD + lines + boxes)


# Each step of the data, where it stands, and the crates that make it.
STEPS = {
    "assembly text": (20, 20, "micro_asm"), "words": (180, 20, "micro_word, word_file"), "verified program": (290, 20, "micro_verify"),
    "job": (470, 20, "job_queue, run_plan"), "sequencer": (560, 20, "seq_core, channel_work"), "modelled dies": (710, 20, "target_bus, die_model"),
    "refusal, and its run": (290, 84, "micro_explain, refused_run"), "real pins": (600, 84, "seq_live"),
    "capture (VCD, CSV)": (20, 148, "vcd_text, csv_text, bus_capture"), "trace": (420, 148, "trace_text"), "image of a die": (700, 148, "trace_data, die_model"),
    "edges judged": (20, 222, "edge_timing, edge_commands"), "rules judged": (148, 222, "trace_faults, recording"), "times judged": (270, 222, "trace_timing, busy_times"),
    "data judged": (392, 222, "trace_data"), "operations": (506, 222, "trace_ops, operation_commands"), "waveform": (612, 222, "trace_wave"),
    "picture": (704, 222, "trace_picture, trace_page"),
}
ARROWS = (("assembly text", "words"), ("words", "verified program"), ("verified program", "job"), ("job", "sequencer"), ("sequencer", "modelled dies"),
          ("sequencer", "real pins"), ("verified program", "refusal, and its run"), ("sequencer", "trace"), ("refusal, and its run", "trace"),
          ("capture (VCD, CSV)", "trace"), ("capture (VCD, CSV)", "edges judged"), ("trace", "rules judged"), ("trace", "times judged"), ("trace", "data judged"),
          ("trace", "operations"), ("trace", "waveform"), ("trace", "picture"), ("trace", "image of a die"), ("image of a die", "modelled dies"))
HEAD = '<defs><marker id="head" markerWidth="8" markerHeight="8" refX="7" refY="4" orient="auto"><path d="M0 0 L8 4 L0 8 z" fill="#333"/></marker></defs>\n'


def wide_of(step):
    return 16 + 7 * len(step)


def draw_arrow(start, end):
    """A line between two boxes, with a head: from side to side in a row, else from edge to edge."""
    (x, y, _), (to_x, to_y, _) = STEPS[start], STEPS[end]
    if y == to_y:
        here, there = (x + wide_of(start), y + 12), (to_x, to_y + 12)
    else:
        here = (x + wide_of(start) / 2, y + 24 if y < to_y else y)
        there = (to_x + wide_of(end) / 2, to_y if y < to_y else to_y + 24)
    return f'<line x1="{here[0]:g}" y1="{here[1]:g}" x2="{there[0]:g}" y2="{there[1]:g}" stroke="#333" marker-end="url(#head)"/>\n'


def draw_data():
    """The way of the data: from a text to cycles on a bus, and from a bus to a verdict."""
    arrows = "".join(draw_arrow(start, end) for start, end in ARROWS)
    boxes = "".join(box(x, y, wide_of(step), step, f"{step}: {made}") for step, (x, y, made) in STEPS.items())
    return sheet(WIDE, 262, "The way of the data: each arrow is what becomes of it", HEAD + arrows + boxes)


# ---- tables

def count_house(crates):
    tests = [crate for crate in crates.values() if crate.layer.startswith("Tests")]
    others = [crate for crate in crates.values() if crate not in tests]
    in_gate = sum(len(crate.edits("must-fail")) for crate in crates.values())
    beside = sum(len(crate.edits("wrong")) for crate in crates.values())
    return (f"{len(others)} crates with {sum(crate.functions() for crate in others)} functions, and {len(tests)} crates of tests with "
            f"{sum(crate.functions() for crate in tests)}.\n{in_gate} wrong bodies are tried by the gate, {beside} beside it.\n")


def say_measured(measured):
    """When the rows were measured, by which kits, and at which paces, of the lines that say it of each run."""
    days, kits, paces = (sorted({found[1] for line in measured for found in [re.search(pattern, line)] if found}) for pattern in (r"^([\d-]+)", r"(rattle-kit-\w+)", r"pace ([\d.]+)"))
    return f"Measured in {len(measured)} runs, on {', '.join(days)}, by {', '.join(kits)}, at paces of {paces[0]} to {paces[-1]}."


def table_costs(crates):
    """What each crate costs, and what a change of it proves again; an older row is of another text of its crate."""
    rows, measured = minutes.read()
    none = minutes.Row(dict.fromkeys(minutes.KINDS, 0.0))
    own = {name: rows.get(name, none).total() for name in crates}
    lines = ["| crate | proof | tests | edits | a change of it proves again | row |", "|---|---|---|---|---|---|"]
    for name in sorted(crates, key=lambda name: -own[name]):
        row, above = rows.get(name, none), list_above(crates, name)
        numbers = " | ".join(f"{row.minutes[kind]:.1f}" for kind in minutes.KINDS)
        lines.append(f"| `{name}` | {numbers} | {sum(own[it] for it in sorted(above)):.0f} min, {len(above)} crates | {'older' if row.is_older(name) else ''} |")
    every = " | ".join(f"{sum(rows.get(name, none).minutes[kind] for name in crates):.0f}" for kind in minutes.KINDS)
    older = sum(rows.get(name, none).is_older(name) for name in crates)
    lines.append(f"| all | {every} | {sum(own.values()):.0f} min | {older} older |")
    return "\n".join([*lines, "", say_measured(measured)]) + "\n"


def meaning_of(edit):
    """What a wrong body does: its line `what:`, or its name."""
    found = re.search(r"^what: (.*)$", edit.read_text(encoding="utf-8"), re.M)
    return found[1] if found else edit.stem.replace("_", " ")


def name_edits(crate, names, tried):
    """The edits of a crate by name, with a word about those that weren't tried."""
    untried = crate in UNTRIED and not all((crate, name) in tried for name in names)
    return ", ".join(f"`{name}`" for name in names) + f" of `{crate}`" + (" (written, not tried)" if untried else "")


def table_wrong_bodies(crates):
    """The wrong bodies that a clause refuses, by what they do."""
    rows, tried = {}, set(TRIED.findall((ROOT / WRONG_BODIES).read_text(encoding="utf-8")))
    for crate in crates.values():
        for edit in crate.edits("must-fail") + crate.edits("wrong"):
            rows.setdefault(meaning_of(edit), {}).setdefault(crate.name, []).append(edit.stem)
    lines = ["| wrong body | refused |", "|---|---|"]
    for meaning, by_crate in rows.items():
        named = "; ".join(name_edits(crate, names, tried) for crate, names in by_crate.items())
        lines.append(f"| {meaning} | {named} |")
    return "\n".join(lines) + "\n"


# ---- what must be there

def known_words():
    """Every word of the sources, and the name of each file and folder."""
    words = set(ELSEWHERE)
    for top in SOURCES:
        for file in (ROOT / top).rglob("*"):
            if "out" in file.relative_to(ROOT).parts:
                continue
            words.update(re.findall(r"\w+", file.stem if file.is_file() else file.name))
            if file.is_file() and file.suffix in (".rt", ".antt", ".edit", ".py", ".sh", ".h", ".c", ".rs", ".sv", ".txt", ".asm", ""):
                words.update(re.findall(r"\w+", file.read_text(encoding="utf-8", errors="replace")))
    for name in ("crates.txt", ".ci/run", "HANDLES"):
        words.update(re.findall(r"\w+", (ROOT / name).read_text(encoding="utf-8")))
    return words | {path.stem for path in ROOT.glob("docs/**/*")} | {path.stem for path in ROOT.iterdir()}


def find_stale_names():
    """Names in backticks that stand nowhere in the repository."""
    words = known_words()
    for page in LOOKED_UP:
        for number, line in enumerate((ROOT / page).read_text(encoding="utf-8").splitlines(), 1):
            for name in re.findall(r"`([^`]+)`", line):
                lost = [word for word in re.findall(r"[A-Za-z]\w{2,}", name) if word not in words]
                if lost:
                    yield f"{page}:{number}: `{name}`: there is no {', '.join(lost)}"


def find_unused(crates):
    """Crates that crates.txt names for a crate none of whose files names them."""
    for crate in crates.values():
        text = crate.text()
        for name in crate.named:
            if not re.search(rf"\b{name}\b", text):
                yield f"crates.txt: no file of {crate.name} names {name}"


def number_release(path, pattern, number):
    """A file with the release's number where it says one."""
    text = (ROOT / path).read_text(encoding="utf-8")
    found = re.search(pattern, text)
    if not found:
        sys.exit(f"house: {path} doesn't say the number of the release any more: change NUMBERED")
    return text[: found.start(1)] + number + text[found.end(1) :]


def find_unnamed_release(number):
    """Whether the first heading of the changelog is this release's."""
    first = re.search(r"(?m)^## (\S+), \d{4}-\d\d-\d\d$", (ROOT / "CHANGELOG.md").read_text(encoding="utf-8"))
    if not first or first[1] != number:
        yield f"CHANGELOG.md: its first heading is to be `## {number}, ` and the day, as release/VERSION says"


def make(page, made):
    """The page with what is made put in."""
    return MADE.sub(lambda found: f"{found[1]}{made[found[2]]()}{found[3]}" if found[2] in made else found[0], page)


def main():
    crates = read_crates()
    made = {"counts": lambda: count_house(crates), "costs": lambda: table_costs(crates), "wrong": lambda: table_wrong_bodies(crates), **OF_SOURCES}
    wanted = {"docs/develop/layers.svg": draw_layers(crates), "docs/develop/data.svg": draw_data()}
    for page in (*LOOKED_UP, WRONG_BODIES, *PAGES_OF_SOURCES):
        wanted[page] = make((ROOT / page).read_text(encoding="utf-8"), made)
    number = (ROOT / "release/VERSION").read_text(encoding="utf-8").strip()
    wanted.update({path: number_release(path, pattern, number) for path, pattern in NUMBERED.items()})
    places = {name for text in wanted.values() for _, name, _ in MADE.findall(text)}
    faults = [f"no page has a place for `{name}`: a line <!-- house: {name} --> and a line <!-- end -->" for name in made if name not in places]
    faults += [*figures.faults(), *declarations.faults()]
    if not declarations.faults():
        wanted["docs/develop/declarations.txt"] = declarations.written(declarations.HEADER.read_text(encoding="utf-8"))
    for path, text in wanted.items():
        file = ROOT / path
        if "--write" in sys.argv:
            file.write_text(text, encoding="utf-8")
        if not file.exists() or file.read_text(encoding="utf-8") != text:
            faults.append(f"{path} isn't what the crates and release/VERSION say: python3 tools/house.py --write")
    faults += [*find_stale_names(), *find_unused(crates), *find_unnamed_release(number), *tables.find_unnamed(), *signpost.find_all(crates)]
    print("\n".join(faults) or f"house: {len(crates)} crates, and the pages say what they are")
    sys.exit(1 if faults else 0)


main()

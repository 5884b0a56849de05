"""The figures of docs/use/C.md and docs/use/SPEED.md about the libraries for C: measured into one file, docs/develop/figures.tsv, of which the pages' tables are made.

    python3 tools/figures.py                        says which tables of the pages aren't those of the file, and which figures are older than the records of the header
    python3 tools/figures.py --write                writes the tables
    python3 tools/figures.py --measure [PLACE..]    measures what can be measured here, and writes both: the one C file where gcc and qemu are, the libraries for x86-64
                                                    behind `tools/c_library.py --build`, and those of other processors behind `tools/machines`; of all places, or of
                                                    those whose name has one of these words

at the root. A place of the file is a processor with its library; it says the day, the commit of its sources, the compiler, and the records that it was measured with.
`tools/house.py` asks `faults`. A place whose records the header no longer has is to be measured anew, or its lines go.
"""
import datetime
import os
import re
import subprocess
import sys
import tempfile
from pathlib import Path

ROOT = Path(__file__).resolve().parent.parent
FILE, HEADER = ROOT / "docs/develop/figures.tsv", ROOT / "include/onfiseq.h"
PAGES = ("docs/use/C.md", "docs/use/SPEED.md")
HEAD = "# What the libraries for C take, as tools/figures.py --measure found it: a place, what is measured, and the number.\n"
MADE = re.compile(r"(<!-- figures: (\w+) -->\n).*?(<!-- end -->)", re.S)
NATIVE, ONE_FILE = "libraries, x86-64", "one C file, x86-64"
FIRMWARE = {"one C file, firmware ": None, "libraries, firmware ": "out/machines"}
# What a firmware is to take at most, as goals: over the one C file, and over the libraries.
GOALS = {
    "one C file, firmware from_wire": {"flash": "130,000", "RAM": "10,000 beside the records", "a push": "700", "a step": "4,000"},
    "libraries, firmware from_wire": {"flash": "120,000", "RAM": "8,000 beside the records", "a push": "662", "a step": "3,692"},
    "one C file, firmware checker": {"flash": "40,000", "RAM": "3,000", "a push": "1,500"},
    "libraries, firmware checker": {"flash": "24,000", "RAM": "2,000", "a push": "1,100"},
    "one C file, firmware two_dies": {"flash": "48,000", "RAM": "3,000", "a step": "10,000"},
    "libraries, firmware two_dies": {"flash": "40,000", "RAM": "2,000", "a step": "9,600"},
}
COUNTED = {"push": "push", "push_all": "push_all", "push_status": "push_status", "ask": "ask", "check": "check", "step": "step", "verify": "verification"}


def records():
    """The version and the sizes of the header's records."""
    text = HEADER.read_text(encoding="utf-8")
    sizes = re.findall(r"(?m)^ONFISEQ_SIZE\((\w+), (\d+)\);", text)
    return "version %s, " % re.search(r"#define ONFISEQ_VERSION (\d+)", text)[1] + " ".join("%s %s" % it for it in sizes)


def read():
    """The places, each with what was measured there."""
    places = {}
    for line in FILE.read_text(encoding="utf-8").splitlines() if FILE.exists() else []:
        if not line.startswith("#"):
            place, what, number = line.split("\t")
            places.setdefault(place, {})[what] = number
    return places


def write(places):
    """Writes the file."""
    lines = ["\t".join((place, what, str(number))) for place, found in sorted(places.items()) for what, number in found.items()]
    FILE.write_text(HEAD + "\n".join(lines) + "\n", encoding="utf-8")


# ---- the tables

def number(found, what):
    """A number with its thousands, or nothing where it wasn't measured."""
    return f"{int(found[what]):,}" if what in found else ""


def table(heads, rows):
    """A table of Markdown."""
    return "\n".join(["| " + " | ".join(row) + " |" for row in (heads, ["---"] * len(heads), *rows)]) + "\n"


def measured(places):
    """When and of what the places of a table were measured: a line each."""
    return "\n" + "".join(f"{place}: {found['measured']}.\n" for place, found in places.items())


def table_of_processors(places):
    """Code, instructions and stack of each place."""
    code, stack = ("code of the checker", "code of the four"), ["stack of " + it for it in ("push", "check", "step", "verify")]
    rows = [[place, *(number(found, it) for it in (*code, *COUNTED, *stack))] for place, found in places.items() if "push" in found]
    heads = ["library, processor", "code of the checker", "of the first four", *COUNTED.values(), "stack of push", "of check", "of a step", "of a verification"]
    return table(heads, rows) + measured({place: found for place, found in places.items() if "push" in found})


def table_of_memory(places):
    """The one C file's stack and least memory, by the set of calls."""
    found = places.get(ONE_FILE, {})
    sets = [what[len("least memory "):] for what in found if what.startswith("least memory ")]
    rows = [[f"`ONFISEQ_STACK_{name}{'(4)' if name == 'OP' else ''}`", found["calls " + name], number(found, "stack " + name), number(found, "least memory " + name)] for name in sets]
    return table(["`ONFISEQ_STACK`", "enough for those above, and", "its bytes", "the least `ONFISEQ_MEMORY`"], rows) + measured({ONE_FILE: found})


def table_of_libraries(places):
    """Code and stack of each library for x86-64."""
    found = places.get(NATIVE, {})
    names = [what[len("code of "):] for what in found if what.startswith("code of lib")]
    rows = [[f"`{name}`", number(found, "code of " + name), number(found, "stack of " + name)] for name in names]
    return table(["library", "bytes of code", "bytes of stack"], rows) + measured({NATIVE: found}) if names else "They aren't measured with the records of this header.\n"


def table_of_firmware(places):
    """What each firmware takes, beside what it is to take."""
    rows = []
    for place in [it for it in GOALS if it in places]:
        goals, found = GOALS[place], places[place]
        cells = [found["processor"], number(found, "flash"), goals["flash"], number(found, "RAM"), number(found, "of records"), goals["RAM"]]
        rows.append([place.replace("firmware ", "`") + "`", *cells, *(cell for it in ("a push", "a step") for cell in (number(found, it), goals.get(it, "")))])
    heads = ["library, firmware", "processor", "flash", "goal", "RAM", "of it records", "goal", "a push", "goal", "a step", "goal"]
    return table(heads, rows) + measured({place: places[place] for place in GOALS if place in places})


def table_of_records(places):
    """The records that a program keeps, by the header."""
    sizes = dict(re.findall(r"(?m)^ONFISEQ_SIZE\((\w+), (\d+)\);", HEADER.read_text(encoding="utf-8")))
    return f"A channel is a record of {int(sizes['bus']):,} bytes, one with the holder of its bus {int(sizes['live']):,}, and a job {sizes['job']}.\n"


TABLES = {"processors": table_of_processors, "memory": table_of_memory, "libraries": table_of_libraries, "firmware": table_of_firmware, "records": table_of_records}


def made(text, places):
    """A page with its tables."""
    return MADE.sub(lambda found: found[1] + TABLES[found[2]](places) + found[3], text)


def faults():
    """What is wrong with the file or the pages, for tools/house.py."""
    places, now = read(), records()
    for place, found in places.items():
        if found.get("records") != now:
            yield f"docs/develop/figures.tsv: {place} was measured with other records: python3 tools/figures.py --measure, or take its lines out"
    for page in PAGES:
        text = (ROOT / page).read_text(encoding="utf-8")
        if made(text, places) != text:
            yield f"{page} hasn't the figures of docs/develop/figures.tsv: python3 tools/figures.py --write"


# ---- measuring

def output(*words):
    return subprocess.run(words, check=True, stdout=subprocess.PIPE, text=True).stdout.strip()


def commit():
    """The last commit of what the libraries are made of; with -dirty where that isn't as a commit has it."""
    paths = ("crates", "include", "tools/machines")
    return output("git", "log", "-1", "--format=%h", "--", *paths) + ("-dirty" if output("git", "status", "--porcelain", "--", *paths) else "")


def compiler_of(compiler):
    return output(compiler, "--version").splitlines()[0]


def measure_calls():
    """The least stack and memory of each set of calls of the one C file."""
    import c_file
    import parts

    found, calls = {}, sorted(c_file.calls_of())
    for name, stack in sorted(c_file.stacks().items(), key=lambda it: it[1]):
        its = re.match(r"ONFISEQ_STACK_(\w+)", name)[1]
        found["calls " + its] = ", ".join("`%s`" % it for it in calls if parts.set_of(it[len("onfiseq_"):]) == its)
        found["stack " + its], found["least memory " + its] = stack, c_file.named_least(name, stack)
    return found


def measure_libraries():
    """Code and stack of each library for x86-64."""
    import stacks

    found, most, of = {}, stacks.measure(False), stacks.libraries_of_calls()
    for path in stacks.ARCHIVES:
        name = os.path.basename(path)
        found["code of " + name] = sum(int(line.split()[0]) for line in output("size", path).splitlines()[1:])
        found["stack of " + name] = max(most[it][1] for it in most if of[it] == name)
    return found


def head_of(compiler):
    """What a place begins with: when it was measured, of which sources, by which compiler, and with which records."""
    return {"measured": "%s, %s, %s" % (datetime.date.today().isoformat(), commit(), compiler_of(compiler)), "records": records()}


def measure_firmware(places, wanted):
    """Measures the firmwares over the one C file and over the libraries, where they can be built and run here."""
    import firmware

    for kind, out in FIRMWARE.items():
        names = [it for it in firmware.names_over(out) if not wanted or any(word in kind + it for word in wanted)]
        why = firmware.lacking(out) if names else []
        if why:
            print("figures: not measured: %s, as %s isn't there" % (kind.strip(), why[0]), flush=True)
            continue
        for name in names:
            with tempfile.TemporaryDirectory() as room:
                found, wrong = firmware.measured(name, out, room)
            if wrong:
                sys.exit("figures: %s%s: %s" % (kind, name, wrong))
            places[kind + name] = {**head_of("arm-none-eabi-gcc"), "processor": firmware.FIRMWARES[name].cpu, **found}
            print("figures: measured: %s" % (kind + name), flush=True)


def measure(wanted):
    """Measures each place that can be measured here, or those that are wanted."""
    sys.path[:0] = ["tools/machines/try", "tools/machines", "tools"]
    import cost

    places = read()
    measure_firmware(places, wanted)
    for name, compiler, runs, sources in cost.places("out/machines"):
        place = NATIVE if name == "x86_64-linux" else name if name.startswith("one C file") else "libraries, " + name
        if wanted and not any(it in place for it in wanted):
            continue
        why = cost.lacking(compiler, runs, sources)
        if why:
            print("figures: not measured: %s, as %s isn't there" % (place, why[0]), flush=True)
            continue
        places[place] = {**head_of(compiler[0]), **cost.measure(compiler, runs, sources)}
        places[place].update(measure_calls() if place == ONE_FILE else measure_libraries() if place == NATIVE else {})
        print("figures: measured: %s" % place, flush=True)
    write(places)


def main():
    os.chdir(ROOT)
    if "--measure" in sys.argv:
        measure(sys.argv[2:])
    if {"--measure", "--write"} & set(sys.argv):
        for page in PAGES:
            (ROOT / page).write_text(made((ROOT / page).read_text(encoding="utf-8"), read()), encoding="utf-8")
    found = list(faults())
    print("\n".join(found) or "figures: the pages have those of docs/develop/figures.tsv, and the records are those of the header")
    return 1 if found else 0


if __name__ == "__main__":
    sys.exit(main())

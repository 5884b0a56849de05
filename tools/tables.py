"""The tables that pages have of the sources: pauses, bounds of work, sizes of records, and where commands of the bus stand."""
import re

from sources import ROOT, arms_of, body_of, catch_alls, read_code, read_text, variants_of

COMMANDS = "crates/onfi_cycle/src/command.rt"
PAUSES = "crates/onfi_pauses/src/pause.rt"
BOUNDS = "crates/busy_times/src/bound.rt"
BUSY_TIMES = "crates/trace_timing/src/busy_time.rt"
PAGE_TIMES = "crates/trace_timing/src/page_times.rt"
HEADER = "include/onfiseq.h"
OPTIONAL = "crates/page_commands/src/optional_parts.rt"
DATASHEET = "docs/use/DATASHEET.md"
# A command of the bus for which ARCHITECTURE says where it stands.
SAMPLE = "ProgramCache"
# The enums of ARCHITECTURE's "To add something", and where each stands.
ADDED_TO = {
    "a command of the program": ("Command", "crates/seq_cli/src/command.rt"),
    "a reason of the verifier": ("Reason", "crates/micro_claims/src/refusal.rt"),
    "a word of programs": ("Word", "crates/micro_word/src/word.rt"),
    "a command of the bus": ("Command", COMMANDS),
    "a rule of the bus": ("Forbidden", "crates/onfi_cycle/src/forbidden.rt"),
}
# What a pause's kind of cycle, and what a last cycle, is in words.
KINDS = {"Cmd": "command", "Adr": "address", "Din": "data input", "Dout": "data output"}
LAST = {"Input": "a data input", "FeatureByte { .. }": "a data input", "Output": "a data output"}
WORKS = {"Read": "a read", "Program": "a program", "Erase": "an erase", "Reset": "a reset", "Features": "features"}


def row(*cells):
    return "| " + " | ".join(cells) + " |\n"


def head(*cells):
    return row(*cells) + "|---" * len(cells) + "|\n"


def join_words(words, last="or"):
    """`a, b or c`."""
    words = list(words)
    return words[0] if len(words) == 1 else ", ".join(words[:-1]) + f" {last} {words[-1]}"


def bytes_of_commands():
    """The byte of each command as datasheets write it, such as 3Fh."""
    arms = arms_of(read_code(COMMANDS), "of")
    return {answer.split("::")[1]: pattern[2:].upper() + "h" for pattern, answer in arms if pattern.startswith("0x")}


# ---- pauses

def say_last(pattern, named, coded):
    """The last cycle of a target, by a pattern of `LastCycle`; `named` has the kinds of which an arm before has named a command."""
    kind, _, command = pattern.partition("LastCycle::")[2].rstrip(")").partition("(")
    code = coded.get(command.partition("Command::")[2])
    other = "any other command" if kind in named else "a command"
    if kind == "Command":
        return code or other
    if kind == "Address":
        return f"the address of {code}" if code else f"an address of {other}" if kind in named else "an address"
    return LAST[kind]


def rows_of_cycles(code, function, before, coded):
    """A row for each arm of a function that has a pause: before what, after what, which."""
    named = set()
    for pattern, answer in arms_of(code, function):
        if answer != "None":
            after = join_words(dict.fromkeys(say_last(part.strip(), named, coded) for part in pattern.split("|")))
            yield before, after, answer.partition("Pause::")[2].rstrip(")")
        named.update(re.findall(r"LastCycle::(\w+)\(Command::", pattern))


def say_work(code, coded):
    """The cycles that begin work, by the arms of `begins_work`."""
    arms = dict(arms_of(code, "begins_work"))
    commands, addresses = (
        sorted(coded[name] for name in re.findall(r"Command::(\w+)", arms[f"LastCycle::{kind}(command)"])) for kind in ("Command", "Address")
    )
    number = re.search(r"pub const FEATURE_BYTES: \w+ = (\d+);", "".join(file.read_text(encoding="utf-8") for file in (ROOT / "crates/onfi_cycle/src").glob("*.rt")))
    last = {"4": "fourth"}[number[1]]
    return f"{', '.join(commands)}, the address of {join_words(addresses)}, the {last} byte of EFh"


def rows_of_others(code, function, after):
    """A row for each arm of `of_busy` or `of_ready` that has a pause."""
    for pattern, answer in arms_of(code, function):
        if answer != "None":
            kind, _, guard = pattern.partition(" if ")
            unready = ", where no ready has come" if "!ready" in guard else ""
            yield KINDS[kind.partition("::")[2]] + unready, after, answer.partition("Pause::")[2].rstrip(")")


def table_pauses():
    """The pauses before a cycle, by the arms of `onfi_pauses`; what comes after the same, and has the same pause, is one row."""
    code, coded = read_code(PAUSES), bytes_of_commands()
    names = {variant: comment.partition(":")[0] for variant, comment in variants_of(PAUSES, "Pause").items()}
    kinds = {answer.partition("self.")[2].rstrip("()"): pattern for pattern, answer in arms_of(code, "of_cycle")}
    rows, grouped = [], {}
    for function in ("of_input", "of_output", "of_command"):
        before = join_words((KINDS[kind] for kind in re.findall(r"Kind::(\w+)", kinds[function])))
        rows += rows_of_cycles(code, function, before, coded)
    rows += rows_of_others(code, "of_ready", "a ready that R/B# shows")
    rows += rows_of_others(code, "of_busy", say_work(code, coded))
    for before, after, pause in rows:
        grouped.setdefault((after, pause), []).append(before)
    return head("before", "after", "pause", "ONFI") + "".join(row("; ".join(before), after, f"`{pause}`", names[pause]) for (after, pause), before in grouped.items())


# ---- bounds of work

def say_bytes(condition, bodies):
    """The bytes that begin work, by a condition of `bound_by`: the closers behind their openers, or the openers."""
    for helper, body in bodies.items():
        condition = condition.replace(f"{helper}(closer)", body)
    openers, closers = (
        [code.upper() + "h" for code in re.findall(pattern, condition)] for pattern in (r"opener == 0x(\w\w)", r"is_closer\(closer, 0x(\w\w)\)")
    )
    return f"{join_words(closers)} behind {join_words(openers)}" if closers else join_words(openers)


def say_bound(work):
    """How long work may take at most, with where that is said."""
    code, name = read_code(BUSY_TIMES), re.search(rf'BusyTime::{work} => "(\w+)"', read_text(BUSY_TIMES))[1]
    place = re.search(rf"/// {name}, in microseconds \((\d+), (\d+)\)", read_text(PAGE_TIMES))
    if place:
        return f"{name} of the page, bytes {place[1]} and {place[2]}"
    if work == "Reset":
        slow, fast = (re.search(r"microseconds\(([\d_]+)\)", answer)[1].replace("_", ",") for _, answer in arms_of(code, "reset_time"))
        return f"{name}: {slow} us in mode 0, {fast} us in the others"
    return f"{name}: {int(re.search(r'features: femtoseconds.([0-9_]+).', code)[1]) // 1000} us"


def table_bounds():
    """How long work may take, by the branches of `bound_by`."""
    code, found = read_code(BOUNDS), {}
    bodies = {helper: body_of(code, helper) for helper in ("reads_page", "programs_page")}
    for condition, work in re.findall(r"if ([^{}]*) \{\s*Some\(BusyTime::(\w+)\)", body_of(code, "bound_by")):
        found.setdefault(work, []).append(say_bytes(condition, bodies))
    rows = (row(f"{WORKS[work]}: {'; '.join(bytes_of)}", say_bound(work)) for work, bytes_of in found.items())
    return head("work", "at most") + "".join(rows)


# ---- records of C

def table_records():
    """The sizes of the records, as the header has each compiler compare them; those with which two libraries are compared are left out."""
    sizes = re.findall(r"^ONFISEQ_SIZE\((?!\w*abi|\w*sample)(\w+), (\d+)\);", read_text(HEADER), re.M)
    return head("record", "bytes") + "".join(row(f"`struct onfiseq_{name}`", f"{int(size):,}") for name, size in sizes)


# ---- names of `page --declare`

def find_unnamed():
    """Names of `page --declare` that DATASHEET's table leaves out, and names there that `page` doesn't take."""
    known = set(re.findall(r'name: "([\w-]+)"', read_text(OPTIONAL)))
    table = read_text(DATASHEET).partition("## What wants")[2].partition("\n## ")[0]
    named = {name for name in re.findall(r"\| `([\w-]+)` \|$", table, re.M) if not name.startswith("--")}
    yield from (f"{DATASHEET}: {name} is {'left out' if name in known else 'no name of page --declare'}" for name in sorted(known ^ named))


# ---- where a new variant goes

def files_of(part, suffix):
    """Each file of the crates but those of tests, by its crate and its name there."""
    for folder in sorted((ROOT / "crates").iterdir()):
        if not folder.name.startswith(("test_", "oracle_")):
            yield from ((folder.name, file) for file in sorted((folder / part).glob(f"**/*{suffix}")))


def list_naming(part, suffix, pattern):
    """The files that name something, by crate."""
    named = {}
    for crate, file in files_of(part, suffix):
        if re.search(pattern, file.read_text(encoding="utf-8")):
            named.setdefault(crate, []).append(f"`{file.name}`")
    return named


def table_commands():
    """The files of the libraries that name one command of the bus, by crate."""
    sources, specs = list_naming("src", ".rt", rf"\bCommand::{SAMPLE}\b"), list_naming("specs", ".antt", rf"\b{SAMPLE}\b")
    crates = [crate for crate, _ in dict.fromkeys((crate, None) for crate, _ in files_of("src", ".rt")) if crate in sources or crate in specs]
    count = lambda found: sum(len(files) for files in found.values())
    rows = (row(f"`{crate}`", ", ".join(sources.get(crate, [])), ", ".join(specs.get(crate, []))) for crate in crates)
    said = f"{bytes_of_commands()[SAMPLE]} is `Command::{SAMPLE}`; {count(sources)} source files and {count(specs)} spec files of the libraries name it:\n\n"
    return said + head("crate", "`src`", "`specs`") + "".join(rows)


def table_catch_alls():
    """How many matches of the libraries have a catch-all beside variants of an enum, by crate."""
    codes = {file: (crate, read_code(file)) for crate, file in files_of("src", ".rt")}
    rows = ""
    for what, (enum, path) in ADDED_TO.items():
        pattern = re.compile(rf"\b{enum}::(?:{'|'.join(variants_of(path, enum))})\b")
        found = [crate for crate, code in codes.values() for beside in catch_alls(code) if pattern.search(beside)]
        where = ", ".join(f"{found.count(crate)} in `{crate}`" for crate in sorted(set(found), key=lambda crate: (-found.count(crate), crate)))
        rows += row(what, f"`{enum}`", where or "none")
    return head("to add", "enum", "matches with a catch-all") + rows

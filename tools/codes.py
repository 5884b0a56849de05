"""Compares the codes and their words in docs/use with those of the crates.

    python3 tools/codes.py            says what differs, and ends with 1
    python3 tools/codes.py --write    writes docs/use/CODES.md

at the root. The words of a fault stand once, at its enum (`#[error(..)]`), and so does its code (`fn code`); docs/use/CODES.md lists all of them. In any
other page of docs/use a row of a table that begins with a code has these words after it.
"""
import glob
import re
import sys

# The enum, its file, what has its codes, and what the number after `at` is.
ENUMS = (
    ("PageFault", "crates/nand_geometry/src/page_fault.rt", "a parameter page", "0"),
    ("AsmFault", "crates/micro_asm/src/refusal.rt", "an assembly text", "the line, from 1"),
    ("WordFault", "crates/micro_word/src/refusal.rt", "a word file", "the word, from 0, of M4 to M6, else 0"),
    ("Reason", "crates/micro_claims/src/refusal.rt", "a microprogram, for a die", "the word, from 0"),
    ("JobFault", "crates/seq_core/src/job_fault.rt", "a job, on a channel", "0"),
    ("TraceFault", "crates/trace_text/src/refusal.rt", "the text of a trace", "the line, from 1"),
    ("Forbidden", "crates/onfi_cycle/src/forbidden.rt", "an item of a trace", "the item, from 0"),
    ("TimingFault", "crates/trace_timing/src/timing_fault.rt", "the times of a trace", "the item, from 0"),
    ("EdgeFault", "crates/edge_timing/src/edge_fault.rt", "the edges of a capture, with T0 to T8 of a trace", "the time, in the unit of the capture"),
    ("TimingFileFault", "crates/trace_timing/src/file.rt", "a timing file", "the line, from 1"),
    ("VendorFault", "crates/vendor_file/src/fault.rt", "a vendor file, of `--vendor`", "the line, from 1"),
    ("ImageFault", "crates/die_model/src/refusal.rt", "the image of a die", "0"),
    ("RunFault", "crates/run_file/src/refusal.rt", "a line of a run file", "the line, from 1"),
    ("DumpFault", "crates/vcd_text/src/fault.rt", "the file of a capture", "the line, from 1"),
    ("RoleFault", "crates/bus_signals/src/fault.rt", "the signals of a capture", "0"),
    ("BusFault", "crates/bus_capture/src/fault.rt", "the levels of a capture", "the time, in the unit of the dump"),
)
# The notes have no words at their enum but those of their lines, each of which names what it found: the page has the first line of their docstrings.
NOTES = "crates/micro_lint/src/note.rt"
PAGE = "docs/use/CODES.md"
CAPTURES = "crates/bus_capture/src/fault.rt"
# An output that differs is a variant of its own, with the first words of its docstring.
RECORDINGS = "crates/recording/src/recording_fault.rt"
OUTPUT = (None, RECORDINGS, "the data of a trace", "the item, from 0")
HEAD = """# Codes

A file that is refused gets a line `refused CODE at N` on standard output. The code says what is wrong, and N where. In a run N is the line of the run file that is
wrong or that names the file. Standard error says more: the file and its line, what stands there, the words of this table, and for many of them the cause and what
mends it.

This page is written by `tools/codes.py` from the sources, and `.ci/run` compares it with them.
"""

NOTES_HEAD = "`lint` prints them, and `verify` says them after `accepted` (docs/use/NOTES.md). Nothing is refused for one.\n"


def read_enum(name, path):
    """The codes of an enum with their words, in the order of its variants."""
    text = open(path).read()
    body = re.search(r"pub enum %s \{\n(.*?)\n\}" % name, text, re.S).group(1)
    words = re.findall(r'#\[error\(\s*"((?:[^"\\]|\\.)*)",?\s*\)\]\s*(\w+)', body)
    arms = re.findall(r'((?:\|?\s*%s::\w+(?:\(_\))?\s*)+)=> "(\w+)"' % name, text)
    codes = {variant: code for variants, code in arms for variant in re.findall(r"::(\w+)", variants)}
    # A line of the bus without its signal has one code, told where a capture's faults are.
    of_all = re.search(r'CaptureFault::Role\(_\) => "(\w+)"', open(CAPTURES).read()) if name == "RoleFault" else None
    return [(of_all.group(1) if of_all else codes[variant], said.replace('\\"', '"').replace("{0}", "ROLE")) for said, variant in words if said != "{0}"]


def read_notes():
    """The codes of the notes with what each is of."""
    return re.findall(r"/// (N\d+): (.*)\.\n", open(NOTES).read())


def read_output():
    """The code of an output that isn't what its die holds, with its words."""
    text = open(RECORDINGS).read()
    words = re.search(r"/// (An output [^,\n]*), at this item[^\n]*\n    Output \{", text).group(1)
    return [(re.search(r'RecordingFault::Output \{ \.\. \} => "(\w+)"', text).group(1), words[0].lower() + words[1:])]


def make_page(tables, notes):
    """The page of all codes."""
    parts = [HEAD]
    for (_, _, what, number), rows in tables:
        first, last = rows[0][0], rows[-1][0]
        span = first if first == last else "%s to %s" % (first, last)
        lines = ["## %s: %s\n\nN is %s.\n" % (span, what, number), "| code | what is wrong |", "|---|---|"]
        lines += ["| %s | %s |" % row for row in rows]
        parts.append("\n".join(lines) + "\n")
    lines = ["## %s to %s: a note to a microprogram that is accepted\n" % (notes[0][0], notes[-1][0]), NOTES_HEAD, "| code | what is noted |", "|---|---|"]
    parts.append("\n".join(lines + ["| %s | %s |" % note for note in notes]) + "\n")
    return "\n".join(parts)


def find_differences(known):
    """Rows of tables in other pages whose words aren't those of their code."""
    for page in sorted(glob.glob("docs/use/*.md")):
        for number, line in enumerate(open(page), 1):
            row = re.match(r"\| ([A-Z]\d+) \| ([^|]*?) \|", line)
            if row and page != PAGE and known.get(row.group(1)) != row.group(2):
                yield "%s:%d: %s is said to mean `%s`, and its enum says `%s`" % (page, number, row.group(1), row.group(2), known.get(row.group(1)))


def main():
    tables = [(enum, read_enum(enum[0], enum[1])) for enum in ENUMS]
    tables.insert([enum for enum, _ in tables].index(next(enum for enum in ENUMS if enum[0] == "VendorFault")), (OUTPUT, read_output()))
    notes = read_notes()
    page = make_page(tables, notes)
    if "--write" in sys.argv[1:]:
        open(PAGE, "w").write(page)
    known = dict(notes) | dict(row for _, rows in tables for row in rows)
    differences = list(find_differences(known))
    if open(PAGE).read() != page:
        differences.append("%s isn't what the sources say: python3 tools/codes.py --write" % PAGE)
    print("\n".join(differences) if differences else "codes: %d, as the sources have them" % len(known))
    sys.exit(1 if differences else 0)


main()

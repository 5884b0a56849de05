"""Plays the cases of tools/cases: with these files and this command line the program prints this, ends with this status, and leaves these files.

    python3 tools/cases.py [PROGRAM] [NAME..]
    python3 tools/cases.py --selftest [PROGRAM] [NAME..]

PROGRAM is the built program (crates/onfiseq/out/onfiseq when none is given); NAME is a case file without `.case`, all of them when none is named. Prints
a line for each case file, and of each case that differs what differed. Ends with status 1 where a case differs, where a file isn't a case file, and where
there are no cases. With `--selftest` a byte of each expectation of every third case is changed, each number by one, and the player must say that it differs.

A case file is plain text. Above its first case stand what all its cases share; a case begins with `== ` and its name. `#` begins a comment of a line.

    page NAME OPTIONS    a parameter page, as `onfiseq page` makes it with these options
    file NAME            a file of this content; a name may have escapes, as \\x07
    stdin                the standard input of the next run
    $ onfiseq ..         runs the program with these words, in the case's own folder; a case may run it several times, and a word '\\x1b' in quotes has escapes

What stands below a run is what must come of it:

    status N             it ends with this status; status 1-3: with one of these
    out, err             standard output or standard error is this content, the whole of it
    out-has, err-has     it has this content in it; `-begins` and `-ends`: it begins or ends with that
                         out-lacks: it hasn't; out-matches: the whole of it matches this pattern of `re`
    out-lines N          it has so many lines; err-lines N
    out-count N TEXT     TEXT comes so often in it; err-count N TEXT
    out-only TEXT        of its lines those that begin with TEXT are this content; err-only TEXT
    file NAME            the file is this content afterwards, the whole of it; file-has, file-begins, file-ends
    size NAME N          the file has so many bytes
    made NAME            the file is there afterwards, whatever is in it
    gone NAME            the file isn't there
    any NAME             the file may be there or not
    keep out NAME        standard output becomes the file NAME, for what comes later; keep err NAME

Every file that isn't named so must be as it was, and none may come besides. A standard output or error that isn't named may be anything.
Content stands on the lines below, in the order of its parts:

    | TEXT               a line of text, with its end
    & TEXT               text with escapes (`\\n`, `\\r`, `\\t`, `\\\\`, `\\x1f`), without an end of its own
    x5 & TEXT            the same so often; `{n}` in it is the number of the turn, from 0
    hex 1f 8b            these bytes
    = NAME               what is in this file of the folder at that moment
    bytes NAME A B       the bytes A to B of that, B left out; `outputs NAME A B`: as outputs of target 0 in a trace
"""
import os
import re
import shlex
import subprocess
import sys
import tempfile
from concurrent.futures import ThreadPoolExecutor
from pathlib import Path

ROOT = Path(__file__).resolve().parent.parent
FOLDER = ROOT / "tools/cases"
SECONDS = 600  # beside other work a command takes many times what it takes alone
MOST_SHOWN = 500
ESCAPES = {"n": "\n", "r": "\r", "t": "\t", "\\": "\\"}
STREAMS = ("out", "err")
PARTS = ("has", "lacks", "begins", "ends", "matches")


class NotACase(Exception):
    """A case file can't be read: where, and why."""


class Content:
    """What a file or a stream holds, part by part."""

    def __init__(self):
        self.parts = []

    def read_line(self, line):
        """Adds a line of content; whether it is one."""
        if line == "|" or line.startswith("| "):
            self.parts.append(lambda _: line[2:].encode() + b"\n")
        elif found := re.fullmatch(r"(?:x(\d+) )?& (.*)", line):
            times, text = int(found[1] or 1), unescape(found[2])
            if found[1] and b"{n}" in text:
                self.parts.append(lambda _: b"".join(text.replace(b"{n}", b"%d" % turn) for turn in range(times)))
            else:
                self.parts.append(lambda _: times * text)
        elif line.startswith("hex "):
            data = bytes.fromhex(line[4:])
            self.parts.append(lambda _: data)
        elif line.startswith("= "):
            self.parts.append(lambda files: files[line[2:]])
        elif found := re.fullmatch(r"(bytes|outputs) (\S+) (\d+) (\d+)", line):
            self.parts.append(lambda files: take_bytes(found[1], files[found[2]][int(found[3]):int(found[4])]))
        else:
            return False
        return True

    def of(self, files):
        """The bytes, in a folder of these files."""
        return b"".join(part(files) for part in self.parts)


def read_words(line):
    """The words of a command line, as a shell reads them; in quotes a word may have escapes, as `'\\xff'`."""
    return [unescape(word) if "\\x" in word else word.encode() for word in shlex.split(line)]


def take_bytes(form, data):
    """These bytes, or what a trace has of a target that puts them out."""
    return data if form == "bytes" else b"".join(b"0 O %02x\n" % byte for byte in data)


def unescape(text):
    """The bytes of a text with escapes."""
    def replace(found):
        if found[1].startswith("x"):
            return bytes([int(found[1][1:], 16)]).decode("latin-1")
        if found[1] not in ESCAPES:
            raise ValueError(f"there is no escape \\{found[1]}")
        return ESCAPES[found[1]]
    held = re.split(r"(\\x[0-9a-f]{2})", text)
    return b"".join(bytes.fromhex(part[2:]) if at % 2 else re.sub(r"\\(.|$)", replace, part).encode() for at, part in enumerate(held))


class Expectation:
    """What must come of a run: of a stream or a file by name, in a manner, this content or number."""

    def __init__(self, word, name, number=None):
        self.word, self.name, self.number, self.content = word, name, number, Content()

    def is_whole(self):
        """Whether it can fail: a part has content."""
        return self.word.partition("-")[2] not in PARTS or bool(self.content.parts)

    def count(self, ran):
        """The number that came of a run."""
        if self.word == "status":
            return ran.status
        if self.word.endswith("-count"):
            return ran.streams[self.word.partition("-")[0]].count(self.name.encode())
        if self.word == "size":
            return len(ran.files[self.name]) if self.name in ran.files else None
        return len(ran.streams[self.word.partition("-")[0]].splitlines())

    def differs(self, ran, change=None):
        """What differs, nothing where it is met; `change` alters what is expected, for the self-test."""
        kind, _, manner = self.word.partition("-")
        if self.word == "status" and self.name:
            least, most = map(int, self.name.split("-"))
            return None if (least <= ran.status <= most) == (change is None) else f"status {self.name}, and it was {ran.status}"
        if self.number is not None:
            wanted = self.number if change is None else self.number + 1
            found = self.count(ran)
            return None if found == wanted else f"{self.word} {self.name} {wanted}, and it was {found}"
        if kind in ("made", "gone"):
            wants = (kind == "made") == (change is None)
            return None if (self.name in ran.files) == wants else f"{self.name} is there" if self.name in ran.files else f"{self.name} isn't there"
        found = ran.files.get(self.name) if kind == "file" else ran.streams[kind]
        wanted = self.content.of(ran.files) if change is None else change(self.content.of(ran.files))
        if found is None:
            return f"{self.name} isn't there"
        is_met = {
            "": found == wanted,
            "has": wanted in found,
            "lacks": (self.content.of(ran.files) in found) == (change is not None),
            "begins": found.startswith(wanted),
            "ends": found.endswith(wanted),
            "matches": manner == "matches" and is_match(wanted, found),
            "only": manner == "only" and wanted == b"".join(line for line in found.splitlines(keepends=True) if line.startswith(self.name.encode())),
        }[manner]
        return None if is_met else f"{self.word} {self.name or ''}".strip() + f" wants\n{show(wanted)}and it was\n{show(found)}".rstrip("\n")


def is_match(pattern, data):
    """Whether all of it matches a pattern."""
    try:
        return bool(re.fullmatch(pattern, data))
    except re.error:
        return False


def show(data):
    """Bytes as lines that one can read and compare."""
    lines = data.decode("utf-8", "backslashreplace").split("\n")
    shown = [f"    {line[:MOST_SHOWN]}" + ("..." if len(line) > MOST_SHOWN else "") for line in lines[:MOST_SHOWN]]
    shown += ["    .."] if len(lines) > MOST_SHOWN else []
    if lines[-1] == "":
        shown = shown[:-1]
    else:
        shown[-1] += " (no end of line)"
    return "".join(f"{line}\n" for line in shown) or "    (nothing)\n"


class Run:
    """A run of the program, and what must come of it."""

    def __init__(self, words, stdin):
        self.words, self.stdin, self.expected, self.kept, self.ignored = words, stdin, [], [], []

    def line(self):
        """Its words as one reads them."""
        return shlex.join(word.decode("utf-8", "backslashreplace") for word in self.words)

    def named(self):
        """The files that what is expected names."""
        return {one.name for one in self.expected if one.word.partition("-")[0] not in STREAMS} | {*self.ignored, *(name for _, name in self.kept)}


class Ran:
    """What came of a run: the status, both streams, the files, and those that nobody named and that aren't as they were."""

    def __init__(self, status, streams, files):
        self.status, self.streams, self.files = status, streams, files


class Case:
    """A case: its name, the files to begin with, and its runs."""

    def __init__(self, name, number):
        self.name, self.number, self.pages, self.files, self.runs = name, number, {}, {}, []

    def is_whole(self):
        """Whether it has a run, something is expected of each, and each part of a stream or a file that is expected is one."""
        return bool(self.runs) and all(run.expected and all(one.is_whole() for one in run.expected) for run in self.runs)


class Reader:
    """Reads a case file line by line. The first case is what all share."""

    def __init__(self, path):
        self.path, self.number, self.cases = path, 0, [Case("", 0)]
        self.content, self.stdin = None, None

    def refuse(self, why):
        raise NotACase(f"{self.path.name}:{self.number}: {why}")

    def read(self):
        """What all cases of the file share, and its cases."""
        try:
            lines = self.path.read_text(encoding="utf-8").split("\n")
        except (OSError, UnicodeDecodeError) as fault:
            self.refuse(fault)
        for self.number, line in enumerate(lines, 1):
            try:
                self.read_line(line)
            except ValueError as fault:
                self.refuse(fault)
        shared, *cases = self.cases
        if not cases:
            self.refuse("it has no case")
        for case in cases:
            self.number = case.number
            if not case.is_whole():
                self.refuse(f"`{case.name}` has no run, or one of which nothing is expected, or a part without content")
        return shared, cases

    def read_line(self, line):
        """A line of content, or a keyword that may stand here; a blank line and a comment end the content before them."""
        if not line.strip() or line.startswith("#"):
            self.content = None
        elif self.content is None or not self.content.read_line(line):
            self.content = None
            self.read_keyword(line)

    def read_keyword(self, line):
        case = self.cases[-1]
        places = {"head": not case.runs, "case": bool(case.name), "run": bool(case.runs), "anywhere": True}
        for place, pattern, act in KEYWORDS:
            found = re.fullmatch(pattern, line)
            if found and places[place]:
                act(self, case, *found.groups())
                return
        self.refuse(f"`{line}` isn't a line of a case here")

    def begin_case(self, _, name):
        if any(name == other.name for other in self.cases):
            self.refuse(f"a case before it has the name `{name}`")
        self.cases.append(Case(name, self.number))

    def add_page(self, case, name, options):
        case.pages[name] = options.split()

    def add_file(self, case, name):
        self.content = case.files[unescape(name).decode()] = Content()

    def add_stdin(self, _):
        self.content = self.stdin = Content()

    def add_run(self, case, words):
        case.runs.append(Run(read_words(words or ""), self.stdin))
        self.stdin = None

    def expect(self, case, word, name="", number=None):
        case.runs[-1].expected.append(Expectation(word, name, number and int(number)))

    def expect_number(self, case, word, number):
        self.expect(case, word, "", number)

    def expect_count(self, case, word, number, name):
        self.expect(case, word, name, number)

    def expect_content(self, case, word, name=""):
        self.expect(case, word, name)
        self.content = case.runs[-1].expected[-1].content

    def keep(self, case, stream, name):
        case.runs[-1].kept.append((stream, name))

    def ignore(self, case, name):
        case.runs[-1].ignored.append(name)


# Where a line may stand, how it looks, and what is done with it.
KEYWORDS = (
    ("anywhere", r"== (.+)", Reader.begin_case),
    ("head", r"page (\S+) (.+)", Reader.add_page),
    ("head", r"file (.+)", Reader.add_file),
    ("case", r"stdin", Reader.add_stdin),
    ("case", r"\$ onfiseq( .+)?", Reader.add_run),
    ("run", r"(status|(?:out|err)-lines) (\d+)", Reader.expect_number),
    ("run", r"(status) (\d+-\d+)", Reader.expect),
    ("run", r"((?:out|err)-count) (\d+) (.+)", Reader.expect_count),
    ("run", r"(size) (\S+) (\d+)", Reader.expect),
    ("run", r"((?:out|err)(?:-(?:has|lacks|begins|ends|matches))?)", Reader.expect_content),
    ("run", r"((?:out|err)-only) (.+)", Reader.expect_content),
    ("run", r"(file(?:-(?:has|lacks|begins|ends|matches))?) (.+)", Reader.expect_content),
    ("run", r"(made|gone) (.+)", Reader.expect),
    ("run", r"any (.+)", Reader.ignore),
    ("run", r"keep (out|err) (\S+)", Reader.keep),
)


class Player:
    """Plays the cases of a file by the built program."""

    def __init__(self, program):
        self.program, self.pages = program, {}

    def make_page(self, options):
        """The bytes of the parameter page with these options."""
        key = tuple(options)
        if key not in self.pages:
            with tempfile.TemporaryDirectory() as folder:
                ran = subprocess.run([self.program, "page", "made.page", *options], cwd=folder, stdin=subprocess.DEVNULL, capture_output=True, timeout=SECONDS, check=False)
                if ran.returncode:
                    raise NotACase(f"page {' '.join(options)}: {ran.stderr.decode()}")
                self.pages[key] = (Path(folder) / "made.page").read_bytes()
        return self.pages[key]

    def play(self, shared, case):
        """Each run of a case, with what came of it."""
        files = {}
        for one in (shared, case):
            files.update({name: self.make_page(options) for name, options in one.pages.items()})
            for name, content in one.files.items():
                files[name] = content.of(files)
        with tempfile.TemporaryDirectory() as folder:
            here = Path(folder)
            for name, data in files.items():
                (here / name).parent.mkdir(parents=True, exist_ok=True)
                (here / name).write_bytes(data)
            for run in case.runs:
                stdin = run.stdin.of(files) if run.stdin else b""
                ended = subprocess.run([self.program, *run.words], cwd=here, input=stdin, capture_output=True, timeout=SECONDS, check=False)
                before, files = files, {str(path.relative_to(here)): path.read_bytes() for path in here.rglob("*") if path.is_file()}
                ran = Ran(ended.returncode, {"out": ended.stdout, "err": ended.stderr}, files)
                for stream, name in run.kept:
                    (here / name).write_bytes(ran.streams[stream])
                    files[name] = ran.streams[stream]
                touched = {name for name in {*before, *files} if before.get(name) != files.get(name)}
                yield run, ran, sorted(touched - run.named())

    def try_case(self, shared, case):
        """What differs in a case."""
        told = []
        for run, ran, touched in self.play(shared, case):
            differs = [text for text in (one.differs(ran) for one in run.expected) if text]
            differs += [f"{name} isn't as it was, or wasn't there" for name in touched]
            if differs:
                told += [f"  $ onfiseq {run.line()}", *differs]
        return told

    def try_self(self, shared, case):
        """The expectations of a case that are met also when they are changed, and how many were changed."""
        told, count = [], 0
        for run, ran, _ in self.play(shared, case):
            for one in run.expected:
                for at in (0, 1, 2):
                    count += 1
                    if not one.differs(ran, lambda data, at=at: change_byte(data, at)):
                        told.append(f"  {one.word} {one.name} is met though it is changed")
        return told, count


def change_byte(data, at):
    """The same with another byte at its beginning, in its middle or at its end; one byte more where it has none."""
    if not data:
        return b"\x01"
    place = (0, len(data) // 2, len(data) - 1)[at]
    return data[:place] + bytes([2 if data[place] == 1 else 1]) + data[place + 1:]


# Texts that aren't case files, each for another reason.
NO_CASES = (
    "page die.page --data 512\n",
    "== a\nfile x\n| y\n",
    "== a\n$ onfiseq lint\n",
    "== a\n$ onfiseq lint\nstatus 0\n== a\n$ onfiseq lint\nstatus 0\n",
    "== a\n$ onfiseq lint\nstatus zero\n",
    "== a\n$ onfiseq lint\nstate 0\n",
    "== a\n$ onfiseq lint\nout-has\n",
    "== a\n$ onfiseq 'lint\nstatus 0\n",
    "== a\n$ onfiseq lint\nstatus 0\nfile x\nhex 1g\n",
    "",
    "== a\n$ onfiseq lint\nstatus 0\n| text\n",
    "== a\nstatus 0\n",
    "== a\nfile x\n& \\q\n",
    "== a\n$ other\nstatus 0\n",
    "$ onfiseq lint\nstatus 0\n",
)


def is_refused(text):
    """Whether a text isn't taken for a case file."""
    with tempfile.TemporaryDirectory() as folder:
        path = Path(folder) / "no.case"
        path.write_text(text, encoding="utf-8")
        try:
            Reader(path).read()
        except NotACase:
            return True
    return False


def list_files(names):
    """The case files of these names, or all."""
    paths = sorted(FOLDER.rglob("*.case"))
    unknown = [name for name in names if name not in {path.stem for path in paths}]
    if unknown or not paths:
        raise NotACase(f"there is no case file {' '.join(unknown)}".rstrip())
    return [path for path in paths if not names or path.stem in names]


class Tried:
    """What came of a case file: how many cases it has, whether all went well, and the lines that say so."""

    def __init__(self, count, went_well, lines):
        self.count, self.went_well, self.lines = count, went_well, lines


def try_file(player, path, is_selftest):
    """Plays the cases of a file, or every third of them with its expectations changed."""
    shared, cases = Reader(path).read()
    told, changed = {}, 0
    for case in cases[::3] if is_selftest else cases:
        if is_selftest:
            told[case.name], count = player.try_self(shared, case)
            changed += count
        else:
            told[case.name] = player.try_case(shared, case)
    differ = {name: texts for name, texts in told.items() if texts}
    ended = f"{changed} changed expectations" if is_selftest else f"{len(cases)} cases"
    lines = [f"{path.stem}: {ended}" + (f", {len(differ)} differ" if differ else "")]
    for name, texts in differ.items():
        lines += [f"{path.name}: {name}", *texts]
    return Tried(changed if is_selftest else len(cases), not differ, lines)


def try_safely(player, path, is_selftest):
    """The same, where a file can't be played too."""
    try:
        return try_file(player, path, is_selftest)
    except KeyError as fault:
        why = f"it has no file {fault}"
    except (NotACase, OSError, subprocess.TimeoutExpired) as fault:
        why = fault
    return Tried(0, False, [f"{path.name} can't be played: {why}"])


def main():
    words = sys.argv[1:]
    is_selftest = words[:1] == ["--selftest"]
    words = words[1:] if is_selftest else words
    program = Path(words[0] if words else ROOT / "crates/onfiseq/out/onfiseq").resolve()
    if not program.is_file():
        sys.exit(f"{program} isn't there: run rt ci, or bin/onfiseq")
    try:
        paths = list_files(words[1:])
    except NotACase as fault:
        sys.exit(f"cases: {fault}")
    player, all_tried = Player(str(program)), []
    with ThreadPoolExecutor(len(os.sched_getaffinity(0))) as pool:
        for tried in pool.map(lambda path: try_safely(player, path, is_selftest), paths):
            print(*tried.lines, sep="\n", flush=True)
            all_tried.append(tried)
    taken = [text for text in NO_CASES if not is_refused(text)] if is_selftest else []
    for text in taken:
        print(f"this text is taken for a case file:\n{text}")
    count = sum(tried.count for tried in all_tried)
    is_whole = count > 0 and not taken and all(tried.went_well for tried in all_tried)
    print(f"cases: {count} {'changed expectations' if is_selftest else 'cases'} in {len(paths)} files" + ("" if is_whole else ", NOT ALL AS THEY SHOULD BE"))
    sys.exit(0 if is_whole else 1)


main()

"""Whether the pages are in form, and whether a name stands where a page says that it stands."""
import os
import re

from sources import ROOT

PROVED, MOST_LINES = "docs/model/PROVED.md", 200
LONGEST = 200
# A page whose names of edits `house.py` writes itself.
WRITTEN = "docs/model/WRONG_BODIES.md"
# Names in backticks, and behind them where they stand: `a`, `b` of `place`, `a` in `place`, `a` (`place`).
PLACED = re.compile(r"((?:`[^`]+`(?:, | and |, and ))*`[^`]+`) (?:(?:of|in) (?:the crate )?`([^`]+)`|\(`([^`]+)`\))")
SOURCE = re.compile(r"`((?:[\w.]+/)+[\w.]+\.(?:rt|antt|py|sh|c|h|sv|rs|case|run|asm|tsv|txt))`")
# Folders of a crate, in front of a file of which the page names no crate; and what stands for a name, or is of another project.
IN_CRATES, NOT_OURS = {"src", "specs", "proofs"}, re.compile(r"\bNAME\b|^include/linux/")
UNMADE = {"out", ".git"}


def list_pages():
    """Each page of the repository, by its path."""
    for file in sorted(ROOT.rglob("*.md")):
        path = file.relative_to(ROOT)
        if not UNMADE & set(path.parts) and not path.parts[0].startswith("tmp"):
            yield path.as_posix(), file.read_text(encoding="utf-8").splitlines()


def list_lines(folder=""):
    """Each line of the pages below a folder: its page, its number and its text."""
    pages = [(path, lines) for path, lines in list_pages() if path.startswith(folder)]
    return [(path, number, line) for path, lines in pages for number, line in enumerate(lines, 1)]


def find_long():
    """Lines of pages that are too long, outside of tables; and whether PROVED is."""
    count = len((ROOT / PROVED).read_text(encoding="utf-8").splitlines())
    if count > MOST_LINES:
        yield f"{PROVED}: {count} lines, and at most {MOST_LINES} are to be"
    for path, number, line in list_lines():
        if len(line) > LONGEST and not line.lstrip().startswith("|"):
            yield f"{path}:{number}: {len(line)} characters, and at most {LONGEST} are to be"


def words_at(place, crates, known):
    """The words of a crate or of a file, and the names of its files; None where there is no such place."""
    if place not in known:
        files = [file for file in crates[place].folder.rglob("*") if file.is_file() and "out" not in file.parts] if place in crates else []
        files = files or [ROOT / top / place for top in ("", "crates") if "/" in place and (ROOT / top / place).is_file()]
        texts = (file.stem + " " + file.read_text(encoding="utf-8", errors="replace") for file in files)
        known[place] = set(re.findall(r"\w+", " ".join(texts))) if files else None
    return known[place]


def find_misplaced(crates):
    """Names that don't stand in the file or the crate that a page names for them."""
    known = {}
    placed = [(f"{path}:{number}", *found) for path, number, line in list_lines("docs") if path != WRITTEN for found in PLACED.findall(line)]
    for where, names, place, other in placed:
        words = words_at(place or other, crates, known) if place or other in crates else None
        lost = [word for word in re.findall(r"[A-Za-z]\w{2,}", names) if words is not None and word not in words]
        if lost:
            yield f"{where}: {', '.join(lost)} isn't in {place or other}"


def is_there(file, crates):
    """The file is there by its path or that in crates/; one of a crate is in some crate, and one of no folder of ours is another's."""
    top = file.partition("/")[0]
    if top in IN_CRATES:
        return any((crate.folder / file).is_file() for crate in crates.values())
    return not (ROOT / top).is_dir() and top not in crates or (ROOT / file).is_file() or (ROOT / "crates" / file).is_file()


def find_missing_files(crates):
    """Files that a page names and that aren't there."""
    named = [(f"{path}:{number}", file) for path, number, line in list_lines("docs") if path != WRITTEN for file in SOURCE.findall(line)]
    return [f"{where}: there is no file {file}" for where, file in named if not NOT_OURS.search(file) and not is_there(file, crates)]


def find_unlisted(crates):
    """Crates without a row of ARCHITECTURE's table, and rows without a crate."""
    page = "docs/develop/ARCHITECTURE.md"
    text = (ROOT / page).read_text(encoding="utf-8")
    table = text[text.index("## Crates") :].split("\n## ")[0]
    named = {name for cell in re.findall(r"^\| (`[^|]*) \|", table, re.M) for name in re.findall(r"`(\w+)`", cell)}
    yield from (f"{page}: no row of the table is of {name}" for name in crates if name not in named)
    yield from (f"{page}: a row is of {name}, and no crate" for name in sorted(named) if name not in crates)


def anchor_of(heading):
    """The anchor that a heading of Markdown gets."""
    return re.sub(r"[^\w\- ]", "", heading.strip().lower()).replace(" ", "-")


def list_links(path, lines):
    """The links of a page to files of the repository: the line, the path and the anchor."""
    for number, line in enumerate(lines, 1):
        for target in re.findall(r"\]\(([^)\s]+)\)", line):
            if "://" not in target:
                file, _, anchor = target.partition("#")
                yield number, os.path.normpath(os.path.join(os.path.dirname(path), file)) if file else path, anchor


def find_lost_links():
    """Links to a file or a heading that isn't there, and pages of docs to which no other page has a link."""
    pages, linked = dict(list_pages()), set()
    anchors = {path: {anchor_of(line.lstrip("#")) for line in lines if line.startswith("#")} for path, lines in pages.items()}
    for path, lines in pages.items():
        for number, target, anchor in list_links(path, lines):
            linked.add(target if target != path else "")
            if not (ROOT / target).exists() or anchor and target in anchors and anchor not in anchors[target]:
                yield f"{path}:{number}: there is no {target}{'#' if anchor else ''}{anchor}"
    yield from (f"{path}: no other page has a link to it" for path in pages if path.startswith("docs/") and path not in linked)


def find_all(crates):
    return [*find_long(), *find_misplaced(crates), *find_missing_files(crates), *find_unlisted(crates), *find_lost_links()]

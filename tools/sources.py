"""What the sources in Rattle say, read without the compiler: enums, functions, and the arms of a `match`."""
import re
from pathlib import Path

ROOT = Path(__file__).resolve().parent.parent
UNREAD = re.compile(r'//[^\n]*|"(?:\\.|[^"\\])*"|\'(?:\\.|[^\'\\])\'', re.S)
OPEN, CLOSED = "([{", ")]}"


def read_text(path):
    return (ROOT / path).read_text(encoding="utf-8")


def blank(text):
    """The text with blanks for comments, strings and characters; each place and line stays."""
    return UNREAD.sub(lambda found: re.sub(r"[^\n]", " ", found[0]), text)


def read_code(path):
    return blank(read_text(path))


def end_of(code, place):
    """The place behind the bracket that closes the one at `place`."""
    depth = 0
    for at in range(place, len(code)):
        depth += (code[at] in OPEN) - (code[at] in CLOSED)
        if depth == 0:
            return at + 1
    raise ValueError("a bracket isn't closed")


def start_of(code, place):
    """The place of the bracket that is open at `place`."""
    depth = 0
    for at in range(place - 1, -1, -1):
        depth += (code[at] in CLOSED) - (code[at] in OPEN)
        if depth < 0:
            return at
    raise ValueError("no bracket is open")


def block_behind(code, place):
    """What stands between the next braces."""
    opened = code.index("{", place)
    return code[opened + 1 : end_of(code, opened) - 1]


def body_of(code, name):
    """The body of a function: the braces that begin a line behind its name, or end the line of its signature."""
    place = re.search(rf"\bfn {name}\b", code).start()
    return block_behind(code, re.compile(r"^\s*\{$|(?<=\S) \{$", re.M).search(code, place).start())


def split_outside(text, mark):
    """The text cut at each mark that stands in no bracket."""
    parts, depth, begun = [], 0, 0
    for at, letter in enumerate(text):
        depth += (letter in OPEN) - (letter in CLOSED)
        if depth == 0 and text.startswith(mark, at) and letter not in CLOSED:
            parts.append(text[begun:at])
            begun = at + len(mark)
    return [*parts, text[begun:]]


def arms_of(code, name):
    """Each arm of the `match` that a function begins with: its pattern, and what it answers."""
    body = body_of(code, name)
    block = block_behind(body, body.index("match "))
    arms = re.sub(r"=> \{(.*?)\n\s*\}(?=\n|$)", r"=> \1,", block, flags=re.S)
    pairs = (split_outside(arm, "=>") for arm in split_outside(arms, ",") if arm.strip())
    return [(" ".join(pair[0].split()), " ".join(pair[1].split())) for pair in pairs]


def variants_of(path, name):
    """The variants of an enum, each with the comment above it."""
    text = read_text(path)
    block = block_behind(text, re.search(rf"pub enum {name}\b", text).start())
    found = re.findall(r"((?:^    ///[^\n]*\n)*)^(?:    #\[[^\n]*\n)*    (\w+)\b", block, re.M)
    return {variant: " ".join(comment.replace("///", " ").split()) for comment, variant in found}


def flatten(block):
    """The text without what stands in braces; the braces stay."""
    flat, depth = "", 0
    for letter in block:
        depth -= letter == "}"
        flat += "" if depth else letter
        depth += letter == "{"
    return flat


def catch_alls(code):
    """Each `_ =>`: the patterns beside it, without the fields of their variants."""
    for found in re.finditer(r"(?<=[\s(|])_ (?:if [^\n]*)?=>", code):
        opened = start_of(code, found.start())
        block = flatten(code[opened + 1 : end_of(code, opened) - 1])
        yield " ".join(re.findall(r"([^,{}]*(?:\{\})?[^,{}]*)=>", block))

"""What include/onfiseq.h declares under its ONFISEQ_VERSION: docs/develop/declarations.txt, for `house.py` and `tools/release`.

New calls and records may come under the same version. One that has changed or is gone wants a higher one: then `house.py --write` writes the file anew.
"""
import re
from pathlib import Path

ROOT = Path(__file__).resolve().parent.parent
HEADER, FILE = ROOT / "include/onfiseq.h", ROOT / "docs/develop/declarations.txt"
VERSION = re.compile(r"#define ONFISEQ_VERSION (\d+)")
# What says a number of its own, or is a compiler's.
LEFT_OUT = re.compile(r"#define (ONFISEQ_VERSION|ONFISEQ_RELEASE|ONFISEQ_H)\b")


def split(text):
    """The declarations of a C text without comments and directives: up to a semicolon, or a closing brace, outside of braces."""
    depth, begun = 0, ""
    for character in text:
        begun += character
        depth += {"{": 1, "}": -1}.get(character, 0)
        if depth == 0 and (character == ";" or character == "}" and ")" in begun.partition("{")[0]):
            yield " ".join(begun.split())
            begun = ""


def members(declaration):
    """The members of an enum, each as one, since new ones may come; any other declaration as it is."""
    found = re.fullmatch(r"(enum \w+) \{(.*)\};", declaration)
    return [f"{found[1]}: {it.strip()}" for it in found[2].split(",") if it.strip()] if found else [declaration]


def declared(text):
    """Each declaration and each macro of a header."""
    text = re.sub(r"/\*.*?\*/", " ", text, flags=re.S).replace("\\\n", " ")
    directives = [" ".join(line.split()) for line in text.splitlines() if line.lstrip().startswith("#")]
    plain = "\n".join(line for line in text.splitlines() if not line.lstrip().startswith("#"))
    plain = plain.replace('extern "C" {', "").rstrip().removesuffix("}")
    return {it for it in directives if it.startswith("#define") and not LEFT_OUT.match(it)} | {it for one in split(plain) for it in members(one)}


def written(text):
    """The file that a header makes."""
    return "\n".join([f"ONFISEQ_VERSION {VERSION.search(text)[1]}", *sorted(declared(text))]) + "\n"


def faults():
    """What has changed, or is gone, while the version is the same."""
    text, (version, *known) = HEADER.read_text(encoding="utf-8"), FILE.read_text(encoding="utf-8").splitlines()
    lost = sorted(set(known) - declared(text)) if version == f"ONFISEQ_VERSION {VERSION.search(text)[1]}" else []
    return [f"include/onfiseq.h: changed or gone, and ONFISEQ_VERSION is the same: {it[:120]}" for it in lost]

"""Reads include/onfiseq.h: its records, with the place of each field, and its calls.

    python3 tools/machines/header.py include/onfiseq.h      both as JSON, for JavaScript

The places are those of every processor: the header lays its records out alike everywhere.
"""
import json
import re
import sys

SCALARS = {"uint8_t": 1, "bool": 1, "char": 1, "uint16_t": 2, "uint32_t": 4, "uint64_t": 8, "size_t": 8, "onfiseq_u64": 8}


def is_record(kind):
    """Whether a type's name is that of a record."""
    return kind not in SCALARS


def c_type(kind):
    """A type as C writes it."""
    return "struct " + kind if is_record(kind) else kind


def read_text(path):
    """The text of a header without its comments and preprocessor lines."""
    with open(path) as it:
        text = re.sub(r"/\*.*?\*/", "", it.read(), flags=re.S)
    return re.sub(r"(?m)^(#|ONFISEQ_SIZE).*\n", "", text)


def size_and_alignment(kind, records):
    """How many bytes a type takes, and what its address is a multiple of."""
    return (SCALARS[kind], SCALARS[kind]) if kind in SCALARS else (records[kind]["size"], records[kind]["aligned"])


def read_declaration(line):
    """The type of a field's declaration, and each name with its count of elements, 0 where it is no array."""
    kind, names = re.match(r"\s*(struct \w+|\w+)\s+(.*)", line, re.S).groups()
    found = []
    for name in names.split(","):
        field, _, count = name.strip().partition("[")
        found.append((field, int(count.rstrip("]")) if count else 0))
    return kind.replace("struct ", ""), found


def read_record(body, records):
    """A record: its fields, its size and its alignment."""
    fields, at, most = [], 0, 1
    for line in filter(str.strip, body.split(";")):
        kind, names = read_declaration(line)
        size, aligned = size_and_alignment(kind, records)
        for name, count in names:
            at = -(-at // aligned) * aligned
            fields.append({"name": name, "kind": kind, "count": count, "at": at, "size": size})
            at, most = at + size * max(count, 1), max(most, aligned)
    return {"fields": fields, "size": -(-at // most) * most, "aligned": most}


def read_given(words):
    """What a call is given. A pointer with a size_t behind it is a slice and its length, but for the last, which the call writes, and for `size`, which is
    that of the record which the pointer leads to."""
    given = []
    for word in words.split(","):
        if word.strip() in ("void", ""):
            continue
        const, kind, star, name = re.match(r"\s*(const )?(struct \w+|\w+)\s+(\*?)(\w+)", word).groups()
        given.append({"name": name, "kind": kind.replace("struct ", ""), "const": bool(const), "by": "pointer" if star else "value"})
    for it, behind in zip(given, given[1:]):
        if it["by"] == "pointer" and behind["by"] == "value" and behind["kind"] == "size_t" and behind["name"] != "size":
            it["by"], it["length"] = "slice", behind["name"]
            behind["by"] = "length"
    return given


def version(path):
    """The version that a header names."""
    with open(path) as it:
        return int(re.search(r"(?m)^#define ONFISEQ_VERSION (\d+)$", it.read()).group(1))


def read(path):
    """The records and the calls of a header, each by its name, in the header's order."""
    text = read_text(path)
    records, calls = {}, {}
    for name, body in re.findall(r"struct (\w+) \{(.*?)\};", text, re.S):
        records[name] = read_record(body, records)
    rest = re.sub(r"struct \w+ \{.*?\};", "", text, flags=re.S)
    for answer, name, words in re.findall(r"(struct \w+|\w+)\s+(onfiseq_\w+)\(([^)]*)\);", rest, re.S):
        if answer != "void":  # else it is one of the functions that a program may give
            calls[name] = {"answer": answer.replace("struct ", ""), "given": read_given(words)}
    return records, calls


def shape(path, unused=()):
    """All that, as JavaScript wants it, but for the calls whose names begin so."""
    records, calls = read(path)
    calls = {name: it for name, it in calls.items() if not name.startswith(tuple(unused))}
    return json.dumps({"records": records, "calls": calls, "version": version(path)})


def main():
    print(shape(sys.argv[1]))


if __name__ == "__main__":
    main()

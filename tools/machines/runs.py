"""Joins the stores of a module's function: those of zero that stand side by side become one fill, and those of what was just loaded become one copy.

A function that begins a record writes it out field by field, thousands of lines of C; a compiler keeps each of their addresses in its frame. Joined, they are a tenth.
wasm2c's variables i0, i1 and j1 are a stack of values, which is empty behind such a store. So what is joined is a store and all that it takes.
"""
import re

ZERO = re.compile(r"i0 = (\w+);\n(?:j1 = 0ull|i1 = 0u);\ni(32|64)_store(8|16|32|)(?:_align\d)?\(&it->memory, \(u64\)\(i0\)(?: \+ (\d+))?, [ij]1\);\n")
FILL = re.compile(r"i0 = (\w+);\n(?:i1 = (\d+)u;\ni0 \+= i1;\n)?i1 = 0u;\ni2 = (\d+)u;\nmemory_fill\(&it->memory, i0, i1, i2\);\n")
COPY = re.compile(
    r"i0 = (\w+);\ni1 = (\w+);\n[ij]1 = i(32|64)_load(8|16|32|)(?:_u|_s)?(?:_align\d)?\(&it->memory, \(u64\)\(i1\)(?: \+ (\d+)u)?\);\n"
    r"i\3_store\4(?:_align\d)?\(&it->memory, \(u64\)\(i0\)(?: \+ (\d+))?, [ij]1\);\n"
)
COPIES = re.compile(
    r"i0 = (\w+);\n(?:i1 = (\d+)u;\ni0 \+= i1;\n)?i1 = (\w+);\n(?:i2 = (\d+)u;\ni1 \+= i2;\n)?i2 = (\d+)u;\nmemory_copy\(&it->memory, &it->memory, i0, i1, i2\);\n"
)
FRAME = re.compile(r"\ni0 = it->stack_pointer;\ni1 = \d+u;\ni0 -= i1;\n(l\d+) = i0;\n")
LEAST = 1000  # so many stores has a function that writes out a record
STORE = re.compile(r"i0 = \w+;\n(?:[ij]1 = 0u|i1 = \w+;\n[ij]1 = i\d\d_load)")


def zero_at(text, at):
    """A store of zero or a fill that begins here: where it goes, how long it is, and where it ends."""
    found = ZERO.match(text, at)
    if found:
        return ((found[1], int(found[4] or 0), int(found[3] or found[2]) // 8), found.end())
    found = FILL.match(text, at)
    return ((found[1], int(found[2] or 0), int(found[3])), found.end()) if found else None


def copy_at(text, at):
    """A copy that begins here: to where, from where, how long, and where it ends."""
    found = COPY.match(text, at)
    if found:
        return ((found[1], int(found[6] or 0), found[2], int(found[5] or 0), int(found[4] or found[3]) // 8), found.end())
    found = COPIES.match(text, at)
    return ((found[1], int(found[2] or 0), found[3], int(found[4] or 0), int(found[5])), found.end()) if found else None


def row_of(text, at, one_at):
    """The stores of one kind from here on, each right behind the one before, and where they end."""
    row, found = [], one_at(text, at)
    while found:
        row.append(found[0])
        at = found[1]
        found = one_at(text, at)
    return row, at


def joined(row):
    """The stores of a row, those side by side as one. The last number of each is its length, and the places stand before it."""
    made = []
    for it in sorted(row, key=lambda it: (it[0], it[1])):
        last = made[-1] if made else None
        bases, places = it[0:-1:2], it[1:-1:2]
        if last and last[0:-1:2] == bases and tuple(place + last[-1] for place in last[1:-1:2]) == places:
            made[-1] = (*last[:-1], last[-1] + it[-1])
        else:
            made.append(it)
    return made


def overlap(first, second):
    """Whether two ranges, each of a base, a place and a length, share a byte."""
    return first[0] == second[0] and first[1] < second[1] + second[2] and second[1] < first[1] + first[2]


def may_be_joined(row, frame, given):
    """Whether copies may come in any order: no byte is written twice, and none is both written and read. A function's own frame has no byte of what it is given."""
    if any({to, of} - {frame, *given} or (to != of and frame not in (to, of)) for to, _, of, _, _ in row):
        return False
    written, read = [(to, at, size) for to, at, _, _, size in row], [(of, at, size) for _, _, of, at, size in row]
    are_apart = all(not overlap(one, other) for k, one in enumerate(written) for other in written[:k])
    return are_apart and all(not overlap(one, other) for one in written for other in read)


def joined_function(text):
    """A function with its stores joined."""
    frame = FRAME.search(text)
    frame, at, made = frame[1] if frame else None, 0, []
    given = [it for it in re.findall(r"\bu32 (p\d+)", text.split("{", 1)[0]) if not re.search(r"\b%s [-+&|^*]?= " % it, text)]
    is_kept = frame and len(re.findall(r"\n%s = " % frame, text)) == 1
    while at < len(text):
        zeros, after = row_of(text, at, zero_at)
        copies, behind = ([], at) if zeros else row_of(text, at, copy_at)
        if zeros:
            made += ["fill_zeros(&it->memory, %s, %du, %du);\n" % it for it in joined(zeros)]
        elif copies and is_kept and may_be_joined(copies, frame, given):
            made += ["copy_bytes(&it->memory, %s, %du, %s, %du, %du);\n" % it for it in joined(copies)]
            after = behind
        else:
            after = max(behind, text.index("\n", at) + 1)
            made.append(text[at:after])
        at = after
    return "".join(made)


def all_joined(text):
    """The functions of a module: those with many stores have them joined."""
    pieces = re.split(r"(?m)^(?=static )", text)
    return "".join(joined_function(it) if len(STORE.findall(it)) >= LEAST else it for it in pieces)

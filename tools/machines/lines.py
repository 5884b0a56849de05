"""Rewrites the text of an LLVM module that the kit made for 64-bit pointers, so that memory has the same bytes where a pointer has 32 bits.

It goes by lines. A pointer in memory keeps its 8 bytes: the low four are the pointer, the others are 0. So a local that holds a pointer becomes 8 bytes, a store of a
pointer is followed by a store of zeros, four zero bytes stand behind each pointer of a constant, and two values at once are loaded and stored one by one, each at its place.
Each line that makes, reads or writes memory has a form that is known here; any other line of that kind is refused.
"""
import re
import sys

# How many bytes a value takes in memory.
SIZES = {"i1": 1, "i8": 1, "i16": 2, "i32": 4, "i64": 8, "i128": 16, "double": 8, "ptr": 8}

NUMBER = r"(?:i1|i8|i16|i32|i64|i128|double)"
BYTES = r"(?:%s|\[\d+ x %s\])" % (NUMBER, NUMBER)
PLAIN = r"(?:%s|<\d+ x (?:i8|i16|i32|i64)>)" % BYTES
# What is read or written at once where several bytes go together: its bytes are the same wherever the lowest comes first.
JOINED = r"(?:%s|i24|i40|i48|i56)" % PLAIN
NAME = r'(?:"[^"]*"|[\w.$-]+)'
LOCAL = "%" + NAME
PLACE = r"(?:[%%@]%s|null)" % NAME
TOLD = r"(?:, ![\w.]+ ![\w.]+)*"

ALLOCA = re.compile(r"  (%s) = alloca (%s|ptr), align (\d+)$" % (LOCAL, PLAIN))
LOAD = re.compile(r"  %s = load (?:volatile )?(?:%s|ptr), ptr %s, align \d+%s$" % (LOCAL, JOINED, PLACE, TOLD))
LOAD_TWO = re.compile(r"  (%s) = load \{ (\w+), (\w+) \}, ptr (%s), align (\d+)$" % (LOCAL, PLACE))
STORE = re.compile(r"  store (?:volatile )?%s .+, ptr %s, align \d+$" % (JOINED, PLACE))
STORE_TWO = re.compile(r"  store \{ (\w+), (\w+) \} (%s), ptr (%s), align (\d+)$" % (LOCAL, PLACE))
STORE_POINTER = re.compile(r"  store ptr .+, ptr (%s), align \d+$" % PLACE)
MEMORY = re.compile(r"  (?:%s = )?(alloca|load|store|atomicrmw|cmpxchg|fence|va_arg) " % LOCAL)

# A constant of plain bytes or numbers, and one that holds pointers: a packed record of both.
CONSTANT = re.compile(r'@%s = (?!.*\bthread_local\b)[a-z_ ()]*(?:constant|global) %s [^{}<>()]*$' % (NAME, PLAIN))
PACKED = re.compile(r'(@%s = (?:private |internal |unnamed_addr |local_unnamed_addr )*(?:constant|global)) <\{ (.*?) \}> <\{ (.*) \}>, align (\d+)$' % NAME)
POINTED = re.compile(r"ptr (?:null|@%s|getelementptr \(i8, ptr @%s, i64 \d+\))$" % (NAME, NAME))

# What no line may have: several pointers as one value, an offset by a type that may hold one, an argument that stands in memory by such a type, and what makes a pointer of a
# number or hides what it does.
OFFSET = r"getelementptr\b(?!(?: inbounds| nuw| nusw)* \(?%s, ptr )" % BYTES
IN_MEMORY = r"\b(?:byval|byref|sret|inalloca|preallocated|elementtype)\((?!\[\d+ x i8\]\))"
INTRINSIC = r"@llvm\.(?!mem(?:cpy|move|set)\.)[\w.]*p0|@llvm\.(?:va_|x86\.)"
REFUSED = re.compile(r"\bx ptr\b|\b(?:inttoptr|addrspacecast|asm)\b |%s|%s|%s" % (OFFSET, IN_MEMORY, INTRINSIC))
QUOTED = re.compile(r'"[^"]*"')


def refuse(line):
    """Ends: the module isn't of a form that is known."""
    sys.exit("retarget: a form that isn't known: " + line[:300].strip())


def elements(text):
    """The parts of a list between commas that stand in no brackets and no quotes."""
    parts, depth, begin, at = [], 0, 0, 0
    while at < len(text):
        char = text[at]
        if char == '"':
            at = text.index('"', at + 1)
        elif char in "([{<":
            depth += 1
        elif char in ")]}>":
            depth -= 1
        elif char == "," and depth == 0:
            parts.append(text[begin:at].strip())
            begin = at + 1
        at += 1
    return parts + [text[begin:].strip()]


def place_of_second(first, second, line):
    """Where the second of two values stands behind the first, where a pointer has 8 bytes."""
    if first not in SIZES or second not in SIZES:
        refuse(line)
    return max(SIZES[first], SIZES[second])


def two_loads(found):
    """A load of two values at once, as two loads."""
    name, first, second, at, aligned = found.groups()
    place = place_of_second(first, second, found.group(0))
    aligned, pair = min(int(aligned), place), "{ %s, %s }" % (first, second)
    part, one = name[:-1] if name.endswith('"') else name, '"' if name.endswith('"') else ""
    lines = (
        f"{part}.a{one} = load {first}, ptr {at}, align {aligned}",
        f"{part}.at{one} = getelementptr i8, ptr {at}, i64 {place}",
        f"{part}.b{one} = load {second}, ptr {part}.at{one}, align {aligned}",
        f"{part}.one{one} = insertvalue {pair} poison, {first} {part}.a{one}, 0",
        f"{name} = insertvalue {pair} {part}.one{one}, {second} {part}.b{one}, 1",
    )
    return "".join("  %s\n" % line for line in lines)


class Lines:
    """The lines of a module, one after another; `is_narrow` where a pointer has 32 bits."""

    def __init__(self, is_narrow):
        self.is_narrow, self.count = is_narrow, 0

    def __call__(self, line):
        """What stands for a line."""
        if line[0] == " ":
            return self.inner(line)
        return self.outer(line) if line[0] in "@%dm" else line

    def new_name(self, word):
        """A name of a value that no other line has."""
        self.count += 1
        return "%%%s.%d" % (word, self.count)

    # ---- at the margin

    def outer(self, line):
        """A constant, a declaration, the head of a function; a named type or assembly is refused."""
        if line[0] == "@":
            return self.constant(line)
        if line[0] == "%" or line.startswith("module asm"):
            refuse(line)
        if REFUSED.search(QUOTED.sub("", line)):
            refuse(line)
        return line

    def constant(self, line):
        """A constant or a variable."""
        bare = QUOTED.sub('""', line.rstrip("\n"))
        if CONSTANT.match(bare) and "ptr" not in bare.split(" = ", 1)[1]:
            return line
        found = PACKED.match(line)
        if not found:
            refuse(line)
        head, types, values, aligned = found.groups()
        kinds, given = elements(types), elements(values)
        if len(kinds) != len(given) or not all(re.fullmatch(BYTES + "|ptr", kind) for kind in kinds):
            refuse(line)
        for kind, value in zip(kinds, given):
            if not value.startswith(kind + " ") or (kind == "ptr" and not POINTED.match(value)) or (kind != "ptr" and "ptr" in QUOTED.sub("", value)):
                refuse(line)
        if self.is_narrow:
            kinds = [it for kind in kinds for it in ((kind, "i32") if kind == "ptr" else (kind,))]
            given = [it for value in given for it in ((value, "i32 0") if value.startswith("ptr ") else (value,))]
        return "%s <{ %s }> <{ %s }>, align %s\n" % (head, ", ".join(kinds), ", ".join(given), aligned)

    # ---- in a function

    def inner(self, line):
        """A line of a function."""
        if REFUSED.search(line) and REFUSED.search(QUOTED.sub("", line)):
            refuse(line)
        found = MEMORY.match(line)
        if found:
            return self.memory(found.group(1), line)
        return line.replace("ptrtoaddr ptr", "ptrtoint ptr") if "ptrtoaddr" in line else line

    def memory(self, verb, line):
        """A line that makes, reads or writes memory."""
        if verb == "alloca":
            return self.local(line)
        if verb == "load":
            found = LOAD_TWO.match(line)
            if found:
                return two_loads(found)
            return line if LOAD.match(line) else self.other(line)
        if verb == "store" and STORE.match(line):
            return line
        return self.store(line) if verb == "store" else self.other(line)

    def local(self, line):
        found = ALLOCA.match(line)
        if not found:
            refuse(line)
        name, kind, aligned = found.groups()
        return "  %s = alloca [8 x i8], align %s\n" % (name, aligned) if kind == "ptr" else line

    def store(self, line):
        """A store of a pointer, or of two values at once."""
        found = STORE_POINTER.match(line)
        if found:
            return line + (self.zeros_above(found.group(1)) if self.is_narrow else "")
        found = STORE_TWO.match(line)
        return self.two_stores(found) if found else self.other(line)

    def zeros_above(self, at):
        """The store of the zeros above a pointer."""
        above = self.new_name("above")
        return f"  {above} = getelementptr i8, ptr {at}, i64 4\n  store i32 0, ptr {above}, align 1\n"

    def two_stores(self, found):
        first, second, value, at, aligned = found.groups()
        place, pair = place_of_second(first, second, found.group(0)), "{ %s, %s }" % (first, second)
        if "ptr" in (first, second):
            refuse(found.group(0))
        one, other, behind = self.new_name("first"), self.new_name("second"), self.new_name("behind")
        return (
            f"  {one} = extractvalue {pair} {value}, 0\n  store {first} {one}, ptr {at}, align {aligned}\n"
            f"  {other} = extractvalue {pair} {value}, 1\n  {behind} = getelementptr i8, ptr {at}, i64 {place}\n"
            f"  store {second} {other}, ptr {behind}, align {min(int(aligned), place)}\n"
        )

    def other(self, line):
        """A line of memory of no form that each module has."""
        refuse(line)

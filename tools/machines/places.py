"""Marks in a module's C what wasm2c leaves out: which numbers are addresses of the module's data, and how each load and store is aligned.

The module is linked twice, the second time with its data further up. A number that is larger there by as much is an address; any other difference is refused.
So the data may stand anywhere.
"""
import re
import sys

import wasm

ALIGNED = 16  # what the data begin at a multiple of
NUMBERS = {
    0x28: ("i32_load", 4), 0x29: ("i64_load", 8), 0x2C: ("i32_load8_s", 1), 0x2D: ("i32_load8_u", 1), 0x2E: ("i32_load16_s", 2), 0x2F: ("i32_load16_u", 2),
    0x30: ("i64_load8_s", 1), 0x31: ("i64_load8_u", 1), 0x32: ("i64_load16_s", 2), 0x33: ("i64_load16_u", 2), 0x34: ("i64_load32_s", 4), 0x35: ("i64_load32_u", 4),
    0x36: ("i32_store", 4), 0x37: ("i64_store", 8), 0x3A: ("i32_store8", 1), 0x3B: ("i32_store16", 2), 0x3C: ("i64_store8", 1), 0x3D: ("i64_store16", 2),
    0x3E: ("i64_store32", 4),
}
MOVE = re.compile(r"\b(i(?:32|64)_(?:load|store)\w*)\(")
FUNCTION = re.compile(r"(?ms)^static \w+ w2c_\w+\(Z_onfiseq_instance_t\* ?\w+[^;{]*\{\n.*?^\}\n")
DATA = re.compile(r"(?ms)^static const u8 data_segment_data_\w+\[\] = \{.*?^\};\n")
NUMBER = re.compile(r"\b(\d+)u\b")


def refuse(why):
    """Ends: the module isn't of a form that is known."""
    sys.exit("places: " + why)


def moves_of(module, number):
    """The loads and stores of a function: the name of each, and what wasm2c's name wants behind it where its address is no multiple of its size."""
    start, end, data = module.bodies[number]
    reader = wasm.Reader(data, start)
    for _ in range(reader.number()):
        reader.number(), reader.byte()
    for code, given in reader.instructions(end):
        if code in NUMBERS:
            name, size = NUMBERS[code]
            yield name, name + ("_align%d" % (1 << given[0]) if 1 << given[0] < size else "")


def aligned(text, moves):
    """A function with the alignment of its loads and stores."""
    moves = list(moves)
    if MOVE.findall(text) != [name for name, _ in moves]:
        refuse("wasm2c has other loads and stores than the module")
    names = iter(name for _, name in moves)
    return MOVE.sub(lambda found: next(names) + "(", text)


class Marking:
    """A module's C, that of the same module with its data further up, and the modules themselves."""

    def __init__(self, text, moved_text, module, moved):
        self.text, self.moved_text, self.module, self.moved = text, moved_text, wasm.Module(module), wasm.Module(moved)
        if len(self.module.data) != 1 or len(self.moved.data) != 1:
            refuse("the data are no single segment")
        (self.begin, self.data), (begin, self.moved_data) = self.module.data[0], self.moved.data[0]
        self.by = begin - self.begin
        if self.by <= 0 or self.by % ALIGNED or self.begin % ALIGNED:
            refuse("the second link has its data no further up")
        if len(self.data) != len(self.moved_data):
            refuse("the second link has other data")

    def end(self):
        """Where room begins behind the data."""
        return self.begin + -(-len(self.data) // ALIGNED) * ALIGNED

    def address(self, old, new):
        """A number, as an address where it is one."""
        if old == new:
            return "%du" % old
        if new - old != self.by:
            refuse("%d and %d differ by no move of the data" % (old, new))
        return "DATA(%du)" % ((old - self.begin) & 0xFFFFFFFF)

    def function(self, number, text, moved):
        """A function with its addresses, and with the alignment of its loads and stores."""
        parts, others = NUMBER.split(text), NUMBER.split(moved)
        if parts[::2] != others[::2]:
            refuse("two links of the module differ in more than where their data stand")
        for k in range(1, len(parts), 2):
            parts[k] = self.address(int(parts[k]), int(others[k]))
        return aligned("".join(parts), moves_of(self.module, number))

    def functions(self):
        """The text of the functions, marked, without the data."""
        moved = FUNCTION.findall(self.moved_text)
        if len(FUNCTION.findall(self.text)) != len(self.module.bodies) or len(moved) != len(self.module.bodies):
            refuse("wasm2c has other functions than the module")
        numbers = iter(range(len(moved)))

        def marked(found):
            number = next(numbers)
            return self.function(number, found.group(0), moved[number])

        return FUNCTION.sub(marked, DATA.sub("", self.text))

    # ---- the data

    def words(self):
        """The addresses among the data, each with its place."""
        for at in range(0, len(self.data), 4):
            old, new = (int.from_bytes(it[at : at + 4], "little") for it in (self.data, self.moved_data))
            if old != new:
                yield at, self.address(old, new)

    def runs(self):
        """The data: bytes, and addresses in a row, each with its type, its place and its values."""
        at, words, found = 0, dict(self.words()), []
        while at < len(self.data):
            kind, size, value = ("address", 4, words[at].replace("DATA", "ADDRESS")) if at in words else ("u8", 1, str(self.data[at]))
            if not found or found[-1][0] != kind:
                found.append((kind, at, []))
            found[-1][2].append(value)
            at += size
        return found

    def declaration(self):
        """The data, as C."""
        runs = self.runs()
        lines = ["static const struct {"] + ["%s at_%d[%d];" % (kind, at, len(values)) for kind, at, values in runs] + ["} data ALIGNED = {"]
        for kind, _, values in runs:
            each = 6 if kind == "address" else 40
            rows = [",".join(values[k : k + each]) for k in range(0, len(values), each)]
            lines += ["{" + ",\n".join(rows) + "},"]
        return "\n".join(lines + ["};"]) + "\n"

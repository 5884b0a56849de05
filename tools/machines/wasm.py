"""Reads a WebAssembly module of the kind that clang and lld write for the program: no calls by a table, one memory, globals that are numbers."""
import struct
import sys

TYPES = {0x7F: "u32", 0x7E: "u64", 0x7C: "f64"}

# What follows each instruction: u and s a number without and with a sign, d a double, t a list of labels.
PLAIN = {code: "" for code in [0x00, 0x01, 0x05, 0x0B, 0x0F, 0x1A, 0x1B, *range(0x45, 0xC5)]}
NUMBERED = {code: "u" for code in (0x0C, 0x0D, 0x10, 0x20, 0x21, 0x22, 0x23, 0x24)}
FOLLOWED = {**PLAIN, **NUMBERED, **{code: "s" for code in (0x02, 0x03, 0x04, 0x41, 0x42)}, 0x44: "d", 0x0E: "t", **{code: "uu" for code in range(0x28, 0x3F)}}
LONG = {10: "uu", 11: "u"}


def refuse(why):
    """Ends: the module isn't of a form that is known."""
    sys.exit("wasm: " + why)


class Reader:
    """The bytes of a module, one after another."""

    def __init__(self, data, at=0):
        self.data, self.at = data, at

    def byte(self):
        self.at += 1
        return self.data[self.at - 1]

    def number(self):
        """A number without a sign."""
        result = shift = 0
        while True:
            it = self.byte()
            result |= (it & 127) << shift
            shift += 7
            if it < 128:
                return result

    def signed(self):
        """A number with a sign."""
        result = shift = 0
        while True:
            it = self.byte()
            result |= (it & 127) << shift
            shift += 7
            if it < 128:
                return result - (1 << shift) if it & 64 else result

    def bytes(self, count):
        self.at += count
        return self.data[self.at - count : self.at]

    def text(self):
        return self.bytes(self.number()).decode()

    def types(self):
        return [TYPES[self.byte()] for _ in range(self.number())]

    def constant(self):
        """The value of a constant expression: one constant."""
        kind = self.byte()
        if kind not in (0x41, 0x42):
            refuse("a constant of another form")
        value = self.signed()
        if self.byte() != 0x0B:
            refuse("a constant of another form")
        return value

    def followed(self, forms):
        """What follows an instruction."""
        read = {"u": self.number, "s": self.signed, "d": lambda: struct.unpack("<d", self.bytes(8))[0], "t": lambda: [self.number() for _ in range(self.number() + 1)]}
        return [read[form]() for form in forms]

    def instructions(self, end):
        """Each instruction up to there, with what follows it; a long one is told as (0xFC, its number)."""
        while self.at < end:
            code = self.byte()
            if code == 0xFC:
                code = (code, self.number())
                forms = LONG.get(code[1])
            else:
                forms = FOLLOWED.get(code)
            if forms is None:
                refuse("an instruction that isn't known: %s" % (code,))
            yield code, self.followed(forms)


class Module:
    """What a module holds."""

    def __init__(self, data):
        self.types, self.imports, self.functions, self.globals = [], [], [], []
        self.exports, self.starts, self.bodies, self.data = {}, {}, [], []
        if data[:8] != b"\0asm\1\0\0\0":
            refuse("no module")
        readers = {1: self.read_type, 2: self.read_import, 3: self.read_function, 6: self.read_global, 7: self.read_export, 9: self.read_elements, 10: self.read_body, 11: self.read_data}
        it = Reader(data, 8)
        while it.at < len(data):
            kind, size = it.byte(), it.number()
            end = it.at + size
            if kind in readers:
                for _ in range(it.number()):
                    readers[kind](it)
            it.at = end

    def read_type(self, it):
        it.byte()
        given = it.types()
        self.types.append((given, it.types()))

    def read_import(self, it):
        it.text()
        name = it.text()
        if it.byte() != 0:
            refuse("what is imported and is no function: " + name)
        self.imports.append((name, self.types[it.number()]))

    def read_function(self, it):
        self.functions.append(self.types[it.number()])

    def read_global(self, it):
        kind = TYPES[it.byte()]
        it.byte()
        self.globals.append((kind, it.constant()))

    def read_export(self, it):
        name = it.text()
        kind = it.byte()
        self.exports[name] = (kind, it.number())

    def read_elements(self, it):
        """Where threads start: the only functions that are told by number."""
        if it.number() != 0:
            refuse("elements of another form")
        at = it.constant()
        for k in range(it.number()):
            self.starts[at + k] = it.number()

    def read_body(self, it):
        size = it.number()
        self.bodies.append((it.at, it.at + size, it.data))
        it.at += size

    def read_data(self, it):
        if it.number() != 0:
            refuse("data of another form")
        at = it.constant()
        self.data.append((at, it.bytes(it.number())))

    def type_of(self, number):
        """What a function is given and answers, imported ones first."""
        return self.imports[number][1] if number < len(self.imports) else self.functions[number - len(self.imports)]

    def name_of(self, number):
        """The name of a function in C."""
        return "module_" + self.imports[number][0] if number < len(self.imports) else "w%d" % (number - len(self.imports))

"""Turns the functions of a WebAssembly module into C: whole expressions, one statement a line.

A function of the module is a function of C with the same arguments, and a local is a local. c/module.h has what they use: L1 L2 L4 L8 load, S1 S2 S4 S8 store, FILL and COPY
move bytes. A value waits on a stack as an expression until it is used, or until what comes next would change it; then it is written into a local of its own.
"""
import math
import struct

from wasm import TYPES, Reader, refuse

# How tight an expression binds: C's unary operators, sums, products, and what needs no brackets.
SHIFTED, COMPARED, ADDED, MULTIPLIED, UNARY, PRIMARY = 11, 10, 12, 13, 14, 15
LONGEST = 400

LOADS = {
    0x28: ("L4", "u32", ""), 0x29: ("L8", "u64", ""), 0x2B: ("LD", "f64", ""),
    0x2C: ("L1", "u32", "(u32)(s32)(s8)"), 0x2D: ("L1", "u32", ""), 0x2E: ("L2", "u32", "(u32)(s32)(s16)"), 0x2F: ("L2", "u32", ""),
    0x30: ("L1", "u64", "(u64)(s64)(s8)"), 0x31: ("L1", "u64", "(u64)"), 0x32: ("L2", "u64", "(u64)(s64)(s16)"), 0x33: ("L2", "u64", "(u64)"),
    0x34: ("L4", "u64", "(u64)(s64)(s32)"), 0x35: ("L4", "u64", "(u64)"),
}
STORES = {0x36: "S4", 0x37: "S8", 0x39: "SD", 0x3A: "S1", 0x3B: "S2", 0x3C: "S1", 0x3D: "S2", 0x3E: "S4"}
COMPARISONS = (("==", False), ("!=", False), ("<", True), ("<", False), (">", True), (">", False), ("<=", True), ("<=", False), (">=", True), (">=", False))
ARITHMETIC = {0: ("+", ADDED), 1: ("-", ADDED), 2: ("*", MULTIPLIED), 7: ("&", 8), 8: ("|", 6), 9: ("^", 7)}
CASTS = {
    0xA7: ("(u32)", "u32"), 0xAC: ("(u64)(s64)(s32)", "u64"), 0xAD: ("(u64)", "u64"),
    0xC0: ("(u32)(s32)(s8)", "u32"), 0xC1: ("(u32)(s32)(s16)", "u32"),
    0xC2: ("(u64)(s64)(s8)", "u64"), 0xC3: ("(u64)(s64)(s16)", "u64"), 0xC4: ("(u64)(s64)(s32)", "u64"),
    0xB7: ("(f64)(s32)", "f64"), 0xB8: ("(f64)", "f64"), 0xB9: ("(f64)(s64)", "f64"), 0xBA: ("(f64)", "f64"), 0x9A: ("-", "f64"),
}
NAMED = {0x99: ("ABSOLUTE", "f64"), 0xBD: ("BITS_OF", "u64"), 0xBF: ("FLOAT_OF", "f64")}
NAMED.update({first + k: ("I%d_%s" % (bits, name), "u%d" % bits) for first, bits in ((0x67, 32), (0x79, 64)) for k, name in enumerate(("CLZ", "CTZ", "POPCNT"))})


class Value:
    """An expression that isn't written yet: its text, how tight it binds, its type, and which locals, globals and memory it reads."""

    __slots__ = ("text", "tight", "type", "locals", "globals", "reads_memory", "number", "is_truth")

    def __init__(self, text, tight, kind, of=(), number=None, is_truth=False):
        self.text, self.tight, self.type, self.number, self.is_truth = text, tight, kind, number, is_truth
        self.locals = frozenset().union(*[it.locals for it in of])
        self.globals = frozenset().union(*[it.globals for it in of])
        self.reads_memory = any(it.reads_memory for it in of)

    def at(self, tight):
        """The text where what stands around binds so tight."""
        return self.text if self.tight >= tight else "(" + self.text + ")"

    def summed(self, tight):
        """The text in a sum: a truth is a number of C's int."""
        return "(u32)" + self.at(UNARY) if self.is_truth else self.at(tight)

    def signed(self, bits):
        """The text of the number with a sign."""
        if self.number is None:
            return "(s%d)%s" % (bits, self.at(UNARY))
        number = self.number - (1 << bits) if self.number >> (bits - 1) else self.number
        if number == -(1 << (bits - 1)):
            return "(-%d%s-1)" % (-number - 1, "ll" if bits == 64 else "")
        return str(number) + ("ll" if bits == 64 and not -(1 << 31) < number < 1 << 31 else "")


def constant(value, bits):
    """A number."""
    value &= (1 << bits) - 1
    behind = "u" if bits == 32 else "ull"
    if value < 1 << 31:
        return Value(str(value), PRIMARY, "u%d" % bits, number=value)
    if (1 << bits) - value < 1 << 20:
        return Value("~%d%s" % ((1 << bits) - 1 - value, behind), UNARY, "u%d" % bits, number=value)
    return Value(("%du" if value < 1 << 32 else "%dull" if value < 1 << 36 else "0x%xull") % value, PRIMARY, "u%d" % bits, number=value)


class Block:
    """A block, a loop or a condition that isn't ended yet."""

    def __init__(self, kind, label, answer, height):
        self.kind, self.label, self.answer, self.height = kind, label, answer, height
        self.to, self.is_used, self.line = None, False, None


class Function:
    """The lines of a function."""

    def __init__(self, module, number):
        self.module, self.number = module, number
        self.given, answers = module.functions[number]
        self.answer = answers[0] if answers else None
        self.types, self.lines, self.stack, self.blocks, self.calls = list(self.given), [], [], [], set()
        self.temporaries, self.used, self.count, self.labels = {}, set(), 0, 0
        self.uses_memory = self.is_dead = False
        self.passed = 0  # blocks that began where nothing is reached
        self.most = 0  # the largest offset
        self.write()
        self.body = self.text()

    # ---- values

    def push(self, text, tight, kind, *of, is_truth=False):
        value = Value(text, tight, kind, of, is_truth=is_truth)
        self.stack.append(self.kept(value) if len(text) > LONGEST else value)
        return self.stack[-1]

    def new_local(self, kind):
        """The name of a local of its own."""
        name = "t%d" % self.count
        self.count += 1
        self.temporaries.setdefault(kind, []).append(name)
        return name

    def kept(self, value):
        """The value in a local of its own, written now."""
        name = self.new_local(value.type)
        self.lines.append("%s=%s;" % (name, value.text))
        return Value(name, PRIMARY, value.type)

    def settle(self, touches):
        """Writes the values that wait and that what comes next would change."""
        for place, value in enumerate(self.stack):
            if value.number is None and touches(value):
                self.stack[place] = self.kept(value)

    def settle_all(self):
        self.settle(lambda it: not (it.tight == PRIMARY and it.text[0] == "t" and not it.locals))

    # ---- blocks

    def begin(self, kind, blocktype):
        if blocktype >= 0:
            refuse("a block with arguments")
        answer = None if blocktype == -64 else TYPES[blocktype & 0x7F]
        self.settle_all()
        self.labels += 1
        block = Block(kind, self.labels, answer, len(self.stack))
        if answer:
            block.to = self.new_local(answer)
        self.blocks.append(block)
        return block

    def leave(self, depth, keeps):
        """The statements of a branch, its answer first. With `keeps` the answer stays on the stack."""
        block = self.blocks[-1 - depth] if depth < len(self.blocks) else None
        has_answer = block.answer and block.kind != "loop" if block else self.answer
        value = (self.stack[-1] if keeps else self.stack.pop()) if has_answer else None
        if block is None:
            return "return %s;" % value.text if value else "return;"
        block.is_used = True
        before = "%s=%s;" % (block.to, value.text) if value and value.text != block.to else ""
        return before + "goto %s%d;" % ("L" if block.kind == "loop" else "B", block.label)

    def end_of_arm(self):
        """Writes the answer of an arm of a block."""
        block = self.blocks[-1]
        if block.answer and len(self.stack) > block.height:
            value = self.stack.pop()
            if value.text != block.to:
                self.lines.append("%s=%s;" % (block.to, value.text))
        del self.stack[block.height :]

    def do_block(self, blocktype):
        self.begin("block", blocktype)

    def do_loop(self, blocktype):
        block = self.begin("loop", blocktype)
        block.line = len(self.lines)
        self.lines.append("L%d:;" % block.label)

    def do_if(self, blocktype):
        condition = self.stack.pop()
        self.settle_all()
        self.lines.append("if(%s){" % condition.text)
        self.begin("if", blocktype)

    def do_else(self):
        self.end_of_arm()
        self.lines.append("}else{")

    def do_end(self):
        if not self.blocks:
            if self.answer and self.stack:
                self.lines.append("return %s;" % self.stack[-1].text)
            return
        self.end_of_arm()
        block = self.blocks.pop()
        if block.kind == "if":
            self.lines.append("}")
        if block.is_used and block.kind != "loop":
            self.lines.append("B%d:;" % block.label)
        if block.kind == "loop" and not block.is_used:
            self.lines[block.line] = None
        if block.answer:
            self.stack.append(Value(block.to, PRIMARY, block.answer))

    def do_branch(self, depth):
        self.lines.append(self.leave(depth, False))
        self.is_dead = True

    def do_branch_if(self, depth):
        condition = self.stack.pop()
        if depth < len(self.blocks) and self.blocks[-1 - depth].answer and self.blocks[-1 - depth].kind != "loop":
            condition = self.kept(condition)
        leave = self.leave(depth, True)
        self.lines.append("if(%s)%s" % (condition.text, leave if leave.count(";") == 1 else "{" + leave + "}"))

    def do_branch_table(self, depths):
        value, cases = self.stack.pop(), {}
        for k, depth in enumerate(depths[:-1]):
            if depth != depths[-1]:
                cases.setdefault(depth, []).append(k)
        texts = ["".join("case %d:" % k for k in ks) + self.leave(depth, True) for depth, ks in cases.items()]
        self.lines.append("switch(%s){%sdefault:%s}" % (value.text, "".join(texts), self.leave(depths[-1], True)))
        self.is_dead = True

    def do_return(self):
        self.lines.append("return;" if self.answer is None else "return %s;" % self.stack.pop().text)
        self.is_dead = True

    def do_unreachable(self):
        self.lines.append("UNREACHABLE;")
        self.is_dead = True

    # ---- locals, memory and calls

    def read_local(self, number):
        value = self.push("l%d" % number, PRIMARY, self.types[number])
        value.locals = frozenset((number,))
        self.used.add(number)

    def do_set(self, number):
        value = self.stack.pop()
        self.settle(lambda it: number in it.locals)
        self.used.add(number)
        if value.text != "l%d" % number:
            self.lines.append("l%d=%s;" % (number, value.text))

    def do_tee(self, number):
        self.do_set(number)
        self.read_local(number)

    def read_global(self, number):
        value = self.push("g%d" % number, PRIMARY, self.module.globals[number][0])
        value.globals = frozenset((number,))

    def set_global(self, number):
        value = self.stack.pop()
        self.settle(lambda it: number in it.globals)
        self.lines.append("g%d=%s;" % (number, value.text))

    def do_load(self, code, offset):
        name, kind, cast = LOADS[code]
        self.uses_memory, self.most = True, max(self.most, offset)
        at = self.stack.pop()
        value = Value("%s%s(%s,%d)" % (cast, name, at.text, offset), UNARY if cast else PRIMARY, kind, (at,))
        value.reads_memory = True
        self.stack.append(self.kept(value) if len(value.text) > LONGEST else value)

    def do_store(self, code, offset):
        self.uses_memory, self.most = True, max(self.most, offset)
        value, at = self.stack.pop(), self.stack.pop()
        self.settle(lambda it: it.reads_memory)
        self.lines.append("%s(%s,%d,%s);" % (STORES[code], at.text, offset, value.text))

    def move(self, name):
        """FILL or COPY."""
        count, value, to = self.stack.pop(), self.stack.pop(), self.stack.pop()
        self.uses_memory = True
        self.settle(lambda it: it.reads_memory)
        self.lines.append("%s(%s,%s,%s);" % (name, to.text, value.text, count.text))

    def do_call(self, number):
        given, answers = self.module.type_of(number)
        values = [self.stack.pop() for _ in given][::-1]
        self.settle(lambda it: it.reads_memory or it.globals)
        self.calls.add(number)
        text = "%s(%s)" % (self.module.name_of(number), ",".join(it.text for it in values))
        if answers:
            self.stack.append(self.kept(Value(text, PRIMARY, answers[0])))
        else:
            self.lines.append(text + ";")

    def do_select(self):
        condition, other, value = self.stack.pop(), self.stack.pop(), self.stack.pop()
        first = value.summed(4)
        if value.number is not None and other.number is not None and value.type != "f64":
            first = "(%s)%s" % (value.type, first)
        self.push("%s?%s:%s" % (condition.at(4), first, other.summed(4)), 3, value.type, condition, other, value)

    # ---- sums

    def compare(self, sign, is_signed, bits):
        y, x = self.stack.pop(), self.stack.pop()
        if is_signed:
            text = x.signed(bits) + sign + y.signed(bits)
        else:
            text = x.summed(ADDED) + sign + y.summed(ADDED)
        self.push(text, COMPARED, "u32", x, y, is_truth=True)

    def is_zero(self):
        value = self.stack.pop()
        self.push("!" + value.at(UNARY), UNARY, "u32", value, is_truth=True)

    def cast(self, text, kind):
        value = self.stack.pop()
        self.push(text + value.at(UNARY), UNARY, kind, value)

    def call_named(self, name, kind):
        value = self.stack.pop()
        self.push("%s(%s)" % (name, value.text), PRIMARY, kind, value)

    def sum(self, sign, tight, bits):
        y, x = self.stack.pop(), self.stack.pop()
        is_truth = tight < 9 and x.is_truth and y.is_truth
        left, right = (x.at(tight), y.at(tight + 1)) if is_truth else (x.summed(tight), y.summed(tight + 1))
        if tight < 9:  # compilers warn of a mixture without brackets
            left = left if x.tight in (tight, UNARY, PRIMARY) or x.is_truth and not is_truth else "(" + x.text + ")"
            right = right if y.tight in (UNARY, PRIMARY) or y.is_truth and not is_truth else "(" + y.text + ")"
        if x.number is not None and y.number is not None:
            left = "(u%d)%s" % (bits, left)
        self.push(left + sign + right, tight, "u%d" % bits, x, y, is_truth=is_truth)

    def divide(self, name, sign, bits):
        y, x = self.stack.pop(), self.stack.pop()
        if sign and y.number:
            self.push(x.summed(MULTIPLIED) + sign + y.at(UNARY), MULTIPLIED, "u%d" % bits, x, y)
        else:
            self.push("%s%d(%s,%s)" % (name, bits, x.text, y.text), PRIMARY, "u%d" % bits, x, y)

    def shift(self, sign, is_signed, bits):
        y, x = self.stack.pop(), self.stack.pop()
        by = str(y.number % bits) if y.number is not None else "(%s&%d)" % (y.at(UNARY), bits - 1)
        if is_signed:
            self.push("(u%d)((s%d)%s>>%s)" % (bits, bits, x.at(UNARY), by), UNARY, "u%d" % bits, x, y)
            return
        left = x.summed(UNARY)
        left = "(u%d)%s" % (bits, left) if x.number is not None else left
        self.push(left + sign + by, SHIFTED, "u%d" % bits, x, y)

    def rotate(self, name, bits):
        y, x = self.stack.pop(), self.stack.pop()
        self.push("I%d_%s(%s,%s)" % (bits, name, x.text, y.text), PRIMARY, "u%d" % bits, x, y)

    def real(self, sign, tight, kind):
        y, x = self.stack.pop(), self.stack.pop()
        self.push(x.at(UNARY) + sign + y.at(UNARY), tight, kind, x, y, is_truth=kind == "u32")

    # ---- the whole

    def write(self):
        """Writes the lines of each instruction; what nothing reaches is passed over, to the end of its block."""
        start, end, data = self.module.bodies[self.number]
        reader = Reader(data, start)
        for _ in range(reader.number()):
            count = reader.number()
            self.types += [TYPES[reader.byte()]] * count
        for code, given in reader.instructions(end):
            if self.is_dead and not self.revives(code):
                continue
            HOW[code](self, *given)

    def revives(self, code):
        """Whether an instruction behind what nothing reaches is reached: the end of the block, or its other arm."""
        if code in (0x02, 0x03, 0x04):
            self.passed += 1
        elif code == 0x0B and self.passed:
            self.passed -= 1
        elif not self.passed and (code == 0x0B or code == 0x05):
            self.is_dead = False
            del self.stack[self.blocks[-1].height if self.blocks else 0 :]
        return not self.is_dead

    def head(self):
        given = ["%s l%d" % (kind, k) for k, kind in enumerate(self.given)]
        return "%s w%d(%s)" % (self.answer or "void", self.number, ",".join(given) or "void")

    def text(self):
        lines = [self.head() + "{"] + ["M"] * self.uses_memory
        for kind in ("u32", "u64", "f64"):
            names = ["l%d=0" % k for k in range(len(self.given), len(self.types)) if self.types[k] == kind and k in self.used]
            names += self.temporaries.get(kind, [])
            if names:
                lines.append("%s %s;" % (kind, ",".join(names)))
        lines += [it for it in self.lines if it is not None]
        if self.answer and not lines[-1].startswith("return "):
            lines.append("return 0;")  # where nothing comes, which not every compiler sees
        return "\n".join(lines) + "\n}\n"


def binary(bits, which):
    """How one of the fifteen operations of two whole numbers is written."""
    if which in ARITHMETIC:
        sign, tight = ARITHMETIC[which]
        return lambda it: it.sum(sign, tight, bits)
    if which in (3, 4, 5, 6):
        name, sign = {3: ("DIV_S", ""), 4: ("DIV_U", "/"), 5: ("REM_S", ""), 6: ("REM_U", "%")}[which]
        return lambda it: it.divide(name, sign, bits)
    if which in (10, 11, 12):
        return lambda it: it.shift("<<" if which == 10 else ">>", which == 11, bits)
    return lambda it: it.rotate("ROTL" if which == 13 else "ROTR", bits)


def comparison(bits, sign, is_signed):
    return lambda it: it.compare(sign, is_signed, bits)


def real_constant(value):
    """A constant as C has it: in hexadecimal, or by its bits where it is no number or without a bound."""
    if not math.isfinite(value):
        return "FLOAT_OF(0x%xull)" % struct.unpack("<Q", struct.pack("<d", value))
    return "(%s)" % value.hex() if math.copysign(1, value) < 0 else value.hex()


# How each instruction is written.
HOW = {
    0x00: Function.do_unreachable, 0x01: lambda it: None, 0x02: Function.do_block, 0x03: Function.do_loop, 0x04: Function.do_if, 0x05: Function.do_else, 0x0B: Function.do_end,
    0x0C: Function.do_branch, 0x0D: Function.do_branch_if, 0x0E: Function.do_branch_table, 0x0F: Function.do_return, 0x10: Function.do_call, 0x1A: lambda it: it.stack.pop(),
    0x1B: Function.do_select, 0x20: Function.read_local, 0x21: Function.do_set, 0x22: Function.do_tee, 0x23: Function.read_global, 0x24: Function.set_global,
    0x41: lambda it, value: it.stack.append(constant(value, 32)), 0x42: lambda it, value: it.stack.append(constant(value, 64)),
    0x44: lambda it, value: it.push(real_constant(value), PRIMARY, "f64"), (0xFC, 10): lambda it, *_: it.move("COPY"), (0xFC, 11): lambda it, *_: it.move("FILL"),
    0x45: Function.is_zero, 0x50: Function.is_zero,
}
HOW.update({code: lambda it, aligned, offset, code=code: it.do_load(code, offset) for code in LOADS})
HOW.update({code: lambda it, aligned, offset, code=code: it.do_store(code, offset) for code in STORES})
HOW.update({first + k: comparison(bits, *how) for first, bits in ((0x46, 32), (0x51, 64)) for k, how in enumerate(COMPARISONS)})
HOW.update({first + k: binary(bits, k) for first, bits in ((0x6A, 32), (0x7C, 64)) for k in range(15)})
HOW.update({code: lambda it, how=how: it.cast(*how) for code, how in CASTS.items()})
HOW.update({code: lambda it, how=how: it.call_named(*how) for code, how in NAMED.items()})
HOW.update({0x61 + k: lambda it, sign=sign: it.real(sign, COMPARED, "u32") for k, sign in enumerate(("==", "!=", "<", ">", "<=", ">="))})
HOW.update({0xA0 + k: lambda it, sign=sign: it.real(sign, ADDED if sign in "+-" else MULTIPLIED, "f64") for k, sign in enumerate("+-*/")})

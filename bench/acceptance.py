"""How many right microprograms the verifier refuses, by shape: acceptance.py N [SEED [SHAPE [ways]]]. docs/model/ACCEPTANCE.md says what is measured.

N random programs of each shape are judged twice: by `onfiseq_verify`, and by going all their ways, each cycle asked of `onfiseq_push_all` on a channel
of its own. Nothing of the verifier is used for the second. LIBRARY names libonfiseq.so, else it is out/libonfiseq.so (tools/c_library.py builds it).
SHAPE is a part of a name as `loops2` is, all of them if it is empty. With `ways` the second judgement is compared with what the verifier says of each
way by itself. SMALLEST is of how many refused programs, for each code and word, the smallest one like it is looked for. ROWS names the table of the page,
docs/model/acceptance.tsv, to which a row for each shape goes; `tools/house.py --write` brings it into the page.
"""
import ctypes
import datetime
import os
import random
import re
import sys
from collections import Counter
from pathlib import Path

ROOT = Path(__file__).resolve().parents[1]
sys.path[:0] = [str(ROOT / "examples/python"), str(ROOT / "tools")]
import onfiseq
import shares

DATA, SPARE, PAGES, BLOCKS, PLANES = 512, 16, 8, 1024, 2
ROWS, BUFFER, BUDGET = 4096, 1_000_000, 4_000_000_000  # of the header: ample, and the rows are all there are
WAYS, STATES = 300, 20_000  # no more are gone
SEQUENCE_OPEN = 0x4603
OPENERS = {0x00: (0, 5), 0x05: (0, 2), 0x60: (2, 3), 0x80: (0, 5), 0x90: (0, 1), 0xEC: (0, 1)}  # first place of the addresses, how many
ANY_STATUS = (1 << 256) - 1  # a set of status bytes, a bit for each
MEETS = [sum(1 << byte for byte in range(256) if byte & mask) for mask in range(256)]
SHAPES = [(name, luns) for luns in (1, 2) for name in ("straight", "branches", "loops", "both")]


def checksum(data):
    """The checksum of a parameter page (docs/model/MODEL.md)."""
    register = 0x4F4E
    for byte in data:
        register ^= byte << 8
        for _ in range(8):
            register = (register << 1 ^ (0x8005 if register & 0x8000 else 0)) & 0xFFFF
    return register


def parameter_page(luns):
    page = bytearray(256)
    page[0:4] = b"ONFI"
    page[6] = (0b10 if luns > 1 else 0) | 0b1000  # operations of several LUNs and of several planes
    page[8] = 0b1010  # read cache, Read Status Enhanced
    page[80:84] = DATA.to_bytes(4, "little")
    page[84:86] = SPARE.to_bytes(2, "little")
    page[92:96] = PAGES.to_bytes(4, "little")
    page[96:100] = BLOCKS.to_bytes(4, "little")
    page[100], page[101], page[113] = luns, 0x23, 1
    page[254:256] = checksum(page[:254]).to_bytes(2, "little")
    return bytes(page)


# ---- programs: a word is (name, operands..); brs and jmp lead to the number of a word


def text_of(words):
    targets = {word[-1] for word in words if word[0] in ("brs", "jmp")}
    lines = ["rows %d" % ROWS, "buffer %d" % BUFFER, "budget %d" % BUDGET]
    for at, word in enumerate(words):
        if at in targets:
            lines.append("L%d:" % at)
        lines.append(line_of(word))
    return "\n".join(lines) + "\n"


def line_of(word):
    if word[0] == "cmd":
        return "cmd %02x" % word[1]
    if word[0] == "brs":
        return "brs %02x L%d" % word[1:]
    if word[0] == "jmp":
        return "jmp L%d" % word[1]
    return " ".join(map(str, word))


def closers_of(words):
    """For each `loop` its `next`; None where they don't pair or lie too deep, or where a branch leads back, into or out of one."""
    stack, partner, around = [], {}, []
    for at, word in enumerate(words):
        around.append(tuple(stack))
        if word[0] == "loop":
            stack.append(at)
        if word[0] == "next":
            if not stack:
                return None
            partner[stack.pop()] = at
    if stack or not words or words[-1][0] != "end" or max(map(len, around)) > 4:
        return None
    for at, word in enumerate(words):
        if word[0] in ("brs", "jmp") and not (at < word[-1] < len(words) and around[word[-1]] == around[at]):
            return None
    return partner


# ---- the oracle


class Broken(Exception):
    """What a way does that no program may."""


class State:
    """A way so far: the target's record, and the program's registers. `want` is the place of the next address and how many are left and come."""

    __slots__ = ("bus", "column", "plane", "index", "place", "polled", "want", "left", "come", "named", "cached", "status")

    def __init__(self, bus):
        self.bus, self.column, self.plane, self.index, self.place, self.polled = bus, 0, 0, 0, 0, False
        self.want, self.left, self.come, self.named, self.cached, self.status = 0, 0, 0, 0, 0, ANY_STATUS

    def copy(self, bus=None):
        new = State.__new__(State)
        for name in State.__slots__:
            setattr(new, name, getattr(self, name))
        if bus is not None:
            new.bus = bus
        return new

    def key(self):
        return tuple(getattr(self, name) for name in State.__slots__)


NUMBERS = {"u8": ctypes.c_uint8, "u16": ctypes.c_uint16, "u32": ctypes.c_uint32, "u64": ctypes.c_uint64, "usize": ctypes.c_uint64}


def inner_records(*sources):
    """The records that the library keeps to itself, by their names, as these sources of its crates have them, each behind those that it holds."""
    records = dict(NUMBERS)
    for source in sources:
        text = (Path(__file__).resolve().parents[1] / "crates" / source).read_text(encoding="utf-8")
        for name, body in re.findall(r"(?s)pub struct (Onfiseq\w+) \{\n(.*?)\n\}", text):
            fields = re.findall(r"(?m)^    pub (\w+): \[?(\w+)(?:; (\d+)\])?,$", body)
            records[name] = onfiseq.record(name, **{field: records[kind] * int(count) if count else records[kind] for field, kind, count in fields})
    return records


INNER = inner_records("target_record/src/geometry.rt", "target_record/src/record.rt", "bus_record/src/bus.rt")
Inside, Target = INNER["OnfiseqBus"], INNER["OnfiseqTarget"]
assert ctypes.sizeof(Inside) == ctypes.sizeof(onfiseq.Bus)


class Oracle:
    """Goes all ways of a program on LUN 0 of a target: both sides of each branch, and each turn of a loop. Its LUN becomes ready where a `wait` finds it busy
    and no sooner. Where the bus is free, on a target of two LUNs, nobody comes, or LUN 1 starts an erase, where it is ready, and is polled, or starts a read."""

    def __init__(self, lib, luns):
        self.lib, self.luns, self.page = lib, luns, parameter_page(luns)
        read = lib.onfiseq_read_page(self.page, len(self.page))
        assert read.fault == 0, read.fault
        self.work = onfiseq.Bus()
        code = lib.onfiseq_begin_sized(self.work, ctypes.sizeof(self.work), onfiseq.VERSION, read.geometry, 1)
        assert code == 0, code
        self.inside = Inside.from_buffer(self.work)
        self.target = ctypes.addressof(self.work) + Inside.targets.offset
        self.size = ctypes.sizeof(Target)
        self.lun = self.inside.targets[0].luns[0]
        self.fresh = ctypes.string_at(self.target, self.size)
        self.done, self.arrays = onfiseq.size(), {}
        self.keeps_status = False  # two branches after one poll see the same byte, and that of a `wait` says ready
        self.gets = {}  # of the last program: for each `get` what its LUN showed there, on all ways
        self.reset = onfiseq.Item(0, ord("C"), 0xFF, 0)
        self.memory = {}
        other = self.row_bytes(1, 0, 0)
        self.others_poll = self.items([("C", 0x78)] + [("A", byte) for byte in other])
        self.others_erase = self.items([("C", 0x60)] + [("A", byte) for byte in other] + [("C", 0xD0)])
        self.others_read = self.items([("C", 0x00), ("A", 0), ("A", 0)] + [("A", byte) for byte in other] + [("C", 0x30)])
        own = [("C", 0x78)] + [("A", byte) for byte in self.row_bytes(0, 0, 0)] if luns > 1 else [("C", 0x70)]
        self.poll, self.ready = self.items(own + [("O", 0)]), self.items([("R", 0)])

    @staticmethod
    def row_bytes(lun, index, plane):
        row = (lun * BLOCKS + index // PAGES * PLANES + plane) * PAGES + index % PAGES
        return [row & 255, row >> 8 & 255, row >> 16]

    def items(self, pairs):
        pairs = tuple(pairs)
        if pairs not in self.arrays:
            self.arrays[pairs] = ((onfiseq.Item * len(pairs))(*[onfiseq.Item(0, ord(kind), byte, 0) for kind, byte in pairs]), len(pairs))
        return self.arrays[pairs]

    def load(self, bus):
        ctypes.memmove(self.target, bus, self.size)

    def push(self, bus, items):
        """The target after some items; Broken with their rule where one isn't permitted."""
        known = self.memory.get((bus, id(items)))
        if known is None:
            self.load(bus)
            rule = self.lib.onfiseq_push_all(self.work, items[0], items[1], self.done)
            known = rule or ctypes.string_at(self.target, self.size)
            if len(self.memory) > 50_000:
                self.memory.clear()
            self.memory[bus, id(items)] = known
        if isinstance(known, int):
            raise Broken(onfiseq.name_of(known))
        return known

    def is_open(self, bus):
        self.load(bus)
        return self.lib.onfiseq_ask(self.work, self.reset) == SEQUENCE_OPEN

    def is_busy(self, bus, lun=0):
        self.load(bus)
        return self.inside.targets[0].luns[lun].busy

    def drives_alone(self, bus):
        self.load(bus)
        luns = self.inside.targets[0].luns
        return luns[0].latch != 0 and all(luns[lun].latch == 0 for lun in range(1, self.luns))

    def others(self, state):
        """What may stand where the bus was free: on one LUN nobody comes."""
        if self.luns == 1:
            return [state]
        bus = state.bus
        if not self.is_busy(bus, 1):
            bus = self.push(bus, self.others_erase)
        other = state.copy(self.push(bus, self.others_poll))
        other.left = 0
        return [state, other] + self.reading(state)

    def reading(self, state):
        """LUN 1 starts a read instead, if it is ready: its 00h turns what shows status to data."""
        if self.is_busy(state.bus, 1):
            return []
        other = state.copy(self.push(state.bus, self.others_read))
        other.left = 0
        return [other]

    def polled(self, state, ready):
        bus = state.bus
        if ready and self.is_busy(bus):
            bus = self.push(bus, self.ready)
        new = state.copy(self.push(bus, self.poll))
        new.polled, new.left = True, 0
        if self.keeps_status:
            new.status = MEETS[0x40] if ready else ANY_STATUS
        return new

    def need_driver(self, state):
        if self.luns > 1 and not self.drives_alone(state.bus):
            raise Broken("not the one driver")

    def command(self, state, byte):
        if byte in (0x70, 0x78) or (self.luns > 1 and byte in (0x90, 0xEC, 0xFF)):
            raise Broken("not for programs")
        if byte in (0x05, 0x31, 0x3F, 0xE0):
            self.need_driver(state)
        new = state.copy(self.push(state.bus, self.items([("C", byte)])))
        new.want, new.left = OPENERS.get(byte, (0, 2 if byte == 0x85 else 0))
        new.come = 0
        if byte == 0x30:
            new.cached = new.named
        if byte == 0x31:
            new.cached += 1
            if new.cached >= ROWS:
                raise Broken("past the rows")
        return new

    def address(self, state, first, count):
        identity = state.left == 1 and state.want == 0 and state.come == 0
        if state.left and first != state.want and not (identity and first == 1):
            raise Broken("begins elsewhere")
        if first + count > 2 and (state.index >= ROWS or state.plane >= PLANES):
            raise Broken("a row outside")
        row = self.row_bytes(0, state.index, state.plane) if first + count > 2 else [0, 0, 0]
        bytes5 = [state.column & 255, state.column >> 8 & 255] + row
        new = state.copy(self.push(state.bus, self.items([("A", byte) for byte in bytes5[first : first + count]])))
        new.want, new.left, new.come = first + count, state.left - count, state.come + count
        if first + count == 5:
            new.named = state.index
        return new

    def data(self, state, word):
        if state.place + word[1] > BUFFER:
            raise Broken("past the buffer")
        if word[0] == "get":
            self.need_driver(state)
        new = state.copy(self.push(state.bus, self.items([("O" if word[0] == "get" else "I", 0)] * word[1])))
        new.place += word[1]
        if word[0] == "get":
            new.left = 0
        return new

    def register(self, state, word):
        if state.left and state.come and word[0] != "seek":
            raise Broken("a register changes inside an address")
        new = state.copy()
        if word[0] == "rowadd":
            new.index += word[1]
        else:
            setattr(new, {"col": "column", "row": "index", "plane": "plane", "seek": "place"}[word[0]], word[1])
        return new

    def step(self, state, word):
        """What may stand after a word that leads on."""
        name = word[0]
        if name == "cmd":
            return [self.command(state, word[1])]
        if name == "addr":
            return [self.address(state, word[1], word[2])]
        if name in ("get", "put"):
            return [self.data(state, word)]
        if name in ("col", "row", "rowadd", "plane", "seek"):
            return [self.register(state, word)]
        if name == "stat":
            return [self.polled(state, False)]
        if self.is_open(state.bus):
            raise Broken("let go inside a sequence")
        if name == "yield":
            return self.others(state)
        again = self.others(self.polled(state, False)) if self.luns > 1 else []
        return [self.polled(before, True) for before in [state] + again]

    def end(self, state):
        self.load(state.bus)
        lun = self.lun
        if lun.busy or lun.queued or (lun.has_closer and lun.closer == 0x31) or self.lib.onfiseq_ask(self.work, self.reset) == SEQUENCE_OPEN:
            raise Broken("ends too soon")

    def run(self, states, words, seen=None):
        """What stands behind some words, on each way from some states. `seen` collects the states before each word. Broken where a way breaks."""
        partner = closers_of(words + [("end", 0)])
        if partner is None:
            raise Broken("shape")
        todo, known, last = [(0, (), state) for state in states], set(), []
        while todo:
            at, turns, state = todo.pop()
            key = (at, turns, state.key())
            if key in known:
                continue
            known.add(key)
            if len(known) > STATES:
                raise Broken("too many states")
            if at == len(words):
                last.append(state)
                continue
            if seen is not None:
                seen.setdefault(at, []).append(state)
            todo += self.leads_to(state, words, partner, at, turns)
        return last

    def judge(self, words, seen=None):
        """None where no way breaks, else what the first one found does."""
        self.gets = {}
        try:
            behind = self.run(self.others(State(self.fresh)), words, seen)
        except Broken as broken:
            return str(broken)
        return "shape" if behind or closers_of(words) is None else None

    def kind_of(self, state):
        """What stands in a state, numbers left out."""
        self.load(state.bus)
        target, lun = self.inside.targets[0], self.lun
        tail = (target.opener, state.want, state.left) if self.lib.onfiseq_ask(self.work, self.reset) == SEQUENCE_OPEN or state.left else None
        queue = tuple((row.kind, row.block % PLANES) for row in lun.queue[: lun.queued])
        closer = lun.closer if lun.has_closer and lun.closer in (0x30, 0x31) else 0
        shown = (lun.latch, self.luns > 1 and self.drives_alone(state.bus))
        column = lun.has_column and not lun.lost and (lun.outputs > 0 and "read" or "given")
        known = dict(tail=tail, shown=shown, register=lun.register, column=column, busy=lun.busy, queue=queue)
        return dict(known, plane=state.plane, closer=closer, polled=state.polled)

    def branched(self, state, word, at):
        """Both ways of a branch; those that the status allows, where it is kept."""
        if not self.keeps_status:
            return [(at + 1, state), (word[2], state)]
        ways = []
        for to, status in ((at + 1, state.status & ~MEETS[word[1]]), (word[2], state.status & MEETS[word[1]])):
            if status:
                ways.append((to, state.copy()))
                ways[-1][1].status = status
        return ways

    def judge_runs(self, words):
        """As `judge`, of those ways alone that some status bytes lead along."""
        self.keeps_status = True
        fault = self.judge(words)
        self.keeps_status = False
        return fault

    def leads_to(self, state, words, partner, at, turns):
        word = words[at]
        if word[0] == "end":
            self.end(state)
            return []
        if word[0] == "brs":
            if not state.polled:
                raise Broken("no status")
            return [(to, turns, after) for to, after in self.branched(state, word, at)]
        if word[0] == "jmp":
            return [(word[1], turns, state)]
        if word[0] == "loop":
            return [(at + 1, turns + ((at, word[1]),), state)]
        if word[0] == "next":
            head, left = turns[-1]
            return [(at + 1, turns[:-1], state)] if left == 1 else [(head + 1, turns[:-1] + ((head, left - 1),), state)]
        if word[0] == "get":
            self.load(state.bus)
            self.gets.setdefault(at, set()).add(self.lun.latch)
        return [(at + 1, turns, new) for new in self.step(state, word)]


def verdict(lib, page, words):
    """The code of the verifier's answer, empty where it accepts, and the word."""
    file = onfiseq.assemble(lib, text_of(words))
    answer = lib.onfiseq_verify(page, len(page), file, len(file))
    return ("%s%d" % (chr(answer.letter), answer.number), answer.at) if answer.letter else ("", 0)


def ways_of(words):
    """Each way of a program as words without branches and loops; None where there are too many."""
    partner, ways, todo = closers_of(words), set(), [(0, (), ())]
    while todo:
        at, turns, way = todo.pop()
        word = words[at]
        if word[0] == "end":
            ways.add(way + (word,))
        elif word[0] == "brs":
            todo += [(at + 1, turns, way), (word[2], turns, way)]
        elif word[0] == "jmp":
            todo.append((word[1], turns, way))
        elif word[0] == "loop":
            todo.append((at + 1, turns + ((at, word[1]),), way))
        elif word[0] == "next":
            head, left = turns[-1]
            todo.append((at + 1, turns[:-1], way) if left == 1 else (head + 1, turns[:-1] + ((head, left - 1),), way))
        else:
            todo.append((at + 1, turns, way + (word,)))
        if len(ways) + len(todo) > WAYS:
            return None
    return ways


def refused_ways(lib, page, words):
    """The codes for which ways by themselves are refused; None where there are too many ways."""
    ways = ways_of(words)
    return None if ways is None else Counter(filter(None, (verdict(lib, page, list(way))[0] for way in ways)))


# ---- random programs


class Maker:
    """Makes programs of a shape: sequences of the profile, most of them whole, cut and joined at random, with a little damage."""

    def __init__(self, rng, shape, oracle):
        self.rng, self.luns, self.oracle = rng, oracle.luns, oracle
        self.branches, self.loops = shape in ("branches", "both"), shape in ("loops", "both")

    def some(self, chance, words):
        return words if self.rng.random() < chance else []

    def registers(self):
        rng = self.rng
        return (
            self.some(0.25, [("col", rng.choice((0, 0, 5, 32, 500, 520, 527)))])
            + self.some(0.15, [rng.choice((("row", rng.randrange(9)), ("rowadd", rng.randrange(1, 5))))])
            + self.some(0.1, [("plane", rng.randrange(2))])
            + self.some(0.05, [("seek", rng.randrange(9))])
        )

    def full_address(self):
        return [("addr", 0, 2), ("addr", 2, 3)] if self.rng.random() < 0.15 else [("addr", 0, 5)]

    def waits(self, chance=0.96):
        return self.some(0.05, [("stat",)]) + self.some(0.06, [("yield",)]) + self.some(chance, [("wait",)])

    def length(self):
        return self.rng.choice((1, 1, 2, 4, 4, 8, 8, 20, 200, 528))

    def read(self):
        tail = self.waits() + [("cmd", 0x00)] + self.some(0.9, [("get", self.length())])
        return self.registers() + [("cmd", 0x00)] + self.full_address() + [("cmd", 0x30)] + tail

    def change_column(self):
        return [("col", self.rng.choice((0, 3, 100, 500)))] + [("cmd", 0x05), ("addr", 0, 2), ("cmd", 0xE0), ("get", self.length())]

    def get_status(self):
        return [self.rng.choice((("stat",), ("wait",))), ("get", self.rng.randrange(1, 4))]

    def show_data(self):
        return [("cmd", 0x00), ("get", self.length())]

    def more(self):
        return [("get", self.rng.randrange(1, 4))]

    def erase(self):
        return self.registers() + [("cmd", 0x60), ("addr", 2, 3), ("cmd", 0xD0)] + self.waits()

    def program(self):
        again = [("col", self.rng.randrange(0, 500)), ("cmd", 0x85), ("addr", 0, 2), ("put", self.rng.choice((1, 8)))]
        put = self.some(0.9, [("put", self.rng.choice((1, 8, 28)))]) + self.some(0.15, again)
        return self.registers() + [("cmd", 0x80)] + self.full_address() + put + [("cmd", 0x10)] + self.waits()

    def planes(self):
        first, second = self.rng.choice(((0, 1), (1, 0), (0, 1), (0, 0)))
        if self.rng.random() < 0.5:
            one, closers = [("cmd", 0x60), ("addr", 2, 3)], (0xD1, 0xD0)
        else:
            one, closers = [("cmd", 0x80), ("addr", 0, 5), ("put", 4)], (0x11, 0x10)
        words = [("plane", first)] + one + [("cmd", closers[0])] + self.waits()
        return words + [("plane", second)] + one + [("cmd", closers[1])] + self.waits() + [("plane", 0)]

    def identifier(self):
        return [("col", 32), ("cmd", 0x90), ("addr", 0, 1), ("get", self.rng.choice((1, 2, 4)))] if self.luns == 1 else self.read()

    def parameters(self):
        if self.luns > 1:
            return self.read()
        return [("col", 0), ("cmd", 0xEC), ("addr", 0, 1)] + self.waits() + [("cmd", 0x00), ("get", self.rng.choice((4, 8, 256, 768)))]

    def cache(self):
        words = self.some(0.3, [("row", self.rng.randrange(4))]) + [("col", 0), ("cmd", 0x00), ("addr", 0, 5), ("cmd", 0x30), ("wait",)]
        for _ in range(self.rng.randrange(0, 3)):
            words += [("cmd", 0x31), ("wait",), ("cmd", 0x00)] + self.some(0.8, [("get", self.length())])
            words += self.some(0.6, [("wait",)])
        return words + self.some(0.95, [("cmd", 0x31), ("wait",)]) + [("cmd", 0x3F)] + self.waits() + [("cmd", 0x00), ("get", self.length())]

    def reset(self):
        return [("cmd", 0xFF)] + self.waits() if self.luns == 1 else [("yield",)]

    def small(self):
        rng = self.rng
        return [rng.choice((("stat",), ("wait",), ("wait",), ("yield",), ("rowadd", rng.randrange(1, 4)), ("seek", 0)))]

    def sequence(self):
        reads = (self.read, self.read, self.change_column, self.get_status, self.show_data)
        works = (self.erase, self.erase, self.program, self.program, self.planes, self.identifier, self.parameters, self.cache, self.reset)
        return self.rng.choice(reads + works + (self.small, self.small, self.more))()

    def sequences(self, least, most):
        return [word for _ in range(self.rng.randint(least, most)) for word in self.sequence()]

    def mask(self):
        return self.rng.choice((0x01, 0x01, 0x40, 0x20, 0xFF))

    # Blocks are lists of words and of nested parts: ("either", mask, block, block) and ("turns", count, block).

    def side(self, depth, end):
        return self.block(depth + 1, self.rng.choice((0, 1, 1, 2))) + end

    def either(self, depth):
        """A branch whose ways meet, some between two words of a sequence that each has begun, or whose one way ends the program."""
        mask, kind = self.mask(), self.rng.random()
        if kind < 0.15:
            return [("either", mask, [], [("wait",), ("end", 1)])]
        if kind < 0.5:
            return [("either", mask, self.side(depth, []), [])]
        if kind < 0.75:
            return [("either", mask, self.side(depth, []), self.side(depth, []))]
        one = self.sequence()
        cut = self.rng.randrange(len(one) + 1)
        two = list(one[:cut]) if self.rng.random() < 0.5 else self.same_place(one, cut)
        return [("either", mask, self.side(depth, one[:cut]), self.side(depth, two))] + one[cut:]

    def same_place(self, one, cut):
        """The beginning of another sequence, up to the same word as the one that was cut, if some try finds one."""
        for _ in range(20):
            other = self.sequence()
            places = [at for at, word in enumerate(other) if cut and word == one[cut - 1]]
            if places:
                return other[: self.rng.choice(places) + 1]
        return list(one[:cut])

    def turns(self, depth):
        """A loop; some begin and end between two words of a sequence."""
        count, body = self.rng.randint(1, 3), self.block(depth + 1, self.rng.choice((1, 1, 2)))
        if self.rng.random() < 0.7:
            return [("turns", count, body)]
        one = self.sequence()
        cut, back = sorted((self.rng.randrange(len(one) + 1), self.rng.randrange(len(one) + 1)))
        return one[:cut] + [("turns", count, one[cut:back] + self.some(0.3, body))] + one[back:]

    def block(self, depth, parts):
        block = []
        for _ in range(parts):
            kind = self.rng.random()
            if depth < 3 and self.branches and kind < 0.35:
                block += self.some(0.6, [("stat",)]) + self.either(depth)
            elif depth < 3 and self.loops and kind > 0.65:
                block += self.turns(depth)
            else:
                block += self.sequence()
        return block

    def flat(self, block, words):
        for part in block:
            if part[0] == "either":
                branch = len(words)
                words.append(None)
                self.flat(part[2], words)
                if part[3]:
                    words.append(None)
                    words[branch] = ("brs", part[1], len(words))
                    over = len(words) - 1
                    self.flat(part[3], words)
                    words[over] = ("jmp", len(words))
                else:
                    words[branch] = ("brs", part[1], len(words))
            elif part[0] == "turns":
                words.append(("loop", part[1]))
                self.flat(part[2], words)
                words.append(("next",))
            else:
                words.append(part)
        return words

    def damaged(self, words):
        if len(words) < 2:
            return words
        kind, at = self.rng.random(), self.rng.randrange(len(words) - 1)
        if words[at][0] in ("loop", "next", "brs", "jmp", "end"):
            return words
        if kind < 0.5:
            return without(words, [at])
        if kind < 0.8:
            return inserted(words, at, self.rng.choice((("wait",), ("stat",), ("yield",), ("cmd", 0x00), ("get", 1), words[at], ("col", 0))))
        other = self.rng.randrange(len(words) - 1)
        return words[:at] + [words[other] if words[other][0] not in ("loop", "next", "brs", "jmp", "end") else words[at]] + words[at + 1 :]

    def parts(self, most):
        """Parts one after the other. One that breaks on some way of those before it is thrown away nine times in ten."""
        words, states = [], self.oracle.others(State(self.oracle.fresh))
        if self.rng.random() < (0.7 if self.branches else 0.2):
            words, states = [("stat",)], self.oracle.run(states, [("stat",)])
        for _ in range(most):
            part = self.flat(self.block(0, 1), [])
            try:
                behind = self.oracle.run(states, part)
                if len(behind) > 200:
                    break
                states = behind
            except Broken:
                if self.rng.random() < 0.9:
                    continue
            words += [moved(word, lambda to: to + len(words)) for word in part]
        return words

    def program_of_shape(self):
        while True:
            words = self.parts(self.rng.randint(2, 8))
            words += self.some(0.8, [("wait",)]) + [("end", 0)]
            names = {word[0] for word in words}
            if len(words) <= 60 and (not self.branches or "brs" in names) and (not self.loops or "loop" in names):
                break
        while self.rng.random() < 0.2:
            words = self.damaged(words)
        return words


def moved(word, move):
    return word[:-1] + (move(word[-1]),) if word[0] in ("brs", "jmp") else word


def without(words, gone):
    return [moved(word, lambda to: to - sum(1 for g in gone if g < to)) for at, word in enumerate(words) if at not in gone]


def inserted(words, at, new):
    words = [moved(word, lambda to: to + 1 if to > at else to) for word in words]
    return words[:at] + [new] + words[at:]


# ---- what would mend


def kept_apart(words, edge):
    """The same ways, where what comes by one branch or jump has a copy of its own of all that follows; None where that lies in a loop."""
    to = words[edge][-1]
    if depth_of(words, to):
        return None
    shift = len(words) - to
    copy = [moved(word, lambda place: place + shift) for word in words[to:]]
    return words[:edge] + [words[edge][:-1] + (len(words),)] + words[edge + 1 :] + copy


def peeled(words, head):
    """The same ways, where the first turn of a loop stands in front of it."""
    close = closers_of(words)[head]
    body = [moved(word, lambda place: place - 1) for word in words[head + 1 : close]]
    if words[head][1] == 1:
        rest, gone = [], 2
    else:
        rest, gone = [("loop", words[head][1] - 1)] + [moved(word, lambda place: place + len(body)) for word in words[head + 1 : close]] + [("next",)], 0
    grown = len(body) + len(rest) - (close + 1 - head)
    around = lambda word: moved(word, lambda place: place if place <= head else place + grown)
    return list(map(around, words[:head])) + body + rest + list(map(around, words[close + 1 :]))


def depth_of(words, place):
    depth = 0
    for word in words[:place]:
        depth += {"loop": 1, "next": -1}.get(word[0], 0)
    return depth


def mends(words):
    """The same program with one state more: by one branch that is kept apart, or one turn that is peeled."""
    for at, word in enumerate(words):
        if word[0] in ("brs", "jmp"):
            apart = kept_apart(words, at)
            if apart is not None:
                yield "branch", apart
        if word[0] == "loop":
            yield "turn", peeled(words, at)


def mended_by(lib, page, words):
    """What makes the verifier accept it: one such step, two, or neither."""
    steps = list(mends(words))
    for name, again in steps:
        if not verdict(lib, page, again)[0]:
            return "one " + name
    for name, once in steps:
        for second, again in mends(once):
            if len(again) <= 1024 and not verdict(lib, page, again)[0]:
                return "two, " + " and ".join(sorted((name, second)))
    return "more"


# ---- smallest programs


def smaller(words):
    """Programs that are a little smaller."""
    partner = closers_of(words)
    for size in (8, 4, 3, 2, 1):
        for at in range(len(words) - size + 1):
            yield without(words, list(range(at, at + size)))
    for head, close in partner.items():
        yield without(words, [head, close])
        if words[head][1] > 2:
            yield words[:head] + [("loop", 2)] + words[head + 1 :]
    for at, word in enumerate(words):
        if word[0] in ("get", "put") and word[1] > 1:
            yield words[:at] + [(word[0], 1)] + words[at + 1 :]
        if word[0] == "brs" and word[1] != 1:
            yield words[:at] + [("brs", 1, word[2])] + words[at + 1 :]
        if word[0] in ("col", "row", "plane", "seek") and word[1] > 0:
            yield words[:at] + [(word[0], 0)] + words[at + 1 :]
    for at, word in enumerate(words):
        for pair in range(at + 1, len(words)):
            yield without(words, [at, pair])


def smallest(words, keeps):
    went = True
    while went:
        went = False
        for fewer in smaller(words):
            if fewer and closers_of(fewer) is not None and keeps(fewer):
                words, went = fewer, True
                break
    return words


# ---- the measurement


class Tally:
    def __init__(self):
        self.programs = self.right = self.accepted = 0
        self.refused, self.by_itself, self.broken, self.wrong = [], Counter(), Counter(), []
        self.codes, self.kinds, self.differ, self.words, self.mended = Counter(), Counter(), Counter(), Counter(), Counter()
        self.no_run, self.clear_right, self.clear_refused = [], 0, Counter()


def measure(lib, shape, luns, count, seed):
    rng = random.Random("%s %s %s" % (seed, shape, luns))
    oracle, tally, seen = Oracle(lib, luns), Tally(), set()
    maker = Maker(rng, shape, oracle)
    while tally.programs < count:
        words = maker.program_of_shape()
        if tuple(words) in seen:
            continue
        seen.add(tuple(words))
        fault = oracle.judge(words)
        is_clear = all(len(shown) == 1 for shown in oracle.gets.values())
        if fault in ("shape", "too many states"):
            tally.broken[fault] += 1
            continue
        tally.programs += 1
        code, at = verdict(lib, oracle.page, words)
        tally.accepted += not code
        tally.right += fault is None
        tally.clear_right += fault is None and is_clear
        if fault is not None:
            tally.broken[fault] += 1
            if oracle.judge_runs(words) is None:
                tally.no_run.append((code, words))
            if not code:
                tally.wrong.append((fault, words))
        elif code:
            tally.codes[code] += 1
            tally.clear_refused[code + " " + name_of(words[at])] += is_clear
            tally.refused.append((code, at, words))
    return oracle, tally


def explain(lib, oracle, tally, most):
    """Of each refused right program whether its ways are refused by themselves; of some of the others, for each code and word, the smallest program like it."""
    joined, forms, tried = 0, Counter(), Counter()
    for code, at, words in tally.refused:
        codes = refused_ways(lib, oracle.page, words)
        if codes is None:
            tally.by_itself["too many ways"] += 1
        elif codes:
            tally.by_itself[" ".join(sorted(codes))] += 1
        else:
            joined += 1
            kind = code + " " + name_of(words[at])
            tally.words[kind] += 1
            tally.mended[mended_by(lib, oracle.page, words)] += 1
            count_kinds(oracle, tally, words)
            tried[kind] += 1
            if tried[kind] <= most:
                forms[tuple(smallest(words, lambda w: keeps_refused(lib, oracle, w, code)))] += 1
    return joined, forms


def name_of(word):
    return "%s %02x" % word if word[0] == "cmd" else word[0]


def count_kinds(oracle, tally, words):
    """How many states that differ in more than numbers stand at a place at most, and in what they differ there."""
    seen, most, differ = {}, 0, ()
    oracle.judge(words, seen)
    for states in seen.values():
        kinds = [oracle.kind_of(state) for state in states]
        different = len({tuple(kind.values()) for kind in kinds})
        if different > most:
            most, differ = different, tuple(name for name in kinds[0] if len({kind[name] for kind in kinds}) > 1)
    tally.kinds[most] += 1
    tally.differ[" ".join(differ)] += 1


def keeps_refused(lib, oracle, words, code):
    return verdict(lib, oracle.page, words)[0] == code and oracle.judge(words) is None and refused_ways(lib, oracle.page, words) == Counter()


def report(lib, shape, luns, oracle, tally, most):
    share = 100 * len(tally.refused) / max(tally.right, 1)
    joined, forms = explain(lib, oracle, tally, most)
    print("%s, %d LUN: %d programs, %d right, %d accepted, %d right ones refused (%.2f %%): %s" % (
        shape, luns, tally.programs, tally.right, tally.accepted, len(tally.refused), share, dict(tally.codes.most_common())))
    print("    of these %d whose every way is accepted (%.2f %%); with a way that is refused by itself: %s" % (
        joined, 100 * joined / max(tally.right, 1), dict(tally.by_itself)))
    clear = sum(tally.clear_refused.values())
    print("    right ones of which each get reads either the status or data, on all ways: %d, refused %d (%.2f %%): %s" % (
        tally.clear_right, clear, 100 * clear / max(tally.clear_right, 1), {kind: times for kind, times in tally.clear_refused.items() if times}))
    print("    by code and word: %s" % dict(tally.words.most_common()))
    print("    accepted where states are kept apart in so many places: %s" % dict(tally.mended.most_common()))
    print("    states that differ in more than numbers, at most at a place: %s" % dict(sorted(tally.kinds.items())))
    print("    in what they differ there: %s" % dict(tally.differ.most_common(6)))
    print("    broken: %s" % dict(tally.broken.most_common()))
    print("    broken on ways that no status leads along: %d; of these accepted: %d" % (len(tally.no_run), sum(1 for code, words in tally.no_run if not code)))
    for fault, words in tally.wrong[:5]:
        print("    ACCEPTED AND BROKEN, %s: %s" % (fault, "; ".join(map(line_of, words))))
    for words, times in sorted(forms.items(), key=lambda form: (-form[1], len(form[0])))[:24]:
        code, at = verdict(lib, oracle.page, list(words))
        print("    %d times, %s at %d: %s" % (times, code, at, "; ".join("%d: %s" % (n, line_of(word)) for n, word in enumerate(words))))
    sys.stdout.flush()


def compare(lib, shape, luns, count, seed):
    """The oracle beside the verifier's answers to each way by itself, which has no branches and loops. Programs that branch before a poll are left out."""
    rng, oracle = random.Random("%s %s %s" % (seed, shape, luns)), Oracle(lib, luns)
    maker, compared, right, different = Maker(rng, shape, oracle), 0, 0, []
    for _ in range(count):
        words = maker.program_of_shape()
        fault = oracle.judge(words)
        ways = None if fault in ("shape", "too many states", "no status") else ways_of(words)
        if ways is not None:
            accepted = not any(verdict(lib, oracle.page, list(way))[0] for way in ways)
            compared, right = compared + 1, right + accepted
            if accepted != (fault is None):
                different.append((fault, words))
    print("%s, %d LUN: %d programs compared with their ways, %d right, %d differ" % (shape, luns, compared, right, len(different)))
    for fault, words in different[:5]:
        print("    %s: %s" % (fault, "; ".join(map(line_of, words))))


def row_of(shape, luns, tally):
    """A row of the page's table."""
    clear = (tally.clear_right, sum(tally.clear_refused.values()))
    return shares.Share(shape, luns, tally.programs, tally.right, len(tally.refused), *clear, str(datetime.date.today()), shares.sum_of(shares.VERIFIER))


def main():
    count, seed = int(sys.argv[1]), sys.argv[2] if len(sys.argv) > 2 else "1"
    only = sys.argv[3] if len(sys.argv) > 3 else ""
    lib = onfiseq.load(os.environ.get("LIBRARY", "out/libonfiseq.so"))
    for shape, luns in SHAPES:
        if only not in "%s%d" % (shape, luns):
            continue
        if sys.argv[4:] == ["ways"]:
            compare(lib, shape, luns, count, seed)
        else:
            oracle, tally = measure(lib, shape, luns, count, seed)
            report(lib, shape, luns, oracle, tally, int(os.environ.get("SMALLEST", "8")))
            if "ROWS" in os.environ:
                shares.keep(Path(os.environ["ROWS"]), row_of(shape, luns, tally))


if __name__ == "__main__":
    main()

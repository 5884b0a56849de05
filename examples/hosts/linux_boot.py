"""Makes the recording of a Linux host on one small chip: what its raw NAND layer does at boot, and what UBI does then.

    python3 examples/hosts/linux_boot.py [--polls] [--bug NUMBER] OUT.vcd OUT.trace

OUT.vcd is what a logic analyzer sees: CE#, CLE, ALE, WE#, RE#, DQ and R/B#. OUT.trace has each cycle of it, with a ready where R/B# rises after work of
the profile. The sequences are those of drivers/mtd/nand/raw/nand_base.c and nand_onfi.c (reset, Read ID at 00 and 20, parameter page, unique identifier, Set and Get
Features for the timing mode, a scan for bad blocks by the first spare byte), and of drivers/mtd/ubi (attach by the headers of each block, erase, program, read back, a
block whose erase fails). The chip is that of examples/small_chip: 8 blocks of 4 pages of 512 + 16 bytes.

--polls makes a host without R/B#, which asks for the status until it shows RDY; OUT.trace has a ready before the status that shows it.
--bug N puts one mistake of a host into it, 1 to 20, and prints the item at which it is to be told.
"""
import sys

PAGE, SPARE, PAGES, BLOCKS = 512, 16, 4, 8
# Times in nanoseconds: a cycle, and how long R/B# is low for each kind of work.
CYCLE = 50
RESET, READ, PROGRAM, ERASE, FEATURE = 5_000, 25_000, 200_000, 700_000, 1_000


class Host:
    """A host, its chip and the analyzer on the bus between them."""

    def __init__(self, polls):
        self.polls = polls
        self.time = 1_000
        self.events = []
        self.items = []
        self.ready_at = 0
        self.known = False
        self.failed = False
        self.pages = {}

    # ---- the analyzer

    def set(self, time, line, value):
        self.events.append((time, len(self.events), line, value))

    def cycle(self, kind, byte):
        """One cycle on the bus."""
        start = self.time
        strobe = "re" if kind == "O" else "we"
        self.set(start, "cle", int(kind == "C"))
        self.set(start, "ale", int(kind == "A"))
        self.set(start + 5, "dq", byte)
        self.set(start + 10, strobe, 0)
        self.set(start + 30, strobe, 1)
        self.items.append((start + 30, f"0 {kind} {byte:02x}"))
        self.time = start + CYCLE
        return len(self.items) - 1

    def command(self, byte):
        return self.cycle("C", byte)

    def addresses(self, *bytes_):
        for byte in bytes_:
            last = self.cycle("A", byte)
        return last

    def outputs(self, data):
        for byte in data:
            self.cycle("O", byte)

    def inputs(self, data):
        for byte in data:
            self.cycle("I", byte)

    # ---- the chip

    def work(self, nanoseconds, known=True, failed=False):
        """R/B# falls after the last cycle, and rises so much later."""
        fall = self.time - 10
        self.ready_at = fall + nanoseconds
        self.known, self.failed = known, failed
        if self.polls:
            return
        self.set(fall, "rb", 0)
        self.set(self.ready_at, "rb", 1)
        if known:
            self.items.append((self.ready_at, f"0 R 0 {int(failed)}"))

    def ask(self):
        """The status, as the chip has it now."""
        self.command(0x70)
        ready = self.ready_at <= self.time
        if ready and self.known and self.polls:
            self.items.append((self.time + 29, f"0 R 0 {int(self.failed)}"))
            self.known = False
        return ready, self.cycle("O", (0xE0 if ready else 0x80) | (self.failed and ready))

    def wait(self, data=False):
        """The host waits by R/B#, or asks for the status until it shows RDY; before data it goes back by 00."""
        if not self.polls:
            self.time = max(self.time, self.ready_at + 100)
            return
        while not self.ask()[0]:
            self.time += 20_000
        if data:
            self.command(0x00)

    # ---- nand_base.c

    def reset(self):
        self.command(0xFF)
        self.work(RESET)
        self.wait()

    def read_id(self, address, data):
        self.command(0x90)
        self.addresses(address)
        self.outputs(data)

    def parameter_page(self, page):
        self.command(0xEC)
        self.addresses(0x00)
        self.work(READ)
        self.wait(data=True)
        self.outputs(page)

    def unique_id(self):
        self.command(0xED)
        self.addresses(0x00)
        self.work(READ, known=False)
        self.wait(data=True)
        self.outputs(bytes(range(32)))

    def set_features(self, address, data):
        self.command(0xEF)
        self.addresses(address)
        self.inputs(data)
        self.work(FEATURE, known=False)
        self.wait()

    def get_features(self, address, data):
        self.command(0xEE)
        self.addresses(address)
        self.work(FEATURE, known=False)
        self.wait(data=True)
        self.outputs(data)

    def row(self, block, page):
        return (block * PAGES + page) % 256, (block * PAGES + page) // 256, 0

    def start_read(self, block, page, column):
        self.command(0x00)
        self.addresses(column % 256, column // 256, *self.row(block, page))
        self.command(0x30)
        self.work(READ)

    def read(self, block, page, column, count):
        self.start_read(block, page, column)
        self.wait(data=True)
        data = self.pages.get((block, page), b"\xff" * (PAGE + SPARE))
        self.outputs(data[column : column + count])

    def change_column(self, block, page, column, count):
        self.command(0x05)
        self.addresses(column % 256, column // 256)
        self.command(0xE0)
        data = self.pages.get((block, page), b"\xff" * (PAGE + SPARE))
        self.outputs(data[column : column + count])

    def status(self):
        if not self.polls:
            self.command(0x70)
            self.outputs([0xE1 if self.failed else 0xE0])

    def look(self):
        """A host that asks for the status once, and goes on whatever it says."""
        if self.polls:
            self.ask()

    def erase(self, block, failed=False):
        self.command(0x60)
        self.addresses(*self.row(block, 0))
        self.command(0xD0)
        self.work(ERASE, failed=failed)
        self.wait()
        self.status()
        if not failed:
            for page in range(PAGES):
                self.pages.pop((block, page), None)

    def start_program(self, block, page, column, data):
        self.command(0x80)
        self.addresses(column % 256, column // 256, *self.row(block, page))
        self.inputs(data)

    def program(self, block, page, data, spare=b""):
        self.start_program(block, page, 0, data)
        if spare:
            self.command(0x85)
            self.addresses(PAGE % 256, PAGE // 256)
            self.inputs(spare)
        self.command(0x10)
        self.work(PROGRAM)
        self.wait()
        self.status()
        whole = bytes(data) + b"\xff" * (PAGE - len(data)) + bytes(spare)
        self.pages[(block, page)] = whole + b"\xff" * (PAGE + SPARE - len(whole))


# ---- mistakes of a host, each with the item at which it is told




def bug_of(number, h):
    """Does mistake N; answers the number of its item."""
    row = h.row(5, 0)
    if number in (1, 2):  # another erase, or a program, while an erase goes on
        h.command(0x60), h.addresses(*row), h.command(0xD0), h.work(ERASE)
        h.look()
        at = h.command(0x60 if number == 1 else 0x80)
        h.wait()
        return at
    if number == 3:  # a read while a program goes on
        h.start_program(5, 1, 0, b"early"), h.command(0x10), h.work(PROGRAM)
        h.look()
        at = h.command(0x00)
        h.wait()
        return at
    if number == 4:  # data before the read is done
        h.start_read(5, 0, 0)
        h.look()
        at = h.command(0x00) if h.polls else h.cycle("O", 0xFF)
        h.wait()
        return at
    if number == 5:  # a block that isn't there
        h.command(0x60), h.addresses(0, 0)
        return h.addresses(1)
    if number == 6:  # an address too few
        h.command(0x60), h.addresses(*row[:2])
        return h.command(0xD0)
    if number == 7:  # an address too many
        h.command(0x60), h.addresses(*row)
        return h.addresses(0)
    if number == 8:  # a program that isn't ended before the next sequence
        h.start_program(5, 2, 0, b"open")
        return h.command(0x70)
    if number == 9:  # data past the page
        h.start_program(5, 2, PAGE + SPARE - 1, b"x")
        return h.cycle("I", 0)
    if number == 10:  # a column past the page
        h.command(0x00), h.addresses((PAGE + SPARE) % 256)
        return h.addresses((PAGE + SPARE) // 256)
    if number == 11:  # reading on past the page
        h.read(5, 0, PAGE, SPARE)
        return h.cycle("O", 0xFF)
    if number == 12:  # data after a status without 00 and a column
        h.read(5, 0, 0, 4)
        h.command(0x70), h.cycle("O", 0xE0)
        h.command(0x00)
        return h.cycle("O", 0xFF)
    if number == 13:  # a change of the column without data
        h.erase(5)
        return h.command(0x05)
    if number == 14:  # the confirm of another sequence
        h.command(0x60), h.addresses(*row)
        return h.command(0x30)
    if number == 15:  # an input in an erase
        h.command(0x60), h.addresses(*row)
        return h.cycle("I", 0)
    if number == 16:  # an address after the data of a program
        h.start_program(5, 2, 0, b"ab")
        return h.addresses(1)
    if number == 17:  # a reset in the midst of a program
        h.start_program(5, 2, 0, b"ab")
        return h.command(0xFF)
    if number == 18:  # the identifier while an erase goes on
        h.command(0x60), h.addresses(*row), h.command(0xD0), h.work(ERASE)
        h.look()
        at = h.command(0x90)
        h.wait()
        return at
    if number == 19:  # data after a reset
        h.command(0xFF), h.work(RESET)
        at = h.cycle("O", 0)
        h.wait()
        return at
    # 20: a command that only devices with a cache have
    h.read(5, 0, 0, 4)
    return h.command(0x31)


# ---- a boot, and UBI


def boot(h, page):
    h.reset()
    h.read_id(0x00, b"\x2c\xda")
    h.read_id(0x00, b"\x2c\xda\x90\x95\x06\x00\x00\x00")
    h.read_id(0x20, b"ONFI")
    h.parameter_page(page * 3)
    h.unique_id()
    h.set_features(0x01, b"\x05\0\0\0")
    h.get_features(0x01, b"\x05\0\0\0")
    for block in range(BLOCKS):
        for number in (0, 1):
            h.read(block, number, PAGE, SPARE)


def attach(h):
    for block in range(BLOCKS):
        h.read(block, 0, 0, 64)
        h.read(block, 1, 0, 64)


def use(h):
    for block in (2, 3):
        h.erase(block)
        h.program(block, 0, b"UBI#" + bytes(60))
        h.program(block, 1, b"UBI!" + bytes(60), b"\xff" * 4)
        h.program(block, 2, bytes(range(128)), bytes(SPARE))
        h.read(block, 2, 0, 32)
        h.change_column(block, 2, PAGE, SPARE)
    h.erase(6, failed=True)
    h.erase(4)
    h.program(4, 0, b"UBI#" + bytes(60))
    h.read(4, 0, 0, 64)


# ---- the dump

LINES = {"ce": "!", "cle": '"', "ale": "#", "we": "$", "re": "%", "dq": "&", "rb": "'"}
FIRST = {"ce": 1, "cle": 0, "ale": 0, "we": 1, "re": 1, "dq": 0, "rb": 1}


def change_of(line, value):
    return f"b{value:08b} {LINES[line]}\n" if line == "dq" else f"{value}{LINES[line]}\n"


def dump_of(events):
    names = {"ce": "CE_n", "cle": "CLE", "ale": "ALE", "we": "WE_n", "re": "RE_n", "rb": "R_B_n"}
    out = ["$timescale 1ns $end\n$scope module bus $end\n"]
    for line, code in LINES.items():
        out.append(f"$var wire 8 {code} DQ [7:0] $end\n" if line == "dq" else f"$var wire 1 {code} {names[line]} $end\n")
    out.append("$upscope $end\n$enddefinitions $end\n#0\n$dumpvars\n")
    out += [change_of(line, value) for line, value in FIRST.items()]
    out.append("$end\n")
    now, levels = 0, dict(FIRST)
    for time, _, line, value in sorted(events):
        if levels[line] == value:
            continue
        levels[line] = value
        if time != now:
            out.append(f"#{time}\n")
            now = time
        out.append(change_of(line, value))
    return "".join(out)


def main(words):
    bug, polls = None, False
    if words and words[0] == "--polls":
        polls, words = True, words[1:]
    if words and words[0] == "--bug":
        bug, words = int(words[1]), words[2:]
    vcd, trace = words
    page = open(f"{sys.path[0]}/../small_chip/chip.page", "rb").read(256)
    h = Host(polls)
    h.set(500, "ce", 0)
    boot(h, page)
    attach(h)
    if bug is not None:
        at = h.items[bug_of(bug, h)]
    use(h)
    # A rise of R/B# stands at its time among the cycles.
    h.items.sort(key=lambda item: item[0])
    if bug is not None:
        print(h.items.index(at))
    open(vcd, "w").write(dump_of(h.events))
    open(trace, "w").write("".join(text + "\n" for _, text in h.items))


main(sys.argv[1:])

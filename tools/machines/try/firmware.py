"""Builds the firmwares of examples/cortex_m for simulated boards, runs them under qemu-system-arm, and compares what they print; their scripts say how much they may take.

    python3 tools/machines/try/firmware.py           over release/onfiseq.c alone, or over the C file that SOURCE names
    python3 tools/machines/try/firmware.py OUT       over the libraries of `python3 tools/machines OUT`, in OUT/cortex-m4 and OUT/cortex-m0plus

at the root. It tells the flash, the RAM with all stacks, what of it are records, and the instructions of a push and of a step; tools/figures.py keeps those numbers.
"""
import os
import re
import shutil
import subprocess
import sys
import tempfile
from collections import namedtuple

HERE, SOURCE = "examples/cortex_m", os.environ.get("SOURCE", "release/onfiseq.c")
FLAGS = ["-mthumb", "-Os", "-std=gnu11", "-Wall", "-Wextra", "-Werror", "-ffreestanding", "-ffunction-sections", "-fdata-sections", "-I" + HERE]
LINK = ["-nostartfiles", "-Wl,--gc-sections", "-Wl,-z,noexecstack", "-Wl,--no-enum-size-warning", "-L" + HERE]
RUN = ["-nographic", "-monitor", "none", "-serial", "none", "-icount", "shift=0", "-semihosting-config", "enable=on,target=native"]
ALONE = ["-DONFISEQ_DIRECT", "-DONFISEQ_WITHOUT_RUN", "-DONFISEQ_WITHOUT_TEXT"]
FIGURE = re.compile(r"(?m)^(a push|a step|stack): (\d+)\n")
TOOLS = ("arm-none-eabi-gcc", "qemu-system-arm")


def most_of(*sets):
    """The stack of sets of calls, as C: that of the one which takes most."""
    most = "ONFISEQ_STACK_" + sets[0]
    for name in sets[1:]:
        most = "(%s > ONFISEQ_STACK_%s ? %s : ONFISEQ_STACK_%s)" % (most, name, most, name)
    return "-DONFISEQ_STACK=" + most


# A firmware: where its source stands, its script, its processor, its board and the kHz of that, what it leaves out of the one C file and lends to it, and its own stack
# over the libraries, which take theirs from it, and their memory, if any, from a block of examples/c/pool.c.
Firmware = namedtuple("Firmware", "folder script cpu board clock lent stack")
FIRMWARES = {
    "from_wire": Firmware(HERE, "from_wire", "cortex-m4", "mps2-an386", 25000, [most_of("VERIFY", "LIVE", "LIVE_BEGIN", "BEGIN", "PUSH"), "-DONFISEQ_MEMORY=(ONFISEQ_STACK + 512)"], 17408),
    "two_dies": Firmware(HERE, "two_dies", "cortex-m0plus", "microbit", 16000, [most_of("LIVE", "LIVE_BEGIN"), "-DONFISEQ_WITHOUT_VERIFY"], 4096),
    "checker": Firmware("tools/machines/try/cortex_m", "two_dies", "cortex-m0plus", "microbit", 16000, [most_of("BEGIN", "PUSH"), "-DONFISEQ_WITHOUT_VERIFY", "-DONFISEQ_WITHOUT_LIVE"], 4096),
}


def built(name, out, room):
    """Builds a firmware over the libraries in OUT, or over the one C file."""
    it, program = FIRMWARES[name], "%s/%s.elf" % (room, name)
    over, options = [SOURCE], [*ALONE, *it.lent, "-Iinclude"]
    if out is not None:
        over, options = ["%s/%s/%s" % (out, it.cpu, file) for file in ("onfiseq_calls.c", "libonfiseq.a")], ["-I%s/%s" % (out, it.cpu), "-Wl,--defsym=own_stack=%d" % it.stack]
        over, options = ["examples/c/pool.c", *over], ["-DROOM=512", *options]
    sources = ["%s/%s.c" % (HERE, part) for part in ("start", "board", "chips")] + ["%s/%s.c" % (it.folder, name), *over]
    subprocess.run(["arm-none-eabi-gcc", "-mcpu=" + it.cpu, *FLAGS, "-DCLOCK_KHZ=%d" % it.clock, *options, *sources, *LINK, "-T", "%s/%s.ld" % (HERE, it.script), "-o", program], check=True)
    return program


def sizes_of(program):
    """The bytes of flash, those of RAM without the stack, and those of records in it."""
    code, data, rest = (int(it) for it in subprocess.run(["arm-none-eabi-size", program], check=True, stdout=subprocess.PIPE, text=True).stdout.splitlines()[1].split()[:3])
    symbols = subprocess.run(["arm-none-eabi-nm", "-S", program], check=True, stdout=subprocess.PIPE, text=True).stdout
    records = sum(int(size, 16) for size in re.findall(r"(?m)^\w+ (\w+) \w (?:bus|live)$", symbols))
    return code + data, data + rest, records


def measured(name, out, room):
    """What a firmware takes, by what it is; or what is wrong with it."""
    program, board = built(name, out, room), FIRMWARES[name].board
    ran = subprocess.run(["qemu-system-arm", "-M", board, *RUN, "-kernel", program], stdin=subprocess.DEVNULL, stdout=subprocess.PIPE, stderr=subprocess.STDOUT, text=True, timeout=120)
    expected = "%s/expected/%s" % (FIRMWARES[name].folder, name)
    wanted = open(expected).read() if os.path.exists(expected) else ""
    if ran.returncode or FIGURE.sub("", ran.stdout) != wanted:
        return None, "it ended with %d and printed\n%s" % (ran.returncode, ran.stdout)
    (flash, memory, records), told = sizes_of(program), {what: int(number) for what, number in FIGURE.findall(ran.stdout)}
    own = told.pop("stack")
    return {"flash": flash, "RAM": memory + own, "of records": records, "own stack": own, **told}, None


def names_over(out):
    """The firmwares that are tried over the libraries in OUT, or over the one C file."""
    return [name for name, it in FIRMWARES.items() if out is None or it.stack]


def lacking(out):
    """What isn't there to build and run them with."""
    libraries = [] if out is None else ["%s/%s/libonfiseq.a" % (out, FIRMWARES[name].cpu) for name in names_over(out)]
    return [it for it in TOOLS if shutil.which(it) is None] + [it for it in libraries if not os.path.exists(it)]


def main():
    out, is_right = sys.argv[1] if len(sys.argv) > 1 else None, True
    if lacking(out):
        print("firmware: skipped, as %s isn't there" % lacking(out)[0])
        return 0
    with tempfile.TemporaryDirectory() as room:
        for name in names_over(out):
            found, wrong = measured(name, out, room)
            is_right &= wrong is None
            print("firmware: %s DIFFERS: %s" % (name, wrong) if wrong else "firmware: %s ok: %s" % (name, ", ".join("%s %d" % it for it in found.items())), flush=True)
    return 0 if is_right else 1


if __name__ == "__main__":
    sys.exit(main())

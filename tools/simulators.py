"""Builds and runs the test benches of examples/systemverilog and examples/icarus, for tools/c_library.py: what they print is compared with the folder `expected` beside each."""
import os
import re
import resource
import shutil
import subprocess

CHIP = "examples/small_chip/chip.page"
SHIM = "examples/systemverilog/onfiseq_dpi.c"
SOURCES = ["examples/systemverilog/" + name for name in ("onfiseq_pkg.sv", "onfiseq_monitor.sv")]
MODULE = "onfiseq_vpi"
HOSTS_BENCH, HOSTS = "examples/hosts/hosts.v", 12
# The mistakes of that bench, and the host that makes each.
MISTAKES = {1: 0, 2: 3, 3: 6, 4: 5, 5: 9, 6: 1, 7: 10, 8: 2, 9: 7, 10: 11, 11: 4, 12: 8, 13: 5, 14: 7, 15: 8}


def read(path):
    with open(path) as it:
        return it.read()


def checksum(page):
    """The checksum that stands behind the first 254 bytes of a parameter page."""
    total = 0x4F4E
    for byte in page:
        total ^= byte << 8
        for _ in range(8):
            total = (total << 1 ^ (0x8005 if total & 0x8000 else 0)) & 0xFFFF
    return total


def page_with(**changes):
    """The page of the chip with other bytes: each change is a place and what stands there."""
    with open(CHIP, "rb") as it:
        page = bytearray(it.read()[:254])
    for place, byte in changes.items():
        page[int(place[1:])] = byte
    return bytes(page) + checksum(page).to_bytes(2, "little")


def pages():
    """The chips of the benches: one with all optional commands and two planes, and those of 1, 2 and 4 LUNs, which have read status enhanced."""
    found = {"optional": page_with(_6=0x28, _8=0xFF, _9=0x03, _113=1)}
    found.update({"luns%d" % luns: page_with(_6=2 * (luns > 1), _8=0x08, _100=luns) for luns in (1, 2, 4)})
    return found


def room_of(name):
    """An empty folder for a simulation, with the pages of the chips."""
    room = "out/c/" + name
    shutil.rmtree(room, ignore_errors=True)
    os.makedirs(room)
    shutil.copy(CHIP, room)
    for chip, page in pages().items():
        with open("%s/%s.page" % (room, chip), "wb") as it:
            it.write(page)
    return room


def no_core():
    resource.setrlimit(resource.RLIMIT_CORE, (0, 0))


def run(words, room):
    """What a command prints, and whether it ended well."""
    ran = subprocess.run(words, cwd=room, stdout=subprocess.PIPE, stderr=subprocess.STDOUT, text=True, preexec_fn=no_core)
    return ran.stdout, ran.returncode == 0


class Built:
    """A bench that is built in a folder: the words that run it, or why it isn't."""

    def __init__(self, room, words, why):
        self.room, self.words, self.why = room, words, why

    def printed(self, *more):
        """What it prints, or why it isn't built."""
        return self.why if self.why is not None else run([*self.words, *more], self.room)[0]


def differing(told, path, printed):
    """What differs from a file of expected lines, if something does."""
    return None if told == read(path).splitlines() else "it printed\n%swhere it is to tell\n%s" % (printed[-3000:], read(path))


def verilated(archives, name, top, benches, options=()):
    """What runs a bench under Verilator, past the monitor of examples/systemverilog; or why it isn't built."""
    room, here = room_of(name), os.getcwd()
    words = ["verilator", "--binary", "--timing", "--top-module", top, "-Mdir", "obj", "-CFLAGS", "-I%s/include" % here, *options]
    made, is_made = run(words + ["%s/%s" % (here, it) for it in [*benches, SHIM, *archives]], room)
    return Built(room, ["obj/V" + top, "+verilator+error+limit+99"], None if is_made else made)


def run_verilator(archives):
    """The bench of examples/systemverilog, under Verilator."""
    printed = verilated(archives, "verilator", "bench", SOURCES + ["examples/systemverilog/bench.sv"]).printed()
    return differing(re.findall(r"onfiseq: (.*)", printed), "examples/systemverilog/expected/verilator", printed)


def run_verilator_counts(archives):
    """The rules that the monitor counts, under Verilator."""
    printed = verilated(archives, "verilator_counts", "counts", SOURCES + ["examples/icarus/counts.v"]).printed()
    return differing(re.findall(r"onfiseq: (.*)", printed), "examples/systemverilog/expected/counts", printed)


def compiled_by_icarus(archives, name, bench):
    """What runs a bench under Icarus Verilog, past the monitor of examples/icarus, whose module for VPI is loaded beside it; or why it isn't built."""
    room, here = room_of(name), os.getcwd()
    places = [it for it in run(["iverilog-vpi", "--cflags"], room)[0].split() if it.startswith("-I")]
    words = ["cc", "-std=gnu11", "-Wall", "-Wextra", "-Werror", "-O2", "-fPIC", "-shared", "-I%s/include" % here, *places]
    sources = ["%s/%s" % (here, it) for it in ["examples/icarus/%s.c" % MODULE, SHIM, *archives]]
    benches = ["%s/%s" % (here, it) for it in ("examples/icarus/onfiseq_monitor.v", bench)]
    for made in ([*words, *sources, "-o", MODULE + ".vpi"], ["iverilog", "-g2009", "-Wall", "-L.", "-m" + MODULE, "-o", "bench.vvp", *benches]):
        printed, is_made = run(made, room)
        if not is_made:
            return Built(room, [], printed)
    return Built(room, ["vvp", "-M.", "-m" + MODULE, "bench.vvp"], None)


def run_icarus(archives):
    """The bench of examples/icarus."""
    printed = compiled_by_icarus(archives, "icarus", "examples/icarus/bench.v").printed()
    return differing(printed.splitlines(), "examples/icarus/expected/icarus", printed)


def run_icarus_counts(archives):
    """The rules that the monitor counts, under Icarus Verilog."""
    printed = compiled_by_icarus(archives, "icarus_counts", "examples/icarus/counts.v").printed()
    return differing(printed.splitlines(), "examples/icarus/expected/counts", printed)


def faults_of(printed):
    """The times at which each monitor of a host told a fault, by the monitor."""
    found = {}
    for monitor, at in re.findall(r"host_\d+\.(prompt|late)\.take: (?:onfiseq: )?(\d+): target", printed):
        found.setdefault(monitor, []).append(at)
    return found


def differing_hosts(built):
    """The hosts of examples/hosts/hosts.v: no fault of the right ones, and each mistake is told once, at its cycle."""
    printed, wrong = built.printed(), []
    if len(re.findall(r"host \d+ is done", printed)) != HOSTS or faults_of(printed):
        return "the hosts without a mistake: " + printed[-3000:]
    for mistake, host in MISTAKES.items():
        printed = built.printed("+HOST=%d" % host, "+BUG=%d" % mistake)
        at = re.findall(r"mistake at (\d+)", printed)
        if len(at) != 1 or faults_of(printed) != {"prompt": at, "late": at}:
            wrong.append("mistake %d of host %d: %s" % (mistake, host, printed[-1000:]))
    return "\n".join(wrong) or None


def run_verilator_hosts(archives):
    """The hosts under Verilator; its C++ is compiled as fast as may be."""
    fast = ["-Wno-fatal", *(word for name in ("FAST", "SLOW", "GLOBAL") for word in ("-MAKEFLAGS", "OPT_%s=-O0" % name))]
    return differing_hosts(verilated(archives, "verilator_hosts", "hosts", SOURCES + [HOSTS_BENCH], fast))


def run_icarus_hosts(archives):
    """The hosts under Icarus Verilog."""
    return differing_hosts(compiled_by_icarus(archives, "icarus_hosts", HOSTS_BENCH))


def why_not(tool):
    """Why a bench can't be run here, if it can't."""
    if shutil.which(tool) is None:
        return "%s isn't installed" % tool
    return "Verilator builds in no folder with a blank in its name" if tool == "verilator" and " " in os.getcwd() else None


# The benches: the tool that they need, and what runs each.
BENCHES = {"verilator": (run_verilator, run_verilator_counts, run_verilator_hosts), "iverilog": (run_icarus, run_icarus_counts, run_icarus_hosts)}

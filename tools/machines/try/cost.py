"""Measures, for each processor, the bytes of code, the stack, and the instructions an item.

    python3 tools/machines/try/cost.py [OUT]      at the root, after `python3 tools/machines OUT` (out/machines where no folder is named)

Code is that of the checker's library, and of all four; of the one C file, compiled for size. Stack is painted. Instructions are those that qemu runs, one by one,
as the difference of 200 items and 100. A processor whose tools aren't installed is skipped by name. tools/figures.py keeps the numbers for the pages.
SOURCE in the environment is another C file than release/onfiseq.c.
"""
import os
import shutil
import subprocess
import sys
import tempfile

HERE = os.path.dirname(os.path.abspath(__file__))
sys.path.insert(0, os.path.join(HERE, ".."))
from parts import PARTS

LIBRARIES = ("onfiseq_c", "onfiseq_verify_c", "onfiseq_text_c", "onfiseq_live_c")
CALLS = ("push", "push_all", "push_status", "ask", "check", "step", "verify")
# The code of a Cortex-M runs on larger ARM processors too, so its library is linked into a program for Linux.
CORTEX_M = (["arm-linux-gnueabihf-gcc", "-mthumb", "-static", "-Wl,--no-warn-mismatch"], ["qemu-arm"])

# Each processor: the folder of its library, its compiler, and what runs its programs.
PROCESSORS = (
    ("cortex-m4", *CORTEX_M),
    ("cortex-m3", *CORTEX_M),
    ("cortex-m0plus", *CORTEX_M),
    ("armhf-linux", ["arm-linux-gnueabihf-gcc", "-static"], ["qemu-arm"]),
    ("aarch64-linux", ["aarch64-linux-gnu-gcc", "-static"], ["qemu-aarch64"]),
    ("rv64-linux", ["riscv64-linux-gnu-gcc", "-static"], ["qemu-riscv64"]),
    ("i686-linux", ["gcc", "-m32", "-static"], ["qemu-i386"]),
    ("x86_64-linux", ["gcc", "-static"], ["qemu-x86_64"]),
)
PORTABLE = (
    ("one C file, x86-64", ["gcc", "-static"], ["qemu-x86_64"]),
    ("one C file, 32-bit ARM", ["arm-linux-gnueabihf-gcc", "-mthumb", "-static"], ["qemu-arm"]),
    ("one C file, 32-bit ARM, its addresses", ["arm-linux-gnueabihf-gcc", "-mthumb", "-static", "-DONFISEQ_DIRECT", "-DONFISEQ_MEMORY=400000"], ["qemu-arm"]),
    ("one C file, s390x", ["s390x-linux-gnu-gcc", "-static"], ["qemu-s390x"]),
)


def linked(out, name):
    """What is linked for a processor."""
    if name == "x86_64-linux":
        return ["crates/%s/out/lib%s.a" % (it, it) for it in LIBRARIES]
    if name == "aarch64-linux":
        return ["%s/%s/lib%s.a" % (out, name, it) for it in LIBRARIES]
    return ["%s/%s/%s" % (out, name, it) for it in ("onfiseq_calls.c", "libonfiseq.a")]


def count_lines(words, room):
    """How many instructions a program runs: qemu tells each by a line."""
    log = room + "/log"
    subprocess.run([words[0], "-singlestep", "-d", "exec,nochain", "-D", log, *words[1:]], check=True, stdout=subprocess.DEVNULL)
    with open(log, "rb") as it:
        return sum(part.count(b"\n") for part in iter(lambda: it.read(1 << 20), b""))


def instructions(program, runs, call, room):
    """Instructions an item."""
    few, many = (count_lines([*runs, program, call, str(count)], room) for count in (100, 200))
    return round((many - few) / 100)


def stacks(program, runs):
    """The stack of each call."""
    told = subprocess.run([*runs, program, "stack"], check=True, stdout=subprocess.PIPE, text=True).stdout
    return dict((name, int(size)) for name, size in (line.split() for line in told.splitlines()))


def code(sources, compiler, room):
    """The bytes of code and constants of the checker, and of all libraries; of the one C file, of that with the checker's calls alone, and of the whole."""
    archives = [it for it in sources if it.endswith(".a")]
    if archives:
        lines = subprocess.run(["size", *archives], check=True, stdout=subprocess.PIPE, text=True).stdout.splitlines()[1:]
        return [sum(int(line.split()[0]) for line in lines if part in line) for part in ("onfiseq_c.", "")]
    return [compiled_code(sources[0], [*compiler, *options], room) for options in (["-DONFISEQ_WITHOUT_%s" % part for part in PARTS], [])]


def compiled_code(source, compiler, room):
    """The bytes of code and constants of a C file, compiled for size."""
    subprocess.run([*compiler, "-Os", "-Iinclude", "-c", source, "-o", room + "/whole.o"], check=True)
    return int(subprocess.run(["size", room + "/whole.o"], check=True, stdout=subprocess.PIPE, text=True).stdout.splitlines()[1].split()[0])


def lacking(compiler, runs, sources):
    """What isn't there to measure a processor with."""
    return [it for it in (compiler[0], runs[0]) if shutil.which(it) is None] + [it for it in sources if not os.path.exists(it)]


def measure(compiler, runs, sources):
    """The numbers of a processor, by what they are of."""
    with tempfile.TemporaryDirectory() as room:
        program = room + "/program"
        subprocess.run([*compiler, "-O2", "-Wl,--gc-sections", "-Iinclude", HERE + "/cost.c", *sources, "-o", program], check=True)
        stack, found = stacks(program, runs), dict(zip(("code of the checker", "code of the four"), code(sources, compiler, room)))
        found.update({call: instructions(program, runs, call, room) for call in CALLS})
        found.update({"stack of " + call: stack[call] for call in ("push", "check", "step", "verify")})
    return found


def places(out):
    """Each processor: its name, its compiler, what runs its programs, and what is linked."""
    for name, compiler, runs in PROCESSORS:
        yield name, compiler, runs, linked(out, name)
    for name, compiler, runs in PORTABLE:
        yield name, compiler, runs, [os.environ.get("SOURCE", "release/onfiseq.c")]


def main():
    out = sys.argv[1] if len(sys.argv) > 1 else "out/machines"
    for name, *how in places(out):
        if lacking(*how):
            print("cost: skipped: %s, as %s isn't there" % (name, lacking(*how)[0]), flush=True)
            continue
        print("%s: %s" % (name, ", ".join("%s %s" % (what, "{:,}".format(number)) for what, number in measure(*how).items())), flush=True)
    return 0


if __name__ == "__main__":
    sys.exit(main())

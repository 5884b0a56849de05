"""Compares what the libraries answer on each processor, in WebAssembly and as one C file with what they answer on x86-64.

    python3 tools/machines/try/compare.py [OUT]             with every tool that is installed; it ends by saying what it skipped
    python3 tools/machines/try/compare.py --short [OUT]     as .ci/run does: release/onfiseq.c and the library for i686, by gcc and clang
    --only WORD             what has this word in its name alone
    --traces N --programs N --jobs N --seed N               how much is made: 2,000 traces, 3,000 programs and 500 channels with jobs, if none is said

at the root, where `python3 tools/c_library.py --build` and `python3 tools/machines OUT` have built the libraries (out/machines where no folder is named). Both sides make
the same traces, programs and jobs by cases.c and print each answer; what they print must be the same.
"""
import argparse
import filecmp
import os
import shutil
import subprocess
import sys
import time

HERE = os.path.dirname(os.path.abspath(__file__))
sys.path.insert(0, os.path.join(HERE, ".."))
import header
import sums
from targets import PORTABLE

CHIP = "examples/small_chip/chip.page"
WARNINGS = ["-std=c99", "-Wall", "-Wextra", "-Wpedantic", "-Werror"]
X86_64 = ["crates/%s/out/lib%s.a" % (name, name) for name in PORTABLE]
# The one C file by the processor's own addresses: a load or a store that isn't aligned ends the program. On i386 numbers of 64 bits must be said to be aligned.
ITS_OWN = ["-DONFISEQ_DIRECT", "-DONFISEQ_MEMORY=4000000", "-fsanitize=alignment", "-fsanitize-undefined-trap-on-error", *WARNINGS]
I386 = ["gcc", "-m32", "-malign-double", "-O1", *ITS_OWN]


class Try:
    """A way to run cases.c: how it is built and run, and the tools that this needs. Limit is what its heap refuses; of what is linked, `of_its_own` compiles the first, if it is told."""

    def __init__(self, name, compiler, linked=(), runs=(), needs=(), of_its_own=(), limit=0):
        self.name, self.compiler, self.linked = name, list(compiler), list(linked)
        self.runs, self.needs, self.of_its_own, self.limit = list(runs), [compiler[0], *of_its_own[:1], *needs], list(of_its_own), limit

    def lacking(self):
        """What isn't there that it needs."""
        for tool in self.needs:
            if shutil.which(tool) is None:
                return "%s isn't installed" % tool
        for path in self.linked:
            if not os.path.exists(path):
                return "%s isn't built" % path
        return None if "-m32" not in self.compiler or links(self.compiler) else "%s links no 32-bit programs" % self.compiler[0]


def links(compiler):
    """Whether a compiler can link a program of the C library."""
    ran = subprocess.run([*compiler, "-x", "c", "-", "-o", os.devnull], input="#include <stdio.h>\nint main(void) { return puts(\"\") < 0; }\n", text=True, stderr=subprocess.DEVNULL)
    return ran.returncode == 0


def parts_of(out, name):
    """What is linked for a processor whose library came by retarget.py."""
    return ["%s/%s/%s" % (out, name, it) for it in ("onfiseq_calls.c", "libonfiseq.a")]


def short_tries(out, portable):
    """What is tried without other tools than gcc and clang: the one C file, and the library for i686."""
    plain = [portable]
    return [
        Try("one C file, gcc", ["gcc", "-O1", *WARNINGS], plain),
        Try("one C file, gcc -m32", ["gcc", "-m32", "-O1", *WARNINGS], plain),
        Try("one C file, clang with UBSan", ["clang", "-O0", "-fsanitize=undefined", "-fno-sanitize-recover=undefined", *WARNINGS], plain),
        Try("one C file, by the addresses of an i386", I386, plain),
        Try("i686", ["gcc", "-m32", "-O2", *WARNINGS], parts_of(out, "i686-linux")),
    ]


def long_tries(out, portable):
    """What needs Debian's cross compilers and qemu."""
    aarch64 = ["%s/aarch64-linux/lib%s.a" % (out, name) for name in PORTABLE]
    tries = [Try("aarch64-linux", ["aarch64-linux-gnu-gcc", "-static", "-O2"], aarch64, ["qemu-aarch64"])]
    for name, compiler, qemu in (("armhf-linux", "arm-linux-gnueabihf-gcc", "qemu-arm"), ("rv64-linux", "riscv64-linux-gnu-gcc", "qemu-riscv64")):
        tries.append(Try(name, [compiler, "-static", "-O2"], parts_of(out, name), [qemu]))
    tries.append(Try("aarch64-bare, in a program for Linux", ["aarch64-linux-gnu-gcc", "-static", "-O2"], parts_of(out, "aarch64-bare"), ["qemu-aarch64"]))
    tries.append(Try("x86_64-kernel, in a program for Linux", ["gcc", "-static", "-no-pie", "-O2"], parts_of(out, "x86_64-kernel")))
    # the code of a Cortex-M runs on larger ARM processors too
    thumb = ["arm-linux-gnueabihf-gcc", "-mthumb", "-static", "-O2", "-Wl,--no-warn-mismatch"]
    tries.append(Try("cortex-m0plus, in a program for Linux", thumb, parts_of(out, "cortex-m0plus"), ["qemu-arm"]))
    tries.append(Try("one C file, s390x (big-endian)", ["s390x-linux-gnu-gcc", "-static", "-O2"], [portable], ["qemu-s390x"]))
    tries.append(Try("one C file, clang", ["clang", "-O2", *WARNINGS], [portable]))
    tries.append(Try("one C file, unchecked", ["gcc", "-O2", "-DONFISEQ_UNCHECKED", *WARNINGS], [portable]))
    for cpu, soft in DIRECT:
        made = ["arm-none-eabi-gcc", "-mcpu=" + cpu, *soft, "-mthumb", "-Os", *ITS_OWN]
        tries.append(Try("one C file, by the addresses of a %s, in a program for Linux" % cpu, thumb, [portable], ["qemu-arm"], of_its_own=made))
    return tries + [board_try(out, *it) for it in BOARDS]


# The processors that the one C file is tried on by their own addresses, and how each is told of its numbers.
DIRECT = (("cortex-m4", ["-mfloat-abi=soft"]), ("cortex-m0plus", []))
# Boards of qemu-system-arm: the processor, and what qemu is told.
BOARDS = (("cortex-m4", "mps2-an386"), ("cortex-m3", "mps2-an385"))


def board_try(out, cpu, board):
    """A simulated board, which prints by semihosting. Its memory is small, so both sides refuse large requests."""
    compiler = ["arm-none-eabi-gcc", "-mcpu=" + cpu, "-mthumb", "-O2", "--specs=rdimon.specs", "-Wl,--section-start=.vectors=0", "-Wl,-u,vectors", "-Wl,--gc-sections"]
    linked = parts_of(out, cpu) + [HERE + "/cortex_m/vectors.c", HERE + "/heap_limit.c"]
    return Try(cpu, compiler, linked, [HERE + "/cortex_m/run.sh", board, cpu], limit=1 << 20, needs=["qemu-system-arm"])


class Comparison:
    """The reference, and what is tried beside it."""

    def __init__(self, given):
        self.room = given.out + "/compare"
        self.words = [str(it) for it in (given.traces, given.programs, given.jobs, given.seed)] + [CHIP]
        os.makedirs(self.room, exist_ok=True)
        with open(self.room + "/sums.h", "w") as it:
            it.write(sums.written("include/onfiseq.h"))

    def path(self, name, end):
        return "%s/%s.%s" % (self.room, "".join(it if it.isalnum() else "_" for it in name), end)

    def made(self, it):
        """Builds and runs cases.c: the path of what it prints."""
        program, printed = self.path(it.name, "program"), self.path(it.name, "jsonl")
        limit, linked = ["-DLIMIT=%d" % it.limit] if it.limit else [], it.linked
        if it.of_its_own:
            linked = [self.path(it.name, "o"), *linked[1:]]
            subprocess.run([*it.of_its_own, "-Iinclude", "-c", it.linked[0], "-o", linked[0]], check=True)
        subprocess.run([*it.compiler, *limit, "-Iinclude", "-I" + self.room, HERE + "/cases.c", *linked, "-o", program], check=True)
        with open(printed, "w") as output:
            subprocess.run([*it.runs, program, *self.words], check=True, stdout=output, stdin=subprocess.DEVNULL, timeout=3600)
        return printed

    def reference(self, limit):
        """What x86-64 answers, with a heap that refuses blocks above a limit, or with malloc's."""
        heap = [HERE + "/heap_limit.c"] if limit else []
        return self.made(Try("reference %d" % limit, ["gcc", "-O2"], [*heap, *X86_64], limit=limit))

    def is_same(self, it, reference):
        """Tries one way, and tells how it went."""
        begun = time.time()
        printed = self.made(it)
        is_same = filecmp.cmp(printed, reference, shallow=False)
        print("compare: %s %s, %.0f s" % (it.name, "gives the same answers" if is_same else "DIFFERS: see %s beside %s" % (printed, reference), time.time() - begun), flush=True)
        return is_same

    def node_is_same(self, module, reference):
        """Tries the WebAssembly module in Node, by replay.js."""
        with open(self.room + "/shape.json", "w") as it:
            it.write(header.shape("include/onfiseq.h"))
        begun = time.time()
        ran = subprocess.run(["node", HERE + "/replay.js", module, self.room + "/shape.json", CHIP, reference], stdout=subprocess.PIPE, text=True)
        print("compare: wasm32 in Node: %s, %.0f s" % (ran.stdout.strip(), time.time() - begun), flush=True)
        return ran.returncode == 0


def given_words():
    words = argparse.ArgumentParser(prog="compare")
    words.add_argument("out", nargs="?", default="out/machines")
    words.add_argument("--short", action="store_true")
    words.add_argument("--only", default="")
    words.add_argument("--portable", default="release/onfiseq.c")
    for name, count in (("traces", 2000), ("programs", 3000), ("jobs", 500), ("seed", 11)):
        words.add_argument("--" + name, type=int, default=count)
    return words.parse_args()


def main():
    given = given_words()
    tries = short_tries(given.out, given.portable) + ([] if given.short else long_tries(given.out, given.portable))
    comparison, references, skipped, is_same = Comparison(given), {}, [], True
    for it in (it for it in tries if given.only in it.name):
        lacking = it.lacking()
        if lacking:
            skipped.append("%s, as %s" % (it.name, lacking))
            continue
        if it.limit not in references:
            references[it.limit] = comparison.reference(it.limit)
        is_same &= comparison.is_same(it, references[it.limit])
    module = given.out + "/wasm/onfiseq.wasm"
    if given.short or given.only not in "wasm32 in Node":
        pass
    elif shutil.which("node") and os.path.exists(module):
        references[0] = references.get(0) or comparison.reference(0)
        is_same &= comparison.node_is_same(module, references[0])
    else:
        skipped.append("wasm32 in Node, as node isn't installed or the module isn't built")
    for it in skipped:
        print("compare: skipped: " + it)
    return 0 if is_same else 1


if __name__ == "__main__":
    sys.exit(main())

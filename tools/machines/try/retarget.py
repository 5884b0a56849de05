"""Tries retarget.py: what it must refuse is refused, and what it takes answers on wasm32, i686 and Cortex-M as on x86-64.

    python3 tools/machines/try/retarget.py [OUT]      at the root; it works in OUT/forms, out/machines/forms where no folder is named

The modules are those of forms.ll, each a function `answer` of a number, and a library that is proved here, of locals.rt.in. Each is compiled with and without optimization.
"""
import os
import shutil
import subprocess
import sys
import tempfile

HERE = os.path.dirname(os.path.abspath(__file__))
sys.path.insert(0, os.path.join(HERE, ".."))
import kit
import retarget
from lines import Lines
from targets import FLAGS, TARGETS, WASM

NUMBERS = (0, 1, 2, 3, 6, 13, 42, 255, 65536, 2147483647, 4000000000)

# Each processor: how wide its pointers are, the words for clang, the linker's emulation, and what runs its programs.
X86_64 = (64, ["--target=x86_64-unknown-linux-gnu"], [])
TRIED = {
    "i686": (32, TARGETS["i686-linux"][1], []),
    "Cortex-M3": (32, TARGETS["cortex-m3"][1], ["qemu-arm"]),
    "RV64's width, on x86-64": (64, X86_64[1], []),
}
NODE = """
const numbers = JSON.parse(process.argv[2]);
const fs = require("fs");
for (const path of process.argv.slice(3)) {
    let memory;
    const told = (at, ok, to) => { const view = new DataView(memory.buffer); view.setBigUint64(at, ok, true); view.setUint32(at + 8, to, true); };
    const system = { w_rattle_alloc: (at, size, alignment) => told(at, 1n, memory.buffer.byteLength - 64) };
    const module = new WebAssembly.Instance(new WebAssembly.Module(fs.readFileSync(path)), { env: system });
    memory = module.exports.memory;
    console.log(Buffer.from(new Uint32Array(numbers.map((it) => module.exports.answer(it) >>> 0)).buffer).toString("hex"));
}
"""

# The function `answer` of the proved library, over its `tiny`.
CALLER = """
define i32 @answer(i32 %n) {
  %one = alloca i8, align 1
  store i8 1, ptr %one, align 1
  %v = call i32 @tiny(ptr %one, ptr %one, i32 %n)
  ret i32 %v
}
"""


def read(path):
    with open(path) as it:
        return it.read()


def write(path, text):
    os.makedirs(os.path.dirname(path), exist_ok=True)
    with open(path, "w") as it:
        it.write(text)


def modules(verb):
    """The modules of forms.ll that begin so, by their names."""
    found = {}
    for part in read(HERE + "/forms.ll").split("\n; ")[1:]:
        head, _, text = part.partition("\n")
        if head.startswith(verb + ": "):
            found[head[len(verb) + 2 :]] = text
    return found


def rewritten(text, bits):
    """A module as retarget.py writes it, but for the calls of onfiseq.h, which it hasn't."""
    return retarget.with_requests("".join(map(Lines(bits == 32), retarget.without_target(text).splitlines(True))))


def is_refused(text):
    """Whether the module is refused where pointers have 32 bits."""
    try:
        rewritten(text, 32)
    except SystemExit:
        return True
    return False


class Tries:
    """The builds of the modules, in a folder of their own."""

    def __init__(self, room):
        self.room = os.path.abspath(room)
        shutil.rmtree(self.room, ignore_errors=True)
        os.makedirs(self.room)
        self.kit, self.count = kit.Kit(), 0

    def run(self, *words):
        subprocess.run(words, check=True)

    def path(self, end):
        self.count += 1
        return "%s/%d.%s" % (self.room, self.count, end)

    def proved(self):
        """The module of the proved library, as the kit makes it for AArch64."""
        home = os.getcwd()
        # (elsewhere, since a crate below the root is one of the gate's)
        with tempfile.TemporaryDirectory() as repository:
            write(repository + "/crates/tiny/src/lib.rt", read(HERE + "/locals.rt.in"))
            write(repository + "/crates.txt", "tiny staticlib:\n")
            self.run("git", "init", "-q", repository)
            os.chdir(repository)
            its = kit.Kit()
            kept = its.keeping_toolchain(self.room + "/toolchain")
            its.build("tiny", self.room + "/libtiny.a", self.room + "/toolchain")
            os.chdir(home)
        path = self.path("ll")
        self.run(self.kit.tool("clang"), "--target=" + kit.AARCH64, "-x", "ir", kept, "-S", "-emit-llvm", "-O1", "-Xclang", "-disable-llvm-passes", "-o", path)
        return read(path) + CALLER

    def compiled(self, text, words, level):
        """The object of a module's text."""
        source, made = self.path("ll"), self.path("o")
        write(source, text)
        self.run(self.kit.tool("clang"), *words, *FLAGS, "-O" + level, "-x", "ir", source, "-c", "-o", made)
        return made

    def answers(self, text, words, level, runs):
        """What the program of a module writes."""
        around, program = self.path("o"), self.path("program")
        given = "-DNUMBERS=" + ",".join("%du" % it for it in NUMBERS)
        self.run(self.kit.tool("clang"), *words, "-O1", "-ffreestanding", "-fno-builtin", "-fno-pic", given, "-c", HERE + "/retarget.c", "-o", around)
        self.run(self.kit.tool("ld.lld"), "-flavor", "gnu", "-static", "-e", "_start", around, self.compiled(text, words, level), "-o", program)
        ran = subprocess.run([*runs, program], stdout=subprocess.PIPE)
        return ran.stdout.hex() if ran.returncode == 0 else "status %d" % ran.returncode

    def in_node(self, texts, level):
        """What the modules answer as wasm32, in Node."""
        paths = []
        for text in texts:
            paths.append(self.path("wasm"))
            linked = ["-flavor", "wasm", "--no-entry", "--export=answer", "--import-undefined", "--stack-first", self.compiled(text, WASM, level), "-o", paths[-1]]
            self.run(self.kit.tool("ld.lld"), *linked)
        ran = subprocess.run(["node", "-e", NODE, "-", str(list(NUMBERS)), *paths], stdout=subprocess.PIPE, text=True)
        return ran.stdout.split()


def compare(tries, taken):
    """Compares each module on each processor with x86-64: the lines that say what differs."""
    wanted = {name: tries.answers(text, X86_64[1], "2", []) for name, text in taken.items()}
    wrong = ["%s, on x86-64: no answers" % name for name, it in wanted.items() if len(it) != 8 * len(NUMBERS)]
    for level in ("0", "2", "s"):
        for target, (bits, words, runs) in TRIED.items():
            if runs and not shutil.which(runs[0]):
                continue
            for name, text in taken.items():
                if tries.answers(rewritten(text, bits), words, level, runs) != wanted[name]:
                    wrong.append("%s, on %s at -O%s: another answer" % (name, target, level))
        if shutil.which("node"):
            told = tries.in_node([rewritten(text, 32) for text in taken.values()], level)
            wrong += ["%s, on wasm32 at -O%s: another answer" % (name, level) for name, it in zip(taken, told + [""] * len(taken)) if it != wanted[name]]
    return wrong


def main():
    tries = Tries((sys.argv[1] if len(sys.argv) > 1 else "out/machines") + "/forms")
    refused, taken = modules("refuses"), modules("takes")
    wrong = ["%s: it isn't refused" % name for name, text in refused.items() if not is_refused(text)]
    taken["a proved library"] = tries.proved()
    wrong += compare(tries, taken)
    for tool, what in (("qemu-arm", "Cortex-M3"), ("node", "wasm32")):
        if not shutil.which(tool):
            print("retarget: skipped: %s, as %s isn't installed" % (what, tool))
    for it in wrong:
        print("retarget: " + it)
    print("retarget: %d modules refused and %d taken%s" % (len(refused), len(taken), ", with faults" if wrong else ", as they must be"))
    return 1 if wrong else 0


if __name__ == "__main__":
    sys.exit(main())

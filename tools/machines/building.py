"""Builds the libraries for each processor, the WebAssembly module and the portable C file, each folder with a STAMP that says what it was made of."""
import os
import re
import shutil
import subprocess
import sys

import calls
import memory
import places
import portable
import retarget
import stamp
from kit import AARCH64
from targets import FLAGS, LIBRARIES, MODULES, MOVED, TARGETS, WASM

HERE = os.path.dirname(os.path.abspath(__file__))
HEADER = "include/onfiseq.h"


def write(path, text):
    """Writes a file, and its folder where that lacks."""
    os.makedirs(os.path.dirname(path), exist_ok=True)
    with open(path, "w") as it:
        it.write(text)


def read(path):
    with open(path) as it:
        return it.read()


def read_bytes(path):
    with open(path, "rb") as it:
        return it.read()


def run(words):
    """Runs a command that must succeed."""
    subprocess.run(words, check=True)


def tell(path):
    """Says what was made, and how large it is."""
    print("%s: %d bytes" % (os.path.relpath(path), os.path.getsize(path)), flush=True)


class Building:
    """A build of the libraries into a folder."""

    def __init__(self, kit, out):
        self.kit, self.out = kit, out
        os.makedirs(out, exist_ok=True)

    def path(self, *parts):
        return os.path.join(self.out, *parts)

    def stamp(self, folder, compilers=()):
        """Writes the stamp of a folder."""
        files = [HEADER] + ["%s/%s" % (os.path.relpath(HERE), it) for it in ("lines.py", "retarget.py", "targets.py", "memory.py", "c/requests.c", "c/heap.c")]
        write(self.path(folder, "STAMP"), stamp.written(self.kit, self.kit.below(LIBRARIES), files, compilers))

    def aarch64(self):
        """The kit's own libraries for Linux on AArch64; the module of each is kept as text."""
        toolchain = self.path("toolchain")
        kept = self.kit.keeping_toolchain(toolchain)
        os.makedirs(self.path("aarch64-linux"), exist_ok=True)
        for name in LIBRARIES:
            archive = self.path("aarch64-linux", "lib%s.a" % name)
            self.kit.build(name, archive, toolchain)
            memory.give(archive, self.kit.toolchain, ["--target=" + AARCH64, "-O2", "-fPIC"])
            tell(archive)
            self.keep_texts(name, kept)
        shutil.copy(HEADER, self.path("aarch64-linux"))
        self.stamp("aarch64-linux")
        shutil.rmtree(toolchain)

    def keep_texts(self, name, module):
        """Writes a library's module as the text that each width of pointers has."""
        words = [self.kit.tool("clang"), "--target=" + AARCH64, "-x", "ir", module, "-S", "-emit-llvm", "-O1", "-Xclang", "-disable-llvm-passes", "-o", "-"]
        text = subprocess.run(words, check=True, stdout=subprocess.PIPE, text=True).stdout
        for bits in (32, 64):
            write(self.path("modules", "%s.%d.ll" % (name, bits)), retarget.retargeted(text, HEADER, bits))

    def calls(self):
        """The names of the calls that the libraries have."""
        return [call for name in LIBRARIES for call in re.findall(r"(?m)^define .*@w_(onfiseq_\w+)\(", read(self.path("modules", name + ".32.ll")))]

    def objects(self, folder, bits, words):
        """Compiles each library's module: the objects, by the libraries' names."""
        made = {}
        os.makedirs(self.path(folder), exist_ok=True)
        for name in LIBRARIES:
            made[name] = self.path(folder, name + ".o")
            run([self.kit.tool("clang"), *words, *FLAGS, "-x", "ir", self.path("modules", "%s.%d.ll" % (name, bits)), "-c", "-o", made[name]])
        return made

    def target(self, name):
        """The library for a processor, with what is linked beside it."""
        bits, words = TARGETS[name]
        objects, archive = self.objects(name, bits, words), self.path(name, "libonfiseq.a")
        if os.path.exists(archive):
            os.remove(archive)
        run([self.kit.tool("llvm-ar"), "rcsD", archive, *objects.values()])
        memory.give(archive, self.kit.toolchain, [*words, "-DNARROW"])
        for it in objects.values():
            os.remove(it)
        shutil.copy(HEADER, self.path(name))
        write(self.path(name, "onfiseq_calls.c"), calls.written(HEADER, self.calls()))
        self.stamp(name)
        tell(archive)

    def wasm(self):
        """The WebAssembly modules."""
        objects = self.objects("wasm", 32, WASM)
        helper = self.path("wasm", "multi3.o")
        run([self.kit.tool("clang"), *WASM, "-ffreestanding", "-c", HERE + "/c/multi3.c", "-o", helper])
        for module, (names, stack) in MODULES.items():
            self.link(self.path("wasm", module + ".wasm"), stack, [objects[name] for name in names] + [helper])
        names, stack = MODULES["onfiseq"]
        self.link(self.path("portable", "moved.wasm"), stack + MOVED, [objects[name] for name in names] + [helper])
        for it in [*objects.values(), helper]:
            os.remove(it)
        self.stamp("wasm")

    def link(self, path, stack, objects):
        """Links a module with a stack of so many bytes below its data."""
        exports = ["--export-if-defined=w_" + it for it in self.calls()] + ["--export=__heap_base", "--gc-sections", "--import-undefined"]
        os.makedirs(self.path("portable"), exist_ok=True)
        run([self.kit.tool("ld.lld"), "-flavor", "wasm", "--no-entry", "--stack-first", "-z", "stack-size=%d" % stack, *exports, *objects, "-o", path])
        tell(path)

    def portable(self):
        """The one C file; it needs wasm2c."""
        if shutil.which("wasm2c") is None:
            print("machines: skipped: the portable C file, as wasm2c (Debian's wabt) isn't installed", flush=True)
            return
        links = [self.path("wasm", "onfiseq.wasm"), self.path("portable", "moved.wasm")]
        marking = places.Marking(*map(self.text_of, links), *map(read_bytes, links))
        write(self.path("portable", "onfiseq.c"), portable.written(HEADER, marking))
        os.remove(links[1])
        tell(self.path("portable", "onfiseq.c"))
        shutil.copy(HEADER, self.path("portable"))
        self.stamp("portable", ["wasm2c " + stamp.version_of(["wasm2c", "--version"])])

    def text_of(self, module):
        """What wasm2c writes of a module."""
        made = self.path("portable", "made.c")
        run(["wasm2c", "-n", "onfiseq", module, "-o", made])
        text = read(made)
        os.remove(made)
        os.remove(made[:-2] + ".h")
        return text

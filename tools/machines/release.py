"""The folder release/: what a clone without the kit needs for a first answer."""
import os
import re
import shutil
import subprocess
import sys

import header
import program
import stamp
from building import HEADER, Building, read, write
from kit import Kit, stop
from targets import LIBRARIES

FOLDER = "release"
HERE = os.path.relpath(os.path.dirname(os.path.abspath(__file__)))

# What shapes the files beside the crates: a change of one of them makes release/ another.
MAKERS = ("header.py", "lines.py", "retarget.py", "portable.py", "runs.py", "places.py", "wasm.py", "frames.py", "parts.py", "targets.py", "c/multi3.c", "c/portable_head.c", "c/portable_shim.c")
PROGRAM_MAKERS = ("program.py", "wasm_c.py", "c/module.h", "c/system.c", "c/int128.c")
PAGE_MAKERS = ("page/system.js", "page/page.py", "page/playground.html.in", "page/playground.js")


def page_of(module):
    """The playground with this module, as page.py writes it."""
    return subprocess.run([sys.executable, HERE + "/page/page.py", module], check=True, stdout=subprocess.PIPE, text=True).stdout


def files():
    """The files that release/ is made of, beside the crates."""
    return [HEADER, "LICENSE", "tools/man.py"] + ["%s/%s" % (HERE, it) for it in MAKERS + PROGRAM_MAKERS + PAGE_MAKERS]


def has_new_words_alone(the_stamp):
    """Whether release/ differs from what would be made by a new stamp in the words of the header and the license alone, and not in what is built."""
    if not os.path.isfile(FOLDER + "/STAMP"):
        return False
    old = read(FOLDER + "/STAMP")
    made_by = [[line for line in text.splitlines() if line.startswith(("kit ", "compiler "))] for text in (old, the_stamp)]
    made_of = [re.findall(r"(?m)^(?:crate|file) (\S+)", text) for text in (old, the_stamp)]
    is_built = made_by[0] == made_by[1] and made_of[0] == made_of[1] and "\nmade " in old and not stamp.differing(old, "made")
    return is_built and set(stamp.differing(old)) <= {HEADER, "LICENSE"} and header.read(HEADER) == header.read(FOLDER + "/onfiseq.h")


def pages_of(out):
    """The manual page and the completions, of the program that the C files in OUT/program make."""
    made = out + "/onfiseq"
    subprocess.run(["make", "-s", "-j%d" % os.cpu_count(), "SOURCES=%s/program" % out, "OUT=%s/make" % out, "PROGRAM=" + made], check=True)
    subprocess.run([sys.executable, "tools/man.py", made, out + "/man"], check=True, stdout=subprocess.DEVNULL)
    return {name: read("%s/man/%s" % (out, name)) for name in ("onfiseq.1", "onfiseq.bash")}


def built(kit, out):
    """The program, the C file of the libraries, their module for Node and the page, built anew."""
    files = program.make(out, True)
    program.write_to(out + "/program", files)
    building = Building(kit, out)
    building.aarch64()
    building.wasm()
    building.portable()
    made = {"program/" + name: text for name, text in files.items()}
    made.update(pages_of(out))
    shutil.copyfile(building.path("wasm", "whole.wasm"), FOLDER + "/onfiseq.wasm")
    return {**made, "onfiseq.c": read(building.path("portable", "onfiseq.c")), "playground.html": page_of(program.page_module(out))}


def made_files():
    """The files that stand in release/, but for the stamp."""
    found = [os.path.join(top, name) for top, _, names in os.walk(FOLDER) for name in names]
    return sorted(set(found) - {FOLDER + "/STAMP"})


def make(out):
    """Makes release/ anew: over crates that are proved here, all of it or nothing. What is built stays where it would be built of the same."""
    if shutil.which("wasm2c") is None:
        stop("the portable C file needs wasm2c: it is in Debian's package wabt")
    kit = Kit()
    the_stamp = stamp.written(kit, kit.below((*LIBRARIES, program.NAME)), files(), ["wasm2c " + stamp.version_of(["wasm2c", "--version"])])
    made = {} if has_new_words_alone(the_stamp) else built(kit, out)
    made.update({"onfiseq.h": read(HEADER), "LICENSE": read("LICENSE")})
    for name, text in made.items():
        write("%s/%s" % (FOLDER, name), text)
        print("%s/%s: %d bytes" % (FOLDER, name, len(text.encode())))
    write(FOLDER + "/STAMP", the_stamp + "".join("made %s %s\n" % (path, stamp.sum_of([path])) for path in made_files()))
    return 0


def check():
    """Whether release/ is made of the sources that stand here, and each of its files is as it was made: 0, or 1 and what differs."""
    if not os.path.isfile(FOLDER + "/STAMP"):
        print("machines: there is no release/: python3 tools/machines --release makes it")
        return 1
    text = read(FOLDER + "/STAMP")
    changed = stamp.differing(text, "made") + [path for path in made_files() if "\nmade %s " % path not in text]
    if changed:
        print("machines: changed since it was made: %s" % ", ".join(changed))
    differing = stamp.differing(text)
    if differing:
        print("machines: release/ is made of other sources than those that stand here: %s" % ", ".join(differing))
    if changed or differing:
        print("machines: python3 tools/machines --release makes it anew")
        return 1
    print("machines: release/ is made of the sources that stand here")
    return 0

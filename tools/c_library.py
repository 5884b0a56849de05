"""Builds the libraries for C, then compiles, runs and compares what uses them.

    python3 tools/c_library.py            as .ci/run does: a line for each user, and 1 at the end where one differs
    python3 tools/c_library.py --build    the libraries alone
    python3 tools/c_library.py --fuzz N   N random calls under AddressSanitizer alone, with a new seed
    python3 tools/c_library.py --damage N   N damaged records, each given to some calls
    python3 tools/c_library.py --portable   all users over release/onfiseq.c, which needs no kit

at the root, after `rt ci`: a library is built over what that proved of the crates below it, which takes a minute or two each, once a machine (tools/kept/made.py). It stands in
crates/NAME/out/libNAME.a; a shared object of all of them, for Python, in out/libonfiseq.so. The users are the programs of examples/c and examples/python;
what each must print stands in the folder `expected` beside it. Where rustc, Verilator and Icarus Verilog are installed, the programs of examples/rust and the
test benches of examples/systemverilog and examples/icarus run too.
"""
import importlib.util
import os
import re
import shutil
import string
import subprocess
import sys
import time
from concurrent.futures import ThreadPoolExecutor

sys.path[:0] = ["tools/machines", "tools/kept"]
import made
import memory
import simulators
from kit_gate import load_gate

LIBRARIES = ("onfiseq_c", "onfiseq_verify_c", "onfiseq_text_c", "onfiseq_live_c", "onfiseq_show_c")
CC = ["cc", "-std=c99", "-Wall", "-Wextra", "-Werror", "-pedantic", "-O2", "-Iinclude"]
CXX = ["c++", "-std=c++11", "-Wall", "-Wextra", "-Werror", "-Iinclude"]
OUT = "out/c"
SHARED = "out/libonfiseq.so"
CHIP = "examples/small_chip/chip.page"
ERASE = "examples/small_chip/erase_block"

LOADER = ["{out}/loader", CHIP, ERASE + ".asm", "examples/small_chip/read_spare.asm", "examples/c/no_wait.asm", "examples/c/typing_error.asm", "examples/retry.asm"]

# Each user: its name, the words that run it, its input, and the status that it must end with. {out} is where its programs stand.
USERS = (
    ("layout", ["{out}/layout"], None, 0),
    ("monitor", ["{out}/monitor", CHIP], ERASE + ".trace", 0),
    ("monitor_busy", ["{out}/monitor", CHIP], "examples/c/busy.trace", 1),
    ("monitor_status", ["{out}/monitor", CHIP, "no_ready"], "examples/c/no_ready.trace", 0),
    ("status", ["{out}/status"], None, 0),
    ("loader", LOADER, None, 1),
    ("live", ["{out}/live", CHIP, ERASE + ".asm", "4", "examples/small_chip/read_spare.asm", "0"], None, 0),
    ("stuck", ["{out}/stuck"], None, 0),
    ("driver", ["{out}/driver"], None, 0),
    ("threads", ["{out}/threads", CHIP], None, 0),
    ("check", ["{out}/check", CHIP, ERASE + ".trace"], None, 0),
    ("check_busy", ["{out}/check", CHIP, "examples/c/busy.trace"], None, 1),
    ("first", ["{out}/first"], None, 0),
    ("monitor_cpp", ["{out}/monitor_cpp", CHIP], ERASE + ".trace", 0),
    ("page", ["{out}/page", CHIP], "examples/c/busy.trace", 1),
    ("fuzz", ["{out}/fuzz", "100000", "1", CHIP], None, 0),
    ("fuzz_damaged", ["{out}/fuzz", "20000", "1", CHIP, "damaged"], None, 0),
    ("python", [sys.executable, "examples/python/monitor.py", SHARED, CHIP, ERASE + ".asm"], ERASE + ".trace", 0),
    ("python_busy", [sys.executable, "examples/python/monitor.py", SHARED, CHIP, "examples/c/no_wait.asm"], "examples/c/busy.trace", 0),
)

# The users that tools/c_file.py tries over the one C file in another way: one that brings memory of its own, and one with an interrupt.
OF_LIBRARIES = (
    ("loader_pool", ["{out}/loader_pool"] + LOADER[1:], None, 1),
    ("interrupt", ["{out}/interrupt", CHIP], None, 0),
)

# The users in Rust, where rustc is installed.
RUST = (
    ("rust", ["{out}/monitor_rs", CHIP], ERASE + ".trace", 0),
    ("rust_busy", ["{out}/monitor_rs", CHIP], "examples/c/busy.trace", 0),
)
# And where cargo is.
CARGO = (("rust_sys", ["{out}/cargo/debug/examples/watch"], None, 0),)


def load_kit():
    """The kit's own `rt`, as a module, so that a library is built as that would build it."""
    gate = load_gate()
    library = gate.rtlib
    library.stop, library.Crate = gate.stop, gate.Crate
    gate.Crate.cuts_libraries, gate.Crate.allowed = True, gate.handles_of(os.getcwd())
    return library


# Where the archives stand: of the libraries, or of the one C file.
BUILT, PORTABLE = "crates/{0}/out/lib{0}.a", OUT + "/portable/lib{0}.a"
archives_at = BUILT


def archive_of(name):
    return archives_at.format(name)


def read(path):
    with open(path) as it:
        return it.read()


def is_built(path, stamp):
    """Whether the archive is there, built from these sources."""
    return os.path.isfile(path) and os.path.isfile(path + ".stamp") and read(path + ".stamp") == stamp


class NotBuilt(Exception):
    """What the kit says of a crate that it didn't build."""


def make_archive(library, crate, path):
    """Builds the archive of a crate over crates that are proved. What is kept of this check, tools/machines takes for the other processors."""
    words = [library.RATTLE, "build", *crate.words([]), *library.KEPT, "--toolchain", library.KIT + "/toolchain"]
    words += ["-o", os.path.abspath(path)]
    ran = subprocess.run(words, cwd=crate.folder, stdout=subprocess.PIPE, stderr=subprocess.STDOUT, text=True, errors="replace")
    if ran.returncode or not os.path.isfile(path):
        raise NotBuilt(ran.stdout[-2000:])
    memory.give(path, library.KIT + "/toolchain", ["-O2", "-fPIC"])


def build(library, crate):
    """Brings the archive of a crate here: what this machine has built of the same, or a new one. Says why where it can't."""
    path, stamp = archive_of(crate.name), "%s\nmemory %s\n" % (crate.stamp(), memory.sum_of_sources())
    if is_built(path, stamp):
        return None
    lacking = [below.name for below in crate.below() if not os.path.isfile("%s/format" % below.rlib)]
    if lacking:
        return "%s isn't proved here: run rt ci first" % lacking[0]
    folder, name = os.path.split(path)
    os.makedirs(folder, exist_ok=True)
    try:
        made.take_or_make(sys.modules["gate"], ["x86-64", stamp], folder, [name], lambda: make_archive(library, crate, path))
    except NotBuilt as why:
        return str(why)
    with open(path + ".stamp", "w") as it:
        it.write(stamp)
    return None


def build_all():
    library = load_kit()
    crates = {crate.name: crate for crate in library.crates_below(os.getcwd())}
    with ThreadPoolExecutor(len(LIBRARIES)) as pool:
        found = list(pool.map(lambda name: build(library, crates[name]), LIBRARIES))
    for name, why in zip(LIBRARIES, found):
        if why:
            sys.exit("c_library: %s: %s" % (name, why))


def build_portable():
    """Archives of the same names over release/onfiseq.c: the first has all of its calls."""
    folder, first = os.path.dirname(PORTABLE), PORTABLE.format(LIBRARIES[0])
    if os.path.isfile(first) and os.path.getmtime(first) > os.path.getmtime("release/onfiseq.c"):
        return
    shutil.rmtree(folder, ignore_errors=True)
    os.makedirs(folder)
    subprocess.run(["cc", "-O1", "-fPIC", "-Iinclude", "-c", "release/onfiseq.c", "-o", folder + "/onfiseq.o"], check=True)
    for name in reversed(LIBRARIES):
        subprocess.run(["ar", "rcs", PORTABLE.format(name)] + [folder + "/onfiseq.o"] * (name == LIBRARIES[0]), check=True)


# What calls the monitor of docs/use/C.md, which stands in front of it.
CALLER = """
int main(int count, char **words) {
    static uint8_t bytes[4096];
    unsigned target, byte;
    char kind;
    FILE *file = fopen(words[count - 1], "rb");
    size_t length = file ? fread(bytes, 1, sizeof bytes, file) : 0;
    if (file) fclose(file);
    if (!begin(bytes, length, 1)) return 2;
    while (scanf("%u %c %x", &target, &kind, &byte) == 3)
        if (!see((uint8_t)target, kind, (uint8_t)byte)) return 1;
    return 0;
}
"""


def write_page_programs():
    """The programs that docs/use/C.md shows: the first is whole, and the monitor has the caller above."""
    first, monitor = re.findall(r"^```c\n(#include.*?)^```$", read("docs/use/C.md"), re.M | re.S)
    for name, shown in (("first", first), ("page", monitor.replace("bool begin", "static bool begin").replace("bool see", "static bool see") + CALLER)):
        with open("%s/%s.c" % (OUT, name), "w") as it:
            it.write(shown)


def compile_all():
    """Compiles the users and the shared object; each warning is an error."""
    archives = [archive_of(name) for name in LIBRARIES]
    os.makedirs(OUT, exist_ok=True)

    def run(*words):
        subprocess.run(words, check=True)

    for name in ("layout", "monitor", "status", "loader", "live", "stuck", "driver", "check"):
        run(*CC, "examples/c/%s.c" % name, *archives, "-o", "%s/%s" % (OUT, name))
    if archives_at == BUILT:  # the one C file has neither pictures nor notes, and asks for memory by realloc
        run(*CC, "-DROOM=16777216", "examples/c/loader.c", "examples/c/pool.c", *archives, "-o", OUT + "/loader_pool")
        for name in ("stack", "interrupt"):
            run(*CC, "-std=gnu11", "examples/c/%s.c" % name, *archives, "-pthread", "-o", "%s/%s" % (OUT, name))
    run(*CC, "examples/c/threads.c", *archives, "-pthread", "-o", OUT + "/threads")
    write_page_programs()
    for name in ("page", "first"):
        run(*CC, "%s/%s.c" % (OUT, name), *archives, "-o", "%s/%s" % (OUT, name))
    run(*CC, "-g", "-fsanitize=address", "examples/c/fuzz.c", *archives, "-o", OUT + "/fuzz")
    run(*CC, "-c", simulators.SHIM, "-o", OUT + "/onfiseq_dpi.o")
    run(*CXX, "-x", "c++", "examples/c/monitor.c", "-x", "none", *archives, "-o", OUT + "/monitor_cpp")
    run("cc", "-shared", "-o", SHARED, "-Wl,--whole-archive", *archives, "-Wl,--no-whole-archive")


def run_user(name, words, given, status):
    """Runs a user, and says what differs, if something does."""
    ran = subprocess.run(
        [word.format(out=OUT) for word in words],
        env={**os.environ, "PYTHONDONTWRITEBYTECODE": "1"},
        stdin=open(given) if given else subprocess.DEVNULL,
        stdout=subprocess.PIPE,
        stderr=subprocess.PIPE,
        text=True,
        errors="replace",
        timeout=600,
    )
    language = name.split("_")[0]
    wanted = read("examples/%s/expected/%s" % (language if language in ("python", "rust") else "c", name))
    if ran.returncode == status and ran.stdout == wanted:
        return None
    return "it ended with %d and printed\n%s%swhere it is to end with %d and print\n%s" % (ran.returncode, ran.stdout, ran.stderr[-2000:], status, wanted)


def compare_words():
    """Whether onfiseq_words has the words of docs/use/CODES.md for each code of its letters, words for each answer without a number, and none for any other."""
    sys.dont_write_bytecode = True
    sys.path.insert(0, "examples/python")
    import onfiseq

    lib = onfiseq.load(SHARED)
    known = dict(re.findall(r"^\| ([APFMSVX]\d+) \| (.*) \|$", read("docs/use/CODES.md"), re.M))
    known["D1"] = "the record has another size or version than the library"
    told = {letter: [onfiseq.words(lib, letter, number) for number in range(256)] for letter in string.ascii_uppercase}
    wrong = [letter + str(at) for letter in "APFMSVX" for at, it in enumerate(told[letter]) if it != known.get(letter + str(at), "")]
    wrong += [letter for letter in "BCHILNORTUWY" if not told[letter][0] or any(told[letter][1:])]
    wrong += [letter for letter in "GJKQZ" if any(told[letter])]
    wrong += ["E"] * (not all(told["E"])) + ["D"] * (not told["D"][0] or told["D"][1] != known["D1"] or any(told["D"][2:]))
    return "%s hasn't its words" % wrong[0] if wrong or len(known) < 55 else None


def run_python_bench():
    """Runs the test bench of examples/python, by pytest where it is installed; one test wants the checker alone."""
    checker = OUT + "/libonfiseq_checker.so"
    subprocess.run(["cc", "-shared", "-o", checker, "-Wl,--whole-archive", archive_of("onfiseq_c"), "-Wl,--no-whole-archive"], check=True)
    if archives_at == PORTABLE:  # it has all calls
        checker = ""
    names = {"ONFISEQ_LIBRARY": SHARED, "ONFISEQ_CHECKER": checker, "PYTHONDONTWRITEBYTECODE": "1"}
    runner = ["-m", "pytest", "-q", "-p", "no:cacheprovider"] if importlib.util.find_spec("pytest") else []
    ran = subprocess.run([sys.executable, *runner, "examples/python/test_channel.py"], env={**os.environ, **names}, stdout=subprocess.PIPE, stderr=subprocess.STDOUT, text=True)
    return ran.stdout[-3000:] if ran.returncode else None


def run_rust():
    """Builds and runs the users in Rust: what differs, by their names."""
    words = ["rustc", "-O", "-D", "warnings", "examples/rust/monitor.rs", "-L", os.path.dirname(archive_of("onfiseq_c")), "-l", "static=onfiseq_c"]
    subprocess.run(words + ["-o", OUT + "/monitor_rs"], check=True)
    return {name: run_user(name, *how) for name, *how in RUST}


def run_cargo():
    """Builds the crate onfiseq-sys without a registry, tries it, and runs its example."""
    names = {"CARGO_TARGET_DIR": os.path.abspath(OUT + "/cargo"), "RUSTFLAGS": "-D warnings"}
    if archives_at == PORTABLE:
        names["ONFISEQ_LIB"] = os.path.abspath(os.path.dirname(PORTABLE))
    for words in (["build", "--no-default-features"], ["build", "--examples"], ["test"]):
        ran = subprocess.run(["cargo", *words, "--offline", "--quiet"], cwd="examples/rust/onfiseq-sys", env={**os.environ, **names}, stdout=subprocess.PIPE, stderr=subprocess.STDOUT, text=True)
        if ran.returncode:
            return {"rust_sys": ran.stdout[-3000:]}
    return {name: run_user(name, *how) for name, *how in CARGO}


def run_all():
    """Runs each user: what differs, by its name."""
    found = {name: run_user(name, *how) for name, *how in USERS + (OF_LIBRARIES if archives_at == BUILT else ())}
    found["words"] = compare_words()
    found["python_bench"] = run_python_bench()
    for tool, runs in (("rustc", run_rust), ("cargo", run_cargo)):
        if shutil.which(tool):
            found.update(runs())
        else:
            print("c_library: %s isn't installed, so its users in examples/rust aren't tried" % tool)
    for tool, benches in simulators.BENCHES.items():
        why = simulators.why_not(tool)
        if why:
            print("c_library: %s, so its benches aren't tried" % why)
        else:
            found.update({bench.__name__[len("run_"):]: bench([archive_of("onfiseq_c"), archive_of("onfiseq_text_c")]) for bench in benches})
    return found


def main():
    global archives_at
    if sys.argv[1:] == ["--portable"]:
        archives_at = PORTABLE
        build_portable()
    else:
        build_all()
    if sys.argv[1:] == ["--build"]:
        return 0
    compile_all()
    if sys.argv[1:2] in (["--fuzz"], ["--damage"]):
        damaged = ["damaged"] if sys.argv[1] == "--damage" else []
        return subprocess.run([OUT + "/fuzz", sys.argv[2], str(int(time.time())), CHIP, *damaged]).returncode
    found = run_all()
    for name, why in found.items():
        print("c_library: %s %s" % (name, "differs: " + why if why else "ok"))
    return 1 if any(found.values()) else 0


if __name__ == "__main__":
    sys.exit(main())

"""Installs each package of a folder in an empty one, and uses it there, for `tools/dist --try`; one whose tools aren't installed is skipped by name."""
import glob
import os
import re
import shutil
import subprocess
import sys
import tempfile

import version

# What each package is shown: an erase, and the same with a command too soon.
PAGE = os.path.abspath("examples/small_chip/chip.page")
ERASE = os.path.abspath("examples/small_chip/erase_block.trace")
TOO_SOON = os.path.abspath("examples/c/busy.trace")
MONITOR = os.path.abspath("examples/c/monitor.c")
BENCH = os.path.abspath("examples/systemverilog/expected/verilator")

PYTHON = """import onfiseq, sys
fault = onfiseq.check(open(sys.argv[1], "rb").read(), 1, open(sys.argv[2]).read())["fault"]
print("refused", fault["code"], "at", fault["item"], "by", onfiseq.__version__)
"""
NODE = """const { load } = require("onfiseq"), fs = require("fs");
load().then(lib => {
    const chip = lib.read_page(new Uint8Array(fs.readFileSync(process.argv[2])));
    const item = { ce: 0, kind: 67, byte: 0x60, fail: 0 }, answer = lib.check(chip.geometry, 1, [item, item]);
    console.log("refused", String.fromCharCode(answer.letter) + answer.number, lib.says(answer.letter, answer.number));
});
"""
CMAKE = """cmake_minimum_required(VERSION 3.13)
project(user C)
find_package(onfiseq {number} REQUIRED CONFIG)
add_executable(monitor {monitor})
target_link_libraries(monitor onfiseq::onfiseq)
"""
CARGO = '[package]\nname = "user"\nversion = "0.0.1"\nedition = "2021"\n\n[dependencies]\nonfiseq-sys = {{ path = "{top}" }}\n'
RUST = """fn main() {
    let page = std::fs::read(std::env::args().nth(1).unwrap()).unwrap();
    let mut channel = onfiseq_sys::Channel::of_page(&page, 1).unwrap();
    channel.push(onfiseq_sys::Item::command(0, 0x60)).unwrap();
    println!("refused {}", channel.push(onfiseq_sys::Item::command(0, 0x60)).unwrap_err());
}
"""


def run(words, room, given=None, env=None, status=0):
    """What a command prints, which must end with this status."""
    with open(given or os.devnull) as it:
        ran = subprocess.run(words, cwd=room, stdin=it, stdout=subprocess.PIPE, stderr=subprocess.STDOUT, text=True, env={**os.environ, **(env or {})})
    if ran.returncode != status:
        raise RuntimeError("%s ended with %d:\n%s" % (" ".join(words), ran.returncode, ran.stdout[-2000:]))
    return ran.stdout


def write(path, text):
    os.makedirs(os.path.dirname(path), exist_ok=True)
    with open(path, "w") as it:
        it.write(text)


def want(text, part):
    if part not in text:
        raise RuntimeError("it printed %r, without %r" % (text, part))


def unpacked(package, room):
    """The folder in a tarball."""
    run(["tar", "-xzf", package], room)
    return glob.glob(room + "/*/")[0].rstrip("/")


def try_program(words, room, env=None):
    """The program: its number, and a command too soon."""
    want(run([*words, "--version"], room, env=env), "onfiseq %s\n" % version.number())
    want(run([*words, "check", PAGE, "1", TOO_SOON], room, env=env, status=1), "refused F9 at 5")


def try_pkg_config(package, room):
    """The tarball by pkg-config: a program over the shared object; and the program in it."""
    top = unpacked(package, room)
    flags = run(["pkg-config", "--cflags", "--libs", "onfiseq >= %s" % version.number()], room, env={"PKG_CONFIG_PATH": top + "/lib/pkgconfig"}).split()
    run(["cc", MONITOR, *flags, "-Wl,-rpath," + top + "/lib", "-o", "monitor"], room)
    want(run(["./monitor", PAGE], room, TOO_SOON, status=1), "(F9)")
    if os.path.isfile(top + "/bin/onfiseq"):
        try_program([top + "/bin/onfiseq"], room)


def try_cmake(package, room):
    """The tarball by CMake: a program over the static library."""
    top = unpacked(package, room)
    write(room + "/CMakeLists.txt", CMAKE.format(monitor=MONITOR, number=version.number()))
    run(["cmake", "-S", ".", "-B", "build", "-DCMAKE_PREFIX_PATH=" + top], room)
    run(["cmake", "--build", "build"], room)
    want(run(["build/monitor", PAGE], room, TOO_SOON, status=1), "(F9)")


def try_pip(package, room):
    """The wheel, or the sources, which it compiles: by pip into a folder of its own."""
    run([sys.executable, "-m", "pip", "install", "--no-index", "--no-deps", "--target", room + "/site", package], room)
    write(room + "/user.py", PYTHON)
    names = {"PYTHONPATH": room + "/site"}
    want(run([sys.executable, "user.py", PAGE, TOO_SOON], room, env=names), "refused F9 at 5 by " + version.number())
    if os.path.isfile(room + "/site/onfiseq/onfiseq"):
        try_program([sys.executable, "-m", "onfiseq"], room, names)
        try_program([room + "/site/bin/onfiseq"], room, names)


def try_cargo(package, room):
    """The crate, with no registry: by a user of its own, and by its tests, several at a time."""
    top = unpacked(package, room)
    write(room + "/user/Cargo.toml", CARGO.format(top=top))
    write(room + "/user/src/main.rs", RUST)
    want(run(["cargo", "run", "--offline", "--quiet", "--", PAGE], room + "/user", env={"CARGO_TARGET_DIR": room + "/target"}), "(F3)")
    run(["cargo", "test", "--offline", "--quiet"], top, env={"CARGO_TARGET_DIR": room + "/target"})


def try_npm(package, room):
    """The package for Node."""
    write(room + "/package.json", "{}")
    run(["npm", "install", "--offline", "--no-audit", "--no-fund", package], room)
    write(room + "/user.js", NODE)
    want(run(["node", "user.js", PAGE], room), "refused F3")


def try_program_of_debian(room):
    """The program with its page and completions."""
    try_program([room + "/usr/bin/onfiseq"], room)
    want(run(["gzip", "-cd", "usr/share/man/man1/onfiseq.1.gz"], room), ".TH")
    run(["bash", "-n", "usr/share/bash-completion/completions/onfiseq"], room)


def try_debian(package, room):
    """The Debian packages, unpacked into one folder: the library, and the others where they are there."""
    packages = glob.glob(os.path.dirname(package) + "/*.deb")
    for its in packages:
        run(["dpkg-deb", "--extract", its, room], room)
    run(["cc", "-Iusr/include", MONITOR, "usr/lib/libonfiseq.a", "-o", "monitor"], room)
    want(run(["./monitor", PAGE], room, TOO_SOON, status=1), "(F9)")
    if len(packages) == 1:
        return
    try_program_of_debian(room)
    write(room + "/user.py", PYTHON)
    names = {"PYTHONPATH": room + "/usr/lib/python3/dist-packages"}
    want(run([sys.executable, "user.py", PAGE, TOO_SOON], room, env=names), "refused F9 at 5")
    try_program([sys.executable, "-m", "onfiseq"], room, names)


def try_core(package, room):
    """The core: the files that it names are in its folder, and Verilator builds and runs its bench of these alone."""
    top = unpacked(package, room)
    with open(top + "/onfiseq.core") as it:
        names = re.findall(r"(?m)^      - (\S+?)(?: :.*)?$", it.read())
    sources = [name for name in names if name.endswith((".sv", ".c"))]
    run(["verilator", "--binary", "--timing", "--top-module", "bench", "-CFLAGS", "-I..", "-Mdir", "obj", *sources], top)
    ran = subprocess.run(["obj/Vbench", "+verilator+error+limit+99"], cwd=top, stdout=subprocess.PIPE, stderr=subprocess.STDOUT, text=True)
    with open(BENCH) as it:
        if re.findall(r"onfiseq: (.*)", ran.stdout) != it.read().splitlines():
            raise RuntimeError("the bench printed\n%s" % ran.stdout[-2000:])


# Each trial: the package's name, what it needs, and the trial.
TRIALS = (
    ("onfiseq-[0-9]*-*.tar.gz", "pkg-config", try_pkg_config),
    ("onfiseq-[0-9]*-*.tar.gz", "cmake", try_cmake),
    ("*.whl", "pip", try_pip),
    ("onfiseq-[0-9.]*[0-9].tar.gz", "pip", try_pip),
    ("*.crate", "cargo", try_cargo),
    ("onfiseq-*.tgz", "npm", try_npm),
    ("libonfiseq-dev*.deb", "dpkg-deb", try_debian),
    ("onfiseq-core-*.tar.gz", "verilator", try_core),
)


def try_package(pattern, tool, trial, folder):
    """Tries one package: True where it goes wrong."""
    found = sorted(glob.glob("%s/%s" % (folder, pattern)), key=len)
    if not found or shutil.which(tool) is None:
        print("trial: skipped: %s, as %s" % (pattern, "it isn't there" if not found else tool + " isn't installed"))
        return False
    with tempfile.TemporaryDirectory() as room:
        try:
            trial(os.path.abspath(found[0]), room)
        except RuntimeError as why:
            print("trial: %s by %s: %s" % (os.path.basename(found[0]), tool, why))
            return True
    print("trial: %s by %s ok" % (os.path.basename(found[0]), tool), flush=True)
    return False


def try_all(folder):
    """Tries each package of a folder: 1 where one goes wrong."""
    return 1 if any([try_package(*it, folder) for it in TRIALS]) else 0

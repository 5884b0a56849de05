"""Builds the libraries for C for processors other than Linux on x86-64, for WebAssembly, and as one C file.

    python3 tools/machines [OUT]             all of them, into out/machines where no folder is named
    python3 tools/machines --only NAME,.. [OUT]    some: names of tools/machines/targets.py, wasm, portable
    python3 tools/machines --program [OUT]   the whole program as C alone, into OUT/program; with --unproved of the program as it stands, to try a change
    python3 tools/machines --release         the folder release/ anew
    python3 tools/machines --check           whether release/ is made of the sources that stand here, and as it was made

at the root. Everything is built over crates that are proved here (rt ci, or rt check and rt lib in each); a crate that isn't proved as it stands is refused.
"""
import argparse
import os
import sys

import program
import release
from building import Building
from kit import Kit, stop
from targets import TARGETS


def build(out, only):
    """Builds what is wanted."""
    unknown = [name for name in only if name not in TARGETS and name not in ("wasm", "portable", "aarch64-linux")]
    if unknown:
        stop("no processor is called %s" % unknown[0])
    building = Building(Kit(), out)
    building.aarch64()
    for name in TARGETS:
        if not only or name in only:
            building.target(name)
    if not only or "wasm" in only or "portable" in only:
        building.wasm()
    if not only or "portable" in only:
        building.portable()


def main():
    words = argparse.ArgumentParser(prog="tools/machines")
    words.add_argument("out", nargs="?", default="out/machines")
    words.add_argument("--only", default="")
    for name in ("--release", "--check", "--program", "--unproved"):
        words.add_argument(name, action="store_true")
    given = words.parse_args()
    if not os.path.isfile("crates.txt"):
        stop("call it at the root of the repository")
    if given.check:
        return release.check()
    if given.release:
        return release.make(given.out)
    if given.program:
        return program.write_to(given.out + "/program", program.make(given.out, not given.unproved))
    return build(given.out, [it for it in given.only.split(",") if it])


if __name__ == "__main__":
    sys.exit(main())

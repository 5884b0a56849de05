"""The native libraries that the kit has built of these sources: those for Linux on x86-64 of tools/c_library.py, and a folder for each other processor of tools/machines;
tools/release calls it."""
import glob
import os
import subprocess
import sys

import archive
import stamp

LIBRARIES = "crates/onfiseq*_c/out/libonfiseq*_c.a"


def own():
    """The libraries and the program for Linux on x86-64, built where they aren't."""
    if subprocess.run([sys.executable, "tools/c_library.py", "--build"], stdout=sys.stderr).returncode:
        sys.exit("release: the native libraries can't be built here: --portable leaves them out")
    files = {os.path.basename(path): archive.read(path) for path in sorted(glob.glob(LIBRARIES))}
    if os.path.isfile("crates/onfiseq/out/onfiseq"):
        files["onfiseq"] = archive.read("crates/onfiseq/out/onfiseq")
    return {"x86_64-linux/" + name: content for name, content in {**files, "onfiseq.h": archive.read("include/onfiseq.h")}.items()}


def others():
    """What tools/machines has built, folder by folder; of other sources it is left out, and said so."""
    files = {}
    for path in sorted(glob.glob("out/machines/*/STAMP")):
        folder = os.path.dirname(path)
        if stamp.differing(archive.read(path).decode()):
            print("release: left out: %s is built of other sources" % folder, file=sys.stderr)
        else:
            files.update(archive.read_folder(folder, os.path.basename(folder)))
    return files


def contents():
    """The files, by their names in the release."""
    return {**own(), **others()}

"""The package for Python: its sources, which pip compiles by a C compiler alone, and the wheel that they make here; tools/dist calls it."""
import os
import subprocess
import sys
import tempfile

import archive
import version

PACKAGE, SOURCES = "examples/python/onfiseq", "tools/packages/python"
METADATA = "Metadata-Version: 2.1\nName: %s\nVersion: %s\nSummary: %s\nRequires-Python: >=3.8\nLicense: MIT\n"
BUILD = "import sys; sys.dont_write_bytecode = True; sys.path.insert(0, '.'); import onfiseq_build; print(onfiseq_build.build_wheel(sys.argv[1]))"


def package():
    """The files of the package itself, by their names in it."""
    return {name: archive.read("%s/%s" % (PACKAGE, name)) for name in sorted(os.listdir(PACKAGE)) if name.endswith((".py", ".typed"))}


def c_sources():
    """The C files of release/: the library, and the program where it is there."""
    files = {name: archive.read("release/" + name) for name in ("onfiseq.c", "onfiseq.h")}
    return {**files, **(archive.read_folder("release/program", "program") if os.path.isdir("release/program") else {})}


def contents():
    """The files of the sources, by their names in them."""
    files = {"c/" + name: content for name, content in c_sources().items()}
    files.update({"onfiseq/" + name: content for name, content in package().items()})
    files.update({name: archive.read("%s/%s" % (SOURCES, name)) for name in ("pyproject.toml", "onfiseq_build.py")})
    files["PKG-INFO"] = (METADATA % (version.NAME, version.number(), version.SAID)).encode()
    files["LICENSE"] = archive.read("LICENSE")
    return files


def write(folder):
    """The sources, and the wheel that they make."""
    top, files = "%s-%s" % (version.NAME, version.number()), contents()
    archive.write_tar("%s/%s.tar.gz" % (folder, top), files, top)
    with tempfile.TemporaryDirectory() as room:
        archive.write_folder(files, room)
        names = {**os.environ, "SOURCE_DATE_EPOCH": str(version.time())}
        ran = subprocess.run([sys.executable, "-c", BUILD, os.path.abspath(folder)], cwd=room, env=names, stdout=subprocess.PIPE, text=True)
    if ran.returncode:
        sys.exit("dist: the wheel isn't made")
    made = "%s/%s" % (folder, ran.stdout.strip())
    print("%s, %d bytes" % (made, os.path.getsize(made)), flush=True)

"""Makes the wheel of onfiseq of its sources, by a C compiler and nothing else: pip calls it, by PEP 517, in the folder of the sources.

CC names the compiler (cc if it doesn't), CFLAGS its options (-O1), LDFLAGS those for linking. SOURCE_DATE_EPOCH is the time of the files in the wheel. Where the sources have no program, the
wheel has the library alone.
"""
import base64
import glob
import hashlib
import io
import os
import re
import shlex
import subprocess
import sys
import sysconfig
import tarfile
import tempfile
import time
import zipfile
from concurrent.futures import ThreadPoolExecutor

# The first day of 1980, before which ZIP has no times.
FIRST_DAY = 315532800
ENTRY_POINTS = "[console_scripts]\nonfiseq = onfiseq.__main__:main\n"


def read(path):
    with open(path, "rb") as it:
        return it.read()


def compiler():
    return [*shlex.split(os.environ.get("CC", "cc")), *shlex.split(os.environ.get("CFLAGS", "-O1"))]


def link_options():
    return shlex.split(os.environ.get("LDFLAGS", ""))


def compile_c(*words):
    """Calls the compiler, and ends with what it says where it isn't there or refuses."""
    try:
        ran = subprocess.run([*compiler(), *words], stdout=subprocess.PIPE, stderr=subprocess.STDOUT, text=True)
    except OSError as why:
        sys.exit("onfiseq: the C compiler `%s` can't be called: %s; set CC to one" % (compiler()[0], why.strerror))
    if ran.returncode:
        sys.exit("onfiseq: `%s` ended with %d:\n%s" % (" ".join([*compiler(), *words]), ran.returncode, ran.stdout[-2000:]))


def make_library(sources, folder):
    """The shared object of the one C file, and its object for an archive."""
    made = folder + "/onfiseq.o"
    compile_c("-fPIC", "-I" + sources, "-c", sources + "/onfiseq.c", "-o", made)
    compile_c("-shared", "-s", made, "-o", folder + "/libonfiseq.so", *link_options())
    return folder + "/libonfiseq.so", made


def make_program(sources, folder):
    """The program, each file by a compiler of its own; None where the sources have none."""
    files = sorted(glob.glob(sources + "/program/*.c"))
    if not files:
        return None
    objects = ["%s/%s.o" % (folder, os.path.basename(file)) for file in files]
    with ThreadPoolExecutor(os.cpu_count()) as pool:
        list(pool.map(lambda pair: compile_c("-pthread", "-c", pair[0], "-o", pair[1]), zip(files, objects)))
    compile_c("-s", *objects, "-o", folder + "/onfiseq", "-pthread", *link_options())
    return folder + "/onfiseq"


def make_all(sources, folder):
    """The shared object of the one C file, its object, and the program, which are compiled at the same time."""
    with ThreadPoolExecutor(2) as pool:
        library, program = pool.submit(make_library, sources, folder), pool.submit(make_program, sources, folder)
        return (*library.result(), program.result())


def metadata():
    return read("PKG-INFO").decode()


def info_folder():
    return "onfiseq-%s.dist-info" % re.search(r"(?m)^Version: (.*)$", metadata())[1]


def tag():
    return "py3-none-" + re.sub(r"[-.]", "_", sysconfig.get_platform())


def record_of(files, info):
    """The list of files with their checksums."""
    lines = []
    for name, content in files.items():
        digest = base64.urlsafe_b64encode(hashlib.sha256(content).digest()).rstrip(b"=").decode()
        lines.append("%s,sha256=%s,%d" % (name, digest, len(content)))
    return "\n".join(lines + [info + "/RECORD,,"]) + "\n"


def write_wheel(path, files, runs):
    """Writes the wheel, all of it or nothing; those of `runs` may be run."""
    at, packed = time.gmtime(max(FIRST_DAY, int(os.environ.get("SOURCE_DATE_EPOCH", 0))))[:6], io.BytesIO()
    with zipfile.ZipFile(packed, "w", zipfile.ZIP_DEFLATED) as it:
        for name, content in files.items():
            entry = zipfile.ZipInfo(name, at)
            entry.external_attr, entry.compress_type = (0o100755 if name in runs else 0o100644) << 16, zipfile.ZIP_DEFLATED
            it.writestr(entry, content)
    with open(path + ".new", "wb") as it:
        it.write(packed.getvalue())
    os.replace(path + ".new", path)


def build_wheel(wheel_directory, config_settings=None, metadata_directory=None):
    files = {"onfiseq/" + os.path.basename(path): read(path) for path in sorted(glob.glob("onfiseq/*.py") + ["onfiseq/py.typed"])}
    with tempfile.TemporaryDirectory() as room:
        shared, _, program = make_all("c", room)
        files["onfiseq/libonfiseq.so"] = read(shared)
        if program:
            files["onfiseq/onfiseq"] = read(program)
    info = info_folder()
    files[info + "/METADATA"] = metadata().encode()
    files[info + "/WHEEL"] = ("Wheel-Version: 1.0\nGenerator: onfiseq_build\nRoot-Is-Purelib: false\nTag: %s\n" % tag()).encode()
    files[info + "/entry_points.txt"] = ENTRY_POINTS.encode()
    files[info + "/LICENSE"] = read("LICENSE")
    files[info + "/RECORD"] = record_of(files, info).encode()
    name = "%s-%s.whl" % (info[: -len(".dist-info")], tag())
    write_wheel(os.path.join(wheel_directory, name), files, ("onfiseq/libonfiseq.so", "onfiseq/onfiseq"))
    return name


def build_sdist(sdist_directory, config_settings=None):
    top = info_folder()[: -len(".dist-info")]
    with tarfile.open(os.path.join(sdist_directory, top + ".tar.gz"), "w:gz") as it:
        for name in ("PKG-INFO", "pyproject.toml", "onfiseq_build.py", "LICENSE", "onfiseq", "c"):
            it.add(name, "%s/%s" % (top, name), filter=lambda entry: None if "__pycache__" in entry.name else entry)
    return top + ".tar.gz"

"""What is installed on this machine, and the tarball of it: the library of the one C file with its header, what pkg-config and CMake want, and the program with its manual
page and its completions where release/program is there; tools/dist calls it."""
import os
import platform
import subprocess
import sys
import tempfile

import archive
import version

sys.path.insert(0, "tools/packages/python")
import onfiseq_build

PKG_CONFIG = """prefix=${{pcfiledir}}/../..
libdir=${{prefix}}/lib
includedir=${{prefix}}/include

Name: onfiseq
Description: {said}
Version: {number}
Cflags: -I${{includedir}}
Libs: -L${{libdir}} -lonfiseq
"""

# onfiseq::onfiseq is the static library; for another processor than that it was compiled for, it is compiled of its source.
CMAKE = """get_filename_component(onfiseq_root "${{CMAKE_CURRENT_LIST_DIR}}/../../.." ABSOLUTE)
set(onfiseq_VERSION {number})
if(NOT TARGET onfiseq::onfiseq)
    if(CMAKE_SYSTEM_NAME STREQUAL "{system}" AND CMAKE_SYSTEM_PROCESSOR STREQUAL "{machine}")
        add_library(onfiseq::onfiseq STATIC IMPORTED)
        set_target_properties(onfiseq::onfiseq PROPERTIES
            IMPORTED_LOCATION "${{onfiseq_root}}/lib/libonfiseq.a"
            INTERFACE_INCLUDE_DIRECTORIES "${{onfiseq_root}}/include")
    else()
        add_library(onfiseq_compiled STATIC "${{onfiseq_root}}/share/onfiseq/onfiseq.c")
        target_include_directories(onfiseq_compiled PUBLIC "${{onfiseq_root}}/include")
        add_library(onfiseq::onfiseq ALIAS onfiseq_compiled)
    endif()
endif()
"""
CMAKE_VERSION = """set(PACKAGE_VERSION {number})
if(PACKAGE_FIND_VERSION VERSION_GREATER PACKAGE_VERSION)
    set(PACKAGE_VERSION_COMPATIBLE FALSE)
else()
    set(PACKAGE_VERSION_COMPATIBLE TRUE)
    if(PACKAGE_FIND_VERSION VERSION_EQUAL PACKAGE_VERSION)
        set(PACKAGE_VERSION_EXACT TRUE)
    endif()
endif()
"""


def pack_library(shared, made, folder):
    """The library, static and shared."""
    subprocess.run(["ar", "rcsD", folder + "/libonfiseq.a", made], check=True)
    return {"lib/libonfiseq.a": archive.read(folder + "/libonfiseq.a"), "lib/libonfiseq.so": archive.Content(archive.read(shared))}


def document_program(program):
    """The program with its manual page and its completions, where man and bash-completion look for them; nothing where there is no release/program."""
    if program is None:
        return {}
    pages = {"share/man/man1/onfiseq.1": "release/onfiseq.1", "share/bash-completion/completions/onfiseq": "release/onfiseq.bash"}
    return {"bin/onfiseq": archive.read(program), **{place: archive.read(path) for place, path in pages.items()}}


def build():
    """What is installed, by its place below /usr or another folder."""
    words = {"said": version.SAID, "number": version.number(), "system": platform.system(), "machine": platform.machine()}
    files = {"include/onfiseq.h": archive.read("release/onfiseq.h"), "share/onfiseq/onfiseq.c": archive.read("release/onfiseq.c")}
    files["lib/pkgconfig/onfiseq.pc"] = PKG_CONFIG.format(**words).encode()
    files["lib/cmake/onfiseq/onfiseq-config.cmake"] = CMAKE.format(**words).encode()
    files["lib/cmake/onfiseq/onfiseq-config-version.cmake"] = CMAKE_VERSION.format(**words).encode()
    with tempfile.TemporaryDirectory() as folder:
        shared, made, program = onfiseq_build.make_all("release", folder)
        return {**files, **pack_library(shared, made, folder), **document_program(program)}


def write(installed, folder):
    """The tarball: what is installed, and what one reads and tries."""
    files = {**installed, **archive.read_folder("docs/use", "docs/use"), **archive.read_folder("examples", "examples")}
    files.update({name: archive.read(name) for name in ("README.md", "LICENSE", "CHANGELOG.md")})
    files["VERSION"] = ("%s %s\nof commit %s\n" % (version.NAME, version.number(), version.commit())).encode()
    top = "%s-%s-%s" % (version.NAME, version.number(), platform.machine())
    archive.write_tar("%s/%s.tar.gz" % (folder, top), files, top)

"""The crate onfiseq-sys with the one C file in it, which its build.rs compiles: it needs a C compiler, and nothing from a registry; tools/dist calls it."""
import archive
import version

FOLDER = "examples/rust/onfiseq-sys"


def contents():
    """The files of the crate, by their names in it."""
    return {**archive.read_folder(FOLDER), "c/onfiseq.c": archive.read("release/onfiseq.c"), "c/onfiseq.h": archive.read("release/onfiseq.h"), "LICENSE": archive.read("LICENSE")}


def write(folder):
    top = "onfiseq-sys-" + version.number()
    archive.write_tar("%s/%s.crate" % (folder, top), contents(), top)

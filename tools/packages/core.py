"""The core for FuseSoC, with all that it names in one folder: the core file of examples/systemverilog without the folders of its files; tools/dist calls it."""
import os
import re

import archive
import version

FOLDER = "examples/systemverilog"
FILE = re.compile(r"(?m)^(      - )(\S+?)( :.*)?$")


def contents():
    """The files of the core, by their names in it."""
    text = archive.read(FOLDER + "/onfiseq.core").decode()
    files = {os.path.basename(path): archive.read(os.path.join(FOLDER, path)) for _, path, _ in FILE.findall(text)}
    files["onfiseq.core"] = FILE.sub(lambda it: it[1] + os.path.basename(it[2]) + (it[3] or ""), text).encode()
    files["LICENSE"] = archive.read("LICENSE")
    return files


def write(folder):
    top = "onfiseq-core-" + version.number()
    archive.write_tar("%s/%s.tar.gz" % (folder, top), contents(), top)

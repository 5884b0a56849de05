"""What a file was made of: the commit, the kit, the compilers and a checksum of each crate's sources."""
import hashlib
import os
import re
import subprocess

import kit

PARTS = ("src",)


def code_of(content):
    """A source without its lines of comment, of which nothing is built."""
    return b"".join(line for line in content.splitlines(True) if not line.lstrip().startswith(b"//"))


def sum_of(paths, top=".", change=bytes):
    """A checksum of files, with their names; of each what a change leaves of it."""
    total = hashlib.sha256()
    for path in paths:
        with open(os.path.join(top, path), "rb") as it:
            content = change(it.read())
        total.update(("%s %d\n" % (path, len(content))).encode() + content)
    return total.hexdigest()[:32]


def sum_of_crate(name):
    """A checksum of the sources that a crate's code is made of, comments left out."""
    folder = "crates/" + name
    return sum_of(kit.sources_of(folder, PARTS), folder, code_of)


def last_commit(paths):
    """The last commit that changed one of these paths; with -dirty where one isn't as a commit has it."""
    commit = kit.output_of(["git", "log", "-1", "--format=%H", "--", *paths]).strip()
    changed = kit.output_of(["git", "status", "--porcelain", "--", *paths]).strip()
    return commit + ("-dirty" if changed else "")


def version_of(words):
    """The first line that a program prints of itself."""
    return subprocess.run(words, check=True, stdout=subprocess.PIPE, text=True).stdout.splitlines()[0]


def lines_of(crates, files):
    """The lines of a stamp that say what was there to be made of: each crate and each file with its checksum."""
    return ["crate %s %s" % (name, sum_of_crate(name)) for name in crates] + ["file %s %s" % (path, sum_of([path])) for path in files]


def written(the_kit, crates, files, compilers):
    """A stamp: the commit that last changed what the files are made of, the kit, the compilers, and checksums."""
    paths = ["crates/%s/%s" % (name, part) for name in crates for part in PARTS] + list(files)
    lines = ["commit %s" % last_commit(paths), "kit %s" % the_kit.version(), "compiler %s" % the_kit.compiler()]
    lines += ["compiler %s" % it for it in compilers]
    return "\n".join(lines + lines_of(crates, files)) + "\n"


def differing(text, kinds="crate|file"):
    """What stands here otherwise than a stamp says: the names of crates, of files that it was made of, and of files that were made."""
    found = []
    for what, name, wanted in re.findall(r"(?m)^(%s) (\S+) (\S+)$" % kinds, text):
        there = os.path.isdir("crates/%s/src" % name) if what == "crate" else os.path.isfile(name)
        if not there or wanted != (sum_of_crate(name) if what == "crate" else sum_of([name])):
            found.append(name)
    return found

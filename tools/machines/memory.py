"""Gives a library names of its own for its requests for memory, and the functions that answer them.

The kit's libraries ask by rattle_alloc, rattle_realloc and rattle_dealloc, each of them, so two of different authors would clash in one program. Here they ask by
names of onfiseq: c/requests.c has those, over the functions of onfiseq.h, and c/heap.c has these over malloc, weak, so that a program may bring its own.
"""
import os
import re
import shutil
import subprocess
import sys

import stamp

HERE = os.path.relpath(os.path.dirname(os.path.abspath(__file__)))
SOURCES = [HERE + "/c/requests.c", HERE + "/c/heap.c"]

# Each name is as long as the one before, so that no table of an object changes its size. The libraries of retarget.py have w_ in front.
NAMES = {b"rattle_alloc": b"onfiseq_take", b"rattle_realloc": b"onfiseq_retake", b"rattle_dealloc": b"onfiseq_return"}
REQUEST = re.compile(rb"(?<=\0)(w_)?(rattle_(?:re|de)?alloc)(?=\0)")


def renamed(content):
    """The bytes of objects, with the requests under their own names."""
    changed = REQUEST.sub(lambda found: (found.group(1) or b"") + NAMES[found.group(2)], content)
    # A function of the kit's `libc::heap` has the same name behind its path: it makes the request, and isn't one.
    if re.search(rb"(?<!::)rattle_(?:re|de)?alloc\0", changed):
        sys.exit("memory: a request has a name of another form")
    return changed


def give(archive, toolchain, words):
    """Gives an archive its own names, and, where it asks for memory, what answers: compiled by the kit's clang with these words."""
    with open(archive, "rb") as it:
        content = it.read()
    changed = renamed(content)
    if changed == content:
        return
    with open(archive, "wb") as it:
        it.write(changed)
    room = archive + ".parts"
    os.makedirs(room, exist_ok=True)
    objects = ["%s/%s.o" % (room, os.path.basename(source)[:-2]) for source in SOURCES]
    for source, made in zip(SOURCES, objects):
        subprocess.run([toolchain + "/bin/clang", *words, "-ffreestanding", "-ffunction-sections", "-Wall", "-Wextra", "-Werror", "-c", source, "-o", made], check=True)
    subprocess.run([toolchain + "/bin/llvm-ar", "rcsD", archive, *objects], check=True)
    shutil.rmtree(room)


def sum_of_sources():
    """A checksum of what shapes this part of a library."""
    return stamp.sum_of([HERE + "/memory.py", *SOURCES])

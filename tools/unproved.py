"""Builds the program without its proofs, for tests alone.

    python3 tools/unproved.py PROGRAM

at the root; it takes two to four minutes. `rt try` builds the program with checks, runs it once and throws it away; this keeps a link to it. It is slow
and says nothing of what is proved: `bin/onfiseq` builds the program that one uses.
"""
import os
import subprocess
import sys
import tempfile
import threading
import time


def find_program(folder):
    """An executable file below the folder, if there is one yet."""
    for here, _, names in os.walk(folder):
        for name in names:
            path = os.path.join(here, name)
            try:
                with open(path, "rb") as file:
                    is_program = file.read(4) == b"\x7fELF" and os.access(path, os.X_OK)
            except OSError:
                continue
            if is_program:
                return path
    return None


def keep_program(folder, target, ended):
    """Links the program to its target as soon as it is there."""
    while not ended.is_set():
        path = find_program(folder)
        if path:
            try:
                os.link(path, target)
                return
            except OSError:
                pass
        time.sleep(0.002)


def main():
    target = os.path.abspath(sys.argv[1])
    with tempfile.TemporaryDirectory(dir=os.path.dirname(target)) as folder:
        ended = threading.Event()
        keeper = threading.Thread(target=keep_program, args=(folder, target, ended))
        keeper.start()
        words = ["rt", "try", "--", "--help"]
        ran = subprocess.run(words, cwd="crates/onfiseq", env={**os.environ, "TMPDIR": folder}, stdin=subprocess.DEVNULL, capture_output=True, text=True, check=False)
        ended.set()
        keeper.join()
    if not os.path.exists(target):
        sys.exit(f"unproved: the program wasn't built\n{ran.stderr}")
    print("unproved: the program is built without its proofs")


main()

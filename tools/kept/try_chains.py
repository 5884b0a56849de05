"""Tries what keeps the chains of tools/steps.py, on a repository of three files in an empty folder.

    python3 tools/kept/try_chains.py ROOM

at the root. Ends with 1 where a chain is kept that mustn't be, or isn't that must. Nothing that the machine keeps is taken or changed.
"""
import os
import subprocess
import sys

HERE = os.path.dirname(os.path.abspath(__file__))
sys.path[:0] = [HERE, os.path.dirname(HERE)]
from chains import Chains
from kit_gate import load_gate

STEPS = ("tools/one.py", "tools/two.py")
failed = []


def write(path, text):
    os.makedirs(os.path.dirname(path) or ".", exist_ok=True)
    with open(path, "w", encoding="utf-8") as it:
        it.write(text)


def git(*words):
    subprocess.run(["git", "-c", "user.name=one", "-c", "user.email=one@example.org", *words], check=True, stdout=subprocess.DEVNULL)


def commit(path, text):
    write(path, text)
    git("add", "-A")
    git("commit", "-qm", "one more")


def check(what, is_right):
    print("%s: %s" % ("ok" if is_right else "WRONG", what))
    if not is_right:
        failed.append(what)


def is_kept(gate, reads_crates=True, steps=STEPS, **how):
    return Chains(gate, **how).has_passed(steps, reads_crates)


def keep_both(gate):
    """Keeps a chain that reads crates, and one that doesn't."""
    chains = Chains(gate)
    chains.keep(STEPS, True)
    chains.keep(STEPS, False)


def try_files(gate):
    """What is committed, and what isn't."""
    check("nothing is kept at first", not is_kept(gate))
    keep_both(gate)
    check("a chain that passed is kept", is_kept(gate) and is_kept(gate, False))
    check("from nothing it isn't", not is_kept(gate, is_from_nothing=True))
    check("another step is another chain", not is_kept(gate, steps=STEPS[:1]))
    write("docs/page.md", "not committed\n")
    check("where a file isn't committed nothing is kept", not is_kept(gate))
    git("checkout", "-q", ".")
    commit("crates/one/src/lib.rt", "// another text\n")
    check("another crate: a miss for the chain that reads crates alone", not is_kept(gate) and is_kept(gate, False))
    keep_both(gate)
    commit("docs/page.md", "another page\n")
    check("another page: a miss for both", not is_kept(gate) and not is_kept(gate, False))


def try_machine(gate):
    """What a step runs with."""
    keep_both(gate)
    write("../programs/compiler", "")
    os.environ["PATH"] = os.path.abspath("../programs") + os.pathsep + os.environ["PATH"]
    check("another program on the path: a miss", not is_kept(gate))
    keep_both(gate)
    write("crates/onfiseq_one_c/out/libone.a", "other bytes\n")
    check("another library for C that is built: a miss", not is_kept(gate))


def main():
    gate = load_gate()
    room = os.path.abspath(sys.argv[1])
    os.environ["RT_KEPT"] = room + "/kept"
    os.makedirs(room + "/repository", exist_ok=True)
    os.chdir(room + "/repository")
    git("init", "-q")
    write(".gitignore", "out/\n")
    write("crates/one/src/lib.rt", "// a text\n")
    commit("docs/page.md", "a page\n")
    try_files(gate)
    try_machine(gate)
    print("%d wrong" % len(failed))
    sys.exit(1 if failed else 0)


main()

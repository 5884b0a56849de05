"""Runs what the gate tries behind the proofs: each step of STEPS, in chains side by side, and tells how each ended and how long it took.

    python3 tools/steps.py [NAME..]          NAME is a chain or the beginning of a step's words; all of them when none is named
    python3 tools/steps.py --from-nothing    also the chains that are kept

at the root, behind `tools/kept`. A step's print comes once it has ended. A whole chain that passed on this machine is kept, and isn't run again while nothing that
it may read has changed (tools/kept/chains.py). Ends with 1 where a step failed, and names those once more.
"""
import subprocess
import sys
import threading
import time
from concurrent.futures import ThreadPoolExecutor

sys.path.insert(1, "tools/kept")
from chains import Chains
from kit_gate import load_gate

PROGRAM = "crates/onfiseq/out/onfiseq"
# The steps of a chain come one after the other, since a later one may use what an earlier one made.
STEPS = {
    "program": (
        "tools/fail_allocs.py",
        "tools/fail_runs.py",
        "tools/same_files.py",
        "tools/house.py",
        "tools/paste.py",
        "tools/cases.py",
        "tools/cases.py " + PROGRAM + ".by-rattle",
        "tools/codes.py",
        "tools/pictures.py",
        "tools/man.py",
    ),
    "libraries": (
        "tools/c_library.py",
        "tools/stacks.py",
        "tools/machines/try/beside.py 20000",
        "bench/acceptance.py 5",
        "bench/refused_runs.py 3 1 straight " + PROGRAM,
        "examples/sigrok/try_decoder.py out/libonfiseq.so " + PROGRAM,
    ),
    "processors": (
        "tools/machines --check",
        "tools/machines/try/retarget.py",
        "tools/machines --only i686-linux,cortex-m4,cortex-m0plus",
        "tools/machines/try/compare.py --short",
        "tools/machines/try/firmware.py out/machines",
    ),
    "clone": ("tools/clone.py",),
    "c_file": ("tools/c_file.py", "tools/stacks.py --portable", "tools/kernel_module.py", "tools/machines/try/firmware.py", "tools/machines/try/forms.py 20000"),
    "builds": (
        "make -s -j4",
        "tools/compare_builds.py --made 500",
    ),
    "packages": (
        "tools/dist --try",
        "tools/release --try --packages out/packages",
    ),
}
# The chains that read no crate: what they try is in release/, or is made of it.
OF_RELEASE = {"clone", "c_file"}
printing = threading.Lock()


def run_step(words):
    """Runs a step, prints what it said, and tells whether it passed."""
    begun = time.monotonic()
    tool = [sys.executable] if "/" in words.split()[0] else []
    ran = subprocess.run([*tool, *words.split()], stdout=subprocess.PIPE, stderr=subprocess.STDOUT, text=True, errors="replace", check=False)
    with printing:
        print(ran.stdout, end="")
        print(f"step: {words}: {'passed' if ran.returncode == 0 else 'FAILED'}, {(time.monotonic() - begun) / 60:.1f} minutes", flush=True)
    return ran.returncode == 0


def run_chain(steps):
    """Runs the steps of a chain one after the other: those that failed."""
    return [it for it in steps if not run_step(it)]


def run_whole(chains, name):
    """Runs a whole chain, unless it is kept, and keeps it where it passes: the steps that failed."""
    steps, reads_crates = STEPS[name], name not in OF_RELEASE
    if chains.has_passed(steps, reads_crates):
        with printing:
            print(f"step: chain {name}: kept", flush=True)
        return []
    failed = run_chain(steps)
    if not failed:
        chains.keep(steps, reads_crates)
    return failed


def works_for(words):
    """What is to be run, as calls that give the steps that failed: whole chains, or the steps that the names ask for."""
    names = [it for it in words if it != "--from-nothing"]
    if not names:
        chains = Chains(load_gate(), "--from-nothing" in words)
        return [lambda name=name: run_whole(chains, name) for name in STEPS]
    wanted = [[it for it in steps if chain in names or any(it.startswith(name) for name in names)] for chain, steps in STEPS.items()]
    return [lambda steps=steps: run_chain(steps) for steps in wanted if steps]


def main():
    works, begun = works_for(sys.argv[1:]), time.monotonic()
    if not works:
        sys.exit("steps: no step is called " + " ".join(sys.argv[1:]))
    with ThreadPoolExecutor(len(works)) as pool:
        failed = [step for steps in pool.map(lambda work: work(), works) for step in steps]
    print(f"steps: {len(works)} chains in {(time.monotonic() - begun) / 60:.1f} minutes, {len(failed)} steps failed{': ' if failed else ''}{'; '.join(failed)}")
    sys.exit(1 if failed else 0)


main()

"""Which chains of `tools/steps.py` passed on this machine, by all that they may read."""
import glob
import os
import subprocess
import sys

from made import kit_of, open_store
from store import bytes_of, sum_of, sum_of_json

# Another number makes all that is kept a miss.
FORM = 1


def said_by(*words):
    return subprocess.run(words, check=True, stdout=subprocess.PIPE, text=True).stdout


def programs_here():
    """Each program on the path, by its length and its time."""
    found = []
    for folder in os.environ["PATH"].split(os.pathsep):
        if os.path.isdir(folder):
            seen = ((it.path, it.stat()) for it in os.scandir(folder) if os.path.exists(it.path))
            found += [(path, it.st_size, it.st_mtime_ns) for path, it in seen]
    return sorted(found)


def machine_of(gate):
    """What a step runs with: the kit, the programs on the path, the system's packages, and the libraries for C that are built."""
    archives = [sum_of(bytes_of(path)) for path in sorted(glob.glob("crates/onfiseq_*_c/out/*.a"))]
    return [kit_of(gate), programs_here(), sum_of(bytes_of("/var/lib/dpkg/status") or b""), archives]


class Chains:
    """What is kept of the chains, for the commit that stands here. Where something isn't committed, nothing is kept or taken."""

    def __init__(self, gate, is_from_nothing=False):
        is_clean = not said_by("git", "status", "--porcelain")
        self.store = open_store() if is_clean else None
        self.is_from_nothing = is_from_nothing
        self.files = said_by("git", "ls-tree", "-r", "HEAD").splitlines()
        self.machine = machine_of(gate) if self.store else None

    def key(self, steps, reads_crates):
        """The key of a chain: its steps, the files that they may read, and the machine."""
        read = [row for row in self.files if reads_crates or not row.partition("\t")[2].startswith("crates/")]
        return sum_of_json(["chain", FORM, self.machine, steps, read])

    def has_passed(self, steps, reads_crates):
        """Whether the chain passed here with all of that the same."""
        return bool(self.store) and not self.is_from_nothing and self.store.read(self.key(steps, reads_crates)) is not None

    def keep(self, steps, reads_crates):
        """Keeps that it passed."""
        if self.store:
            try:
                self.store.keep(self.key(steps, reads_crates), "", ".", [])
            except OSError as error:
                print("kept: a chain isn't kept: %s" % error, file=sys.stderr)

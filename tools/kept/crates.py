"""The crates of a checkout, as the kit's gate sees them."""
import os

from store import stop


def crates_here(gate):
    """The crates of this checkout, each behind those that it stands on, as the gate sees them."""
    library = gate.rtlib
    library.stop, library.Crate = gate.stop, gate.Crate
    gate.Crate.cuts_libraries, gate.Crate.allowed = True, gate.handles_of(os.getcwd())
    return sorted(library.crates_below(os.getcwd()), key=lambda it: len(it.below()))


def chosen_of(crates, names):
    """These crates and all that they stand on, in the order of all."""
    known = {it.name: it for it in crates}
    for name in names:
        if name not in known:
            stop("crates.txt names no crate %s" % name)
    wanted = {it for name in names for it in [name, *(below.name for below in known[name].below())]}
    return [it for it in crates if it.name in wanted]

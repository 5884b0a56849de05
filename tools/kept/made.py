"""What is made of proved crates at some cost, kept on this machine by what it is made of: archives and modules of the libraries for C."""
import os
import sys

from store import Store, stop, sum_of_json

# Another number makes all that is kept a miss.
FORM = 1
BOUND = 2_000_000_000


def open_store():
    """The folder of what is kept, beside that of the proofs; None where nothing is to be kept."""
    at = os.environ.get("RT_KEPT", "") or os.path.expanduser("~/.cache/onfiseq-gate")
    return None if at == "none" else Store(os.path.abspath(at) + "-made", BOUND)


def kit_of(gate):
    """What the kit is."""
    if hasattr(gate, "kit_sum"):
        return gate.kit_sum()
    import proofs

    return proofs.identity_of(gate.rtlib.KIT)


def take_or_make(gate, parts, folder, paths, make):
    """Puts the files of these paths into a folder: those that were made of the same parts by the same kit, or else those that `make` writes there."""
    store = open_store()
    key = sum_of_json([FORM, kit_of(gate), parts, sorted(paths)])
    if store and store.give(key, folder):
        return
    make()
    lacking = [path for path in paths if not os.path.isfile("%s/%s" % (folder, path))]
    if lacking:
        stop("%s wasn't made" % lacking[0])
    if store:
        try:
            store.keep(key, "", folder, paths)
            store.shrink()
        except OSError as error:
            print("kept: %s isn't kept: %s" % (paths[0], error), file=sys.stderr)

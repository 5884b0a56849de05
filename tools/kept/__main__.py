"""The gate's `rt ci`, which takes what this machine has proved of the same text over the same libraries, and keeps what passes.

    python3 tools/kept                      the gate's proofs, tests and edits
    python3 tools/kept NAME..               those of these crates and of all that they stand on: kept before the gate wants them
    python3 tools/kept --from-nothing       takes nothing; with --keep what passes is kept, in the place of what was
    python3 tools/kept --tell [NAME..]      what a gate would take and what it would prove; nothing is changed
    python3 tools/kept --take [NAME..]      brings the kept libraries into this checkout, so that `rt check` begins with them

at the root. Where the kit keeps by itself (13f) this is its `rt ci`. Where it keeps nothing (13b) the kit's own functions do the work, and are only asked whether
they need to: what is kept then stands in the folder RT_KEPT, or ~/.cache/onfiseq-gate; RT_KEPT=none keeps and takes nothing. RT_KEPT_GB is its bound (10), the
oldest goes first. RT_KEPT_BELOW=bytes also takes what stands on a library of another text, where that was proved anew and came out the same to the byte.
tools/kept/README.md says what a key is made of.
"""
import os
import re
import sys

sys.path.insert(1, os.path.dirname(os.path.dirname(os.path.abspath(__file__))))
import of_kit
import wrapping
from kit_gate import load_gate
from proofs import Kept
from store import Store, stop

FLAGS = {"--from-nothing", "--keep", "--tell", "--take"}


def answer_of_kit(gate, flags, names):
    """What the words ask for, where the kit keeps by itself."""
    if "--tell" in flags:
        return of_kit.tell(gate, names)
    if "--take" in flags:
        return of_kit.take(gate, names)
    return of_kit.run_gate(names, "--from-nothing" in flags)


def make_kept(gate, flags):
    """What is kept here, or None where nothing is to be kept or taken."""
    at = os.environ.pop("RT_KEPT", "") or os.path.expanduser("~/.cache/onfiseq-gate")
    bound = os.environ.get("RT_KEPT_GB", "")
    bound = int(1e9 * (float(bound) if re.fullmatch(r"\d+(\.\d+)?", bound) else 10))
    if at == "none" or "--from-nothing" in flags and "--keep" not in flags:
        return None
    by_bytes = os.environ.get("RT_KEPT_BELOW", "text") == "bytes"
    return Kept(gate, Store(os.path.abspath(at), bound), "--from-nothing" not in flags, True, by_bytes)


def answer(gate, flags, names):
    """What the words ask for, where the kit keeps nothing."""
    wrapping.refuse_other_kits(gate)
    kept = make_kept(gate, flags)
    if kept is None:
        if flags & {"--tell", "--take"}:
            stop("nothing is kept")
        if names:
            wrapping.restrict(gate, names)
        return gate.ci()
    if "--tell" in flags:
        return wrapping.tell(gate, kept, names)
    if "--take" in flags:
        return wrapping.bring(gate, kept, names)
    return wrapping.run_gate(gate, kept, names)


def main(words):
    flags = {it for it in words if it.startswith("-")}
    names = [it for it in words if it not in flags]
    if flags - FLAGS or len(flags - {"--keep"}) > 1 or flags == {"--keep"}:
        print(__doc__, end="", file=sys.stderr)
        return 2
    gate = load_gate()
    return answer_of_kit(gate, flags, names) if hasattr(gate, "Kept") else answer(gate, flags, names)


if __name__ == "__main__":
    sys.exit(main(sys.argv[1:]))

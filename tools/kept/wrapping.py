"""The kit's own gate with what is kept asked first, where the kit keeps nothing itself: five of its functions are wrapped, and none is copied."""
import inspect
import os

from crates import chosen_of, crates_here
from store import stop

# The functions of the kit that are wrapped, with their parameters.
WRAPPED = {
    "Crate.ci": ["self", "flags", "tests"],
    "must_fail_all": ["crate", "edits", "flags"],
    "in_lanes": ["tasks"],
    "crates_of": ["root", "aside"],
    "ci": [],
}


def refuse_other_kits(gate):
    """Ends where the kit has other functions than those that are wrapped here."""
    for path, wanted in WRAPPED.items():
        found = gate
        for name in path.split("."):
            found = getattr(found, name, None)
        if found is None or list(inspect.signature(found).parameters) != wanted:
            stop("this kit's rt has another %s than the one that is known here: run rt ci" % path)


def restrict(gate, names):
    """Has the kit's gate prove these crates and those below alone; the forms of all files are looked at as ever, and the others' out/ stay as they were."""
    real_crates, real_unread = gate.crates_of, gate.rtlib.stop_on_unread
    every = []

    def crates_of(root, aside):
        every[:] = real_crates(root, aside)
        wanted = chosen_of(every, names)
        for crate in every:
            was = "%s/%s" % (aside, os.path.basename(crate.folder))
            if crate not in wanted and os.path.isdir(was) and not os.path.lexists(crate.folder + "/out"):
                os.rename(was, crate.folder + "/out")
        return wanted

    gate.crates_of = crates_of
    gate.rtlib.stop_on_unread = lambda top, crates: real_unread(top, every or crates)


def run_gate(gate, kept, names):
    """The kit's own gate, with what is kept asked first."""
    real_ci, real_edits, real_lanes = gate.Crate.ci, gate.must_fail_all, gate.in_lanes
    if names:
        restrict(gate, names)
    real_crates, crates = gate.crates_of, []

    def crates_of(root, aside):
        crates[:] = real_crates(root, aside)
        return crates

    def in_lanes(tasks):
        given = real_lanes(tasks)
        # (nothing is kept behind this: programs and tests are run each time)
        kept.tell(crates)
        return given

    gate.crates_of, gate.in_lanes = crates_of, in_lanes
    gate.Crate.ci = lambda crate, flags, tests: kept.ci(real_ci, crate, flags, tests)
    gate.must_fail_all = lambda crate, edits, flags: kept.must_fail_all(real_edits, crate, edits, flags)
    return gate.ci()


def tell(gate, kept, names):
    """Says what a gate would take, as far as the libraries below are kept too."""
    crates = crates_here(gate)
    for crate in chosen_of(crates, names) if names else crates:
        words = []
        for part in ("proof", "tests"):
            if part == "tests" and not crate.has_tests():
                continue
            key = kept.key(crate, part)
            is_kept = bool(key) and kept.store.has(key)
            if is_kept and part == "proof":
                kept.stands(crate, key, kept.store.read(key)["files"])
            words.append("%s %s" % (part, "kept" if is_kept else "not kept"))
        edits, key = gate.edits_of(crate)[0], kept.key(crate, "proof")
        if edits:
            words.append("%d of %d edits kept" % (sum(bool(key) and kept.store.has(kept.edit_key(key, it)) for it in edits), len(edits)))
        print("%s: %s" % (crate.name, ", ".join(words)))
    return 0


def bring(gate, kept, names):
    """Brings kept libraries into this checkout, with the stamp by which the kit's other commands know a library. One that stood over another library than is here
    now loses its stamp, so that the kit makes it anew."""
    crates = crates_here(gate)
    wanted = [it for it in (chosen_of(crates, names) if names else crates) if it.makes_rlib()]
    held = gate.rtlib.lock(crates)
    taken, changed = 0, set()
    for crate in crates:
        stamp, is_new = "%s/out/rlib/stamp" % crate.folder, False
        if crate in wanted:
            key = kept.key(crate, "proof")
            found = kept.store.read(key) if key else None
            if found and crate.is_built() and kept.rows_of(crate) == [row[:2] for row in found["files"]]:
                kept.stands(crate, key, found["files"])
                taken += 1
                continue
            if found and os.path.isfile(stamp):
                os.remove(stamp)
            is_new = bool(found) and kept.take(crate, "proof", key) is not None
        if is_new:
            with open(stamp, "w", encoding="utf-8") as it:
                it.write(crate.stamp())
            changed.add(crate.name)
            taken += 1
        elif any(below.name in changed for below in crate.below()) and os.path.isfile(stamp):
            os.remove(stamp)
            changed.add(crate.name)
    for it in held:
        os.close(it)
    print("kept: %d of %d libraries and programs are here" % (taken, len(wanted)))
    return 0

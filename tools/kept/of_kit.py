"""What the kit itself keeps of `rt ci` on this machine, where it does: it is told of, and brought into a checkout."""
import hashlib
import json
import os
import shutil
import subprocess

from crates import chosen_of, crates_here


def run_gate(names, is_from_nothing):
    """The kit's own `rt ci`."""
    return subprocess.run(["rt", "ci", *(["--anew"] if is_from_nothing else []), *names], check=False).returncode


def read_entry(kept, crate, tests):
    """The files of an entry with their sums, or None where the crate, or its tests, aren't kept over what stands below."""
    key = kept.key(crate)
    try:
        with open(kept.place(crate, tests, key) + "/made.json", encoding="utf-8") as it:
            made = json.load(it)
    except (OSError, ValueError, TypeError):
        return None
    return [tuple(row) for row in made["files"]] if made.get("key") == key else None


def edits_kept(gate, kept, crate):
    """How many edits of the crate there are, and how many an earlier run tried."""
    edits, key = gate.edits_of(crate)[0], kept.key(crate)
    return len(edits), sum(kept.tried(kept.of_edit(it, key)) is not None for it in edits)


def tell(gate, names):
    """Says what a gate would take, as far as the libraries below are kept too."""
    crates = crates_here(gate)
    kept = gate.Kept(crates)
    for crate in chosen_of(crates, names) if names else crates:
        words = []
        for tests in (False, True) if crate.has_tests() else (False,):
            files = read_entry(kept, crate, tests)
            if files is not None and not tests:
                # as the kit sums up a library that stands in out/
                kept.rlibs[crate.name] = hashlib.sha256(repr([] if crate.is_program else files).encode()).hexdigest()
            words.append("%s %s" % ("tests" if tests else "proof", "not kept" if files is None else "kept"))
        count, tried = edits_kept(gate, kept, crate)
        if count:
            words.append("%d of %d edits kept" % (tried, count))
        print("%s: %s" % (crate.name, ", ".join(words)))
    return 0


def mark_taken(work, crate):
    """Says in the crate's out/ which text its library is of, and tells other checkouts where it stands."""
    stamp = crate.stamp()
    with open(crate.folder + "/out/rlib/stamp", "w", encoding="utf-8") as it:
        it.write(stamp)
    os.makedirs(work, 0o700, exist_ok=True)
    with open("%s/%s.%s" % (work, crate.name, hashlib.sha256(crate.folder.encode()).hexdigest()[:16]), "w", encoding="utf-8") as it:
        json.dump({"folder": crate.folder, "stamp": stamp}, it)


def is_here(crate):
    """A library of this very text stands in the crate's out/."""
    try:
        with open(crate.folder + "/out/rlib/stamp", encoding="utf-8") as it:
            return it.read() == crate.stamp() and os.path.isfile("%s/out/rlib/%s.rlib/format" % (crate.folder, crate.name))
    except OSError:
        return False


def take_crate(gate, kept, crate):
    """Brings in what is kept of the crate. What stood there goes first: the kit gives a file a second name, and where that name is taken it drops what it keeps."""
    key = kept.key(crate)
    if not kept.at or not os.path.isdir(kept.place(crate, False, key)):
        return crate.makes_rlib() and is_here(crate)
    if not crate.makes_rlib():
        return kept.give(crate, False, key)
    shutil.rmtree("%s/out/rlib/%s.rlib" % (crate.folder, crate.name), ignore_errors=True)
    if not kept.give(crate, False, key):
        return False
    mark_taken(gate.WORK, crate)
    return True


def take(gate, names):
    """Brings the kept libraries and programs into this checkout, with the stamp by which the kit's other commands know a library. What stands here and isn't kept
    stays."""
    crates = crates_here(gate)
    wanted = [it for it in (chosen_of(crates, names) if names else crates) if not it.is_static]
    kept, taken = gate.Kept(crates), set()
    for crate in wanted:
        stands = all(below.name in taken for below in crate.below())
        if stands and take_crate(gate, kept, crate):
            kept.is_built(crate)
            taken.add(crate.name)
    print("kept: %d of %d libraries and programs are here" % (len(taken), len(wanted)))
    return 0

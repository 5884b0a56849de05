"""Which proofs, tests and edits of the crates are kept, and what is done with each, on a kit that keeps nothing itself."""
import contextlib
import os
import re
import shutil
import tempfile

from store import bytes_of, copied, files_below, sum_of, sum_of_json

# Another number makes all that is kept a miss.
FORM = 1
# What of a crate a proof reads.
READ = ("src", "specs", "proofs")
# Words of a source by which a proof could read another file, or the environment: such a crate is proved each time.
READS_MORE = re.compile(rb"\b(include|include_str|include_bytes|env|option_env)\s*!|#\s*!?\s*\[[^\]]*\bpath\s*=")


def identity_of(kit):
    """What the kit is: its line, the sums of its programs, and the length and time of each of its files. Its libraries alone are 17 GB, too much to read each time."""
    found = [os.path.realpath(kit), bytes_of(kit + "/KIT-ID").decode(), (bytes_of(kit + "/WHAT") or b"").decode(), os.uname().machine]
    found += [[name, copied("%s/bin/%s" % (kit, name), None)] for name in sorted(os.listdir(kit + "/bin"))]
    rows = []
    for top, folders, names in os.walk(kit):
        for name in names:
            seen = os.lstat("%s/%s" % (top, name))
            rows.append("%s/%s %d %d" % (os.path.relpath(top, kit), name, seen.st_size, seen.st_mtime_ns))
    return sum_of_json([found, sum_of("\n".join(sorted(rows)))])


class Kept:
    """What is kept, for the crates of one run."""

    def __init__(self, gate, store, takes, keeps, by_bytes):
        self.gate, self.library, self.store, self.takes, self.keeps, self.by_bytes = gate, gate.rtlib, store, takes, keeps, by_bytes
        self.kit = identity_of(self.library.KIT)
        # What the keys of crates above say of each library that stands here, once it does, and what was done for each crate.
        self.libraries, self.done = {}, {}

    def sources(self, crate):
        """The sum of the crate's files that a proof reads, or None where it may read more."""
        rows = []
        for part in READ:
            for path in files_below("%s/%s" % (crate.folder, part)):
                text = bytes_of("%s/%s/%s" % (crate.folder, part, path))
                if text is None or READS_MORE.search(text):
                    return None
                rows.append([part, path, sum_of(text)])
        return sum_of_json(rows)

    def key(self, crate, part):
        """A sum of all that the verdict depends on: the kit, HANDLES, the crate's line and text, and the libraries below. None where they aren't known."""
        below = [[it.name, self.libraries.get(it.name)] for it in crate.below()]
        sources = self.sources(crate)
        if sources is None or any(it is None for _, it in below):
            return None
        handles = bytes_of(os.getcwd() + "/HANDLES")
        told = [FORM, self.by_bytes, self.kit, part, None if handles is None else sum_of(handles), list(crate.allowed), crate.name, crate.said]
        return sum_of_json([*told, [crate.is_program, crate.is_static], sources, below])

    def edit_key(self, key, edit):
        """The key of an edit, over that of its crate's proof."""
        text = bytes_of(edit)
        return key and text is not None and sum_of_json([key, "edit", os.path.basename(edit), sum_of(text)])

    def note(self, crate, part, word):
        self.done.setdefault(crate.name, []).append((part, word))

    def made_files(self, crate, tests):
        """The files in out/ that a passed proof leaves there."""
        if tests:
            names = [crate.name + "_tests", crate.name + "_tests.o"]
        elif crate.is_program:
            names = [crate.name + end + kind for end in self.gate.BACKENDS.values() for kind in ("", ".o")]
        elif crate.is_static:
            names = []
        else:
            top = "rlib/%s.rlib" % crate.name
            return ["%s/%s" % (top, it) for it in files_below("%s/out/%s" % (crate.folder, top))]
        return [it for it in names if os.path.isfile("%s/out/%s" % (crate.folder, it))]

    def stands(self, crate, key, rows):
        """Remembers which library stands in the crate's out/ now: its bytes, and its key, which says of which text it is."""
        if crate.makes_rlib() and (self.by_bytes or key):
            self.libraries[crate.name] = sum_of_json([None if self.by_bytes else key, [row[:2] for row in rows]])

    def rows_of(self, crate):
        """As Store.keep would list the library that stands here."""
        return [[it, copied("%s/out/%s" % (crate.folder, it), None)] for it in self.made_files(crate, False)]

    def take(self, crate, part, key):
        """Puts what is kept into the crate's out/, whole or not at all, and returns what the prover said; None where it isn't kept."""
        out = crate.folder + "/out"
        # A library has sources, which the kit bears in out/rlib alone, should this run be killed. The crate's tests are at work beside it, and look at nothing there.
        near = out + "/rlib" if part == "proof" and crate.makes_rlib() else out
        os.makedirs(near, exist_ok=True)
        with tempfile.TemporaryDirectory(dir=near, prefix=".taken-") as room:
            found = self.store.give(key, room)
            if found is None:
                return None
            tops = sorted({"/".join(path.split("/")[: 2 if path.startswith("rlib/") else 1]) for path, *_ in found["files"]})
            for top in tops:
                to = "%s/%s" % (out, top)
                if os.path.isdir(to):
                    shutil.rmtree(to)
                os.replace("%s/%s" % (room, top), to)
        if part == "proof":
            self.stands(crate, key, found["files"])
        return found["said"]

    def ci(self, real, crate, flags, tests):
        """What the kit's own Crate.ci does, or what it did."""
        part = "tests" if tests else "proof"
        key = self.key(crate, part)
        said = self.take(crate, part, key) if key and self.takes else None
        if said is not None:
            print(said, end="", file=crate.out, flush=True)
            self.note(crate, part, "taken")
            return 0
        out = crate.out
        with tempfile.TemporaryFile("w+", errors="replace") as crate.out:
            try:
                status = real(crate, flags, tests)
            finally:
                crate.out.flush()
                crate.out.seek(0)
                said = crate.out.read()
                crate.out = out
                print(said, end="", file=out, flush=True)
        if status:
            self.note(crate, part, "not proved")
            return status
        rows = None
        # Where a file was changed while the prover read it, what passed is no text that one knows.
        if key and self.keeps and key == self.key(crate, part):
            try:
                rows = self.store.keep(key, said, crate.folder + "/out", self.made_files(crate, tests))
            except OSError as error:
                self.gate.say("note: %s isn't kept: %s" % (crate.name, error), out)
        if part == "proof" and crate.makes_rlib():
            self.stands(crate, key, rows or self.rows_of(crate))
        self.note(crate, part, "proved and kept" if rows is not None else "proved")
        return 0

    def must_fail_all(self, real, crate, edits, flags):
        """What the kit's own must_fail_all does for those edits that aren't kept as refused."""
        key = self.key(crate, "proof")
        keys = {edit: self.edit_key(key, edit) for edit in edits}
        found = {}
        for edit in edits:
            entry = self.store.read(keys[edit]) if keys[edit] and self.takes else None
            if entry:
                found[edit] = (True, entry["said"])
                with contextlib.suppress(OSError):
                    os.utime(self.store.entry(keys[edit]))
        left = [edit for edit in edits if edit not in found]
        tried = real(crate, left, flags) if left else []
        is_same = key is not None and key == self.key(crate, "proof")
        for edit, (is_refused, text) in zip(left, tried):
            if is_refused and self.keeps and is_same and keys[edit] == self.edit_key(key, edit):
                with contextlib.suppress(OSError):
                    self.store.keep(keys[edit], text, crate.folder, [])
            found[edit] = (is_refused, text)
        if edits:
            self.note(crate, "edits", "%d of %d edits taken" % (len(edits) - len(left), len(edits)))
        return [found[edit] for edit in edits]

    def tell(self, crates):
        """A line for each crate: what was taken and what was proved."""
        order, taken = ("proof", "tests", "edits"), 0
        for crate in crates:
            done = sorted(self.done.get(crate.name, []), key=lambda it: order.index(it[0]))
            taken += ("proof", "taken") in done
            if done:
                print("kept: %s: %s" % (crate.name, ", ".join(word if part == "edits" else "%s %s" % (part, word) for part, word in done)))
        stays, gone = self.store.shrink()
        print("kept: the proofs of %d of %d crates taken; %.2f GB are kept%s" % (taken, len(crates), stays / 1e9, ", %d entries went" % gone if gone else ""), flush=True)

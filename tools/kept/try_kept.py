"""Tries what keeps proofs on a small repository of four of the lowest crates, a program and a crate of tests: tools/kept, over whichever kit is here.

    python3 tools/kept/try_kept.py REPOSITORY ROOM [STEP..]

ROOM is an empty folder. It proves with two processes at once, some 5 to 15 minutes; the steps, in their order, are those of STEPS, and each but the first wants
the cache that it left. Ends with 1 where a step finds something else than it must. Nothing that the machine keeps is taken or changed: a kit stands in ROOM by links,
and what it keeps lies beside it.
"""
import glob
import os
import re
import shutil
import signal
import subprocess
import sys
import time

HERE = os.path.dirname(os.path.abspath(__file__))
TAKEN_FROM = ("placed_bytes", "shown_text", "micro_word", "word_file")
CRATES_TXT = """# A few of the lowest crates, a program and a crate of tests.
placed_bytes:
shown_text:
micro_word: byteorder thiserror
word_file: micro_word
small_user: placed_bytes
test_small: placed_bytes
"""
FILES = {
    "crates.txt": CRATES_TXT,
    "HANDLES": "Handles allowed: none.\n",
    "crates/placed_bytes/must-fail/room_of_one_less.edit": "file: src/placed.rt\nold:     if buffer.len() < length {\nnew:     if buffer.len() <= length {\n",
    "crates/small_user/stdout": "3 bytes, letter 0\n",
    "crates/small_user/data/note": "x\n",
    "crates/small_user/src/main.rt": """//! A program over one library: it places a text and says what came of it.
#![tactic(auto)]

use placed_bytes::place;
use std::io;

fn main(rt: HostRuntime) -> io::Result<()> {
    let mut buffer = [0; 4];
    let placed = place(b"abc", &mut buffer);
    println!(rt; "{} bytes, letter {}", placed.length, placed.letter)
}
""",
    "crates/test_small/src/lib.rt": "//! Tests alone.\n#![tactic(auto)]\n\n#[cfg(test)]\nmod place_tests;\n",
    "crates/test_small/src/place_tests.rt": """use placed_bytes::place;
use std::test::Fail;

#[test]
fn a_text_is_placed(rt: HostRuntime) -> Result<(), Fail> {
    let mut buffer = [0; 4];
    assert_eq!(rt; place(b"abc", &mut buffer).length, 3);
    Ok(())
}
""",
}
ALL = {"placed_bytes", "shown_text", "micro_word", "word_file", "small_user", "test_small"}
OVER_PLACED = {"placed_bytes", "small_user", "test_small"}
EDIT = "crates/placed_bytes/must-fail/room_of_one_less.edit"
failed = []


def read(path):
    with open(path) as it:
        return it.read()


def write(path, text):
    os.makedirs(os.path.dirname(path), exist_ok=True)
    with open(path, "w") as it:
        it.write(text)


def replace(path, old, new):
    """Changes the first place of a text in a file."""
    text = read(path)
    assert old in text, (path, old)
    write(path, text.replace(old, new, 1))


def append(path, text):
    write(path, read(path) + text)


def check(what, is_so, more=""):
    print("%s: %s%s" % ("ok" if is_so else "WRONG", what, " (%s)" % (more,) if more else ""), flush=True)
    if not is_so:
        failed.append(what)


class Room:
    """The folder of the test: the small repositories, a kit by links, and what it keeps."""

    def __init__(self, repository, at):
        self.repository, self.at = os.path.abspath(repository), os.path.abspath(at)
        self.kit, self.cache = self.at + "/kit", self.at + "/cache"
        real = os.path.dirname(os.path.dirname(os.path.realpath(shutil.which("rt"))))
        self.keeps_itself = "\nclass Kept:" in read(real + "/bin/rt")
        if not os.path.isdir(self.kit):
            self.link_kit(real)

    def link_kit(self, real):
        """A kit of links, whose own script, and its line, are copies: so it keeps apart from the machine's, and can become another kit."""
        os.makedirs(self.kit + "/bin")
        for name in os.listdir(real):
            if name not in ("bin", "KIT-ID"):
                os.symlink("%s/%s" % (real, name), "%s/%s" % (self.kit, name))
        for name in os.listdir(real + "/bin"):
            if name in ("rt", "rtlib.py"):
                shutil.copy("%s/bin/%s" % (real, name), "%s/bin/%s" % (self.kit, name))
            else:
                os.symlink("%s/bin/%s" % (real, name), "%s/bin/%s" % (self.kit, name))
        shutil.copy(real + "/KIT-ID", self.kit + "/KIT-ID")

    def make(self, name):
        """A clone of the small repository, as it was made."""
        root = "%s/%s" % (self.at, name)
        shutil.rmtree(root, ignore_errors=True)
        for crate in TAKEN_FROM:
            shutil.copytree("%s/crates/%s" % (self.repository, crate), "%s/crates/%s" % (root, crate), ignore=shutil.ignore_patterns("out", "wrong"))
        # (two of its four edits are enough here)
        edits = "%s/crates/micro_word/must-fail/" % root
        for edit in sorted(os.listdir(edits))[1:3]:
            os.remove(edits + edit)
        for path, text in FILES.items():
            write("%s/%s" % (root, path), text)
        subprocess.run(["git", "init", "-q", "."], cwd=root, check=True)
        return root

    def environment(self, cache=None, **more):
        path = "%s/bin:%s" % (self.kit, os.environ["PATH"])
        return {**os.environ, "PATH": path, "RT_JOBS": "2", "RT_KEPT": cache or self.cache, "PYTHONDONTWRITEBYTECODE": "1", **more}

    def run(self, root, words, **more):
        """Runs a command there; returns its status, what it printed and its seconds."""
        begun = time.monotonic()
        ran = subprocess.run(words, cwd=root, env=self.environment(**more), stdout=subprocess.PIPE, stderr=subprocess.STDOUT, text=True, errors="replace", timeout=3000)
        return ran.returncode, ran.stdout, time.monotonic() - begun

    def kept(self, root, *words, **more):
        return self.run(root, [sys.executable, HERE, *words], **more)

    def misses(self, root, **more):
        """What a gate would prove now: crates, and crates whose edits it would try."""
        status, said, _ = self.kept(root, "--tell", **more)
        proofs = {line.split(":")[0] for line in said.splitlines() if "not kept" in line}
        edits = {line.split(":")[0] for line in said.splitlines() for found in [re.search(r"(\d+) of (\d+) edits kept", line)] if found and found[1] != found[2]}
        return (proofs, edits) if status == 0 else (said, set())

    def store(self, cache=None):
        """The folder of what is kept: the kit's own beside it, or ours."""
        return self.at + "/rattle-kept" if self.keeps_itself else cache or self.cache

    def proofs_kept(self, cache=None):
        """How many proofs and tests are kept."""
        names = os.listdir(self.store(cache) if self.keeps_itself else self.store(cache) + "/entries")
        return len([it for it in names if not self.keeps_itself or it.startswith(("proof-", "tests-"))])


def last_of(said):
    return [line for line in said.splitlines() if not line.startswith("kept: ")][-1]


def proved_in(said):
    """The crates of which a run proved something, by its own lines: ours, where there are some, or the kit's."""
    ours = [line for line in said.splitlines() if line.startswith("kept: ")]
    if ours:
        return {line.split(":")[1].strip() for line in ours if re.search(r"(proof|tests) (proved|not proved)", line)}
    return {found[1] for found in re.finditer(r"(?m)^rt: (\w+)(?:: its tests are)? (?:proved|NOT PROVED)", said)}


def edits_taken(said):
    """How many edits weren't tried again."""
    return sum(int(it[1] or it[2]) for it in re.finditer(r"(\d+) of \d+ edits taken|: (\d+) of its \d+ must-fail edits were tried by an earlier run", said))


def step_first(room):
    """From nothing."""
    shutil.rmtree(room.store(), ignore_errors=True)
    status, said, seconds = room.kept(room.make("first"))
    check("nothing is kept: it passes", status == 0, "%.0f s, %s" % (seconds, last_of(said)))
    check("nothing is kept: all is proved", proved_in(said) == ALL and edits_taken(said) == 0, sorted(proved_in(said)))
    write(room.at + "/first.txt", last_of(said))


def step_second(room):
    """The same checkout again, then another one."""
    for name, root in (("again", room.at + "/first"), ("a clone elsewhere", room.make("far/away/clone"))):
        status, said, seconds = room.kept(root)
        check("%s: all is taken, edits too" % name, status == 0 and not proved_in(said) and edits_taken(said) == 3, "%.1f s, %s" % (seconds, sorted(proved_in(said))))
        check("%s: the last line is the first one's" % name, last_of(said) == read(room.at + "/first.txt"), last_of(said))
    status, said, seconds = room.kept(room.at + "/first", "placed_bytes")
    check("a name alone: its last line counts that crate and its edit", status == 0 and last_of(said).startswith("2 passed, 0 failed"), last_of(said))
    check("a name alone: what the other crates had made stays", os.path.isfile(room.at + "/first/crates/small_user/out/small_user"))


CHANGES = [
    ("a comment in src", lambda at: append(at + "/crates/placed_bytes/src/lib.rt", "// A remark.\n"), OVER_PLACED, {"placed_bytes"}),
    ("a comment in src of a library below another", lambda at: append(at + "/crates/micro_word/src/lib.rt", "// A remark.\n"), {"micro_word", "word_file"}, {"micro_word"}),
    ("a spec", lambda at: append(at + "/crates/word_file/specs/Words.antt", "-- a remark\n"), {"word_file"}, set()),
    ("a spec of a library below", lambda at: append(at + "/crates/micro_word/specs/Word.antt", "-- a remark\n"), {"micro_word", "word_file"}, {"micro_word"}),
    ("a proof", lambda at: append(first_of(at + "/crates/word_file/proofs"), "-- a remark\n"), {"word_file"}, set()),
    ("a new file in proofs", lambda at: write(at + "/crates/word_file/proofs/More.antt", "-- a remark\n"), {"word_file"}, set()),
    ("a must-fail edit", lambda at: replace(at + "/" + EDIT, "<=", "=="), set(), {"placed_bytes"}),
    ("a new must-fail edit", lambda at: write(at + "/" + EDIT.replace("room", "more"), FILES[EDIT]), set(), {"placed_bytes"}),
    ("a line of crates.txt", lambda at: replace(at + "/crates.txt", "word_file: micro_word", "word_file: micro_word thiserror"), {"word_file"}, set()),
    ("a line of crates.txt, below", lambda at: replace(at + "/crates.txt", "placed_bytes:", "placed_bytes: thiserror"), OVER_PLACED, {"placed_bytes"}),
    ("a remark in crates.txt", lambda at: append(at + "/crates.txt", "# A remark.\n"), set(), set()),
    ("HANDLES", lambda at: write(at + "/HANDLES", "Handles allowed: Wait.\n"), ALL, {"placed_bytes", "micro_word"}),
    ("what the program must print", lambda at: write(at + "/crates/small_user/stdout", "4 bytes, letter 0\n"), set(), set()),
    ("a source that includes a file", lambda at: append(at + "/crates/shown_text/src/lib.rt", '// include_str!("x")\n'), {"shown_text"}, set()),
]


def first_of(folder):
    return sorted("%s/%s" % (top, name) for top, _, names in os.walk(folder) for name in names)[0]


def step_misses(room):
    """Each change is a miss for exactly the crates that it must be."""
    root = room.make("changed")
    check("nothing is changed: no miss", room.misses(root) == (set(), set()), room.misses(root))
    for what, change, proofs, edits in CHANGES:
        root = room.make("changed")
        change(root)
        found = room.misses(root)
        check("%s: a miss for %s" % (what, ", ".join(sorted(proofs) + ["the edits of " + it for it in sorted(edits - proofs)]) or "nothing"), found == (proofs, edits), found)


def step_kit(room):
    """Another kit is a miss for all."""
    root, line = room.make("changed"), read(room.kit + "/KIT-ID")
    write(room.kit + "/KIT-ID", "another kit\n")
    found = room.misses(root)
    write(room.kit + "/KIT-ID", line)
    check("another kit: a miss for all", found == (ALL, {"placed_bytes", "micro_word"}), found)
    kit = room.at + "/small_kit"
    shutil.rmtree(kit, ignore_errors=True)
    for path in ("KIT-ID", "WHAT", "bin/rattle", "rlibs/std"):
        write("%s/%s" % (kit, path), path)
    told = "import sys; sys.path.insert(0, %r); import proofs; print(proofs.identity_of(%r))" % (HERE, kit)
    sums = [room.run(root, [sys.executable, "-c", told])[1]]
    sums.append(room.run(root, [sys.executable, "-c", told])[1])
    check("a kit that stays has one identity", sums[0] == sums[1] and len(sums[0]) == 65)
    for path in ("KIT-ID", "WHAT", "bin/rattle", "rlibs/std"):
        seen = os.stat("%s/%s" % (kit, path))
        write("%s/%s" % (kit, path), path.upper().swapcase() if path == "KIT-ID" else path[::-1])
        if path.startswith("bin"):
            os.utime("%s/%s" % (kit, path), ns=(seen.st_atime_ns, seen.st_mtime_ns))
        sums.append(room.run(root, [sys.executable, "-c", told])[1])
    check("each change of a kit gives another identity", len(set(sums)) == 5, len(set(sums)))


def step_real(room):
    """Changes that a run really meets: a wrong proof and a body that is no more as its contract says are refused though the right ones are kept; and the right text
    is then taken again."""
    root = room.make("changed")
    proof = first_of(root + "/crates/word_file/proofs")
    was = read(proof)
    write(proof, re.sub(r"(?m)^(\w+(?: \w+)*) = rw .*$", r"\1 = refl", was, count=1))
    check("the proof is another", read(proof) != was)
    status, said, seconds = room.kept(root)
    check("a wrong proof: refused", status == 1 and "word_file NOT PROVED" in said and proved_in(said) == {"word_file"}, "%d, %.0f s, %s" % (status, seconds, last_of(said)))
    status, said, _ = room.kept(root)
    check("a wrong proof, again: refused again", status == 1 and "word_file NOT PROVED" in said)
    write(proof, was)
    status, said, seconds = room.kept(root)
    check("the right proof: taken", status == 0 and not proved_in(said), "%.1f s" % seconds)
    replace(root + "/crates/placed_bytes/src/placed.rt", "if buffer.len() < length {", "if buffer.len() <= length {")
    status, said, seconds = room.kept(root)
    check("a wrong body below: refused, and nothing above it is taken", status == 1 and all(it + " NOT PROVED" in said for it in ("placed_bytes", "small_user")), last_of(said))
    root = room.make("changed")
    write(root + "/crates/small_user/stdout", "4 bytes, letter 0\n")
    status, said, seconds = room.kept(root)
    check("another stdout: all is taken, and the run fails", status == 1 and not proved_in(said) and "small_user (run)" in said, last_of(said))
    write(root + "/crates/small_user/stdout", FILES["crates/small_user/stdout"])
    replace(root + "/" + EDIT, "if buffer.len() <= length", "if length > buffer.len()")
    status, said, seconds = room.kept(root)
    check("an edit that changes nothing: tried, and not refused", status == 1 and "NOT REFUSED" in said and not proved_in(said), last_of(said))
    root = room.make("changed")
    append(root + "/crates/placed_bytes/src/lib.rt", "// A remark.\n")
    status, said, seconds = room.kept(root)
    # a kit that keeps by itself goes by the bytes of the libraries below, in which a remark doesn't stand
    again = {"placed_bytes"} if room.keeps_itself else OVER_PLACED
    check("a remark below: proved again, and the others taken", status == 0 and proved_in(said) == again, "%.0f s, %s" % (seconds, sorted(proved_in(said))))
    status, said, seconds = room.kept(root)
    check("then all is taken", status == 0 and not proved_in(said), "%.1f s" % seconds)
    root = room.make("changed")
    replace(root + "/crates/placed_bytes/src/lib.rt", "mod placed;", "mod  placed;")
    status, said, seconds = room.kept(root)
    check("a text that isn't formatted: refused", status == 1 and "run rt fmt" in said, last_of(said))
    root = room.make("changed")
    append(root + "/crates.txt", "no_such_crate:\n")
    status, said, _ = room.kept(root)
    check("a refusal of form: as rt ci has it", status == 2 and last_of(said) == "0 passed, 1 failed", last_of(said))


def entry_of(room, root, name):
    """The entry of a crate's library, and the largest file that is kept of it alone."""
    if room.keeps_itself:
        entry = max(glob.glob("%s/proof-%s-*" % (room.store(), name)), key=os.path.getmtime)
        return entry + "/made.json", max(glob.glob(entry + "/[0-9]*"), key=os.path.getsize)
    words = "import sys; sys.path[:0] = [%r, %r]; import kit_gate, proofs, store, crates\n" % (HERE, os.path.dirname(HERE))
    words += "g = kit_gate.load_gate(); s = store.Store(%r, 1); k = proofs.Kept(g, s, True, True, False)\n" % room.cache
    words += "for c in crates.crates_here(g):\n e = s.read(k.key(c, 'proof'))\n k.stands(c, k.key(c, 'proof'), e['files'])\n"
    words += " if c.name == %r: print(s.entry(k.key(c, 'proof'))); print(s.file(max(e['files'], key=lambda r: r[2] if r[0].endswith('checked.a') else 0)[1]))" % name
    return room.run(root, [sys.executable, "-c", words])[1].split()


def step_damage(room):
    """What was damaged is proved again, and mended."""
    root = room.make("changed")
    for what, which in (("a kept file of which a byte differs", 1), ("a kept file that is cut short", 1), ("an entry of which a byte differs", 0)):
        path = entry_of(room, root, "placed_bytes")[which]
        with open(path, "r+b") as it:
            if "cut" in what:
                it.truncate(100)
            else:
                it.seek(200)
                byte = it.read(1)[0]
                it.seek(200)
                it.write(bytes([byte ^ 1]))
        status, said, seconds = room.kept(root)
        check("%s: a miss for that crate" % what, status == 0 and "placed_bytes" in proved_in(said) and proved_in(said) <= OVER_PLACED, "%.0f s, %s" % (seconds, sorted(proved_in(said))))
        status, said, seconds = room.kept(root)
        check("%s: mended" % what, status == 0 and not proved_in(said), "%.1f s" % seconds)


def step_killed(room):
    """A run that is killed keeps nothing of what it was proving, and leaves nothing that stops the next; two at once don't spoil each other."""
    cache, root = room.at + "/cache2", room.make("killed")
    shutil.rmtree(room.store(cache), ignore_errors=True)
    told = room.environment(cache, RT_JOBS="1")
    for sign in (signal.SIGKILL, signal.SIGTERM):
        ran = subprocess.Popen([sys.executable, HERE, "placed_bytes"], cwd=root, env=told, stdout=subprocess.DEVNULL, stderr=subprocess.DEVNULL, start_new_session=True)
        time.sleep(4)
        os.killpg(ran.pid, sign)
        ran.wait()
        check("killed by signal %d in a proof: nothing is kept" % sign, room.proofs_kept(cache) == 0 and ran.returncode != 0, ran.returncode)
        shutil.rmtree(root + "/crates/placed_bytes/out", ignore_errors=True)
    other = room.make("killed_other")
    both = [subprocess.Popen([sys.executable, HERE, "placed_bytes"], cwd=it, env=told, stdout=subprocess.PIPE, stderr=subprocess.STDOUT, text=True) for it in (root, other)]
    said = [it.communicate(timeout=3000)[0] for it in both]
    check("two at once: both pass", all(it.returncode == 0 and last_of(text).startswith("2 passed, 0 failed") for it, text in zip(both, said)), [last_of(it) for it in said])
    status, text, seconds = room.kept(other, "placed_bytes", cache=cache)
    check("after two at once: taken", status == 0 and not proved_in(text), "%.1f s" % seconds)
    status, text, _ = room.kept(other, "--from-nothing", "placed_bytes", cache=cache)
    check("--from-nothing: nothing is taken", status == 0 and proved_in(text) == {"placed_bytes"} and last_of(text).startswith("2 passed, 0 failed"), last_of(text))
    if not room.keeps_itself:
        status, text, _ = room.kept(other, "placed_bytes", cache=cache, RT_KEPT_GB="0")
        check("a bound of nothing: the oldest go, here all", status == 0 and room.proofs_kept(cache) == 0 and not any(names for _, _, names in os.walk(cache + "/files")))


def step_bytes(room):
    """RT_KEPT_BELOW=bytes: a remark in a library proves that library alone; a function more proves what stands on it too. A kit that keeps by itself always does so."""
    if room.keeps_itself:
        return
    cache, root = room.at + "/cache3", room.make("bytes")
    shutil.rmtree(cache, ignore_errors=True)
    how = {"cache": cache, "RT_KEPT_BELOW": "bytes"}
    status, said, seconds = room.kept(root, "small_user", **how)
    check("an empty cache", status == 0 and proved_in(said) == {"placed_bytes", "small_user"}, "%.0f s" % seconds)
    append(root + "/crates/placed_bytes/src/lib.rt", "// A remark.\n")
    status, said, seconds = room.kept(root, "small_user", **how)
    check("a remark: that library alone", status == 0 and proved_in(said) == {"placed_bytes"}, "%.0f s" % seconds)
    append(root + "/crates/placed_bytes/src/placed.rt", "\n/// One more.\npub fn one_more() -> u8 {\n    1\n}\n")
    status, said, seconds = room.kept(root, "small_user", **how)
    check("a function more: what stands on it too", status == 0 and proved_in(said) == {"placed_bytes", "small_user"}, "%.0f s" % seconds)


def lacking_in(said):
    """How many of the crates that were asked for aren't here."""
    found = re.search(r"kept: (\d+) of (\d+) libraries", said)
    return found and int(found[2]) - int(found[1])


def step_take(room):
    """The kept libraries in a new checkout: rt check begins with them."""
    root = room.make("taken")
    status, said, seconds = room.kept(root, "--take", "word_file")
    check("--take: the libraries come", status == 0 and lacking_in(said) == 0 and os.path.isfile(root + "/crates/micro_word/out/rlib/stamp"), "%.1f s, %s" % (seconds, said.strip()))
    made = os.stat(root + "/crates/micro_word/out/rlib/micro_word.rlib/format").st_mtime_ns
    status, said, seconds = room.run(root + "/crates/word_file", ["rt", "check"])
    check("rt check takes them", status == 0 and made == os.stat(root + "/crates/micro_word/out/rlib/micro_word.rlib/format").st_mtime_ns and "== micro_word" not in said, "%.0f s" % seconds)
    status, said, _ = room.kept(root, "--take")
    check("--take again: all are here", lacking_in(said) == 0, said.strip())
    append(root + "/crates/micro_word/src/lib.rt", "// A remark.\n")
    status, said, _ = room.kept(root, "--take")
    check("--take over a changed library: it and what stands on it aren't taken", lacking_in(said) == 2, said.strip())


STEPS = [step_first, step_second, step_misses, step_kit, step_take, step_damage, step_real, step_bytes, step_killed]


def main():
    repository, at, *names = sys.argv[1:]
    os.makedirs(at, exist_ok=True)
    room = Room(repository, at)
    for step in STEPS:
        if not names or step.__name__[5:] in names:
            begun = time.monotonic()
            print("== %s" % step.__doc__.split("\n")[0], flush=True)
            step(room)
            print("   %.0f s" % (time.monotonic() - begun), flush=True)
    print("%d wrong" % len(failed))
    sys.exit(1 if failed else 0)


main()

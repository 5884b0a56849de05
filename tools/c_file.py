"""Tries what release/onfiseq.c says of itself: what can be left out of it, the memory that it takes, memory that is refused, and calls that come at once.

    python3 tools/c_file.py [NAME..]             all of it, or some: options, memory, refused, lent, at_once, handler
    python3 tools/c_file.py --calls N at_once    so many calls of each thread and of the interrupt, also over the libraries for x86-64 where those are built
    python3 tools/c_file.py --sanitize at_once   under ThreadSanitizer

at the root; it needs a C compiler and no kit. SOURCE in the environment is another C file than release/onfiseq.c.
"""
import argparse
import os
import re
import subprocess
import sys

sys.path.insert(0, "tools/machines")
import header
import parts

HEADER, SOURCE, ROOM = "include/onfiseq.h", os.environ.get("SOURCE", "release/onfiseq.c"), "out/c_file"
CHIP, TEXT, TRACE = "examples/small_chip/chip.page", "examples/retry.asm", "examples/small_chip/erase_block.trace"
STRICT = ["-std=c99", "-pedantic", "-Wall", "-Wextra", "-Werror", "-Iinclude"]
NATIVE = "crates/onfiseq_c/out/libonfiseq_c.a"
CHECKER_ALONE = ["-DONFISEQ_WITHOUT_%s" % name for name in parts.PARTS]
# The least memory for the calls of examples/c/interrupt.c, each of whose operations has four parts.
OF_FOUR_PARTS = "ONFISEQ_STACK_OP(4)"
LIMITS = range(20000, 64000, 4000)


def run(*words, **how):
    """Runs a command: its status and all that it says."""
    ran = subprocess.run(words, stdout=subprocess.PIPE, stderr=subprocess.STDOUT, text=True, errors="replace", check=False, **how)
    return ran.returncode, ran.stdout


def build(*words):
    """Runs a compiler that must succeed."""
    status, said = run("cc", *words)
    if status:
        sys.exit("c_file: cc %s\n%s" % (" ".join(words), said[-2000:]))


def why_refused(*options):
    """What the compiler says against the C file with these options: None where it takes it."""
    status, said = run("cc", *STRICT, "-fsyntax-only", *options, SOURCE)
    return said if status else None


def calls_of(*options):
    """The calls that the C file has with these options."""
    status, text = run("cc", "-std=c99", "-E", "-P", "-Iinclude", *options, SOURCE)
    names = header.read(HEADER)[1]
    return {name for name in names if re.search(r"\b%s\([^;{]*\) \{" % name, text)} if status == 0 else set()


def try_options():
    """Each part left out alone, and all of them: nothing stands there that is never used, and the calls are those of the rest."""
    every, wrong = calls_of(), []
    lines = {}
    for name in [*parts.PARTS, None]:
        options = CHECKER_ALONE if name is None else ["-DONFISEQ_WITHOUT_" + name]
        gone = set(parts.PARTS) if name is None else {name, *parts.PARTS[name]}
        wanted = {it for it in every if parts.part_of(it[len("onfiseq_"):]) not in gone}
        if calls_of(*options) != wanted:
            wrong.append("%s: %s" % (" ".join(options), " ".join(sorted(calls_of(*options) ^ wanted))))
        wrong += filter(None, [why_refused(*options)])
        lines[name or "all"] = run("cc", "-std=c99", "-E", "-P", "-Iinclude", *options, SOURCE)[1].count("\n")
    wrong += filter(None, [why_refused(), why_refused("-DONFISEQ_THREAD="), why_refused("-DONFISEQ_UNCHECKED")])
    if sys.maxsize >> 32 and "processors of 32 bits" not in (why_refused("-DONFISEQ_DIRECT") or ""):
        wrong.append("addresses of 64 bits are taken for those of 32")
    return wrong, "lines without " + ", ".join("%s %d" % it for it in lines.items())


def stacks():
    """The sets of calls: the word that chooses the stack of each, and how much that is; of operations for four parts."""
    with open(SOURCE) as it:
        found = re.findall(r"(?m)^#define (ONFISEQ_STACK_\w+)(\(parts\))? \(?(\d+)(?: \+ (\d+))?", it.read())
    return {name + "(4)" * bool(is_of_parts): int(most) + 4 * int(each or 0) for name, is_of_parts, most, each in found}


def named_least(name, stack):
    """The least memory that the compiler names for a set of calls."""
    said = why_refused("-DONFISEQ_MEMORY=64", "-DONFISEQ_STACK=" + name, *CHECKER_ALONE) or ""
    found = re.search(r"ONFISEQ_MEMORY is too small: the least is (ONFISEQ_STACK and )?(\d+)", said)
    return int(found.group(2)) + stack * bool(found.group(1)) if found else 0


def lent_options(name):
    """The checker alone, in the least memory for a set of calls, which is lent to it."""
    return ["-DONFISEQ_STACK=" + name, *CHECKER_ALONE, "-DONFISEQ_ROOM=lend_room", "-DONFISEQ_MEMORY=%d" % named_least(name, stacks()[name])]


def try_memory():
    """A memory that is too small is an error that names the least, for each set of calls, and the least is taken; so is a stack that is too small."""
    wrong, told = [], []
    for name, stack in stacks().items():
        options, least = ["-DONFISEQ_STACK=" + name, *CHECKER_ALONE], named_least(name, stack)
        told.append("%s %s" % (name[len("ONFISEQ_STACK_"):], least))
        if not least or not why_refused("-DONFISEQ_MEMORY=%d" % (least - 16), *options) or why_refused("-DONFISEQ_MEMORY=%d" % least, *options):
            wrong.append("%s: the least memory is %s" % (name, least))
    if "ONFISEQ_STACK is too small" not in (why_refused("-DONFISEQ_STACK=64") or "") or "ONFISEQ_MEMORY says" not in (why_refused("-DONFISEQ_ROOM=lend_room") or ""):
        wrong.append("a stack or a room that is too small is taken")
    return wrong, "the least memory: " + ", ".join(told)


def plain_object():
    """The C file as it is, compiled, where it isn't yet."""
    made = ROOM + "/plain.o"
    if not os.path.isfile(made) or os.path.getmtime(made) < max(os.path.getmtime(it) for it in (SOURCE, HEADER)):
        build("-std=c99", "-O1", "-Iinclude", "-c", SOURCE, "-o", made)
    return made


def refused_program(name, source, words):
    """The program that refuses memory to the calls of a source, or of what the preprocessor leaves of it."""
    room, program = "%s/of_%s" % (ROOM, name), "%s/%s" % (ROOM, name)
    os.makedirs(room, exist_ok=True)
    with open(room + "/refused_calls.h", "w") as it:
        subprocess.run([sys.executable, "tools/machines/try/refused.py", HEADER, source], stdout=it, check=True)
    build("-std=gnu11", *STRICT[2:], "-O1", "-I" + room, "tools/machines/try/refused.c", *words, "-Wl,--wrap=calloc,--wrap=realloc", "-o", program)
    return program


def try_lent():
    """A memory that is lent, and no more of it than the compiler names: no room for a call, and room that is too small for what it is given."""
    made, options = ROOM + "/of_lent.i", lent_options("ONFISEQ_STACK_CHECK")
    build("-std=c99", "-E", "-P", "-Iinclude", *options, SOURCE, "-o", made)
    build("-std=c99", "-O1", "-Iinclude", *options, "-c", SOURCE, "-o", ROOM + "/of_lent.o")
    status, said = run(refused_program("lent", made, [ROOM + "/of_lent.o", *options]), "each")
    return [said] if status else [], said.strip()


def try_refused():
    """Memory refused to each call, from each request on, and by the system."""
    program = refused_program("refused", SOURCE, [plain_object()])
    runs = [["each"], ["turn", CHIP, TEXT, TRACE]] + [["limit", str(kilobytes)] for kilobytes in LIMITS]
    ran = [(words, *run(program, *words)) for words in runs]
    wrong = ["%s: %s%d" % (" ".join(words), said, status) for words, status, said in ran if status]
    by_limit = "".join(said.strip() for words, _, said in ran if words[0] == "limit")
    if set(by_limit) != {"O", "0"}:
        wrong.append("with %d to %d KB of addresses it answered %s" % (LIMITS[0], LIMITS[-1], by_limit))
    return wrong, "; ".join([*ran[0][2].split("\n")[:1], *ran[1][2].split("\n")[:-1], "by limits " + by_limit])


def at_once_over(name, words, options, sanitized):
    """Two threads and an interrupt over a library: what they print."""
    program = "%s/%s" % (ROOM, name)
    build("-std=gnu11", *STRICT[1:], "-O1", *sanitized, *options, "examples/c/interrupt.c", *words, "-pthread", "-o", program)
    return program


def try_at_once(calls=100000, sanitized=()):
    """Two threads and an interrupt in the calls at once, each with the least memory that the compiler names; beside the library for x86-64 where that is built."""
    options = lent_options(OF_FOUR_PARTS)
    build("-std=c99", "-O1", "-Iinclude", *sanitized, *options, "-c", SOURCE, "-o", ROOM + "/lent.o")
    programs = [at_once_over("at_once", [ROOM + "/lent.o"], options[-1:], sanitized)]
    programs += [at_once_over("at_once_native", [NATIVE], [], sanitized)] if os.path.isfile(NATIVE) else []
    ran = [run(program, CHIP, str(calls)) for program in programs]
    with open("examples/c/expected/interrupt") as it:
        wanted = it.read() if calls == 100000 else ran[0][1]
    wrong = ["%s: it ended with %d and printed\n%s" % (program, status, said) for program, (status, said) in zip(programs, ran) if status or said != wanted]
    return wrong, "%d calls%s" % (3 * calls, " beside the library for x86-64" if len(programs) > 1 else "")


def try_handler():
    """The same without a memory for the interrupt: a call that comes in the midst of another is refused, and the threads are answered as ever."""
    program = at_once_over("handler", [plain_object()], [], ())
    status, said = run(program, CHIP)
    with open("examples/c/expected/interrupt") as it:
        wanted = it.read().splitlines()[:2]
    is_right = said.splitlines()[:2] == wanted and status in (0, 1)
    return [] if is_right else ["it ended with %d and printed\n%s" % (status, said)], "the threads are answered as ever, the interrupt %s" % ("too" if status == 0 else "was refused")


TRIED = {"options": try_options, "memory": try_memory, "refused": try_refused, "lent": try_lent, "at_once": try_at_once, "handler": try_handler}


def main():
    words = argparse.ArgumentParser(prog="tools/c_file.py")
    words.add_argument("names", nargs="*", metavar="NAME", help=", ".join(TRIED))
    words.add_argument("--calls", type=int, default=100000)
    words.add_argument("--sanitize", action="store_true")
    given, failed = words.parse_args(), False
    os.makedirs(ROOM, exist_ok=True)
    for name in given.names or TRIED:
        how = (given.calls, ["-fsanitize=thread", "-g"] * given.sanitize) if name == "at_once" else ()
        wrong, told = TRIED[name](*how)
        print("c_file: %s %s" % (name, "differs: " + "\n".join(wrong) if wrong else "ok: " + told), flush=True)
        failed |= bool(wrong)
    return 1 if failed else 0


if __name__ == "__main__":
    sys.exit(main())

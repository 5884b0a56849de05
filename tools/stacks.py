"""Measures how much stack each call takes: it is painted before the call, and what the call has changed of it is looked up behind it.

    python3 tools/stacks.py              the libraries for x86-64, which `tools/c_library.py --build` builds, beside what include/onfiseq.h says of them
    python3 tools/stacks.py --portable   release/onfiseq.c: the processor's stack beside the header, and the stack in its memory beside its own macros
    python3 tools/stacks.py --print      also each call's

at the root. The calls are those of examples/c/fuzz.c, of random chips, and of examples/c/stack.c, of programs that search long. It ends with 1 where a call takes more
than it is said to, or where one isn't made. SOURCE in the environment is another C file than release/onfiseq.c.
"""
import os
import re
import subprocess
import sys

sys.path[:0] = ["tools/machines"]
import header
import parts

HEADER, SOURCE = "include/onfiseq.h", os.environ.get("SOURCE", "release/onfiseq.c")
# Both forms are measured at once in the gate.
ROOM = "out/stacks" + "_portable" * ("--portable" in sys.argv)
LIBRARIES = ("onfiseq_c", "onfiseq_verify_c", "onfiseq_text_c", "onfiseq_live_c", "onfiseq_show_c")
ARCHIVES = ["crates/{0}/out/lib{0}.a".format(name) for name in LIBRARIES]
CHIP = "examples/small_chip/chip.page"
CALLS, SEEDS = "30000", ("1", "2")
IN_ROOM, STACK_IN_ROOM = 256 << 20, 200000  # more stack than any call takes
PROGRAMS = ["examples/%s.asm" % name for name in ("retry", "erase_or_fail", "read_page", "program_page", "c/no_wait")]
PROGRAMS += ["examples/%s.nmp" % name for name in ("erase_one_block", "erase_two_blocks", "read_one_page")]
# The calls whose stack grows by the parts of an operation: what they take for up to FEW parts, and how much more for each of MANY.
BY_PARTS, FEW, MANY = ("onfiseq_push_op", "onfiseq_ask_op"), 8, 64


def run(*words, **how):
    return subprocess.run(words, check=True, stdout=subprocess.PIPE, text=True, **how).stdout


def given_as(it):
    """An argument as C declares it."""
    return "%s%s %s%s" % ("const " if it["const"] else "", header.c_type(it["kind"]), "*" if it["by"] in ("pointer", "slice") else "", it["name"])


def layer(calls):
    """The C file between a program and the library: each call painted and measured."""
    lines = ['#include "onfiseq.h"', '#include "tools/machines/try/painted.c"', "static struct measured calls[] = {"]
    lines += ['    {"%s", 0, 0, 0},' % name for name in calls] + ["};", "static struct measured many[sizeof calls / sizeof *calls];"]
    for number, (name, call) in enumerate(calls.items()):
        answer = header.c_type(call["answer"])
        given = ", ".join(given_as(it) for it in call["given"]) or "void"
        words = ", ".join(it["name"] for it in call["given"])
        lines += ["%s one_%s(%s);" % (answer, name, given), "%s %s(%s) {" % (answer, name, given), "    %s answer;" % answer, "    paint();"]
        place = "calls[%d]" % number if name not in BY_PARTS else "(count <= %d ? calls : many)[%d]" % (FEW, number)
        lines += ["    answer = one_%s(%s);" % (name, words), "    note(&%s, __builtin_frame_address(0));" % place, "    return answer;", "}"]
    lines += ["__attribute__((destructor)) static void tell(void) {", "    for (size_t k = 0; k < sizeof calls / sizeof *calls; k++)"]
    lines += ['        fprintf(stderr, "measured %s %lu %lu %lu %lu %lu\\n", calls[k].name, calls[k].made, calls[k].most, calls[k].most_in_room, many[k].most, many[k].most_in_room);', "}"]
    return "\n".join(lines) + "\n"


def named_one(path, made, every):
    """An object or archive whose calls are called one_ and their name."""
    with open(ROOM + "/names", "w") as it:
        it.writelines("%s one_%s\n" % (name, name) for name in every)
    run("objcopy", "--redefine-syms=%s/names" % ROOM, path, made)
    return made


def objects(is_portable, every):
    """The library with its calls renamed, and the words for the layer's compiler."""
    if not is_portable:
        lacking = [path for path in ARCHIVES if not os.path.isfile(path)]
        if lacking:
            sys.exit("stacks: %s isn't built: python3 tools/c_library.py --build" % lacking[0])
        return [named_one(path, "%s/%s" % (ROOM, os.path.basename(path)), every) for path in ARCHIVES], []
    options = ["-DONFISEQ_ROOM=lend_room", "-DONFISEQ_MEMORY=%d" % IN_ROOM, "-DONFISEQ_STACK=%d" % STACK_IN_ROOM]
    run("cc", "-std=c99", "-O1", "-Iinclude", *options, "-c", SOURCE, "-o", ROOM + "/portable.o")
    return [named_one(ROOM + "/portable.o", ROOM + "/portable.o", every)], ["-DIN_ROOM=%d" % IN_ROOM, "-DSTACK_IN_ROOM=%d" % STACK_IN_ROOM]


def measure(is_portable):
    """Of each call: how often it was made, the most that it took of the processor's stack and of that in its memory, and both for many parts."""
    os.makedirs(ROOM, exist_ok=True)
    _, every = header.read(HEADER)
    made, words = objects(is_portable, every)
    calls = {name: call for name, call in every.items() if "one_%s\n" % name in run("nm", "-f", "just-symbols", *made)}
    with open(ROOM + "/layer.c", "w") as it:
        it.write(layer(calls))
    words = ["-std=gnu11", "-O1", "-Wall", "-Wextra", "-Werror", "-Wno-unused-function", "-Iinclude", "-I.", *words] + ["-DWITHOUT_PICTURES"] * is_portable
    for program in ("fuzz", "stack"):
        run("cc", *words, "examples/c/%s.c" % program, ROOM + "/layer.c", *made, "-pthread", "-o", "%s/%s" % (ROOM, program))
    runs = [[ROOM + "/fuzz", CALLS, seed, CHIP] for seed in SEEDS] + [[ROOM + "/fuzz", "3000", "1", CHIP, "damaged"], [ROOM + "/stack", CHIP, *PROGRAMS]]
    found = {name: [0] * 5 for name in calls}
    for it in runs:
        told = subprocess.run(it, check=True, stdout=subprocess.DEVNULL, stderr=subprocess.PIPE, text=True).stderr
        for name, *numbers in re.findall(r"(?m)^measured (\w+)" + r" (\d+)" * 5 + "$", told):
            numbers = [int(number) for number in numbers]
            found[name] = [found[name][0] + numbers[0]] + [max(pair) for pair in zip(found[name][1:], numbers[1:])]
    return found


def words_of_header():
    """What the header says: kilobytes of stack by the name of a call, of a library or of release/onfiseq.c, and how many bytes more a part of an operation takes."""
    with open(HEADER) as it:
        said = re.search(r"there is stack enough:(.*?)\n \*/", it.read(), re.S).group(1).replace("\n *", " ")
    return {name.rstrip("."): 1024 * int(kilobytes) for kilobytes, name in re.findall(r"(\d+)\s+KB\s+for\s+([\w./]+)", said)}, int(re.search(r"(\d+)\s+bytes\s+more", said).group(1))


def libraries_of_calls():
    """The library of each call, as the header names it."""
    return {name: os.path.basename(path) for path in ARCHIVES for name in re.findall(r"(?m)^(onfiseq_\w+)$", run("nm", "-f", "just-symbols", "--defined-only", path))}


def stacks_in_room():
    """What release/onfiseq.c says of its own stack, by the set of calls: the most, and how much more for each part."""
    with open(SOURCE) as it:
        found = re.findall(r"(?m)^#define ONFISEQ_STACK_(\w+?)(?:\(parts\))? \(?(\d+)(?: \+ (\d+))?", it.read())
    return {name: (int(most), int(each or 0)) for name, most, each in found}


def too_much(found, is_portable):
    """The calls that take more than they are said to, and those that weren't made."""
    (said, more), in_room = words_of_header(), stacks_in_room() if is_portable else {}
    of = {} if is_portable else libraries_of_calls()
    for name, (made, most, most_in_room, many, many_in_room) in found.items():
        allowed = said["release/onfiseq.c"] if is_portable else said.get(name, said.get(of[name], 0))
        room, each = in_room.get(parts.set_of(name[len("onfiseq_"):]), (0, 0)) if is_portable else (0, 0)
        rows = [(most, allowed + FEW * more * (name in BY_PARTS)), (many, allowed + MANY * more), (most_in_room, room + FEW * each), (many_in_room, room + MANY * each)]
        for used, least in rows:
            if used > least:
                yield "%s takes %d bytes of stack, and is said to take %d" % (name, used, least)
        if not made:
            yield "%s isn't made" % name


def main():
    is_portable = "--portable" in sys.argv
    found = measure(is_portable)
    if "--print" in sys.argv:
        for name, numbers in found.items():
            print("%-28s made %7d: %7d, in its memory %7d; of %d parts %7d and %7d" % (name, *numbers[:3], MANY, *numbers[3:]))
    wrong = list(too_much(found, is_portable))
    print("\n".join("stacks: " + it for it in wrong) or "stacks: %d calls of %d kinds take no more than they are said to" % (sum(it[0] for it in found.values()), len(found)))
    return 1 if wrong else 0


if __name__ == "__main__":
    sys.exit(main())

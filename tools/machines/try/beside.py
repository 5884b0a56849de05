"""Compares release/onfiseq.c with the libraries for x86-64 in one process, call by call: the generator is that of examples/c/fuzz.c.

    python3 tools/machines/try/beside.py [CALLS [SEED]]      100,000 calls, where no number is given

at the root, where `python3 tools/c_library.py --build` has built the libraries. A call of fuzz.c goes to both, each with a copy of what may be written; the answers and all
that is written must be the same, field by field. The calls are those of include/onfiseq.h: one that release/onfiseq.c has and that isn't made is a fault.
"""
import os
import re
import subprocess
import sys
import time

HERE = os.path.dirname(os.path.abspath(__file__))
sys.path.insert(0, os.path.join(HERE, ".."))
import header
from targets import PORTABLE

HEADER, SOURCE, CHIP, ROOM = "include/onfiseq.h", "release/onfiseq.c", "examples/small_chip/chip.page", "out/beside"
ARCHIVES = ["crates/{0}/out/lib{0}.a".format(name) for name in PORTABLE]
# What a call may write of a slice: no more is copied and compared.
HEAD = """/* Each call of onfiseq.h to two libraries. */
#include "onfiseq.h"
#include <stdio.h>
#include <stdlib.h>
#include <string.h>
enum { MOST = 1 << 20 };
static unsigned long made[%d];
static void differ(const char *name) {
    printf("beside: %%s differs\\n", name);
    fflush(stdout);
    abort();
}
"""


def comparison_of(name, record):
    """A function that says whether two records have the same fields."""
    lines = ["static bool same_%s(const struct %s *x, const struct %s *y) {" % (name, name, name)]
    for field in record["fields"]:
        place = field["name"] + ("[k]" if field["count"] else "")
        test = "same_%s(&x->%s, &y->%s)" % (field["kind"], place, place) if header.is_record(field["kind"]) else "x->%s == y->%s" % (place, place)
        loop = "for (size_t k = 0; k < %d; k++) " % field["count"] if field["count"] else ""
        lines.append("    %sif (!(%s)) return false;" % (loop, test))
    return lines + ["    return true;", "}"]


class Twin:
    """The function of a call: it makes the call twice, the second time with copies of what may be written."""

    def __init__(self, number, name, call, records):
        self.number, self.name, self.call, self.records = number, name, call, records
        self.before, self.tests, self.words = [], [], []
        for it in call["given"]:
            self.words.append(self.taken(it) if it["by"] in ("pointer", "slice") and not it["const"] else it["name"])

    def taken(self, it):
        """An argument that may be written: a copy for the other library."""
        name, kind = it["name"], header.c_type(it["kind"])
        if it["by"] == "pointer":
            self.before.append("%s copy_%s = *%s;" % (kind, name, name))
            self.tests.append("same_%s(%s, &copy_%s)" % (it["kind"], name, name) if it["kind"] in self.records else "*%s == copy_%s" % (name, name))
            return "&copy_" + name
        size = "%s * sizeof *%s" % (it["length"], name)
        self.before += ["static uint8_t copy_%s[MOST];" % name, "if (%s > MOST) abort();" % size, "if (%s) memcpy(copy_%s, %s, %s);" % (it["length"], name, name, size)]
        self.tests.append("(%s == 0 || memcmp(copy_%s, %s, %s) == 0)" % (it["length"], name, name, size))
        return "%s ? (%s *)(void *)copy_%s : NULL" % (name, kind, name)

    def lines(self):
        answer, given = header.c_type(self.call["answer"]), []
        for it in self.call["given"]:
            given.append("%s%s %s%s" % ("const " if it["const"] else "", header.c_type(it["kind"]), "*" if it["by"] in ("pointer", "slice") else "", it["name"]))
        heads = ["%s %s_%s(%s);" % (answer, side, self.name, ", ".join(given) or "void") for side in ("one", "two")]
        plain = ", ".join(it["name"] for it in self.call["given"])
        same = "same_%s(&answer, &other)" % self.call["answer"] if self.call["answer"] in self.records else "answer == other"
        lines = heads + ["%s %s(%s) {" % (answer, self.name, ", ".join(given) or "void")] + ["    " + it for it in self.before]
        lines += ["    %s other = two_%s(%s);" % (answer, self.name, ", ".join(self.words)), "    %s answer = one_%s(%s);" % (answer, self.name, plain)]
        lines += ["    made[%d]++;" % self.number, "    if (!(%s)) differ(\"%s\");" % (" && ".join([same, *self.tests]), self.name)]
        return lines + ["    return answer;", "}"]


def layer(records, calls):
    """The C file that stands between fuzz.c and both libraries; it counts the calls at the end."""
    lines = [HEAD % len(calls)]
    for name, record in records.items():
        lines += comparison_of(name, record)
    for number, (name, call) in enumerate(calls.items()):
        lines += Twin(number, name, call, records).lines()
    lines += ["static const char *const names[] = {%s};" % ", ".join('"%s"' % name for name in calls), "__attribute__((destructor)) static void tell(void) {"]
    lines += ["    for (size_t k = 0; k < sizeof names / sizeof *names; k++) fprintf(stderr, \"made %s %lu\\n\", names[k], made[k]);", "}"]
    return "\n".join(lines) + "\n"


def run(*words):
    subprocess.run(words, check=True)


def build(archives):
    """The program: the names of the calls that it compares."""
    os.makedirs(ROOM, exist_ok=True)
    records, every = header.read(HEADER)
    with open(SOURCE) as it:
        text = it.read()
    calls = {name: call for name, call in every.items() if "w2c_w_%s(" % name in text}
    for side in ("one", "two"):
        with open("%s/%s.names" % (ROOM, side), "w") as it:
            it.writelines("%s %s_%s\n" % (name, side, name) for name in every)
    with open(ROOM + "/layer.c", "w") as it:
        it.write(layer(records, calls))
    run("cc", "-O1", "-Iinclude", "-c", SOURCE, "-o", ROOM + "/portable.o")
    run("objcopy", "--redefine-syms=%s/two.names" % ROOM, ROOM + "/portable.o")
    made = []
    for path in archives:
        made.append("%s/%s" % (ROOM, os.path.basename(path)))
        run("objcopy", "--redefine-syms=%s/one.names" % ROOM, path, made[-1])
    warnings = ["-std=c99", "-Wall", "-Wextra", "-Werror", "-Wno-unused-function"]
    run("cc", "-O1", *warnings, "-Iinclude", "examples/c/fuzz.c", ROOM + "/layer.c", ROOM + "/portable.o", *made, "-o", ROOM + "/fuzz")
    return list(calls), len(every)


def main():
    count = sys.argv[1] if len(sys.argv) > 1 else "100000"
    seed = sys.argv[2] if len(sys.argv) > 2 else "1"
    lacking = [path for path in ARCHIVES if not os.path.isfile(path)]
    if lacking:
        sys.exit("beside: %s isn't built: python3 tools/c_library.py --build" % lacking[0])
    begun = time.time()
    calls, every = build(ARCHIVES)
    ran = subprocess.run([ROOM + "/fuzz", count, seed, CHIP], stdout=subprocess.PIPE, stderr=subprocess.PIPE, text=True)
    made = {name: int(times) for name, times in re.findall(r"(?m)^made (\w+) (\d+)$", ran.stderr)}
    never = [name for name in calls if not made.get(name)]
    if ran.returncode or never:
        print(ran.stdout.strip() or "beside: the program ended with %d" % ran.returncode)
        print("beside: never made: " + ", ".join(never) if never and not ran.returncode else "beside: seed %s" % seed)
        return 1
    print("beside: %d calls of %d kinds, of the %d that the header has, answer alike, %.0f s" % (sum(made.values()), len(calls), every, time.time() - begun))
    return 0


if __name__ == "__main__":
    sys.exit(main())

"""Writes the calls of onfiseq.h for a processor whose library came by retarget.py: each hands what it is given to the library's own function, w_ and its name,
which takes sizes of 64 bits and writes its record by a pointer.

    python3 tools/machines/calls.py include/onfiseq.h NAME.. > onfiseq_calls.c      NAME: a call that the library has
"""
import sys

import header


class Outer:
    """A call of onfiseq.h over the library's function."""

    def __init__(self, name, call, records):
        self.name, self.answer = name, call["answer"]
        self.is_by_room = self.answer in records
        self.inner, self.words = (["%s *" % header.c_type(self.answer)], ["&answer"]) if self.is_by_room else ([], [])
        self.given, self.before, self.after = [], [], []
        for it in call["given"]:
            self.take(it)

    def take(self, it):
        """An argument."""
        star = "*" if it["by"] in ("pointer", "slice") else ""
        kind = "%s%s %s" % ("const " if it["const"] else "", header.c_type(it["kind"]), star)
        self.given.append(kind + it["name"])
        if star and it["kind"] == "size_t":
            self.before.append("uint64_t wide_%s = 0;" % it["name"])
            self.after.append("*%s = (size_t)wide_%s;" % (it["name"], it["name"]))
            self.inner.append("uint64_t *")
            self.words.append("&wide_" + it["name"])
        else:
            self.inner.append("uint64_t" if it["kind"] == "size_t" else kind.strip())
            self.words.append(it["name"])

    def lines(self):
        """The declaration of the library's function, and the call."""
        answer = header.c_type(self.answer)
        inner = "void" if self.is_by_room else "uint64_t" if answer == "size_t" else answer
        call = "w_%s(%s)" % (self.name, ", ".join(self.words))
        lines = ["%s w_%s(%s);" % (inner, self.name, ", ".join(self.inner) or "void")]
        lines.append("%s %s(%s) {" % (answer, self.name, ", ".join(self.given) or "void"))
        lines += ["    " + line for line in self.before]
        lines += ["    %s answer;" % answer, "    %s;" % call] if self.is_by_room else ["    %s answer = (%s)%s;" % (answer, answer, call)]
        return lines + ["    " + line for line in self.after] + ["    return answer;", "}", ""]


def written(header_path, names):
    """The C file of the calls of these names."""
    records, calls = header.read(header_path)
    lines = ["/* The calls of onfiseq.h over those of libonfiseq.a, written by tools/machines. */", '#include "onfiseq.h"', ""]
    for name, call in calls.items():
        if name in names:
            lines += Outer(name, call, records).lines()
    return "\n".join(lines)


if __name__ == "__main__":
    sys.stdout.write(written(sys.argv[1], sys.argv[2:]))

"""Writes sums.h: for each record of onfiseq.h a function that adds its fields to a sum, so that two records can be compared by a number.

    python3 tools/machines/try/sums.py include/onfiseq.h > sums.h
"""
import os
import sys

sys.path.insert(0, os.path.join(os.path.dirname(os.path.abspath(__file__)), ".."))
import header

HEAD = """/* Sums over records (FNV-1a, byte by byte), written by tools/machines/try/sums.py. */
#include "onfiseq.h"
#ifdef __GNUC__
#define SUM __attribute__((unused)) static
#else
#define SUM static
#endif
#define SUM_OF_NOTHING 14695981039346656037u
SUM void sum_number(uint64_t *sum, uint64_t it) {
    for (int k = 0; k < 8; k++) *sum = (*sum ^ (it >> 8 * k & 255)) * 1099511628211u;
}
"""


def line_of(field):
    """The line that adds a field."""
    place, loop = "x->" + field["name"], ""
    if field["count"]:
        place, loop = place + "[k]", "for (int k = 0; k < %d; k++) " % field["count"]
    added = "sum_%s(sum, &%s);" % (field["kind"], place) if header.is_record(field["kind"]) else "sum_number(sum, (uint64_t)%s);" % place
    return "    " + loop + added


def written(header_path):
    """The text of sums.h."""
    lines = [HEAD]
    for name, record in header.read(header_path)[0].items():
        lines.append("SUM void sum_%s(uint64_t *sum, const struct %s *x) {" % (name, name))
        lines += [line_of(field) for field in record["fields"]] + ["}"]
    return "\n".join(lines) + "\n"


if __name__ == "__main__":
    sys.stdout.write(written(sys.argv[1]))

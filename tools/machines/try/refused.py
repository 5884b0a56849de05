"""Writes for each call of include/onfiseq.h a function that makes it and says whether it was refused for want of memory, for refused.c.

Such a call answers 'O' in its own way, and nothing that it is given has changed, but for what it writes alone: that is empty.
"""
import os
import sys

HERE = os.path.dirname(os.path.abspath(__file__))
sys.path.insert(0, os.path.join(HERE, ".."))
import header
from portable import WRITTEN_ALONE

# What each kind of answer is where there is no memory; a record without these fields is empty.
TOLD = {"letter": "answer.letter == 'O'", "fault": "answer.fault == ONFISEQ_NO_MEMORY"}
OF_PAUSES = "answer.cycle == 'O' && answer.busy == 'O' && answer.ready == 'O'"
EMPTY = "answer_is_empty(&answer, sizeof answer)"
# The call whose answer is the same of a record that is damaged, as those here are.
TOLD_ALIKE = ("onfiseq_look_at",)


def is_told(answer, records):
    """The condition of a refused answer."""
    if answer == "onfiseq_pauses":
        return OF_PAUSES
    if answer == "size_t":
        return "answer == strlen(\"out of memory\")"
    if answer not in records:
        return "answer == ONFISEQ_NO_MEMORY"
    told = [TOLD[field["name"]] for field in records[answer]["fields"] if field["name"] in TOLD]
    return told[0] if told else EMPTY


class Call:
    """The function of a call."""

    def __init__(self, name, call, records):
        self.name, self.call, self.records = name, call, records
        self.lines, self.words, self.tests, self.has_slice = [], [], [], False
        for it in call["given"]:
            self.take(it)

    def take(self, it):
        name, kind = it["name"], header.c_type(it["kind"])
        if it["by"] == "slice":
            self.has_slice = True
            self.lines.append("%s *%s = (%s *)(void *)large;" % (kind, name, kind))
            self.words.append(name)
        elif it["by"] == "length":
            self.words.append("count")
        elif it["by"] == "value":
            self.words.append("sizeof(struct onfiseq_%s)" % ("live" if "live" in self.name else "bus") if name == "size" else "1")
        else:
            self.take_pointer(name, kind, it)

    def take_pointer(self, name, kind, it):
        """A record or a count, which stays as it was, or is empty where the call writes it alone."""
        self.lines += ["%s %s, %s_before;" % (kind, name, name), "memset(&%s, 0x5a, sizeof %s);" % (name, name)]
        is_emptied = it["kind"] in WRITTEN_ALONE or it["kind"] == "size_t"
        self.lines += ["memset(&%s_before, %s, sizeof %s);" % (name, "0" if is_emptied else "0x5a", name)]
        self.words.append("&" + name)
        self.tests.append("memcmp(&%s, &%s_before, sizeof %s) == 0" % (name, name, name))

    def written(self):
        """Its lines."""
        answer = self.call["answer"]
        kept = ["memcmp(large, large_before, (size_t)LARGE * 16) == 0"] * (self.has_slice and answer != "size_t")
        lines = ["static bool call_%s(size_t count) {" % self.name] + ["    " + it for it in self.lines]
        lines += ["    %s answer;" % header.c_type(answer), "    (void)count;", "    answer = %s(%s);" % (self.name, ", ".join(self.words))]
        return lines + ["    return %s;" % " && ".join([is_told(answer, self.records), *self.tests, *kept]), "}"]


def written(header_path, source):
    """refused_calls.h, for the calls that the C file has."""
    records, every = header.read(header_path)
    calls = [Call(name, call, records) for name, call in every.items() if "w2c_w_%s(" % name in source]
    lines = ["struct one {", "    const char *name;", "    bool (*call)(size_t count);", "    bool has_slice, is_told_apart;", "};"]
    lines += ["static bool answer_is_empty(const void *answer, size_t size) {", "    for (size_t k = 0; k < size; k++)"]
    lines += ["        if (((const uint8_t *)answer)[k]) return false;", "    return true;", "}"]
    for it in calls:
        lines += it.written()
    lines += ["static const struct one each[] = {"] + ['    {"%s", call_%s, %d, %d},' % (it.name, it.name, it.has_slice, it.name not in TOLD_ALIKE) for it in calls] + ["};"]
    return "\n".join(lines) + "\n"


if __name__ == "__main__":
    with open(sys.argv[2]) as it:
        sys.stdout.write(written(sys.argv[1], it.read()))

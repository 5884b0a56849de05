"""Writes the one C file that gives the calls of onfiseq.h on whatever has a C compiler.

The file is c/portable_head.c, the functions of the module, c/portable_shim.c, and for each call a function that copies what it is given into the module's memory
and what it answers out of it; where the module's addresses are the processor's own, nothing is copied.
"""
import os
import re
import sys

import frames
import header
import parts
import places
import runs

HERE = os.path.dirname(os.path.abspath(__file__))
PREFIX = "w2c_w_"
NUMBERS = "/* NUMBERS */\n"  # where c/portable_head.c has what parts.py says
# Records that a call writes without reading them.
WRITTEN_ALONE = ("onfiseq_spot", "onfiseq_run")

# What c/portable_head.c has of the names that wasm2c's functions use; a module that uses another is refused.
KNOWN = {"if", "switch", "memory_fill", "memory_copy", "DATA", "ADDRESS", "DIV_U", "REM_U", "module_alloc", "module_realloc", "module_dealloc"}
KNOWN |= {"fill_zeros", "copy_bytes"}
KNOWN |= {name + "_align%d" % part if part < size else name for name, size in places.NUMBERS.values() for part in (1, 2, 4, 8)}
KNOWN |= {"I%d_%s" % (bits, name) for bits in (32, 64) for name in ("CLZ", "CTZ", "POPCNT", "ROTL", "ROTR")}


def read(path):
    with open(path) as it:
        return it.read()


def functions_of(text):
    """Of what wasm2c wrote: the prototypes of the functions, the data, and the functions; without its helpers, its table of types, what begins a module, and its exports."""
    text = text.split("DEFINE_TABLE_FILL(externref)")[1]
    begin = re.search(r"(?m)^static \w+ w2c_\w+\(Z_onfiseq_instance_t\*", text).start()
    return re.sub(r"(?ms)^static void init_\w+\([^;{]*(?:;\n|\{.*?^\}\n)", "", text[begin : text.index("/* export:")])


def shortened(text):
    """The functions under shorter names, a line as short as it may be."""
    changes = (
        (r"\bZ_onfiseq_instance_t(?=\b)", "struct module"),
        (r"\binstance->w2c___stack_pointer\b", "it->stack_pointer"),
        (r"\binstance->w2c_memory\b", "it->memory"),
        (r"\binstance->Z_env_instance\b", "it"),
        (r"\binstance\b", "it"),
        (r"\bZ_envZ_w_rattle_(alloc|realloc|dealloc)\b", r"module_\1"),
        (r"\bw2c_([a-zA-Z]\d+)\b", r"\1"),
        (r"(?m)^ *FUNC_(PROLOGUE|EPILOGUE);\n", ""),
        (r"(?m)^ +", ""),
        (r"\n{2,}", "\n"),
    )
    for old, new in changes:
        text = re.sub(old, new, text)
    return re.sub(r"(?ms)^(static [^\n;]*\bit\b[^;{]*\{\n)(.*?^\}\n)", told_unused, text)


def told_unused(found):
    """A function; where it doesn't use its module, it says so."""
    head, body = found.groups()
    return found.group(0) if re.search(r"\bit\b", body) else head + "(void)it;\n" + body


def refuse_unknown(text):
    """Ends where the functions use what c/portable_head.c hasn't."""
    used = {name for name in re.findall(r"\b([A-Za-z]\w*)\(", text) if not name.startswith("w2c_")}
    unknown = used - KNOWN
    if unknown:
        sys.exit("portable: the module needs %s" % ", ".join(sorted(unknown)))


def field_mover(verb, field):
    """The line that moves a field of a record, for a processor that isn't known to be little-endian."""
    place, at, loop = "x->" + field["name"], "at + %d" % field["at"], ""
    if field["count"]:
        place, at, loop = place + "[k]", at + " + %du * k" % field["size"], "for (u32 k = 0; k < %du; k++) " % field["count"]
    if header.is_record(field["kind"]):
        return "    %s%s_%s(it, %s, &%s);" % (loop, verb, field["kind"], at, place)
    bits = 8 * field["size"]
    where = "number_at(&it->memory, %s)" % at
    if verb == "put":
        return "    %sput%d(%s, (u%d)%s);" % (loop, bits, where, bits, place)
    return "    %s%s = (%s)get%d(%s);" % (loop, place, field["kind"], bits, where)


def movers_of(name, record):
    """put_X and get_X of a record, as a whole where its bytes are those of the module."""
    lines = []
    for verb, const in (("put", "const "), ("get", "")):
        lines.append("INSTRUCTION void %s_%s(struct module *it, u64 at, %sstruct %s *x) {" % (verb, name, const, name))
        lines += ["#if IS_LITTLE_ENDIAN", "    %s_bytes(it, at, x, sizeof *x);" % verb, "#else"]
        lines += [field_mover(verb, field) for field in record["fields"]]
        lines += ["#endif", "}"]
    return lines


def rounded(size):
    """How much room a record takes: the next one begins at a multiple of 16."""
    return (size + 15) // 16 * 16


class Shim:
    """The function of a call: what it is given, what stands before the module's function and behind it, and that function's arguments."""

    def __init__(self, name, call, records, stack):
        self.name, self.call, self.records, self.stack = name, call, records, stack
        self.given, self.wide, self.cleared, self.rooms, self.before, self.after, self.words = [], [], [], [], [], [], ["&it"]
        self.record_room, self.slice_rooms = 0, []
        self.is_by_room = call["answer"] in records
        if self.is_by_room:
            self.take_room("answer", "&answer", records[call["answer"]]["size"])
            self.words.append("(u32)at_answer")
        for it in call["given"]:
            self.take(it)

    def take(self, it):
        """An argument."""
        star = "*" if it["by"] in ("pointer", "slice") else ""
        self.given.append("%s%s %s%s" % ("const " if it["const"] else "", header.c_type(it["kind"]), star, it["name"]))
        if it["by"] == "slice":
            self.take_slice(it)
        elif it["by"] == "pointer" and it["kind"] == "size_t":
            self.take_count(it)
        elif it["by"] == "pointer":
            self.take_record(it)
        self.words.append("(u32)at_" + it["name"] if star else it["name"])

    def take_room(self, name, value, size):
        """Room for a value of a size that is known."""
        self.rooms.append(name)
        self.record_room += rounded(size)
        self.before.append("at_%s = lend(&it, %s, %d);" % (name, value, rounded(size)))

    def take_slice(self, it):
        """Bytes, or items, which are bytes too."""
        each = self.records[it["kind"]]["size"] if it["kind"] in self.records else 1
        room, size = "room_of(%s, %d)" % (it["length"], each), "(u64)%s * %d" % (it["length"], each)
        self.rooms.append(it["name"])
        self.slice_rooms.append(room)
        self.before.append("at_%s = lend(&it, %s, %s);" % (it["name"], it["name"], room))
        self.before.append("put_bytes(&it, at_%s, %s, %s);" % (it["name"], it["name"], size))
        if not it["const"]:
            self.after.append("get_bytes(&it, at_%s, %s, %s);" % (it["name"], it["name"], size))

    def take_count(self, it):
        """A count that the call writes, in 64 bits."""
        self.cleared.append("*%s = 0;" % it["name"])
        self.wide.append("u64 wide_%s = 0;" % it["name"])
        self.take_room(it["name"], "&wide_" + it["name"], 8)
        self.before.append("put_bytes(&it, at_%s, &wide_%s, 8);" % (it["name"], it["name"]))
        self.after.append("*%s = (size_t)i64_load(&it.memory, at_%s);" % (it["name"], it["name"]))

    def take_record(self, it):
        """A record; one that the call writes alone is empty where there is no memory for it."""
        if it["kind"] in WRITTEN_ALONE:
            self.cleared.append("memset(%s, 0, sizeof *%s);" % (it["name"], it["name"]))
        self.take_room(it["name"], it["name"], self.records[it["kind"]]["size"])
        self.before.append("put_%s(&it, at_%s, %s);" % (it["kind"], it["name"], it["name"]))
        if not it["const"]:
            self.after.append("get_%s(&it, at_%s, %s);" % (it["kind"], it["name"], it["name"]))

    def stack_taken(self):
        """How much stack the call takes, as C."""
        most, each = self.stack
        counts = [it["length"] for it in self.call["given"] if it["by"] == "slice"]
        if each and len(counts) != 1:
            sys.exit("portable: %s takes stack for each element, and not of one slice" % self.name)
        return "%d + room_of(%s, %d)" % (most, counts[0], each) if each else "%d" % most

    def refusal(self):
        """What it answers where there is no memory."""
        answer, fields = self.call["answer"], self.records.get(self.call["answer"], {"fields": []})["fields"]
        if answer == "size_t":
            return [], "say_no_memory(%s)" % ", ".join((it["name"] + ", " + it["length"]) for it in self.call["given"] if it["by"] == "slice" and not it["const"])
        if not self.is_by_room:
            return ["answer = ONFISEQ_NO_MEMORY;"], "answer"
        told = {"letter": "'O'", "fault": "ONFISEQ_NO_MEMORY"}
        told.update(dict.fromkeys(("cycle", "busy", "ready"), "'O'") if answer == "onfiseq_pauses" else {})
        return ["memset(&answer, 0, sizeof answer);"] + ["answer.%s = %s;" % (it["name"], told[it["name"]]) for it in fields if it["name"] in told], "answer"

    def lines(self):
        """The function."""
        answer, (told, refused) = self.call["answer"], self.refusal()
        call = "%s%s(%s)" % (PREFIX, self.name, ", ".join(self.words))
        room = " + ".join(["%d" % self.record_room] * (self.record_room != 0) + self.slice_rooms) or "0"
        lines = ["%s %s(%s) {" % (header.c_type(answer), self.name, ", ".join(self.given) or "void")]
        lines += ["    struct module it;", "    %s answer%s;" % (header.c_type(answer), " ALIGNED_TO_8" * self.is_by_room)] + ["    u64 at_%s;" % name for name in self.rooms] + ["    " + line for line in self.wide]
        lines += ["    " + line for line in told + self.cleared]
        lines += ["    if (!begin_call(&it, %s, %s)) return %s;" % (self.stack_taken(), room, refused)] + ["    " + line for line in self.before]
        lines += ["    %s;" % call, "    get_%s(&it, at_answer, &answer);" % answer] if self.is_by_room else ["    answer = (%s)%s;" % (answer, call)]
        return lines + ["    " + line for line in self.after] + ["    end_call(&it);", "    return answer;", "}"]


def needed_records(calls, records):
    """The records that the calls are given or answer, with those inside them, in the header's order."""
    wanted = {kind for call in calls.values() for kind in [call["answer"]] + [it["kind"] for it in call["given"]] if kind in records}
    for name in reversed(list(records)):
        if name in wanted:
            wanted |= {field["kind"] for field in records[name]["fields"] if field["kind"] in records}
    return [name for name in records if name in wanted]


def written(header_path, marking):
    """The C file of a module."""
    records, every = header.read(header_path)
    text = marking.declaration() + runs.all_joined(shortened(functions_of(marking.functions())))
    module = frames.Module(text)
    refuse_unknown(text)
    calls = {name: call for name, call in every.items() if PREFIX + name in module.texts}
    shims = {name: Shim(name, call, records, module.most(PREFIX + name)) for name, call in calls.items()}
    head, rest = read(HERE + "/c/portable_head.c").split(NUMBERS)
    made = [head, parts.numbers(module, marking.begin, marking.end(), max(it.record_room for it in shims.values())), rest, parts.functions(module, text)]
    made += [read(HERE + "/c/portable_shim.c"), *("\n".join(movers_of(name, records[name])) for name in needed_records(calls, records))]
    made += ["", "/* ---- the calls */", "", parts.calls({name: it.lines() for name, it in shims.items()})]
    return "\n".join(made) + "\n"

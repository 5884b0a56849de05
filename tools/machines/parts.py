"""What the one C file can leave out, and the stack that each set of its calls takes: as lines of C."""
import re
import sys

import frames

PREFIX = "w2c_w_onfiseq_"
# What may be left out, and what goes with it.
PARTS = {"VERIFY": ("RUN",), "RUN": (), "TEXT": (), "LIVE": (), "SHOW": ()}
# The sets of calls: the part that has them, or none where no part may leave them out, and their names.
SETS = {
    "PUSH": (None, "read_page read_page_as push push_all push_status ask look_at drop pauses_before note sizes make_sample"),
    "OP": (None, "push_op ask_op"),
    "BEGIN": (None, "begin_sized begin_target"),
    "CHECK": (None, "check"),
    "VERIFY": ("VERIFY", "verify"),
    "RUN": ("RUN", "verify_run"),
    "TEXT": ("TEXT", "assemble disassemble trace words explain"),
    "LIVE": ("LIVE", "job_begin job_next job_finish live_ready live_array_ready live_sizes live_make_sample"),
    "LIVE_BEGIN": ("LIVE", "live_begin_sized live_begin_target"),
    "SHOW": ("SHOW", "picture notes"),
}
# The stack of a memory that calloc gives, where nothing is said: most of it is never touched.
USUAL_STACK = 262144


def set_of(name):
    """The set of a call."""
    for its, (_, calls) in SETS.items():
        if name in calls.split():
            return its
    sys.exit("parts: onfiseq_%s is in no set of calls: name it in SETS" % name)


def part_of(name):
    """The part that leaves a call out, or None."""
    return SETS[set_of(name)][0]


def names_of(module):
    """The calls that a module has."""
    return [name[len(PREFIX):] for name in module.texts if name.startswith(PREFIX)]


def stacks(module):
    """The least stack of each set, and what it takes more for each element."""
    found = {}
    for name in names_of(module):
        most, each = module.most(PREFIX + name)
        old = found.get(set_of(name), (0, 0))
        found[set_of(name)] = (max(old[0], most), max(old[1], each))
    return {name: found[name] for name in SETS if name in found}


def switches(found):
    """HAS_ and the name of a part that has a set of calls here: 1 where it isn't left out."""
    lines = []
    for name in [it for it in PARTS if any(SETS[its][0] == it for its in found)]:
        without = [name] + [it for it, others in PARTS.items() if name in others]
        condition = " && ".join("!defined(ONFISEQ_WITHOUT_%s)" % it for it in without)
        lines += ["#if " + condition, "#define HAS_%s 1" % name, "#else", "#define HAS_%s 0" % name, "#endif"]
    return lines


def usual_stack(found):
    """ONFISEQ_STACK where nothing is said: the most of the sets that are there."""
    lines, order = ["#ifndef ONFISEQ_STACK", "#if !ONFISEQ_MEMORY && !IS_DIRECT", "#define ONFISEQ_STACK %d" % USUAL_STACK], sorted(found, key=lambda name: -found[name][0])
    for name in order:
        part = SETS[name][0]
        lines += ["#elif HAS_" + part if part else "#else", "#define ONFISEQ_STACK ONFISEQ_STACK_" + name]
        if not part:
            break
    return lines + ["#endif", "#endif", "#define STACK_BYTES (((ONFISEQ_STACK) + 15u) / 16u * 16u)"]


def too_small(stacks, beside):
    """Memory that is too small for the stack and what stands beside it: an error of the compiler that names the least. Without a word, it is the least."""
    lines = ["#ifndef ONFISEQ_MEMORY", "#define ONFISEQ_MEMORY (STACK_BYTES + %du)" % beside, "#endif"]
    lines += ["#if ONFISEQ_MEMORY && ONFISEQ_MEMORY < STACK_BYTES + %d" % beside]
    word = "if"
    for stack in stacks:
        lines += ["#%s ONFISEQ_STACK == %d" % (word, stack), '#error "ONFISEQ_MEMORY is too small: the least is %d"' % ((stack + 15) // 16 * 16 + beside)]
        word = "elif"
    return lines + ["#else", '#error "ONFISEQ_MEMORY is too small: the least is ONFISEQ_STACK and %d"' % (beside + 15), "#endif", "#endif"]


def refusals(found, data, room, end):
    """Memory and stack that are too small, or a stack that is too large: an error of the compiler that names the least."""
    direct = 16 + 8  # the marks, and a gap so that the stack ends at a multiple of 16
    copied = 16 + data + 8 + room + 16  # the marks, the data, what stands behind the last number, and where the first record begins
    least, its = min((most, name) for name, (most, _) in found.items())
    lines = ["#if ONFISEQ_STACK < %d" % least, '#error "ONFISEQ_STACK is too small: the least is %d, which is ONFISEQ_STACK_%s"' % (least, its), "#endif"]
    lines += ["#if ONFISEQ_STACK > %d" % end, '#error "ONFISEQ_STACK is too large: the most is %d"' % end, "#endif"]
    stacks = sorted({most for most, _ in found.values()})
    return lines + ["#if IS_DIRECT", *too_small(stacks, direct), "#else", *too_small(stacks, copied), "#endif"]


def numbers(module, begin, end, room):
    """The parts that are there, the stack of each set of calls, and the least memory; the module's data stand from `begin` to `end`."""
    found = stacks(module)
    lines = ["/* ---- the parts that are there, and what their calls take */", "", *switches(found), ""]
    lines.append("/* The stack of each set of calls, in bytes: the most that any of them can take. */")
    for name, (most, each) in found.items():
        calls = ", ".join("onfiseq_" + it for it in names_of(module) if set_of(it) == name)
        parts = ("(parts)", "(%d + %d * (parts))" % (most, each)) if each else ("", "%d" % most)
        lines.append("#define ONFISEQ_STACK_%s%s %s /* %s */" % (name, *parts, calls))
    lines += ["#define STACK_END %du" % begin, "#define DATA_END %du" % end]
    return "\n".join(lines + usual_stack(found) + refusals(found, end - begin, room, begin)) + "\n"


def condition_of(wanted):
    """What must be there for a function that these parts reach: None where it always is."""
    return None if None in wanted else " || ".join("HAS_" + it for it in PARTS if it in wanted)


def guarded(pieces):
    """Pieces of C one after the other, each with its condition: those of one condition in a row stand between one #if and one #endif."""
    lines, last = [], None
    for condition, piece in [*pieces, (None, None)]:
        if condition != last:
            lines += ["#endif"] * (last is not None) + (["#if " + condition] if condition else [])
            last = condition
        if piece is not None:
            lines.append(piece)
    return "\n".join(lines)


def conditions(module):
    """The condition of each function."""
    reached = {name: set() for name in module.texts}
    for name in names_of(module):
        for it in module.below(PREFIX + name):
            reached[it].add(part_of(name))
    return {name: condition_of(it) if it else None for name, it in reached.items()}


def functions(module, text):
    """The module's text with what the parts that are there need."""
    of, found = conditions(module), []
    for piece in frames.pieces_of(text):
        name = re.match(r"static [^\n;{]*?\b(\w+)\(struct module", piece)
        found.append((of.get(name.group(1)) if name else None, piece.rstrip("\n")))
    return guarded(found) + "\n"


def calls(lines):
    """The calls, by name, each where its part is there."""
    return guarded([(condition_of({part_of(name[len("onfiseq_"):])}), "\n".join(it)) for name, it in lines.items()])

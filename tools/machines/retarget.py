"""Turns the LLVM module that the kit compiles for Linux on AArch64 into one for any little-endian processor, with pointers of 32 or 64 bits.

    clang --target=aarch64-unknown-linux-gnu -x ir MODULE.bc -S -emit-llvm -O1 -Xclang -disable-llvm-passes -o - | python3 tools/machines/retarget.py include/onfiseq.h 32|64

Sizes stay 64 bits everywhere, and so does the place of each field: lines.py writes each line so that memory has the same bytes as where a pointer has 64 bits, and refuses
what it doesn't know.

Each call of onfiseq.h becomes w_ and its name and answers its record by a pointer in front, so that no processor's rules for small records matter: calls.py and
portable.py write the calls of onfiseq.h over them. What a library asks for memory by has w_ in front too (c/requests.c).
"""
import re
import sys

import header
from lines import Lines, refuse

PREFIX = "w_"

# The one instruction of AArch64's own that a library uses, memchr: the sums of neighbours.
NEIGHBOURS = """define internal <16 x i8> @sums_of_neighbours(<16 x i8> %%a, <16 x i8> %%b) alwaysinline {
  %%even = shufflevector <16 x i8> %%a, <16 x i8> %%b, <16 x i32> <%s>
  %%odd = shufflevector <16 x i8> %%a, <16 x i8> %%b, <16 x i32> <%s>
  %%sum = add <16 x i8> %%even, %%odd
  ret <16 x i8> %%sum
}
""" % tuple(", ".join("i32 %d" % at for at in range(begin, 32, 2)) for begin in (0, 1))

# A request for memory, which answers two words, over one that writes them by a pointer. Its arguments are told as types.
REQUEST = """declare void @{prefix}{name}(ptr, {types})
define internal {answer} @{name}({given}) alwaysinline {{
  %told = alloca [2 x i64], align 8
  store [2 x i64] zeroinitializer, ptr %told, align 8
  call void @{prefix}{name}(ptr %told, {given})
  %ok = load i64, ptr %told, align 8
  %at.second = getelementptr i8, ptr %told, i64 8
  %second = load i64, ptr %at.second, align 8
  %one = insertvalue {answer} poison, i64 %ok, 0
  %v = insertvalue {answer} %one, i64 %second, 1
  ret {answer} %v
}}
"""
REQUESTS = {"rattle_alloc": ("i64", "i64"), "rattle_realloc": ("ptr", "i64", "i64", "i64")}

CALL = r"(?m)^define ((?:noundef )?(?:void|i\d+|\[\d+ x i64\])) @(onfiseq_\w+)\((.*)\) (?=#\d+ \{$)"


def without_target(text):
    """The module without what names its processor."""
    text = re.sub(r"(?m)^target (datalayout|triple) = .*\n", "", text)
    return re.sub(r' "(probe-stack|stack-probe-size|target-cpu|target-features|frame-pointer)"="[^"]*"', "", text)


def without_instructions_of_aarch64(text):
    """The module with what AArch64 alone has written otherwise."""
    if "llvm.aarch64.neon.addp.v16i8" in text:
        text = re.sub(r"declare <16 x i8> @llvm\.aarch64\.neon\.addp\.v16i8\(.*\n", lambda _: NEIGHBOURS, text)
        text = text.replace("@llvm.aarch64.neon.addp.v16i8(", "@sums_of_neighbours(")
    found = re.search(r"(?m)^.*@llvm\.aarch64.*$", text)
    if found:
        refuse(found.group(0))
    return text


def with_requests(text):
    """The module with its requests for memory by pointers."""
    for name, types in REQUESTS.items():
        given = ", ".join("%s %%a%d" % (kind, k) for k, kind in enumerate(types))
        found = re.search(r"(?m)^declare (\[2 x i64\]|\{ i64, i64 \}) @%s\(.*\n" % name, text)
        if found:
            request = REQUEST.format(prefix=PREFIX, name=name, answer=found.group(1), types=", ".join(types), given=given)
            text = text[: found.start()] + request + text[found.end() :]
    return text.replace("@rattle_dealloc(", "@%srattle_dealloc(" % PREFIX)


def types_of(given):
    """The types of a function's arguments."""
    plain = r" (noundef|sret\(\[\d+ x i8\]\)|zeroext|signext)"
    return [re.sub(plain, "", it).split(" %")[0].strip() for it in given.split(", ")] if given else []


class Calls:
    """The calls of onfiseq.h: each becomes a function inside the module, and one over it that a processor's rules for records don't matter to."""

    def __init__(self, header_path):
        self.records, self.calls = header.read(header_path)
        self.outer = []

    def __call__(self, found):
        answer, name, given = found.groups()
        answer = answer.replace("noundef ", "")
        self.outer.append(self.outer_function(name, answer, types_of(given), "sret(" in given))
        return 'define internal %s @"inner %s"(%s) ' % (answer, name, re.sub(r" sret\(\[\d+ x i8\]\)", "", given))

    def outer_function(self, name, answer, types, is_written):
        """The function w_NAME: a record that isn't written by a pointer yet comes back in registers, and is stored."""
        is_record = self.calls[name]["answer"] in self.records
        words = ["%s %%a%d" % (kind, k) for k, kind in enumerate(types)]
        call = '@"inner %s"(%s)' % (name, ", ".join(words))
        if is_written:
            return "define void @%s%s(%s) {\n  call void %s\n  ret void\n}" % (PREFIX, name, ", ".join(words), call)
        if is_record:
            lines = "  %%v = call %s %s\n  store %s %%v, ptr %%answer, align 4\n  ret void" % (answer, call, answer)
            return "define void @%s%s(%s) {\n%s\n}" % (PREFIX, name, ", ".join(["ptr %answer"] + words), lines)
        # the rules of some processors want an answer of 32 bits extended
        extended = "signext " if answer == "i32" else ""
        return "define %s%s @%s%s(%s) {\n  %%v = call %s %s\n  ret %s %%v\n}" % (extended, answer, PREFIX, name, ", ".join(words), answer, call, answer)


def retargeted(text, header_path, bits):
    """The module for processors with pointers of so many bits."""
    text = "".join(map(Lines(bits == 32), without_target(text).splitlines(True)))
    text = with_requests(without_instructions_of_aarch64(text))
    calls = Calls(header_path)
    text = re.sub(CALL, calls, text)
    if not calls.outer:
        refuse("a module without calls")
    return text + "\n" + "\n".join(calls.outer) + "\n"


if __name__ == "__main__":
    sys.stdout.write(retargeted(sys.stdin.read(), sys.argv[1], int(sys.argv[2])))

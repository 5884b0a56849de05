"""Reads the functions of a module that wasm2c wrote: which call which, and how much of the module's stack each call takes at most.

A function takes its frame off the stack pointer where it begins, and all frames are of a known size. So the most that a call takes is the longest way through
what it calls. A function that calls itself does so a known number of times; one that isn't in DEPTHS is refused, as are functions that call each other.
"""
import re
import sys

FUNCTION = re.compile(r"static [^\n;{]*?\b(\w+)\(struct module ?\* ?it\b[^;{]*\{\n")
RED_ZONE = 128  # what a function that calls nothing may use below the stack pointer, without taking it
FRAME = re.compile(r"= it->stack_pointer;\n\w+ = (\d+)u;\n\w+ -= \w+;\n")

# How often a function that calls itself stands on the stack at once, by the last part of its name: once for each element of what it is given, and once for none.
LUNS, ROWS, PLANES, BYTES, ADDRESSES, BURSTS = 5, 5, 5, 8, 6, 4
DEPTHS = {
    "driver": LUNS, "first_driver": LUNS, "find_work": LUNS, "change_each": LUNS, "change_drivers": LUNS, "change_apart": LUNS, "push_pages": LUNS,
    "add_rows": ROWS, "take_effect": ROWS, "page_in_plane": PLANES, "try_cycles": BYTES, "try_addresses": ADDRESSES, "try_bursts": BURSTS,
    "find_between": 33,  # it halves a number of 32 bits
    # a tree of blocks or pages: each node but the first has six at least, and all of them stand in 2 GB
    "destroy": 16, "clone_in": 16, "take_at": 16, "pop_last": 16, "make_room": 16,
}
# Functions that stand on the stack once for each element of a slice of the caller: how long that is, only the call knows.
BY_COUNT = ("try_parts",)


def short(name):
    """The last part of a function's name, without its types and without the number of a copy."""
    return re.sub(r"(____\w*)?(_\d+)?$", "", name).split("__")[-1]


def pieces_of(text):
    """The declarations and functions of a module, each from its `static` to the next."""
    return re.split(r"(?m)^(?=static )", text)


class Module:
    """The functions of a module."""

    def __init__(self, text):
        found = ((FUNCTION.match(piece), piece) for piece in pieces_of(text))
        self.texts = {head.group(1): piece for head, piece in found if head}
        self.called = {name: self.called_by(name) for name in self.texts}
        self.found = {}

    def called_by(self, name):
        body = self.texts[name].split("{\n", 1)[1]
        return [it for it in dict.fromkeys(re.findall(r"\b(\w+)\(", body)) if it in self.texts]

    def below(self, name):
        """A function and all that it reaches."""
        reached, rest = {name}, [name]
        while rest:
            new = [it for it in self.called[rest.pop()] if it not in reached]
            reached.update(new)
            rest += new
        return reached

    def frame(self, name):
        """The bytes that a function takes off the stack pointer."""
        text, found = self.texts[name], FRAME.findall(self.texts[name])
        read, written = text.count("= it->stack_pointer;"), text.count("it->stack_pointer = ")
        if read > 1 or written and not found:
            sys.exit("frames: %s takes its frame in another way" % name)
        return int(found[0]) if found else RED_ZONE * read

    def times(self, name):
        """How often a function stands on the stack at once, and whether it is as often again for each element that the call is given."""
        if name not in self.called[name]:
            return 1, 0
        if short(name) in BY_COUNT:
            return 1, 1
        if short(name) not in DEPTHS:
            sys.exit("frames: %s calls itself, and DEPTHS doesn't say how often" % name)
        return DEPTHS[short(name)], 0

    def most(self, name, above=()):
        """The most of the stack that a function takes with all that it calls, and how much more for each element that it is given."""
        if name in above:
            sys.exit("frames: %s and another function call each other" % name)
        if name not in self.found:
            each = [self.most(it, (*above, name)) for it in self.called[name] if it != name]
            often, by_count = self.times(name)
            deepest, grown = (max((it[part] for it in each), default=0) for part in (0, 1))
            self.found[name] = (deepest + often * self.frame(name), grown + by_count * self.frame(name))
        return self.found[name]

"""A channel that is watched."""
from __future__ import annotations

import ctypes
import operator
from typing import Any, Iterable, Optional, Sequence, SupportsIndex, Tuple, Union

from .library import VERSION, Missing, name_of, number_of_profile, refused, said
from .records import Bus, Item, Look, Part, Spot, size, u8

Bytes = Union[int, bytes, bytearray, memoryview, Iterable[int]]


class Fault(AssertionError):
    """A cycle, or a ready, breaks a rule of the channel: `code` is F9, `rule` 9, and `count` says how many items came before it. `cause` names the one cause, with the
    LUN or the sequence that is open; it is empty of an operation. Test frameworks count it as a failed assertion."""

    def __init__(self, text: str, code: str, rule: int, count: int, cause: str = "") -> None:
        super().__init__(text, code, rule, count, cause)
        self.text, self.code, self.rule, self.count, self.cause = text, code, rule, count, cause

    def __str__(self) -> str:
        return self.text


def in_range(name: str, number: int, most: int) -> int:
    """The number, if it is 0 to most; else a ValueError: ctypes would cut it off, and another cycle would be judged."""
    number = operator.index(number)
    if not 0 <= number <= most:
        raise ValueError("%s is 0 to %d, and not %d" % (name, most, number))
    return number


def in_byte(name: str, number: int) -> int:
    """The number, if a byte holds it."""
    return in_range(name, number, 255)


def bytes_of(data: Bytes) -> bytes:
    """A byte, or a run of bytes."""
    if isinstance(data, (bytes, bytearray, memoryview)):
        return bytes(data)
    if isinstance(data, SupportsIndex):
        return bytes([in_byte("the byte", operator.index(data))])
    return bytes([in_byte("the byte", byte) for byte in data])


def part_of(kind: str, what: Any = 0) -> Part:
    """A part of an operation."""
    if kind in ("I", "O"):
        return Part(in_range("the count", operator.index(what) if isinstance(what, SupportsIndex) else len(what), 0xFFFFFFFF), ord(kind))
    if kind == "W":
        return Part(0, ord(kind))
    its = bytes_of(what)
    if len(its) > 7:
        raise ValueError("a part has 7 bytes at most, and not %d" % len(its))
    return Part(len(its), in_byte("the kind", ord(kind)), (u8 * 7)(*its))


class Monitor:
    """A channel of so many targets, 1 to 4: each call is an item of it, or a run of them. A Fault leaves the channel as it was before the item that it names.

    With sees_ready=False nobody tells of readies: they are taken from the status outputs that show them. With profile="onfi" the optional commands that the page
    declares are permitted too; "base" if not given (docs/model/MODEL.md, "Profiles"). `geometry` is what the page declares."""

    def __init__(self, lib: ctypes.CDLL, page: bytes, targets: int = 1, sees_ready: bool = True, profile: Optional[str] = None) -> None:
        in_byte("targets", targets)
        read = lib.onfiseq_read_page_as(bytes(page), len(page), number_of_profile(profile))
        if read.fault:
            raise refused(lib, "P", read.fault)
        self.lib, self.count, self.sees_ready, self.bus, self.geometry = lib, 0, sees_ready, Bus(), read.geometry
        code = lib.onfiseq_begin_sized(self.bus, ctypes.sizeof(Bus), VERSION, read.geometry, targets)
        if code:
            raise refused(lib, chr(code >> 8), code & 0xFF)

    def _fault(self, code: int, what: str, went: int = 0, cause: str = "") -> Fault:
        at = self.count + went
        return Fault("item %d, %s: %s" % (at, what, said(self.lib, code)), name_of(code), code & 0xFF, at, cause)

    def _fault_of(self, code: int, item: Item) -> Fault:
        return self._fault(code, "%d %s %02x" % (item.ce, chr(item.kind), item.byte), cause=self._explain(item))

    def _explain(self, item: Item) -> str:
        text = ctypes.create_string_buffer(256)
        try:
            self.lib.onfiseq_explain(self.bus, item, text, len(text))
        except Missing:
            return ""
        return text.value.decode()

    def push(self, ce: int, kind: str, byte: int, fail: int = 0) -> None:
        """An item, by its letter: C, A, I, O, R or Y."""
        self._push(Item(in_byte("the target", ce), in_byte("the kind", ord(kind)), in_byte("the byte", byte), in_byte("fail", fail)))

    def _push(self, item: Item) -> None:
        code = self.lib.onfiseq_push(self.bus, item) if self.sees_ready else self.lib.onfiseq_push_status(self.bus, item, size())
        if code:
            raise self._fault_of(code, item)
        self.count += 1

    def push_all(self, items: Union[Sequence[Item], "ctypes.Array[Item]"]) -> None:
        """Items, as `onfiseq.trace` reads them. Those before the one that is refused have come."""
        if not self.sees_ready and any(item.kind == ord("O") for item in items):
            for item in items:
                self._push(item)
            return
        its, done = items if isinstance(items, ctypes.Array) else (Item * len(items))(*items), size()
        code = self.lib.onfiseq_push_all(self.bus, its, len(its), done)
        self.count += done.value
        if code:
            raise self._fault_of(code, its[done.value])

    def run(self, ce: int, kind: str, data: Bytes) -> None:
        """A run of cycles of one kind, in one call. Those before the one that is refused have come."""
        target, its = in_byte("the target", ce), bytes_of(data)
        raw = bytearray(4 * len(its))
        raw[0::4], raw[1::4], raw[2::4] = bytes([target]) * len(its), bytes([in_byte("the kind", ord(kind))]) * len(its), its
        self.push_all((Item * len(its)).from_buffer(raw))

    def command(self, ce: int, byte: Bytes) -> None:
        """A command, or several."""
        self.run(ce, "C", byte)

    def address(self, ce: int, data: Bytes) -> None:
        """An address, or several."""
        self.run(ce, "A", data)

    def input(self, ce: int, data: Bytes) -> None:
        """A byte that the die takes, or a run of them."""
        self.run(ce, "I", data)

    def output(self, ce: int, data: Bytes) -> None:
        """A byte that the die gives, or a run of them."""
        self.run(ce, "O", data)

    def ready(self, ce: int, lun: int, failed: bool = False, before_failed: bool = False) -> None:
        """A LUN becomes ready; in the profile onfi the page before, which a 15h left in the array, may have failed too."""
        self.push(ce, "R", in_byte("the LUN", lun), int(failed) + 2 * int(before_failed))

    def array_ready(self, ce: int, lun: int, failed: bool = False) -> None:
        """The array of a LUN does, after a cache read, or after a cache program that failed or not."""
        self.push(ce, "Y", in_byte("the LUN", lun), int(failed))

    def ask(self, ce: int, kind: str, byte: int, fail: int = 0) -> str:
        """The code by which `push` would refuse this item, empty where it wouldn't; nothing changes."""
        item = Item(in_byte("the target", ce), in_byte("the kind", ord(kind)), in_byte("the byte", byte), in_byte("fail", fail))
        code: int = self.lib.onfiseq_ask(self.bus, item)
        return name_of(code) if code else ""

    def explain(self, ce: int, kind: str, byte: int, fail: int = 0) -> str:
        """Why `push` would refuse this item: the one cause and the code. Empty where it wouldn't, or where the library hasn't the words; nothing changes."""
        return self._explain(Item(in_byte("the target", ce), in_byte("the kind", ord(kind)), in_byte("the byte", byte), in_byte("fail", fail)))

    def operation(self, ce: int, *parts: Tuple[Any, ...]) -> None:
        """A whole operation, all of it or none. A part is ("C", 0x60), ("A", b"\\0\\4\\0"), ("I", 512) or ("O", 512) with so many bytes of data, or ("W",): R/B# has
        risen. Data costs the same for any number of bytes."""
        made, spot = (Part * len(parts))(*(part_of(*it) for it in parts)), Spot()
        code = self.lib.onfiseq_push_op(self.bus, in_byte("the target", ce), made, len(made), spot)
        if code:
            went = sum(it.count for it in made[: spot.part]) + spot.cycle
            raise self._fault(code, "part %d, cycle %d" % (spot.part, spot.cycle), went)
        self.count += sum(it.count for it in made)

    def begin_target(self, ce: int) -> None:
        """A target is as at the start, whatever it was doing: its chip was reset on the pins, or lost its power."""
        self._leave(self.lib.onfiseq_begin_target, ce)

    def drop(self, ce: int) -> None:
        """A target forgets its open sequence, and its LUNs stay as they are: for whoever goes on after a cycle that isn't permitted."""
        self._leave(self.lib.onfiseq_drop, ce)

    def _leave(self, call: Any, ce: int) -> None:
        code = call(self.bus, in_byte("the target", ce))
        if code:
            raise self._fault(code, "target %d" % ce)

    def look(self, ce: int, lun: int) -> Optional[Look]:
        """The state of a LUN, None where none is there."""
        look: Look = self.lib.onfiseq_look_at(self.bus, in_byte("the target", ce), in_byte("the LUN", lun))
        return look if look.is_there else None

    def copy(self) -> "Monitor":
        """Another monitor that goes on from here by itself."""
        other = object.__new__(type(self))
        other.__dict__.update(self.__dict__)
        other.bus = Bus.from_buffer_copy(self.bus)
        return other

    def __copy__(self) -> "Monitor":
        return self.copy()

    def __deepcopy__(self, memo: object) -> "Monitor":
        return self.copy()

"""The records of onfiseq.h, as ctypes has them."""
from __future__ import annotations

import ctypes
from typing import Any, Type

u8, u16, u32, u64, flag, size = ctypes.c_uint8, ctypes.c_uint16, ctypes.c_uint32, ctypes.c_uint64, ctypes.c_bool, ctypes.c_size_t


def record(name: str, **fields: Any) -> Type[ctypes.Structure]:
    """A record of C with these fields."""
    return type(name, (ctypes.Structure,), {"_fields_": list(fields.items())})


class Geometry(ctypes.Structure):
    """The sizes of a chip, and what it declares."""

    _fields_ = [("page_bytes", u32), ("spare_bytes", u32), ("pages", u32), ("blocks", u32), ("luns", u8), ("plane_bits", u8)] + [
        (name, u8) for name in ("enhanced", "multi_plane", "cache")
    ] + [("optional", u16)]


class Page(ctypes.Structure):
    """A geometry, or the fault of a parameter page."""

    _fields_ = [("fault", u32), ("geometry", Geometry)]


class Item(ctypes.Structure):
    """A cycle, or a ready: `kind` is the code of its letter."""

    ce: int
    kind: int
    byte: int
    fail: int
    _fields_ = [("ce", u8), ("kind", u8), ("byte", u8), ("fail", u8)]


class Answer(ctypes.Structure):
    """What a check or a verification answers: a letter and a number, and a place."""

    _fields_ = [("letter", u8), ("number", u32), ("at", u64)]


class Bus(ctypes.Structure):
    """The state of a channel."""

    _fields_ = [("state", u64 * 409)]


class Part(ctypes.Structure):
    """A part of an operation."""

    count: int
    _fields_ = [("count", u32), ("kind", u8), ("bytes", u8 * 7)]


class Spot(ctypes.Structure):
    """Where an operation is refused."""

    part: int
    cycle: int
    _fields_ = [("part", u64), ("cycle", u64)]


class Look(ctypes.Structure):
    """What a LUN is doing."""

    is_there: bool
    latch: int
    busy: bool
    array_busy: bool
    caching: bool
    register: int
    has_column: bool
    programming: bool
    block: int
    page: int
    column: int
    queued: int
    _fields_ = [("is_there", flag), ("latch", u8), ("busy", flag), ("array_busy", flag), ("caching", flag), ("register", u8), ("has_column", flag), ("programming", flag), ("block", u32)] + [
        (name, u64) for name in ("page", "column", "queued")
    ]

    def __repr__(self) -> str:
        return "Look(%s)" % ", ".join("%s=%r" % (field[0], getattr(self, field[0])) for field in self._fields_)


class Run(ctypes.Structure):
    """A run of a refused program."""

    count: int
    _fields_ = [("count", u64), ("at", u64), ("number", u32), ("forbidden", u32)]


class Placed(ctypes.Structure):
    """What stands in a buffer, or why nothing does."""

    _fields_ = [("letter", u8), ("number", u32), ("at", u64), ("length", u64)]


Abi = record("Abi", version=u32, geometry=u64, page=u64, item=u64, answer=u64, bus=u64, look=u64, part=u64, spot=u64, sample=u64)
Loop = record("Loop", start=u16, left=u16)
Loops = record("Loops", depth=u8, around=Loop * 4)
Job = record("Job", magic=u32, ce=u8, lun=u8, has_ended=u8, code=u8, base=u32, buffer=u32, index=u32, place=u32, column=u16, at=u16, plane=u8, status=u8, loops=Loops)
Live = record("Live", state=u64 * 410)
Burst = record("Burst", kind=u8, ce=u8, bytes=u8 * 5, place=u64, len=u64)
Turn = record("Turn", letter=u8, number=u32, count=u64, taken=u64, bursts=Burst * 3)
Step = record("Step", letter=u8, number=u32)
LiveAbi = record("LiveAbi", version=u32, loops=u64, job=u64, live=u64, burst=u64, turn=u64, step=u64, sample=u64)

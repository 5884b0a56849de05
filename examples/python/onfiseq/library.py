"""Loads libonfiseq.so, and says what it lacks."""
from __future__ import annotations

import ctypes
import os
from pathlib import Path
from typing import Any, Dict, List, Optional, Tuple, Union

from . import records
from .records import Abi, Answer, Bus, Geometry, Item, Job, Live, LiveAbi, Look, Page, Part, Placed, Run, Spot, Step, Turn, flag, size, u8, u32, u64

VERSION = 3

NAME = "libonfiseq.so"

_to = ctypes.POINTER
_text = ctypes.c_char_p

# What each call answers, and what it takes, by the static library that has it. A shared object may lack any but the first.
LIBRARIES: Dict[str, Dict[str, Tuple[Any, List[Any]]]] = {
    "onfiseq_c": {
        "onfiseq_read_page": (Page, [_text, size]),
        "onfiseq_read_page_as": (Page, [_text, size, u8]),
        "onfiseq_check": (Answer, [_to(Geometry), u8, _to(Item), size]),
        "onfiseq_begin_sized": (u32, [_to(Bus), size, u32, _to(Geometry), u8]),
        "onfiseq_push": (u32, [_to(Bus), _to(Item)]),
        "onfiseq_push_all": (u32, [_to(Bus), _to(Item), size, _to(size)]),
        "onfiseq_push_status": (u32, [_to(Bus), _to(Item), _to(size)]),
        "onfiseq_push_op": (u32, [_to(Bus), u8, _to(Part), size, _to(Spot)]),
        "onfiseq_ask_op": (u32, [_to(Bus), u8, _to(Part), size, _to(Spot)]),
        "onfiseq_begin_target": (u32, [_to(Bus), u8]),
        "onfiseq_drop": (u32, [_to(Bus), u8]),
        "onfiseq_ask": (u32, [_to(Bus), _to(Item)]),
        "onfiseq_look_at": (Look, [_to(Bus), u8, u8]),
        "onfiseq_sizes": (Abi, []),
    },
    "onfiseq_verify_c": {
        "onfiseq_verify": (Answer, [_text, size, _text, size]),
        "onfiseq_verify_run": (Answer, [_text, size, _text, size, u64, _to(Item), size, _to(Run)]),
    },
    "onfiseq_text_c": {
        "onfiseq_assemble": (Placed, [_text, size, _text, size]),
        "onfiseq_disassemble": (Placed, [_text, size, _text, size]),
        "onfiseq_trace": (Placed, [_text, size, u8, _to(Item), size]),
        "onfiseq_explain": (size, [_to(Bus), _to(Item), _text, size]),
        "onfiseq_words": (size, [u32, _text, size]),
    },
    "onfiseq_live_c": {
        "onfiseq_live_begin_sized": (u32, [_to(Live), size, u32, _to(Geometry), u8]),
        "onfiseq_live_ready": (u32, [_to(Live), u8, u8, u8]),
        "onfiseq_live_array_ready": (u32, [_to(Live), u8, u8, flag]),
        "onfiseq_live_begin_target": (u32, [_to(Live), u8]),
        "onfiseq_job_begin": (Step, [_to(Live), u8, u8, u32, _text, size, size, _to(Job)]),
        "onfiseq_job_next": (Turn, [_to(Live), _to(Job), _text, size]),
        "onfiseq_job_finish": (Step, [_to(Live), _to(Job), _text, size, _text, size]),
        "onfiseq_live_sizes": (LiveAbi, []),
    },
}

# The records whose sizes a library tells, by the call that does.
TOLD = {"onfiseq_sizes": "Geometry Page Item Answer Bus Look Part Spot", "onfiseq_live_sizes": "Loops Job Live Burst Turn Step"}


# The profiles by their names; none is the base profile.
PROFILES = {None: 0, "base": 0, "onfi": 1}


def number_of_profile(profile: Optional[str]) -> int:
    """A profile as onfiseq.h has it; else a ValueError."""
    if profile not in PROFILES:
        raise ValueError("the profile is base or onfi, and not %s" % profile)
    return PROFILES[profile]


class Missing(OSError):
    """A library isn't there, or hasn't a call."""


class _Lacking:
    """Stands for a call that a library hasn't."""

    def __init__(self, path: str, library: str, call: str) -> None:
        self.why = "%s has no %s: link lib%s.a into it" % (path, call, library)

    def __call__(self, *given: object) -> Any:
        raise Missing(self.why)


def _find() -> str:
    """The library that ONFISEQ_LIBRARY names, or the one beside this file."""
    named, beside = os.environ.get("ONFISEQ_LIBRARY"), Path(__file__).with_name(NAME)
    if named:
        return named
    if not beside.is_file():
        raise Missing("there is no %s: set ONFISEQ_LIBRARY to its path, or give it to load; python3 tools/c_library.py --build makes it" % beside)
    return str(beside)


def _compare_sizes(lib: ctypes.CDLL, path: str, call: str) -> None:
    """Ends where the library's records aren't those here."""
    abi = getattr(lib, call)()
    known = {name.lower(): ctypes.sizeof(getattr(records, name)) for name in TOLD[call].split()}
    if abi.version != VERSION or any(getattr(abi, name) != length for name, length in known.items()):
        raise ValueError("%s isn't the library of this module: its version is %d, and not %d" % (path, abi.version, VERSION))


def load(path: Union[str, "os.PathLike[str]", None] = None) -> ctypes.CDLL:
    """The library of this path; where there is none, of ONFISEQ_LIBRARY, or the one beside this package. It raises Missing where it isn't there, and a ValueError
    where its records aren't those here. It may lack all but the checker: a call that it hasn't raises Missing. Its calls keep the interpreter's
    lock, so one thread at a time is in them."""
    its = os.fspath(path) if path is not None else _find()
    try:
        lib = ctypes.PyDLL(its)  # it keeps the interpreter's lock
    except OSError as why:
        raise Missing("%s can't be loaded: %s" % (its, why)) from why
    for library, calls in LIBRARIES.items():
        for name, (answers, takes) in calls.items():
            call = getattr(lib, name, None)
            if call is None:
                setattr(lib, name, _Lacking(its, library, name))
            else:
                call.restype, call.argtypes = answers, takes
    if isinstance(lib.onfiseq_sizes, _Lacking):
        raise Missing(lib.onfiseq_sizes.why)
    for name in TOLD:
        if not isinstance(getattr(lib, name), _Lacking):
            _compare_sizes(lib, its, name)
    return lib


def load_own() -> ctypes.CDLL:
    """The library that came with this package."""
    return load(Path(__file__).with_name(NAME))


def words(lib: ctypes.CDLL, letter: str, number: int) -> str:
    """What a code means; nothing where the library hasn't the words."""
    text = ctypes.create_string_buffer(160)
    try:
        lib.onfiseq_words(ord(letter) << 8 | number, text, len(text))
    except Missing:
        return ""
    return text.value.decode()


def name_of(code: int) -> str:
    """A code as it is written: F9 of 0x4609, and I alone where there is no number."""
    return chr(code >> 8) + (str(code & 0xFF) if code & 0xFF else "")


def said(lib: ctypes.CDLL, code: int) -> str:
    """A code with its words."""
    its = words(lib, chr(code >> 8), code & 0xFF)
    return "%s (%s)" % (its, name_of(code)) if its else name_of(code)


class Refused(Exception):
    """A page, a program or a file is refused, by a code at a word or a line. Where a refusal has a run, its items stand in `run`: what happens up to the refused
    word, and last the cycle that isn't permitted."""

    def __init__(self, text: str, code: str, at: int = 0, run: Optional[List[Item]] = None) -> None:
        super().__init__(text, code, at, run)
        self.text, self.code, self.at, self.run = text, code, at, run or []

    def __str__(self) -> str:
        return self.text


def refused(lib: ctypes.CDLL, letter: str, number: int, at: int = 0, run: Optional[List[Item]] = None) -> Refused:
    """A refusal, in words."""
    its = words(lib, letter, number)
    return Refused("%s%d at %d%s" % (letter, number, at, ": " + its if its else ""), "%s%d" % (letter, number), at, run)

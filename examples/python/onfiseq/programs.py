"""Microprograms and the texts of traces."""
from __future__ import annotations

import ctypes
from typing import Any, Dict, List, Optional, Union

from .channel import Fault, Monitor
from .library import Refused, load, number_of_profile, refused, words
from .records import Item, Run

SEARCHED = 100_000  # how many steps the search for the run of a refusal may take


def _stop_where_refused(lib: ctypes.CDLL, placed: Any) -> None:
    if placed.letter:
        raise refused(lib, chr(placed.letter), placed.number, placed.at)


def trace(lib: ctypes.CDLL, text: Union[str, bytes], recorded: bool = True, profile: Optional[str] = None) -> List[Item]:
    """The items of a trace's text, of a profile: with comments, blanks and times, or without where recorded is False."""
    text, form = text.encode() if isinstance(text, str) else text, int(recorded) + 2 * number_of_profile(profile)
    placed = lib.onfiseq_trace(text, len(text), form, None, 0)
    items = (Item * placed.length)()
    if placed.letter == ord("B"):
        placed = lib.onfiseq_trace(text, len(text), form, items, len(items))
    _stop_where_refused(lib, placed)
    return list(items)


def _line_of(lib: ctypes.CDLL, text: bytes, item: int, form: int) -> int:
    """The line of an item in a text that can be read: the least number of lines in which it stands."""
    lines = text.split(b"\n")
    low, high = 1, len(lines)
    while low < high:
        some = (low + high) // 2
        above = b"".join(line + b"\n" for line in lines[:some])
        low, high = (low, some) if lib.onfiseq_trace(above, len(above), form, None, 0).length > item else (some + 1, high)
    return low


def check(page: bytes, targets: int, text: Union[str, bytes], profile: Optional[str] = None, sees_ready: bool = True, lib: Optional[ctypes.CDLL] = None) -> Dict[str, Any]:
    """Judges the text of a trace, which may have comments, blanks and times, and answers plain data:

        {"legal": True, "items": 10, "fault": None}
        {"legal": False, "items": 5, "fault": {"code": "F9", "item": 5, "line": 6, "words": "the LUN is busy", "cause": "LUN 0 works since `d0` (F9)"}}

    `items` counts those that are permitted, up to the first fault. A fault of the text (X1, X2) has its line alone, one of the page (P1) or of the targets (T0) neither.
    `profile` and `sees_ready` are those of Monitor; `lib` is what `load()` finds if not given."""
    lib, its = lib or load(), text.encode() if isinstance(text, str) else bytes(text)
    try:
        monitor = Monitor(lib, page, targets, sees_ready, profile)
        monitor.push_all(trace(lib, its, True, profile))
        return {"legal": True, "items": monitor.count, "fault": None}
    except Fault as it:
        line = _line_of(lib, its, it.count, 1 + 2 * number_of_profile(profile))
        fault = {"code": it.code, "item": it.count, "line": line, "words": words(lib, it.code[0], it.rule), "cause": it.cause}
    except Refused as it:
        if it.code == "O0":
            raise MemoryError from it
        fault = {"code": it.code, "item": None, "line": it.at or None, "words": words(lib, it.code[0], int(it.code[1:])), "cause": ""}
    return {"legal": False, "items": fault["item"] or 0, "fault": fault}


def verify(lib: ctypes.CDLL, page: bytes, file: bytes) -> None:
    """Raises Refused where the microprogram of a word file isn't safe for the chip of a page."""
    told, takes = Run(), (page, len(page), file, len(file), SEARCHED)
    verdict = lib.onfiseq_verify_run(*takes, None, 0, told)
    if verdict.letter:
        run = (Item * told.count)()
        lib.onfiseq_verify_run(*takes, run, len(run), told)
        raise refused(lib, chr(verdict.letter), verdict.number, verdict.at, list(run))


def assemble(lib: ctypes.CDLL, text: str) -> bytes:
    """The word file of an assembly text."""
    file, its = ctypes.create_string_buffer(4112), text.encode()
    placed = lib.onfiseq_assemble(its, len(its), file, len(file))
    _stop_where_refused(lib, placed)
    return file.raw[: placed.length]


def disassemble(lib: ctypes.CDLL, file: bytes) -> str:
    """The assembly text of a word file."""
    placed = lib.onfiseq_disassemble(file, len(file), None, 0)
    text = ctypes.create_string_buffer(max(placed.length, 1))
    if placed.letter == ord("B"):
        placed = lib.onfiseq_disassemble(file, len(file), text, placed.length)
    _stop_where_refused(lib, placed)
    return text.raw[: placed.length].decode()

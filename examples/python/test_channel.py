"""A test bench of a host's accesses, and the mistakes that a monitor is for. A test says nothing of rules: a cycle that isn't permitted fails it, as onfiseq.Fault is an
AssertionError.

    ONFISEQ_LIBRARY=out/libonfiseq.so python3 -m pytest examples/python
    ONFISEQ_LIBRARY=out/libonfiseq.so python3 examples/python/test_channel.py     where pytest isn't installed
"""
import copy
import os
import pickle
import re
from pathlib import Path
from typing import Any, Callable, Iterator, Tuple, Type, TypeVar

import onfiseq

EXAMPLES = Path(__file__).resolve().parents[1]
PAGE = (EXAMPLES / "small_chip/chip.page").read_bytes()  # 512 and 16 bytes a page, 4 pages a block, 8 blocks, one LUN
ROW = bytes([4, 0, 0])  # block 1
CASES = EXAMPLES.parent / "tools/cases/profiles.case"
LIB = onfiseq.load()

Raised = TypeVar("Raised", bound=BaseException)


def raised(kind: Type[Raised], call: Callable[..., Any], *given: Any) -> Raised:
    """What a call raises, which must be of this kind."""
    try:
        call(*given)
    except kind as it:
        return it
    raise RuntimeError("no %s is raised" % kind.__name__)


def channel(targets: int = 1, sees_ready: bool = True) -> onfiseq.Monitor:
    return onfiseq.Monitor(LIB, PAGE, targets, sees_ready)


def erase(bus: onfiseq.Monitor, ce: int = 0) -> None:
    bus.command(ce, 0x60)
    bus.address(ce, ROW)
    bus.command(ce, 0xD0)


def is_busy(bus: onfiseq.Monitor, ce: int = 0) -> bool:
    lun = bus.look(ce, 0)
    assert lun is not None
    return lun.busy


# ---- what a host does right


def test_an_erase() -> None:
    bus = channel()
    erase(bus)
    assert is_busy(bus)
    bus.ready(0, 0)
    assert not is_busy(bus)
    erase(bus)


def test_a_page_is_programmed_and_read() -> None:
    bus = channel()
    bus.command(0, 0x80)
    bus.address(0, bytes(5))
    bus.input(0, bytes(528))
    bus.command(0, 0x10)
    bus.ready(0, 0)
    bus.command(0, 0x00)
    bus.address(0, [0, 0, 0, 0, 0])
    bus.command(0, 0x30)
    bus.ready(0, 0)
    bus.output(0, memoryview(bytes(528)))
    assert bus.count == 7 + 528 + 1 + 7 + 1 + 528


def test_another_target_works_meanwhile() -> None:
    bus = channel(targets=2)
    erase(bus, 0)
    erase(bus, 1)
    assert is_busy(bus, 0) and is_busy(bus, 1)
    assert bus.look(0, 1) is None and bus.look(2, 0) is None


def test_readies_from_the_status() -> None:
    bus = channel(sees_ready=False)
    erase(bus)
    bus.command(0, 0x70)
    bus.output(0, b"\x80\x80\x80")
    assert is_busy(bus)
    bus.output(0, b"\x80\xe0")
    assert not is_busy(bus)
    erase(bus)


# ---- what it does wrong


def test_too_soon() -> None:
    bus = channel()
    erase(bus)
    assert bus.ask(0, "C", 0x60) == "F9" and bus.ask(0, "C", 0x70) == ""
    fault = raised(AssertionError, bus.command, 0, 0x60)
    assert isinstance(fault, onfiseq.Fault)
    assert (fault.code, fault.rule, fault.count) == ("F9", 9, 5)
    assert str(fault) == "item 5, 0 C 60: the LUN is busy (F9)"


def test_a_run_comes_up_to_its_fault() -> None:
    bus = channel()
    bus.command(0, 0x80)
    bus.address(0, bytes(5))
    fault = raised(onfiseq.Fault, bus.input, 0, bytes(600))
    assert (fault.code, fault.count, bus.count) == ("F14", 6 + 528, 6 + 528)
    bus.command(0, 0x10)


def test_an_operation_comes_whole_or_not() -> None:
    bus = channel()
    read = (("C", 0x00), ("A", bytes(5)), ("C", 0x30), ("W",), ("O", 528))
    bus.operation(0, *read)
    fault = raised(onfiseq.Fault, bus.operation, 0, *read, ("O", 1))
    assert fault.code == "F14" and "part 5, cycle 0" in str(fault)
    assert bus.count == fault.count - (7 + 528) == 7 + 528
    bus.operation(0, *read)


def test_numbers_out_of_range_are_refused_by_name() -> None:
    bus = channel(targets=2)
    for name, call in (
        ("the byte", lambda: bus.command(0, 0x160)),
        ("the byte", lambda: bus.input(0, -1)),
        ("the byte", lambda: bus.address(0, [0, 256])),
        ("the byte", lambda: bus.push(0, "C", 0x160)),
        ("the byte", lambda: bus.operation(0, ("C", 0x160))),
        ("the kind", lambda: bus.push(0, chr(0x143), 0x60)),
        ("the kind", lambda: bus.run(0, chr(0x143), b"\x60")),
        ("the target", lambda: bus.command(256, 0x60)),
        ("the target", lambda: bus.operation(256, ("C", 0x60))),
        ("the target", lambda: bus.look(256, 0)),
        ("the target", lambda: bus.begin_target(-1)),
        ("the LUN", lambda: bus.ready(0, 256)),
        ("the LUN", lambda: bus.look(0, 256)),
        ("the count", lambda: bus.operation(0, ("O", 1 << 32))),
        ("a part", lambda: bus.operation(0, ("A", bytes(8)))),
        ("targets", lambda: channel(targets=257)),
        ("targets", lambda: channel(targets=-1)),
    ):
        assert str(raised(ValueError, call)).startswith(name + " ")
    raised(TypeError, lambda: bus.push(0, "C", 96.0))  # type: ignore[arg-type]
    assert bus.count == 0
    assert raised(onfiseq.Refused, channel, 5).code == "T0"
    assert raised(onfiseq.Fault, bus.push, 0, "Z", 0).code == "I"


# ---- whole traces, as cases of the program have them


def cases_of_profiles() -> Iterator[Tuple[str, str, str]]:
    """The trace, the profile and the first line of each check in tools/cases/profiles.case."""
    for case in CASES.read_text().split("\n== ")[1:]:
        trace = "".join(line + "\n" for line in re.findall(r"(?m)^\| (.*)$", case.split("\n$ ")[0]))
        for profile, first in re.findall(r"\n\$ onfiseq check die\.page 1 bus\.trace(?: --profile (\w+))?\nstatus [01]\nout\n\| (.*)", case):
            yield trace, profile or "base", first


def test_the_profiles() -> None:
    if not CASES.is_file():  # outside of the repository
        return
    page, played = bytes.fromhex("".join(re.findall(r"(?m)^hex (.*)$", CASES.read_text().split("\n== ")[0]))), 0
    for trace, profile, first in cases_of_profiles():
        told = onfiseq.check(page, 1, trace, profile, lib=LIB)
        fault = told["fault"]
        assert (first == "legal") == told["legal"] and (not fault or "refused %s at %d" % (fault["code"], fault["item"]) == first), (trace, profile, told)
        played += 1
    assert played == 33
    assert onfiseq.Monitor(LIB, page, profile="onfi").geometry.optional and not onfiseq.Monitor(LIB, page).geometry.optional
    assert str(raised(ValueError, onfiseq.Monitor, LIB, page, 1, True, "wide")) == "the profile is base or onfi, and not wide"


def test_a_verdict() -> None:
    text = "# as people record it\n\n@10 0 C 80\n@20 0 A 00 ; a column\r\n\n 0 C 60\n"
    fault = {"code": "F3", "item": 2, "line": 6, "words": "a sequence is open on the target, so none may begin", "cause": "a sequence is open: `80` wants address 2 of 5 next (F3)"}
    assert onfiseq.check(PAGE, 1, text, lib=LIB) == {"legal": False, "items": 2, "fault": fault}
    assert onfiseq.check(PAGE, 1, text[:-8], lib=LIB) == {"legal": True, "items": 2, "fault": None}
    for told, code, line in ((onfiseq.check(PAGE, 1, text + "0 Z 00\n", lib=LIB), "X1", 7), (onfiseq.check(b"", 1, text, lib=LIB), "P1", None), (onfiseq.check(PAGE, 5, text, lib=LIB), "T0", None)):
        assert not told["legal"] and (told["fault"]["code"], told["fault"]["line"], told["fault"]["item"]) == (code, line, None)
    polled = (EXAMPLES / "c/no_ready.trace").read_text()
    assert not onfiseq.check(PAGE, 1, polled, lib=LIB)["legal"] and onfiseq.check(PAGE, 1, polled, sees_ready=False, lib=LIB)["legal"]


# ---- ways out, copies, texts


def test_ways_out() -> None:
    bus = channel()
    bus.command(0, 0x60)
    raised(onfiseq.Fault, bus.command, 0, 0x60)
    bus.drop(0)
    erase(bus)
    bus.begin_target(0)
    erase(bus)
    assert raised(onfiseq.Fault, bus.begin_target, 1).code == "F1"


def test_a_copy_goes_on_by_itself() -> None:
    bus = channel()
    bus.command(0, 0x60)
    for other in (bus.copy(), copy.copy(bus), copy.deepcopy(bus)):
        other.address(0, ROW)
        other.command(0, 0xD0)
        assert (is_busy(other), is_busy(bus), other.count, bus.count) == (True, False, 5, 1)


def test_a_fault_goes_to_another_process() -> None:
    fault = pickle.loads(pickle.dumps(raised(onfiseq.Fault, channel().command, 0, 0xD0)))
    assert (str(fault), fault.code) == ("item 0, 0 C d0: the command doesn't go on with the sequence of its target (F6)", "F6")


def test_the_text_of_a_trace() -> None:
    text = (EXAMPLES / "small_chip/erase_block.trace").read_text()
    items = onfiseq.trace(LIB, "# as people record it\n" + text)
    assert len(items) == len(text.splitlines()) == 10 and items[-1].byte == 0xE0
    assert raised(onfiseq.Refused, onfiseq.trace, LIB, text + "0 C 6\n", False).at == 11


def test_a_program() -> None:
    text = (EXAMPLES / "small_chip/erase_block.asm").read_text()
    file = onfiseq.assemble(LIB, text)
    onfiseq.verify(LIB, PAGE, file)
    assert onfiseq.assemble(LIB, onfiseq.disassemble(LIB, file)) == file
    refused = raised(onfiseq.Refused, onfiseq.verify, LIB, PAGE, onfiseq.assemble(LIB, (EXAMPLES / "c/no_wait.asm").read_text()))
    assert (refused.code, refused.at) == ("V7", 3) and refused.run[-1].byte == 0x60


def test_a_library_that_is_not_there() -> None:
    assert "nowhere.so can't be loaded" in str(raised(onfiseq.Missing, onfiseq.load, "nowhere.so"))
    assert str(raised(onfiseq.Missing, onfiseq.load, "libc.so.6")) == "libc.so.6 has no onfiseq_sizes: link libonfiseq_c.a into it"
    raised(OSError, onfiseq.load, Path(__file__))


def test_a_library_of_the_checker_alone() -> None:
    path = os.environ.get("ONFISEQ_CHECKER")
    if not path:
        return
    lib = onfiseq.load(path)
    assert str(raised(onfiseq.Fault, onfiseq.Monitor(lib, PAGE).command, 0, 0xD0)) == "item 0, 0 C d0: F6"
    assert "link libonfiseq_text_c.a into it" in str(raised(onfiseq.Missing, onfiseq.assemble, lib, ""))


if __name__ == "__main__":
    for name, test in list(globals().items()):
        if name.startswith("test_"):
            test()
            print("%s ok" % name)

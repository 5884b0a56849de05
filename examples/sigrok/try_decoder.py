"""Tries the decoder by sigrok-cli: on a Linux boot, on the same with two mistakes of the host, and on two chips.

    python3 examples/sigrok/try_decoder.py LIBRARY [PROGRAM]

LIBRARY is the library for C as a shared object; PROGRAM, the built program, makes the operations to compare with, where it is given. The cycles and readies must be
those of the host that made the recording, and a mistake must be told at the item that the host names (examples/hosts/linux_boot.py). Where sigrok-cli isn't installed
it says so, and ends well.
"""
import os
import re
import shutil
import subprocess
import sys
import tempfile
from pathlib import Path

HERE = Path(__file__).resolve().parent
HOSTS, PAGE = HERE.parent / "hosts", HERE.parent / "small_chip/chip.page"
CHIPS = HERE.parent / "captures/two_chips.vcd"
KINDS = {"command": "C", "address": "A", "input": "I", "output": "O", "ready": "R"}
# What of the boot is outside of the profile: two of 90h at 00h, and EDh, EFh, EEh; the wider profile has the first two, and the page declares none of the others.
NOTES = {"base": 5, "onfi": 3}
# Two mistakes of the host, and the cause that is told of each: an erase while an erase goes on, and the confirm of another sequence.
BUGS = {1: "LUN 0 works since `d0` (F9)", 14: "`30` isn't wanted: `60` wants `d0` next (F6)"}
LINES = "ce=CE_n:cle=CLE:ale=ALE:we=WE_n:re=RE_n:rb=R_B_n"


def split_vectors(vcd):
    """A dump with a line for each bit of its vectors, as libsigrok 0.5 reads them, and a last time, up to which it reads."""
    names, text = {}, vcd
    for width, code, name in re.findall(r"\$var \w+ (\d+) (\S+) (\w+) \[\d+:0\] \$end", vcd):
        names[code] = [chr(0x100 + 16 * len(names) + bit) for bit in range(int(width))]
        lines = "".join("$var wire 1 %s %s%d $end\n" % (its, name, bit) for bit, its in enumerate(names[code]))
        text = re.sub(r"(?m)^.*\$var \w+ %s %s %s .*\n" % (width, re.escape(code), name), lambda _: lines, text)

    def bits(found):
        value, codes = found[1], names[found[2]]
        value = ("x" if value[0] == "x" else "z" if value[0] == "z" else "0") * (len(codes) - len(value)) + value
        return "".join("%s%s\n" % (bit, code) for bit, code in zip(reversed(value), codes))

    return re.sub(r"(?m)^b([01xz]+) (\S+)\n", bits, text) + "#%d\n" % (int(re.findall(r"(?m)^#(\d+)$", vcd)[-1]) + 1000)


class Decoded:
    """What the decoder tells of a recording, by the class of its lines: each with its first sample and its last."""

    def __init__(self, library, recording, channels, options):
        self.names = {**os.environ, "SIGROKDECODE_DIR": str(HERE), "PYTHONPATH": str(HERE.parent / "python"), "ONFISEQ_LIBRARY": os.path.abspath(library), "PYTHONDONTWRITEBYTECODE": "1"}
        data = ":".join("dq%d=%s%d" % (bit, "dq" if "dq" in channels else "DQ", bit) for bit in range(8))
        self.words = ["sigrok-cli", "-I", "vcd", "-i", recording, "--protocol-decoder-samplenum", "-P", "onfi_nand:%s:%s:page=%s%s" % (channels.replace(":dq", ""), data, PAGE, options)]

    def told(self, kind):
        ran = subprocess.run([*self.words, "-A", "onfi_nand=" + kind], env=self.names, stdout=subprocess.PIPE, stderr=subprocess.STDOUT, text=True)
        if ran.returncode or "Traceback" in ran.stdout:
            sys.exit("sigrok: sigrok-cli ended with %d:\n%s" % (ran.returncode, ran.stdout[-2000:]))
        return [(int(begin), int(end), text) for begin, end, text in re.findall(r"(?m)^(\d+)-(\d+) onfi_nand-1: (.*)$", ran.stdout)]

    def items(self):
        """The items, as a trace has them but for their failures, each with its last sample."""
        found = []
        for kind, letter in KINDS.items():
            for begin, end, text in self.told(kind):
                target, its = re.fullmatch(r"(?:CE(\d): )?(.*)", text).groups()
                byte = its.split()[1] if letter == "R" else re.findall(r"[0-9A-F]{2}(?=h)", its)[-1].lower()
                found.append((begin if letter == "R" else end, "%s %s %s" % (target or 0, letter, byte)))
        return sorted(found, key=lambda it: it[0])


def record(folder, bug, polls):
    """A recording of the host in single lines, with R/B# or by polls, its items, and the item of its mistake."""
    vcd, trace = folder + "/host.vcd", folder + "/host.trace"
    words = [sys.executable, HOSTS / "linux_boot.py", *["--polls"] * polls, *(["--bug", str(bug)] if bug else []), vcd, trace]
    at = subprocess.run(words, stdout=subprocess.PIPE, text=True, check=True).stdout.strip()
    lines = [re.sub(r"( R \d) \d", r"\1", line) for line in Path(trace).read_text().splitlines()]
    Path(vcd).write_text(split_vectors(Path(vcd).read_text()))
    return vcd, lines, int(at) if at else None


def differing_operations(program, folder, told):
    """What `onfiseq ops` says otherwise: names, places, data, polls and ends. Of a change of the column the decoder has the column alone, and of a command outside of
    the profile the end by R/B#. libsigrokdecode tells no decoder of the end of the recording, so the last operation isn't there."""
    listed = subprocess.run([program, "ops", PAGE, "1", folder + "/host.trace"], stdout=subprocess.PIPE, text=True).stdout
    wanted = [" ".join(line.split()[3:]) for line in listed.splitlines() if re.match(r" *\d+ +- ", line)]
    wanted = [re.sub(r"abandoned at \d+", "ready", re.sub(r"^column b\d+ p\d+", "column", text)) for text in wanted]
    here = [re.sub(r"busy [^;]*; ", "", text) for _, _, text in told]
    return None if here == wanted[:-1] else next(("%r, and not %r" % pair for pair in zip(here, wanted) if pair[0] != pair[1]), "%d, and not %d" % (len(here), len(wanted) - 1))


def try_host(library, program, folder, bug, profile="base", polls=False):
    """Tries a recording, of a host that polls without R/B#: what differs, if something does."""
    vcd, lines, at = record(folder, bug, polls)
    decoded = Decoded(library, vcd, LINES.replace(":rb=R_B_n", "" if polls else ":rb=R_B_n"), ":profile=" + profile)
    items, numbers = decoded.items(), [number for number, line in enumerate(lines) if not (polls and " R " in line)]
    if [text for _, text in items] != [lines[number] for number in numbers]:
        return "its items aren't those of the host"
    places = {end: number for number, (end, _) in zip(numbers, items)}
    faults = [(places[end], text) for _, end, text in decoded.told("fault")]
    own = faults[NOTES[profile] :]
    if bug and own[:1] != [(at, BUGS[bug])] or not bug and own or len(faults) < NOTES[profile]:
        return "it tells %s, where the mistake is at %s" % (faults, at)
    return differing_operations(program, folder, decoded.told("operation")) if program and not bug else None


def try_two_chips(library, folder):
    """Two chips on one bus, each with an R/B# of its own: their two erases, and no fault."""
    vcd = folder + "/two.vcd"
    Path(vcd).write_text(split_vectors(CHIPS.read_text()))
    decoded = Decoded(library, vcd, "ce=ce_n0:ce1=ce_n1:cle=cle:ale=ale:we=we_n:re=re_n:rb=rb_n0:rb1=rb_n1:dq", "")
    readies = [text for _, _, text in decoded.told("ready")]
    begun = [text for _, _, text in decoded.told("command") if "D0h" in text]
    if decoded.told("fault") or readies != ["CE0: LUN 0 is ready", "CE1: LUN 0 is ready"] or begun != ["CE0: Erase begins D0h", "CE1: Erase begins D0h"]:
        return "it tells %s, %s and %s" % (decoded.told("fault"), begun, readies)
    return None


def edo_dump(outputs):
    """A dump of 90h at 20h by a chip that holds its data until RE# falls next (EDO): each comes only once RE# has risen."""
    lines = "".join("$var wire 1 %s %s $end\n" % (code, name) for code, name in zip("ABCDEF", ("CE_n", "CLE", "ALE", "WE_n", "RE_n", "R_B_n")))
    text = "$timescale 1ns $end\n%s$var wire 8 G DQ [7:0] $end\n$enddefinitions $end\n#0\n0A\n0B\n0C\n1D\n1E\n1F\nb0 G\n" % lines
    cycle, at = "#%d\n1%s\n#%d\nb%s G\n0D\n#%d\n1D\n#%d\n0%s\n", 100
    for latch, byte in (("B", 0x90), ("C", 0x20)):
        text += cycle % (at, latch, at + 5, format(byte, "b"), at + 20, at + 30, latch)
        at += 50
    for byte in outputs:
        text += "#%d\n0E\n#%d\n1E\n#%d\nb%s G\n" % (at, at + 10, at + 15, format(byte, "b"))
        at += 25
    return text + "#%d\n1A\n" % (at + 20)


def try_edo(library, folder):
    """The outputs of a chip that holds its data: right where they are taken at the fall of RE#, and wrong at its rise."""
    vcd, outputs = folder + "/edo.vcd", b"ONFI"
    Path(vcd).write_text(split_vectors(edo_dump(outputs)))
    seen = {edge: [text[-2:].upper() for _, text in Decoded(library, vcd, LINES, ":outputs=" + edge).items() if " O " in text] for edge in ("fall", "rise")}
    wanted = ["%02X" % byte for byte in outputs]
    return None if seen["fall"] == wanted != seen["rise"] else "it tells %s" % seen


def main():
    if shutil.which("sigrok-cli") is None:
        print("sigrok: not tried: no sigrok-cli")
        return 0
    library, program = sys.argv[1], os.path.abspath(sys.argv[2]) if len(sys.argv) > 2 else None
    with tempfile.TemporaryDirectory() as folder:
        tried = {"a Linux boot, profile %s" % profile: try_host(library, program, folder, None, profile) for profile in NOTES}
        tried.update({"mistake %d of the host" % bug: try_host(library, program, folder, bug) for bug in BUGS})
        tried["mistake 1 of a host that polls"] = try_host(library, program, folder, 1, polls=True)
        tried["two chips"] = try_two_chips(library, folder)
        tried["outputs that are held"] = try_edo(library, folder)
    for name, why in tried.items():
        print("sigrok: %s: %s" % (name, why or "ok"))
    return 1 if any(tried.values()) else 0


if __name__ == "__main__":
    sys.exit(main())

"""Writes the playground: one HTML file with the whole program in it, which asks for nothing else.

    python3 tools/machines/page/page.py MODULE.wasm > playground.html      at the root
"""
import base64
import json
import os
import sys

HERE = os.path.dirname(os.path.abspath(__file__))
CHIP = ("chip.page", "examples/small_chip/chip.page")
TOO_SOON = b"0 C 60\n0 A 00\n0 A 00\n0 A 00\n0 C d0\n0 C 60\n"
TWO_LUNS_TRACE = b"0 C 60\n0 A 20\n0 A 00\n0 A 00\n0 C d0\n0 C 60\n0 A 00\n0 A 00\n0 A 00\n0 C d0\n0 C 78\n0 A 00\n0 A 00\n0 A 00\n0 O e0\n0 C 78\n0 A 20\n0 A 00\n0 A 00\n0 O 80\n0 C 60\n0 A 24\n0 A 00\n0 A 00\n"
COPY = b"0 C 00\n0 A 00\n0 A 00\n0 A 00\n0 A 00\n0 A 00\n0 C 35\n0 R 0 0\n0 C 85\n0 A 00\n0 A 00\n0 A 08\n0 A 00\n0 A 00\n0 C 10\n0 R 0 0\n"
NO_WAIT = b"rows 1\nbuffer 0\nbudget 10\ncmd 60\naddr 2 3\ncmd d0\ncmd 60\naddr 2 3\ncmd d0\nwait\nend 0\n"
TWO_LUNS = ("chip.page", "erase_block.nmp", "program_page.nmp", "data")
# The examples: a name, the files (a name, and a path or the bytes), the commands, and which file is open.
EXAMPLES = (
    ("A trace: too soon", [CHIP, ("bus.trace", TOO_SOON)], ["check chip.page 1 bus.trace --recorded --all", "draw chip.page 1 bus.trace bus.svg"]),
    ("A trace of two LUNs", [("bus.trace", TWO_LUNS_TRACE)],
     ["page two.page --data 512 --spare 16 --pages 4 --blocks 8 --luns 2 --status-enhanced", "check two.page 1 bus.trace --recorded --all --readies-from-status",
      "draw two.page 1 bus.trace bus.svg"]),
    ("A copyback, by the profile onfi", [("copy.trace", COPY)],
     ["page copies.page --data 512 --spare 16 --pages 4 --blocks 8 --declare copyback", "check copies.page 1 copy.trace --recorded --all --profile onfi",
      "draw copies.page 1 copy.trace copy.svg --profile onfi"]),
    ("A capture", [CHIP, ("erase_block.vcd", "examples/small_chip/erase_block.vcd")],
     ["capture chip.page 1 erase_block.vcd erase.trace --map CE=CS,WE=P17,RE=P18", "check chip.page 1 erase.trace --recorded --all", "draw chip.page 1 erase.trace erase.svg"]),
    ("A program", [CHIP, ("erase_block.asm", "examples/small_chip/erase_block.asm")], ["verify chip.page erase_block.asm", "lint chip.page erase_block.asm"]),
    ("A refused program", [CHIP, ("twice.asm", NO_WAIT)], ["verify chip.page twice.asm --draw twice.svg --counter twice.trace", "explain chip.page twice.asm"]),
    ("A run on two dies", [("two_luns.run", "examples/two_luns.run"), *(("examples/two_luns/" + name, "examples/two_luns/" + name) for name in TWO_LUNS)],
     ["run two_luns.run --quiet --draw run.svg"]),
    ("Make a page", [CHIP], ["page my.page --data 2048 --spare 64 --pages 64 --blocks 1024 --luns 2 --status-enhanced", "page --show my.page"]),
)


def read(path):
    with open(path, "rb") as it:
        return it.read()


def example(name, files, commands):
    given = [{"name": at, "base64": base64.b64encode(what if isinstance(what, bytes) else read(what)).decode()} for at, what in files]
    return {"name": name, "files": given, "commands": commands, "open": given[-1]["name"] if not name.startswith("A run") else given[0]["name"]}


def written(module):
    """The page."""
    text = read(HERE + "/playground.html.in").decode()
    for mark, what in (
        ("/*SYSTEM_JS*/", read(HERE + "/system.js").decode()),
        ("/*PLAYGROUND_JS*/", read(HERE + "/playground.js").decode()),
        ("/*MODULE*/", base64.b64encode(read(module)).decode()),
        ("/*EXAMPLES*/", json.dumps([example(*it) for it in EXAMPLES])),
    ):
        text = text.replace(mark, what.replace("</script", "<\\/script"), 1)
    return text


if __name__ == "__main__":
    sys.stdout.write(written(sys.argv[1]))

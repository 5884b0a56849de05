"""Pastes the commands of the pages into a shell, and compares what they print on both streams with what the pages say.

    python3 tools/paste.py [PROGRAM]

PROGRAM is the built program (crates/onfiseq/out/onfiseq when none is given). A page is pasted from top to bottom in a fresh folder that has
examples/, release/, bin/onfiseq and onfiseq. In an indented block a line that begins with a command is one; it goes on below where it ends with `\\`. The lines
under it, up to the next command or the end of the block, are what it must print on standard output. A command without such lines may print
anything; none may end but with the statuses 0, 1 and 5, and none may say that a command or a file isn't there. What builds the program
(`rt`) isn't run.

Where a page says "standard error says", what it shows next is what the command before it must print there: the text between double backticks in that
line, or the lines of a block right below it. Such a text may be a part of a line, and other lines may stand around it.

Ends with status 1 where a page is wrong, after it has said of each such command what it printed.
"""
import os
import re
import shutil
import subprocess
import sys
import tempfile
from pathlib import Path

ROOT = Path(__file__).resolve().parent.parent
PROGRAM = Path(sys.argv[1] if len(sys.argv) > 1 else ROOT / "crates/onfiseq/out/onfiseq").resolve()
PAGES = ("README.md", *(f"docs/use/{name}.md" for name in ("COMMANDS", "ASSEMBLY", "WORDS", "JSON", "TRACES", "RUNFILES", "IMAGES", "NOTES", "WAVES", "CAPTURES", "PAGES", "VENDOR", "OPERATIONS", "TIMING", "DATA", "TUTORIAL", "TROUBLESHOOTING", "DATASHEET", "PINS")))
COMMANDS = ("onfiseq", "./onfiseq", "bin/onfiseq", "cc", "make", "cd", "printf", "echo", "sed", "python3")
SECONDS = 180
# For a machine without this tool of vim's.
XXD = "xxd() { python3 -c 'import sys; sys.stdout.buffer.write(bytes.fromhex(sys.stdin.read()))'; }\n"


class Command:
    """A command of a page: its line, what it must print on standard output, if the page has that, and what on standard error."""

    def __init__(self, number, text):
        self.number, self.text, self.output, self.errors = number, text, None, []

    def takes(self, ran):
        """Whether it ended and printed as the page says."""
        if ran.returncode not in (0, 1, 5) or any(words in ran.stderr for words in ("not found", "No such file", "file fault")):
            return False
        if any(text not in ran.stderr for text in self.errors):
            return False
        return self.output is None or ran.stdout.splitlines() == self.output


class Reader:
    """Reads a page line by line."""

    def __init__(self):
        self.commands, self.is_open, self.is_told = [], False, False

    def read_text(self, line):
        """A line outside of blocks: whether it says that standard error says what comes next, and what it quotes of that."""
        self.is_open = False
        if line.strip():
            says = re.search(r"[Ss]tandard error says", line)
            quoted = re.findall(r"``\s?(.+?)\s?``", line[says.end():]) if says else []
            if self.commands:
                self.commands[-1].errors += quoted[:1]
            self.is_told = bool(says) and not quoted

    def read_block(self, number, text):
        """A line of a block: a command or the end of one, what the last must print, or what it must say on standard error."""
        if self.commands and self.commands[-1].text.endswith("\\"):
            self.commands[-1].text = self.commands[-1].text[:-1] + text.strip()
        elif text.split(" ")[0] in COMMANDS:
            self.commands.append(Command(number, text))
            self.is_open, self.is_told = True, False
        elif self.is_open:
            self.commands[-1].output = [*(self.commands[-1].output or []), text]
        elif self.is_told and self.commands and text.strip():
            self.commands[-1].errors.append(text)


def list_commands(page):
    """The commands of a page."""
    reader = Reader()
    for number, line in enumerate(page.splitlines(), 1):
        if line.startswith("    "):
            reader.read_block(number, line[4:])
        else:
            reader.read_text(line)
    return reader.commands


def make_folder(folder):
    shutil.copytree(ROOT / "examples", folder / "examples")
    (folder / "release").symlink_to(ROOT / "release")
    (folder / "bin").mkdir()
    (folder / "bin/onfiseq").symlink_to(PROGRAM)
    # what `make` builds is this program
    (folder / "bin/make").write_text(f'#!/bin/sh\nln -sf "{PROGRAM}" onfiseq\n')
    (folder / "bin/make").chmod(0o755)


def paste(command, here, path):
    """Runs a command; how it ended, and the folder in which the shell is then."""
    tool = "" if shutil.which("xxd") else XXD
    script = f"{tool}{command}\nstatus=$?\npwd >&9\nexit $status"
    receives, tells = os.pipe()
    shell = ["bash", "-c", f"exec 9>&{tells}\n{script}"]
    try:
        ran = subprocess.run(shell, cwd=here, env={**os.environ, "PATH": path}, pass_fds=[tells], stdin=subprocess.DEVNULL,
                             capture_output=True, text=True, errors="replace", timeout=SECONDS, check=False)
    finally:
        os.close(tells)
    with os.fdopen(receives, encoding="utf-8") as pipe:
        return ran, pipe.read().strip() or here


def try_page(name):
    """How many commands of a page were pasted, and whether each is right."""
    commands, is_whole = list_commands((ROOT / name).read_text(encoding="utf-8")), True
    with tempfile.TemporaryDirectory() as folder:
        make_folder(Path(folder))
        here, path = folder, f"{folder}/bin:{os.environ['PATH']}"
        for command in commands:
            ran, here = paste(command.text, here, path)
            if not command.takes(ran):
                print(f"{name}, line {command.number}: {command.text}\nstatus {ran.returncode}, printed:\n{ran.stdout}{ran.stderr}")
                is_whole = False
    shown, told = sum(command.output is not None for command in commands), sum(bool(command.errors) for command in commands)
    print(f"{name}: {len(commands)} commands pasted, {shown} with what they print, {told} with what standard error says")
    return is_whole


def main():
    if not PROGRAM.is_file():
        sys.exit(f"{PROGRAM} isn't there: run rt ci, or bin/onfiseq")
    went_well = [try_page(name) for name in PAGES]
    sys.exit(0 if all(went_well) else 1)


main()

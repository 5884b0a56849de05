"""Tries what a clone gives without the kit: the commands of README's first screen, some more of the program, and `make test`.

    python3 tools/clone.py

at the root. What is committed goes into an empty folder, and the path has no `rt`. Prints what was tried, with the seconds, and ends with 1 at the first that goes wrong.
"""
import io
import os
import subprocess
import sys
import tarfile
import tempfile
import time

CHIP = "examples/small_chip/chip.page"
# Each command, and what standard output must have.
COMMANDS = (
    ("make -j4 && ./onfiseq once --base 4 < examples/erase_one_block.nmp", "end 0"),
    ("bin/onfiseq check %s 1 examples/small_chip/erase_block.trace" % CHIP, "legal"),
    ("./onfiseq capture %s 1 examples/hosts/linux_boot.vcd boot.trace --vendor linux && ./onfiseq check %s 1 boot.trace" % (CHIP, CHIP), "ok\n"),
    ("./onfiseq page made.page --data 2048 --spare 64 --pages 64 --blocks 1024 && ./onfiseq page --show made.page", "2048"),
    ("./onfiseq run examples/two_luns.run --workers 2", "end 0"),
    ("./onfiseq draw %s 1 examples/small_chip/erase_block.trace picture.svg && head -c 4 picture.svg" % CHIP, "<svg"),
    ("make install DESTDIR=installed PREFIX=/usr && installed/usr/bin/onfiseq --version && ls installed/usr/share/man/man1", "onfiseq.1"),
    ("make test", " 0 failed"),
)


def path_without_kit(room):
    """The path without `rt`: a folder that has it stands there as links to all else."""
    folders = []
    for number, folder in enumerate(os.environ["PATH"].split(os.pathsep)):
        if os.path.exists(folder + "/rt"):
            links = "%s/path%d" % (room, number)
            os.mkdir(links)
            for name in set(os.listdir(folder)) - {"rt"}:
                os.symlink(os.path.join(folder, name), os.path.join(links, name))
            folder = links
        folders.append(folder)
    return os.pathsep.join(folders)


def try_command(line, wanted, folder, names):
    """Runs a command in the clone: whether it goes as it must."""
    begun = time.time()
    ran = subprocess.run(["sh", "-c", line], cwd=folder, env=names, stdin=subprocess.DEVNULL, stdout=subprocess.PIPE, stderr=subprocess.PIPE, text=True, errors="replace")
    is_right = ran.returncode == 0 and wanted in ran.stdout
    print("clone: %s: %s, %.0f s" % (line, "ok" if is_right else "WRONG", time.time() - begun), flush=True)
    if not is_right:
        print("status %d\n%s%s" % (ran.returncode, ran.stdout[-3000:], ran.stderr[-3000:]))
    return is_right


def main():
    with tempfile.TemporaryDirectory() as room:
        folder = room + "/a clone"
        held = subprocess.run(["git", "archive", "HEAD"], check=True, stdout=subprocess.PIPE).stdout
        with tarfile.open(fileobj=io.BytesIO(held)) as archive:
            archive.extractall(folder)
        if not os.path.isdir(folder + "/release/program"):
            sys.exit("clone: there is no release/program: python3 tools/machines --release makes it")
        names = {**os.environ, "PATH": path_without_kit(room)}
        return 0 if all(try_command(line, wanted, folder, names) for line, wanted in COMMANDS) else 1


if __name__ == "__main__":
    sys.exit(main())

"""Builds and links examples/kernel as a kernel's module would be, and measures the frames of its functions.

    python3 tools/machines/try/kernel.py [OUT]      at the root, after `python3 tools/machines OUT` (out/machines where no folder is named)

What is linked may have no frame above 2 KB, and may want nothing but memcpy and memset, which a kernel has. Calls that take more are told with their frames.
"""
import os
import re
import subprocess
import sys

MOST = 2048
FLAGS = ["-std=gnu11", "-O2", "-Wall", "-Wextra", "-Werror", "-ffreestanding", "-fno-pic", "-fno-stack-protector", "-fno-asynchronous-unwind-tables", "-mno-sse", "-mno-mmx", "-mno-80387"]
FLAGS += ["-mno-red-zone", "-mcmodel=kernel", "-ffunction-sections"]
ROOTS = ("monitor_begin", "monitor_see", "monitor_is_busy")


def output_of(*words):
    return subprocess.run(words, check=True, stdout=subprocess.PIPE, text=True).stdout


def frames_of(path):
    """The largest subtraction from the stack pointer in each function of an object."""
    name, frames = "", {}
    for line in output_of("objdump", "-d", path).splitlines():
        found = re.match(r"[0-9a-f]+ <(.*)>:", line)
        name = found.group(1) if found else name
        found = re.search(r"sub +\$0x([0-9a-f]+),%rsp", line)
        if found:
            frames[name] = max(frames.get(name, 0), int(found.group(1), 16))
    return frames


def wanted_by(path):
    """What the code that is kept refers to and the module hasn't."""
    lacking = set(re.findall(r"\bU (\S+)", output_of("nm", path)))
    return {name for name in re.findall(r"R_X86_64_\w+\s+([\w.]+)", output_of("objdump", "-r", path)) if name in lacking}


def uses_vectors(path):
    """Whether an object uses a register that a kernel doesn't keep."""
    return re.search(r"%[xyz]mm\d|%mm\d", output_of("objdump", "-d", path)) is not None


def linked(folder):
    """The module: only what the roots reach."""
    room = folder + "/kernel"
    os.makedirs(room, exist_ok=True)
    objects = []
    for source in ("examples/kernel/monitor.c", folder + "/onfiseq_calls.c"):
        objects.append("%s/%s.o" % (room, os.path.basename(source)[:-2]))
        subprocess.run(["gcc", *FLAGS, "-I" + folder, "-c", source, "-o", objects[-1]], check=True)
    roots = [word for name in ROOTS for word in ("-u", name)]
    subprocess.run(["ld", "-r", "--gc-sections", *roots, *objects, folder + "/libonfiseq.a", "-o", room + "/module.o"], check=True)
    return room + "/module.o"


def main():
    folder = (sys.argv[1] if len(sys.argv) > 1 else "out/machines") + "/x86_64-kernel"
    if not os.path.isfile(folder + "/libonfiseq.a"):
        print("kernel: skipped: %s isn't built" % folder)
        return 0
    module = linked(folder)
    frames, wanted = frames_of(module), wanted_by(module)
    large = {name: size for name, size in frames.items() if size > MOST}
    is_right = not large and wanted <= {"memcpy", "memset"} and not uses_vectors(module)
    print("kernel: the module has %s bytes of code, its largest frame has %d bytes, and it wants %s" % (output_of("size", module).splitlines()[1].split()[0], max(frames.values()), ", ".join(sorted(wanted))))
    for name, size in sorted(frames_of(folder + "/libonfiseq.a").items(), key=lambda it: -it[1]):
        if size > MOST:
            print("kernel: not for a kernel's stack: %s, %d bytes" % (name, size))
    print("kernel: ok" if is_right else "kernel: WRONG: %s" % (large or wanted))
    return 0 if is_right else 1


if __name__ == "__main__":
    sys.exit(main())

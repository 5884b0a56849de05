"""Builds examples/kernel by kbuild against each kernel whose headers are installed, looks at the module, and runs its code outside of a kernel.

    python3 tools/kernel_module.py

at the root; it needs headers (Debian's linux-headers-amd64), make and gcc, and no kit. Where no headers are installed it says so, and that is all. The module may have no
frame above MOST_FRAME, no more code and static memory than said here, no floating point, and may want nothing of the kernel but WANTED. tools/machines/try/outside_kernel.c
stands for the kernel where the module runs; what it prints is examples/kernel/expected.
"""
import glob
import os
import re
import shutil
import subprocess
import sys

sys.path.insert(0, "tools/machines/try")
import kernel

ROOM, NAME, OUTSIDE = "out/kernel", "onfiseq_exec_op", "tools/machines/try/outside_kernel.c"
MOST_FRAME, MOST_CODE, MOST_DATA = 1024, 150_000, 16_384
# Of the kernel: memory for the room, the log, and what its compiler and preempt_enable call.
WANTED = {"kvmalloc_node", "kvfree", "_printk", "memcpy", "memmove", "memset"}
WANTED |= {"__fentry__", "__stack_chk_fail", "__x86_return_thunk", "__preempt_count", "__SCT__preempt_schedule"}


def headers():
    """The folders of the kernels' headers."""
    return sorted(it for it in glob.glob("/lib/modules/*/build") if os.path.isfile(it + "/Makefile") and os.path.isfile(it + "/.config"))


def built(kernel_folder):
    """The module, or what kbuild says against it; each warning is an error."""
    shutil.rmtree(ROOM, ignore_errors=True)
    shutil.copytree("examples/kernel", ROOM)
    ran = subprocess.run(["make", "-C", ROOM, "KERNEL=" + kernel_folder, "KCFLAGS=-Werror"], stdout=subprocess.PIPE, stderr=subprocess.STDOUT, text=True, check=False)
    return None if ran.returncode == 0 else ran.stdout[-3000:]


def faults_of(module):
    """What the module may not have, and what it has, in words."""
    frames, sizes = kernel.frames_of(module), [int(it) for it in kernel.output_of("size", module).splitlines()[1].split()[:3]]
    wanted, code, data = set(re.findall(r"\bU (\S+)", kernel.output_of("nm", module))), sizes[0], sizes[1] + sizes[2]
    wrong = ["%s has a frame of %d bytes" % it for it in frames.items() if it[1] > MOST_FRAME]
    wrong += ["it wants %s" % it for it in sorted(wanted - WANTED)]
    wrong += ["it has %d bytes of code" % code] * (code > MOST_CODE) + ["it has %d bytes of data" % data] * (data > MOST_DATA)
    wrong += ["it uses registers of floating point"] * kernel.uses_vectors(module)
    return wrong, "%d bytes of code, %d of data, and no frame above %d" % (code, data, max(frames.values()))


def differing_run():
    """What differs from the expected lines where the module's code runs, if something does."""
    program = ROOM + "/outside"
    subprocess.run(["gcc", "-O1", "-no-pie", "-Wall", "-Wextra", "-Werror", OUTSIDE, "%s/%s.o" % (ROOM, NAME), "-o", program], check=True)
    ran = subprocess.run([program], stdout=subprocess.PIPE, stderr=subprocess.STDOUT, text=True, check=False)
    with open("examples/kernel/expected/exec_op") as it:
        return [] if ran.stdout == it.read() and ran.returncode == 0 else ["it ended with %d and printed\n%s" % (ran.returncode, ran.stdout)]


def main():
    failed, found = False, headers()
    if not found:
        print("kernel_module: skipped: the headers of no kernel are installed (linux-headers-amd64)")
    for folder in found:
        refused = built(folder)
        wrong, told = ([refused], "") if refused else faults_of("%s/%s.ko" % (ROOM, NAME))
        wrong = wrong or differing_run()
        print("kernel_module: %s: %s" % (folder.split("/")[3], "WRONG: " + "\n".join(wrong) if wrong else "ok: " + told))
        failed |= bool(wrong)
    return 1 if failed else 0


if __name__ == "__main__":
    sys.exit(main())

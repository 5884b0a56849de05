"""Makes the random calls of examples/c/fuzz.c, and gives damaged records, over each form of the one C file: every form must say that nothing is wrong,
and those whose calls one compiler makes must count the same: another draws in another order.

    python3 tools/machines/try/forms.py [CALLS [SEED]]      100,000 calls and a fifth as many damaged records, where no number is given

at the root. The first form is the file as it is. Where a form has the processor's own addresses, a load or a store that isn't aligned ends the program.
SOURCE in the environment is another C file than release/onfiseq.c.
"""
import os
import shutil
import subprocess
import sys
import time

SOURCE, CHIP, ROOM = os.environ.get("SOURCE", "release/onfiseq.c"), "examples/small_chip/chip.page", "out/forms"
STRICT = ["-Wall", "-Wextra", "-Werror", "-Iinclude"]
DIRECT = ["-DONFISEQ_DIRECT", "-DONFISEQ_MEMORY=64000000", "-fsanitize=alignment", "-fsanitize-undefined-trap-on-error"]
ARM = ["arm-linux-gnueabihf-gcc", "-mthumb", "-static", "-O2", "-Wl,--no-warn-mismatch"]


def bare(cpu, *words):
    """What compiles for a Cortex-M."""
    return ["arm-none-eabi-gcc", "-mthumb", "-mcpu=" + cpu, "-Os", *words, *DIRECT]


# Each form: what compiles the file, what compiles and links the calls, and what runs them. On i386 numbers of 64 bits must be said to be aligned.
FORMS = {
    "as it is": (["gcc", "-O1"], ["gcc", "-O1"], []),
    "unchecked": (["gcc", "-O1", "-DONFISEQ_UNCHECKED"], ["gcc", "-O1"], []),
    "for 32 bits": (["gcc", "-m32", "-O1"], ["gcc", "-m32", "-O1"], []),
    "by the addresses of an i386": (["gcc", "-m32", "-malign-double", "-O1", *DIRECT], ["gcc", "-m32", "-malign-double", "-O1"], []),
    "for a 32-bit ARM": ([ARM[0], "-mthumb", "-O1"], ARM, ["qemu-arm"]),
    "by the addresses of a Cortex-M4": (bare("cortex-m4", "-mfloat-abi=soft"), ARM, ["qemu-arm"]),
    "by the addresses of a Cortex-M0+": (bare("cortex-m0plus"), ARM, ["qemu-arm"]),
}


def lacking(form):
    """What isn't there that a form needs, or None."""
    made, linked, runs = form
    for tool in (made[0], linked[0], *runs):
        if shutil.which(tool) is None:
            return "%s isn't installed" % tool
    ran = subprocess.run([*linked, "-x", "c", "-", "-o", os.devnull], input="int main(void) { return 0; }\n", text=True, stderr=subprocess.DEVNULL, check=False)
    return "%s links no such programs" % " ".join(linked[:2]) if ran.returncode else None


def built(number, form):
    """A form of the file, and the calls over it: the words that run them."""
    made, linked, runs = form
    compiled, program = "%s/form_%d.o" % (ROOM, number), "%s/fuzz_%d" % (ROOM, number)
    subprocess.run([*made, "-std=c99", *STRICT, "-c", SOURCE, "-o", compiled], check=True)
    subprocess.run([*linked, *STRICT, "examples/c/fuzz.c", compiled, "-o", program], check=True)
    return [*runs, program]


def counted(words, calls, seed):
    """What the calls and the damaged records count, or what went wrong."""
    said = []
    for given in ([str(calls), seed, CHIP], [str(calls // 5), seed, CHIP, "damaged"]):
        ran = subprocess.run([*words, *given], stdin=subprocess.DEVNULL, stdout=subprocess.PIPE, stderr=subprocess.PIPE, text=True, check=False)
        said.append(ran.stderr.strip() if ran.returncode == 0 else "it ended with %d: %s" % (ran.returncode, ran.stdout.strip()))
    return "\n".join(said)


def main():
    calls, seed = int(sys.argv[1]) if len(sys.argv) > 1 else 100000, sys.argv[2] if len(sys.argv) > 2 else "1"
    os.makedirs(ROOM, exist_ok=True)
    wanted, is_right = {}, True
    for number, (name, form) in enumerate(FORMS.items()):
        why, begun = lacking(form), time.time()
        if why:
            print("forms: skipped: %s, as %s" % (name, why))
            continue
        found = counted(built(number, form), calls, seed)
        is_same = found == wanted.setdefault(form[1][0], found) and "ended with" not in found
        is_right &= is_same
        print("forms: %s %s, %.0f s" % (name, "counts the same" if is_same else "DIFFERS:\n" + found, time.time() - begun), flush=True)
    for compiler, found in wanted.items():
        print("forms: by %s: %s" % (compiler, found.replace("\n", "; ")))
    return 0 if is_right else 1


if __name__ == "__main__":
    sys.exit(main())

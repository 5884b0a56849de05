"""The processors: how the kit's clang is told of each."""

# The libraries for C: those that the one C file has, and all, which the page has.
PORTABLE = ("onfiseq_c", "onfiseq_verify_c", "onfiseq_text_c", "onfiseq_live_c")
LIBRARIES = PORTABLE + ("onfiseq_show_c",)

# What the kit gives clang for AArch64, beside the processor.
FLAGS = ["-Wno-override-module", "-ffunction-sections", "-fdata-sections", "-mllvm", "-trap-unreachable", "-mllvm", "-disable-machine-licm"]
FLAGS += ["-mllvm", "-disable-postra-machine-licm", "-mllvm", "-sink-common-insts=false"]

# Each processor: its name, how many bits its pointers have, and the words for clang. For Linux on AArch64 the kit builds itself.
TARGETS = {
    "cortex-m4": (32, ["--target=thumbv7em-none-eabi", "-mcpu=cortex-m4", "-O2"]),
    "cortex-m3": (32, ["--target=thumbv7m-none-eabi", "-mcpu=cortex-m3", "-O2"]),
    "cortex-m0plus": (32, ["--target=thumbv6m-none-eabi", "-mcpu=cortex-m0plus", "-Oz"]),
    "rv32imac": (32, ["--target=riscv32-unknown-elf", "-march=rv32imac", "-mabi=ilp32", "-O2"]),
    "rv64-linux": (64, ["--target=riscv64-unknown-linux-gnu", "-march=rv64gc", "-mabi=lp64d", "-O2", "-fPIC"]),
    "armhf-linux": (32, ["--target=armv7-unknown-linux-gnueabihf", "-O2", "-fPIC"]),
    "i686-linux": (32, ["--target=i686-unknown-linux-gnu", "-O2", "-fPIC"]),
    "aarch64-bare": (64, ["--target=aarch64-none-elf", "-mgeneral-regs-only", "-O2"]),
    "x86_64-kernel": (64, ["--target=x86_64-unknown-linux-gnu", "-mno-sse", "-mno-mmx", "-mno-red-zone", "-mcmodel=kernel", "-O2"]),
}
WASM = ["--target=wasm32-unknown-unknown", "-mcpu=lime1", "-O2"]

# The modules: their libraries, and the bytes of their stack.
MODULES = {"onfiseq": (PORTABLE, 2621440), "whole": (LIBRARIES, 2621440)}
# How much further up the data stand in the second link, by which places.py tells their addresses.
MOVED = 65536

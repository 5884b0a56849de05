/* The board microbit, a Cortex-M0, which has the instructions of a Cortex-M0+. */
MEMORY {
    FLASH (rx) : ORIGIN = 0x00000000, LENGTH = 256K
    RAM (rw) : ORIGIN = 0x20000000, LENGTH = 16K
}
STACK = DEFINED(own_stack) ? own_stack : 2K;
MOST_FLASH = 54000;
MOST_RAM = 9500;
INCLUDE memory.ld

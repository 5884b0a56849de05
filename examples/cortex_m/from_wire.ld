/* The board mps2-an386, a Cortex-M4. */
MEMORY {
    FLASH (rx) : ORIGIN = 0x00000000, LENGTH = 256K
    RAM (rw) : ORIGIN = 0x20000000, LENGTH = 96K
}
STACK = DEFINED(own_stack) ? own_stack : 2K;
MOST_FLASH = DEFINED(own_stack) ? 100000 : 92000;
MOST_RAM = 26000;
INCLUDE memory.ld

/* A simulated board: its console is semihosting, by which a debugger or qemu prints what the processor shows it; its clock is the processor's own. */
#include "board.h"

enum { WRITE0 = 4, EXIT = 0x18, STOPPED = 0x20026, RUN_TIME_ERROR = 0x20023 };

static void ask_host(int what, uintptr_t word) {
    register int r0 __asm__("r0") = what;
    register uintptr_t r1 __asm__("r1") = word;
    __asm__ volatile("bkpt 0xab" : "+r"(r0) : "r"(r1) : "memory");
}

void print(const char *text) { ask_host(WRITE0, (uintptr_t)text); }

void print_number(size_t number) {
    char digits[12];
    char *at = digits + sizeof digits - 1;
    *at = 0;
    do *--at = (char)('0' + number % 10);
    while ((number /= 10) != 0);
    print(at);
}

void print_byte(uint8_t byte) {
    static const char digits[] = "0123456789abcdef";
    char text[3] = {digits[byte >> 4], digits[byte & 15], 0};
    print(text);
}

void print_line(const char *what, size_t number) {
    print(what);
    print_number(number);
    print("\n");
}

void end_board(int status) {
    for (;;) ask_host(EXIT, status == 0 ? STOPPED : RUN_TIME_ERROR);
}

/* ---- the clock */

enum { CLOCK_BITS = 24, IS_ON = 1, IS_OF_PROCESSOR = 4 };
#define CLOCK ((volatile uint32_t *)0xe000e010)

void begin_clock(void) {
    CLOCK[1] = (1u << CLOCK_BITS) - 1;
    CLOCK[2] = 0;
    CLOCK[0] = IS_ON | IS_OF_PROCESSOR;
}

uint32_t clock_now(void) { return CLOCK[2]; }

uint32_t instructions_since(uint32_t begun) { return ((begun - clock_now()) & ((1u << CLOCK_BITS) - 1)) * (1000000u / 1000) / (CLOCK_KHZ / 1000); }

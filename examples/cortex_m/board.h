/* What a firmware has of its board: a console, by semihosting, a stack that tells how much of it was used, and a count of the instructions that it runs. */
#ifndef BOARD_H
#define BOARD_H
#include <stddef.h>
#include <stdint.h>

/* The firmware: 0 where all went well. */
int run(void);

void print(const char *text);
void print_number(size_t number);
void print_byte(uint8_t byte);
void print_line(const char *what, size_t number);
void end_board(int status) __attribute__((noreturn));

size_t size_of_stack(void);
size_t used_stack(void);

/* A clock of CLOCK_KHZ, which counts down and begins anew at 2 ^ 24. The simulated processor runs an instruction each nanosecond. */
void begin_clock(void);
uint32_t clock_now(void);
uint32_t instructions_since(uint32_t begun);
#endif

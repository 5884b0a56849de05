/* Start-up code for a Cortex-M: the vectors, the memory as C wants it, and a painted stack. */
#include "board.h"

extern uint32_t stack_bottom, stack_top, data_begin, data_end, data_image, bss_begin, bss_end;

enum { PAINT = 0xa5a5a5a5u & 0x7fffffffu };

static void fill_words(uint32_t *at, const uint32_t *end, uint32_t word) {
    while (at < end) *at++ = word;
}

/* Where the processor begins. The stack below this function's own frame is painted. */
void reset(void) {
    const uint32_t *from = &data_image;
    for (uint32_t *at = &data_begin; at < &data_end; at++) *at = *from++;
    fill_words(&bss_begin, &bss_end, 0);
    fill_words(&stack_bottom, (const uint32_t *)__builtin_frame_address(0) - 32, PAINT);
    end_board(run());
}

/* What the calls come to where they can't go on, which the proofs exclude. */
void abort(void) { end_board(1); }

/* A fault of the processor, as where the stack is too small for this firmware. */
static void fault(void) { end_board(1); }

size_t size_of_stack(void) { return (size_t)(&stack_top - &stack_bottom) * sizeof(uint32_t); }

size_t used_stack(void) {
    const uint32_t *at = &stack_bottom;
    while (at < &stack_top && *at == PAINT) at++;
    return (size_t)(&stack_top - at) * sizeof(uint32_t);
}

__attribute__((section(".vectors"), used)) static const struct {
    uint32_t *stack;
    void (*handlers[15])(void);
} vectors = {&stack_top, {reset, fault, fault, fault, fault, fault, 0, 0, 0, 0, fault, fault, 0, fault, fault}};

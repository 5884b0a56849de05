/* The checker alone on a Cortex-M0+: what a channel and a push of it take, for tools/figures.py. */
#include "board.h"
#include "onfiseq.h"

enum { ITEMS = 10, TIMES = 20 };

static struct onfiseq_bus bus;

int run(void) {
    static const struct onfiseq_geometry chip = {512, 16, 4, 8, 1, 0, false, false, false, 0};
    static const struct onfiseq_item reset[] = {{0, 'C', 0xff, 0}, {0, 'C', 0x70, 0}, {0, 'O', 0x80, 0}, {0, 'R', 0, 0}, {0, 'C', 0x70, 0}, {0, 'O', 0xe0, 0}};
    static const struct onfiseq_item items[ITEMS] = {
        {0, 'C', 0x60, 0}, {0, 'A', 4, 0}, {0, 'A', 0, 0}, {0, 'A', 0, 0}, {0, 'C', 0xd0, 0}, {0, 'C', 0x70, 0}, {0, 'O', 0x80, 0}, {0, 'R', 0, 0}, {0, 'C', 0x70, 0}, {0, 'O', 0xe0, 0},
    };
    begin_clock();
    if (onfiseq_begin(&bus, &chip, 1)) return 1;
    for (size_t k = 0; k < sizeof reset / sizeof *reset; k++)
        if (onfiseq_push(&bus, &reset[k])) return 1;
    uint32_t begun = clock_now();
    for (size_t k = 0; k < TIMES * ITEMS; k++)
        if (onfiseq_push(&bus, &items[k % ITEMS])) return 1;
    print_line("a push: ", instructions_since(begun) / (TIMES * ITEMS));
    print_line("stack: ", used_stack());
    return 0;
}

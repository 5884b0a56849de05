/* A test bench monitor: it is shown each item of a channel, and stops at the first that breaks a rule. Here the items come from the lines of a trace.
 *
 *     monitor chip.page < cycles.trace
 *     monitor chip.page no_ready < cycles.trace     on a bus whose R/B# isn't seen: readies are taken from the status outputs that show them */
#include "onfiseq.h"
#include <stdio.h>

static bool sees_ready = true;

/* What the test bench calls at each cycle, and at each edge of R/B#: whether to go on. */
static bool is_permitted(struct onfiseq_bus *bus, const struct onfiseq_item *item, unsigned long at) {
    char why[160];
    size_t done;
    uint32_t rule = sees_ready ? onfiseq_push(bus, item) : onfiseq_push_status(bus, item, &done);
    if (rule == 0) return true;
    onfiseq_words(rule, why, sizeof why);
    printf("item %lu, %u %c %02x: %s (%c%u)\n", at, item->ce, item->kind, item->byte, why, ONFISEQ_LETTER(rule), ONFISEQ_NUMBER(rule));
    return false;
}

static struct onfiseq_page read_chip(const char *path) {
    uint8_t bytes[4096];
    FILE *file = fopen(path, "rb");
    size_t length = file ? fread(bytes, 1, sizeof bytes, file) : 0;
    if (file) fclose(file);
    return onfiseq_read_page(bytes, length);
}

int main(int count, char **words) {
    struct onfiseq_page chip = read_chip(count > 1 ? words[1] : "");
    struct onfiseq_bus bus;
    unsigned ce, byte, fail = 0;
    char kind;
    if (onfiseq_begin(&bus, &chip.geometry, 1)) return printf("the chip is refused: P%u\n", chip.fault), 2;
    sees_ready = count < 3;
    for (unsigned long at = 0; scanf("%u %c %x", &ce, &kind, &byte) == 3; at++) {
        if (kind == 'R' && scanf("%u", &fail) != 1) return 2;
        struct onfiseq_item item = {(uint8_t)ce, (uint8_t)kind, (uint8_t)byte, (uint8_t)(kind == 'R' ? fail : 0)};
        if (!is_permitted(&bus, &item, at)) return 1;
    }
    puts("every item is permitted");
    return 0;
}

/* A bus whose R/B# isn't seen: a cache read whose readies are taken from the status outputs that show them. */
#include "onfiseq.h"
#include <stdio.h>

static const struct onfiseq_item items[] = {
    {0, 'C', 0x00, 0}, {0, 'A', 0, 0}, {0, 'A', 0, 0}, {0, 'A', 0, 0}, {0, 'A', 0, 0}, {0, 'A', 0, 0}, {0, 'C', 0x30, 0}, /* the page goes into the register */
    {0, 'C', 0x70, 0}, {0, 'O', 0x80, 0}, {0, 'O', 0xe0, 0},                                                              /* busy; ready */
    {0, 'C', 0x31, 0}, {0, 'C', 0x70, 0}, {0, 'O', 0xc0, 0}, {0, 'O', 0xe0, 0},                                           /* ready; the array too */
    {0, 'C', 0x31, 0}, {0, 'C', 0x70, 0}, {0, 'O', 0xe0, 0},                                                              /* both at once */
};

int main(void) {
    struct onfiseq_geometry chip = {512, 16, 4, 8, 1, 0, 0, 0, 1, 0};
    struct onfiseq_bus bus;
    if (onfiseq_begin(&bus, &chip, 1)) return 1;
    for (size_t k = 0; k < sizeof items / sizeof *items; k++) {
        size_t done;
        uint32_t rule = onfiseq_push_status(&bus, &items[k], &done);
        if (rule) return printf("item %zu breaks F%u\n", k, ONFISEQ_NUMBER(rule)), 1;
        if (done > 1) printf("item %zu, %c %02x: %zu before it\n", k, items[k].kind, items[k].byte, done - 1);
    }
    struct onfiseq_look look = onfiseq_look_at(&bus, 0, 0);
    printf("LUN 0 is %s, its array is %s\n", look.busy ? "busy" : "ready", look.array_busy ? "busy" : "ready");
    return 0;
}

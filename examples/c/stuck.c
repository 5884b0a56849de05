/* A way out: the DMA of target 0 fails in the midst of a program's data. Its LUN can't be reset by FFh then, and it has the bus, so the three other chips wait for ever.
 * The chip is reset on its pins (WP#, power), and onfiseq_live_begin_target says so: every chip does its work.
 *
 *     stuck
 */
#include "onfiseq.h"
#include <stdio.h>

enum { TARGETS = 4 };

/* 80h, five addresses, 16 bytes of the buffer, 10h, wait, end 0 */
static const uint8_t program[] = {'N', 'M', 'P', '2', 6, 0, 1, 0, 16, 0, 0, 0, 24, 0, 0, 0, 1, 0x80, 0, 0, 2, 0, 5, 0, 4, 0, 16, 0, 1, 0x10, 0, 0, 10, 0, 0, 0, 0, 0, 0, 0};
/* FFh, wait, end 0 */
static const uint8_t reset[] = {'N', 'M', 'P', '2', 3, 0, 1, 0, 0, 0, 0, 0, 1, 0, 0, 0, 1, 0xff, 0, 0, 10, 0, 0, 0, 0, 0, 0, 0};

static struct onfiseq_live live;
static unsigned polls[TARGETS]; /* how often each chip was asked since its last command */

/* What the pins of this bench do with a turn: each chip says busy once, and then ready. */
static void do_on_pins(const struct onfiseq_turn *turn, uint8_t *taken) {
    for (size_t k = 0; k < turn->count; k++) {
        const struct onfiseq_burst *burst = &turn->bursts[k];
        if (burst->kind == 'C' && burst->bytes[0] != 0x70) polls[burst->ce] = 0;
        if (burst->kind == 'S') taken[0] = polls[burst->ce]++ ? 0xe0 : 0x80;
    }
}

/* Steps a job of FFh until it ends or can't go on, and says which. */
static void run_reset(unsigned ce) {
    struct onfiseq_job job;
    onfiseq_job_begin(&live, (uint8_t)ce, 0, 0, reset, sizeof reset, 0, &job);
    for (;;) {
        uint8_t taken[1] = {0};
        struct onfiseq_turn turn = onfiseq_job_next(&live, &job, reset, sizeof reset);
        if (turn.letter == 'E') {
            printf("target %u: its reset ends with %u\n", ce, turn.number);
            return;
        }
        if (turn.letter) {
            printf("target %u: %c%u\n", ce, turn.letter, turn.number);
            return;
        }
        do_on_pins(&turn, taken);
        onfiseq_job_finish(&live, &job, reset, sizeof reset, taken, turn.taken);
    }
}

int main(void) {
    static const struct onfiseq_geometry chip = {512, 16, 4, 8, 1, 0, 0, 0, 0, 0};
    struct onfiseq_job job;
    if (onfiseq_live_begin(&live, &chip, TARGETS)) return 1;
    onfiseq_job_begin(&live, 0, 0, 0, program, sizeof program, 16, &job);
    for (int word = 0; word < 2; word++) { /* 80h and its addresses are out; then the data doesn't come */
        onfiseq_job_next(&live, &job, program, sizeof program);
        onfiseq_job_finish(&live, &job, program, sizeof program, NULL, 0);
    }
    for (unsigned ce = 0; ce < TARGETS; ce++) run_reset(ce);
    printf("target 0 begins anew: %s\n", onfiseq_live_begin_target(&live, 0) == 0 ? "yes" : "no");
    for (unsigned ce = 0; ce < TARGETS; ce++) run_reset(ce);
    printf("a target that isn't there: F%u\n", ONFISEQ_NUMBER(onfiseq_live_begin_target(&live, TARGETS)));
    return 0;
}

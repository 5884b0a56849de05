/* Compares onfiseq.h with what the library says of itself: the version, the size of each record, and the place and type of each field. */
#include "onfiseq.h"
#include <stdio.h>

static int wrong;
static unsigned flag;
static struct onfiseq_sample none, all;

static void test(int fits, const char *what) {
    if (!fits) printf("differs: %s\n", what), wrong++;
}

#define SIZE(it) test(abi.it == sizeof(struct onfiseq_##it), "the size of " #it)
#define IS(field, number) test(none.field == (number), #field)

/* The next flag of the sample is this field and no other: it is set alone there, and it isn't set where all but it are. */
#define FLAG(field)                                                                                                      \
    do {                                                                                                                 \
        struct onfiseq_sample one = onfiseq_make_sample(1u << flag), others = onfiseq_make_sample(~(1u << flag));                  \
        test(one.field && !others.field && !none.field && all.field, #field);                                            \
        flag++;                                                                                                          \
    } while (0)

static void test_sizes(void) {
    struct onfiseq_abi abi = onfiseq_sizes();
    test(abi.version == ONFISEQ_VERSION, "the version");
    SIZE(geometry);
    SIZE(page);
    SIZE(item);
    SIZE(answer);
    SIZE(bus);
    SIZE(look);
    SIZE(part);
    SIZE(spot);
    SIZE(sample);
}

static void test_numbers(void) {
    IS(geometry.page_bytes, 1);
    IS(geometry.spare_bytes, 2);
    IS(geometry.pages, 3);
    IS(geometry.blocks, 4);
    IS(geometry.luns, 5);
    IS(geometry.plane_bits, 6);
    IS(geometry.enhanced, 7);
    IS(geometry.multi_plane, 8);
    IS(geometry.cache, 9);
    IS(geometry.optional, 265);
    IS(look.latch, 10);
    IS(look.register_, 11);
    IS(look.block, 12);
    IS(look.page, 13);
    IS(look.column, 14);
    IS(look.queued, 15);
    IS(item.ce, 16);
    IS(item.kind, 17);
    IS(item.byte, 18);
    IS(item.fail, 19);
    IS(answer.letter, 20);
    IS(answer.number, 21);
    IS(answer.at, 22);
    IS(part.count, 23);
    IS(part.kind, 24);
    for (unsigned k = 0; k < 7; k++) IS(part.bytes[k], 25 + k);
    IS(spot.part, 32);
    IS(spot.cycle, 33);
}

static void test_flags(void) {
    FLAG(look.is_there);
    FLAG(look.busy);
    FLAG(look.array_busy);
    FLAG(look.caching);
    FLAG(look.has_column);
    FLAG(look.programming);
}

/* The records that no sample holds: a page, and a channel, which another size or version doesn't begin. */
static void test_others(void) {
    struct onfiseq_geometry chip = {512, 16, 4, 8, 2, 1, 1, 0, 1, 0};
    struct onfiseq_bus bus;
    struct onfiseq_page page = onfiseq_read_page(NULL, 0), wider = onfiseq_read_page_as(NULL, 0, 1);
    test(onfiseq_begin(&bus, &chip, 3) == 0 && onfiseq_look_at(&bus, 2, 1).is_there && !onfiseq_look_at(&bus, 3, 0).is_there && !onfiseq_look_at(&bus, 0, 2).is_there, "bus");
    test(onfiseq_begin_sized(&bus, sizeof bus, ONFISEQ_VERSION + 1, &chip, 3) == ONFISEQ_OTHER_VERSION, "another version");
    test(onfiseq_begin_sized(&bus, sizeof bus + 8, ONFISEQ_VERSION, &chip, 3) == ONFISEQ_OTHER_VERSION, "another size");
    test(page.fault == 1 && page.geometry.blocks == 0, "page");
    test(wider.fault == 1 && wider.geometry.optional == 0, "page of the wider profile");
}

/* The records of the sequencer. */
#define LIVE_SIZE(it) test(abi.it == sizeof(struct onfiseq_##it), "the size of " #it)
#define LIVE(field, number) test(sample.field == (number), #field)

static void test_live_sizes(void) {
    struct onfiseq_live_abi abi = onfiseq_live_sizes();
    test(abi.version == ONFISEQ_VERSION, "the version of the sequencer");
    LIVE_SIZE(loops);
    LIVE_SIZE(job);
    LIVE_SIZE(live);
    LIVE_SIZE(burst);
    LIVE_SIZE(turn);
    LIVE_SIZE(step);
    test(abi.sample == sizeof(struct onfiseq_live_sample), "the size of live_sample");
}

static void test_job(void) {
    struct onfiseq_live_sample sample = onfiseq_live_make_sample();
    LIVE(job.magic, 1);
    LIVE(job.ce, 2);
    LIVE(job.lun, 3);
    LIVE(job.has_ended, 4);
    LIVE(job.code, 5);
    LIVE(job.base, 6);
    LIVE(job.buffer, 7);
    LIVE(job.index, 8);
    LIVE(job.place, 9);
    LIVE(job.column, 10);
    LIVE(job.at, 11);
    LIVE(job.plane, 12);
    LIVE(job.status, 13);
    LIVE(job.loops.depth, 14);
    for (unsigned k = 0; k < 4; k++) {
        LIVE(job.loops.around[k].start, 15 + k);
        LIVE(job.loops.around[k].left, (15 + k) ^ 0x100);
    }
}

static void test_turn(void) {
    struct onfiseq_live_sample sample = onfiseq_live_make_sample();
    LIVE(turn.letter, 23);
    LIVE(turn.number, 24);
    LIVE(turn.count, 25);
    LIVE(turn.taken, 26);
    for (unsigned k = 0; k < 3; k++) {
        LIVE(turn.bursts[k].kind, 27 + k);
        LIVE(turn.bursts[k].ce, (27 + k) ^ 0x40);
        LIVE(turn.bursts[k].bytes[0], 27 + k);
        for (unsigned byte = 1; byte < 5; byte++) LIVE(turn.bursts[k].bytes[byte], 18 + byte);
        LIVE(turn.bursts[k].place, (27 + k) ^ 0x80);
        LIVE(turn.bursts[k].len, (27 + k) ^ 0x100);
    }
    LIVE(step.letter, 30);
    LIVE(step.number, 31);
}

/* A channel of the sequencer, which no sample holds: one that a job of its second target has the bus of. */
static void test_live(void) {
    static const uint8_t file[20] = {'N', 'M', 'P', '2', 1, 0, 1, 0, 0, 0, 0, 0, 0, 0, 0, 0, 6, 0, 3, 0}; /* col 3 */
    struct onfiseq_geometry chip = {512, 16, 4, 8, 1, 0, 1, 0, 1, 0};
    struct onfiseq_live live;
    struct onfiseq_job job, other;
    test(onfiseq_live_begin(&live, &chip, 2) == 0, "live");
    test(onfiseq_live_begin_sized(&live, sizeof live, ONFISEQ_VERSION + 1, &chip, 2) == ONFISEQ_OTHER_VERSION, "another version of live");
    test(onfiseq_job_begin(&live, 1, 0, 5, file, sizeof file, 0, &job).letter == 0, "a job begins");
    test(onfiseq_job_begin(&live, 0, 0, 5, file, sizeof file, 0, &other).letter == 0, "another job begins");
    test(job.ce == 1 && job.lun == 0 && job.base == 5 && job.index == 5 && job.magic != 0, "job");
    test(onfiseq_job_finish(&live, &job, file, sizeof file, NULL, 0).letter == 0, "a step is finished");
    test(job.column == 3 && job.at == 1 && onfiseq_job_next(&live, &other, file, sizeof file).letter == 'H', "what a step leaves");
}

int main(void) {
    none = onfiseq_make_sample(0);
    all = onfiseq_make_sample(~0u);
    test_sizes();
    test_numbers();
    test_flags();
    test_others();
    test_live_sizes();
    test_job();
    test_turn();
    test_live();
    if (wrong == 0) printf("onfiseq.h is as the library, version %d\n", ONFISEQ_VERSION);
    return wrong != 0;
}

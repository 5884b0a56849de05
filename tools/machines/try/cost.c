/* What a call costs: cost CALL COUNT makes the call for so many items, or so many words of a job; cost stack says how much stack each call takes.
 *
 * Instructions are counted from outside, as the difference of two counts of items (cost.py). The items are erases with status polls of one LUN. A
 * verification is of the job's file as a whole. */
#include "onfiseq.h"
#include <stdio.h>
#include <stdlib.h>
#include <string.h>

enum { MOST = 2000, DEEP = 120000 };

static const struct onfiseq_item erase[10] = {
    {0, 'C', 0x60, 0}, {0, 'A', 4, 0}, {0, 'A', 0, 0}, {0, 'A', 0, 0}, {0, 'C', 0xd0, 0}, {0, 'C', 0x70, 0}, {0, 'O', 0x80, 0}, {0, 'R', 0, 0}, {0, 'C', 0x70, 0}, {0, 'O', 0xe0, 0},
};
/* loop 4096, cmd 60, addr 2 3, cmd d0, wait, next, end 0 */
static const uint8_t file[] = {
    0x4e, 0x4d, 0x50, 0x32, 0x07, 0x00, 0x01, 0x00, 0x00, 0x00, 0x00, 0x00, 0xff, 0xff, 0x00, 0x00, 0x0e, 0x00, 0x00, 0x10, 0x01, 0x60, 0x00, 0x00, 0x02, 0x02, 0x03, 0x00, 0x01, 0xd0, 0x00, 0x00, 0x0a, 0x00, 0x00, 0x00, 0x0f, 0x00, 0x00, 0x00, 0x00, 0x00, 0x00, 0x00,
};
/* the parameter page of that chip: its signature, sizes, 23h, and checksum */
static const uint8_t chip_page[256] = {
    'O', 'N', 'F', 'I', [81] = 2, [84] = 16, [92] = 4, [96] = 8, [100] = 1, 0x23, [254] = 0x11, 0x56,
};
static struct onfiseq_geometry chip;
static struct onfiseq_item items[MOST];
static struct onfiseq_bus bus;
static struct onfiseq_live live;
static struct onfiseq_job job;
static size_t count, done;

static unsigned do_page(void) {
    static const uint8_t page[256] = {'O', 'N', 'F', 'I'};
    return onfiseq_read_page(page, sizeof page).fault == 0;
}
static unsigned do_begin(void) { return onfiseq_begin(&bus, &chip, 1) != 0; }
static unsigned do_push(void) {
    unsigned wrong = 0;
    for (size_t k = 0; k < count; k++) wrong += onfiseq_push(&bus, &items[k]);
    return wrong;
}
static unsigned do_push_status(void) {
    unsigned wrong = 0;
    for (size_t k = 0; k < count; k++) wrong += onfiseq_push_status(&bus, &items[k], &done);
    return wrong;
}
static unsigned do_ask(void) {
    unsigned wrong = 0;
    for (size_t k = 0; k < count; k++) wrong += onfiseq_ask(&bus, &items[0]);
    return wrong;
}
static unsigned do_look(void) {
    unsigned wrong = 0;
    for (size_t k = 0; k < count; k++) wrong += !onfiseq_look_at(&bus, 0, 0).is_there;
    return wrong;
}
static unsigned do_push_all(void) { return onfiseq_push_all(&bus, items, count, &done); }
static unsigned do_check(void) { return onfiseq_check(&chip, 1, items, count).letter; }
static unsigned do_step(void) {
    static const uint8_t ready[8] = {0xe0};
    for (size_t k = 0; k < count; k++) {
        struct onfiseq_turn turn = onfiseq_job_next(&live, &job, file, sizeof file);
        if (turn.letter || onfiseq_job_finish(&live, &job, file, sizeof file, ready, (size_t)turn.taken).letter > 'Z') return 1;
    }
    return 0;
}
/* of that file, a text with a loop */
static unsigned do_verify(void) {
    unsigned wrong = 0;
    for (size_t k = 0; k < count; k++) wrong += onfiseq_verify(chip_page, sizeof chip_page, file, sizeof file).letter != 0;
    return wrong;
}
static unsigned begin_job(void) {
    onfiseq_live_begin(&live, &chip, 1);
    return onfiseq_job_begin(&live, 0, 0, 0, file, sizeof file, 0, &job).letter;
}

static const struct {
    const char *name;
    unsigned (*call)(void);
} calls[] = {
    {"page", do_page}, {"begin", do_begin}, {"push", do_push}, {"push_status", do_push_status}, {"ask", do_ask}, {"look", do_look}, {"push_all", do_push_all}, {"check", do_check}, {"step", do_step}, {"verify", do_verify},
};
enum { CALLS = sizeof calls / sizeof *calls };

/* How deep a call goes: what is below this frame is painted before it. */
__attribute__((noinline)) static unsigned long depth_of(unsigned (*call)(void)) {
    volatile uint8_t *top = __builtin_frame_address(0), *low = top - DEEP, *at;
    for (at = low; at < top - 256; at++) *at = 0x5a;
    call();
    for (at = low; at < top && *at == 0x5a;) at++;
    return (unsigned long)(top - at);
}

static int print_stack(void) {
    count = 10;
    for (int k = 0; k < CALLS; k++) {
        do_begin();
        printf("%s %lu\n", calls[k].name, depth_of(calls[k].call));
    }
    return 0;
}

int main(int words, char **word) {
    chip.page_bytes = 512, chip.spare_bytes = 16, chip.pages = 4, chip.blocks = 8, chip.luns = 1;
    for (int k = 0; k < MOST; k++) items[k] = erase[k % 10];
    if (do_begin() || begin_job()) return 2;
    if (words == 2 && strcmp(word[1], "stack") == 0) return print_stack();
    count = words > 2 ? strtoul(word[2], NULL, 10) : 0;
    for (int k = 0; k < CALLS; k++)
        if (words > 2 && count <= MOST && strcmp(word[1], calls[k].name) == 0) return calls[k].call() != 0;
    return 2;
}

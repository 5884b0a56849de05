/* How much stack each call takes, painted: a thread on a stack that is filled with one byte, and what of it is changed.
 *
 *     stack chip.page program..     word files, or assembly texts
 *
 * release/onfiseq.c has no pictures and notes: -DWITHOUT_PICTURES leaves them out. `tools/stacks.py` measures each call by itself. */
#include "onfiseq.h"
#include <pthread.h>
#include <stdio.h>
#include <stdlib.h>
#include <string.h>

enum { STACK = 4 << 20 };

static uint8_t page[4096], file[65536], room[65536];
static size_t page_length, file_length;
static struct onfiseq_geometry chip;
static const struct onfiseq_geometry large = {2048, 64, 64, 1024, 4, 2, 1, 1, 1, 0xffff}; /* four LUNs of four planes, and every command */
static struct onfiseq_bus bus;
static const struct onfiseq_item erase[] = {
    {0, 'C', 0x60, 0}, {0, 'A', 4, 0}, {0, 'A', 0, 0}, {0, 'A', 0, 0}, {0, 'C', 0xd0, 0}, {0, 'C', 0x70, 0},
    {0, 'O', 0x80, 0}, {0, 'R', 0, 0},
};
enum { ITEMS = sizeof erase / sizeof *erase, FEW = 4, MANY = 64 };

static void *do_nothing(void *it) { return it; }
static void *do_page(void *it) { return chip = onfiseq_read_page(page, page_length).geometry, it; }
static void *do_check(void *it) { return onfiseq_check(&chip, 1, erase, ITEMS), it; }
static void *do_begin(void *it) { return onfiseq_begin(&bus, &chip, 1), it; }
static void *do_push(void *it) {
    for (int k = 0; k < ITEMS; k++) onfiseq_push(&bus, &erase[k]);
    return it;
}
static void *do_push_all(void *it) {
    size_t done;
    return onfiseq_begin(&bus, &chip, 1), onfiseq_push_all(&bus, erase, ITEMS, &done), it;
}
/* An erase of four planes, whose rows wait in the queue. */
static void *do_planes(void *it) {
    onfiseq_begin(&bus, &large, 4);
    for (uint8_t plane = 0; plane < 4; plane++) {
        uint8_t bytes[5] = {0x60, (uint8_t)(plane << 6), 0, 0, plane < 3 ? 0xd1 : 0xd0};
        for (int k = 0; k < 5; k++) {
            struct onfiseq_item item = {3, k % 4 ? 'A' : 'C', bytes[k], 0}, ready = {3, 'R', 0, 0};
            if (onfiseq_push(&bus, &item)) abort();
            if (k == 4) onfiseq_push(&bus, &ready);
        }
    }
    return it;
}
static void *operate(size_t count) {
    static struct onfiseq_part parts[MANY];
    struct onfiseq_spot spot;
    for (size_t k = 0; k < MANY; k++) parts[k] = (struct onfiseq_part){1, k % 2 ? 'O' : 'C', {0x70}};
    onfiseq_begin(&bus, &large, 1);
    return onfiseq_push_op(&bus, 0, parts, count, &spot) ? NULL : &chip;
}
static void *do_few(void *it) { return operate(FEW), it; }
static void *do_many(void *it) { return operate(MANY), it; }
static void *do_data(void *it) {
    struct onfiseq_part read[] = {{1, 'C', {0x00}}, {5, 'A', {0}}, {1, 'C', {0x30}}, {0, 'W', {0}}, {0xffffffff, 'O', {0}}};
    struct onfiseq_spot spot;
    return onfiseq_begin(&bus, &large, 1), onfiseq_push_op(&bus, 0, read, 5, &spot), it;
}
static void *do_look(void *it) { return onfiseq_ask(&bus, erase), onfiseq_look_at(&bus, 0, 0), it; }
static void *do_verify(void *it) { return onfiseq_verify(page, page_length, file, file_length), it; }
static void *do_verify_run(void *it) {
    static struct onfiseq_item run[1024];
    struct onfiseq_run told;
    return onfiseq_verify_run(page, page_length, file, file_length, 100000, run, sizeof run / sizeof *run, &told), it;
}
static void *do_disassemble(void *it) { return onfiseq_disassemble(file, file_length, room, sizeof room), it; }
static void *do_assemble(void *it) {
    static uint8_t text[65536];
    size_t length = onfiseq_disassemble(file, file_length, text, sizeof text).length;
    return onfiseq_assemble(text, length, room, sizeof room), it;
}
/* A program from its first word to its end, on a die that is always ready; or some thousand words of it. */
static void *do_job(void *it) {
    static struct onfiseq_live live;
    static struct onfiseq_job job;
    static uint8_t taken[65536];
    onfiseq_live_begin(&live, &chip, 1);
    onfiseq_job_begin(&live, 0, 0, 0, file, file_length, file_length > 10 ? file[8] | (size_t)file[9] << 8 : 0, &job);
    for (int k = 0; k < 5000 && !job.has_ended; k++) {
        struct onfiseq_turn turn = onfiseq_job_next(&live, &job, file, file_length);
        taken[0] = 0xe0;
        if (turn.taken <= sizeof taken) onfiseq_job_finish(&live, &job, file, file_length, taken, turn.taken);
    }
    return it;
}
static void *do_words(void *it) { return onfiseq_words(ONFISEQ_CODE('V', 14), (char *)room, 160), it; }

#ifndef WITHOUT_PICTURES
static void *do_picture(void *it) { return onfiseq_picture(&chip, 1, erase, ITEMS, room, sizeof room), it; }
static void *do_notes(void *it) { return onfiseq_notes(&chip, file, file_length, room, sizeof room), it; }
#endif

static size_t stack_of(void *(*call)(void *)) {
    pthread_attr_t how;
    pthread_t thread;
    size_t k = 0;
    uint8_t *stack = aligned_alloc(4096, STACK);
    memset(stack, 0xa5, STACK);
    pthread_attr_init(&how);
    pthread_attr_setstack(&how, stack, STACK);
    pthread_create(&thread, &how, call, NULL);
    pthread_join(thread, NULL);
    while (k < STACK && stack[k] == 0xa5) k++;
    free(stack);
    return STACK - k;
}

static size_t read_all(const char *path, uint8_t *bytes, size_t most) {
    FILE *it = fopen(path, "rb");
    size_t length = it ? fread(bytes, 1, most, it) : 0;
    if (it) fclose(it);
    return length;
}

/* A word file, or one of an assembly text. */
static void read_program(const char *path) {
    static uint8_t text[65536];
    size_t length = read_all(path, text, sizeof text);
    struct onfiseq_placed placed = onfiseq_assemble(text, length, file, sizeof file);
    file_length = placed.letter ? length : (size_t)placed.length;
    if (placed.letter) memcpy(file, text, length);
}

static void tell(const char *what, void *(*call)(void *), size_t idle) {
    size_t used = stack_of(call);
    printf("%-13s %6zu bytes of stack\n", what, used > idle ? used - idle : 0);
}

int main(int count, char **words) {
    page_length = count > 1 ? read_all(words[1], page, sizeof page) : 0;
    size_t idle = stack_of(do_nothing);
    tell("page", do_page, idle);
    tell("check", do_check, idle);
    tell("begin", do_begin, idle);
    tell("push", do_push, idle);
    tell("push_all", do_push_all, idle);
    tell("push, planes", do_planes, idle);
    tell("push_op, 4", do_few, idle);
    tell("push_op, 64", do_many, idle);
    tell("push_op, data", do_data, idle);
    tell("ask and look", do_look, idle);
    tell("words", do_words, idle);
#ifndef WITHOUT_PICTURES
    tell("picture", do_picture, idle);
#endif
    for (int k = 2; k < count; k++) {
        read_program(words[k]);
        tell("verify", do_verify, idle);
        tell("verify_run", do_verify_run, idle);
        tell("job", do_job, idle);
        tell("disassemble", do_disassemble, idle);
        tell("assemble", do_assemble, idle);
#ifndef WITHOUT_PICTURES
        tell("notes", do_notes, idle);
#endif
    }
    return 0;
}

/* Four threads, each with a record of its own: what the calls answer is what they answer one thread after the other.
 *
 *     threads chip.page [CALLS]      CALLS pushes a thread, 100,000 if nothing is said
 */
#include "onfiseq.h"

#include <pthread.h>
#include <stdio.h>
#include <stdlib.h>

enum { THREADS = 4 };

struct work {
    struct onfiseq_geometry geometry;
    unsigned long calls;
    uint64_t drawn, sum;
};

static uint32_t draw(uint64_t *state) {
    *state = *state * 6364136223846793005u + 1442695040888963407u;
    return (uint32_t)(*state >> 33);
}

/* An item that comes often enough after those before to be permitted now and then. */
static struct onfiseq_item draw_item(uint64_t *state) {
    static const uint8_t commands[] = {0x00, 0x30, 0x60, 0xd0, 0x70, 0x70, 0x80, 0x10, 0xff};
    static const char kinds[] = "CAAAOORI";
    struct onfiseq_item item = {0, 0, 0, 0};
    item.kind = (uint8_t)kinds[draw(state) % 8];
    item.byte = item.kind == 'C' ? commands[draw(state) % sizeof commands] : item.kind == 'R' ? 0 : (uint8_t)(draw(state) % 4 + 0xe0 * (item.kind == 'O'));
    return item;
}

/* Pushes items on a channel of its own, and sums up what is answered. */
static void *push(void *given) {
    struct work *work = given;
    struct onfiseq_bus bus;
    if (onfiseq_begin(&bus, &work->geometry, 1) != 0) return NULL;
    for (unsigned long call = 0; call < work->calls; call++) {
        struct onfiseq_item item = draw_item(&work->drawn);
        work->sum = work->sum * 31 + onfiseq_push(&bus, &item) + 1;
    }
    return NULL;
}

int main(int count, char **words) {
    static uint8_t bytes[4096];
    FILE *file = count > 1 ? fopen(words[1], "rb") : NULL;
    size_t length = file ? fread(bytes, 1, sizeof bytes, file) : 0;
    struct onfiseq_page page = onfiseq_read_page(bytes, length);
    struct work alone[THREADS], together[THREADS];
    pthread_t threads[THREADS];
    if (file) fclose(file);
    if (page.fault != 0) return 2;
    for (int k = 0; k < THREADS; k++) {
        struct work begun = {page.geometry, count > 2 ? strtoul(words[2], NULL, 10) : 100000, (uint64_t)k + 1, 0};
        alone[k] = together[k] = begun;
        push(&alone[k]);
    }
    for (int k = 0; k < THREADS; k++)
        if (pthread_create(&threads[k], NULL, push, &together[k]) != 0) return 2;
    for (int k = 0; k < THREADS; k++) pthread_join(threads[k], NULL);
    for (int k = 0; k < THREADS; k++)
        if (alone[k].sum != together[k].sum) {
            printf("thread %d is answered otherwise\n", k);
            return 1;
        }
    printf("%d threads are answered as one after the other\n", THREADS);
    return 0;
}

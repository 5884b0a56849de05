/* Two threads and an interrupt in the calls at once, each with a record of its own: they are answered as one after the other. The interrupt is a signal, which
 * comes in the midst of the first thread's calls.
 *
 *     interrupt chip.page [CALLS]      CALLS of each thread and of the interrupt, 100,000 if nothing is said
 *
 * Over release/onfiseq.c each needs a memory of its own, too, which lend_room gives:
 *
 *     cc -DONFISEQ_MEMORY=65536 -DONFISEQ_STACK="ONFISEQ_STACK_OP(4)" -DONFISEQ_ROOM=lend_room -Irelease examples/c/interrupt.c release/onfiseq.c -pthread
 */
#define _GNU_SOURCE
#include "onfiseq.h"

#include <pthread.h>
#include <signal.h>
#include <stdio.h>
#include <stdlib.h>
#include <sys/time.h>
#include <unistd.h>

enum { FIRST, SECOND, INTERRUPT, WORKERS, AT_ONCE = 20, BETWEEN_SIGNALS = 50 };

struct work {
    struct onfiseq_bus bus;
    struct onfiseq_geometry geometry;
    unsigned long calls, made;
    uint64_t drawn, sum;
};

static struct work works[WORKERS];
static _Thread_local volatile sig_atomic_t worker; /* who is running: a thread, or the interrupt of its own */
static volatile sig_atomic_t is_over;

#ifdef ONFISEQ_MEMORY
static uint64_t rooms[WORKERS][(ONFISEQ_MEMORY) / 8];
void *lend_room(void);
void *lend_room(void) { return rooms[worker]; }
#endif

static uint32_t draw(uint64_t *state) {
    *state = *state * 6364136223846793005u + 1442695040888963407u;
    return (uint32_t)(*state >> 33);
}

/* An item that comes often enough after those before to be permitted now and then. */
static struct onfiseq_item draw_item(uint64_t *state) {
    static const uint8_t commands[] = {0x00, 0x30, 0x60, 0xd0, 0x70, 0x70, 0x80, 0x10, 0xff};
    static const char kinds[] = "CAAAOORI";
    struct onfiseq_item item = {0, 0, 0, 0};
    item.kind = (uint8_t)kinds[draw(state) % 8];
    item.byte = item.kind == 'C' ? commands[draw(state) % sizeof commands] : item.kind == 'R' ? 0 : (uint8_t)(draw(state) % 4 + 0xe0 * (item.kind == 'O'));
    return item;
}

static uint32_t call_operation(struct work *work) {
    struct onfiseq_part parts[] = {{1, 'C', {0x60}}, {3, 'A', {(uint8_t)(draw(&work->drawn) % 32)}}, {1, 'C', {0xd0}}, {0, 'W', {0}}};
    struct onfiseq_spot spot;
    uint32_t code = onfiseq_push_op(&work->bus, 0, parts, 4, &spot);
    return code + 7 * (uint32_t)spot.part + (uint32_t)spot.cycle;
}

static uint32_t call_look(struct work *work) {
    struct onfiseq_look look = onfiseq_look_at(&work->bus, 0, 0);
    return look.latch + 3u * look.busy + 7u * look.register_ + (uint32_t)look.column;
}

/* Makes a call, and sums up what is answered. */
static void call(struct work *work) {
    struct onfiseq_item item = draw_item(&work->drawn);
    size_t done = 0;
    uint32_t answer;
    switch (draw(&work->drawn) % 16) {
    case 0: answer = call_operation(work); break;
    case 1: answer = call_look(work); break;
    case 2: answer = onfiseq_ask(&work->bus, &item); break;
    case 3: answer = onfiseq_push_status(&work->bus, &item, &done) + (uint32_t)done; break;
    case 4: answer = onfiseq_drop(&work->bus, 0); break;
    default: answer = onfiseq_push(&work->bus, &item);
    }
    work->sum = work->sum * 31 + answer + 1;
    work->made++;
}

static void on_signal(int number) {
    sig_atomic_t interrupted = worker;
    (void)number;
    worker = INTERRUPT;
    for (int k = 0; k < AT_ONCE && works[INTERRUPT].made < works[INTERRUPT].calls; k++) call(&works[INTERRUPT]);
    is_over = works[INTERRUPT].made == works[INTERRUPT].calls;
    worker = interrupted;
}

/* A thread. The first takes the signals: while the interrupt still has calls to make, it goes on with calls on a record that nobody looks at. */
static void *run(void *given) {
    struct work *work = given, beyond;
    sigset_t alarm;
    sigemptyset(&alarm);
    sigaddset(&alarm, SIGALRM);
    worker = (sig_atomic_t)(work - works);
    if (worker == FIRST) pthread_sigmask(SIG_UNBLOCK, &alarm, NULL);
    while (work->made < work->calls) call(work);
    beyond = *work;
    while (worker == FIRST && !is_over) {
        for (int k = 0; k < 1000 && !is_over; k++) call(&beyond);
        usleep(1);
    }
    return NULL;
}

static void begin(struct work *work, const struct onfiseq_geometry *geometry, unsigned long calls) {
    struct work begun = {.geometry = *geometry, .calls = calls, .drawn = (uint64_t)(work - works) + 1};
    *work = begun;
    if (onfiseq_begin(&work->bus, geometry, 1) != 0) exit(2);
}

static void run_at_once(void) {
    struct itimerval often = {{0, BETWEEN_SIGNALS}, {0, BETWEEN_SIGNALS}}, never = {{0, 0}, {0, 0}};
    struct sigaction how = {.sa_handler = on_signal, .sa_flags = SA_RESTART};
    pthread_t threads[2];
    sigset_t alarm;
    sigemptyset(&alarm);
    sigaddset(&alarm, SIGALRM);
    pthread_sigmask(SIG_BLOCK, &alarm, NULL);
    sigaction(SIGALRM, &how, NULL);
    setitimer(ITIMER_REAL, &often, NULL);
    for (int k = FIRST; k <= SECOND; k++)
        if (pthread_create(&threads[k], NULL, run, &works[k]) != 0) exit(2);
    for (int k = FIRST; k <= SECOND; k++) pthread_join(threads[k], NULL);
    setitimer(ITIMER_REAL, &never, NULL);
}

int main(int count, char **words) {
    static uint8_t bytes[4096];
    FILE *file = count > 1 ? fopen(words[1], "rb") : NULL;
    size_t length = file ? fread(bytes, 1, sizeof bytes, file) : 0;
    struct onfiseq_page page = onfiseq_read_page(bytes, length);
    unsigned long calls = count > 2 ? strtoul(words[2], NULL, 10) : 100000;
    uint64_t alone[WORKERS];
    if (file) fclose(file);
    if (page.fault != 0) return 2;
    for (int k = 0; k < WORKERS; k++) {
        begin(&works[k], &page.geometry, calls);
        while (works[k].made < calls) call(&works[k]);
        alone[k] = works[k].sum;
        begin(&works[k], &page.geometry, calls);
    }
    run_at_once();
    for (int k = 0; k < WORKERS; k++) {
        printf("%s: %016llx\n", k == INTERRUPT ? "interrupt" : "thread", (unsigned long long)works[k].sum);
        if (works[k].sum != alone[k]) return printf("it is answered otherwise\n"), 1;
    }
    return 0;
}

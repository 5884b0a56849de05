/* A firmware's flash driver on a bare controller, by the sequencer of libonfiseq_live_c.a: two dies of one channel, reads in the foreground of an erase, an abort by
 * FFh when the power fails, and a die that dies and comes back. No heap; each program is a constant. R/B# is an interrupt: a job whose `wait` says busy isn't stepped
 * again before the interrupt comes, or a watchdog's tick. The controller and its dies are simulated at the end of the file.
 *
 *     cc -std=c99 -Iinclude examples/c/driver.c libonfiseq_live_c.a -o driver && ./driver
 */
#include "onfiseq.h"
#include <stdio.h>

/* What `onfiseq asm` makes of each text on the host, where `onfiseq verify` accepts it for the chip. */
/* rows 1, buffer 0, budget 5: cmd 60, addr 2 3, cmd d0, wait, brs 01 L6, end 0, L6: end 1 */
static const uint8_t erase_file[] = {'N', 'M', 'P', '2', 7, 0, 1, 0, 0, 0, 0, 0, 5, 0, 0, 0, 1, 0x60, 0, 0, 2, 2, 3, 0, 1, 0xd0, 0, 0, 10, 0, 0, 0, 13, 1, 6, 0, 0, 0, 0, 0, 0, 1, 0, 0};
/* rows 1, buffer 0, budget 1: cmd ff, wait, end 0 */
static const uint8_t reset_file[] = {'N', 'M', 'P', '2', 3, 0, 1, 0, 0, 0, 0, 0, 1, 0, 0, 0, 1, 0xff, 0, 0, 10, 0, 0, 0, 0, 0, 0, 0};
/* rows 1, buffer 16, budget 24: cmd 00, addr 0 5, cmd 30, wait, cmd 00, get 16, end 0 */
static const uint8_t read_file[] = {'N', 'M', 'P', '2', 7, 0, 1, 0, 16, 0, 0, 0, 24, 0, 0, 0, 1, 0, 0, 0, 2, 0, 5, 0, 1, 0x30, 0, 0, 10, 0, 0, 0, 1, 0, 0, 0, 3, 0, 16, 0, 0, 0, 0, 0};

enum { DIES = 2, LONGEST = 16, PATIENCE = 20, TICK = 1000 };
enum state { IDLE, DUE, WAITS, DONE, DEAD };

struct die {
    struct onfiseq_job job;
    const uint8_t *file;
    size_t length;
    uint8_t buffer[LONGEST];
    unsigned busy_polls; /* one after another */
    enum state state;
};

static struct onfiseq_live live;
static struct die dies[DIES];
static unsigned now;           /* turns of the main loop */
static volatile uint8_t edges; /* the interrupt of R/B# sets a bit a die */

static void do_on_pins(const struct onfiseq_burst *burst, uint8_t *taken);
static void pass_time(void);

/* ---- the driver */

static bool start(unsigned ce, const uint8_t *file, size_t length, uint32_t row, size_t room) {
    struct die *it = &dies[ce];
    struct onfiseq_step begun = onfiseq_job_begin(&live, (uint8_t)ce, 0, row, file, length, room, &it->job);
    if (begun.letter) return printf("die %u: refused %c%u\n", ce, begun.letter, (unsigned)begun.number), false;
    it->file = file, it->length = length, it->busy_polls = 0, it->state = DUE;
    return true;
}

static bool start_erase(unsigned ce, uint32_t row) { return start(ce, erase_file, sizeof erase_file, row, 0); }
static bool start_read(unsigned ce, uint32_t row) { return start(ce, read_file, sizeof read_file, row, 16); }
static bool start_reset(unsigned ce) { return start(ce, reset_file, sizeof reset_file, 0, 0); }

static enum state state_after(struct die *it, const struct onfiseq_step *step) {
    switch (step->letter) {
    case 0:
    case 'Y': it->busy_polls = 0; return DUE;
    case 'W': return ++it->busy_polls < PATIENCE ? WAITS : DEAD;
    case 'E': return DONE;
    default: return DEAD;
    }
}

/* The next word of a die's program. Nothing is done where another die has the bus. */
static void step(unsigned ce) {
    struct die *it = &dies[ce];
    struct onfiseq_turn turn = onfiseq_job_next(&live, &it->job, it->file, it->length);
    uint8_t status, *taken = &status;
    if (turn.letter == 'H') return;
    if (turn.letter) {
        printf("die %u: a word is refused, %c%u\n", ce, turn.letter, (unsigned)turn.number);
        it->state = DEAD;
        return;
    }
    for (size_t k = 0; k < turn.count; k++) {
        if (turn.bursts[k].kind == 'O') taken = it->buffer + turn.bursts[k].place;
        do_on_pins(&turn.bursts[k], taken);
    }
    struct onfiseq_step done = onfiseq_job_finish(&live, &it->job, it->file, it->length, taken, turn.taken);
    it->state = state_after(it, &done);
}

/* Takes the interrupt's bit of a die, if it is set. It goes before the poll, so an edge after it isn't lost. A firmware masks the interrupt meanwhile. */
static bool take_edge(unsigned ce) {
    uint8_t bit = (uint8_t)(1u << ce);
    bool is_set = (edges & bit) != 0;
    edges = (uint8_t)(edges & ~bit);
    return is_set;
}

/* A turn of the main loop: R/B# has risen, or the watchdog ticks, for the die that never raises R/B#. */
static void work(void) {
    pass_time();
    for (unsigned ce = 0; ce < DIES; ce++) {
        if (dies[ce].state == WAITS && (take_edge(ce) || now % TICK == 0)) dies[ce].state = DUE;
        if (dies[ce].state == DUE) step(ce);
    }
}

/* Until a die's job is back. */
static enum state await(unsigned ce) {
    while (dies[ce].state == DUE || dies[ce].state == WAITS) work();
    return dies[ce].state;
}

static bool is_any_due(void) {
    bool found = false;
    for (unsigned ce = 0; ce < DIES; ce++) found |= dies[ce].state == DUE;
    return found;
}

/* The power fails. FFh may not come in the midst of a sequence, so each die goes on to its `wait` or its end, in turn, as one of them has the bus. A die that
 * works gets FFh then: its old job is forgotten. */
static void abort_all(void) {
    while (is_any_due())
        for (unsigned ce = 0; ce < DIES; ce++)
            if (dies[ce].state == DUE) step(ce);
    for (unsigned ce = 0; ce < DIES; ce++)
        if (dies[ce].state == WAITS) start_reset(ce);
}

/* A die that was dead, once its supply was switched off and on and it is ready. */
static bool revive(unsigned ce) {
    if (onfiseq_live_begin_target(&live, (uint8_t)ce)) return false;
    dies[ce].state = IDLE;
    return true;
}

/* ---- the simulated controller and its dies */

static struct {
    uint8_t command, column;
    bool is_dead;
    unsigned turns_left, cycles;
} chips[DIES];

static void pass_time(void) {
    now++;
    for (unsigned ce = 0; ce < DIES; ce++)
        if (chips[ce].turns_left && !chips[ce].is_dead && --chips[ce].turns_left == 0) edges = (uint8_t)(edges | 1u << ce);
}

static void take_command(unsigned ce, uint8_t byte) {
    chips[ce].command = byte;
    if (byte == 0x30) chips[ce].column = 0;
    if (byte == 0x30 || byte == 0xff) chips[ce].turns_left = 5;
    if (byte == 0xd0) chips[ce].turns_left = 300;
}

static uint8_t give_byte(unsigned ce) {
    if (chips[ce].command != 0x70) return chips[ce].column++; /* a byte of the page is its column */
    return chips[ce].turns_left ? 0x80 : 0xe0;
}

/* No program here gives data. */
static void do_on_pins(const struct onfiseq_burst *burst, uint8_t *taken) {
    bool is_output = burst->kind == 'O' || burst->kind == 'S';
    for (size_t k = 0; k < burst->len; k++) {
        if (burst->kind == 'C') take_command(burst->ce, burst->bytes[burst->place + k]);
        if (is_output) taken[k] = give_byte(burst->ce);
    }
    chips[burst->ce].cycles += (unsigned)burst->len;
}

/* ---- what happens */

static const char *word_of(enum state state) {
    static const char *const words[] = {"idle", "due", "waiting", "done", "dead"};
    return words[state];
}

/* Ten reads of die 1 beside an erase of die 0. */
static void read_beside_an_erase(void) {
    start_erase(0, 4);
    for (unsigned k = 0; k < 10; k++) {
        start_read(1, k);
        await(1);
        printf("read %u ends with %u, its last byte is %02x; the erase is %s\n", k, dies[1].job.code, dies[1].buffer[15], word_of(dies[0].state));
    }
    enum state erased = await(0);
    printf("the erase is %s with %u, after %u cycles\n", word_of(erased), dies[0].job.code, chips[0].cycles);
}

/* Die 0 erases, and die 1 has just got its addresses. */
static void lose_power(void) {
    start_erase(0, 8);
    for (unsigned k = 0; k < 30; k++) work();
    start_read(1, 5);
    work();
    work();
    printf("the power fails: die 0 is %s, die 1 is %s at word %u\n", word_of(dies[0].state), word_of(dies[1].state), dies[1].job.at);
    abort_all();
    for (unsigned ce = 0; ce < DIES; ce++) {
        enum state state = await(ce);
        printf("die %u: %s\n", ce, state == DONE && dies[ce].file == reset_file ? "reset" : word_of(state));
    }
}

/* R/B# of die 0 never rises; die 1 goes on. */
static void lose_a_die(void) {
    chips[0].is_dead = true;
    start_erase(0, 12);
    start_read(1, 3);
    await(1);
    printf("a read ends with %u beside an erase that is %s\n", dies[1].job.code, word_of(dies[0].state));
    enum state erased = await(0);
    printf("the erase is %s after %u polls\n", word_of(erased), dies[0].busy_polls);
    start_read(1, 3);
    printf("a read is %s\n", word_of(await(1)));
    chips[0].is_dead = false, chips[0].turns_left = 0;
    if (!revive(0)) return;
    start_erase(0, 12);
    enum state again = await(0);
    printf("die 0 has its supply again: the erase is %s with %u\n", word_of(again), dies[0].job.code);
}

int main(void) {
    static const struct onfiseq_geometry chip = {512, 16, 4, 8, 1, 0, 0, 0, 0, 0};
    if (onfiseq_live_begin(&live, &chip, DIES)) return 1;
    read_beside_an_erase();
    lose_power();
    lose_a_die();
    return 0;
}

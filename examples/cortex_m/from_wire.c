/* A firmware for a Cortex-M4 with a chip. Its driver shows each cycle to the checker before it drives it. Microprograms come by a wire, from people whom nobody knows:
 * each is verified for the chip, and runs only where it is accepted. At the end the firmware says what that took. */
#include "board.h"
#include "chips.h"
#include "onfiseq.h"

enum { ROW = 4, ITEMS = 10, TIMES = 20, MOST = 64 };

/* What comes by the wire: a length, and a word file, as `onfiseq asm` writes it. The first erases a block and doesn't wait for that; the second does; the third reads the
 * spare bytes of a page. */
static const uint8_t wire[] = {
    0x20, 0x4e, 0x4d, 0x50, 0x32, 0x04, 0x00, 0x01, 0x00, 0x00, 0x00, 0x00, 0x00, 0x05, 0x00, 0x00, 0x00, 0x01, 0x60,
    0x00, 0x00, 0x02, 0x02, 0x03, 0x00, 0x01, 0xd0, 0x00, 0x00, 0x00, 0x00, 0x00, 0x00,
    0x24, 0x4e, 0x4d, 0x50, 0x32, 0x05, 0x00, 0x01, 0x00, 0x00, 0x00, 0x00, 0x00, 0x05, 0x00, 0x00, 0x00, 0x01, 0x60,
    0x00, 0x00, 0x02, 0x02, 0x03, 0x00, 0x01, 0xd0, 0x00, 0x00, 0x0a, 0x00, 0x00, 0x00, 0x00, 0x00, 0x00, 0x00,
    0x30, 0x4e, 0x4d, 0x50, 0x32, 0x08, 0x00, 0x01, 0x00, 0x10, 0x00, 0x00, 0x00, 0x18, 0x00, 0x00, 0x00, 0x06, 0x00,
    0x00, 0x02, 0x01, 0x00, 0x00, 0x00, 0x02, 0x00, 0x05, 0x00, 0x01, 0x30, 0x00, 0x00, 0x0a, 0x00, 0x00, 0x00, 0x01,
    0x00, 0x00, 0x00, 0x03, 0x00, 0x10, 0x00, 0x00, 0x00, 0x00, 0x00,
    0,
};

static struct onfiseq_live live;
static struct onfiseq_bus bus;
static uint8_t buffer[MOST];

/* ---- the driver, under the checker's eyes */

/* Shows a cycle or a ready to the checker. Where that refuses it, nothing is driven. */
static bool is_permitted(char kind, uint8_t byte) {
    struct onfiseq_item item = {0, (uint8_t)kind, byte, 0};
    uint32_t code = onfiseq_push(&bus, &item);
    if (code == 0) return true;
    print("not driven: ");
    print_byte(byte);
    print(" (F");
    print_number(ONFISEQ_NUMBER(code));
    print(")\n");
    return false;
}

static bool command(uint8_t byte) {
    if (!is_permitted('C', byte)) return false;
    give_command(0, byte);
    return true;
}

static bool address(uint8_t byte) {
    if (!is_permitted('A', byte)) return false;
    give_address(0, byte);
    return true;
}

/* Polls the status until the chip is ready, and says so to the checker. */
static bool wait(void) {
    uint8_t status;
    do {
        if (!command(0x70)) return false;
        status = take_byte(0);
        if (!is_permitted('O', status)) return false;
    } while ((status & 0x40) == 0);
    return is_permitted('R', 0);
}

static bool erase(uint8_t row) { return command(0x60) && address(row) && address(0) && address(0) && command(0xd0); }

/* A boot: a reset, an erase, and a read that its author lets come too soon. */
static bool boot(void) {
    if (!command(0xff) || !wait() || !erase(ROW)) return false;
    if (command(0x00)) return false;
    return wait();
}

/* ---- microprograms */

static void do_on_pins(const struct onfiseq_burst *burst, uint8_t *taken) {
    bool is_output = burst->kind == 'O' || burst->kind == 'S';
    const uint8_t *bytes = burst->kind == 'I' ? buffer + burst->place : burst->bytes + (is_output ? 0 : burst->place);
    for (size_t k = 0; k < burst->len; k++) {
        if (is_output) taken[k] = take_byte(burst->ce);
        if (burst->kind == 'C') give_command(burst->ce, bytes[k]);
        if (burst->kind == 'A') give_address(burst->ce, bytes[k]);
    }
}

/* The instructions that the sequencer runs for steps, and how many those are. */
static uint32_t instructions_of_steps;
static size_t steps;

/* One word of a job: what is to be done on the pins, that, and what the chip answered. */
static struct onfiseq_step do_step(struct onfiseq_job *job, const uint8_t *file, size_t length) {
    uint8_t status, *taken = &status;
    uint32_t begun = clock_now();
    struct onfiseq_turn turn = onfiseq_job_next(&live, job, file, length);
    instructions_of_steps += instructions_since(begun);
    if (turn.letter) return (struct onfiseq_step){turn.letter, turn.number};
    for (size_t k = 0; k < turn.count; k++) {
        if (turn.bursts[k].kind == 'O') taken = buffer + turn.bursts[k].place;
        do_on_pins(&turn.bursts[k], taken);
    }
    begun = clock_now();
    struct onfiseq_step step = onfiseq_job_finish(&live, job, file, length, taken, (size_t)turn.taken);
    instructions_of_steps += instructions_since(begun);
    steps++;
    return step;
}

/* Runs a program to its end; a buffer of another length than its header names, or a longer one than ours, is refused. */
static bool run_job(const uint8_t *file, size_t length) {
    struct onfiseq_job job;
    size_t room = file[8] | (size_t)file[9] << 8;
    struct onfiseq_step step = onfiseq_job_begin(&live, 0, 0, ROW, file, length, room <= sizeof buffer ? room : sizeof buffer, &job);
    while (step.letter == 0 || step.letter == 'W' || step.letter == 'Y') step = do_step(&job, file, length);
    print(step.letter == 'E' ? "ended with " : "stopped with ");
    print_number(step.number);
    print("\n");
    return step.letter == 'E';
}

/* Takes a word file from the wire: it runs where it is accepted. */
static bool take_program(const uint8_t *file, size_t length) {
    struct onfiseq_verdict verdict = onfiseq_verify(chip_page, CHIP_PAGE, file, length);
    if (verdict.letter == 0) return print("accepted, "), run_job(file, length);
    const char letter[2] = {(char)verdict.letter, 0};
    print("refused: ");
    print(letter);
    print_number(verdict.number);
    print_line(" at word ", (size_t)verdict.at);
    return true;
}

/* ---- what it takes */

static bool count_pushes(void) {
    static const struct onfiseq_item items[ITEMS] = {
        {0, 'C', 0x60, 0}, {0, 'A', 4, 0}, {0, 'A', 0, 0}, {0, 'A', 0, 0}, {0, 'C', 0xd0, 0}, {0, 'C', 0x70, 0}, {0, 'O', 0x80, 0}, {0, 'R', 0, 0}, {0, 'C', 0x70, 0}, {0, 'O', 0xe0, 0},
    };
    uint32_t begun = clock_now();
    for (size_t k = 0; k < TIMES * ITEMS; k++)
        if (onfiseq_push(&bus, &items[k % ITEMS])) return false;
    print_line("a push: ", instructions_since(begun) / (TIMES * ITEMS));
    return true;
}

int run(void) {
    struct onfiseq_page page = onfiseq_read_page(chip_page, CHIP_PAGE);
    begin_clock();
    if (page.fault || onfiseq_begin(&bus, &page.geometry, 1) || onfiseq_live_begin(&live, &page.geometry, 1)) return 1;
    if (!boot()) return 1;
    for (const uint8_t *at = wire; *at != 0; at += 1 + *at)
        if (!take_program(at + 1, *at)) return 1;
    for (size_t k = 0; k < 16; k++) print_byte(buffer[k]);
    print("\n");
    if (!count_pushes()) return 1;
    print_line("a step: ", instructions_of_steps / steps);
    print_line("stack: ", used_stack());
    return 0;
}

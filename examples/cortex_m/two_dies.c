/* A firmware for a Cortex-M0+ with two dies on one bus, without a heap and without words: each die has a job whose program was verified when the firmware was made. While one
 * works, the other has the bus. Each burst is printed, and at the end what that took. */
#include "board.h"
#include "chips.h"
#include "onfiseq.h"

enum { MOST = 16, ROW = 4 };

/* The word files of examples/small_chip/erase_block.asm and read_spare.asm, as `onfiseq asm` writes them; `onfiseq verify` accepts both for this chip. */
static const uint8_t erase_block[] = {
    0x4e, 0x4d, 0x50, 0x32, 0x07, 0x00, 0x01, 0x00, 0x00, 0x00, 0x00, 0x00, 0x05, 0x00, 0x00, 0x00, 0x01, 0x60, 0x00,
    0x00, 0x02, 0x02, 0x03, 0x00, 0x01, 0xd0, 0x00, 0x00, 0x0a, 0x00, 0x00, 0x00, 0x0d, 0x01, 0x06, 0x00, 0x00, 0x00,
    0x00, 0x00, 0x00, 0x01, 0x00, 0x00,
};
static const uint8_t read_spare[] = {
    0x4e, 0x4d, 0x50, 0x32, 0x08, 0x00, 0x01, 0x00, 0x10, 0x00, 0x00, 0x00, 0x18, 0x00, 0x00, 0x00, 0x06, 0x00, 0x00,
    0x02, 0x01, 0x00, 0x00, 0x00, 0x02, 0x00, 0x05, 0x00, 0x01, 0x30, 0x00, 0x00, 0x0a, 0x00, 0x00, 0x00, 0x01, 0x00,
    0x00, 0x00, 0x03, 0x00, 0x10, 0x00, 0x00, 0x00, 0x00, 0x00,
};

static struct onfiseq_live live;

/* What runs on a die. */
static struct work {
    const uint8_t *file;
    size_t length;
    struct onfiseq_job job;
    bool is_over;
    uint8_t buffer[MOST];
} works[CHIPS] = {{.file = erase_block, .length = sizeof erase_block}, {.file = read_spare, .length = sizeof read_spare}};

static uint32_t instructions_of_steps;
static size_t steps;

static void do_on_pins(const struct onfiseq_burst *burst, uint8_t *taken) {
    bool is_output = burst->kind == 'O' || burst->kind == 'S';
    const char kind[4] = {(char)('0' + burst->ce), ' ', (char)(is_output ? 'O' : burst->kind), 0};
    print(kind);
    print(" ");
    for (size_t k = 0; k < burst->len; k++) {
        uint8_t byte = is_output ? take_byte(burst->ce) : burst->bytes[burst->place + k];
        if (is_output) taken[k] = byte;
        if (burst->kind == 'C') give_command(burst->ce, byte);
        if (burst->kind == 'A') give_address(burst->ce, byte);
        print_byte(byte);
    }
    print("\n");
}

/* One word of a job, on the pins too. */
static struct onfiseq_step do_step(struct work *its) {
    uint8_t status, *taken = &status;
    uint32_t begun = clock_now();
    struct onfiseq_turn turn = onfiseq_job_next(&live, &its->job, its->file, its->length);
    instructions_of_steps += instructions_since(begun);
    if (turn.letter) return (struct onfiseq_step){turn.letter, turn.number};
    for (size_t k = 0; k < turn.count; k++) {
        if (turn.bursts[k].kind == 'O') taken = its->buffer + turn.bursts[k].place;
        do_on_pins(&turn.bursts[k], taken);
    }
    begun = clock_now();
    struct onfiseq_step step = onfiseq_job_finish(&live, &its->job, its->file, its->length, taken, (size_t)turn.taken);
    instructions_of_steps += instructions_since(begun);
    steps++;
    return step;
}

/* Whether a call was answered with one of these letters; else what it was answered is printed. */
static bool is_one_of(const char *letters, uint8_t letter) {
    const char text[2] = {(char)letter, 0};
    for (const char *at = letters; *at; at++)
        if (*at == *text) return true;
    print("refused: ");
    print(text);
    print("\n");
    return false;
}

/* A turn of a die: until its job waits for the chip or the bus, or is over. False where it is refused. */
static bool take_turn(struct work *its) {
    struct onfiseq_step step = {0, 0};
    while (step.letter == 0 || step.letter == 'Y') step = do_step(its);
    its->is_over = step.letter == 'E';
    if (its->is_over) print_line("ended with ", step.number);
    return is_one_of("EWH", step.letter);
}

static bool begin_jobs(const struct onfiseq_geometry *chip) {
    uint32_t code = onfiseq_live_begin(&live, chip, CHIPS);
    if (code) return print_line("not begun: ", code), false;
    for (unsigned ce = 0; ce < CHIPS; ce++) {
        struct work *its = &works[ce];
        struct onfiseq_step step = onfiseq_job_begin(&live, (uint8_t)ce, 0, ROW, its->file, its->length, its->file[8] | (size_t)its->file[9] << 8, &its->job);
        if (step.letter && !is_one_of("", step.letter)) return false;
    }
    return true;
}

int run(void) {
    static const struct onfiseq_geometry chip = {512, 16, 4, 8, 1, 0, false, false, false, 0};
    begin_clock();
    if (!begin_jobs(&chip)) return 1;
    while (!works[0].is_over || !works[1].is_over)
        for (unsigned ce = 0; ce < CHIPS; ce++)
            if (!works[ce].is_over && !take_turn(&works[ce])) return 1;
    for (unsigned k = 0; k < MOST; k++) print_byte(works[1].buffer[k]);
    print("\n");
    print_line("a step: ", instructions_of_steps / steps);
    print_line("stack: ", used_stack());
    return 0;
}

/* Two programs on two chips of one channel: each is assembled and verified, and then runs on pins, word after word, while the other waits for the bus or for its
 * chip. The pins and chips are simulated; each burst is printed as a line: target, kind, bytes.
 *
 *     live chip.page program base program base */
#include "onfiseq.h"
#include <stdio.h>
#include <stdlib.h>
#include <string.h>

enum { JOBS = 2, PAGE = 528, PAGES = 32 };

/* ---- a chip of 512 + 16 bytes a page and 4 pages a block, whose work lasts some polls of its status */

struct chip {
    uint8_t pages[PAGES][PAGE];
    uint8_t command, address[5];
    unsigned addresses, polls_left, column;
    bool shows_status;
};

static unsigned row_of(const struct chip *chip, unsigned from) { return (chip->address[from] | chip->address[from + 1] << 8) % PAGES; }

static void take_command(struct chip *chip, uint8_t byte) {
    chip->shows_status = byte == 0x70;
    if (byte == 0x60 || byte == 0x00) chip->addresses = 0;
    if (byte == 0xd0) memset(chip->pages[row_of(chip, 0) / 4 * 4], 0xff, 4 * PAGE), chip->polls_left = 2;
    if (byte == 0x30) chip->column = chip->address[0] | (unsigned)chip->address[1] << 8, chip->polls_left = 1;
    chip->command = byte;
}

static uint8_t give_byte(struct chip *chip) {
    if (!chip->shows_status) return chip->pages[row_of(chip, 2)][chip->column++ % PAGE];
    if (chip->polls_left == 0) return 0xe0; /* not protected, ready, its array too */
    return chip->polls_left--, 0x80;        /* busy */
}

/* ---- the pins */

static struct chip chips[JOBS];

static void do_on_pins(const struct onfiseq_burst *burst, const uint8_t *buffer, uint8_t *taken) {
    struct chip *chip = &chips[burst->ce];
    bool is_output = burst->kind == 'O' || burst->kind == 'S';
    const uint8_t *bytes = burst->kind == 'I' ? buffer + burst->place : burst->bytes + (is_output ? 0 : burst->place);
    printf("%u %c", burst->ce, is_output ? 'O' : burst->kind);
    for (size_t k = 0; k < burst->len; k++) {
        if (is_output) taken[k] = give_byte(chip);
        if (burst->kind == 'C') take_command(chip, bytes[k]);
        if (burst->kind == 'A') chip->address[chip->addresses++ % 5] = bytes[k];
        printf(" %02x", is_output ? taken[k] : bytes[k]);
    }
    putchar('\n');
}

/* ---- the jobs */

struct work {
    struct onfiseq_job job;
    uint8_t file[4112], buffer[64];
    size_t length, room;
};

static struct onfiseq_live live;
static struct work works[JOBS];
static uint8_t page[4096], text[65536];

static size_t read_all(const char *path, uint8_t *bytes, size_t room) {
    FILE *it = fopen(path, "rb");
    size_t length = it ? fread(bytes, 1, room, it) : 0;
    if (it) fclose(it);
    return length;
}

static bool say(const char *what, uint8_t letter, uint32_t number) { return printf("%s: refused %c%u\n", what, letter, number), false; }

/* Assembles and verifies a program, and begins its job on the only LUN of a target. */
static bool load(const char *path, uint8_t ce, uint32_t base, size_t page_length) {
    struct work *it = &works[ce];
    struct onfiseq_placed made = onfiseq_assemble(text, read_all(path, text, sizeof text), it->file, sizeof it->file);
    if (made.letter) return say(path, made.letter, made.number);
    it->length = made.length;
    struct onfiseq_verdict verdict = onfiseq_verify(page, page_length, it->file, it->length);
    if (verdict.letter) return say(path, verdict.letter, verdict.number);
    it->room = it->file[8] | (size_t)it->file[9] << 8; /* what the header says of the buffer */
    if (it->room > sizeof it->buffer) return say(path, 'B', 0);
    struct onfiseq_step begun = onfiseq_job_begin(&live, ce, 0, base, it->file, it->length, it->room, &it->job);
    return begun.letter ? say(path, begun.letter, begun.number) : true;
}

/* Does the next word of a job, if it is due. What a `get` takes belongs at its burst's place in the buffer; a poll takes a status. */
static bool go_on(struct work *it) {
    struct onfiseq_turn turn = onfiseq_job_next(&live, &it->job, it->file, it->length);
    uint8_t status, *taken = &status;
    if (turn.letter) return turn.letter == 'H' || say("a step", turn.letter, turn.number);
    for (size_t k = 0; k < turn.count; k++) {
        if (turn.bursts[k].kind == 'O') taken = it->buffer + turn.bursts[k].place;
        do_on_pins(&turn.bursts[k], it->buffer, taken);
    }
    struct onfiseq_step step = onfiseq_job_finish(&live, &it->job, it->file, it->length, taken, turn.taken);
    return step.letter == 0 || step.letter == 'W' || step.letter == 'Y' || step.letter == 'E' || say("a step", step.letter, step.number);
}

int main(int count, char **words) {
    size_t page_length = count == 6 ? read_all(words[1], page, sizeof page) : 0;
    struct onfiseq_page chip = onfiseq_read_page(page, page_length);
    if (chip.fault) return say("the page", 'P', chip.fault), 1;
    if (onfiseq_live_begin(&live, &chip.geometry, JOBS)) return 1;
    for (unsigned ce = 0; ce < JOBS; ce++) {
        for (unsigned k = 0; k < PAGES * PAGE; k++) chips[ce].pages[k / PAGE][k % PAGE] = (uint8_t)(k % PAGE);
        if (!load(words[2 + 2 * ce], (uint8_t)ce, (uint32_t)strtoul(words[3 + 2 * ce], NULL, 10), page_length)) return 1;
    }
    while (!works[0].job.has_ended || !works[1].job.has_ended)
        for (unsigned ce = 0; ce < JOBS; ce++)
            if (!works[ce].job.has_ended && !go_on(&works[ce])) return 1;
    for (unsigned ce = 0; ce < JOBS; ce++) {
        printf("target %u ended with %u", ce, works[ce].job.code);
        for (size_t k = 0; k < works[ce].room; k++) printf("%s%02x", k ? " " : ": ", works[ce].buffer[k]);
        putchar('\n');
    }
    return 0;
}

/* What a firmware does that takes microprograms from outside: each is assembled, if it comes as text, and verified for the chip before it is accepted.
 * Where a refusal has its run, that is shown: the lines of a trace, and which rule its last cycle breaks.
 *
 *     loader chip.page program.. */
#include "onfiseq.h"
#include <stdio.h>
#include <string.h>

static uint8_t page[4096], given[65536], file[4112];
static struct onfiseq_item run[1024];

static size_t read_all(const char *path, uint8_t *bytes, size_t room) {
    FILE *it = fopen(path, "rb");
    size_t length = it ? fread(bytes, 1, room, it) : 0;
    if (it) fclose(it);
    return length;
}

static void say(const char *path, uint8_t letter, uint32_t number, size_t at) {
    char why[160];
    onfiseq_words(ONFISEQ_CODE(letter, number), why, sizeof why);
    printf("%s: refused %c%u at %zu: %s\n", path, letter, number, at, why);
}

static void show_item(const struct onfiseq_item *item) {
    if (item->kind == 'R') printf("    %u R %u %u", item->ce, item->byte, item->fail);
    else if (item->kind == 'Y') printf("    %u Y %u", item->ce, item->byte);
    else printf("    %u %c %02x", item->ce, item->kind, item->byte);
}

/* Shows the run of a refusal on the chip's channel; of a longer one than there is room for, its beginning. */
static void show_run(size_t page_length, size_t count) {
    size_t room = sizeof run / sizeof *run, shown = count < room ? count : room;
    struct onfiseq_page chip = onfiseq_read_page(page, page_length);
    struct onfiseq_answer answer = onfiseq_check(&chip.geometry, 1, run, shown);
    char why[160];
    for (size_t k = 0; k < shown; k++) {
        show_item(&run[k]);
        if (answer.letter && k == answer.at) onfiseq_words(ONFISEQ_CODE(answer.letter, answer.number), why, sizeof why), printf("    %s (%c%u)", why, answer.letter, answer.number);
        putchar('\n');
    }
    if (shown < count) printf("    and %zu more\n", count - shown);
}

/* Whether the program may be stored: its word file is then in file, and so many bytes long. */
static size_t load(const char *path, size_t page_length) {
    size_t length = read_all(path, given, sizeof given);
    if (length >= 3 && memcmp(given, "NMP", 3) == 0) {
        if (length > sizeof file) return say(path, 'B', 0, 0), 0;
        memcpy(file, given, length);
    } else {
        struct onfiseq_placed made = onfiseq_assemble(given, length, file, sizeof file);
        if (made.letter) return say(path, made.letter, made.number, made.at), 0;
        length = made.length;
    }
    struct onfiseq_run told;
    struct onfiseq_verdict verdict = onfiseq_verify_run(page, page_length, file, length, 100000, run, sizeof run / sizeof *run, &told);
    if (verdict.letter == 0) return length;
    say(path, verdict.letter, verdict.number, verdict.at);
    if (told.count) show_run(page_length, told.count);
    else if (verdict.letter == 'V') printf("    no run: %s\n", verdict.number <= 5 ? "the program as a whole is refused" : "none was found in 100000 steps");
    return 0;
}

int main(int count, char **words) {
    size_t page_length = count > 1 ? read_all(words[1], page, sizeof page) : 0;
    int refused = 0;
    for (int k = 2; k < count; k++) {
        size_t length = load(words[k], page_length);
        if (length) printf("%s: accepted, %zu bytes\n", words[k], length);
        refused += length == 0;
    }
    return refused != 0;
}

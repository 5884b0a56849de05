/* Whether a trace is legal on a chip: the text of a trace, whole, in one call.
 *
 *     check chip.page cycles.trace      legal, or what stands at the first item that breaks a rule */
#include "onfiseq.h"
#include <stdio.h>

static uint8_t bytes[1 << 20];
static struct onfiseq_item items[1 << 16];

/* What a file holds, and its length. */
static size_t read_file(const char *path) {
    FILE *file = fopen(path, "rb");
    size_t length = file ? fread(bytes, 1, sizeof bytes, file) : 0;
    if (file) fclose(file);
    return length;
}

int main(int count, char **words) {
    char why[160] = "";
    struct onfiseq_page chip = onfiseq_read_page(bytes, read_file(count > 1 ? words[1] : ""));
    struct onfiseq_placed read = onfiseq_trace(bytes, read_file(count > 2 ? words[2] : ""), 0, items, sizeof items / sizeof *items);
    if (chip.fault) return printf("the chip is refused: P%u\n", (unsigned)chip.fault), 2;
    if (read.letter) return printf("line %lu isn't an item: %c%u\n", (unsigned long)read.at, read.letter, (unsigned)read.number), 2;
    struct onfiseq_answer answer = onfiseq_check(&chip.geometry, 1, items, (size_t)read.length);
    if (answer.letter == 0) return puts("legal"), 0;
    onfiseq_words(ONFISEQ_CODE(answer.letter, answer.number), why, sizeof why);
    printf("refused %c%u at %lu: %s\n", answer.letter, (unsigned)answer.number, (unsigned long)answer.at, why);
    return 1;
}

/* Made traces, programs and jobs with the answers of the library that this is linked with, a line of JSON each:
 *
 *     cases TRACES PROGRAMS JOBS SEED chip.page > cases.jsonl
 *
 * Two libraries that print the same have given the same answers. Every call of onfiseq.h is made; what it leaves in a record, and long texts, are told as a sum
 * over all fields (sums.h, which sums.py writes). Half of a trace is drawn item by item among those that are permitted, so that it breaks a rule late. */
#include "onfiseq.h"
#include "sums.h"
#include <stdio.h>
#include <stdlib.h>
#include <string.h>

static uint64_t seed;
static uint8_t page[4096];
static size_t page_length;

static uint32_t draw(uint32_t below) {
    seed = seed * 6364136223846793005u + 1442695040888963407u;
    return (uint32_t)(seed >> 33) % below;
}

static void print_sum(const char *name, uint64_t sum) { printf(",\"%s\":\"%08lx%08lx\"", name, (unsigned long)(sum >> 32), (unsigned long)(sum & 0xffffffffu)); }

static void print_numbers(const char *name, const unsigned long *numbers, size_t count) {
    printf(",\"%s\":[", name);
    for (size_t k = 0; k < count; k++) printf("%s%lu", k ? "," : "", numbers[k]);
    printf("]");
}

static void print_items(const char *name, const struct onfiseq_item *items, size_t count) {
    printf(",\"%s\":[", name);
    for (size_t k = 0; k < count; k++) printf("%s[%u,%u,%u,%u]", k ? "," : "", items[k].ce, items[k].kind, items[k].byte, items[k].fail);
    printf("]");
}

static void print_bytes(const char *name, const uint8_t *bytes, size_t count) {
    printf(",\"%s\":\"", name);
    for (size_t k = 0; k < count; k++) printf("%02x", bytes[k]);
    printf("\"");
}

static void print_chip(const struct onfiseq_geometry *chip, unsigned targets) {
    printf("\"chip\":[%lu,%lu,%lu,%lu,%u,%u,%u,%u,%u,%u],\"targets\":%u", (unsigned long)chip->page_bytes, (unsigned long)chip->spare_bytes, (unsigned long)chip->pages,
           (unsigned long)chip->blocks, chip->luns, chip->plane_bits, chip->enhanced, chip->multi_plane, chip->cache, chip->optional, targets);
}

/* ---- traces */

static struct onfiseq_geometry draw_chip(void) {
    struct onfiseq_geometry chip;
    memset(&chip, 0, sizeof chip);
    chip.page_bytes = 512u << draw(3);
    chip.spare_bytes = 16 * draw(5);
    chip.pages = 4u << draw(3);
    chip.blocks = 8u << draw(4);
    chip.luns = (uint8_t)(1 + draw(4));
    chip.plane_bits = (uint8_t)draw(3);
    chip.enhanced = draw(16) != 0;
    chip.multi_plane = draw(2) != 0;
    chip.cache = draw(2) != 0;
    return chip;
}

static struct onfiseq_item draw_item(uint32_t targets) {
    static const char kinds[] = "CCCCAAAAAAAAIIOORRYX";
    static const uint8_t bytes[] = {0x00, 0x30, 0x60, 0xd0, 0xd1, 0x70, 0x78, 0x80, 0x10, 0x11, 0x15, 0x05, 0xe0, 0x31, 0x3f, 0x90, 0xec, 0xff, 0x85};
    struct onfiseq_item item = {0, 0, 0, 0};
    item.ce = (uint8_t)draw(targets);
    item.kind = (uint8_t)kinds[draw(sizeof kinds - 1)];
    if (item.kind == 'C') item.byte = bytes[draw(sizeof bytes)];
    else if (item.kind == 'R' || item.kind == 'Y') item.byte = (uint8_t)draw(4);
    else item.byte = (uint8_t)(draw(4) ? 0 : draw(256));
    if (item.kind == 'R') item.fail = (uint8_t)draw(2);
    return item;
}

/* Items, and what onfiseq_push answers to each. */
static size_t draw_items(struct onfiseq_bus *bus, uint8_t targets, struct onfiseq_item *items, unsigned long *rules) {
    size_t count = draw(200);
    for (size_t k = 0; k < count; k++) {
        items[k] = draw_item(targets);
        for (int j = 0; j < 60 && draw(2000) && onfiseq_ask(bus, &items[k]) != 0; j++) items[k] = draw_item(targets);
        rules[k] = onfiseq_push(bus, &items[k]);
    }
    return count;
}

static uint64_t sum_of_looks(const struct onfiseq_bus *bus) {
    uint64_t sum = SUM_OF_NOTHING;
    for (unsigned at = 0; at < 25; at++) {
        struct onfiseq_look look = onfiseq_look_at(bus, (uint8_t)(at / 5), (uint8_t)(at % 5));
        sum_onfiseq_look(&sum, &look);
    }
    return sum;
}

/* The same items by onfiseq_push_status, and the state after them. */
static void print_statuses(const struct onfiseq_geometry *chip, uint8_t targets, const struct onfiseq_item *items, size_t count) {
    static unsigned long told[512];
    struct onfiseq_bus bus = {{0}};
    onfiseq_begin(&bus, chip, targets);
    for (size_t k = 0; k < count; k++) {
        size_t done = 0;
        told[2 * k] = onfiseq_push_status(&bus, &items[k], &done);
        told[2 * k + 1] = (unsigned long)done;
    }
    print_numbers("status", told, 2 * count);
    print_sum("status_looks", sum_of_looks(&bus));
}

/* The same items at once, and whole. */
static void print_whole(const struct onfiseq_geometry *chip, uint8_t targets, const struct onfiseq_item *items, size_t count) {
    struct onfiseq_bus bus = {{0}};
    struct onfiseq_answer answer = onfiseq_check(chip, targets, items, count);
    size_t done = 0;
    unsigned long told[5];
    told[0] = answer.letter, told[1] = answer.number, told[2] = (unsigned long)answer.at;
    onfiseq_begin(&bus, chip, targets);
    told[3] = onfiseq_push_all(&bus, items, count, &done);
    told[4] = (unsigned long)done;
    print_numbers("whole", told, 5);
    print_sum("whole_looks", sum_of_looks(&bus));
}

static void make_trace(void) {
    static struct onfiseq_item items[256];
    static unsigned long rules[256], asked[256];
    struct onfiseq_geometry chip = draw_chip();
    uint8_t targets = (uint8_t)(1 + draw(4));
    struct onfiseq_bus bus = {{0}};
    onfiseq_begin(&bus, &chip, targets);
    size_t count = draw_items(&bus, targets, items, rules);
    for (size_t k = 0; k < count; k++) asked[k] = onfiseq_ask(&bus, &items[k]);
    printf("{");
    print_chip(&chip, targets);
    print_items("items", items, count);
    print_numbers("push", rules, count);
    print_numbers("ask", asked, count);
    print_sum("looks", sum_of_looks(&bus));
    print_statuses(&chip, targets, items, count);
    print_whole(&chip, targets, items, count);
    printf("}\n");
}

/* ---- programs */

static char text[2048];
static uint8_t file[4112];
static size_t file_length;

static const char *draw_part(void) {
    static const char *const any[] = {
        "cmd 60\n", "addr 2 3\n", "cmd d0\n", "wait\n", "brs 01 a\n", "a:\n", "end 0\n", "end 1\n", "cmd 00\n", "addr 0 5\n", "cmd 30\n", "get 16\n", "put 9\n",
        "loop 4\n", "next\n", "rowadd 1\n", "col 512\n", "stat\n", "yield\n", "seek 0\n", "jmp a\n", "row 0\n", "plane 1\n", "cmd 70\n", "cmd ff\n", "bad\n",
    };
    static const char *const good[] = {
        "cmd 60\naddr 2 3\ncmd d0\nwait\n", "cmd 00\naddr 0 5\ncmd 30\nwait\ncmd 00\nget 16\nseek 0\n", "cmd 80\naddr 0 5\nput 16\ncmd 10\nwait\nseek 0\n", "stat\n",
        "yield\n", "wait\nbrs 01 a\n", "loop 2\ncmd 60\naddr 2 3\ncmd d0\nwait\nnext\n",
    };
    return draw(6) ? good[draw(sizeof good / sizeof *good)] : any[draw(sizeof any / sizeof *any)];
}

static void draw_text(void) {
    unsigned rows = 1 + draw(4), buffer, budget, parts;
    buffer = 16 * draw(3);
    budget = draw(4) ? 999 : draw(40);
    parts = draw(7);
    sprintf(text, "rows %u\nbuffer %u\nbudget %u\n", rows, buffer, budget);
    for (unsigned k = 0; k < parts; k++) strcat(text, draw_part());
    if (strstr(text, " a\n") && !strstr(text, "a:\n") && draw(8)) strcat(text, "a:\n");
    if (draw(8)) strcat(text, "end 0\n");
}

static void print_placed(const char *name, struct onfiseq_placed it) {
    unsigned long told[4];
    told[0] = it.letter, told[1] = it.number, told[2] = (unsigned long)it.at, told[3] = (unsigned long)it.length;
    print_numbers(name, told, 4);
}

static void print_verdict(const char *name, struct onfiseq_verdict it) {
    unsigned long told[3];
    told[0] = it.letter, told[1] = it.number, told[2] = (unsigned long)it.at;
    print_numbers(name, told, 3);
}

/* The words of a code, as a sum, and their length. */
static void print_words(uint8_t letter, uint32_t number) {
    char words[160] = {0};
    uint64_t sum = SUM_OF_NOTHING;
    size_t room = draw(160), length = onfiseq_words(ONFISEQ_CODE(letter, number), words, room);
    unsigned long told[4];
    told[0] = letter, told[1] = number, told[2] = (unsigned long)room, told[3] = (unsigned long)length;
    for (size_t k = 0; k < sizeof words; k++) sum_number(&sum, (uint8_t)words[k]);
    print_numbers("words", told, 4);
    print_sum("words_text", sum);
}

/* A text, and its word file where it has one; now and then with a bit changed. */
static bool make_file(void) {
    struct onfiseq_placed made;
    draw_text();
    made = onfiseq_assemble((const uint8_t *)text, strlen(text), file, sizeof file);
    printf("\"text\":\"");
    for (const char *it = text; *it; it++) *it == '\n' ? (void)printf("\\n") : (void)putchar(*it);
    printf("\"");
    print_placed("made", made);
    file_length = (size_t)made.length;
    if (made.letter != 0) return false;
    if (draw(8) == 0) file[draw((uint32_t)file_length)] ^= (uint8_t)(1u << draw(8));
    print_bytes("file", file, file_length);
    return true;
}

static void print_disassembly(void) {
    static uint8_t shown[65536];
    uint64_t sum = SUM_OF_NOTHING;
    struct onfiseq_placed placed = onfiseq_disassemble(file, file_length, shown, sizeof shown);
    for (size_t k = 0; k < placed.length; k++) sum_number(&sum, shown[k]);
    print_placed("shown", placed);
    print_sum("shown_text", sum);
}

static void make_program(void) {
    static struct onfiseq_item run[256];
    printf("{");
    if (make_file()) {
        struct onfiseq_run end;
        struct onfiseq_verdict verdict = onfiseq_verify_run(page, page_length, file, file_length, 1000, run, sizeof run / sizeof *run, &end);
        unsigned long told[] = {(unsigned long)end.count, (unsigned long)end.at, end.number, end.forbidden};
        print_disassembly();
        print_verdict("verdict", onfiseq_verify(page, page_length, file, file_length));
        print_verdict("verdict_run", verdict);
        print_numbers("run_end", told, 4);
        print_items("run", run, end.count < sizeof run / sizeof *run ? (size_t)end.count : sizeof run / sizeof *run);
        if (verdict.letter) print_words(verdict.letter, verdict.number);
    }
    printf("}\n");
}

/* ---- jobs on pins whose chips answer anything */

enum { JOBS = 3 };

struct work {
    struct onfiseq_job job;
    uint8_t file[4112];
    size_t length;
};

static struct work works[JOBS];
static struct onfiseq_live live;

static void begin_work(struct work *it, unsigned k) {
    struct onfiseq_step begun;
    unsigned long told[5];
    size_t buffer;
    char name[16];
    printf(",\"program%u\":{", k);
    it->length = make_file() ? file_length : 0;
    printf("}");
    memcpy(it->file, file, it->length);
    memset(&it->job, 0, sizeof it->job);
    buffer = it->length > 10 ? file[8] | (size_t)file[9] << 8 : 0;
    told[0] = draw(2), told[1] = draw(2), told[2] = draw(8);
    begun = onfiseq_job_begin(&live, (uint8_t)told[0], (uint8_t)told[1], (uint32_t)told[2], it->file, it->length, buffer, &it->job);
    told[3] = begun.letter, told[4] = begun.number;
    sprintf(name, "begun%u", k);
    print_numbers(name, told, 5);
}

/* A step of a job: what is to be done, random bytes for what its outputs take, and what came of it. */
static void print_step(struct work *it, unsigned which, uint64_t *sum) {
    static uint8_t taken[4096];
    struct onfiseq_turn turn = onfiseq_job_next(&live, &it->job, it->file, it->length);
    struct onfiseq_step step;
    size_t count = (size_t)turn.taken < sizeof taken ? (size_t)turn.taken : sizeof taken;
    if (draw(50) == 0) count = draw(9);
    for (size_t k = 0; k < count; k++) taken[k] = (uint8_t)(draw(3) ? 0xe0 | draw(2) : draw(256));
    step = onfiseq_job_finish(&live, &it->job, it->file, it->length, taken, count);
    sum_onfiseq_turn(sum, &turn);
    sum_onfiseq_step(sum, &step);
    sum_onfiseq_job(sum, &it->job);
    printf(",[%u,\"", which);
    for (size_t k = 0; k < count; k++) printf("%02x", taken[k]);
    printf("\",%u,%lu,%u,%lu]", turn.letter, (unsigned long)turn.number, step.letter, (unsigned long)step.number);
}

static void print_ready(uint64_t *sum) {
    uint8_t ce = (uint8_t)draw(3), lun = (uint8_t)draw(3), failed = (uint8_t)draw(2), of_array = (uint8_t)draw(2);
    uint32_t rule = of_array ? onfiseq_live_array_ready(&live, ce, lun, failed != 0) : onfiseq_live_ready(&live, ce, lun, failed);
    sum_number(sum, rule);
    printf(",[9,%u,%u,%u,%u,%lu]", ce, lun, failed, of_array, (unsigned long)rule);
}

static void make_jobs(void) {
    struct onfiseq_geometry chip = draw_chip();
    uint64_t sum = SUM_OF_NOTHING;
    uint8_t targets = (uint8_t)(1 + draw(2));
    unsigned steps = draw(60);
    onfiseq_live_begin(&live, &chip, targets);
    printf("{\"live\":1,");
    print_chip(&chip, targets);
    for (unsigned k = 0; k < JOBS; k++) begin_work(&works[k], k);
    printf(",\"steps\":[[]");
    for (unsigned k = 0; k < steps; k++) {
        unsigned which = draw(JOBS);
        if (draw(8) == 0) print_ready(&sum);
        else print_step(&works[which], which, &sum);
    }
    printf("]");
    print_sum("answers", sum);
    printf("}\n");
}

/* ---- what the libraries say of themselves */

static void print_samples(void) {
    uint64_t sum = SUM_OF_NOTHING;
    struct onfiseq_abi abi = onfiseq_sizes();
    struct onfiseq_live_abi live_abi = onfiseq_live_sizes();
    struct onfiseq_live_sample live_sample = onfiseq_live_make_sample();
    struct onfiseq_page declared = onfiseq_read_page(page, page_length);
    sum_onfiseq_abi(&sum, &abi);
    sum_onfiseq_live_abi(&sum, &live_abi);
    sum_onfiseq_live_sample(&sum, &live_sample);
    sum_onfiseq_page(&sum, &declared);
    for (unsigned bit = 0; bit < 32; bit++) {
        struct onfiseq_sample sample = onfiseq_make_sample((uint32_t)1 << bit);
        sum_onfiseq_sample(&sum, &sample);
    }
    printf("{\"samples\":1");
    print_sum("sum", sum);
    printf("}\n");
}

static unsigned long number_of(int count, char **words, int at) { return count > at ? strtoul(words[at], NULL, 10) : 0; }

int main(int count, char **words) {
    FILE *it = fopen(count > 5 ? words[5] : "", "rb");
    if (!it) return 2;
    page_length = fread(page, 1, sizeof page, it);
    fclose(it);
    seed = number_of(count, words, 4);
    print_samples();
    for (unsigned long k = number_of(count, words, 1); k > 0; k--) make_trace();
    for (unsigned long k = number_of(count, words, 2); k > 0; k--) make_program();
    for (unsigned long k = number_of(count, words, 3); k > 0; k--) make_jobs();
    return 0;
}

/* Memory that is refused, over release/onfiseq.c: linked by --wrap=calloc and --wrap=realloc.
 *
 *     refused each                   each call, where no memory is given at all, and after that where there is; where what it is given is too large
 *     refused turn PAGE TEXT TRACE   no memory from the first request of a call on, from the second on, and so forth: it answers 'O', or what it answers otherwise
 *     refused limit KILOBYTES        a trace of 4,000,000 items, with so much of addresses for the process
 *
 * With ONFISEQ_MEMORY the memory is lent, or isn't, and there is `each` alone. refused_calls.h, which refused.py writes, has a function for each call. */
#define _GNU_SOURCE
#include "onfiseq.h"

#include <stdio.h>
#include <stdlib.h>
#include <string.h>
#include <sys/mman.h>
#include <sys/resource.h>
#include <sys/wait.h>
#include <unistd.h>

enum { LARGE = 4000000, SMALL = 2, MOST = 1 << 20 };

void *__real_calloc(size_t count, size_t size);
void *__real_realloc(void *old, size_t size);
void *__wrap_calloc(size_t count, size_t size);
void *__wrap_realloc(void *old, size_t size);

static size_t most = (size_t)-1; /* a request for more is refused */
static long left = 1000000;      /* and so is each behind so many */

static bool is_refused(size_t size) { return size > most || left-- <= 0; }
void *__wrap_calloc(size_t count, size_t size) { return is_refused(count * size) ? NULL : __real_calloc(count, size); }
void *__wrap_realloc(void *old, size_t size) { return is_refused(size) ? NULL : __real_realloc(old, size); }

static uint8_t *large, *large_before;

#ifdef ONFISEQ_MEMORY
static uint64_t lent[(ONFISEQ_MEMORY) / 8];
void *lend_room(void);
void *lend_room(void) { return most == 0 ? NULL : lent; }
#endif

#include "refused_calls.h"

/* A call in a process of its own, which has no memory yet: what is wrong, by the status. */
static bool passes(const struct one *it) {
    static const char *const wrong[] = {"it aborts", "it isn't refused", "it is refused with memory", "it isn't refused where it is given too much"};
    int status;
    pid_t child = fork();
    if (child == 0) {
        most = 0;
        if (!it->call(SMALL)) _exit(1);
        most = (size_t)-1;
        if (it->call(SMALL) && it->is_told_apart) _exit(2);
        most = MOST;
        _exit(it->has_slice && !it->call(LARGE) ? 3 : 0);
    }
    if (waitpid(child, &status, 0) == child && WIFEXITED(status) && WEXITSTATUS(status) == 0) return true;
    printf("%s: %s\n", it->name, wrong[WIFEXITED(status) ? WEXITSTATUS(status) % 4 : 0]);
    return false;
}

static int try_each(void) {
    bool is_right = true;
    large = __real_calloc(LARGE, 16), large_before = __real_calloc(LARGE, 16);
    for (size_t k = 0; k < sizeof each / sizeof *each; k++) is_right &= passes(&each[k]);
    if (is_right) printf("%zu calls are refused\n", sizeof each / sizeof *each);
    return !is_right;
}

#ifndef ONFISEQ_MEMORY
static uint8_t page[4096], text[65536], trace[65536], room[65536], *file;
static size_t page_length, file_length, text_length, trace_length;
static struct onfiseq_item items[4096];

static size_t read_all(const char *path, uint8_t *bytes, size_t length) {
    FILE *it = fopen(path, "rb");
    size_t count = it ? fread(bytes, 1, length, it) : 0;
    if (it) fclose(it);
    return count;
}

/* The answer of a call as a number: its letter, and a sum of what it answers otherwise. */
static uint32_t verify(void) {
    struct onfiseq_verdict it = onfiseq_verify(page, page_length, file, file_length);
    return (uint32_t)it.letter << 24 | it.number << 16 | (uint16_t)it.at;
}
static uint32_t verify_run(void) {
    struct onfiseq_run run;
    struct onfiseq_verdict it = onfiseq_verify_run(page, page_length, file, file_length, 1000, items, 4096, &run);
    return (uint32_t)it.letter << 24 | it.number << 16 | (uint16_t)it.at;
}
static uint32_t placed(struct onfiseq_placed it) { return (uint32_t)it.letter << 24 | it.number << 16 | (uint16_t)(it.at + it.length); }
static uint32_t assemble(void) { return placed(onfiseq_assemble(text, text_length, room, sizeof room)); }
static uint32_t disassemble(void) { return placed(onfiseq_disassemble(file, file_length, room, sizeof room)); }
static uint32_t read_trace(void) { return placed(onfiseq_trace(trace, trace_length, 0, items, 4096)); }

/* The words of the text, by a process of its own, so that this one has no memory yet. */
static bool make_file(void) {
    int status;
    pid_t child;
    file = mmap(NULL, 65536, PROT_READ | PROT_WRITE, MAP_SHARED | MAP_ANONYMOUS, -1, 0);
    child = file == MAP_FAILED ? -1 : fork();
    if (child == 0) _exit((int)onfiseq_assemble(text, text_length, file, 65536).length / 4);
    if (child < 0 || waitpid(child, &status, 0) != child || !WIFEXITED(status)) return false;
    file_length = (size_t)WEXITSTATUS(status) * 4;
    return file_length != 0;
}

/* No memory from the first request of a call on, from the second on, and so forth, each in a process of its own, up to a call that needs no more: how many
 * of them answered 'O', or -1 where one aborts or answers otherwise. */
static int refuse_in_turn(uint32_t (*call)(void)) {
    for (int turn = 0, refused = 0;; turn++) {
        int status;
        pid_t child = fork();
        if (child == 0) {
            uint32_t answer;
            bool is_enough;
            left = turn;
            answer = call();
            is_enough = left >= 0;
            left = 1000000;
            _exit(is_enough ? 2 : answer >> 24 == 'O' ? 0 : answer == call() ? 3 : 1);
        }
        if (waitpid(child, &status, 0) != child || !WIFEXITED(status) || WEXITSTATUS(status) == 1) return -1;
        if (WEXITSTATUS(status) == 2) return refused;
        refused += WEXITSTATUS(status) == 0;
    }
}

static int try_turns(char **words) {
    static const struct {
        const char *name;
        uint32_t (*call)(void);
    } calls[] = {{"verify", verify}, {"verify_run", verify_run}, {"assemble", assemble}, {"disassemble", disassemble}, {"trace", read_trace}};
    bool is_right = true;
    page_length = read_all(words[0], page, sizeof page), text_length = read_all(words[1], text, sizeof text);
    trace_length = read_all(words[2], trace, sizeof trace);
    if (!make_file()) return 2;
    for (size_t k = 0; k < sizeof calls / sizeof *calls; k++) {
        int count = refuse_in_turn(calls[k].call);
        printf(count > 0 ? "%s: answered O %d times\n" : "%s: it goes wrong\n", calls[k].name, count);
        is_right &= count > 0;
    }
    return !is_right;
}

/* The trace is legal, or there is no memory for it. */
static int try_limit(const char *kilobytes) {
    struct onfiseq_geometry chip = {2048, 64, 64, 1024, 1, 0, 0, 0, 0, 0};
    struct rlimit limit;
    struct onfiseq_answer answer;
    struct onfiseq_item *many;
    limit.rlim_cur = limit.rlim_max = strtoul(kilobytes, NULL, 10) * 1024;
    if (setrlimit(RLIMIT_AS, &limit) != 0) return 2;
    many = __real_calloc(LARGE, sizeof *many);
    if (many == NULL) return 2;
    for (size_t k = 0; k < LARGE; k++) many[k].kind = 'C', many[k].byte = 0x70;
    answer = onfiseq_check(&chip, 1, many, LARGE);
    printf("%c\n", answer.letter ? answer.letter : '0');
    return answer.letter == 'O' || (answer.letter == 0 && answer.at == LARGE) ? 0 : 1;
}

#endif

int main(int count, char **words) {
    if (count == 2 && strcmp(words[1], "each") == 0) return try_each();
#ifndef ONFISEQ_MEMORY
    if (count == 5 && strcmp(words[1], "turn") == 0) return try_turns(words + 2);
    if (count == 3 && strcmp(words[1], "limit") == 0) return try_limit(words[2]);
#endif
    return 2;
}

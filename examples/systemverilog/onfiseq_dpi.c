/* What onfiseq_pkg.sv imports, and ../icarus/onfiseq_vpi.c calls: the calls of onfiseq.h that a test bench needs, over a handle and plain numbers, as DPI has them.
 * The second half is a monitor of a channel, which goes on after a fault. */
#include "onfiseq.h"
#include <stdio.h>
#include <stdlib.h>
#include <string.h>

#ifdef __cplusplus
extern "C" {
#endif
void *onfiseq_dpi_open(const char *page_path, int targets, int profile);
int onfiseq_dpi_push(void *channel, int ce, int kind, int byte, int fail);
int onfiseq_dpi_push_status(void *channel, int ce, int kind, int byte, int fail);
int onfiseq_dpi_ask(void *channel, int ce, int kind, int byte, int fail);
int onfiseq_dpi_drop(void *channel, int ce);
int onfiseq_dpi_begin_target(void *channel, int ce);
int onfiseq_dpi_is_busy(void *channel, int ce, int lun);
int onfiseq_dpi_watch(void *channel, int luns, int ready_pins, int lag, const uint32_t *passes);
int onfiseq_dpi_see(void *channel, int enabled, int kind, int bits, long long time);
int onfiseq_dpi_judge(void *channel);
int onfiseq_dpi_take(void *channel);
const char *onfiseq_dpi_text(void *channel);
const char *onfiseq_dpi_words(int code);
void onfiseq_dpi_close(void *channel);
#ifdef __cplusplus
}
#endif

enum { MOST_TARGETS = 4, MOST_LAG = 64, MOST_CYCLES = MOST_LAG + MOST_TARGETS };
enum { UNCLEAR = 'U', CLASH = 'B' };    /* kinds of what isn't a cycle: latches that don't say which, and an output of several chips */
enum { TWO_CHIPS = 2, LATCHES = 3 };    /* what is told of these */
enum { DATA, STATUS, STATUS_ENHANCED }; /* what an output gives */
enum { IS_READY = 0x40, IS_ARRAY_READY = 0x20 };

/* What a target saw: bits has the byte, and above it a bit for each of its bits that is x or z. */
struct cycle {
    long long time;
    uint16_t bits;
    uint8_t ce, kind;
};

struct target {
    bool passes;       /* what comes is passed over, up to the next command that begins something */
    bool works;        /* a LUN may work */
    uint8_t last;      /* the last command that was permitted */
    uint8_t shows;     /* what its outputs give, as far as the commands tell */
    uint8_t resetting; /* a bit for each LUN that a reset of the whole target set to work */
};

struct channel {
    struct onfiseq_bus bus;
    int targets, luns, ready_pins, lag;
    bool has_arrays;     /* an array may work on after its LUN is ready */
    uint32_t foreign[8]; /* a bit for each command whose sequences are no fault */
    struct target of[MOST_TARGETS];
    struct cycle waiting[MOST_CYCLES];
    int count; /* how many wait to be judged */
    struct {
        struct cycle at;
        int code;
    } told[MOST_CYCLES];
    int tells, taken; /* how many faults there are, and how many of them were taken */
};

/* A channel of so many targets of the chip whose parameter page stands in a file, with the optional commands that the page declares where the profile is 1; null where
 * there is none such. */
void *onfiseq_dpi_open(const char *page_path, int targets, int profile) {
    uint8_t page[4096];
    FILE *file = fopen(page_path, "rb");
    size_t length = file ? fread(page, 1, sizeof page, file) : 0;
    if (file) fclose(file);
    struct onfiseq_page read = onfiseq_read_page_as(page, length, profile != 0);
    struct channel *it = (struct channel *)calloc(1, sizeof *it);
    if (it == NULL) return NULL;
    it->targets = targets;
    it->luns = read.geometry.luns;
    it->has_arrays = read.geometry.cache || read.geometry.optional != 0;
    if (targets == (uint8_t)targets && onfiseq_begin(&it->bus, &read.geometry, (uint8_t)targets) == 0) return it;
    free(it);
    return NULL;
}

static struct onfiseq_item item_of(int ce, int kind, int byte, int fail) {
    struct onfiseq_item item = {(uint8_t)ce, (uint8_t)kind, (uint8_t)byte, (uint8_t)fail};
    return item;
}

int onfiseq_dpi_push(void *channel, int ce, int kind, int byte, int fail) {
    struct onfiseq_item item = item_of(ce, kind, byte, fail);
    return (int)onfiseq_push(&((struct channel *)channel)->bus, &item);
}

int onfiseq_dpi_push_status(void *channel, int ce, int kind, int byte, int fail) {
    struct onfiseq_item item = item_of(ce, kind, byte, fail);
    size_t done;
    return (int)onfiseq_push_status(&((struct channel *)channel)->bus, &item, &done);
}

int onfiseq_dpi_ask(void *channel, int ce, int kind, int byte, int fail) {
    struct onfiseq_item item = item_of(ce, kind, byte, fail);
    return (int)onfiseq_ask(&((struct channel *)channel)->bus, &item);
}

int onfiseq_dpi_drop(void *channel, int ce) { return (int)onfiseq_drop(&((struct channel *)channel)->bus, (uint8_t)ce); }

int onfiseq_dpi_begin_target(void *channel, int ce) { return (int)onfiseq_begin_target(&((struct channel *)channel)->bus, (uint8_t)ce); }

int onfiseq_dpi_is_busy(void *channel, int ce, int lun) { return onfiseq_look_at(&((struct channel *)channel)->bus, (uint8_t)ce, (uint8_t)lun).busy; }

const char *onfiseq_dpi_words(int code) {
    static char text[160];
    onfiseq_words((uint32_t)code, text, sizeof text);
    return text;
}

void onfiseq_dpi_close(void *channel) { free(channel); }

/* ---- a monitor */

/* What a monitor knows of its channel: how many LUNs a target has, 0 for as many as the page says; how many pins show readies, one for each target, one for all, or none;
 * and how many cycles may wait until they are judged. 1 where there is no such channel. */
int onfiseq_dpi_watch(void *channel, int luns, int ready_pins, int lag, const uint32_t *passes) {
    struct channel *it = (struct channel *)channel;
    if (luns != 0) it->luns = luns;
    it->ready_pins = ready_pins;
    it->lag = lag;
    memcpy(it->foreign, passes, sizeof it->foreign);
    return lag < 0 || lag > MOST_LAG || luns < 0 || luns > 4 || (ready_pins != 0 && ready_pins != 1 && ready_pins != it->targets);
}

static bool is_foreign(const struct channel *it, int command) { return (it->foreign[command >> 5] >> (command & 31) & 1) != 0; }

/* Whether a sequence of the target is open: a reset may not come there. */
static bool is_open(struct channel *it, int ce) { return onfiseq_dpi_ask(it, ce, 'C', 0xff, 0) == ONFISEQ_SEQUENCE_OPEN; }

static bool is_known(const struct cycle *at) { return at->bits < 0x100; }

/* What a command tells of the target's outputs. */
static int shown_after(int command, int before) {
    switch (command) {
    case 0x70: return STATUS;
    case 0x78: return STATUS_ENHANCED;
    case 0x00: case 0x30: case 0x31: case 0x3f: case 0x90: case 0xe0: case 0xec: case 0xed: case 0xee: return DATA;
    default: return before;
    }
}

/* A cycle was permitted. */
static void note(struct channel *it, const struct cycle *at) {
    struct target *of = &it->of[at->ce];
    int command = at->bits & 0xff;
    if (at->kind == 'O') return;
    if (at->kind == 'R') {
        of->works = it->has_arrays;
        return;
    }
    if (at->kind != 'C') {
        of->works |= of->last != 0x78;
        return;
    }
    of->last = (uint8_t)command;
    of->shows = (uint8_t)shown_after(command, of->shows);
    if (command != 0x70 && command != 0x78) of->works = true;
    if (command == 0xff || command == 0xfc) of->resetting = (uint8_t)((1 << it->luns) - 1);
}

/* A LUN becomes ready, where it works. */
static void make_ready(struct channel *it, int ce, int lun) {
    onfiseq_dpi_push(it, ce, 'R', lun, 0);
    it->of[ce].resetting &= (uint8_t)~(1 << lun);
}

/* The edge of R/B#: each LUN behind the pin is ready. The edge after power-on, while none works, is no ready. */
static void see_ready(struct channel *it, int pin) {
    for (int ce = 0; ce < it->targets; ce++) {
        if (!it->of[ce].works || (it->ready_pins != 1 && ce != pin)) continue;
        for (int lun = 0; lun < it->luns; lun++) make_ready(it, ce, lun);
        it->of[ce].works = it->has_arrays;
    }
}

/* A status output: the LUN that shows it becomes ready where it says so, and of a 70h each other that a reset of the whole target set to work. */
static int push_status(struct channel *it, const struct cycle *at) {
    struct target *of = &it->of[at->ce];
    int shown = at->bits & (IS_READY | IS_ARRAY_READY);
    if ((shown & IS_READY) && of->shows == STATUS)
        for (int lun = 0; lun < it->luns; lun++)
            if (of->resetting >> lun & 1) make_ready(it, at->ce, lun);
    if (shown == (IS_READY | IS_ARRAY_READY) && it->luns == 1) of->works = false;
    return onfiseq_dpi_push_status(it, at->ce, 'O', at->bits & 0xff, 0);
}

/* Whether what comes changes nothing of the one LUN: it doesn't work and is ready, or gives its status, which shows no ready, or none of a LUN that works. */
static bool changes_nothing(const struct channel *it, const struct cycle *at) {
    const struct target *of = &it->of[at->ce];
    if (at->kind == 'R') return it->targets == 1 && it->luns == 1 && !of->works;
    return at->kind == 'O' && it->luns == 1 && of->last == 0x70 && !of->passes && (!of->works || !(at->bits & (IS_READY | IS_ARRAY_READY)));
}

/* Whether what a target saw is judged with others in one call; a bit of data that is x or z looks like 0, as no rule looks at it. */
static bool is_plain(const struct channel *it, const struct cycle *at) {
    const struct target *of = &it->of[at->ce];
    if (at->kind == 'R') return it->targets == 1 && it->luns == 1;
    if (of->passes || at->kind == UNCLEAR || at->kind == CLASH) return false;
    if (at->kind == 'O') return of->shows == DATA;
    return at->kind == 'I' || is_known(at);
}

static void tell(struct channel *it, const struct cycle *at, int code) {
    it->told[it->tells].at = *at;
    it->told[it->tells++].code = code;
}

/* After a cycle that isn't permitted: the target's open sequence is forgotten, and what comes is passed over up to the next command that begins something. A command
 * that came in the midst of a sequence may be that one. */
static void go_on(struct channel *it, const struct cycle *at) {
    bool is_command = at->kind == 'C' && is_known(at);
    onfiseq_dpi_drop(it, at->ce);
    it->of[at->ce].passes = !is_command || onfiseq_dpi_push(it, at->ce, 'C', at->bits, 0) != 0;
    if (!it->of[at->ce].passes) note(it, at);
}

/* What is told of a cycle that the channel doesn't permit: its code, or -1 where it begins a sequence that is no fault. Such are those of an unknown command between
 * sequences, and of 90h and ECh at an address that isn't known. */
static int code_of(struct channel *it, const struct cycle *at, int code) {
    int last = it->of[at->ce].last;
    if (at->kind == 'A' && code == ONFISEQ_ADDRESS_MISPLACED && (last == 0x90 || last == 0xec) && is_foreign(it, last)) return -1;
    if (at->kind != 'C' || code != ONFISEQ_COMMAND_UNKNOWN || !is_foreign(it, at->bits)) return code;
    return is_open(it, at->ce) ? ONFISEQ_SEQUENCE_OPEN : -1;
}

static void refuse(struct channel *it, const struct cycle *at, int code) {
    if (at->kind == 'R') return;
    tell(it, at, code_of(it, at, code));
    go_on(it, at);
}

/* A cycle while the target passes over what comes: a command that ends the sequence which is passed over is no fault. */
static void see_passing(struct channel *it, const struct cycle *at) {
    int code = is_known(at) ? onfiseq_dpi_push(it, at->ce, 'C', at->bits, 0) : ONFISEQ_NO_ITEM;
    if (code == 0) {
        it->of[at->ce].passes = false;
        note(it, at);
    } else if (code != ONFISEQ_COMMAND_MISPLACED) {
        refuse(it, at, code);
    }
}

/* Whether an output of several chips was told of another of them. */
static bool is_told(const struct channel *it, const struct cycle *at) {
    return it->tells != 0 && it->told[it->tells - 1].code == TWO_CHIPS && it->told[it->tells - 1].at.time == at->time;
}

/* What isn't judged with others. */
static void see_alone(struct channel *it, const struct cycle *at) {
    bool passes = it->of[at->ce].passes;
    if (at->kind == 'R') {
        see_ready(it, at->bits);
    } else if (at->kind == UNCLEAR || at->kind == CLASH) {
        if (at->kind == UNCLEAR || (!passes && !is_told(it, at))) tell(it, at, at->kind == UNCLEAR ? LATCHES : TWO_CHIPS);
        go_on(it, at);
    } else if (passes) {
        if (at->kind == 'C') see_passing(it, at);
    } else {
        int code = at->kind == 'O' ? push_status(it, at) : ONFISEQ_NO_ITEM;
        if (code != 0) refuse(it, at, code);
    }
}

/* Judges those that wait from number `from` on, up to the first that isn't plain: how many were permitted. */
static int judge_plain(struct channel *it, int from, int *code) {
    struct onfiseq_item items[MOST_CYCLES];
    struct target before[MOST_TARGETS];
    int places[MOST_CYCLES + 1], count = 0, k;
    size_t done = 0;
    memcpy(before, it->of, sizeof before);
    for (k = from; k < it->count; k++) {
        const struct cycle *at = &it->waiting[k];
        if (changes_nothing(it, at)) continue;
        if (!is_plain(it, at)) break;
        places[count] = k;
        items[count++] = item_of(at->ce, at->kind, is_known(at) ? at->bits : 0, 0);
        note(it, at);
    }
    places[count] = k;
    *code = count == 0 ? 0 : count == 1 ? (int)onfiseq_push(&it->bus, items) : (int)onfiseq_push_all(&it->bus, items, (size_t)count, &done);
    if (*code == 0) return k - from;
    memcpy(it->of, before, sizeof before); /* of what comes behind the refused one nothing is known yet */
    for (k = from; k < places[done]; k++) note(it, &it->waiting[k]);
    return k - from;
}

/* Judges all that waits: how many faults are to be taken. */
int onfiseq_dpi_judge(void *channel) {
    struct channel *it = (struct channel *)channel;
    it->tells = it->taken = 0;
    for (int k = 0; k < it->count; k++) {
        int code;
        k += judge_plain(it, k, &code);
        if (code != 0) refuse(it, &it->waiting[k], code);
        else if (k < it->count) see_alone(it, &it->waiting[k]);
    }
    it->count = 0;
    return it->tells;
}

static void wait_for(struct channel *it, int ce, int kind, int bits, long long time) {
    struct cycle at = {time, (uint16_t)bits, (uint8_t)ce, (uint8_t)kind};
    it->waiting[it->count++] = at;
}

/* What comes on the channel: a cycle of the targets of `enabled`, a bit for each; UNCLEAR with the bits of CLE and ALE; or 'R' with the number of a pin. How many
 * faults are to be taken. */
int onfiseq_dpi_see(void *channel, int enabled, int kind, int bits, long long time) {
    struct channel *it = (struct channel *)channel;
    bool clashes = kind == 'O' && (enabled & (enabled - 1)) != 0;
    if (kind == 'R') wait_for(it, 0, kind, bits, time);
    for (int ce = 0; kind != 'R' && ce < it->targets; ce++)
        if (enabled >> ce & 1) wait_for(it, ce, clashes ? CLASH : kind, bits, time);
    return it->count > it->lag ? onfiseq_dpi_judge(channel) : 0;
}

/* The next fault: its code; -1 where a sequence of `passes` begins; 0 where there is none. */
int onfiseq_dpi_take(void *channel) {
    struct channel *it = (struct channel *)channel;
    return it->taken < it->tells ? it->told[it->taken++].code : 0;
}

/* The bits of a byte, or of the two latches. */
static const char *bits_text(int bits, int count) {
    static char text[9];
    for (int k = 0; k < count; k++) text[k] = bits >> (count - 1 - k + 8) & 1 ? 'x' : bits >> (count - 1 - k) & 1 ? '1' : '0';
    text[count] = 0;
    return text;
}

/* What is told of the fault that was taken last. */
const char *onfiseq_dpi_text(void *channel) {
    static char text[240];
    struct channel *it = (struct channel *)channel;
    const struct cycle *at = &it->told[it->taken - 1].at;
    int code = it->told[it->taken - 1].code, length = snprintf(text, sizeof text, "%lld: target %d: ", at->time, at->ce);
    char *rest = text + length;
    size_t room = sizeof text - (size_t)length;
    if (code == LATCHES) snprintf(rest, room, "CLE and ALE are %s", bits_text(at->bits, 2));
    else if (code == TWO_CHIPS) snprintf(rest, room, "O: other chips are enabled too");
    else if (!is_known(at)) snprintf(rest, room, "%c %s: a bit is x or z", at->kind, bits_text(at->bits, 8));
    else snprintf(rest, room, "%c %02x: %s (%c%d)", at->kind, at->bits, onfiseq_dpi_words(code), code >> 8, code & 0xff);
    return text;
}

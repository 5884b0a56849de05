/* Random calls of everything in onfiseq.h, for AddressSanitizer, with what one call must say of another:
 *  - ask says what push then answers, push_all does as many pushes, push_status the readies and then the item, and check judges a channel's items as
 *    the pushes did;
 *  - verify_run has verify's verdict, its run is legal but for a last item that it calls forbidden, and a short buffer has its beginning;
 *  - a refused item leaves the state as it was, byte for byte; a text that was assembled is disassembled and assembled to the same file;
 *  - an operation is answered as its cycles are one by one, and all of it happens or none;
 *  - a record of which bytes were changed, or that holds any bytes, is answered by every call, and stays as it was where it is refused;
 *  - the cycles of each burst that the sequencer tells are permitted, one after another, as push judges them on a copy of its channel; a step that isn't
 *    finished leaves both records as they were; and a program that verify accepts breaks no rule and ends.
 *
 *     fuzz CALLS SEED chip.page            calls of all kinds
 *     fuzz RECORDS SEED chip.page damaged  so many damaged records, each given to some calls */
#include "onfiseq.h"
#include <stdio.h>
#include <stdlib.h>
#include <string.h>

enum { HISTORY = 512 };

static uint64_t seed;
static uint8_t page[4096];
static size_t page_length;
static unsigned long permitted, refused, accepted, runs, steps, ends, taken_records, damaged_records;

static uint32_t draw(uint32_t below) {
    seed = seed * 6364136223846793005u + 1442695040888963407u;
    return (uint32_t)(seed >> 33) % below;
}

static void must(int holds, const char *what) {
    if (!holds) printf("wrong: %s\n", what), exit(1);
}

static struct onfiseq_geometry random_chip(void) {
    struct onfiseq_geometry chip = {512u << draw(3), 16 * draw(5), 4 << draw(3), 8 << draw(4), (uint8_t)(1 + draw(4)), (uint8_t)draw(3), draw(16) != 0, draw(2), draw(2), (uint16_t)(draw(2) ? draw(65536) : 0)};
    if (draw(32) == 0) chip.luns = (uint8_t)draw(256);
    if (draw(32) == 0) chip.pages = draw(0xffffffff);
    return chip;
}

static struct onfiseq_item random_item(uint32_t targets) {
    static const char kinds[] = "CCCCAAAAAAAAIIOORRYX";
    static const uint8_t bytes[] = {0x00, 0x30, 0x60, 0xd0, 0xd1, 0x70, 0x78, 0x80, 0x10, 0x11, 0x15, 0x05, 0xe0, 0x31, 0x3f, 0x90, 0xec, 0xff, 0x85};
    struct onfiseq_item item = {(uint8_t)(draw(16) ? draw(targets ? targets : 1) : draw(256)), (uint8_t)kinds[draw(sizeof kinds - 1)], 0, 0};
    if (item.kind == 'C') item.byte = bytes[draw(sizeof bytes)];
    else if (item.kind == 'R' || item.kind == 'Y') item.byte = (uint8_t)(draw(8) ? draw(4) : draw(256));
    else item.byte = (uint8_t)(draw(4) ? 0 : draw(draw(8) ? 16 : 256));
    if (item.kind == 'R' || item.kind == 'Y' || draw(32) == 0) item.fail = (uint8_t)draw(draw(8) ? 4 : 256);
    return item;
}

/* One that is permitted, as far as a few draws find one; now and then any. */
static struct onfiseq_item likely_item(const struct onfiseq_bus *bus) {
    struct onfiseq_item item = random_item(4);
    for (int k = 0; k < 300 && draw(1000) && onfiseq_ask(bus, &item) != 0; k++) item = random_item(4);
    return item;
}

/* A look at every LUN that there may be. */
static void look_around(const struct onfiseq_bus *bus) {
    struct onfiseq_look look = onfiseq_look_at(bus, (uint8_t)draw(6), (uint8_t)draw(6));
    must(look.queued <= 4 && look.latch <= 2 && look.register_ <= 7, "a look");
    must(look.is_there || (!look.busy && look.queued == 0), "a look at nothing");
}

/* What push_status is to push: the readies that the byte shows of the one LUN that drives the bus, where it gives its status, and the item. */
static size_t complete(const struct onfiseq_bus *bus, struct onfiseq_item item, struct onfiseq_item *some) {
    struct onfiseq_look look = {0};
    size_t count = 0;
    uint8_t lun = 0;
    int drivers = 0;
    for (uint8_t k = 0; k < 4; k++)
        if (onfiseq_look_at(bus, item.ce, k).latch) drivers++, lun = k, look = onfiseq_look_at(bus, item.ce, k);
    if (drivers == 1 && look.latch == 1 && item.kind == 'O' && item.fail == 0 && (item.byte & 0x40)) {
        if (look.busy) some[count++] = (struct onfiseq_item){item.ce, 'R', lun, item.byte & 1};
        if ((look.array_busy || (look.busy && look.caching)) && (item.byte & 0x20)) some[count++] = (struct onfiseq_item){item.ce, 'Y', lun, 0};
    }
    some[count] = item;
    return count + 1;
}

/* A status output, or another item, on a bus whose R/B# isn't seen. */
static size_t play_status(struct onfiseq_bus *bus, struct onfiseq_item *kept) {
    struct onfiseq_bus copy = *bus;
    struct onfiseq_item some[3], item = likely_item(bus);
    size_t done = 99, other = 98;
    if (draw(4)) item.kind = 'O', item.fail = 0, item.byte = (uint8_t)(draw(4) << 5 | draw(2));
    size_t count = complete(bus, item, some);
    uint32_t answer = onfiseq_push_status(bus, &item, &done);
    must(answer == onfiseq_push_all(&copy, some, count, &other) && done == other, "push_status and push_all differ");
    must(memcmp(&copy, bus, sizeof copy) == 0, "push_status left another state");
    must(answer || count == 1 || !onfiseq_look_at(bus, item.ce, some[0].byte).busy, "a LUN that showed that it is ready is busy");
    memcpy(kept, some, done * sizeof *some);
    return done;
}

/* An operation of random parts. */
static size_t random_op(struct onfiseq_part *parts) {
    static const char kinds[] = "CCCAAAIOWX";
    static const uint8_t bytes[] = {0x00, 0x30, 0x60, 0xd0, 0x70, 0x80, 0x10, 0x05, 0xe0, 0x85};
    size_t count = draw(6);
    for (size_t k = 0; k < count; k++) {
        memset(&parts[k], 0, sizeof parts[k]);
        parts[k].kind = (uint8_t)kinds[draw(sizeof kinds - 1)];
        parts[k].count = parts[k].kind == 'C' ? 1 : parts[k].kind == 'A' ? 3 + 2 * draw(2) : draw(1200);
        if (draw(16) == 0) parts[k].count = draw(draw(4) ? 9 : 0xffffffff);
        if (parts[k].kind == 'O' && parts[k].count > 0xffff) parts[k].count = 0xffff; /* a status may be taken for ever, and each cycle of it is tried alone too */
        if (parts[k].kind == 'C') parts[k].bytes[0] = bytes[draw(sizeof bytes)];
    }
    if (draw(2) == 0 && count > 2) parts[0].kind = 'C', parts[0].count = 1, parts[0].bytes[0] = 0x80, parts[1].kind = 'A', parts[1].count = 5, parts[2].kind = 'I';
    return count;
}

/* The cycles of a part one by one; *done says how many went. */
static uint32_t push_part(struct onfiseq_bus *bus, uint8_t ce, const struct onfiseq_part *part, uint64_t *done) {
    struct onfiseq_item item = {ce, part->kind, 0, 0};
    bool is_data = part->kind == 'I' || part->kind == 'O';
    *done = 0;
    if (part->kind == 'W') {
        for (uint8_t lun = 0; lun < 4; lun++) item.kind = 'R', item.byte = lun, onfiseq_push(bus, &item);
        return 0;
    }
    if (!is_data && ((part->kind != 'C' && part->kind != 'A') || part->count > 7)) return ONFISEQ_NO_ITEM;
    for (; *done < part->count; ++*done) {
        item.byte = is_data ? (uint8_t)draw(256) : part->bytes[*done];
        uint32_t answer = onfiseq_push(bus, &item);
        if (answer) return answer;
    }
    return 0;
}

/* An operation, and its cycles one by one on a copy. */
static void play_op(struct onfiseq_bus *bus) {
    struct onfiseq_part parts[6];
    struct onfiseq_bus copy = *bus, before = *bus;
    struct onfiseq_spot spot = {77, 77}, other = {78, 78};
    uint8_t ce = (uint8_t)draw(5);
    size_t count = random_op(parts), at = 0;
    uint64_t done = 0;
    uint32_t asked = onfiseq_ask_op(bus, ce, parts, count, &other), answer = onfiseq_push_op(bus, ce, parts, count, &spot), single = 0;
    must(asked == answer && spot.part == other.part && spot.cycle == other.cycle, "ask_op and push_op differ");
    if (!onfiseq_look_at(bus, ce, 0).is_there) {
        must(answer == ONFISEQ_NOT_THERE && memcmp(&before, bus, sizeof before) == 0, "an operation on no target");
        return;
    }
    while (at < count && (single = push_part(&copy, ce, &parts[at], &done)) == 0) at++;
    must(answer == single && spot.part == at, "an operation isn't answered as its cycles are");
    must(answer == 0 || answer == ONFISEQ_NO_ITEM || spot.cycle == done, "another cycle of an operation");
    must(answer == 0 || memcmp(&before, bus, sizeof before) == 0, "half an operation");
    for (int k = 0; answer == 0 && k < 20; k++) {
        struct onfiseq_item item = random_item(4);
        must(onfiseq_ask(&copy, &item) == onfiseq_ask(bus, &item), "an operation left another state");
    }
}

/* Some bytes of a record are changed, or all of them behind the first, which is its magic. */
static void damage(void *record, size_t size) {
    uint8_t *bytes = (uint8_t *)record;
    if (draw(32) == 0)
        for (size_t k = draw(8) ? 4 : 0; k < size; k++) bytes[k] = (uint8_t)(draw(4) ? 0 : draw(256));
    for (unsigned k = 1 + draw(3); k > 0; k--) bytes[draw((uint32_t)size)] = (uint8_t)(draw(2) ? draw(256) : draw(8));
    damaged_records++;
}

/* A damaged record of a channel is given to calls: what is refused leaves it as it was. */
static unsigned long play_damaged_bus(const struct onfiseq_bus *whole) {
    struct onfiseq_bus bus = *whole, copy;
    struct onfiseq_item some[4];
    struct onfiseq_part parts[6];
    struct onfiseq_spot spot;
    size_t done = 99;
    damage(&bus, sizeof bus);
    for (int k = 0; k < 4; k++) some[k] = random_item(draw(8) ? 2 : 4);
    if (draw(8) == 0) some[0] = likely_item(whole);
    copy = bus;
    uint32_t asked = onfiseq_ask(&bus, some), answer = onfiseq_push(&bus, some);
    must(asked == answer && (answer == 0 || memcmp(&copy, &bus, sizeof bus) == 0), "a damaged record: push");
    taken_records += answer != ONFISEQ_DAMAGED;
    answer = onfiseq_push_all(&bus, some, 4, &done);
    must(done <= 4 && (answer == 0) == (done == 4), "a damaged record: push_all");
    onfiseq_push_status(&bus, some + 1, &done);
    copy = bus;
    answer = onfiseq_push_op(&bus, (uint8_t)draw(5), parts, random_op(parts), &spot);
    must(answer == 0 || memcmp(&copy, &bus, sizeof bus) == 0, "a damaged record: push_op");
    onfiseq_look_at(&bus, (uint8_t)draw(6), (uint8_t)draw(6));
    if (draw(4) == 0) onfiseq_drop(&bus, (uint8_t)draw(5));
    if (draw(4) == 0) onfiseq_begin_target(&bus, (uint8_t)draw(5));
    return 8;
}

/* A record with another magic number is refused by every call, and stays. */
static void refuse_damaged(struct onfiseq_bus bus) {
    struct onfiseq_item item = likely_item(&bus);
    struct onfiseq_part part = {1, 'C', {0xff, 0, 0, 0, 0, 0, 0}};
    struct onfiseq_spot spot;
    size_t done = 99;
    ((uint8_t *)&bus)[draw(4)] ^= (uint8_t)(1u << draw(8)); /* what stands first */
    struct onfiseq_bus copy = bus;
    must(onfiseq_ask(&bus, &item) == ONFISEQ_DAMAGED && onfiseq_push(&bus, &item) == ONFISEQ_DAMAGED, "a damaged record is taken");
    must(!onfiseq_look_at(&bus, 0, 0).is_there, "a damaged record is looked at");
    must(onfiseq_push_all(&bus, &item, 1, &done) == ONFISEQ_DAMAGED && done == 0, "a damaged record is taken by many");
    must(onfiseq_push_status(&bus, &item, &done) == ONFISEQ_DAMAGED && done == 0, "a damaged record is taken by a status");
    must(onfiseq_push_op(&bus, 0, &part, 1, &spot) == ONFISEQ_DAMAGED, "a damaged record is taken by an operation");
    must(onfiseq_drop(&bus, 0) == ONFISEQ_DAMAGED && onfiseq_begin_target(&bus, 0) == ONFISEQ_DAMAGED, "a damaged record is begun anew");
    must(memcmp(&copy, &bus, sizeof bus) == 0, "a damaged record is written");
}

/* The length of the words that say why an item isn't permitted, which fit. */
static size_t explain(const struct onfiseq_bus *bus, const struct onfiseq_item *item) {
    char text[512];
    size_t room = draw(sizeof text + 1), length = onfiseq_explain(bus, item, text, room);
    must(length < sizeof text && (room == 0 || length == 0 || strlen(text) < room), "the words of a cause");
    return length;
}

/* A channel of its own with random items, permitted ones more often than not. */
static unsigned long play_channel(void) {
    static struct onfiseq_item kept[HISTORY], some[8];
    struct onfiseq_geometry chip = random_chip();
    uint8_t targets = (uint8_t)(draw(16) ? 1 + draw(4) : draw(256));
    struct onfiseq_bus bus, copy;
    struct onfiseq_answer begun = onfiseq_check(&chip, targets, NULL, 0);
    memset(&bus, draw(2) ? 0 : 0x5a, sizeof bus), copy = bus;
    uint32_t code = onfiseq_begin(&bus, &chip, targets);
    must(code == ONFISEQ_CODE(begun.letter, begun.number), "begin and check differ");
    if (code) return must(memcmp(&copy, &bus, sizeof bus) == 0, "a channel that can't begin is written"), 2;
    must(onfiseq_begin_sized(&copy, sizeof bus - 8, ONFISEQ_VERSION, &chip, targets) == ONFISEQ_OTHER_VERSION, "another size is taken");
    must(onfiseq_begin_sized(&copy, sizeof bus, ONFISEQ_VERSION - 1, &chip, targets) == ONFISEQ_OTHER_VERSION, "another version is taken");
    size_t length = 0, steps = draw(HISTORY), stuck = 0, done = 99;
    unsigned long calls = 1;
    for (size_t k = 0; k < steps && length < HISTORY - 20 && stuck < 5; k++) {
        struct onfiseq_item item = likely_item(&bus);
        uint32_t asked = onfiseq_ask(&bus, &item);
        copy = bus;
        uint32_t answer = onfiseq_push(&bus, &item);
        must(asked == answer, "ask and push differ");
        must(answer == 0 || memcmp(&copy, &bus, sizeof bus) == 0, "a refused item changed the state");
        calls += 2;
        if (answer == 0) kept[length++] = item, permitted++;
        else refused++;
        stuck = answer ? stuck + 1 : 0;
        must((explain(&copy, &item) == 0) == (answer == 0), "a cause of what is permitted, or none of what isn't");
        if (draw(4) == 0) look_around(&bus), calls++;
        if (chip.optional == 0 && draw(8) == 0) length += play_status(&bus, kept + length), calls += 2;
        else if (draw(8) == 0) copy = bus, onfiseq_push_status(&copy, &item, &done), calls++; /* beyond the base a status shows more than complete knows */
        if (draw(8) == 0) calls += play_damaged_bus(&bus);
        if (draw(16) == 0) copy = bus, play_op(&copy), calls += 2;
        if (draw(16) == 0) {
            size_t count = draw(8);
            for (size_t j = 0; j < count; j++) some[j] = j ? random_item(targets) : likely_item(&bus);
            copy = bus;
            answer = onfiseq_push_all(&bus, some, count, &done);
            must(done <= count && (answer == 0) == (done == count), "push_all counts wrong");
            for (size_t j = 0; j < done; j++) must(onfiseq_push(&copy, &some[j]) == 0, "push_all went on where push doesn't"), kept[length++] = some[j];
            if (answer) must(onfiseq_push(&copy, &some[done]) == answer, "push_all and push differ");
            item = random_item(targets);
            must(onfiseq_ask(&copy, &item) == onfiseq_ask(&bus, &item), "push_all left another state");
            calls += done + 4;
        }
    }
    refuse_damaged(bus);
    struct onfiseq_answer answer = onfiseq_check(&chip, targets, kept, length);
    must(answer.letter == 0 && answer.at == length, "check refuses what push permitted");
    return calls + 1;
}

/* A verdict, with the run of a refusal that has one. */
static struct onfiseq_verdict verify_file(const uint8_t *file, size_t length) {
    static struct onfiseq_item whole[2048], some[2048], none;
    struct onfiseq_page chip = onfiseq_read_page(page, page_length);
    struct onfiseq_verdict verdict = onfiseq_verify(page, page_length, file, length), other;
    struct onfiseq_run run = {99, 0, 0, 0}, again = {98, 0, 0, 0};
    size_t room = draw(32);
    memset(some, 0x77, sizeof some), memset(&none, 0x77, sizeof none);
    other = onfiseq_verify_run(page, page_length, file, length, 1000, whole, sizeof whole / sizeof *whole, &run);
    must(verdict.letter == other.letter && verdict.number == other.number && verdict.at == other.at, "verify and verify_run differ");
    other = onfiseq_verify_run(page, page_length, file, length, 1000, room ? some : NULL, room, &again);
    must(verdict.letter == other.letter && memcmp(&run, &again, sizeof run) == 0, "two runs differ");
    must(run.number == 0 || (verdict.letter == 'V' && verdict.number > 5), "a run of another refusal");
    size_t count = run.count, kept = count < room ? count : room;
    must(memcmp(whole, some, kept * sizeof *some) == 0, "another beginning of a run");
    for (size_t k = kept; k < 64; k++) must(memcmp(&some[k], &none, sizeof none) == 0, "what is behind a run is written");
    size_t shown = count < sizeof whole / sizeof *whole ? count : sizeof whole / sizeof *whole;
    struct onfiseq_answer answer = onfiseq_check(&chip.geometry, 1, whole, shown);
    must(shown < count || run.forbidden == (answer.letter == 'F'), "a run is legal, or breaks a rule, where it says otherwise");
    must(shown < count || !run.forbidden || answer.at == count - 1, "a run breaks a rule too soon");
    runs += count != 0;
    return verdict;
}

/* A text of random lines, assembled, verified, and back. */
static unsigned long play_program(void) {
    static const char *const lines[] = {
        "cmd 60\n", "addr 2 3\n", "cmd d0\n", "wait\n", "brs 01 a\n", "a:\n", "end 0\n", "end 1\n", "cmd 00\n", "addr 0 5\n", "cmd 30\n",
        "get 16\n", "put 9\n", "loop 4\n", "next\n", "rowadd 1\n", "col 512\n", "stat\n", "yield\n", "seek 0\n", "jmp a\n", "row 0\n",
        "plane 1\n", "cmd 70\n", "cmd ff\n", "bad\n", "; \xc3\xa9\n",
    };
    char text[1024] = "rows 1\nbuffer 16\nbudget 99\n";
    static uint8_t file[4112], other[4112], back[32768];
    size_t room = draw(8) ? sizeof file : draw(64);
    if (draw(4) == 0) strcpy(text, "rows 1\nbuffer 0\nbudget 5\ncmd 60\naddr 2 3\ncmd d0\nwait\nend 0\n");
    else for (unsigned k = draw(12); k > 0; k--) strcat(text, lines[draw(sizeof lines / sizeof *lines)]);
    if (draw(16) == 0) text[draw((uint32_t)strlen(text))] = (char)draw(256);
    struct onfiseq_placed made = onfiseq_assemble((uint8_t *)text, strlen(text), file, room);
    if (made.letter) return must(made.letter != 'B' || made.length > room, "a short buffer"), 1;
    struct onfiseq_placed shown = onfiseq_disassemble(file, made.length, back, sizeof back);
    must(shown.letter == 0, "a file isn't disassembled");
    struct onfiseq_placed again = onfiseq_assemble(back, shown.length, other, sizeof other);
    must(again.letter == 0 && again.length == made.length && memcmp(file, other, made.length) == 0, "another file comes back");
    accepted += verify_file(file, made.length).letter == 0;
    file[draw((uint32_t)made.length)] ^= (uint8_t)(1 << draw(8));
    verify_file(file, draw(4) ? made.length : draw((uint32_t)made.length));
    onfiseq_disassemble(file, made.length, back, draw(2) ? sizeof back : draw(100));
    return 10;
}

/* ---- the sequencer */

static uint8_t buffer[4096], taken[65536];

/* The cycles of a burst on a copy of the channel: each is permitted. */
static void push_burst(struct onfiseq_bus *bus, const struct onfiseq_burst *burst) {
    bool is_output = burst->kind == 'O' || burst->kind == 'S';
    must(burst->kind != 'S' || burst->len == 1, "a status of more than a byte");
    must(burst->kind != 'O' || burst->place + burst->len <= sizeof buffer, "an output past the buffer");
    for (size_t k = 0; k < burst->len; k++) {
        uint8_t byte = is_output ? (uint8_t)draw(256) : burst->kind == 'I' ? buffer[burst->place + k] : burst->bytes[burst->place + k];
        struct onfiseq_item item = {burst->ce, is_output ? 'O' : burst->kind, byte, 0};
        must(onfiseq_push(bus, &item) == 0, "a burst that isn't permitted");
    }
}

/* A step of a job, whose outputs give these bytes, or any where there are none. */
static struct onfiseq_step play_step(struct onfiseq_live *live, struct onfiseq_job *job, const uint8_t *file, size_t length, int status) {
    struct onfiseq_live before = *live;
    struct onfiseq_job old = *job;
    struct onfiseq_turn turn = onfiseq_job_next(live, job, file, length);
    struct onfiseq_bus bus;
    memcpy(&bus, live->state + 1, sizeof bus); /* a record of a channel stands in it, behind eight bytes */
    must(memcmp(&before, live, sizeof before) == 0 && memcmp(&old, job, sizeof old) == 0, "next changed a record");
    must(turn.count <= 3 && (turn.letter == 0 || turn.count == 0), "bursts are told of no step");
    must(turn.letter || job->buffer <= sizeof buffer, "a buffer that isn't there");
    for (size_t k = 0; k < turn.count; k++) push_burst(&bus, &turn.bursts[k]);
    must(turn.letter || turn.taken <= sizeof taken, "too many outputs");
    for (size_t k = 0; turn.letter == 0 && k < turn.taken; k++) taken[k] = (uint8_t)(status >= 0 ? status : (int)draw(256));
    size_t count = draw(16) || turn.letter ? turn.taken : draw(64);
    struct onfiseq_step step = onfiseq_job_finish(live, job, file, length, taken, count);
    bool goes = step.letter == 0 || step.letter == 'Y' || step.letter == 'W' || (step.letter == 'E' && turn.letter == 0);
    must(goes || (memcmp(&before, live, sizeof before) == 0 && memcmp(&old, job, sizeof old) == 0), "a step that isn't finished changed a record");
    must(!goes || (turn.letter == 0 && count == turn.taken), "a step came that wasn't due, or with another count of bytes");
    bool breaks = turn.letter == 'F' || turn.letter == 'R'; /* which finish says after it has counted the bytes */
    must(turn.letter == 0 || (turn.letter == step.letter && turn.number == step.number) || (breaks && step.letter == 'C'), "next and finish differ");
    must(turn.letter || count == turn.taken || step.letter == 'C', "another count of bytes is taken");
    steps += goes;
    return step;
}

/* A word file of random words; most of its numbers are in their range. */
static size_t random_file(uint8_t *file) {
    static const uint8_t bytes[] = {0x00, 0x30, 0x60, 0xd0, 0x70, 0x80, 0x10, 0x05, 0xe0, 0x31, 0x3f, 0x90, 0xec, 0xff};
    unsigned words = 1 + draw(24);
    uint8_t head[16] = {'N', 'M', 'P', '2', (uint8_t)words, 0, 4, 0, 0, 4, 0, 0, 99, 0, 0, 0};
    memcpy(file, head, sizeof head);
    for (unsigned k = 0; k < words; k++) {
        uint8_t code = (uint8_t)draw(17), *word = file + 16 + 4 * k;
        memset(word, 0, 4), word[0] = code;
        if (code == 1) word[1] = bytes[draw(sizeof bytes)];
        if (code == 2) word[1] = (uint8_t)(2 * draw(2)), word[2] = word[1] ? 3 : 5;
        if (code == 3 || code == 4 || code == 5 || code == 6) word[2] = (uint8_t)(1 + draw(32)), word[3] = (uint8_t)draw(3);
        if (code == 7 || code == 8 || code == 14) word[2] = (uint8_t)(1 + draw(3));
        if (code == 13 || code == 16) word[1] = code == 13 ? 1 : 0, word[2] = (uint8_t)draw(words);
    }
    if (draw(8) == 0) file[draw(16 + 4 * words)] = (uint8_t)draw(256);
    return draw(8) ? 16 + 4 * words : draw(16 + 4 * words);
}

/* Jobs of random files on a channel, with answers and readies of all kinds, and now and then a damaged record. */
static unsigned long play_jobs(void) {
    static uint8_t files[3][4112];
    struct onfiseq_geometry chip = random_chip();
    struct onfiseq_live live;
    struct onfiseq_job jobs[3];
    size_t lengths[3];
    unsigned turns = 20 + draw(200);
    memset(&live, draw(2) ? 0 : 0x55, sizeof live);
    onfiseq_live_begin(&live, &chip, (uint8_t)draw(6));
    memset(jobs, draw(2) ? 0 : 0x55, sizeof jobs);
    for (int k = 0; k < 3; k++) {
        struct onfiseq_job old = jobs[k];
        lengths[k] = random_file(files[k]);
        struct onfiseq_step begun = onfiseq_job_begin(&live, (uint8_t)draw(4), (uint8_t)draw(4), draw(32), files[k], lengths[k], draw(16) ? 1024 : draw(9), &jobs[k]);
        must(begun.letter == 0 || memcmp(&old, &jobs[k], sizeof old) == 0, "a job that isn't begun is written");
    }
    for (unsigned k = 0; k < turns; k++) {
        unsigned which = draw(3);
        if (draw(500) == 0) ((uint8_t *)&jobs[which])[draw(sizeof jobs[which])] ^= (uint8_t)(1 << draw(8));
        if (jobs[which].buffer > sizeof buffer) jobs[which].buffer = sizeof buffer;
        play_step(&live, &jobs[which], files[which], lengths[which], -1);
        if (draw(8) == 0) onfiseq_live_ready(&live, (uint8_t)draw(4), (uint8_t)draw(4), (uint8_t)draw(4));
        if (draw(16) == 0) onfiseq_live_array_ready(&live, (uint8_t)draw(4), (uint8_t)draw(4), draw(2));
        if (draw(256) == 0) onfiseq_live_begin_target(&live, (uint8_t)draw(4));
    }
    ((uint8_t *)&live)[draw(4)] ^= (uint8_t)(1u << draw(8)); /* what stands first */
    must(onfiseq_job_next(&live, &jobs[0], files[0], lengths[0]).letter == 'D', "a damaged channel");
    return 3 * turns;
}

/* Damaged records of a channel with jobs, and of the jobs, given to calls. */
static unsigned long play_damaged_jobs(void) {
    static uint8_t file[4112];
    struct onfiseq_geometry chip = random_chip();
    struct onfiseq_live whole;
    struct onfiseq_job begun;
    size_t length = random_file(file);
    memset(&begun, 0, sizeof begun);
    if (onfiseq_live_begin(&whole, &chip, (uint8_t)(1 + draw(4)))) return 1;
    onfiseq_job_begin(&whole, 0, 0, draw(8), file, length, 1024, &begun);
    for (unsigned k = draw(20); k > 0; k--) play_step(&whole, &begun, file, length, -1);
    for (int k = 0; k < 200; k++) {
        struct onfiseq_live live = whole, copy;
        struct onfiseq_job job = begun, old;
        damage(&live, sizeof live);
        if (draw(4) == 0) damage(&job, sizeof job);
        copy = live, old = job;
        struct onfiseq_turn turn = onfiseq_job_next(&live, &job, file, length);
        must(memcmp(&copy, &live, sizeof live) == 0 && memcmp(&old, &job, sizeof job) == 0, "next wrote a damaged record");
        struct onfiseq_step step = onfiseq_job_finish(&live, &job, file, length, taken, turn.taken <= sizeof taken ? turn.taken : 0);
        bool goes = step.letter == 0 || step.letter == 'Y' || step.letter == 'W' || (step.letter == 'E' && turn.letter == 0);
        must(goes || (memcmp(&copy, &live, sizeof live) == 0 && memcmp(&old, &job, sizeof job) == 0), "finish wrote a damaged record");
        onfiseq_job_begin(&live, (uint8_t)draw(5), (uint8_t)draw(5), draw(8), file, length, 1024, &job);
        onfiseq_live_ready(&live, (uint8_t)draw(5), (uint8_t)draw(5), (uint8_t)draw(4));
        onfiseq_live_array_ready(&live, (uint8_t)draw(5), (uint8_t)draw(5), draw(2));
        if (draw(4) == 0) onfiseq_live_begin_target(&live, (uint8_t)draw(5));
    }
    return 1200;
}

/* An accepted program, whose chip says busy some times and then ready: no rule is broken, and it ends. */
static unsigned long play_accepted(void) {
    static uint8_t file[4112];
    const char *text = "rows 4\nbuffer 32\nbudget 999\nloop 3\ncmd 60\naddr 2 3\ncmd d0\nwait\nrow 3\ncmd 00\naddr 0 5\ncmd 30\nwait\nseek 0\ncmd 00\nget 32\n"
                       "yield\nnext\nstat\nbrs 01 bad\nend 7\nbad:\nend 8\n";
    struct onfiseq_placed made = onfiseq_assemble((const uint8_t *)text, strlen(text), file, sizeof file);
    struct onfiseq_page chip = onfiseq_read_page(page, page_length);
    struct onfiseq_live live;
    struct onfiseq_job job;
    must(onfiseq_live_begin(&live, &chip.geometry, 1) == 0, "a channel isn't begun");
    must(made.letter == 0 && onfiseq_verify(page, page_length, file, made.length).letter == 0, "a program that isn't accepted");
    must(onfiseq_job_begin(&live, 0, 0, 4 * draw(8), file, made.length, 32, &job).letter == 0, "a job isn't begun");
    unsigned long count = 0;
    uint8_t fail = (uint8_t)draw(2);
    for (struct onfiseq_step step = {0, 0}; step.letter != 'E'; count++) {
        step = play_step(&live, &job, file, made.length, draw(3) ? 0xe0 | fail : 0x80);
        must(count < 10000 && step.letter != 'F' && step.letter != 'D' && step.letter != 'H', "an accepted program breaks a rule, or doesn't end");
    }
    must(job.code == 7 || job.code == 8, "another code");
    return ends++, 3 * count;
}

static unsigned long play_words(void) {
    char text[160];
    size_t room = draw(sizeof text + 1), length = onfiseq_words(ONFISEQ_CODE("ABCDEFHILMNOPRSTUVWY?"[draw(21)], draw(20)) + (draw(8) ? 0 : draw(0xffffffff)), text, room);
    must(length < 160 && (room == 0 || strlen(text) < room), "words");
    uint8_t *cut = malloc(page_length);
    size_t few = draw((uint32_t)page_length + 1);
    memcpy(cut, page, few);
    if (few) cut[draw((uint32_t)few)] ^= (uint8_t)(1 << draw(8));
    struct onfiseq_page read = onfiseq_read_page(cut, few);
    must(read.fault <= 9, "a page");
    free(cut);
    return 2;
}

/* A page in each profile, the pauses between random cycles, a text of a trace, and what the libraries say of themselves. */
static unsigned long play_rest(void) {
    static const char *const lines[] = {"0 C 60\n", "0 A 00\n", "0 C d0\n", "0 R 0 0\n", "0 R 0 3\n", "0 Y 0 1\n", "0 I 5a\n", "0 O e0\n", "; words\n", "\n", "12 0 C ff\n", "bad\n", "\xc3\xa9\n"};
    struct onfiseq_page read = onfiseq_read_page_as(page, draw(4) ? page_length : draw((uint32_t)page_length), (uint8_t)draw(3));
    struct onfiseq_last last = {0, 0, 0};
    struct onfiseq_item items[32];
    char text[512] = "";
    must(read.fault <= 9, "a page in a profile");
    for (unsigned k = draw(40); k > 0; k--) {
        struct onfiseq_item item = random_item(1);
        struct onfiseq_pauses pauses = onfiseq_pauses_before(&last, item.kind);
        must(pauses.cycle <= ONFISEQ_TRR && pauses.busy <= ONFISEQ_TRR && pauses.ready <= ONFISEQ_TRR, "a pause");
        onfiseq_note(&last, item.kind, item.byte);
    }
    for (unsigned k = draw(20); k > 0; k--) strcat(text, lines[draw(sizeof lines / sizeof *lines)]);
    memset(items, 0x77, sizeof items);
    struct onfiseq_placed placed = onfiseq_trace((const uint8_t *)text, strlen(text), (uint8_t)draw(5), items, draw(33));
    must(placed.letter || placed.length <= 32, "the items of a text");
    onfiseq_sizes(), onfiseq_live_sizes(), onfiseq_make_sample(draw(0xffffffff)), onfiseq_live_make_sample();
    return 90;
}

/* Damaged records of channels, with and without jobs, in states that random items and jobs lead to. */
static unsigned long play_damaged(void) {
    struct onfiseq_geometry chip = random_chip();
    struct onfiseq_bus bus;
    unsigned long calls = 0;
    if (onfiseq_begin(&bus, &chip, (uint8_t)(1 + draw(4)))) return 1;
    for (unsigned k = draw(40); k > 0; k--) {
        struct onfiseq_item item = likely_item(&bus);
        onfiseq_push(&bus, &item);
    }
    for (int k = 0; k < 200; k++) calls += play_damaged_bus(&bus);
    return calls + play_damaged_jobs();
}

int main(int count, char **words) {
    unsigned long calls = 0, wanted = count > 1 ? strtoul(words[1], NULL, 10) : 100000;
    seed = count > 2 ? strtoul(words[2], NULL, 10) : 1;
    FILE *file = fopen(count > 3 ? words[3] : "", "rb");
    must(file != NULL, "no page");
    page_length = fread(page, 1, sizeof page, file);
    fclose(file);
    while (count > 4 && damaged_records < wanted) calls += play_damaged();
    while (count <= 4 && calls < wanted) {
        if (draw(4) == 0) calls += draw(4) ? play_jobs() : play_accepted();
        else calls += draw(8) == 0 ? play_channel() : draw(4) ? play_program() : draw(2) ? play_words() : play_rest();
    }
    must(count > 4 || (permitted > 0 && refused > 0 && accepted > 0 && runs > 0 && steps > 0 && ends > 0), "nothing was tried");
    must(damaged_records > 0 && taken_records > 0 && taken_records < damaged_records, "no damage was tried");
    printf("nothing is wrong\n");
    fprintf(stderr, "%lu calls: %lu items permitted, %lu refused, %lu programs accepted, %lu runs, %lu steps, %lu ends; %lu damaged records\n", calls, permitted, refused, accepted,
            runs, steps, ends, damaged_records);
    return 0;
}

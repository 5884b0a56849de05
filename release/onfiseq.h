/**
 * @file
 * onfiseq for C and C++: what may come on the bus of a NAND flash chip, checked before it comes.
 *
 *     onfiseq_read_page(bytes, length)            the geometry of a chip, from its parameter page
 *     onfiseq_begin(&bus, &geometry, targets)     a channel to which nothing has happened
 *     onfiseq_push(&bus, &item)                   a cycle or a ready: 0, or the code of a rule
 *     onfiseq_push_op(&bus, ce, parts, n, &spot)  a whole operation, all of it or none
 *     onfiseq_verify(page, n, file, m)            a microprogram, before it runs
 *     onfiseq_job_next, onfiseq_job_finish        a microprogram on your pins, word after word
 *     onfiseq_words(code, text, room)             what a code means, in English
 *     onfiseq_explain(bus, item, text, room)      why an item isn't permitted
 *
 * docs/use/C.md begins with a program of ten lines, and says what is proved and how it is linked:
 *
 *     libonfiseq_c.a         page, channel         no memory, needs memcpy and memset alone
 *     libonfiseq_live_c.a    sequencer on pins     no memory, needs memcpy and memset alone
 *     libonfiseq_verify_c.a  verifier              memory by onfiseq_alloc, all of it given back
 *     libonfiseq_text_c.a    texts and words       memory by onfiseq_alloc, all of it given back
 *     libonfiseq_show_c.a    pictures and notes    memory by onfiseq_alloc, all of it given back
 *
 * The header is the same for every processor and byte order. release/onfiseq.c has the calls of
 * the first four libraries for whatever has a C compiler.
 *
 * No call aborts. None keeps anything behind your back, but for release/onfiseq.c, which keeps its
 * memory. A call may be made from several threads at once, as long as they don't share what it
 * writes.
 *
 * Any bytes may stand in a record that you hand in: one whose numbers no channel can have is
 * answered ONFISEQ_DAMAGED, and stays as it is. What you owe, as a proof ends at the border to C:
 *  - a pointer isn't null, is aligned, and points to as many whole values as stand behind it; with
 *    a count of 0 a slice's pointer may be any, null too;
 *  - what a call writes by a pointer that isn't const overlaps nothing else that it is given, and
 *    no other thread reads or writes it meanwhile;
 *  - there is stack enough: 40 KB for libonfiseq_c.a, and 80 KB for onfiseq_check; 24 KB for
 *    libonfiseq_live_c.a; 24 KB for libonfiseq_verify_c.a, and 160 KB for onfiseq_verify_run; 8 KB
 *    for libonfiseq_text_c.a; 100 KB for libonfiseq_show_c.a. onfiseq_push_op and onfiseq_ask_op
 *    take 1000 bytes more for each part of the operation. It is 14 KB for release/onfiseq.c, which
 *    has the rest in its memory.
 */
#ifndef ONFISEQ_H
#define ONFISEQ_H

#ifdef __KERNEL__
#include <linux/string.h>
#include <linux/types.h>
#else
#include <stdbool.h>
#include <stddef.h>
#include <stdint.h>
#endif

#ifdef __cplusplus
extern "C" {
#endif

/** Counts up where a call or a record changes. The calls that begin a record compare it. */
#define ONFISEQ_VERSION 3

/** The release that this header is of. docs/use/COMMANDS.md, "Releases", says what is kept. */
#define ONFISEQ_RELEASE "0.2.0"
static inline const char *onfiseq_version(void) { return ONFISEQ_RELEASE; }

/** 64 bits at a multiple of 8 bytes: so a record has its fields at the same places everywhere. */
#ifdef __GNUC__
typedef uint64_t onfiseq_u64 __attribute__((aligned(8)));
#else
typedef uint64_t onfiseq_u64;
#endif

/* ---- codes */

/**
 * A code is a letter in its high byte and a number in its low one, as docs/use/CODES.md has them:
 * F9 is 0x4609. 0 says that all is well.
 */
#define ONFISEQ_CODE(letter, number) ((uint32_t)(letter) << 8 | (uint32_t)(number))
#define ONFISEQ_LETTER(code) ((char)((code) >> 8)) /**< F of F9 */
#define ONFISEQ_NUMBER(code) ((unsigned)((code)&0xff)) /**< 9 of F9 */

enum onfiseq_code {
    ONFISEQ_OK = 0,
    ONFISEQ_NOT_THERE = 0x4601,          /**< F1 */
    ONFISEQ_COMMAND_UNKNOWN = 0x4602,    /**< F2 */
    ONFISEQ_SEQUENCE_OPEN = 0x4603,      /**< F3 */
    ONFISEQ_SEVERAL_LUNS = 0x4604,       /**< F4 */
    ONFISEQ_NO_COLUMN_CHANGE = 0x4605,   /**< F5 */
    ONFISEQ_COMMAND_MISPLACED = 0x4606,  /**< F6 */
    ONFISEQ_ADDRESS_MISPLACED = 0x4607,  /**< F7 */
    ONFISEQ_ROW_OUTSIDE = 0x4608,        /**< F8 */
    ONFISEQ_LUN_BUSY = 0x4609,           /**< F9 */
    ONFISEQ_QUEUE_CLASH = 0x460a,        /**< F10 */
    ONFISEQ_INPUT_MISPLACED = 0x460b,    /**< F11 */
    ONFISEQ_NO_SOLE_DRIVER = 0x460c,     /**< F12 */
    ONFISEQ_DATA_NOT_READY = 0x460d,     /**< F13 */
    ONFISEQ_COLUMN_OUTSIDE = 0x460e,     /**< F14 */
    ONFISEQ_CACHE_READ_MISPLACED = 0x460f, /**< F15 */
    ONFISEQ_COPYBACK_MISPLACED = 0x4611, /**< F17 */
    ONFISEQ_PLANE_NOT_HELD = 0x4612,     /**< F18 */
    ONFISEQ_PAGE_FAULT = 0x5000,         /**< and n for the fault Pn of a page or a geometry */
    ONFISEQ_DAMAGED = 0x4400,            /**< the record isn't one that a channel can have */
    ONFISEQ_OTHER_VERSION = 0x4401,      /**< the record to begin has another size or version */
    ONFISEQ_NO_ITEM = 0x4900,            /**< the numbers are no item, or no part */
    ONFISEQ_NO_MEMORY = 0x4f00,          /**< release/onfiseq.c has no memory for the call */
    ONFISEQ_WRONG_TARGETS = 0x5400       /**< the targets aren't 1 to 4 */
};

/* ---- the chip */

/**
 * A geometry: sizes in bytes, pages of a block, blocks and LUNs of a target. plane_bits is the
 * binary logarithm of the planes of a LUN. enhanced, multi_plane and cache are 0 for no, anything
 * else for yes. optional is 0 in the base profile, which is what onfiseq_read_page gives; else it
 * has the bits of the optional commands of ONFI that the chip declares beside it.
 */
struct onfiseq_geometry {
    uint32_t page_bytes, spare_bytes, pages, blocks;
    uint8_t luns, plane_bits;
    uint8_t enhanced;    /**< Read Status Enhanced is declared */
    uint8_t multi_plane; /**< operations on several planes */
    uint8_t cache;       /**< cache reads */
    uint16_t optional;   /**< bits of enum onfiseq_optional */
};

/** What a chip may have beside the base profile. */
enum onfiseq_optional {
    ONFISEQ_FEATURES = 0x0004,          /**< EEh and EFh */
    ONFISEQ_COPYBACK = 0x0010,          /**< 35h, and 85h with a row */
    ONFISEQ_UNIQUE_ID = 0x0020,         /**< EDh */
    ONFISEQ_ENHANCED_COLUMN = 0x0040,   /**< 06h */
    ONFISEQ_RESET_LUN = 0x0200,         /**< FAh */
    ONFISEQ_PLANE_READS = 0x0400,       /**< 32h */
    ONFISEQ_SYNCHRONOUS_RESET = 0x0800, /**< FCh */
    ONFISEQ_FREE_BLOCKS = 0x1000,       /**< blocks of one queue may differ above the plane */
    ONFISEQ_ODD_EVEN = 0x2000,          /**< copies between odd and even pages */
    ONFISEQ_WIDE = 0x8000               /**< 90h at 00h and 40h, and FFh in an open sequence */
};

/** What a parameter page declares. fault is 0, or n of the code Pn; then the geometry is all 0. */
struct onfiseq_page {
    uint32_t fault;
    struct onfiseq_geometry geometry;
};

/** Reads the parameter page of a chip: 256 bytes, or several copies one after the other. */
struct onfiseq_page onfiseq_read_page(const uint8_t *page, size_t length);

/** Reads it in a profile: 0 for the base profile, 1 for the wider one of optional. */
struct onfiseq_page onfiseq_read_page_as(const uint8_t *page, size_t length, uint8_t profile);

/* ---- the channel */

/** The kinds of what happens on a channel. */
enum onfiseq_kind {
    ONFISEQ_COMMAND = 'C',     /**< a command cycle */
    ONFISEQ_ADDRESS = 'A',     /**< an address cycle */
    ONFISEQ_INPUT = 'I',       /**< an input to the die */
    ONFISEQ_OUTPUT = 'O',      /**< an output from it */
    ONFISEQ_READY = 'R',       /**< a LUN becomes ready */
    ONFISEQ_ARRAY_READY = 'Y', /**< the array of a LUN does */
    ONFISEQ_WAIT = 'W'         /**< of a part alone: R/B# of the target has risen */
};

/**
 * What happens on a channel. ce is the target, kind one of enum onfiseq_kind, byte that of a cycle,
 * or the LUN that becomes ready. fail is 1 for a ready after work that failed, else 0. In the
 * profile onfi a ready has 2 more where the page before failed, which a 15h left in the array, and
 * the ready of an array ('Y') has 1 where its page failed.
 */
struct onfiseq_item {
    uint8_t ce, kind, byte, fail;
};

/**
 * letter 0: all is well, and at counts the items. Else letter and number are those of the code:
 * 'F' the rule that the item at `at` breaks first, 'P' the fault of the geometry, 'I' the numbers
 * at `at` are no item, 'T' the targets aren't 1 to 4.
 */
struct onfiseq_answer {
    uint8_t letter;
    uint32_t number;
    onfiseq_u64 at;
};

/** Checks whether so many items are a legal trace on a channel of so many targets, 1 to 4. */
struct onfiseq_answer onfiseq_check(const struct onfiseq_geometry *geometry, uint8_t targets,
                                    const struct onfiseq_item *items, size_t count);

/**
 * The state of a channel, opaque: of one size and alignment on every processor. Copy it, compare
 * it, or throw it away as you like; onfiseq_look_at tells what stands in it.
 */
struct onfiseq_bus {
    onfiseq_u64 state[409];
};

/**
 * Begins a channel of so many targets, 1 to 4, to which nothing has happened. What stood in the
 * record before is no matter. 0; else the record stays as it was, and the answer is
 * ONFISEQ_OTHER_VERSION, ONFISEQ_WRONG_TARGETS, or ONFISEQ_PAGE_FAULT and n for the fault Pn of the
 * geometry.
 */
#define onfiseq_begin(bus, geometry, targets) \
    onfiseq_begin_sized((bus), sizeof *(bus), ONFISEQ_VERSION, (geometry), (targets))
uint32_t onfiseq_begin_sized(struct onfiseq_bus *bus, size_t size, uint32_t version,
                             const struct onfiseq_geometry *geometry, uint8_t targets);

/**
 * The channel goes on by an item: 0 where it is permitted after those before. Else nothing changes,
 * and the answer is the code of the first rule that it breaks, ONFISEQ_NO_ITEM, or ONFISEQ_DAMAGED.
 */
uint32_t onfiseq_push(struct onfiseq_bus *bus, const struct onfiseq_item *item);

/**
 * Pushes items one by one up to the first that is refused; the answer is its, or 0, and *done says
 * how many went.
 */
uint32_t onfiseq_push_all(struct onfiseq_bus *bus, const struct onfiseq_item *items, size_t count,
                          size_t *done);

/**
 * Pushes an item of a bus whose R/B# isn't seen: where it is a status output, of the one LUN that
 * drives the bus, which shows that LUN ready that was busy (bit 6, and bit 0 for work that failed,
 * bit 1 for the page before), or its array (bit 5 besides), those readies are pushed in front of it. The answer is that of the
 * first that is refused, or 0, and *done says how many went.
 */
uint32_t onfiseq_push_status(struct onfiseq_bus *bus, const struct onfiseq_item *item,
                             size_t *done);

/**
 * A part of an operation. 'C' and 'A': the first count of the bytes as commands or addresses, 7 at
 * most. 'I' and 'O': count bytes to the die or from it, whatever they are. 'W': R/B# of the target
 * has risen, so each of its busy LUNs is ready; none of them busy is no fault.
 */
struct onfiseq_part {
    uint32_t count;
    uint8_t kind, bytes[7];
};

/** Where an operation is refused: how many parts went, and how many cycles of the next. */
struct onfiseq_spot {
    onfiseq_u64 part, cycle;
};

/**
 * A whole operation on a target, as one of Linux's exec_op: all of it happens, or none. 0; else
 * nothing changes, the answer is the code of the first rule that is broken, ONFISEQ_NO_ITEM where
 * the numbers are no part, or ONFISEQ_DAMAGED, and *spot says where. A part of data costs the same
 * for any number of its bytes.
 */
uint32_t onfiseq_push_op(struct onfiseq_bus *bus, uint8_t ce, const struct onfiseq_part *parts,
                         size_t count, struct onfiseq_spot *spot);

/** What onfiseq_push_op would answer; nothing changes. */
uint32_t onfiseq_ask_op(const struct onfiseq_bus *bus, uint8_t ce, const struct onfiseq_part *parts,
                        size_t count, struct onfiseq_spot *spot);

/**
 * A way out of every state of a target: it is as at the start, whatever it was doing, for a chip
 * that was reset on the pins or lost its power. Call it once the chip is ready again. The other
 * targets stay as they are. 0; or ONFISEQ_NOT_THERE or ONFISEQ_DAMAGED, and nothing changes.
 */
uint32_t onfiseq_begin_target(struct onfiseq_bus *bus, uint8_t ce);

/**
 * A target forgets its open sequence and keeps its LUNs: for whoever goes on after a cycle that
 * isn't permitted. The answers are those of onfiseq_begin_target.
 */
uint32_t onfiseq_drop(struct onfiseq_bus *bus, uint8_t ce);

/** What onfiseq_push would answer; nothing changes. */
uint32_t onfiseq_ask(const struct onfiseq_bus *bus, const struct onfiseq_item *item);

/**
 * A look at a LUN. latch is what it drives the bus with: 0 nothing, 1 its status, 2 data. register_
 * is what its register holds: 0 nothing, 1 the page of block and page, 2 the parameter page, 3 the
 * identifier; in the wider profile 4 what 90h gives at 00h, 5 at 40h, 6 the unique identifier, and 7
 * the features at the address block. column, where has_column, is the place in the register that the next output gives.
 * queued counts the rows of its queue. programming: it programs behind a 15h, or its array does.
 * is_there is false where no such LUN is there, or the record
 * is damaged.
 */
struct onfiseq_look {
    bool is_there;
    uint8_t latch;
    bool busy, array_busy, caching;
    uint8_t register_;
    bool has_column, programming;
    uint32_t block;
    onfiseq_u64 page, column;
    onfiseq_u64 queued;
};

struct onfiseq_look onfiseq_look_at(const struct onfiseq_bus *bus, uint8_t ce, uint8_t lun);

/* ---- pauses */

/** The pauses that a datasheet asks for before a cycle; how long each is stands there. */
enum onfiseq_pause {
    ONFISEQ_TADL = 1, /**< from an address to an input */
    ONFISEQ_TWHR = 2, /**< from a command, an address or an input to an output */
    ONFISEQ_TCCS = 3, /**< from a change of the column, by E0h or 85h, to the data */
    ONFISEQ_TRHW = 4, /**< from an output to a command, an address or an input */
    ONFISEQ_TWB = 5,  /**< from the cycle that begins work until R/B# and the status tell of it */
    ONFISEQ_TRR = 6   /**< from a ready to an output */
};

/**
 * What came last on a target, for the pauses: one for each, all 0 at the start. onfiseq_note keeps
 * it. command is the byte of the last command, kind that of the last cycle.
 */
struct onfiseq_last {
    uint8_t kind, command, ready;
};

/** Each is 0 or one of enum onfiseq_pause, and to be kept: from the last cycle by what that was,
 *  from it where it began work, and from the ready. */
struct onfiseq_pauses {
    uint8_t cycle, busy, ready;
};

/** The pauses before a cycle of this kind, or before a burst of onfiseq_job_next by its kind. */
struct onfiseq_pauses onfiseq_pauses_before(const struct onfiseq_last *last, uint8_t kind);

/**
 * A cycle has come on the target, 'C' with its byte, 'A', 'I', 'O' or 'S', or 'R' where R/B# has
 * shown a ready. 0; or ONFISEQ_NO_ITEM of any other kind, and nothing changes.
 */
uint32_t onfiseq_note(struct onfiseq_last *last, uint8_t kind, uint8_t byte);

/* ---- microprograms */

/**
 * letter 0: the program is accepted: if no byte ends a `wait` while its LUN works, it breaks no
 * rule and stays in its rows, buffer and budget. Else letter and number are those of the code, as
 * 'V' and 7 of V7, and at is the word or 0: 'P' the page, 'M' the file, 'V' the program; 'O' with
 * 0: memory was refused.
 */
struct onfiseq_verdict {
    uint8_t letter;
    uint32_t number;
    onfiseq_u64 at;
};

/**
 * Verifies a word file for the chip of a parameter page. It asks for 8 bytes for each word of the
 * file, and where the program has a branch or a loop for 260 more: 268 KB at most.
 */
struct onfiseq_verdict onfiseq_verify(const uint8_t *page, size_t page_length, const uint8_t *file,
                                      size_t file_length);

/**
 * A run of a refused program: how many items it has, the word at which it ends, and the number of
 * the reason there, as 7 of V7. forbidden is 1 where its last item isn't permitted, so that
 * onfiseq_check of it names the rule; it is 0 for a reason that needs no cycle. All are 0 where
 * there is no run.
 */
struct onfiseq_run {
    onfiseq_u64 count, at;
    uint32_t number, forbidden;
};

/**
 * The same verdict, and a run of a refusal: what happens on a channel of one target whose LUN 0
 * runs the program from row 0 on, with a buffer of 00, up to the refused word. V7 of a program
 * without branches and loops, for a chip of one LUN, has its run; for every other word one is
 * searched for, in so many steps at most: words that come, in all the runs that are tried. For each
 * step 32 cycles may come, and a run has at most 524,288; one that needs more isn't tried. It may
 * end at another word, or for another reason; that none is found promises nothing. Its items stand
 * at the front of room items, as many as fit, and those behind stay. A program that V1 to V5 refuse
 * has no run, since it is refused as a whole. The search asks for memory by onfiseq_alloc, 16 MB at
 * most for 100,000 steps, and gives all of it back; without memory for it there is no run.
 * examples/c/pool.c has the memory in a block of yours.
 */
struct onfiseq_verdict onfiseq_verify_run(const uint8_t *page, size_t page_length,
                                          const uint8_t *file, size_t file_length,
                                          onfiseq_u64 steps, struct onfiseq_item *items,
                                          size_t room, struct onfiseq_run *run);

/**
 * letter 0: all stands at the front of the buffer, length bytes long. Else the buffer is as it was:
 * 'A' a fault of the text at the line at, 'M' one of the file at the word at, 'U' the text isn't
 * UTF-8, 'O' memory was refused, 'B' the buffer is too short, and length is how long it must be.
 */
struct onfiseq_placed {
    uint8_t letter;
    uint32_t number;
    onfiseq_u64 at, length;
};

/** Assembles a text (no 0 behind it): its word file, 4,112 bytes at most, is in the buffer. */
struct onfiseq_placed onfiseq_assemble(const uint8_t *text, size_t text_length, uint8_t *file,
                                       size_t room);

/** Disassembles a word file: its assembly text stands in the buffer, with no 0 behind it. */
struct onfiseq_placed onfiseq_disassemble(const uint8_t *file, size_t file_length, uint8_t *text,
                                          size_t room);

/**
 * Reads the text of a trace, a line an item (docs/use/TRACES.md): in the strict form where recorded
 * is 0, else with comments, blanks and times; of the profile onfi in the strict form where it is 2,
 * and with comments, blanks and times where it is 3. letter 0: its items stand at the front of room items,
 * and length counts them. Else these are as they were: 'X' a fault of the text at the line at, 'U'
 * it isn't UTF-8, 'O' memory was refused, 'B' there is no room for length items.
 */
struct onfiseq_placed onfiseq_trace(const uint8_t *text, size_t text_length, uint8_t recorded,
                                    struct onfiseq_item *items, size_t room);

/**
 * What a code means, in English, in room bytes with a 0 at the end, cut where it doesn't fit. Each
 * answer of each library here has its words. The answer is the length of all the words, as
 * snprintf's is; 0 where no answer has this code. 160 bytes are enough for any.
 */
size_t onfiseq_words(uint32_t code, char *text, size_t room);

/**
 * Why onfiseq_push would refuse an item, in English: the one cause, with the LUN, or with the
 * sequence that is open and what it wants next, and the code in parentheses, as `onfiseq check`
 * says it. As snprintf; 0 where the item is permitted.
 */
size_t onfiseq_explain(const struct onfiseq_bus *bus, const struct onfiseq_item *item, char *text,
                       size_t room);

/* ---- pictures and notes, for people
 *
 * letter 0: all stands at the front of the buffer, length bytes long, with no 0 behind it. Else the
 * buffer is as it was: 'P' the geometry has a fault, which onfiseq_check tells; 'T' the targets
 * aren't 1 to 4; 'I' the numbers at `at` are no item; 'M' the file can't be read, which
 * onfiseq_disassemble tells; 'B' the buffer is too short, and length is how long it must be; 'O'
 * memory was refused. */

/**
 * Draws items as a trace on a channel of so many targets, legal or not: an SVG. An item that breaks
 * a rule is drawn, and what comes after it is grey.
 */
struct onfiseq_placed onfiseq_picture(const struct onfiseq_geometry *geometry, uint8_t targets,
                                      const struct onfiseq_item *items, size_t count,
                                      uint8_t *picture, size_t room);

/**
 * Notes what the author of a word file surely didn't mean, though onfiseq_verify accepts it for
 * this geometry: a line for each note, of its code, its word or - for the header, and what is wrong
 * and mends it. Of a file that isn't accepted it may say anything.
 */
struct onfiseq_placed onfiseq_notes(const struct onfiseq_geometry *geometry, const uint8_t *file,
                                    size_t file_length, uint8_t *notes, size_t room);

/* ---- the sequencer on your pins
 *
 * A channel and each of its jobs are records of yours. A job is a word file on a LUN: it is handed
 * in at each call, and stays as it is meanwhile. Word after word, onfiseq_job_next tells what to do
 * on the pins, you do it, and onfiseq_job_finish takes what the chip answered:
 *
 *     struct onfiseq_turn turn = onfiseq_job_next(&live, &job, file, length);
 *     if (turn.letter == 0) {
 *         uint8_t status, *taken = &status;
 *         for (size_t k = 0; k < turn.count; k++) {
 *             const struct onfiseq_burst *burst = &turn.bursts[k];
 *             if (burst->kind == 'O') taken = buffer + burst->place;
 *             do_on_pins(burst, buffer, taken);
 *         }
 *         step = onfiseq_job_finish(&live, &job, file, length, taken, turn.taken);
 *     }
 *
 * Each cycle of the bursts that are told is permitted where it stands, whatever the file, the job's
 * record and the chip's answers are. Where onfiseq_verify accepts the file of every job for the
 * chip, one job at a time runs on each LUN, and no target began anew, 'F' is never answered,
 * whatever the chips say. Both are proved. Several jobs share the channel: one that is answered 'H'
 * waits until the LUN that has the bus lets it go. */

/** The loops around a word: the first depth of them, the innermost first. */
struct onfiseq_loop {
    uint16_t start, left; /**< its first word, and the turns after this one */
};

struct onfiseq_loops {
    uint8_t depth;
    struct onfiseq_loop around[4];
};

/**
 * A job. Its fields are for debuggers and for the buffer: at is its next word, place the place in
 * the buffer that its next `get` or `put` begins at. Any bytes may stand in it.
 */
struct onfiseq_job {
    uint32_t magic;
    uint8_t ce, lun;
    uint8_t has_ended, code; /**< 0 while it goes on; then the code of its `end` */
    uint32_t base, buffer;   /**< the row index that it begins at; the length of its buffer */
    uint32_t index, place;
    uint16_t column, at;
    uint8_t plane, status;
    struct onfiseq_loops loops;
};

/** A channel on whose pins jobs run, opaque as struct onfiseq_bus is. */
struct onfiseq_live {
    onfiseq_u64 state[410];
};

/**
 * What is to be done on the pins in one go, with the chip enable ce low and the others high:
 *   'C' 'A'   give bytes[place] to bytes[place + len - 1], one cycle each, with CLE or ALE high
 *   'I'       give len bytes of the job's buffer, from place on
 *   'O'       take len bytes from the chip into the job's buffer, from place on
 *   'S'       take a status from it, len bytes, which are one
 */
struct onfiseq_burst {
    uint8_t kind, ce, bytes[5];
    onfiseq_u64 place, len;
};

/**
 * letter 0: do the first count bursts, one after another, and hand the taken bytes that their
 * outputs gave to onfiseq_job_finish. Else nothing is to be done:
 *   'H'       another LUN has the bus                  'E'   the job has ended, with a code
 *   'F'       a cycle would break the rule number      'R'   the row of its address isn't there
 *   'M' 'N'   the file can't be read (Mn); it ends     'B'   the word reaches past the buffer
 *   'L'       it opens a fifth loop                    'D'   a record isn't one of this channel
 */
struct onfiseq_turn {
    uint8_t letter;
    uint32_t number;
    onfiseq_u64 count, taken;
    struct onfiseq_burst bursts[3];
};

/**
 * letter 0: the word is done, and the LUN has the bus; 'Y': done, and the bus is let go; 'W': a
 * `wait` whose poll says busy, it comes again, and the bus is let go; 'E': the job has ended,
 * number is its code. Else nothing has changed: a letter of onfiseq_turn, or 'C', as so many bytes
 * aren't what the outputs give.
 */
struct onfiseq_step {
    uint8_t letter;
    uint32_t number;
};

/** Begins a channel whose chips are ready and have been reset. Answers as onfiseq_begin's. */
#define onfiseq_live_begin(live, geometry, targets) \
    onfiseq_live_begin_sized((live), sizeof *(live), ONFISEQ_VERSION, (geometry), (targets))
uint32_t onfiseq_live_begin_sized(struct onfiseq_live *live, size_t size, uint32_t version,
                                  const struct onfiseq_geometry *geometry, uint8_t targets);

/**
 * Begins the job of a word file on a LUN, with its rows counted from the index base and a buffer of
 * so many bytes; *job is written where letter is 0. Else it stays as it was: 'D' the channel; 'M'
 * the file; 'S' with 2, the LUN isn't there, 3, rows pass the LUN, 4, the buffer isn't as long as
 * the header says, 6, the file continues a cache read and base isn't the first page of a block.
 * Verify the file before.
 */
struct onfiseq_step onfiseq_job_begin(const struct onfiseq_live *live, uint8_t ce, uint8_t lun,
                                      uint32_t base, const uint8_t *file, size_t file_length,
                                      size_t buffer, struct onfiseq_job *job);

/** What is to be done for the job's next word; nothing changes. */
struct onfiseq_turn onfiseq_job_next(const struct onfiseq_live *live, const struct onfiseq_job *job,
                                     const uint8_t *file, size_t file_length);

/**
 * The job's next word is done: its outputs gave these bytes. What a poll shows needs no other call:
 * its LUN becomes ready where it says so, with failure where it does.
 */
struct onfiseq_step onfiseq_job_finish(struct onfiseq_live *live, struct onfiseq_job *job,
                                       const uint8_t *file, size_t file_length,
                                       const uint8_t *taken, size_t count);

/**
 * A LUN becomes ready, as R/B# tells, with the bits 1 (FAIL) and 2 (FAILC) of a status byte, or 0
 * where nothing failed: 0, or the code of the rule against it, ONFISEQ_NOT_THERE where it isn't
 * there or isn't busy, or ONFISEQ_DAMAGED.
 */
uint32_t onfiseq_live_ready(struct onfiseq_live *live, uint8_t ce, uint8_t lun, uint8_t failures);

/**
 * The array of a LUN does, after a cache read, or after a cache program that failed or not. The
 * answers are those of onfiseq_live_ready.
 */
uint32_t onfiseq_live_array_ready(struct onfiseq_live *live, uint8_t ce, uint8_t lun, bool failed);

/**
 * A target is as at the start, as by onfiseq_begin_target, and lets the bus go where one of its
 * LUNs had it: for a chip that was reset on the pins in the midst of a job. The jobs of its LUNs
 * are over: begin them again by onfiseq_job_begin, and don't go on with the old records. Those of
 * other targets go on. The answers are those of onfiseq_begin_target.
 */
uint32_t onfiseq_live_begin_target(struct onfiseq_live *live, uint8_t ce);

/* ---- memory
 *
 * The libraries that ask for memory ask by these three functions, and bring them over malloc,
 * realloc and free. A program that defines all three has its own in their place; examples/c/pool.c
 * does, without a heap. A block is aligned as malloc's are, and a call that returns has given all
 * of it back.
 *
 * release/onfiseq.c doesn't ask by them; its head says where it has its memory. Where it has none
 * for a call, that changes nothing and answers 'O' in its letter, ONFISEQ_NO_MEMORY as its code or
 * as the fault of a page, 'O' as each pause, or an empty record; onfiseq_words and onfiseq_explain
 * say "out of memory". */

/** A block of so many bytes, 1 at least; NULL where there is none, and the call answers 'O'. */
void *onfiseq_alloc(size_t size);

/** The block with another size, here or elsewhere: kept bytes of the old one are in use. */
void *onfiseq_realloc(void *old, size_t kept, size_t size);

/** Gives a block back. */
void onfiseq_free(void *memory);

/* ---- what the libraries say of themselves: examples/c/layout.c compares it with this header */

/** The version, and the size of each record. */
struct onfiseq_abi {
    uint32_t version;
    onfiseq_u64 geometry, page, item, answer, bus, look, part, spot, sample;
};

struct onfiseq_abi onfiseq_sizes(void);

struct onfiseq_sample {
    struct onfiseq_geometry geometry;
    struct onfiseq_item item;
    struct onfiseq_answer answer;
    struct onfiseq_look look;
    struct onfiseq_part part;
    struct onfiseq_spot spot;
};

/** One of each record with a number of its own in each field, and each bool as flags tells. */
struct onfiseq_sample onfiseq_make_sample(uint32_t flags);

struct onfiseq_live_abi {
    uint32_t version;
    onfiseq_u64 loops, job, live, burst, turn, step, sample;
};

struct onfiseq_live_abi onfiseq_live_sizes(void);

struct onfiseq_live_sample {
    struct onfiseq_job job;
    struct onfiseq_turn turn;
    struct onfiseq_step step;
};

/** One of each record with a number of its own in each field. */
struct onfiseq_live_sample onfiseq_live_make_sample(void);

/* ---- the size of each record: a compiler that lays one out otherwise stops here */

#define ONFISEQ_SIZE(record, bytes) \
    typedef char onfiseq_##record##_sized[sizeof(struct onfiseq_##record) == (bytes) ? 1 : -1]
ONFISEQ_SIZE(geometry, 24);
ONFISEQ_SIZE(page, 28);
ONFISEQ_SIZE(item, 4);
ONFISEQ_SIZE(answer, 16);
ONFISEQ_SIZE(bus, 3272);
ONFISEQ_SIZE(part, 12);
ONFISEQ_SIZE(spot, 16);
ONFISEQ_SIZE(look, 40);
ONFISEQ_SIZE(verdict, 16);
ONFISEQ_SIZE(placed, 24);
ONFISEQ_SIZE(loop, 4);
ONFISEQ_SIZE(loops, 18);
ONFISEQ_SIZE(job, 48);
ONFISEQ_SIZE(live, 3280);
ONFISEQ_SIZE(burst, 24);
ONFISEQ_SIZE(turn, 96);
ONFISEQ_SIZE(step, 8);
ONFISEQ_SIZE(abi, 80);
ONFISEQ_SIZE(sample, 120);
ONFISEQ_SIZE(live_abi, 64);
ONFISEQ_SIZE(live_sample, 152);
#undef ONFISEQ_SIZE

#ifdef __cplusplus
}
#endif
#endif

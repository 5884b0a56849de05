/* onfiseq in one C file: every call of onfiseq.h but onfiseq_picture and onfiseq_notes, for any processor with a C99 compiler. It was written by tools/machines:
 * don't edit it.
 *
 *     cc -O2 -c onfiseq.c
 *
 * It is the WebAssembly module of the proved libraries, turned to C by wasm2c of wabt, between what runs such a module and what copies a call's records into
 * its memory and out. It needs memcpy, memmove and memset, and malloc's kin unless ONFISEQ_MEMORY says otherwise:
 *
 *     ONFISEQ_WITHOUT_VERIFY, ONFISEQ_WITHOUT_RUN, ONFISEQ_WITHOUT_TEXT, ONFISEQ_WITHOUT_LIVE
 *                         leave out the calls of libonfiseq_verify_c.a, of these onfiseq_verify_run alone, of libonfiseq_text_c.a, of libonfiseq_live_c.a, and all
 *                         that no other call needs.
 *     ONFISEQ_STACK       how much of the memory is the stack of the calls. The least for each set of calls has a name below, as ONFISEQ_STACK_PUSH. A call for
 *                         which it isn't enough answers 'O'.
 *     ONFISEQ_MEMORY      the memory is a static array of so many bytes: the stack, the data, and room for what a call is given. Without it, each thread has a
 *                         memory, which is taken by calloc at its first call, grows as its calls need it, and is kept.
 *     ONFISEQ_ROOM        a function of yours that lends the memory of whoever calls: void *ONFISEQ_ROOM(void) gives ONFISEQ_MEMORY bytes, at a multiple of 8,
 *                         which are all 0 before their first call; NULL where there is none. With one memory for each, any number of threads, tasks and
 *                         interrupts may be in the calls at once.
 *     ONFISEQ_THREAD      what the compiler calls a variable of each thread: _Thread_local, __thread or __declspec(thread), if nothing is said.
 *                         Defined as nothing, there is one memory for all, and one thread at a time may be in the calls.
 *     ONFISEQ_DIRECT      for a processor of 32 bits with its lowest byte first: the module's addresses are the processor's own. Records stay where they are, the
 *                         data are constants of the program, and the memory is the stack of the calls and what onfiseq_verify and the assembler ask for.
 *                         Without ONFISEQ_MEMORY it is the stack alone. Nothing is tested, as with ONFISEQ_UNCHECKED.
 *     ONFISEQ_UNCHECKED   leaves out the test of each load and store against the memory's end, which the proofs make needless.
 *     ONFISEQ_TRAP(why)   is called where the module can't go on, which the proofs exclude, and must not come back. Without it, abort is called, and BUG in a kernel.
 *
 * Where there is no memory for a call, it answers 'O' and changes nothing: the code ONFISEQ_NO_MEMORY, or that letter in its answer. So does a call that comes
 * while another is in the same memory, as from a signal's handler. Without ONFISEQ_MEMORY threads may be in the calls at once, each with records of its own. */
#include "onfiseq.h"
#ifdef __KERNEL__
#include <linux/bug.h>
#define HAS_64_BITS (BITS_PER_LONG == 64)
#else
#include <stdlib.h>
#include <string.h>
#define HAS_64_BITS (SIZE_MAX > 0xffffffffu)
#endif

#ifdef ONFISEQ_DIRECT
#define IS_DIRECT 1
#define IS_CHECKED 0
#else
#define IS_DIRECT 0
#ifndef ONFISEQ_MEMORY
#define ONFISEQ_MEMORY 0
#endif
#ifdef ONFISEQ_UNCHECKED
#define IS_CHECKED 0
#else
#define IS_CHECKED 1
#endif
#endif
#if defined(__BYTE_ORDER__) && defined(__ORDER_LITTLE_ENDIAN__)
#define IS_LITTLE_ENDIAN (__BYTE_ORDER__ == __ORDER_LITTLE_ENDIAN__)
#elif defined(_MSC_VER)
#define IS_LITTLE_ENDIAN 1
#else
#define IS_LITTLE_ENDIAN 0
#endif
#if IS_DIRECT && (!IS_LITTLE_ENDIAN || UINTPTR_MAX != 0xffffffffu)
#error "ONFISEQ_DIRECT is for processors of 32 bits with their lowest byte first"
#endif
#if defined(ONFISEQ_ROOM) && !ONFISEQ_MEMORY
#error "ONFISEQ_MEMORY says how many bytes ONFISEQ_ROOM lends"
#endif
#ifndef ONFISEQ_TRAP
#ifdef __KERNEL__
#define ONFISEQ_TRAP(why) BUG()
#else
#define ONFISEQ_TRAP(why) abort()
#endif
#endif
#ifndef ONFISEQ_THREAD
#if ONFISEQ_MEMORY || IS_DIRECT || defined(__TINYC__)
#define ONFISEQ_THREAD
#elif defined(__STDC_VERSION__) && __STDC_VERSION__ >= 201112L && !defined(__STDC_NO_THREADS__)
#define ONFISEQ_THREAD _Thread_local
#elif defined(_MSC_VER)
#define ONFISEQ_THREAD __declspec(thread)
#elif defined(__GNUC__)
#define ONFISEQ_THREAD __thread
#else
#define ONFISEQ_THREAD
#endif
#endif

/* NUMBERS */
/* ---- what a module runs on */

typedef uint8_t u8;
typedef int8_t s8;
typedef uint16_t u16;
typedef int16_t s16;
typedef uint32_t u32;
typedef int32_t s32;
typedef uint64_t u64;
typedef int64_t s64;

enum { OUT_OF_MEMORY = 1, DIVISION_BY_ZERO, UNREACHED };

#ifdef __GNUC__
__attribute__((noreturn, cold))
#endif
static void stop(int why) {
    (void)why;
    ONFISEQ_TRAP(why);
    for (;;) {
    }
}

/* How far from the begin of the memory a place is. On a processor of 32 bits a sum past it begins anew; what it leads to is tested as ever. */
#if HAS_64_BITS
typedef u64 distance;
#else
typedef u32 distance;
#endif

struct memory {
    u8 *data;
    distance size; /* without the last LONGEST bytes, so that a number that begins within it stands in the memory */
};
enum { LONGEST = 8 };

#if IS_DIRECT
/* A place is the processor's own. An address of the data is a constant of the linker. */
static inline u8 *place(const struct memory *memory, u64 at, u64 count) {
    (void)memory, (void)count;
    return (u8 *)(uintptr_t)at;
}
static inline u8 *number_at(const struct memory *memory, u64 at) { return place(memory, at, LONGEST); }
typedef const u8 *address;
#define DATA(at) ((u32)(uintptr_t)&data + (at))
#define ADDRESS(at) (const u8 *)&data + (at)
#else
/* The memory begins where the stack does: places below are none, as there is no more stack than ONFISEQ_STACK. */
#define LOWEST (STACK_END - STACK_BYTES)

/* The place of so many bytes. */
static inline u8 *place(const struct memory *memory, u64 at, u64 count) {
    distance from = (distance)at - LOWEST;
    if (IS_CHECKED && (count > memory->size || from > memory->size - (distance)count)) stop(OUT_OF_MEMORY);
    return memory->data + from;
}

/* The place of a number. */
static inline u8 *number_at(const struct memory *memory, u64 at) {
    distance from = (distance)at - LOWEST;
    if (IS_CHECKED && from > memory->size) stop(OUT_OF_MEMORY);
    return memory->data + from;
}
typedef u8 address[4];
#define DATA(at) (STACK_END + (at))
#define BYTE_OF(number, k) (u8)((number) >> 8 * (k))
#define ADDRESS(at) {BYTE_OF(DATA(at), 0), BYTE_OF(DATA(at), 1), BYTE_OF(DATA(at), 2), BYTE_OF(DATA(at), 3)}
#endif

/* Numbers stand in the memory with their lowest byte first, in whatever order the processor has them; `aligned` is what their place is a multiple of. */
#ifdef __GNUC__
#define ALIGNED __attribute__((aligned(16)))
#define ALIGNED_TO_8 __attribute__((aligned(8))) /* what the module answers stands at such a place, whatever it is made of */
#else
#define ALIGNED
#define ALIGNED_TO_8
#endif
#if IS_DIRECT && defined(__GNUC__)
#define NUMBER(bits, name, multiple)                                                                              \
    typedef u##bits __attribute__((may_alias, aligned(multiple))) standing##name;                                 \
    static inline u##bits get##name(const u8 *at) { return *(const standing##name *)at; }                         \
    static inline void put##name(u8 *at, u##bits it) { *(standing##name *)at = it; }
#elif IS_LITTLE_ENDIAN
#define NUMBER(bits, name, multiple)                                                                              \
    static inline u##bits get##name(const u8 *at) {                                                               \
        u##bits it;                                                                                               \
        memcpy(&it, at, sizeof it);                                                                               \
        return it;                                                                                                \
    }                                                                                                             \
    static inline void put##name(u8 *at, u##bits it) { memcpy(at, &it, sizeof it); }
#else
#define NUMBER(bits, name, multiple)                                                                              \
    static inline u##bits get##name(const u8 *at) {                                                               \
        u64 it = 0;                                                                                               \
        for (int k = 0; k < bits / 8; k++) it |= (u64)at[k] << 8 * k;                                             \
        return (u##bits)it;                                                                                       \
    }                                                                                                             \
    static inline void put##name(u8 *at, u##bits it) {                                                            \
        for (int k = 0; k < bits / 8; k++) at[k] = (u8)((u64)it >> 8 * k);                                        \
    }
#endif
NUMBER(8, 8, 1)
NUMBER(16, 16, 2)
NUMBER(16, 16_align1, 1)
NUMBER(32, 32, 4)
NUMBER(32, 32_align1, 1)
NUMBER(32, 32_align2, 2)
NUMBER(64, 64, 8)
NUMBER(64, 64_align1, 1)
NUMBER(64, 64_align2, 2)
NUMBER(64, 64_align4, 4)

/* The instructions of WebAssembly that the module has. */
#ifdef __GNUC__
#define INSTRUCTION __attribute__((unused)) static inline
#else
#define INSTRUCTION static inline
#endif
#define LOAD(name, answer, number, extended) \
    INSTRUCTION answer name(const struct memory *memory, u64 at) { return extended(get##number(number_at(memory, at))); }
#define STORE(name, given, number, bits) \
    INSTRUCTION void name(const struct memory *memory, u64 at, given it) { put##number(number_at(memory, at), (u##bits)it); }
#define AS_IT_IS(it) (it)
#define SIGNED_32(it) ((u32)(s32)(s8)(it))
#define SIGNED_32_OF_16(it) ((u32)(s32)(s16)(it))
#define SIGNED_64(it) ((u64)(s64)(s8)(it))
#define SIGNED_64_OF_16(it) ((u64)(s64)(s16)(it))
#define SIGNED_64_OF_32(it) ((u64)(s64)(s32)(it))
LOAD(i32_load8_u, u32, 8, AS_IT_IS)
LOAD(i64_load8_u, u64, 8, AS_IT_IS)
LOAD(i32_load8_s, u32, 8, SIGNED_32)
LOAD(i64_load8_s, u64, 8, SIGNED_64)
STORE(i32_store8, u32, 8, 8)
STORE(i64_store8, u64, 8, 8)
/* The others, at a multiple of their size, or of less where their name says so. */
#define OF_16(aligned)                                                                                            \
    LOAD(i32_load16_u##aligned, u32, 16##aligned, AS_IT_IS)                                                       \
    LOAD(i64_load16_u##aligned, u64, 16##aligned, AS_IT_IS)                                                       \
    LOAD(i32_load16_s##aligned, u32, 16##aligned, SIGNED_32_OF_16)                                                \
    LOAD(i64_load16_s##aligned, u64, 16##aligned, SIGNED_64_OF_16)                                                \
    STORE(i32_store16##aligned, u32, 16##aligned, 16)                                                             \
    STORE(i64_store16##aligned, u64, 16##aligned, 16)
#define OF_32(aligned)                                                                                            \
    LOAD(i32_load##aligned, u32, 32##aligned, AS_IT_IS)                                                           \
    LOAD(i64_load32_u##aligned, u64, 32##aligned, AS_IT_IS)                                                       \
    LOAD(i64_load32_s##aligned, u64, 32##aligned, SIGNED_64_OF_32)                                                \
    STORE(i32_store##aligned, u32, 32##aligned, 32)                                                               \
    STORE(i64_store32##aligned, u64, 32##aligned, 32)
#define OF_64(aligned)                                                                                            \
    LOAD(i64_load##aligned, u64, 64##aligned, AS_IT_IS)                                                           \
    STORE(i64_store##aligned, u64, 64##aligned, 64)
OF_16()
OF_16(_align1)
OF_32()
OF_32(_align1)
OF_32(_align2)
OF_64()
OF_64(_align1)
OF_64(_align2)
OF_64(_align4)

INSTRUCTION void memory_fill(const struct memory *memory, u32 at, u32 value, u32 count) { memset(place(memory, at, count), (int)(u8)value, count); }

INSTRUCTION void memory_copy(const struct memory *to_memory, const struct memory *from_memory, u32 to, u32 from, u32 count) {
    memmove(place(to_memory, to, count), place(from_memory, from, count), count);
}

/* The stores of a function that writes out a record, those side by side joined. In a line they would have each of their places kept in that function's frame. */
#ifdef __GNUC__
#define APART __attribute__((unused, __noinline__)) static
#else
#define APART static inline
#endif
APART void fill_zeros(const struct memory *memory, u32 base, u32 from, u32 count) { memset(place(memory, (u64)base + from, count), 0, count); }

APART void copy_bytes(const struct memory *memory, u32 base, u32 to, u32 of, u32 from, u32 count) {
    memmove(place(memory, (u64)base + to, count), place(memory, (u64)of + from, count), count);
}

INSTRUCTION u32 I64_POPCNT_32(u64 it) {
    u32 count = 0;
    for (; it != 0; it &= it - 1) count++;
    return count;
}
INSTRUCTION u32 zeros_above(u64 it, u32 bits) {
#ifdef __GNUC__
    return it == 0 ? bits : (u32)__builtin_clzll(it) - (64 - bits);
#else
    u32 count = 0;
    for (; count < bits && (it >> (bits - 1 - count) & 1) == 0; count++) {
    }
    return count;
#endif
}
INSTRUCTION u32 zeros_below(u64 it, u32 bits) {
#ifdef __GNUC__
    return it == 0 ? bits : (u32)__builtin_ctzll(it);
#else
    u32 count = 0;
    for (; count < bits && (it >> count & 1) == 0; count++) {
    }
    return count;
#endif
}
#define I32_CLZ(it) zeros_above(it, 32)
#define I64_CLZ(it) zeros_above(it, 64)
#define I32_CTZ(it) zeros_below(it, 32)
#define I64_CTZ(it) zeros_below(it, 64)
#define I32_POPCNT(it) I64_POPCNT_32(it)
#define I64_POPCNT(it) I64_POPCNT_32(it)
#define DIV_U(x, y) ((y) == 0 ? (stop(DIVISION_BY_ZERO), (x)) : (x) / (y))
#define REM_U(x, y) ((y) == 0 ? (stop(DIVISION_BY_ZERO), (x)) : (x) % (y))
#define ROTATED(x, left, right, mask) ((x) << ((left) & (mask)) | (x) >> ((right) & (mask)))
#define I32_ROTL(x, y) ROTATED(x, y, 32 - ((y)&31), 31)
#define I64_ROTL(x, y) ROTATED(x, y, 64 - ((y)&63), 63)
#define I32_ROTR(x, y) ROTATED(x, 32 - ((y)&31), y, 31)
#define I64_ROTR(x, y) ROTATED(x, 64 - ((y)&63), y, 63)
#define UNREACHABLE stop(UNREACHED)

/* A call's module: it is begun anew for each call, over the memory of whoever calls. */
struct module {
    struct memory memory;
    u32 stack_pointer;
    u64 room_at, last_block; /* where the room is free, and the block that stands last in it */
    volatile u8 *marks;
};

/* What it asks for: memory, for onfiseq_verify and the assembler. */
INSTRUCTION void module_alloc(struct module *module, u32 answer, u64 size, u64 alignment);
INSTRUCTION void module_realloc(struct module *module, u32 answer, u32 old, u64 kept, u64 size, u64 alignment);
INSTRUCTION void module_dealloc(struct module *module, u32 old);

/* ---- the module */


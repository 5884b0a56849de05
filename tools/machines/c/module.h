/* onfiseq, the whole program as C, for any POSIX system with a C99 compiler. It was written by tools/machines: don't edit it.
 *
 *     cc -O1 *.c -o onfiseq -pthread
 *
 * It is the WebAssembly module of the proved program, turned to C (module_*.c), and what gives it memory, files, words and threads of the system (system.c).
 *
 *     ONFISEQ_ONE_THREAD   for systems without threads: `run`, which starts some, then ends as out of memory */
#ifndef MODULE_H
#define MODULE_H
#include <stdbool.h>
#include <stdint.h>
#include <string.h>

typedef uint8_t u8;
typedef int8_t s8;
typedef uint16_t u16;
typedef int16_t s16;
typedef uint32_t u32;
typedef int32_t s32;
typedef uint64_t u64;
typedef int64_t s64;
typedef double f64;

#if defined(__GNUC__) && defined(__BYTE_ORDER__) && __BYTE_ORDER__ == __ORDER_LITTLE_ENDIAN__
#define IS_LITTLE_ENDIAN 1
#else
#define IS_LITTLE_ENDIAN 0
#endif

/* Threads run side by side where each can have a stack of its own and a word of 64 bits can be exchanged at once. Where they can't, one at a time is in the module. */
#if defined(ONFISEQ_ONE_THREAD) || defined(__TINYC__) || !IS_LITTLE_ENDIAN || !defined(__GCC_ATOMIC_LLONG_LOCK_FREE) || __GCC_ATOMIC_LLONG_LOCK_FREE != 2
#define IS_SIDE_BY_SIDE 0
#define PER_THREAD
#else
#define IS_SIDE_BY_SIDE 1
#define PER_THREAD __thread
#endif

#ifdef __GNUC__
#define UNUSED __attribute__((unused))
#define NEVER __attribute__((noreturn, cold))
#else
#define UNUSED
#define NEVER
#endif

/* The module can't go on. */
NEVER void stop(const char *why);
#define UNREACHABLE stop("what cannot be reached")

/* The module's memory has a size that is a power of two. */
extern u8 *module_memory;
extern u32 module_mask;
extern PER_THREAD u32 g0; /* where the module's stack ends */

/* The place of so many bytes. */
static inline u8 *place(u64 at, u64 count) {
    if (at + count > (u64)module_mask + 1) stop("memory that it hasn't");
    return module_memory + at;
}

/* Numbers stand in the memory with their lowest byte first, in whatever order the processor has them. */
#if IS_LITTLE_ENDIAN
#define NUMBER(bits)                                                                 \
    typedef u##bits __attribute__((may_alias, aligned(1))) any##bits;                \
    UNUSED static inline u##bits get##bits(const u8 *at) { return *(const any##bits *)at; } \
    UNUSED static inline void put##bits(u8 *at, u##bits it) { *(any##bits *)at = it; }
#define GET(bits, at) (*(const any##bits *)(at))
#define PUT(bits, at, it) (*(any##bits *)(at) = (u##bits)(it))
#else
#define NUMBER(bits)                                                       \
    UNUSED static u##bits get##bits(const u8 *at) {                        \
        u64 it = 0;                                                        \
        for (int n = 0; n < bits / 8; n++) it |= (u64)at[n] << 8 * n;      \
        return (u##bits)it;                                                \
    }                                                                      \
    UNUSED static void put##bits(u8 *at, u##bits it) {                     \
        for (int n = 0; n < bits / 8; n++) at[n] = (u8)((u64)it >> 8 * n); \
    }
#define GET(bits, at) get##bits(at)
#define PUT(bits, at, it) put##bits(at, (u##bits)(it))
#endif
NUMBER(16)
NUMBER(32)
NUMBER(64)

/* An address of 32 bits: where there is room for all of them, each is in the memory or behind its end, where nothing may be read. Elsewhere it is taken modulo the memory's size. */
#if SIZE_MAX > 0xffffffffu
#define M u8 *const m = module_memory;
#define P(at, offset) (m + (u32)(at) + (offset))
#define PLACE(at, count) P(at, 0)
#else
#define M u8 *const m = module_memory; const u32 k = module_mask;
#define P(at, offset) (m + (((u32)(at) + (u32)(offset)) & k))
#define PLACE(at, count) place((u32)(at), (u32)(count))
#endif
#define FILL(at, it, count) memset(PLACE(at, count), (int)(u8)(it), (u32)(count))
#define COPY(to, from, count) memmove(PLACE(to, count), PLACE(from, count), (u32)(count))
#define L1(at, offset) ((u32)*P(at, offset))
#define L2(at, offset) ((u32)GET(16, P(at, offset)))
#define L4(at, offset) GET(32, P(at, offset))
#define L8(at, offset) GET(64, P(at, offset))
#define LD(at, offset) FLOAT_OF(L8(at, offset))
#define S1(at, offset, it) (*P(at, offset) = (u8)(it))
#define S2(at, offset, it) PUT(16, P(at, offset), it)
#define S4(at, offset, it) PUT(32, P(at, offset), it)
#define S8(at, offset, it) PUT(64, P(at, offset), it)
#define SD(at, offset, it) S8(at, offset, BITS_OF(it))

UNUSED static f64 FLOAT_OF(u64 bits) {
    f64 it;
    memcpy(&it, &bits, sizeof it);
    return it;
}
UNUSED static u64 BITS_OF(f64 it) {
    u64 bits;
    memcpy(&bits, &it, sizeof it);
    return bits;
}
UNUSED static u32 zeros_above(u64 it, u32 bits) {
#ifdef __GNUC__
    return it == 0 ? bits : (u32)__builtin_clzll(it) - (64 - bits);
#else
    u32 count = 0;
    while (count < bits && (it >> (bits - 1 - count) & 1) == 0) count++;
    return count;
#endif
}
UNUSED static u32 zeros_below(u64 it, u32 bits) {
#ifdef __GNUC__
    return it == 0 ? bits : (u32)__builtin_ctzll(it);
#else
    u32 count = 0;
    while (count < bits && (it >> count & 1) == 0) count++;
    return count;
#endif
}
UNUSED static u32 ones_of(u64 it) {
    u32 count = 0;
    for (; it != 0; it &= it - 1) count++;
    return count;
}
#define I32_CLZ(it) zeros_above(it, 32)
#define I64_CLZ(it) (u64) zeros_above(it, 64)
#define I32_CTZ(it) zeros_below(it, 32)
#define I64_CTZ(it) (u64) zeros_below(it, 64)
#define I32_POPCNT(it) ones_of(it)
#define I64_POPCNT(it) (u64) ones_of(it)
#define DIVIDED(bits)                                                                                                     \
    UNUSED static u##bits DIV_U##bits(u##bits x, u##bits y) { return y == 0 ? (stop("a division by zero"), 0) : x / y; }  \
    UNUSED static u##bits REM_U##bits(u##bits x, u##bits y) { return y == 0 ? (stop("a division by zero"), 0) : x % y; }  \
    UNUSED static u##bits I##bits##_ROTL(u##bits x, u##bits y) { return x << (y & (bits - 1)) | x >> (-y & (bits - 1)); } \
    UNUSED static u##bits I##bits##_ROTR(u##bits x, u##bits y) { return x >> (y & (bits - 1)) | x << (-y & (bits - 1)); }
DIVIDED(32)
DIVIDED(64)

/* Writes the constants of the module into its memory. */
void begin_data(void);

/* What a thread may start with, by number. */
extern u32 (*const module_starts[])(u32);


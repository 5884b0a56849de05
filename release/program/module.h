/* onfiseq, the whole program as C, for any POSIX system with a C99 compiler. It was written by tools/machines: don't edit it.
 *
 *     cc -O1 *.c -o onfiseq -pthread
 *
 * It is the WebAssembly module of the proved program, turned to C (module_*.c), and what gives it memory, files, words and threads of the system (system.c).
 *
 *     ONFISEQ_ONE_THREAD   for systems without threads: `run`, which starts some, then ends as out of memory */
#ifndef MODULE_H
#define MODULE_H
#include <stdbool.h>
#include <stdint.h>
#include <string.h>

typedef uint8_t u8;
typedef int8_t s8;
typedef uint16_t u16;
typedef int16_t s16;
typedef uint32_t u32;
typedef int32_t s32;
typedef uint64_t u64;
typedef int64_t s64;
typedef double f64;

#if defined(__GNUC__) && defined(__BYTE_ORDER__) && __BYTE_ORDER__ == __ORDER_LITTLE_ENDIAN__
#define IS_LITTLE_ENDIAN 1
#else
#define IS_LITTLE_ENDIAN 0
#endif

/* Threads run side by side where each can have a stack of its own and a word of 64 bits can be exchanged at once. Where they can't, one at a time is in the module. */
#if defined(ONFISEQ_ONE_THREAD) || defined(__TINYC__) || !IS_LITTLE_ENDIAN || !defined(__GCC_ATOMIC_LLONG_LOCK_FREE) || __GCC_ATOMIC_LLONG_LOCK_FREE != 2
#define IS_SIDE_BY_SIDE 0
#define PER_THREAD
#else
#define IS_SIDE_BY_SIDE 1
#define PER_THREAD __thread
#endif

#ifdef __GNUC__
#define UNUSED __attribute__((unused))
#define NEVER __attribute__((noreturn, cold))
#else
#define UNUSED
#define NEVER
#endif

/* The module can't go on. */
NEVER void stop(const char *why);
#define UNREACHABLE stop("what cannot be reached")

/* The module's memory has a size that is a power of two. */
extern u8 *module_memory;
extern u32 module_mask;
extern PER_THREAD u32 g0; /* where the module's stack ends */

/* The place of so many bytes. */
static inline u8 *place(u64 at, u64 count) {
    if (at + count > (u64)module_mask + 1) stop("memory that it hasn't");
    return module_memory + at;
}

/* Numbers stand in the memory with their lowest byte first, in whatever order the processor has them. */
#if IS_LITTLE_ENDIAN
#define NUMBER(bits)                                                                 \
    typedef u##bits __attribute__((may_alias, aligned(1))) any##bits;                \
    UNUSED static inline u##bits get##bits(const u8 *at) { return *(const any##bits *)at; } \
    UNUSED static inline void put##bits(u8 *at, u##bits it) { *(any##bits *)at = it; }
#define GET(bits, at) (*(const any##bits *)(at))
#define PUT(bits, at, it) (*(any##bits *)(at) = (u##bits)(it))
#else
#define NUMBER(bits)                                                       \
    UNUSED static u##bits get##bits(const u8 *at) {                        \
        u64 it = 0;                                                        \
        for (int n = 0; n < bits / 8; n++) it |= (u64)at[n] << 8 * n;      \
        return (u##bits)it;                                                \
    }                                                                      \
    UNUSED static void put##bits(u8 *at, u##bits it) {                     \
        for (int n = 0; n < bits / 8; n++) at[n] = (u8)((u64)it >> 8 * n); \
    }
#define GET(bits, at) get##bits(at)
#define PUT(bits, at, it) put##bits(at, (u##bits)(it))
#endif
NUMBER(16)
NUMBER(32)
NUMBER(64)

/* An address of 32 bits: where there is room for all of them, each is in the memory or behind its end, where nothing may be read. Elsewhere it is taken modulo the memory's size. */
#if SIZE_MAX > 0xffffffffu
#define M u8 *const m = module_memory;
#define P(at, offset) (m + (u32)(at) + (offset))
#define PLACE(at, count) P(at, 0)
#else
#define M u8 *const m = module_memory; const u32 k = module_mask;
#define P(at, offset) (m + (((u32)(at) + (u32)(offset)) & k))
#define PLACE(at, count) place((u32)(at), (u32)(count))
#endif
#define FILL(at, it, count) memset(PLACE(at, count), (int)(u8)(it), (u32)(count))
#define COPY(to, from, count) memmove(PLACE(to, count), PLACE(from, count), (u32)(count))
#define L1(at, offset) ((u32)*P(at, offset))
#define L2(at, offset) ((u32)GET(16, P(at, offset)))
#define L4(at, offset) GET(32, P(at, offset))
#define L8(at, offset) GET(64, P(at, offset))
#define LD(at, offset) FLOAT_OF(L8(at, offset))
#define S1(at, offset, it) (*P(at, offset) = (u8)(it))
#define S2(at, offset, it) PUT(16, P(at, offset), it)
#define S4(at, offset, it) PUT(32, P(at, offset), it)
#define S8(at, offset, it) PUT(64, P(at, offset), it)
#define SD(at, offset, it) S8(at, offset, BITS_OF(it))

UNUSED static f64 FLOAT_OF(u64 bits) {
    f64 it;
    memcpy(&it, &bits, sizeof it);
    return it;
}
UNUSED static u64 BITS_OF(f64 it) {
    u64 bits;
    memcpy(&bits, &it, sizeof it);
    return bits;
}
UNUSED static u32 zeros_above(u64 it, u32 bits) {
#ifdef __GNUC__
    return it == 0 ? bits : (u32)__builtin_clzll(it) - (64 - bits);
#else
    u32 count = 0;
    while (count < bits && (it >> (bits - 1 - count) & 1) == 0) count++;
    return count;
#endif
}
UNUSED static u32 zeros_below(u64 it, u32 bits) {
#ifdef __GNUC__
    return it == 0 ? bits : (u32)__builtin_ctzll(it);
#else
    u32 count = 0;
    while (count < bits && (it >> count & 1) == 0) count++;
    return count;
#endif
}
UNUSED static u32 ones_of(u64 it) {
    u32 count = 0;
    for (; it != 0; it &= it - 1) count++;
    return count;
}
#define I32_CLZ(it) zeros_above(it, 32)
#define I64_CLZ(it) (u64) zeros_above(it, 64)
#define I32_CTZ(it) zeros_below(it, 32)
#define I64_CTZ(it) (u64) zeros_below(it, 64)
#define I32_POPCNT(it) ones_of(it)
#define I64_POPCNT(it) (u64) ones_of(it)
#define DIVIDED(bits)                                                                                                     \
    UNUSED static u##bits DIV_U##bits(u##bits x, u##bits y) { return y == 0 ? (stop("a division by zero"), 0) : x / y; }  \
    UNUSED static u##bits REM_U##bits(u##bits x, u##bits y) { return y == 0 ? (stop("a division by zero"), 0) : x % y; }  \
    UNUSED static u##bits I##bits##_ROTL(u##bits x, u##bits y) { return x << (y & (bits - 1)) | x >> (-y & (bits - 1)); } \
    UNUSED static u##bits I##bits##_ROTR(u##bits x, u##bits y) { return x >> (y & (bits - 1)) | x << (-y & (bits - 1)); }
DIVIDED(32)
DIVIDED(64)

/* Writes the constants of the module into its memory. */
void begin_data(void);

/* What a thread may start with, by number. */
extern u32 (*const module_starts[])(u32);

#define onfiseq_main w1389
enum { STACK_BEGIN = 8388608, BEHIND = 8585216 };
#define HEAP_BASE 8477616u
void module_w_rattle_realloc(u32, u32, u64, u64, u64);
void module_w_rattle_alloc(u32, u64, u64);
void module_w_rattle_dealloc(u32);
u64 module_write(u32, u32, u64);
u32 module_rattle_errno(void);
u64 module_read(u32, u32, u64);
u32 module_close(u32);
u32 module_open(u32, u32, u32);
void module_rattle_set_errno(u32);
u32 module_statx(u32, u32, u32, u32, u32);
u32 module_realpath(u32, u32);
u32 module_ftruncate(u32, u64);
u32 module_fchmod(u32, u32);
u32 module_fsync(u32);
u32 module_fdatasync(u32);
u32 module_flock(u32, u32);
u32 module_unlink(u32);
u32 module_rename(u32, u32);
u64 module_readlink(u32, u32, u64);
u32 module_clock_gettime(u32, u32);
u64 module_atomic_load(u32);
u64 module_atomic_cmpxchg(u32, u64, u64);
u64 module_atomic_sub(u32, u64);
u32 module_malloc(u64);
u32 module_pthread_attr_init(u32);
u32 module_pthread_attr_setguardsize(u32, u64);
u32 module_pthread_attr_destroy(u32);
u32 module_pthread_create(u32, u32, u32, u32);
void module_free(u32);
void module_atomic_store(u32, u64);
u64 module_syscall(u64, u32, u64, u64, u32, u32);
u64 module_atomic_xchg(u32, u64);
u32 module_pthread_join(u64, u32);
void module_abort(void);
u32 module_sched_yield(void);
u64 module___sysv_signal(u32, u64);
u32 module_isatty(u32);
u64 module_rattle_arg(u64, u32, u64);
u64 module_lseek(u32, u64, u32);
void module__exit(u32);
u64 module_pthread_self(void);
u32 module_pthread_detach(u64);
u32 w0(u32 l0,u64 l1);
void w1(u32 l0,u32 l1,u64 l2);
u64 w2(u32 l0,u64 l1,u64 l2);
u32 w4(u32 l0,u64 l1);
void w5(u32 l0,u32 l1,u32 l2,u32 l3,u32 l4,u32 l5,u32 l6);
u32 w8(u32 l0,u64 l1,u32 l2,u64 l3);
void w13(u32 l0,u32 l1,u32 l2,u32 l3);
void w14(u32 l0,u32 l1,u64 l2);
void w21(u32 l0,u32 l1,u32 l2,u32 l3,u64 l4,u32 l5,u64 l6);
void w22(u32 l0,u32 l1,u32 l2,u64 l3,u32 l4,u64 l5,u32 l6,u32 l7);
u32 w23(u32 l0,u64 l1);
u32 w24(u32 l0,u32 l1);
u32 w25(u32 l0,u32 l1,u64 l2);
void w26(u32 l0,u32 l1,u32 l2,u32 l3);
void w27(u32 l0,u32 l1);
void w28(u32 l0,u32 l1,u32 l2,u64 l3);
void w29(u32 l0,u32 l1);
void w30(u32 l0,u32 l1,u32 l2,u32 l3);
u32 w31(u32 l0);
void w32(u32 l0,u32 l1,u64 l2,u32 l3,u64 l4);
void w33(u32 l0,u32 l1,u32 l2,u32 l3,u32 l4,u32 l5,u32 l6);
u32 w34(u32 l0,u32 l1);
u32 w35(u32 l0,u64 l1);
u32 w36(u32 l0,u32 l1,u64 l2);
u32 w37(u32 l0,u32 l1);
u32 w38(u32 l0,u32 l1,u64 l2);
u32 w39(u32 l0,u32 l1);
void w40(u32 l0,u32 l1,u32 l2,u64 l3);
u32 w41(u32 l0,u32 l1);
u32 w42(u32 l0,u32 l1);
u32 w43(u32 l0,u32 l1,u64 l2);
u32 w44(u32 l0,u32 l1);
void w45(u32 l0,u32 l1,u32 l2,u32 l3,u64 l4,u32 l5,u64 l6);
void w46(u32 l0,u32 l1,u32 l2,u64 l3);
void w47(u32 l0,u32 l1);
u32 w48(u32 l0,u32 l1);
u32 w49(u32 l0,u32 l1);
u32 w50(u32 l0,u32 l1);
u32 w51(u32 l0,u32 l1);
void w52(u32 l0,u32 l1,u32 l2,u64 l3,u32 l4,u64 l5);
void w53(u32 l0,u32 l1,u32 l2);
u32 w54(u32 l0,u32 l1,u64 l2);
u32 w55(u32 l0,u32 l1);
void w56(u32 l0,u32 l1,u32 l2,u32 l3,u64 l4,u64 l5);
void w57(u32 l0,u32 l1);
u32 w58(u32 l0,u32 l1,u64 l2,u32 l3);
void w59(u32 l0,u32 l1);
u32 w60(u32 l0,u32 l1,u64 l2);
u32 w61(u32 l0,u32 l1);
u32 w62(u32 l0,u32 l1,u64 l2);
u32 w64(u32 l0,u64 l1);
void w65(u32 l0,u32 l1,u64 l2);
u32 w66(u32 l0,u32 l1,u64 l2);
u32 w67(u32 l0,u32 l1,u64 l2);
void w68(u32 l0,u32 l1,u32 l2,u64 l3);
void w69(u32 l0,u32 l1,u64 l2,u32 l3);
void w71(u32 l0,u32 l1);
void w72(u32 l0,u32 l1,u32 l2,u64 l3);
u32 w73(u32 l0,u32 l1,u64 l2);
u32 w74(u32 l0,u32 l1,u64 l2);
u32 w75(u32 l0,u64 l1);
void w76(u32 l0,u32 l1,u32 l2);
void w77(u32 l0);
void w78(u32 l0);
u32 w79(u32 l0);
void w80(u32 l0);
void w81(u32 l0);
u32 w82(u32 l0,u64 l1);
void w84(u32 l0,u32 l1,u32 l2,u64 l3);
u64 w85(u32 l0);
u32 w86(u64 l0,u32 l1);
u32 w87(u64 l0,u32 l1);
void w88(u32 l0,u32 l1,u64 l2,u32 l3,u32 l4,u64 l5,u64 l6);
u32 w89(u32 l0,u32 l1,u64 l2,u32 l3);
void w90(u32 l0);
void w91(u32 l0,u32 l1,u64 l2);
void w95(u32 l0,u32 l1);
void w96(u32 l0,u32 l1,u32 l2,u64 l3,u32 l4,u32 l5,u32 l6,u64 l7);
u32 w97(u32 l0,u32 l1);
u32 w98(u32 l0,u32 l1);
void w101(u32 l0,u32 l1,u32 l2,u64 l3,u32 l4,u32 l5);
void w102(u32 l0,u32 l1,u32 l2,u64 l3);
void w103(u32 l0,u32 l1,u32 l2,u64 l3);
u32 w104(u32 l0,u32 l1);
u32 w105(u32 l0,u32 l1);
void w106(u32 l0);
void w107(u32 l0);
u32 w108(u32 l0,u64 l1,u32 l2);
u32 w109(u32 l0);
void w111(u32 l0,u32 l1,u32 l2,u64 l3,u32 l4,u32 l5);
u32 w112(u32 l0,u32 l1,u64 l2,u32 l3,u64 l4);
u32 w113(u32 l0,u32 l1);
u32 w114(u32 l0,u32 l1,u64 l2);
u32 w116(u32 l0,u32 l1);
u32 w117(u32 l0,u32 l1,u64 l2);
void w118(u32 l0,u32 l1,u32 l2);
void w120(u32 l0,u32 l1);
u32 w122(u32 l0,u32 l1,u64 l2,u32 l3,u32 l4);
void w126(u32 l0,u32 l1,u32 l2);
void w129(u32 l0,u32 l1,u32 l2,u32 l3,u64 l4);
u32 w130(u32 l0,u32 l1,u32 l2,u32 l3,u64 l4);
void w132(u32 l0,u32 l1,u32 l2,u64 l3,u32 l4);
void w135(u32 l0,u32 l1,u64 l2);
void w136(u32 l0,u32 l1,u64 l2);
void w137(u32 l0,u32 l1,u32 l2,u32 l3,u32 l4,u32 l5,u32 l6,u64 l7,u32 l8);
void w138(u32 l0,u32 l1,u32 l2,u32 l3,u32 l4,u32 l5,u32 l6);
void w139(u32 l0,u32 l1,u32 l2,u32 l3);
void w140(u32 l0,u32 l1,u32 l2,u64 l3,u32 l4);
void w141(u32 l0,u32 l1,u32 l2,u64 l3,u32 l4,u32 l5,u32 l6);
void w142(u32 l0,u32 l1,u32 l2,u64 l3);
u32 w143(u32 l0,u32 l1,u32 l2);
u32 w144(u32 l0,u32 l1,u32 l2);
void w145(u32 l0,u32 l1,u32 l2,u64 l3,u32 l4,u64 l5,u32 l6);
void w146(u32 l0,u32 l1);
void w147(u32 l0,u32 l1,u32 l2);
void w148(u32 l0,u32 l1,u32 l2,u64 l3,u32 l4,u64 l5,u32 l6);
void w149(u32 l0,u32 l1,u32 l2,u64 l3,u32 l4,u32 l5,u32 l6);
void w150(u32 l0,u32 l1,u32 l2,u64 l3,u32 l4);
void w151(u32 l0,u32 l1,u32 l2);
void w154(u32 l0,u32 l1,u64 l2);
u32 w163(u32 l0);
void w164(u32 l0,u32 l1,u64 l2);
u32 w167(u32 l0,u32 l1);
u32 w171(u32 l0,u64 l1,u32 l2,u64 l3);
void w174(u32 l0,u64 l1,u64 l2);
void w175(u32 l0,u64 l1);
void w181(u32 l0,u32 l1,u32 l2,u64 l3);
void w185(u32 l0,u32 l1,u64 l2);
u32 w187(u32 l0,u32 l1,u64 l2);
u32 w198(u32 l0,u32 l1,u32 l2);
u32 w199(u32 l0,u32 l1);
void w200(u32 l0,u32 l1,u32 l2,u64 l3,u32 l4,u32 l5,u64 l6);
void w201(u32 l0,u32 l1,u32 l2,u64 l3,u64 l4,u64 l5,u32 l6);
void w202(u32 l0,u32 l1,u32 l2,u64 l3,u64 l4,u64 l5,u32 l6);
void w203(u32 l0,u32 l1,u32 l2,u32 l3,u64 l4,u32 l5);
void w204(u32 l0,u32 l1,u32 l2,u32 l3,u64 l4,u32 l5);
void w205(u32 l0,u32 l1,u32 l2,u32 l3,u64 l4,u32 l5);
u32 w215(u32 l0,u64 l1,u32 l2,u64 l3,u32 l4);
void w216(u32 l0,u64 l1,u32 l2,u64 l3,u64 l4,u64 l5);
void w217(u32 l0,u64 l1,u64 l2,u64 l3);
u64 w218(u32 l0,u32 l1,u64 l2,u64 l3,u64 l4,u64 l5);
void w219(u32 l0,u32 l1,u64 l2,u32 l3);
void w220(u32 l0,u32 l1,u64 l2,u32 l3,u64 l4);
void w221(u32 l0,u32 l1,u32 l2,u64 l3,u32 l4,u64 l5,u32 l6,u64 l7);
u32 w222(u32 l0,u32 l1);
void w223(u32 l0,u32 l1,u32 l2,u64 l3,u32 l4,u64 l5,u32 l6);
u32 w224(u32 l0,u32 l1);
u32 w226(u32 l0,u64 l1,u32 l2,u64 l3);
u32 w227(u32 l0,u64 l1,u32 l2,u64 l3);
u32 w228(u32 l0,u64 l1);
u32 w230(u32 l0,u32 l1,u32 l2,u64 l3,u32 l4);
u32 w231(u32 l0);
void w232(u32 l0,u32 l1,u32 l2,u64 l3,u32 l4,u64 l5,u32 l6);
void w238(u32 l0,u32 l1);
u32 w239(u32 l0,u32 l1,u64 l2,u32 l3,u64 l4);
void w240(u32 l0,u32 l1,u32 l2,u32 l3,u32 l4);
void w242(u32 l0,u32 l1);
u32 w243(u32 l0);
void w244(u32 l0,u32 l1,u32 l2,u64 l3);
u32 w245(u32 l0,u32 l1,u64 l2);
void w246(u32 l0,u32 l1,u32 l2,u64 l3);
void w247(u32 l0,u32 l1,u64 l2);
void w248(u32 l0,u32 l1);
void w249(u32 l0,u32 l1);
void w250(u32 l0,u32 l1);
u32 w251(u32 l0,u64 l1,u32 l2);
void w252(u32 l0,u32 l1,u32 l2,u64 l3);
void w253(u32 l0,u32 l1,u32 l2,u64 l3);
void w254(u32 l0,u32 l1);
void w255(u32 l0,u64 l1);
u32 w256(u32 l0,u64 l1);
void w257(u32 l0,u32 l1,u32 l2,u32 l3);
void w258(u32 l0,u32 l1,u32 l2);
void w259(u32 l0,u32 l1,u64 l2,u32 l3,u32 l4);
void w260(u32 l0);
void w261(u32 l0,u32 l1,u32 l2,u32 l3,u64 l4);
void w262(u32 l0,u32 l1,u32 l2);
void w263(u32 l0,u64 l1);
void w264(u32 l0,u32 l1,u32 l2,u64 l3,u64 l4);
u32 w265(u32 l0,u64 l1);
void w266(u32 l0,u32 l1,u32 l2,u32 l3,u32 l4,u64 l5);
void w267(u32 l0,u32 l1,u32 l2,u64 l3);
void w268(u32 l0,u32 l1,u32 l2);
void w269(u32 l0,u32 l1,u32 l2);
void w270(u32 l0,u32 l1,u32 l2,u32 l3,u32 l4,u64 l5);
void w271(u32 l0,u32 l1,u32 l2,u32 l3);
void w272(u32 l0,u32 l1,u32 l2,u32 l3,u32 l4,u32 l5,u32 l6);
void w273(u32 l0,u32 l1,u32 l2,u32 l3,u32 l4,u64 l5);
void w274(u32 l0,u32 l1);
void w275(u32 l0,u32 l1,u32 l2,u64 l3,u32 l4);
void w276(u32 l0,u32 l1,u32 l2,u64 l3,u32 l4);
void w277(u32 l0,u32 l1,u32 l2,u32 l3,u64 l4,u32 l5);
void w278(u32 l0,u32 l1,u64 l2);
void w279(u32 l0,u32 l1,u32 l2,u64 l3,u32 l4,u64 l5);
void w280(u32 l0,u32 l1,u32 l2);
void w281(u32 l0);
u32 w282(u32 l0,u32 l1,u64 l2,u64 l3);
void w283(u32 l0,u32 l1,u32 l2,u32 l3);
void w284(u32 l0,u32 l1);
u32 w285(u32 l0,u32 l1);
void w286(u32 l0,u32 l1);
u32 w287(u32 l0,u32 l1);
void w289(u32 l0,u32 l1,u32 l2,u64 l3);
void w290(u32 l0,u32 l1,u32 l2,u32 l3);
void w292(u32 l0,u32 l1,u64 l2);
void w293(u32 l0,u32 l1,u32 l2,u64 l3);
void w294(u32 l0,u32 l1,u32 l2);
void w296(u32 l0,u32 l1,u32 l2,u64 l3);
void w297(u32 l0,u32 l1,u32 l2,u64 l3,u32 l4);
u32 w298(u32 l0,u64 l1);
void w299(u32 l0,u32 l1);
u32 w300(u32 l0,u32 l1);
u32 w301(u32 l0,u32 l1);
u32 w302(u32 l0,u32 l1,u64 l2);
u32 w304(u32 l0,u32 l1,u64 l2);
void w306(u32 l0,u32 l1,u32 l2,u64 l3);
void w307(u32 l0,u32 l1,u64 l2);
u32 w308(u32 l0,u64 l1);
void w309(u32 l0,u32 l1,u32 l2,u32 l3,u64 l4);
u32 w310(u32 l0);
void w311(u32 l0,u32 l1,u64 l2,u64 l3);
u32 w312(u32 l0,u32 l1);
u32 w314(u32 l0,u32 l1,u64 l2);
u32 w315(u32 l0,u32 l1,u64 l2);
u32 w316(u32 l0,u32 l1);
void w317(u32 l0,u32 l1);
void w318(u32 l0,u32 l1,u32 l2,u64 l3,u32 l4,u64 l5,u32 l6,u64 l7);
void w319(u32 l0,u32 l1);
u32 w320(u32 l0);
void w321(u32 l0,u32 l1,u32 l2,u64 l3);
void w322(u32 l0);
void w323(u32 l0);
void w324(u32 l0,u32 l1);
u32 w326(u32 l0,u64 l1);
void w328(u32 l0);
u32 w329(u32 l0,u64 l1);
void w330(u32 l0,u32 l1,u64 l2);
void w331(u32 l0,u32 l1,u64 l2);
void w332(u32 l0);
void w333(u32 l0,u32 l1,u64 l2);
u32 w335(u32 l0,u32 l1,u64 l2,u32 l3,u64 l4);
void w336(u32 l0,u32 l1,u32 l2,u64 l3,u32 l4);
void w338(u32 l0,u64 l1,u32 l2,u64 l3);
void w341(u32 l0,u32 l1,u64 l2,u32 l3,u64 l4,u32 l5);
void w342(u32 l0,u32 l1,u64 l2);
void w343(u32 l0,u32 l1,u64 l2,u32 l3,u64 l4,u32 l5,u32 l6);
void w344(u32 l0,u32 l1);
u32 w346(u32 l0,u64 l1);
void w347(u32 l0,u32 l1,u64 l2,u32 l3);
void w352(u32 l0,u32 l1,u64 l2,u32 l3);
void w357(u32 l0,u32 l1);
u32 w360(u32 l0,u32 l1);
u32 w362(u32 l0,u32 l1,u64 l2);
void w363(u32 l0,u32 l1,u32 l2,u64 l3,u64 l4);
u32 w365(u32 l0,u64 l1);
void w369(u32 l0,u32 l1,u64 l2,u32 l3,u32 l4,u32 l5,u32 l6,u64 l7);
void w370(u32 l0,u32 l1,u32 l2,u32 l3,u64 l4);
void w372(u32 l0,u32 l1,u32 l2,u32 l3);
void w373(u32 l0,u32 l1,u32 l2);
void w374(u32 l0,u32 l1,u32 l2,u32 l3,u32 l4,u64 l5);
u32 w375(u32 l0,u32 l1);
u32 w378(u32 l0,u32 l1);
void w379(u32 l0,u32 l1,u32 l2,u32 l3,u64 l4,u32 l5);
void w382(u32 l0,u32 l1,u64 l2);
u32 w383(u32 l0,u64 l1);
void w385(u32 l0,u32 l1,u32 l2,u32 l3,u64 l4);
void w387(u32 l0,u32 l1,u32 l2,u32 l3,u64 l4,u32 l5);
void w389(u32 l0,u32 l1,u32 l2);
void w390(u32 l0,u32 l1,u32 l2,u32 l3,u64 l4);
u32 w391(u32 l0,u32 l1);
void w392(u32 l0,u32 l1,u32 l2);
void w393(u32 l0,u32 l1,u32 l2,u32 l3,u64 l4);
void w398(u32 l0,u32 l1,u32 l2,u32 l3);
void w399(u32 l0,u32 l1,u32 l2,u32 l3);
void w400(u32 l0,u32 l1,u32 l2,u32 l3,u32 l4,u32 l5,u32 l6);
void w402(u32 l0,u32 l1);
void w403(u32 l0,u32 l1,u32 l2);
void w404(u32 l0,u32 l1,u32 l2);
void w405(u32 l0,u32 l1);
void w406(u32 l0,u32 l1);
u32 w407(u32 l0);
u32 w408(u32 l0);
u32 w409(u32 l0);
u32 w410(u32 l0,u32 l1,u64 l2);
u32 w411(u32 l0);
void w412(u32 l0,u32 l1,u32 l2,u32 l3,u32 l4,u32 l5,u64 l6);
u32 w413(u32 l0);
u32 w415(u32 l0,u64 l1);
void w416(u32 l0,u32 l1,u32 l2,u32 l3,u32 l4,u32 l5);
void w417(u32 l0,u32 l1,u32 l2,u64 l3,u32 l4,u32 l5,u64 l6);
void w418(u32 l0,u32 l1,u32 l2,u64 l3);
void w419(u32 l0,u32 l1,u32 l2,u32 l3,u64 l4,u32 l5,u32 l6);
void w420(u32 l0,u32 l1,u64 l2);
void w421(u32 l0,u64 l1,u64 l2,u32 l3,u32 l4);
void w422(u32 l0,u32 l1,u64 l2,u64 l3,u64 l4,u32 l5,u32 l6,u64 l7,u64 l8,u32 l9);
u32 w423(u32 l0);
void w424(u32 l0,u32 l1,u32 l2,u32 l3,u64 l4,u32 l5,u32 l6,u64 l7);
void w425(u32 l0,u32 l1,u32 l2,u32 l3);
void w426(u32 l0,u32 l1,u64 l2,u32 l3,u32 l4,u32 l5);
void w427(u32 l0,u32 l1,u32 l2,u32 l3);
u32 w428(u32 l0);
void w429(u32 l0,u32 l1,u32 l2);
void w430(u32 l0,u32 l1,u32 l2,u64 l3,u32 l4);
void w431(u32 l0,u32 l1,u32 l2,u64 l3,u32 l4);
void w432(u32 l0,u32 l1,u32 l2,u32 l3);
u32 w434(u32 l0,u64 l1,u32 l2,u32 l3,u64 l4);
u32 w435(u32 l0,u32 l1,u32 l2,u32 l3);
void w436(u32 l0,u64 l1,u32 l2);
u64 w437(u32 l0,u64 l1,u64 l2,u64 l3,u64 l4);
void w438(u32 l0,u64 l1,u32 l2);
void w441(u32 l0,u32 l1,u32 l2,u64 l3);
void w442(u32 l0,u32 l1,u32 l2,u32 l3,u64 l4);
u32 w443(u32 l0);
u32 w444(u32 l0,u64 l1);
void w445(u32 l0,u32 l1,u32 l2);
void w448(u32 l0,u32 l1,u32 l2);
void w449(u32 l0,u32 l1,u32 l2);
void w450(u32 l0,u32 l1,u32 l2,u32 l3,u32 l4);
u32 w451(u32 l0,u32 l1,u64 l2);
u32 w452(u32 l0,u32 l1);
void w455(u32 l0);
void w456(u32 l0,u32 l1);
u32 w461(u32 l0,u64 l1);
void w462(u32 l0,u32 l1,u32 l2,u32 l3,u32 l4);
u64 w463(u32 l0,u32 l1,u64 l2);
void w464(u32 l0,u32 l1,u32 l2,u32 l3,u32 l4,u32 l5,u32 l6,u64 l7);
u32 w465(u32 l0,u32 l1,u32 l2);
void w466(u32 l0,u32 l1,u32 l2,u32 l3,u32 l4);
void w468(u32 l0,u32 l1);
void w473(u32 l0,u32 l1,u32 l2);
u32 w479(u32 l0);
void w480(u32 l0,u32 l1,u32 l2,u32 l3);
u32 w481(u32 l0);
u32 w482(u32 l0,u32 l1,u64 l2,u32 l3);
void w483(u32 l0,u64 l1,u32 l2);
void w484(u32 l0,u64 l1,u32 l2);
u32 w485(u32 l0,u32 l1);
void w486(u32 l0);
void w487(u32 l0);
void w488(u32 l0,u64 l1,u64 l2,u32 l3);
void w489(u32 l0,u32 l1,u64 l2);
void w490(u32 l0,u64 l1);
void w500(u32 l0,u32 l1,u32 l2,u64 l3,u32 l4,u64 l5);
void w501(u32 l0,u32 l1);
void w502(u32 l0,u32 l1,u32 l2,u64 l3);
void w503(u32 l0,u32 l1,u64 l2,u32 l3,u64 l4);
void w504(u32 l0,u32 l1,u32 l2,u64 l3);
void w505(u32 l0,u32 l1);
void w506(u32 l0);
void w508(u32 l0,u32 l1);
void w509(u32 l0,u32 l1);
void w511(u32 l0,u32 l1,u64 l2);
u32 w512(u32 l0,u64 l1);
u32 w513(u32 l0,u32 l1);
u32 w514(u32 l0,u32 l1,u64 l2);
void w517(u32 l0);
u32 w518(u32 l0,u64 l1);
u32 w519(u32 l0,u32 l1,u64 l2);
u32 w520(u32 l0,u32 l1);
u32 w521(u32 l0,u32 l1);
u32 w522(u32 l0,u32 l1,u64 l2);
u32 w525(u32 l0);
u32 w526(u32 l0,u32 l1);
u32 w527(u32 l0,u32 l1);
void w528(u32 l0,u32 l1,u32 l2,u32 l3,u64 l4,u32 l5,u64 l6);
void w529(u32 l0,u32 l1,u32 l2,u64 l3);
void w530(u32 l0,u32 l1,u32 l2,u64 l3,u32 l4,u64 l5);
void w531(u32 l0,u32 l1,u32 l2);
u32 w532(u32 l0,u32 l1);
u32 w533(u32 l0,u32 l1);
u32 w534(u32 l0,u32 l1);
u32 w535(u32 l0,u32 l1,u64 l2);
u32 w536(u32 l0,u32 l1);
u32 w537(u32 l0,u32 l1,u64 l2,u32 l3);
u32 w538(u32 l0,u32 l1,u64 l2);
void w540(u32 l0,u32 l1,u32 l2,u64 l3);
u32 w541(u32 l0,u32 l1,u64 l2);
void w542(u32 l0,u32 l1,u64 l2);
u32 w543(u32 l0,u32 l1,u64 l2);
u32 w544(u32 l0,u32 l1,u64 l2);
u32 w547(u32 l0);
void w548(u32 l0,u32 l1,u64 l2,u32 l3);
void w549(u32 l0,u64 l1,u64 l2,u32 l3,u32 l4);
void w550(u32 l0,u32 l1,u64 l2,u64 l3,u64 l4,u32 l5,u32 l6,u64 l7,u64 l8,u32 l9);
void w551(u32 l0,u32 l1,u64 l2,u32 l3,u32 l4,u64 l5);
u32 w552(u32 l0,u32 l1);
u32 w553(u32 l0,u32 l1);
u32 w554(u32 l0,u32 l1);
u32 w555(u32 l0,u32 l1);
void w556(u32 l0,u32 l1);
u32 w557(u32 l0,u32 l1,u32 l2,u64 l3);
void w562(u32 l0,u64 l1,u64 l2,u32 l3);
void w563(u32 l0,u32 l1,u64 l2);
u32 w564(u32 l0);
u32 w565(u32 l0,u32 l1);
u32 w566(u32 l0,u32 l1);
u32 w570(u32 l0,u32 l1);
u32 w577(u32 l0,u32 l1);
u32 w581(u32 l0,u32 l1,u64 l2);
u32 w582(u32 l0,u32 l1);
u32 w585(u32 l0,u32 l1,u64 l2);
u32 w586(u32 l0,u32 l1);
u32 w589(u32 l0,u32 l1);
u32 w590(u32 l0,u32 l1,u64 l2,u32 l3,u32 l4);
u32 w591(u32 l0,u32 l1);
u32 w592(u32 l0,u32 l1);
u32 w593(u32 l0,u32 l1);
u32 w594(u32 l0,u32 l1,u32 l2);
u32 w595(u32 l0,u32 l1,u32 l2);
u32 w596(u32 l0,u32 l1);
u32 w597(u32 l0,u32 l1);
u32 w598(u32 l0,u32 l1);
u32 w599(u32 l0,u32 l1);
u32 w600(u32 l0,u32 l1);
u32 w601(u32 l0,u32 l1);
u32 w602(u32 l0,u32 l1,u64 l2);
u32 w606(u32 l0,u32 l1);
void w607(u32 l0);
void w608(u32 l0,u32 l1,u32 l2,u32 l3,u64 l4);
void w609(u32 l0,u32 l1,u32 l2);
void w610(u32 l0,u32 l1,u32 l2);
void w611(u32 l0,u32 l1,u32 l2,u32 l3);
void w612(u32 l0);
void w613(u32 l0,u32 l1,u32 l2,u32 l3,u32 l4,u64 l5,u32 l6);
void w614(u32 l0);
u32 w615(u32 l0,u64 l1);
void w616(u32 l0,u32 l1,u32 l2,u64 l3,u32 l4);
void w617(u32 l0,u32 l1,u32 l2,u64 l3);
void w618(u32 l0,u32 l1,u32 l2,u64 l3,u32 l4,u64 l5);
void w619(u32 l0,u32 l1,u32 l2);
void w620(u32 l0,u32 l1,u32 l2,u32 l3,u32 l4,u64 l5);
void w621(u32 l0,u32 l1,u64 l2,u32 l3,u64 l4,u32 l5,u32 l6,u64 l7,u32 l8);
u32 w622(u32 l0,u32 l1);
u32 w623(u32 l0,u32 l1);
u32 w624(u32 l0,u32 l1);
u32 w625(u32 l0,u32 l1);
void w626(u32 l0,u32 l1,u64 l2,u64 l3);
void w627(u32 l0,u32 l1,u32 l2);
void w628(u32 l0,u32 l1,u32 l2,u32 l3,u64 l4,u32 l5);
u32 w629(u32 l0,u32 l1);
u32 w630(u32 l0,u32 l1);
void w631(u32 l0,u32 l1,u32 l2);
void w632(u32 l0,u32 l1,u32 l2,u64 l3);
void w633(u32 l0,u32 l1,u64 l2,u32 l3,u64 l4);
void w634(u32 l0,u32 l1,u32 l2);
void w635(u32 l0,u32 l1,u64 l2,u32 l3,u64 l4);
void w636(u32 l0,u32 l1,u64 l2,u32 l3,u64 l4);
void w637(u32 l0,u32 l1,u64 l2,u32 l3);
u32 w638(u32 l0,u32 l1);
u32 w640(u32 l0,u32 l1);
u32 w641(u32 l0,u32 l1);
u32 w642(u32 l0,u64 l1);
u32 w643(u32 l0,u32 l1,u64 l2);
u32 w644(u32 l0,u32 l1,u64 l2);
u32 w646(u32 l0,u32 l1,u64 l2);
u32 w647(u32 l0,u64 l1);
u64 w650(u32 l0,u64 l1);
void w651(u32 l0,u32 l1,u32 l2,u64 l3);
u32 w652(u32 l0,u32 l1);
void w654(u32 l0,u64 l1,u32 l2,u64 l3);
u32 w657(u32 l0,u64 l1);
void w658(u32 l0,u32 l1,u32 l2,u32 l3,u64 l4);
void w659(u32 l0,u32 l1,u64 l2);
void w661(u32 l0,u32 l1,u32 l2,u64 l3);
void w663(u32 l0,u64 l1,u32 l2);
void w664(u32 l0);
u32 w668(u32 l0,u32 l1);
void w669(u32 l0,u32 l1,u32 l2,u64 l3,u64 l4);
u32 w670(u32 l0,u32 l1);
u64 w675(u32 l0,u64 l1,u64 l2);
void w678(u32 l0,u32 l1,u64 l2,u32 l3,u64 l4);
u32 w682(u32 l0,u32 l1,u64 l2);
u32 w683(u32 l0,u32 l1,u64 l2);
u32 w684(u32 l0,u32 l1);
u32 w685(u32 l0,u32 l1,u64 l2);
void w686(u32 l0,u32 l1,u32 l2,u64 l3,u64 l4);
void w687(u32 l0,u32 l1,u32 l2);
void w688(u32 l0,u32 l1,u32 l2);
void w689(u32 l0,u32 l1,u32 l2);
u32 w691(u32 l0);
void w692(u32 l0,u32 l1,u32 l2,u32 l3,u64 l4,u32 l5,u64 l6,u32 l7);
void w693(u32 l0,u32 l1,u32 l2,u32 l3);
void w698(u32 l0,u32 l1,u32 l2,u32 l3,u32 l4);
void w699(u32 l0,u32 l1,u32 l2,u32 l3);
void w709(u32 l0,u32 l1,u64 l2);
void w710(u32 l0,u32 l1,u32 l2);
void w711(u32 l0,u32 l1,u32 l2,u32 l3,u64 l4);
void w712(u32 l0,u32 l1,u32 l2);
void w714(u32 l0,u32 l1,u32 l2,u32 l3,u64 l4,u32 l5,u64 l6);
void w715(u32 l0,u32 l1,u32 l2,u32 l3,u64 l4,u32 l5,u64 l6,u64 l7);
void w717(u32 l0,u32 l1,u64 l2,u32 l3);
void w718(u32 l0,u32 l1,u64 l2,u64 l3);
u32 w721(u32 l0,u64 l1);
void w722(u32 l0,u32 l1,u64 l2);
void w723(u32 l0);
u32 w725(u32 l0,u32 l1,u64 l2);
void w726(u32 l0);
u32 w731(u32 l0,u64 l1);
void w732(u32 l0);
u32 w733(u32 l0);
void w734(u32 l0,u32 l1,u32 l2);
void w735(u32 l0,u32 l1,u32 l2);
u32 w743(u32 l0,u64 l1);
u32 w744(u32 l0,u32 l1,u32 l2);
void w746(u32 l0,u32 l1,u64 l2);
u32 w747(u32 l0);
void w748(u32 l0,u32 l1,u32 l2,u64 l3);
void w749(u32 l0,u32 l1,u32 l2,u64 l3);
void w754(u32 l0,u32 l1,u32 l2);
void w755(u32 l0,u32 l1,u32 l2);
u64 w756(u32 l0,u64 l1,u32 l2,u32 l3);
u64 w757(u32 l0,u64 l1,u32 l2,u32 l3,u32 l4);
u64 w758(u32 l0,u64 l1,u32 l2,u32 l3);
u64 w759(u32 l0,u32 l1,u64 l2,u32 l3);
u64 w760(u32 l0,u64 l1,u32 l2,u32 l3,u32 l4);
void w761(u32 l0,u32 l1,u64 l2);
u32 w762(u32 l0);
void w770(u32 l0,u32 l1);
u32 w771(u32 l0);
u64 w775(u32 l0);
u32 w776(u32 l0,u32 l1);
void w778(u32 l0,u32 l1,u32 l2);
void w780(u32 l0,u32 l1,u32 l2,u64 l3);
u32 w781(u32 l0,u32 l1);
u32 w783(u32 l0);
u32 w784(u32 l0);
u32 w785(u32 l0,u32 l1,u32 l2,u64 l3,u32 l4,u64 l5);
void w795(u32 l0,u32 l1);
void w796(u32 l0,u32 l1,u64 l2,u32 l3,u64 l4,u64 l5);
void w797(u32 l0,u32 l1,u32 l2,u64 l3);
void w798(u32 l0,u32 l1,u32 l2,u64 l3);
void w799(u32 l0,u32 l1,u64 l2,u64 l3,u64 l4);
void w800(u32 l0,u32 l1,u32 l2,u64 l3,u64 l4);
void w801(u32 l0,u32 l1,u32 l2);
void w802(u32 l0,u32 l1);
u32 w803(u32 l0,u32 l1);
u32 w804(u32 l0,u32 l1);
u32 w809(u32 l0,u64 l1,u64 l2,u32 l3,u32 l4,u32 l5);
u32 w810(u32 l0,u64 l1,u64 l2,u32 l3,u32 l4);
void w829(u32 l0,u32 l1);
u32 w831(u32 l0,u32 l1);
void w836(u32 l0,u32 l1,u32 l2,u64 l3,u32 l4,u64 l5,u32 l6,u32 l7);
u32 w842(u32 l0,u32 l1,u64 l2);
void w847(u32 l0,u32 l1,u64 l2);
void w848(u32 l0,u32 l1,u32 l2,u32 l3);
void w849(u32 l0);
void w851(u32 l0,u32 l1,u64 l2);
void w854(u32 l0,u64 l1,u32 l2);
void w857(u32 l0,u32 l1,u64 l2);
void w859(u32 l0,u32 l1);
void w860(u32 l0,u32 l1,u32 l2,u32 l3);
void w861(u32 l0,u32 l1,u32 l2,u64 l3,u32 l4,u64 l5);
void w862(u32 l0,u32 l1,u32 l2,u64 l3);
u32 w863(u32 l0,u32 l1);
void w864(u32 l0,u32 l1,u32 l2);
void w865(u32 l0,u32 l1,u64 l2);
void w866(u32 l0,u32 l1,u64 l2);
u32 w867(u32 l0,u32 l1);
u32 w868(u32 l0,u32 l1);
u32 w869(u32 l0,u32 l1);
u32 w870(u32 l0,u32 l1);
void w871(u32 l0,u32 l1,u32 l2,u64 l3);
void w872(u32 l0,u32 l1);
void w873(u32 l0,u32 l1,u64 l2,u32 l3,u32 l4,u64 l5);
void w874(u32 l0,u32 l1,u64 l2);
u32 w875(u32 l0,u32 l1,u64 l2);
u32 w876(u32 l0,u32 l1);
void w877(u32 l0,u32 l1,u32 l2,u32 l3);
void w878(u32 l0,u32 l1,u32 l2,u32 l3,u64 l4);
void w879(u32 l0,u32 l1,u32 l2,u64 l3);
void w880(u32 l0,u32 l1,u64 l2,u32 l3,u32 l4);
void w881(u32 l0,u32 l1,u32 l2,u64 l3,u32 l4);
void w882(u32 l0,u32 l1,u32 l2,u32 l3,u32 l4,u64 l5,u32 l6,u64 l7);
void w883(u32 l0,u32 l1,u32 l2,u64 l3,u32 l4,u64 l5);
void w884(u32 l0,u32 l1,u32 l2);
void w885(u32 l0,u32 l1,u32 l2);
void w886(u32 l0,u32 l1,u32 l2,u64 l3);
u32 w887(u32 l0,u32 l1);
u32 w888(u32 l0,u32 l1);
void w889(u32 l0,u32 l1,u64 l2,u32 l3,u32 l4);
void w890(u32 l0,u32 l1,u32 l2);
void w891(u32 l0,u32 l1,u32 l2);
void w892(u32 l0,u32 l1,u32 l2,u32 l3,u32 l4,u64 l5);
void w893(u32 l0,u32 l1,u32 l2,u64 l3);
void w894(u32 l0,u32 l1,u32 l2,u64 l3);
u32 w895(u32 l0,u32 l1);
u32 w896(u32 l0,u32 l1);
void w897(u32 l0,u32 l1,u32 l2,u64 l3);
void w898(u32 l0,u32 l1,u64 l2,u32 l3,u32 l4,u32 l5,u64 l6);
void w899(u32 l0,u32 l1,u64 l2,u32 l3,u64 l4);
void w900(u32 l0,u32 l1,u32 l2);
u32 w901(u32 l0,u32 l1);
void w902(u32 l0,u32 l1,u32 l2,u32 l3,u32 l4);
void w903(u32 l0,u32 l1,u32 l2);
void w904(u32 l0,u32 l1,u32 l2,u64 l3,u32 l4);
void w905(u32 l0,u32 l1,u32 l2);
void w906(u32 l0,u32 l1,u32 l2);
void w907(u32 l0,u32 l1,u32 l2,u32 l3,u32 l4,u64 l5);
void w908(u32 l0);
void w909(u32 l0,u32 l1,u64 l2,u32 l3,u32 l4);
void w910(u32 l0,u32 l1,u32 l2);
u32 w911(u32 l0,u64 l1);
void w912(u32 l0,u32 l1,u32 l2,u32 l3,u32 l4,u32 l5,u32 l6,u64 l7);
void w913(u32 l0,u32 l1,u32 l2,u32 l3);
u32 w914(u32 l0,u64 l1);
void w915(u32 l0,u32 l1,u32 l2,u32 l3,u32 l4);
void w916(u32 l0,u32 l1,u32 l2,u64 l3);
void w917(u32 l0,u32 l1,u32 l2,u64 l3,u32 l4,u64 l5);
u32 w918(u32 l0,u64 l1);
u32 w919(u32 l0,u32 l1);
u32 w920(u32 l0,u32 l1);
u32 w921(u32 l0,u32 l1);
void w922(u32 l0,u32 l1,u32 l2,u32 l3);
u32 w923(u32 l0);
u32 w924(u32 l0);
void w925(u32 l0,u32 l1,u32 l2,u32 l3);
void w926(u32 l0,u32 l1,u32 l2,u32 l3,u32 l4);
void w927(u32 l0,u32 l1,u32 l2,u32 l3,u32 l4,u64 l5,u32 l6);
u32 w928(u32 l0,u32 l1,u64 l2);
u32 w929(u32 l0,u32 l1,u64 l2,u32 l3);
void w930(u32 l0,u32 l1,u32 l2,u32 l3);
u32 w931(u32 l0,u32 l1);
u32 w932(u32 l0);
u32 w938(u32 l0,u32 l1);
u32 w939(u32 l0,u32 l1,u64 l2);
u32 w942(u32 l0,u32 l1);
u32 w947(u32 l0,u32 l1,u64 l2);
u32 w948(u32 l0,u32 l1,u64 l2);
void w950(u32 l0,u32 l1,u32 l2,u64 l3,u64 l4);
u32 w951(u32 l0,u32 l1,u64 l2);
u32 w958(u32 l0,u32 l1);
u32 w959(u32 l0,u32 l1);
u32 w960(u32 l0,u32 l1);
u32 w961(u32 l0,u32 l1);
u32 w962(u32 l0,u32 l1);
u32 w963(u32 l0,u32 l1);
u32 w964(u32 l0,u32 l1);
void w965(u32 l0,u32 l1,u32 l2,u64 l3);
void w966(u32 l0,u32 l1,u32 l2,u64 l3);
u32 w967(u32 l0,u32 l1);
u32 w968(u32 l0,u32 l1);
void w969(u32 l0);
void w970(u32 l0,u32 l1,u32 l2,u32 l3,u32 l4);
u64 w971(u64 l0,u32 l1,u32 l2,u32 l3);
void w972(u32 l0);
void w986(u32 l0,u32 l1,u32 l2,u32 l3);
void w987(u32 l0,u32 l1,u64 l2);
void w988(u32 l0,u32 l1,u32 l2,u64 l3);
void w989(u32 l0,u32 l1,u64 l2,u32 l3);
u32 w990(u32 l0);
u32 w991(u32 l0);
u32 w992(u32 l0);
void w993(u32 l0);
void w994(u32 l0);
void w995(u32 l0,u32 l1,u32 l2,u32 l3,u32 l4);
void w996(u32 l0);
u32 w997(u32 l0);
void w998(u32 l0,u32 l1,u32 l2,u64 l3,u32 l4);
u32 w999(u32 l0,u32 l1);
u32 w1000(u32 l0,u32 l1);
u32 w1001(u32 l0,u32 l1);
u32 w1002(u32 l0,u32 l1);
u32 w1003(u32 l0,u32 l1);
u32 w1004(u32 l0,u64 l1);
u32 w1005(u32 l0);
u32 w1006(u32 l0,u32 l1);
u32 w1007(u32 l0,u32 l1);
u32 w1008(u32 l0,u32 l1);
u32 w1009(u32 l0);
u32 w1010(u32 l0);
u32 w1011(u32 l0);
void w1012(u32 l0);
void w1013(u32 l0);
void w1014(u32 l0,u32 l1);
u32 w1015(u32 l0,u32 l1,u64 l2,u32 l3);
u32 w1016(u32 l0);
void w1017(u32 l0);
u32 w1018(u32 l0,u64 l1);
void w1019(u32 l0,u32 l1,u32 l2,u64 l3);
void w1020(u32 l0,u32 l1,u32 l2,u64 l3,u32 l4);
void w1021(u32 l0,u32 l1,u32 l2,u64 l3);
void w1022(u32 l0);
void w1023(u32 l0,u32 l1,u32 l2,u32 l3);
u32 w1024(u32 l0);
void w1025(u32 l0);
void w1026(u32 l0,u32 l1,u64 l2);
void w1027(u32 l0,u32 l1,u64 l2);
u32 w1028(u32 l0,u32 l1);
u32 w1029(u32 l0,u32 l1);
u32 w1030(u32 l0,u32 l1);
u32 w1031(u32 l0,u64 l1);
void w1032(u32 l0,u32 l1,u32 l2);
void w1033(u32 l0,u32 l1,u32 l2);
u32 w1034(u32 l0);
void w1035(u32 l0,u32 l1,u32 l2,u64 l3,u32 l4,u64 l5);
void w1036(u32 l0);
void w1037(u32 l0);
void w1038(u32 l0,u32 l1,u64 l2,u32 l3,u64 l4,u32 l5);
void w1039(u32 l0,u32 l1,u32 l2);
void w1040(u32 l0,u32 l1,u64 l2);
void w1041(u32 l0,u32 l1,u64 l2);
void w1042(u32 l0,u32 l1,u64 l2);
void w1043(u32 l0,u32 l1,u64 l2);
void w1044(u32 l0,u32 l1,u32 l2,u32 l3,u64 l4);
u32 w1045(u32 l0);
u32 w1047(u32 l0,u32 l1);
u32 w1048(u32 l0,u32 l1);
u32 w1049(u32 l0,u32 l1,u64 l2);
u32 w1053(u32 l0,u32 l1);
void w1056(u32 l0,u32 l1,u64 l2);
void w1057(u32 l0,u32 l1,u64 l2,u32 l3,u64 l4,u32 l5,u64 l6);
u32 w1058(u32 l0,u64 l1);
void w1059(u32 l0,u32 l1,u32 l2);
u32 w1060(u32 l0);
u32 w1061(u32 l0);
void w1062(u32 l0,u32 l1,u32 l2);
void w1063(u32 l0,u32 l1,u32 l2,u32 l3,u32 l4);
u32 w1064(u32 l0,u32 l1);
u32 w1065(u32 l0,u32 l1);
u32 w1066(u32 l0,u32 l1);
u32 w1067(u32 l0,u32 l1);
void w1068(u32 l0,u32 l1,u32 l2,u64 l3);
void w1069(u32 l0,u32 l1,u32 l2,u64 l3);
u32 w1070(u32 l0,u32 l1);
u32 w1071(u32 l0,u32 l1);
u32 w1079(u32 l0,u32 l1);
void w1098(u32 l0,u32 l1,u32 l2,u64 l3);
void w1099(u32 l0,u32 l1,u64 l2,u64 l3,u32 l4,u64 l5);
void w1100(u32 l0,u32 l1,u64 l2,u64 l3);
u32 w1101(u32 l0,u32 l1);
u32 w1102(u32 l0,u32 l1,u64 l2);
u32 w1103(u32 l0,u32 l1);
u32 w1104(u32 l0,u32 l1);
u32 w1105(u32 l0,u32 l1);
u32 w1106(u32 l0,u32 l1);
u32 w1111(u32 l0,u32 l1);
void w1112(u32 l0);
void w1113(u32 l0,u64 l1);
void w1114(u32 l0,u64 l1,u64 l2,u32 l3);
void w1115(u32 l0,u32 l1,u64 l2);
u32 w1116(u32 l0);
u32 w1117(u32 l0);
u32 w1118(u32 l0);
void w1119(u32 l0);
u32 w1120(u32 l0);
u32 w1121(u32 l0);
void w1122(u32 l0);
void w1123(u32 l0);
u32 w1124(u32 l0);
void w1125(u32 l0,u32 l1,u32 l2,u32 l3,u32 l4,u32 l5);
void w1126(u32 l0,u32 l1,u32 l2,u32 l3);
void w1127(u32 l0);
void w1128(u32 l0);
void w1129(u32 l0);
u32 w1130(u32 l0,u32 l1,u32 l2,u32 l3,u32 l4);
void w1131(u32 l0);
void w1132(u32 l0);
void w1133(u32 l0);
void w1134(u32 l0,u32 l1,u64 l2,u32 l3,u64 l4,u32 l5);
u32 w1138(u32 l0);
u32 w1143(u32 l0);
void w1160(u32 l0,u32 l1);
void w1161(u32 l0,u32 l1,u32 l2,u32 l3,u64 l4);
void w1162(u32 l0,u32 l1,u32 l2,u32 l3,u64 l4);
void w1163(u32 l0,u32 l1,u32 l2,u32 l3,u32 l4);
void w1164(u32 l0,u32 l1,u32 l2,u64 l3,u32 l4,u64 l5);
void w1165(u32 l0,u32 l1,u32 l2,u64 l3,u32 l4);
void w1166(u32 l0,u32 l1,u32 l2,u32 l3,u32 l4);
u32 w1167(u32 l0);
u32 w1168(u32 l0);
void w1169(u32 l0,u32 l1,u32 l2,u32 l3,u64 l4);
void w1170(u32 l0,u32 l1,u32 l2,u32 l3,u32 l4,u64 l5);
u32 w1171(u32 l0);
u32 w1172(u32 l0);
u32 w1173(u32 l0,u32 l1);
void w1174(u32 l0,u32 l1);
void w1182(u32 l0,u64 l1,u32 l2,u32 l3,u64 l4);
void w1183(u32 l0,u32 l1,u32 l2,u32 l3);
void w1184(u32 l0,u32 l1,u64 l2,u32 l3);
u32 w1185(u32 l0);
void w1186(u32 l0,u32 l1,u32 l2,u64 l3);
void w1187(u32 l0,u32 l1,u32 l2,u64 l3,u32 l4);
u32 w1188(u32 l0,u32 l1,u64 l2,u32 l3);
void w1192(u32 l0,u32 l1);
u32 w1193(u32 l0,u32 l1,u64 l2);
void w1194(u32 l0,u32 l1,u32 l2,u32 l3,u64 l4);
void w1195(u32 l0,u32 l1);
void w1196(u32 l0,u32 l1,u32 l2);
void w1200(u32 l0);
void w1206(u32 l0,u32 l1,u64 l2);
u32 w1215(u32 l0,u64 l1);
void w1217(u32 l0,u32 l1,u64 l2);
u32 w1221(u32 l0,u32 l1,u64 l2);
void w1222(u32 l0,u32 l1);
void w1224(u32 l0,u32 l1,u32 l2,u64 l3);
void w1227(u32 l0,u64 l1,u32 l2);
void w1228(u32 l0);
u32 w1229(u32 l0,u32 l1,u64 l2);
void w1230(u32 l0,u32 l1,u64 l2,u32 l3);
void w1232(u32 l0,u32 l1,u32 l2,u64 l3,u32 l4);
void w1237(u32 l0,u32 l1);
void w1240(u32 l0,u32 l1,u64 l2);
u32 w1241(u32 l0,u32 l1);
void w1242(u32 l0,u32 l1,u64 l2);
void w1243(u32 l0,u32 l1,u64 l2);
void w1245(u32 l0,u32 l1,u32 l2);
void w1247(u32 l0,u32 l1,u32 l2,u64 l3);
u32 w1248(u32 l0,u32 l1);
void w1249(u32 l0,u32 l1,u64 l2,u32 l3,u32 l4);
void w1250(u32 l0,u32 l1);
u32 w1253(u32 l0,u32 l1);
void w1254(u32 l0);
void w1255(u32 l0,u32 l1,u32 l2,u32 l3);
u32 w1256(u32 l0,u32 l1);
u32 w1257(u32 l0,u32 l1);
u32 w1258(u32 l0,u64 l1);
u32 w1259(u32 l0,u32 l1,u64 l2);
u32 w1261(u32 l0,u32 l1,u64 l2,u32 l3);
u32 w1262(u32 l0);
void w1263(u32 l0);
void w1264(u32 l0,u32 l1,u32 l2,u64 l3);
void w1265(u32 l0,u32 l1);
void w1266(u32 l0,u32 l1,u32 l2,u32 l3,u32 l4);
void w1267(u32 l0,u32 l1);
void w1268(u32 l0);
void w1269(u32 l0,u32 l1,u32 l2);
void w1270(u32 l0,u32 l1,u32 l2,u32 l3);
void w1271(u32 l0,u64 l1,u64 l2);
void w1272(u32 l0,u32 l1,u64 l2,u64 l3);
void w1273(u32 l0,u32 l1,u64 l2);
void w1274(u32 l0,u64 l1,u64 l2,u32 l3,u32 l4);
void w1275(u32 l0,u32 l1,u64 l2,u64 l3,u64 l4,u32 l5,u32 l6,u64 l7,u64 l8,u32 l9);
u32 w1292(u32 l0,u32 l1);
u32 w1293(u32 l0,u32 l1);
u32 w1294(u32 l0,u32 l1,u64 l2);
u32 w1295(u32 l0,u32 l1,u64 l2);
u32 w1296(u32 l0,u32 l1);
u32 w1297(u32 l0);
u32 w1298(u32 l0);
u32 w1299(u32 l0,u64 l1);
u32 w1300(u32 l0,u32 l1,u64 l2);
u32 w1301(u32 l0,u32 l1,u64 l2);
u32 w1303(u32 l0,u32 l1,u64 l2);
u32 w1304(u32 l0,u32 l1,u64 l2);
void w1305(u32 l0,u32 l1,u32 l2,u32 l3);
u32 w1306(u32 l0);
void w1307(u32 l0,u32 l1,u32 l2,u64 l3,u32 l4);
void w1308(u32 l0,u32 l1,u32 l2,u64 l3,u32 l4);
u32 w1309(u32 l0,u64 l1);
u32 w1310(u32 l0);
u32 w1311(u32 l0);
u32 w1312(u32 l0);
void w1313(u32 l0,u32 l1,u32 l2);
void w1314(u32 l0,u32 l1);
u32 w1315(u32 l0,u32 l1);
u32 w1316(u32 l0,u32 l1);
u32 w1317(u32 l0,u64 l1);
u32 w1318(u32 l0,u32 l1);
u32 w1319(u32 l0,u32 l1);
u32 w1320(u32 l0,u32 l1);
u32 w1321(u32 l0,u32 l1);
u32 w1322(u32 l0,u32 l1,u32 l2,u64 l3,u64 l4);
void w1323(u32 l0,u32 l1,u32 l2);
u32 w1324(u32 l0,u32 l1);
u32 w1325(u32 l0,u32 l1,u32 l2,u32 l3);
u32 w1326(u32 l0,u32 l1);
void w1327(u32 l0,u32 l1,u64 l2);
u32 w1328(u32 l0,u32 l1,u32 l2);
u32 w1329(u32 l0,u32 l1);
void w1330(u32 l0,u32 l1,u64 l2,u32 l3);
void w1331(u32 l0);
u32 w1332(u32 l0,u32 l1,u32 l2,u32 l3);
u32 w1333(u32 l0);
void w1334(u32 l0,u32 l1);
u32 w1335(u32 l0,u64 l1,u32 l2,u64 l3);
void w1336(u32 l0,u32 l1,u32 l2,u64 l3,u64 l4);
u32 w1337(u32 l0,u32 l1,u64 l2);
u32 w1338(u32 l0);
void w1339(u32 l0,u32 l1,u64 l2);
void w1340(u32 l0,u64 l1,u64 l2,u32 l3,u32 l4);
void w1341(u32 l0,u32 l1,u64 l2,u64 l3,u64 l4,u32 l5,u32 l6,u64 l7,u64 l8,u32 l9);
u32 w1360(u32 l0);
u32 w1361(u32 l0);
void w1362(u32 l0,u32 l1,u32 l2,u32 l3,u64 l4,u32 l5,u64 l6);
void w1363(u32 l0,u32 l1,u32 l2,u32 l3,u32 l4);
void w1364(u32 l0,u32 l1,u32 l2,u64 l3,u32 l4,u64 l5);
void w1365(u32 l0,u32 l1,u32 l2,u64 l3,u32 l4);
void w1366(u32 l0,u32 l1,u32 l2,u32 l3,u32 l4);
u32 w1382(u32 l0,u64 l1);
u32 w1383(u32 l0,u32 l1);
u32 w1384(u32 l0,u32 l1,u64 l2);
u32 w1385(u32 l0,u32 l1);
u32 w1386(u32 l0,u32 l1,u64 l2);
u32 w1389(void);
void w1390(u32 l0,u64 l1,u64 l2,u64 l3,u64 l4);
void w1391(u32 l0,u64 l1,u64 l2,u32 l3);
void w1392(u32 l0,u64 l1,u64 l2,u32 l3);
void w1393(u32 l0,u64 l1,u64 l2,u64 l3,u64 l4);

#endif

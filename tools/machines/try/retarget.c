/* A program without a C library around a module of try/retarget.py: it writes what the module's function answers for each number, four bytes each, lowest first. */
typedef __SIZE_TYPE__ size_t;
typedef unsigned char u8;

#if defined(__x86_64__)
__asm__(".globl _start\n_start: call begin\n");
static long call_system(long number, long a, long b, long c) {
    long answer;
    __asm__ volatile("syscall" : "=a"(answer) : "a"(number), "D"(a), "S"(b), "d"(c) : "rcx", "r11", "memory");
    return answer;
}
enum { WRITE = 1, EXIT = 60 };
#elif defined(__i386__)
__asm__(".globl _start\n_start: call begin\n");
static long call_system(long number, long a, long b, long c) {
    long answer;
    __asm__ volatile("int $0x80" : "=a"(answer) : "a"(number), "b"(a), "c"(b), "d"(c) : "memory");
    return answer;
}
enum { WRITE = 4, EXIT = 1 };
#else
__asm__(".globl _start\n.thumb_func\n_start: bl begin\n");
static long call_system(long number, long a, long b, long c) {
    register long r7 __asm__("r7") = number, r0 __asm__("r0") = a, r1 __asm__("r1") = b, r2 __asm__("r2") = c;
    __asm__ volatile("svc 0" : "+r"(r0) : "r"(r7), "r"(r1), "r"(r2) : "memory");
    return r0;
}
enum { WRITE = 4, EXIT = 1 };
#endif

unsigned answer(unsigned n);

void *memset(void *to, int byte, size_t count) {
    volatile u8 *at = to;
    while (count-- > 0) *at++ = (u8)byte;
    return to;
}
void *memmove(void *to, const void *from, size_t count) {
    volatile u8 *at = to;
    const volatile u8 *source = from;
    if (at <= source)
        for (size_t k = 0; k < count; k++) at[k] = source[k];
    else
        while (count-- > 0) at[count] = source[count];
    return to;
}
void *memcpy(void *to, const void *from, size_t count) { return memmove(to, from, count); }
#if defined(__arm__)
void __aeabi_memset(void *to, size_t count, int byte) { memset(to, byte, count); }
void __aeabi_memset4(void *to, size_t count, int byte) { memset(to, byte, count); }
void __aeabi_memset8(void *to, size_t count, int byte) { memset(to, byte, count); }
void __aeabi_memclr(void *to, size_t count) { memset(to, 0, count); }
void __aeabi_memclr4(void *to, size_t count) { memset(to, 0, count); }
void __aeabi_memclr8(void *to, size_t count) { memset(to, 0, count); }
void __aeabi_memmove(void *to, const void *from, size_t count) { memmove(to, from, count); }
void __aeabi_memmove4(void *to, const void *from, size_t count) { memmove(to, from, count); }
void __aeabi_memmove8(void *to, const void *from, size_t count) { memmove(to, from, count); }
void __aeabi_memcpy(void *to, const void *from, size_t count) { memmove(to, from, count); }
void __aeabi_memcpy4(void *to, const void *from, size_t count) { memmove(to, from, count); }
void __aeabi_memcpy8(void *to, const void *from, size_t count) { memmove(to, from, count); }
#endif

static u8 room[64] __attribute__((aligned(16)));
struct told {
    unsigned long long ok;
    void *memory;
};
#ifdef __x86_64__
struct told rattle_alloc(unsigned long long size, unsigned long long alignment) {
    struct told told = {size + alignment <= sizeof room, room};
    return told;
}
#endif
void w_rattle_alloc(struct told *told, unsigned long long size, unsigned long long alignment) {
    told->ok = size + alignment <= sizeof room, told->memory = room;
}

static const unsigned numbers[] = {NUMBERS};

void begin(void) {
    static u8 told[4 * sizeof numbers / sizeof *numbers];
    for (size_t k = 0; k < sizeof numbers / sizeof *numbers; k++) {
        unsigned it = answer(numbers[k]);
        for (int byte = 0; byte < 4; byte++) told[4 * k + (size_t)byte] = (u8)(it >> 8 * byte);
    }
    call_system(WRITE, 1, (long)told, sizeof told);
    call_system(EXIT, 0, 0, 0);
    for (;;) {
    }
}

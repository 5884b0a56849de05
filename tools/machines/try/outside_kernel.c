/* Runs a kernel's module of x86-64 as a program: what it wants of the kernel, over the C library. tools/kernel_module.py links it.
 *
 * A variable of each processor is reached by %gs: its base is PROCESSOR here, and each such variable stands so far behind its symbol. The canary of the stack stands
 * at 40 bytes from there. */
#define _GNU_SOURCE
#include <asm/prctl.h>
#include <stdarg.h>
#include <stdint.h>
#include <stdio.h>
#include <stdlib.h>
#include <sys/mman.h>
#include <sys/syscall.h>
#include <unistd.h>

#define PROCESSOR 0x10000000ul
#define PAGE 4096ul
/* The kernel's stack is aligned to 8 bytes. */
#define FROM_KERNEL __attribute__((force_align_arg_pointer, used))

int init_module(void);
void cleanup_module(void);
extern void *onfiseq_mtd_room;
int __preempt_count, preempted;

FROM_KERNEL void __SCT__preempt_schedule(void) { preempted++; }
FROM_KERNEL void __stack_chk_fail(void) { abort(); }
FROM_KERNEL void kvfree(const void *memory) { free((void *)memory); }
FROM_KERNEL void *kvmalloc_node(size_t size, unsigned flags, int node) { return (void)flags, (void)node, calloc(1, size); }

/* A line begins with its level, two bytes. */
FROM_KERNEL int _printk(const char *format, ...) {
    va_list words;
    va_start(words, format);
    int length = vprintf(format + 2, words);
    va_end(words);
    return length;
}

__asm__(".globl __fentry__, __x86_return_thunk\n__fentry__:\n__x86_return_thunk:\nret\n");

static void map(uintptr_t at) {
    void *page = (void *)(at / PAGE * PAGE);
    if (mmap(page, PAGE, PROT_READ | PROT_WRITE, MAP_PRIVATE | MAP_ANONYMOUS | MAP_FIXED, -1, 0) != page) abort();
}

int main(void) {
    map(PROCESSOR), map(PROCESSOR + (uintptr_t)&onfiseq_mtd_room), map(PROCESSOR + (uintptr_t)&__preempt_count);
    if (syscall(SYS_arch_prctl, ARCH_SET_GS, PROCESSOR) != 0) return 2;
    int error = init_module();
    cleanup_module();
    printf("init: %d\n", error);
    return error != 0;
}

/* What the module of onfiseq runs on: its memory, and the files, streams, words, clock and threads of the system, by the numbers that Linux has, which the module knows. */
#define _GNU_SOURCE
#define _DARWIN_C_SOURCE
#define _FILE_OFFSET_BITS 64
#include <errno.h>
#include <fcntl.h>
#include <limits.h>
#include <signal.h>
#include <stdio.h>
#include <stdlib.h>
#include <sys/file.h>
#include <sys/mman.h>
#include <sys/stat.h>
#include <sys/types.h>
#include <time.h>
#include <unistd.h>
#ifndef ONFISEQ_ONE_THREAD
#include <pthread.h>
#include <sched.h>
#endif
#include "module.h"

void stop(const char *why) {
    fprintf(stderr, "onfiseq: the module can't go on: %s\n", why);
    abort();
}

/* ---- the memory: it is reserved once and never moves, all of the module's addresses where the system has so many, and else a half, a quarter, and so on */

u8 *module_memory;
u32 module_mask;
PER_THREAD u32 g0 = STACK_BEGIN;

enum { GUARD = 65536 };

static void *reserve(u64 size) {
#ifndef MAP_NORESERVE
#define MAP_NORESERVE 0
#endif
#ifndef MAP_ANONYMOUS
#define MAP_ANONYMOUS MAP_ANON
#endif
    return size > SIZE_MAX / 2 ? MAP_FAILED : mmap(NULL, (size_t)size, PROT_READ | PROT_WRITE, MAP_PRIVATE | MAP_ANONYMOUS | MAP_NORESERVE, -1, 0);
}

/* Nothing may touch these bytes: what does ends the program. */
static void forbid(u64 at, u64 count) { mprotect(module_memory + at, (size_t)count, PROT_NONE); }

static void begin_memory(void) {
    for (u64 size = (u64)1 << 32; size >= (u64)1 << 24; size /= 2) {
        void *found = reserve(size + BEHIND);
        if (found == MAP_FAILED) continue;
        module_memory = (u8 *)found, module_mask = (u32)(size - 1);
        forbid(0, GUARD); /* the end of the first stack */
        forbid(size, BEHIND);
        return;
    }
    puts("out of memory");
    exit(4);
}

/* ---- turns: threads run side by side, or one at a time is in the module, and lets others in where it waits */

static PER_THREAD u64 its_number = 1; /* of a thread */

#ifdef ONFISEQ_ONE_THREAD
static void lock_heap(void) {}
static void unlock_heap(void) {}
#else
static pthread_mutex_t heap_lock = PTHREAD_MUTEX_INITIALIZER, turn_lock = PTHREAD_MUTEX_INITIALIZER;
static bool has_threads; /* since the first one was started */

static void lock_heap(void) {
    if (has_threads) pthread_mutex_lock(&heap_lock);
}
static void unlock_heap(void) {
    if (has_threads) pthread_mutex_unlock(&heap_lock);
}

struct turn {
    u32 stack;
    u64 number;
};
static struct turn leave_module(void) {
    struct turn turn = {g0, its_number};
    if (!IS_SIDE_BY_SIDE) pthread_mutex_unlock(&turn_lock);
    return turn;
}
static void enter_module(struct turn turn) {
    if (!IS_SIDE_BY_SIDE) pthread_mutex_lock(&turn_lock);
    g0 = turn.stack, its_number = turn.number;
}
#endif

/* ---- the memory that the module asks for: blocks behind its data, in the order of their addresses, each with its size and that of the block before it.
 * Free blocks stand in lists by size, and free neighbours are one block. */

enum { UNIT = 16, BINS = 256, MOST_TRIED = 16 };
static u64 heap_top;             /* of blocks; behind it there are none */
static u32 top_before;           /* the size of the last block, 0 where there is none */
static u32 bins[BINS];           /* the first free block of each list, 0 where there is none */

static u32 get_number(u64 at) { return get32(place(at, 4)); }
static void put_number(u64 at, u64 it) { put32(place(at, 4), (u32)it); }
static void put_long(u64 at, u64 it) { put64(place(at, 8), it); }

static bool has_memory(u64 size) { return size <= (u64)module_mask + 1; }

static u32 bin_of(u32 size) {
    u32 units = size / UNIT, log = 31 - zeros_above(units, 32);
    return units < 32 ? units : 32 + (log - 5) * 8 + (units >> (log - 3) & 7);
}

/* A block: its size at -8, odd where it is free, the size of the block before it at -4; a free one has the next of its list at 0 and the one before at 4. */
static u32 size_of(u32 block) { return get_number((u64)block - 8) & ~1u; }
static bool is_free(u32 block) { return get_number((u64)block - 8) & 1; }

static void tell_next(u32 block, u32 size) {
    u64 next = (u64)block + size;
    if (next == heap_top) top_before = size;
    else put_number(next - 4, size);
}

static void add_free(u32 block, u32 size) {
    u32 *first = &bins[bin_of(size)];
    put_number((u64)block - 8, size | 1);
    put_number(block, *first);
    put_number((u64)block + 4, 0);
    if (*first != 0) put_number((u64)*first + 4, block);
    *first = block;
}

static void remove_free(u32 block) {
    u32 next = get_number(block), before = get_number((u64)block + 4);
    if (before != 0) put_number(before, next);
    else bins[bin_of(size_of(block))] = next;
    if (next != 0) put_number((u64)next + 4, before);
}

/* Cuts a block that is in use to this size; the rest is free. */
static void cut_block(u32 block, u32 size) {
    u32 whole = size_of(block), rest = block + size;
    if (whole == size) return;
    put_number((u64)block - 8, size);
    put_number((u64)rest - 4, size);
    if ((u64)block + whole == heap_top) {
        heap_top = rest, top_before = size;
        return;
    }
    put_number((u64)rest - 8, whole - size);
    if (is_free(block + whole)) {
        remove_free(block + whole);
        whole += size_of(block + whole);
    }
    add_free(rest, whole - size);
    tell_next(rest, whole - size);
}

static u32 whole_size(u64 size) { return size > 0xfff00000u ? 0 : (u32)((size + 8 + UNIT - 1) / UNIT * UNIT); }

static u32 find_block(u64 asked) {
    u32 size = whole_size(asked), bin, block, tried;
    if (size == 0) return 0;
    for (bin = bin_of(size); bin < BINS; bin++) {
        for (block = bins[bin], tried = 0; block != 0 && tried < MOST_TRIED; block = get_number(block), tried++) {
            if (size_of(block) >= size) {
                remove_free(block);
                put_number((u64)block - 8, size_of(block));
                cut_block(block, size);
                return block;
            }
        }
    }
    if (heap_top + size + 8 > 0xffff0000u || !has_memory(heap_top + size + 8)) return 0;
    block = (u32)heap_top;
    put_number((u64)block - 8, size);
    put_number((u64)block - 4, top_before);
    heap_top += size, top_before = size;
    return block;
}

static void give_back(u32 block) {
    u32 size = size_of(block), before = get_number((u64)block - 4);
    if ((u64)block + size != heap_top && is_free(block + size)) {
        remove_free(block + size);
        size += size_of(block + size);
    }
    if (before != 0 && is_free(block - before)) {
        block -= before, size += before;
        remove_free(block);
    }
    if ((u64)block + size == heap_top) {
        heap_top = block, top_before = get_number((u64)block - 4);
        return;
    }
    add_free(block, size);
    tell_next(block, size);
}

/* The block where it stands, but larger: into the free memory behind it. */
static bool has_grown(u32 block, u32 size) {
    u32 old = size_of(block);
    if (size <= old) return true;
    if ((u64)block + old == heap_top) {
        if ((u64)block + size + 8 > 0xffff0000u || !has_memory((u64)block + size + 8)) return false;
        heap_top = (u64)block + size;
    } else {
        u32 next = block + old;
        if (!is_free(next) || old + size_of(next) < size) return false;
        remove_free(next);
        size = old + size_of(next);
    }
    put_number((u64)block - 8, size);
    tell_next(block, size);
    return true;
}

static void begin_heap(void) {
    heap_top = ((u64)HEAP_BASE + 8 + UNIT - 1) / UNIT * UNIT;
    top_before = 0;
}

/* An answer is a struct {u64 ok; void *memory;}, a pointer of 8 bytes. */
static void answer_block(u32 answer, u32 block) {
    put_long(answer, block != 0);
    put_long((u64)answer + 8, block != 0 ? block : UNIT);
}
void module_w_rattle_alloc(u32 answer, u64 size, u64 alignment) {
    u32 block;
    lock_heap();
    block = find_block(size != 0 ? size : alignment);
    unlock_heap();
    answer_block(answer, block);
}
static u32 change_block(u32 old, u64 kept, u64 asked) {
    u32 wanted = whole_size(asked), block = 0;
    if (wanted != 0 && has_grown(old, wanted)) {
        cut_block(old, wanted);
        return old;
    }
    if (wanted != 0 && (block = find_block(asked)) != 0) {
        if (asked < kept) kept = asked;
        memmove(place(block, kept), place(old, kept), (size_t)kept);
        give_back(old);
    }
    return block;
}
void module_w_rattle_realloc(u32 answer, u32 old, u64 kept, u64 size, u64 alignment) {
    u32 block;
    lock_heap();
    block = change_block(old, kept, size != 0 ? size : alignment);
    unlock_heap();
    answer_block(answer, block);
}
void module_w_rattle_dealloc(u32 old) {
    lock_heap();
    give_back(old);
    unlock_heap();
}

/* ---- the system: numbers as Linux has them, which the module knows */

static struct {
    int count;
    char **words;
} given_words;

static const struct {
    int ours, theirs;
} error_numbers[] = {
    {0, 0}, {EPERM, 1},   {ENOENT, 2},   {ESRCH, 3},   {EINTR, 4},   {EIO, 5},     {E2BIG, 7},         {ENOEXEC, 8},    {EBADF, 9},    {ECHILD, 10},
    {EAGAIN, 11}, {ENOMEM, 12},  {EACCES, 13}, {EBUSY, 16},  {EEXIST, 17}, {EXDEV, 18},        {ENOTDIR, 20},   {EISDIR, 21},  {EINVAL, 22},
    {ENFILE, 23}, {EMFILE, 24},  {ENOTTY, 25}, {EFBIG, 27},  {ENOSPC, 28}, {ESPIPE, 29},       {EROFS, 30},     {EMLINK, 31},  {EPIPE, 32},
    {EDOM, 33},   {ERANGE, 34},  {EDEADLK, 35}, {ENAMETOOLONG, 36}, {ENOLCK, 37}, {ENOSYS, 38}, {ENOTEMPTY, 39}, {ELOOP, 40}, {EOVERFLOW, 75},
    {ETIMEDOUT, 110},
};
enum { ERRORS = sizeof error_numbers / sizeof error_numbers[0], UNKNOWN_ERRORS = 100000 };

static int their_error(int error) {
    for (int k = 0; k < ERRORS; k++)
        if (error_numbers[k].ours == error) return error_numbers[k].theirs;
    return UNKNOWN_ERRORS + error;
}
static int our_error(int error) {
    for (int k = 0; k < ERRORS; k++)
        if (error_numbers[k].theirs == error) return error_numbers[k].ours;
    return error >= UNKNOWN_ERRORS ? error - UNKNOWN_ERRORS : error;
}

static char *bytes_at(u32 at, u64 count) { return (char *)place(at, count); }
/* A path: at most 4096 bytes, the last of them 0. */
static const char *path_at(u32 at) { return bytes_at(at, 4096); }

u32 module_rattle_errno(void) { return (u32)their_error(errno); }
void module_rattle_set_errno(u32 error) { errno = our_error((int)error); }
u64 module_rattle_arg_count(void) { return (u64)given_words.count; }

static u64 copy_text(const char *text, u32 at, u64 count) {
    size_t length;
    if (text == NULL) return (u64)-1;
    length = strlen(text);
    memcpy(bytes_at(at, count), text, length < count ? length : (size_t)count);
    return length <= count ? length : (u64)-2;
}
u64 module_rattle_arg(u64 number, u32 at, u64 count) {
    return copy_text(number < (u64)given_words.count ? given_words.words[number] : NULL, at, count);
}
u64 module_rattle_env(u32 name, u32 at, u64 count) { return copy_text(getenv(path_at(name)), at, count); }
u32 module___xpg_strerror_r(u32 error, u32 at, u64 count) {
    const char *text = strerror(our_error((int)error));
    size_t length = strlen(text);
    if (count == 0) return 34;
    if (length > count - 1) length = (size_t)count - 1;
    memcpy(bytes_at(at, count), text, length);
    *bytes_at(at + (u32)length, 1) = 0;
    return 0;
}
u64 module___sysv_signal(u32 number, u64 how) {
    if (number == 13 && how == 1) signal(SIGPIPE, SIG_IGN);
    return 0;
}

u32 module_open(u32 path, u32 flags, u32 rest) {
    static const struct {
        u32 theirs;
        int ours;
    } known[] = {{0100, O_CREAT}, {0200, O_EXCL}, {0400, O_NOCTTY}, {01000, O_TRUNC}, {02000, O_APPEND}, {04000, O_NONBLOCK}, {02000000, O_CLOEXEC}};
    int ours = (flags & 3) == 0 ? O_RDONLY : (flags & 3) == 1 ? O_WRONLY : O_RDWR;
    for (size_t k = 0; k < sizeof known / sizeof known[0]; k++)
        if (flags & known[k].theirs) ours |= known[k].ours;
    return (u32)open(path_at(path), ours, flags & 0100 ? (int)get_number(rest) : 0);
}
u32 module_close(u32 file) { return (u32)close((int)file); }
u64 module_read(u32 file, u32 at, u64 count) { return (u64)(s64)read((int)file, bytes_at(at, count), (size_t)count); }
u64 module_write(u32 file, u32 at, u64 count) { return (u64)(s64)write((int)file, bytes_at(at, count), (size_t)count); }
u64 module_lseek(u32 file, u64 offset, u32 whence) {
    return (u64)lseek((int)file, (off_t)(s64)offset, whence == 0 ? SEEK_SET : whence == 1 ? SEEK_CUR : SEEK_END);
}
u32 module_fsync(u32 file) { return (u32)fsync((int)file); }
u32 module_fdatasync(u32 file) { return (u32)fsync((int)file); }
u32 module_ftruncate(u32 file, u64 length) { return (u32)ftruncate((int)file, (off_t)length); }
u32 module_fchmod(u32 file, u32 mode) { return (u32)fchmod((int)file, (mode_t)mode); }
u32 module_rename(u32 from, u32 to) { return (u32)rename(path_at(from), path_at(to)); }
u32 module_unlink(u32 path) { return (u32)unlink(path_at(path)); }
u32 module_mkdir(u32 path, u32 mode) { return (u32)mkdir(path_at(path), (mode_t)mode); }
u32 module_isatty(u32 file) { return (u32)isatty((int)file); }
u64 module_readlink(u32 path, u32 at, u64 count) {
    return (u64)(s64)readlink(path_at(path), bytes_at(at, count), (size_t)count);
}
u32 module_realpath(u32 path, u32 at) {
    char *found = realpath(path_at(path), NULL);
    size_t length;
    if (found == NULL) return 0;
    length = strlen(found) + 1;
    if (length <= 4096) memcpy(bytes_at(at, 4096), found, length);
    else errno = ENAMETOOLONG;
    free(found);
    return length <= 4096 ? at : 0;
}
u32 module_clock_gettime(u32 clock, u32 at) {
    struct timespec now;
    int answer = clock_gettime(clock == 0 ? CLOCK_REALTIME : CLOCK_MONOTONIC, &now);
    if (answer != 0) return (u32)answer;
    put_long(at, (u64)now.tv_sec);
    put_long((u64)at + 8, (u64)now.tv_nsec);
    return 0;
}

static u32 kind_of(mode_t mode) {
    return S_ISREG(mode) ? 0100000 : S_ISDIR(mode) ? 0040000 : S_ISLNK(mode) ? 0120000 : S_ISFIFO(mode) ? 0010000 : S_ISCHR(mode) ? 0020000 : S_ISBLK(mode) ? 0060000 : 0140000;
}
u32 module_statx(u32 folder, u32 path, u32 flags, u32 mask, u32 at) {
    struct stat found;
    int answer;
    (void)mask, (void)folder;
    if (flags & 0x1000) answer = fstat((int)folder, &found);
    else answer = flags & 0x100 ? lstat(path_at(path), &found) : stat(path_at(path), &found);
    if (answer != 0) return (u32)answer;
    memset(place(at, 256), 0, 256);
    put_number(at, 0x7ff);
    put_number((u64)at + 4, (u64)found.st_blksize);
    put_number((u64)at + 16, (u64)found.st_nlink);
    put_number((u64)at + 20, (u64)found.st_uid);
    put_number((u64)at + 24, (u64)found.st_gid);
    put16(place((u64)at + 28, 2), (u16)(kind_of(found.st_mode) | ((u32)found.st_mode & 07777)));
    put_long((u64)at + 32, (u64)found.st_ino);
    put_long((u64)at + 40, (u64)found.st_size);
    put_long((u64)at + 48, (u64)found.st_blocks);
    put_long((u64)at + 64, (u64)(s64)found.st_atime);
    put_long((u64)at + 96, (u64)(s64)found.st_ctime);
    put_long((u64)at + 112, (u64)(s64)found.st_mtime);
    /* of a device's number only whether two are the same matters */
    put_number((u64)at + 136, (u64)found.st_dev >> 32);
    put_number((u64)at + 140, (u64)found.st_dev);
    return 0;
}

/* flock's operations have the same numbers wherever there is flock; where there isn't, a file is as if nobody else had it. */
u32 module_flock(u32 file, u32 how) {
#ifdef LOCK_EX
    return (u32)flock((int)file, (int)how);
#else
    (void)file, (void)how;
    return 0;
#endif
}
void module__exit(u32 status) { _exit((int)status); }
void module_abort(void) { abort(); }

/* ---- words of 64 bits that several threads change */

#if IS_SIDE_BY_SIDE
typedef u64 __attribute__((may_alias)) word64;
#define WORD(at) ((word64 *)(void *)place(at, 8))
u64 module_atomic_load(u32 at) { return __atomic_load_n(WORD(at), __ATOMIC_SEQ_CST); }
void module_atomic_store(u32 at, u64 it) { __atomic_store_n(WORD(at), it, __ATOMIC_SEQ_CST); }
u64 module_atomic_add(u32 at, u64 it) { return __atomic_fetch_add(WORD(at), it, __ATOMIC_SEQ_CST); }
u64 module_atomic_sub(u32 at, u64 it) { return __atomic_fetch_sub(WORD(at), it, __ATOMIC_SEQ_CST); }
u64 module_atomic_xchg(u32 at, u64 it) { return __atomic_exchange_n(WORD(at), it, __ATOMIC_SEQ_CST); }
u64 module_atomic_cmpxchg(u32 at, u64 wanted, u64 it) {
    __atomic_compare_exchange_n(WORD(at), &wanted, it, false, __ATOMIC_SEQ_CST, __ATOMIC_SEQ_CST);
    return wanted;
}
#else
static u64 change_word(u32 at, u64 old, u64 it) {
    put_long(at, it);
    return old;
}
u64 module_atomic_load(u32 at) { return get64(place(at, 8)); }
void module_atomic_store(u32 at, u64 it) { put_long(at, it); }
u64 module_atomic_add(u32 at, u64 it) { return change_word(at, module_atomic_load(at), module_atomic_load(at) + it); }
u64 module_atomic_sub(u32 at, u64 it) { return change_word(at, module_atomic_load(at), module_atomic_load(at) - it); }
u64 module_atomic_xchg(u32 at, u64 it) { return change_word(at, module_atomic_load(at), it); }
u64 module_atomic_cmpxchg(u32 at, u64 wanted, u64 it) {
    u64 old = module_atomic_load(at);
    return old == wanted ? change_word(at, old, it) : old;
}
#endif

/* ---- threads: what the module starts, waits for and sleeps on */

u32 module_malloc(u64 size) {
    u32 block;
    lock_heap();
    block = find_block(size != 0 ? size : 1);
    unlock_heap();
    return block;
}
void module_free(u32 block) {
    if (block != 0) module_w_rattle_dealloc(block);
}
/* The attributes of a thread: the size of its stack. */
u32 module_pthread_attr_init(u32 attributes) { return put_long(attributes, 0), 0; }
u32 module_pthread_attr_destroy(u32 attributes) { return (void)attributes, 0; }
u32 module_pthread_attr_setguardsize(u32 attributes, u64 size) { return (void)attributes, (void)size, 0; }
u32 module_pthread_attr_setstacksize(u32 attributes, u64 size) { return put_long(attributes, size), 0; }

#ifdef ONFISEQ_ONE_THREAD
u32 module_pthread_create(u32 thread, u32 attributes, u32 start, u32 given) {
    fputs("onfiseq: a run starts threads, and this program was built without them\n", stderr);
    return (void)thread, (void)attributes, (void)start, (void)given, 11;
}
u32 module_pthread_join(u64 thread, u32 answer) { return (void)thread, (void)answer, 3; }
u32 module_pthread_detach(u64 thread) { return (void)thread, 0; }
u32 module_sched_yield(void) { return 0; }
u64 module_syscall(u64 number, u32 word, u64 operation, u64 value, u32 timeout, u32 rest) {
    return (void)number, (void)word, (void)operation, (void)value, (void)timeout, (void)rest, 0;
}
#else
/* A thread has a stack in the module's memory, whose end may not be touched, and one of the system's for C. */
enum { LEAST_STACK = 1 << 20, MOST_STACK = 1 << 26, C_STACK = 1 << 23, THREADS = 1024 };

static struct thread {
    pthread_t system;
    u32 start, given, block;
    u64 size, number;
    bool is_used;
} threads[THREADS];

static u64 guard_of(const struct thread *thread) { return ((u64)thread->block + GUARD - 1) / GUARD * GUARD; }

static void give_stack(struct thread *thread) {
    mprotect(module_memory + guard_of(thread), GUARD, PROT_READ | PROT_WRITE);
    module_free(thread->block);
    thread->is_used = false;
}
/* A thread with a stack of so many bytes, or NULL. */
static struct thread *take_thread(u64 size) {
    struct thread *found = NULL;
    lock_heap();
    for (u32 k = 0; k < THREADS && found == NULL; k++)
        if (!threads[k].is_used) found = &threads[k], found->number = k + 2;
    if (found != NULL) {
        found->size = (size < LEAST_STACK ? LEAST_STACK : size > MOST_STACK ? MOST_STACK : size) + 2 * GUARD;
        found->block = find_block(found->size);
        found->is_used = found->block != 0;
    }
    unlock_heap();
    if (found == NULL || !found->is_used) return NULL;
    forbid(guard_of(found), GUARD);
    return found;
}
static void *run_thread(void *given) {
    struct thread *thread = (struct thread *)given;
    struct turn turn = {(u32)((thread->block + thread->size) / UNIT * UNIT), thread->number};
    enter_module(turn);
    module_starts[thread->start](thread->given);
    leave_module();
    return NULL;
}
u32 module_pthread_create(u32 at, u32 attributes, u32 start, u32 given) {
    struct thread *thread = take_thread(get64(place(attributes, 8)));
    pthread_attr_t how;
    int answer;
    if (thread == NULL) return 12;
    thread->start = start, thread->given = given;
    if (!has_threads) has_threads = true;
    pthread_attr_init(&how);
    pthread_attr_setstacksize(&how, C_STACK);
    answer = pthread_create(&thread->system, &how, run_thread, thread);
    pthread_attr_destroy(&how);
    if (answer != 0) return give_stack(thread), 11;
    put_long(at, thread->number);
    return 0;
}
u32 module_pthread_join(u64 number, u32 answer) {
    struct thread *thread = &threads[number - 2];
    struct turn turn;
    if (number < 2 || number - 2 >= THREADS || !thread->is_used) return 3;
    turn = leave_module();
    pthread_join(thread->system, NULL);
    enter_module(turn);
    give_stack(thread);
    if (answer != 0) put_long(answer, 0);
    return 0;
}
u32 module_pthread_detach(u64 number) {
    return number < 2 || number - 2 >= THREADS ? 3 : (u32)pthread_detach(threads[number - 2].system);
}
u32 module_sched_yield(void) {
    struct turn turn = leave_module();
    sched_yield();
    enter_module(turn);
    return 0;
}

/* The one call of the system by number: to sleep until a word changes, or at most so long, and to wake who sleeps. Who sleeps may wake for no reason. */
static pthread_cond_t woken = PTHREAD_COND_INITIALIZER;

static struct timespec end_of(u32 timeout) {
    struct timespec end;
    u64 seconds = get64(place(timeout, 8)), nanoseconds = get64(place((u64)timeout + 8, 8));
    clock_gettime(CLOCK_REALTIME, &end);
    nanoseconds += (u64)end.tv_nsec;
    end.tv_sec += (time_t)((seconds < 1000000000 ? seconds : 1000000000) + nanoseconds / 1000000000);
    end.tv_nsec = (long)(nanoseconds % 1000000000);
    return end;
}
static void sleep_on(u32 word, u64 value, u32 timeout) {
    struct timespec end;
    if (get_number(word) != (u32)value) return;
    if (timeout == 0) {
        pthread_cond_wait(&woken, &turn_lock);
        return;
    }
    end = end_of(timeout);
    pthread_cond_timedwait(&woken, &turn_lock, &end);
}
u64 module_syscall(u64 number, u32 word, u64 operation, u64 value, u32 timeout, u32 rest) {
    struct turn turn = {g0, its_number};
    (void)number, (void)rest;
    if (IS_SIDE_BY_SIDE) pthread_mutex_lock(&turn_lock);
    if ((operation & 127) == 0) sleep_on(word, value, timeout);
    else pthread_cond_broadcast(&woken);
    g0 = turn.stack, its_number = turn.number;
    if (IS_SIDE_BY_SIDE) pthread_mutex_unlock(&turn_lock);
    return 0;
}
#endif
u64 module_pthread_self(void) { return its_number; }

int main(int count, char **words) {
    given_words.count = count, given_words.words = words;
    begin_memory();
    begin_data();
    begin_heap();
#ifndef ONFISEQ_ONE_THREAD
    if (!IS_SIDE_BY_SIDE) pthread_mutex_lock(&turn_lock);
#endif
    return (int)onfiseq_main();
}

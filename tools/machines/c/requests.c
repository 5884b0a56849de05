/* What a library of onfiseq asks for memory by, over the three functions of onfiseq.h. tools/machines/memory.py puts this file and heap.c into each library that asks,
 * and gives the requests these names: the kit's own, rattle_alloc and its kin, would clash with those of another library of the kit.
 *
 * A request answers two words, whether there is memory and where; where there is none, the place may be any that isn't null. NARROW: the libraries of retarget.py take
 * the place of the two words, and sizes of 64 bits. */
typedef __SIZE_TYPE__ size_t;
typedef __UINT64_TYPE__ uint64_t;

void *onfiseq_alloc(size_t size);
void *onfiseq_realloc(void *old, size_t kept, size_t size);
void onfiseq_free(void *memory);

/* Each library has them, and one of them is linked. */
#define OWN __attribute__((weak, visibility("hidden")))

static char none;

#ifdef NARROW

struct told {
    uint64_t ok;
    void *memory;
};

static void tell(struct told *answer, void *memory) {
    answer->ok = memory != 0;
    answer->memory = memory != 0 ? memory : &none;
}

static int fits(uint64_t size) { return size <= (size_t)-1 / 2; }

OWN void w_onfiseq_take(struct told *answer, uint64_t size, uint64_t alignment) {
    uint64_t wanted = size != 0 ? size : alignment;
    tell(answer, fits(wanted) ? onfiseq_alloc((size_t)wanted) : 0);
}

OWN void w_onfiseq_retake(struct told *answer, void *old, uint64_t kept, uint64_t size, uint64_t alignment) {
    uint64_t wanted = size != 0 ? size : alignment;
    tell(answer, fits(wanted) ? onfiseq_realloc(old, (size_t)kept, (size_t)wanted) : 0);
}

OWN void w_onfiseq_return(void *memory) { onfiseq_free(memory); }

#else

struct told {
    size_t ok;
    void *memory;
};

static struct told tell(void *memory) {
    struct told answer = {memory != 0, memory != 0 ? memory : &none};
    return answer;
}

OWN struct told onfiseq_take(size_t size, size_t alignment) { return tell(onfiseq_alloc(size != 0 ? size : alignment)); }

OWN struct told onfiseq_retake(void *old, size_t kept, size_t size, size_t alignment) {
    return tell(onfiseq_realloc(old, kept, size != 0 ? size : alignment));
}

OWN void onfiseq_return(void *memory) { onfiseq_free(memory); }

#endif

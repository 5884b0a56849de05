/* The three functions of onfiseq.h by which the libraries have memory, over malloc, realloc and free: a program that has its own gives those instead. */
typedef __SIZE_TYPE__ size_t;

void *malloc(size_t size);
void *realloc(void *old, size_t size);
void free(void *memory);

#define UNLESS_GIVEN __attribute__((weak))

UNLESS_GIVEN void *onfiseq_alloc(size_t size) { return malloc(size); }

UNLESS_GIVEN void *onfiseq_realloc(void *old, size_t kept, size_t size) {
    (void)kept; /* so many bytes of the old block are in use */
    return realloc(old, size);
}

UNLESS_GIVEN void onfiseq_free(void *memory) { free(memory); }

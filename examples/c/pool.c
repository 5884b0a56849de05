/* Memory of your own for the libraries that ask for some: a block in place of malloc, for a firmware without a heap. These three functions take the place of those that
 * the libraries bring, whichever stands first. What a call takes it has given back when it returns, so the block is free again as soon as nothing is out.
 *
 *     cc -Iinclude examples/c/loader.c examples/c/pool.c libonfiseq_verify_c.a libonfiseq_text_c.a -o loader
 */
#include "onfiseq.h"
#include <string.h>

#ifndef ROOM
#define ROOM (1 << 20) /* onfiseq_verify takes 8 KB, and a search for the run of a refusal 8 MB */
#endif
enum { STEP = 16 };

static union {
    uint64_t aligned[2];
    uint8_t bytes[ROOM];
} room;
static size_t used, blocks; /* bytes up to the last block's end, and how many blocks are out */
static uint8_t *last;       /* the block that was given last */

void *onfiseq_alloc(size_t size) {
    if (size > ROOM - used) return NULL;
    last = room.bytes + used;
    used += (size + STEP - 1) / STEP * STEP;
    blocks++;
    return last;
}

/* The last block grows where it is; another moves, and its old place is free when all is given back. */
void *onfiseq_realloc(void *old, size_t kept, size_t size) {
    size_t begin = (size_t)((uint8_t *)old - room.bytes);
    if (old == last && size <= ROOM - begin) {
        used = begin + (size + STEP - 1) / STEP * STEP;
        return old;
    }
    void *made = onfiseq_alloc(size);
    if (made == NULL) return NULL;
    blocks--;
    return memcpy(made, old, kept < size ? kept : size);
}

void onfiseq_free(void *memory) {
    if (memory == last) used = (size_t)(last - room.bytes), last = NULL;
    if (--blocks == 0) used = 0, last = NULL;
}

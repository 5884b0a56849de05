/* Paints the stack below a call and says how much of it the call has changed: for the functions that tools/stacks.py writes, one for each call of onfiseq.h. With
 * IN_ROOM the call is one of release/onfiseq.c, whose own stack stands in a room that is lent to it, and is painted too. */
#include <stdio.h>
#include <stdlib.h>
#include <string.h>

enum { DEEP = 262144, NEAR = 512, PAINT = 0xa5, ROOM_HEAD = 16 };

struct measured {
    const char *name;
    unsigned long made, most, most_in_room;
};

static void *(*volatile fill)(void *, int, size_t) = memset; /* so that no compiler leaves it out */
static _Thread_local uint8_t *low;                            /* where the paint begins */

#ifdef IN_ROOM
static uint64_t room[IN_ROOM / 8];
void *lend_room(void);
void *lend_room(void) { return room; }
#endif

__attribute__((noinline)) static void paint(void) {
    low = (uint8_t *)__builtin_frame_address(0) - NEAR - DEEP;
    fill(low, PAINT, DEEP);
#ifdef IN_ROOM
    fill(room + ROOM_HEAD / 8, PAINT, STACK_IN_ROOM);
#endif
}

/* How many of the bytes, in steps of eight, are as they were painted. */
static size_t painted(const volatile uint64_t *bytes, size_t length) {
    size_t k = 0;
    while (k < length / 8 && bytes[k] == PAINT * 0x0101010101010101u) k++;
    return k * 8;
}

/* What the call that came behind `paint` has changed, told from the frame of the function that called both. */
__attribute__((noinline)) static void note(struct measured *it, const void *frame) {
    size_t used = (size_t)((const uint8_t *)frame - (low + painted((const volatile uint64_t *)(const void *)low, DEEP)));
    it->made++;
    if (used > it->most) it->most = used;
#ifdef IN_ROOM
    used = STACK_IN_ROOM - painted(room + ROOM_HEAD / 8, STACK_IN_ROOM);
    if (used > it->most_in_room) it->most_in_room = used;
#endif
}


/* ---- the memory of whoever calls: the stack, the data where they don't stand for themselves, and room, which is free again when the call ends */

enum { IS_IN_CALL, IS_FILLED, MARKS = 16 };
#define MOST 0x7fff0000u

#if IS_DIRECT
static u32 lowest(const struct module *it) { return (u32)(uintptr_t)it->memory.data; }
#else
static u32 lowest(const struct module *it) {
    (void)it;
    return LOWEST;
}
#endif

#if ONFISEQ_MEMORY
#ifdef ONFISEQ_ROOM
void *ONFISEQ_ROOM(void);
static void *room_of_caller(void) { return ONFISEQ_ROOM(); }
#else
static u64 only_room[(ONFISEQ_MEMORY) / 8];
static void *room_of_caller(void) { return only_room; }
#endif

/* How far above the marks the stack begins: its end is a multiple of 16, as it is in the module. */
static u32 gap_above(const u8 *marks) { return IS_DIRECT ? (u32)(uintptr_t)marks & 8 : 0; }

static bool find_memory(struct module *it) {
    u8 *room = (u8 *)room_of_caller();
    u32 before = room == NULL ? 0 : MARKS + gap_above(room);
    it->marks = room;
    it->memory.data = room == NULL ? NULL : room + before;
    it->memory.size = (ONFISEQ_MEMORY) / 8 * 8 - before - (IS_DIRECT ? 0 : LONGEST);
    return room != NULL;
}
static bool reaches(struct module *it, u64 end) { return end - lowest(it) <= it->memory.size; }
#else
static ONFISEQ_THREAD struct memory kept;
static ONFISEQ_THREAD volatile u8 kept_marks[MARKS];

static bool find_memory(struct module *it) {
    it->marks = kept_marks;
    it->memory = kept;
    return true;
}
/* What calloc gives is often no memory yet, and most of the stack is never touched. */
static bool has_grown(struct module *it, u64 size) {
    size_t bytes = (size_t)(size + LONGEST);
    u8 *data;
    if (size > MOST || bytes < size) return false;
    data = kept.data == NULL ? (u8 *)calloc(bytes, 1) : (u8 *)realloc(kept.data, bytes);
    if (data == NULL) return false;
    if (kept.data != NULL) memset(data + kept.size + LONGEST, 0, (size_t)(size - kept.size));
    kept.data = data, kept.size = (distance)size;
    it->memory = kept;
    return true;
}
static bool reaches(struct module *it, u64 end) {
    u64 size = end - lowest(it);
    return size <= it->memory.size || has_grown(it, size + it->memory.size / 2) || has_grown(it, size);
}
#endif

/* How much room so many values take, or more than there is. */
INSTRUCTION u64 room_of(u64 count, u64 each) { return count > MOST / each ? MOST : (count * each + 15) & ~(u64)15; }

/* The place of so many bytes of room, or 0 where there are none. */
INSTRUCTION u64 find_room(struct module *it, u64 size) {
    u64 at = (it->room_at + 15) & ~(u64)15;
    if (size > MOST || !reaches(it, at + size)) return 0;
    it->room_at = at + size;
    return at;
}

static void end_call(struct module *it) { it->marks[IS_IN_CALL] = 0; }

/* Begins a call that takes so much of the stack. */
static bool begin_module(struct module *it, u64 stack) {
    if (stack > STACK_BYTES || !find_memory(it) || it->marks[IS_IN_CALL]) return false;
    it->marks[IS_IN_CALL] = 1;
    it->stack_pointer = lowest(it) + STACK_BYTES;
    it->room_at = it->stack_pointer, it->last_block = 0;
    return true;
}

#if IS_DIRECT
#define begin_call(it, stack, room) begin_module(it, stack)

/* Where the module has what a call is given: where it is. */
static u64 lend(struct module *it, const void *value, u64 room) {
    (void)it, (void)room;
    return (u64)(uintptr_t)value;
}
INSTRUCTION void put_bytes(struct module *it, u64 at, const void *bytes, u64 count) { (void)it, (void)at, (void)bytes, (void)count; }
INSTRUCTION void get_bytes(struct module *it, u64 at, void *bytes, u64 count) { (void)it, (void)at, (void)bytes, (void)count; }
#else
/* Begins a call that takes so much of the stack, and so much room for what it is given. */
static bool begin_call(struct module *it, u64 stack, u64 room) {
    if (!begin_module(it, stack)) return false;
    it->room_at = DATA_END;
    if (!reaches(it, it->room_at + room)) return end_call(it), false;
    if (!it->marks[IS_FILLED]) memcpy(place(&it->memory, STACK_END, sizeof data), &data, sizeof data);
    it->marks[IS_FILLED] = 1;
    return true;
}

/* Where the module has what a call is given: in the room that begin_call has found. */
static u64 lend(struct module *it, const void *value, u64 room) {
    u64 at = it->room_at;
    (void)value;
    it->room_at += room;
    return at;
}
INSTRUCTION void put_bytes(struct module *it, u64 at, const void *bytes, u64 count) {
    if (count != 0) memcpy(place(&it->memory, at, count), bytes, (size_t)count);
}
INSTRUCTION void get_bytes(struct module *it, u64 at, void *bytes, u64 count) {
    if (count != 0) memcpy(bytes, place(&it->memory, at, count), (size_t)count);
}
#endif

/* What onfiseq_words and onfiseq_explain say where they have no memory. */
INSTRUCTION size_t say_no_memory(char *text, size_t room) {
    static const char words[] = "out of memory";
    size_t length = room < sizeof words ? room : sizeof words;
    if (length != 0) memcpy(text, words, length - 1), text[length - 1] = 0;
    return sizeof words - 1;
}

/* ---- the memory that the module asks for: of the room, behind what the call was given. A block that is given back is room again where it stands last. */

/* An answer is a struct {u64 ok; void *memory;}, a pointer of 8 bytes. */
static void answer_block(struct module *it, u32 answer, u64 at) {
    i64_store(&it->memory, answer, at != 0);
    i64_store(&it->memory, (u64)answer + 8, at != 0 ? at : 16);
    if (at != 0) it->last_block = at;
}
INSTRUCTION void module_alloc(struct module *it, u32 answer, u64 size, u64 alignment) { answer_block(it, answer, find_room(it, size != 0 ? size : alignment)); }
INSTRUCTION void module_realloc(struct module *it, u32 answer, u32 old, u64 kept_bytes, u64 size, u64 alignment) {
    u64 wanted = size != 0 ? size : alignment, at = old;
    if (old != it->last_block) {
        at = find_room(it, wanted);
        if (at != 0) memory_copy(&it->memory, &it->memory, (u32)at, old, (u32)(kept_bytes < wanted ? kept_bytes : wanted));
    } else if (wanted <= MOST && reaches(it, old + wanted)) {
        it->room_at = old + wanted;
    } else {
        at = 0;
    }
    answer_block(it, answer, at);
}
INSTRUCTION void module_dealloc(struct module *it, u32 old) {
    if (old == it->last_block) it->room_at = old, it->last_block = 0;
}

/* ---- records, in the module's memory and out of it */


/* The calls of onfiseq_mtd.h, of the one C file: what else that has is left out, and its memory is what onfiseq_mtd_lend has lent on this processor.
 * (onfiseq_mtd.h isn't read here, as the C file and the kernel each have a struct module.) */
#include <linux/percpu.h>

DEFINE_PER_CPU(void *, onfiseq_mtd_room);

static void *lent_room(void) { return __this_cpu_read(onfiseq_mtd_room); }

#define ONFISEQ_WITHOUT_VERIFY
#define ONFISEQ_WITHOUT_TEXT
#define ONFISEQ_WITHOUT_LIVE
#define ONFISEQ_STACK ONFISEQ_STACK_OP(16)
#define ONFISEQ_MEMORY 24576
#define ONFISEQ_ROOM lent_room
#include "onfiseq.c"

/* A monitor of a flash channel as a kernel's driver would have it: no floating point, no red zone, no heap, and no frame of the stack above 2 KB.
 * tools/machines/try/kernel.py builds and links it so, and measures the frames.
 *
 * onfiseq_begin and onfiseq_check take more stack than that, so the record of the channel is begun in user space and handed in; a record that isn't one is refused. */
#include "onfiseq.h"

#define INVALID (-22)

struct monitor {
    struct onfiseq_bus bus;
    uint64_t seen;
    uint32_t broken; /* the code of the rule that was broken first, 0 where none was */
};

int monitor_begin(struct monitor *it, const struct onfiseq_bus *begun);
int monitor_see(struct monitor *it, uint8_t target, uint8_t kind, uint8_t byte, uint8_t fail);
int monitor_is_busy(const struct monitor *it, uint8_t target, uint8_t lun);

/* Begins with a record that user space copied in: it has begun where its first LUN can be looked at. */
int monitor_begin(struct monitor *it, const struct onfiseq_bus *begun) {
    struct onfiseq_look look = onfiseq_look_at(begun, 0, 0);
    if (!look.is_there) return INVALID;
    it->bus = *begun;
    it->seen = 0;
    it->broken = 0;
    return 0;
}

/* What the driver calls at each cycle, and at each edge of R/B#: 0, or INVALID from the first cycle on that breaks a rule. */
int monitor_see(struct monitor *it, uint8_t target, uint8_t kind, uint8_t byte, uint8_t fail) {
    struct onfiseq_item item = {target, kind, byte, fail};
    if (it->broken == 0) it->broken = onfiseq_push(&it->bus, &item);
    if (it->broken != 0) return INVALID;
    it->seen++;
    return 0;
}

/* Whether a LUN works: what the driver has to wait for. */
int monitor_is_busy(const struct monitor *it, uint8_t target, uint8_t lun) {
    struct onfiseq_look look = onfiseq_look_at(&it->bus, target, lun);
    return look.is_there && look.busy;
}

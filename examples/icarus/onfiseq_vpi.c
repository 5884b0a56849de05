/* The monitor of ../systemverilog/onfiseq_dpi.c for simulators that have VPI and no DPI, as Icarus Verilog. The answers are those of its functions:
 *
 *     $onfiseq_open(PAGE, TARGETS, LUNS, READY_PINS, PROFILE, LAG, PASSES)   a handle, or -1 where PAGE is no chip, or where no channel has these parameters
 *     $onfiseq_see(handle, enabled, kind, byte, time)   what comes on the channel; bits of the byte may be x or z
 *     $onfiseq_judge(handle)                            judges what waits
 *     $onfiseq_take(handle)                             the next fault
 *     $onfiseq_text(handle)                             its words
 *
 * onfiseq_monitor.v says how it is built. */
#include <stdbool.h>
#include <stdint.h>
#include <stdio.h>
#include <vpi_user.h>

void *onfiseq_dpi_open(const char *page_path, int targets, int profile);
int onfiseq_dpi_watch(void *channel, int luns, int ready_pins, int lag, const uint32_t *passes);
int onfiseq_dpi_see(void *channel, int enabled, int kind, int bits, long long time);
int onfiseq_dpi_judge(void *channel);
int onfiseq_dpi_take(void *channel);
const char *onfiseq_dpi_text(void *channel);
void onfiseq_dpi_close(void *channel);

enum { MOST = 64, WORDS = 8 };

static void *channels[MOST];
static int opened;

static vpiHandle call(void) { return vpi_handle(vpiSysTfCall, NULL); }

static void answer(int number) {
    s_vpi_value value = {.format = vpiIntVal, .value.integer = number};
    vpi_put_value(call(), &value, NULL, vpiNoDelay);
}

/* The next argument's bits in so many words of 32, the lowest first, and which of the first 32 are x or z. */
static uint32_t scan_bits(vpiHandle arguments, uint32_t *words, int count) {
    s_vpi_value value = {.format = vpiVectorVal};
    vpiHandle it = vpi_scan(arguments);
    int size = vpi_get(vpiSize, it);
    vpi_get_value(it, &value);
    for (int k = 0; k < count; k++) words[k] = 32 * k < size ? (uint32_t)value.value.vector[k].aval : 0;
    uint32_t unknown = (uint32_t)value.value.vector[0].bval;
    words[0] &= size < 32 ? (1u << size) - 1 : ~0u;
    return unknown & (size < 32 ? (1u << size) - 1 : ~0u);
}

/* The next argument as a number, in which a bit that is x or z is 0. */
static int scan_number(vpiHandle arguments) {
    uint32_t word, unknown = scan_bits(arguments, &word, 1);
    return (int)(word & ~unknown);
}

static PLI_INT32 open_chip(PLI_BYTE8 *data) {
    vpiHandle arguments = vpi_iterate(vpiArgument, call());
    s_vpi_value path = {.format = vpiStringVal};
    char kept[1024];
    uint32_t passes[WORDS];
    int numbers[5]; /* targets, LUNs, pins, profile, lag */
    (void)data;
    vpi_get_value(vpi_scan(arguments), &path);
    snprintf(kept, sizeof kept, "%s", path.value.str); /* the next value stands in the same place */
    for (int k = 0; k < 5; k++) numbers[k] = scan_number(arguments);
    scan_bits(arguments, passes, WORDS);
    vpi_free_object(arguments);
    void *it = opened < MOST ? onfiseq_dpi_open(kept, numbers[0], numbers[3]) : NULL;
    if (it != NULL && onfiseq_dpi_watch(it, numbers[1], numbers[2], numbers[4], passes) != 0) onfiseq_dpi_close(it), it = NULL;
    if (it == NULL) return answer(-1), 0;
    channels[opened] = it;
    answer(opened++);
    return 0;
}

/* The channel of the next argument, a handle. */
static void *scan_channel(vpiHandle arguments) {
    uint32_t handle;
    bool is_known = scan_bits(arguments, &handle, 1) == 0;
    return is_known && handle < (uint32_t)opened ? channels[handle] : NULL;
}

static PLI_INT32 see(PLI_BYTE8 *data) {
    vpiHandle arguments = vpi_iterate(vpiArgument, call());
    s_vpi_value time = {.format = vpiRealVal};
    uint32_t byte;
    (void)data;
    void *it = scan_channel(arguments);
    int enabled = scan_number(arguments), kind = scan_number(arguments);
    uint32_t unknown = scan_bits(arguments, &byte, 1);
    vpi_get_value(vpi_scan(arguments), &time);
    vpi_free_object(arguments);
    answer(it == NULL ? 0 : onfiseq_dpi_see(it, enabled, kind, (int)((byte & ~unknown) | unknown << 8), (long long)time.value.real));
    return 0;
}

/* The channel of a call whose one argument is a handle. */
static void *channel_of_call(void) {
    vpiHandle arguments = vpi_iterate(vpiArgument, call());
    void *it = scan_channel(arguments);
    vpi_free_object(arguments);
    return it;
}

/* The answer of a call about a channel. */
static PLI_INT32 answer_of(int of_channel(void *channel)) {
    void *it = channel_of_call();
    answer(it == NULL ? 0 : of_channel(it));
    return 0;
}

static PLI_INT32 judge(PLI_BYTE8 *data) { return (void)data, answer_of(onfiseq_dpi_judge); }

static PLI_INT32 take(PLI_BYTE8 *data) { return (void)data, answer_of(onfiseq_dpi_take); }

static PLI_INT32 text(PLI_BYTE8 *data) {
    void *it = channel_of_call();
    s_vpi_value value = {.format = vpiStringVal, .value.str = (PLI_BYTE8 *)(it == NULL ? "" : onfiseq_dpi_text(it))};
    (void)data;
    vpi_put_value(call(), &value, NULL, vpiNoDelay);
    return 0;
}

static PLI_INT32 bits_of_text(PLI_BYTE8 *data) { return (void)data, 8 * 240; }

/* Whether a call has so many arguments; else the simulation doesn't begin. */
static PLI_INT32 count_arguments(PLI_BYTE8 *data) {
    vpiHandle arguments = vpi_iterate(vpiArgument, call());
    int count = 0, wanted = data[0] - '0';
    while (arguments != NULL && vpi_scan(arguments) != NULL) count++;
    if (count == wanted) return 0;
    vpi_printf("onfiseq: a call has %d arguments, and not %d\n", count, wanted);
    vpi_control(vpiFinish, 1);
    return 0;
}

static void begin(void) {
    static s_vpi_systf_data calls[] = {
        {vpiSysFunc, vpiIntFunc, "$onfiseq_open", open_chip, count_arguments, NULL, "7"},
        {vpiSysFunc, vpiIntFunc, "$onfiseq_see", see, count_arguments, NULL, "5"},
        {vpiSysFunc, vpiIntFunc, "$onfiseq_judge", judge, count_arguments, NULL, "1"},
        {vpiSysFunc, vpiIntFunc, "$onfiseq_take", take, count_arguments, NULL, "1"},
        {vpiSysFunc, vpiSizedFunc, "$onfiseq_text", text, count_arguments, bits_of_text, "1"},
    };
    for (unsigned k = 0; k < sizeof calls / sizeof *calls; k++) vpi_register_systf(&calls[k]);
}

void (*vlog_startup_routines[])(void) = {begin, NULL};

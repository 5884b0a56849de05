/* A raw NAND driver's exec_op, which shows each operation to onfiseq before it goes out: a page costs as much as a byte, and a refused operation changes nothing.
 * The controller and its two chips are simulated, so the module drives no pins: when it is loaded it runs some operations, four of them wrong, and a chip that dies.
 * `make` builds it; tools/kernel.py builds it too, looks at what was built, and runs its code outside of a kernel. */
#include "onfiseq_mtd.h"
#include <linux/module.h>

static struct onfiseq_mtd checked;
static bool is_dead; /* the chip's R/B# stays low */

/* What the controller would do is left out. */
static int exec_op(struct nand_chip *chip, const struct nand_operation *op, bool check_only) {
    int error = check_only ? 0 : onfiseq_mtd_check(nand_get_controller_data(chip), op);
    if (error || check_only || !is_dead) return error;
    pr_err("onfiseq: cs%u: operation %02x: timeout\n", op->cs, op->instrs[0].ctx.cmd.opcode);
    return onfiseq_mtd_time_out(nand_get_controller_data(chip), op) ? -EINVAL : -ETIMEDOUT;
}

#define OPERATION(name, ...)                              \
    static const struct nand_op_instr name##_instrs[] = { \
        __VA_ARGS__,                                      \
    };                                                    \
    static const struct nand_operation name = NAND_OPERATION(0, name##_instrs)
#define COMMAND(byte) NAND_OP_CMD(byte, 0)
#define WAIT NAND_OP_WAIT_RDY(100, 0)

static const u8 row[5] = {0, 0, 4, 0, 0}, far_row[3] = {0, 0, 1}, at_20 = 0x20;
static u8 page[529];

OPERATION(reset, COMMAND(0xff), WAIT);
OPERATION(identify, COMMAND(0x90), NAND_OP_ADDR(1, &at_20, 60), NAND_OP_8BIT_DATA_IN(4, page, 0));
OPERATION(erase, COMMAND(0x60), NAND_OP_ADDR(3, row + 2, 0), NAND_OP_CMD(0xd0, 200), WAIT);
OPERATION(erase_behind, COMMAND(0x60), NAND_OP_ADDR(3, row + 2, 0), COMMAND(0xd0));
OPERATION(ask, NAND_OP_CMD(0x70, 60), NAND_OP_8BIT_DATA_IN(1, page, 0));
OPERATION(program, COMMAND(0x80), NAND_OP_ADDR(5, row, 70), NAND_OP_DATA_OUT(528, page, 0), NAND_OP_CMD(0x10, 200), WAIT);
OPERATION(read, COMMAND(0x00), NAND_OP_ADDR(5, row, 0), NAND_OP_CMD(0x30, 200), WAIT, NAND_OP_DATA_IN(528, page, 0));
OPERATION(outside, COMMAND(0x60), NAND_OP_ADDR(3, far_row, 0), COMMAND(0xd0));
OPERATION(too_much, COMMAND(0x80), NAND_OP_ADDR(5, row, 70), NAND_OP_DATA_OUT(529, page, 0), COMMAND(0x10));
OPERATION(too_soon, COMMAND(0x00), NAND_OP_ADDR(5, row, 0), COMMAND(0x30), NAND_OP_DATA_IN(1, page, 0));

static struct nand_chip chip;

static int run(unsigned int cs, const struct nand_operation *wanted) {
    struct nand_operation op = *wanted;
    op.cs = cs;
    return exec_op(&chip, &op, false);
}

/* A page in two goes, as a controller with a small FIFO has it: its parser cuts the data. */
static int run_in_two(void) {
    struct nand_subop first = {.instrs = program.instrs, .ninstrs = 3, .last_instr_end_off = 256};
    struct nand_subop second = {.instrs = program.instrs + 2, .ninstrs = 3, .first_instr_start_off = 256};
    return onfiseq_mtd_check_subop(&checked, &first) ? -EINVAL : onfiseq_mtd_check_subop(&checked, &second);
}

static void run_wrong(void) {
    run(0, &outside), run(0, &too_much), run(0, &too_soon);
    run(0, &reset), run(1, &erase_behind), run(1, &read), run(0, &read); /* chip 1 still erases */
    is_dead = true;
    run(0, &erase);
    is_dead = false;
    run(0, &read);
}

static int __init begin(void) {
    const struct nand_memory_organization found = NAND_MEMORG(1, 512, 16, 4, 8, 0, 1, 1, 2);
    const struct nand_operation *const right[] = {&reset, &identify, &erase, &ask, &program, &read};
    size_t k, passed = 0;
    int error;
    chip.base.memorg = found;
    nand_set_controller_data(&chip, &checked);
    error = onfiseq_mtd_begin(&checked, &chip);
    if (error) return error;
    for (k = 0; k < ARRAY_SIZE(right); k++) passed += run(0, right[k]) == 0;
    passed += run_in_two() == 0;
    pr_info("onfiseq: %u operations passed\n", (unsigned int)passed);
    run_wrong();
    return 0;
}

static void __exit end(void) { onfiseq_mtd_end(&checked); }

module_init(begin);
module_exit(end);
MODULE_LICENSE("Dual MIT/GPL");
MODULE_DESCRIPTION("exec_op with onfiseq in front of it");

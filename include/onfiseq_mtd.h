/**
 * @file
 * The operations of a Linux raw NAND driver, checked before they go out: struct nand_operation and struct nand_subop as parts of onfiseq.h.
 *
 *     static int exec_op(struct nand_chip *chip, const struct nand_operation *op, bool check_only) {
 *         struct my_chip *mine = to_my_chip(chip);
 *         int error = check_only ? 0 : onfiseq_mtd_check(&mine->checked, op);
 *         return error ? error : nand_op_parser_exec_op(chip, &my_parser, op, check_only);
 *     }
 *
 * onfiseq_mtd_begin comes behind nand_scan, as the geometry is known then. The lock of a struct onfiseq_mtd is the chip's, which the core holds around exec_op.
 * examples/kernel builds a module so; its checker.c is the C file of the calls, with the memory that is lent here.
 *
 * No delay_ns is judged: how long the controller pauses behind an instruction changes nothing of what the chip permits.
 */
#ifndef ONFISEQ_MTD_H
#define ONFISEQ_MTD_H

#include "onfiseq.h"
#include <linux/log2.h>
#include <linux/mtd/rawnand.h>
#include <linux/percpu.h>
#include <linux/slab.h>

enum {
    ONFISEQ_MTD_PARTS = 16,  /**< the most instructions of an operation */
    ONFISEQ_MTD_ROOM = 24576 /**< the memory of the calls, for as many parts */
};

/** A chip that is checked. before is its record before the last operation. */
struct onfiseq_mtd {
    struct onfiseq_bus bus, before;
    void *room;
};

/** The room that the calls on this processor have: checker.c lends it to them. */
DECLARE_PER_CPU(void *, onfiseq_mtd_room);

/** Begins with a room; nothing else runs on this processor up to onfiseq_mtd_give_back, so a room is no other call's. */
static inline void onfiseq_mtd_lend(void *room) {
    preempt_disable();
    __this_cpu_write(onfiseq_mtd_room, room);
}

static inline void onfiseq_mtd_give_back(void) { preempt_enable(); }

/** The part of an instruction: its cycles from number `from` to the one before `end`. What Linux calls data in comes out of the chip. */
static inline struct onfiseq_part onfiseq_mtd_part(const struct nand_op_instr *it, unsigned int from, unsigned int end) {
    struct onfiseq_part part = {.count = end - from};
    switch (it->type) {
    case NAND_OP_CMD_INSTR:
        part.kind = ONFISEQ_COMMAND;
        part.bytes[0] = it->ctx.cmd.opcode;
        break;
    case NAND_OP_ADDR_INSTR:
        part.kind = ONFISEQ_ADDRESS;
        if (part.count <= sizeof part.bytes) memcpy(part.bytes, it->ctx.addr.addrs + from, part.count);
        break;
    case NAND_OP_DATA_IN_INSTR: part.kind = ONFISEQ_OUTPUT; break;
    case NAND_OP_DATA_OUT_INSTR: part.kind = ONFISEQ_INPUT; break;
    case NAND_OP_WAITRDY_INSTR: part.kind = ONFISEQ_WAIT; break;
    }
    return part;
}

/** How many cycles an instruction has. */
static inline unsigned int onfiseq_mtd_cycles(const struct nand_op_instr *it) {
    switch (it->type) {
    case NAND_OP_CMD_INSTR: return 1;
    case NAND_OP_ADDR_INSTR: return it->ctx.addr.naddrs;
    case NAND_OP_DATA_IN_INSTR:
    case NAND_OP_DATA_OUT_INSTR: return it->ctx.data.len;
    default: return 0;
    }
}

/** The parts of what a pattern of nand_op_parser was given, in room for ONFISEQ_MTD_PARTS: a part of an instruction may stand at either end. */
static inline void onfiseq_mtd_parts(const struct nand_subop *op, struct onfiseq_part *parts) {
    unsigned int k;
    for (k = 0; k < op->ninstrs; k++) {
        bool is_cut = k + 1 == op->ninstrs && op->last_instr_end_off;
        unsigned int end = is_cut ? op->last_instr_end_off : onfiseq_mtd_cycles(&op->instrs[k]);
        parts[k] = onfiseq_mtd_part(&op->instrs[k], k == 0 ? op->first_instr_start_off : 0, end);
    }
}

/** The same for a part of an operation that goes out by itself, as a pattern of nand_op_parser has it. */
static inline int onfiseq_mtd_check_subop(struct onfiseq_mtd *it, const struct nand_subop *op) {
    struct onfiseq_part parts[ONFISEQ_MTD_PARTS];
    struct onfiseq_spot spot;
    uint32_t code;
    if (op->ninstrs > ONFISEQ_MTD_PARTS) return -EOPNOTSUPP;
    onfiseq_mtd_parts(op, parts);
    it->before = it->bus;
    onfiseq_mtd_lend(it->room);
    code = onfiseq_push_op(&it->bus, min(op->cs, 255u), parts, op->ninstrs, &spot);
    onfiseq_mtd_give_back();
    if (code == ONFISEQ_OK) return 0;
    pr_err("onfiseq: cs%u: operation %02x, instruction %u, cycle %u: %c%u\n", op->cs, parts[0].bytes[0], (unsigned int)spot.part, (unsigned int)spot.cycle,
           ONFISEQ_LETTER(code), ONFISEQ_NUMBER(code));
    return -EINVAL;
}

/** Whether the chip permits an operation: 0, and it counts as done; or a line of the log with the code of the rule, and an error. */
static inline int onfiseq_mtd_check(struct onfiseq_mtd *it, const struct nand_operation *op) {
    struct nand_subop whole = {.cs = op->cs, .instrs = op->instrs, .ninstrs = op->ninstrs};
    return onfiseq_mtd_check_subop(it, &whole);
}

/** Of the operation that was checked last, the wait never ended: what came before it is what has happened. */
static inline int onfiseq_mtd_time_out(struct onfiseq_mtd *it, const struct nand_operation *op) {
    struct nand_operation sent = *op;
    for (sent.ninstrs = 0; sent.ninstrs < op->ninstrs && op->instrs[sent.ninstrs].type != NAND_OP_WAITRDY_INSTR;) sent.ninstrs++;
    it->bus = it->before;
    return onfiseq_mtd_check(it, &sent);
}

/** The geometry of a chip that nand_scan has found. What the core asks of it beside the base profile is permitted: features, and a whole target of several LUNs. */
static inline struct onfiseq_geometry onfiseq_mtd_geometry(struct nand_chip *chip) {
    const struct nand_memory_organization *found = nanddev_get_memorg(&chip->base);
    struct onfiseq_geometry geometry = {found->pagesize, found->oobsize, found->pages_per_eraseblock, found->eraseblocks_per_lun};
    geometry.luns = found->luns_per_target;
    geometry.plane_bits = ilog2(found->planes_per_lun);
    geometry.enhanced = found->luns_per_target > 1;
    geometry.optional = ONFISEQ_WIDE | (chip->parameters.supports_set_get_features ? ONFISEQ_FEATURES : 0);
    return geometry;
}

/** Begins with a chip that is ready: 0, or an error. */
static inline int onfiseq_mtd_begin(struct onfiseq_mtd *it, struct nand_chip *chip) {
    struct onfiseq_geometry geometry = onfiseq_mtd_geometry(chip);
    uint32_t code;
    if (chip->options & NAND_BUSWIDTH_16) return -EOPNOTSUPP;
    it->room = kvzalloc(ONFISEQ_MTD_ROOM, GFP_KERNEL);
    if (!it->room) return -ENOMEM;
    onfiseq_mtd_lend(it->room);
    code = onfiseq_begin(&it->bus, &geometry, min(nanddev_ntargets(&chip->base), 255u));
    onfiseq_mtd_give_back();
    if (code == ONFISEQ_OK) return 0;
    pr_err("onfiseq: the chip is refused: %c%u\n", ONFISEQ_LETTER(code), ONFISEQ_NUMBER(code));
    kvfree(it->room);
    return -EINVAL;
}

static inline void onfiseq_mtd_end(struct onfiseq_mtd *it) { kvfree(it->room); }

#endif

/*
 * A plugin of qemu's user emulation: adds up the instructions that a program executes between its marks (mark.h).
 * Each instruction adds one where it is executed, so every run gives the same numbers wherever the program lies: a block that ends
 * before an instruction on two pages counts that one too, which the next block executes.
 */
#include <inttypes.h>
#include <stdbool.h>
#include <stddef.h>
#include <stdint.h>
#include <stdio.h>
#include <stdlib.h>
#include <string.h>

#include "mark.h"

/* What is used of qemu's plugin interface, version 1 of it; Debian packages no header. */
typedef uint64_t qemu_plugin_id_t;
typedef struct qemu_info_t qemu_info_t;
struct qemu_plugin_tb;
struct qemu_plugin_insn;
enum qemu_plugin_op { QEMU_PLUGIN_INLINE_ADD_U64 };
typedef void (*qemu_plugin_vcpu_tb_trans_cb_t)(qemu_plugin_id_t id, struct qemu_plugin_tb *tb);
typedef void (*qemu_plugin_vcpu_syscall_cb_t)(qemu_plugin_id_t id, unsigned vcpu, int64_t number, uint64_t a1, uint64_t a2,
                                              uint64_t a3, uint64_t a4, uint64_t a5, uint64_t a6, uint64_t a7, uint64_t a8);
typedef void (*qemu_plugin_udata_cb_t)(qemu_plugin_id_t id, void *userdata);
void qemu_plugin_register_vcpu_tb_trans_cb(qemu_plugin_id_t id, qemu_plugin_vcpu_tb_trans_cb_t cb);
void qemu_plugin_register_vcpu_syscall_cb(qemu_plugin_id_t id, qemu_plugin_vcpu_syscall_cb_t cb);
void qemu_plugin_register_atexit_cb(qemu_plugin_id_t id, qemu_plugin_udata_cb_t cb, void *userdata);
void qemu_plugin_register_vcpu_insn_exec_inline(struct qemu_plugin_insn *insn, enum qemu_plugin_op op, void *ptr, uint64_t imm);
size_t qemu_plugin_tb_n_insns(const struct qemu_plugin_tb *tb);
struct qemu_plugin_insn *qemu_plugin_tb_get_insn(const struct qemu_plugin_tb *tb, size_t number);

__attribute__((visibility("default"))) int qemu_plugin_version = 1;

static uint64_t executed;
static uint64_t began;
static uint64_t open_region;
static struct { uint64_t instructions, pairs; } regions[MARK_REGIONS];
static char counts_file[4096];

static void on_block(qemu_plugin_id_t id, struct qemu_plugin_tb *tb)
{
    (void)id;
    for (size_t i = 0; i < qemu_plugin_tb_n_insns(tb); i++)
        qemu_plugin_register_vcpu_insn_exec_inline(qemu_plugin_tb_get_insn(tb, i), QEMU_PLUGIN_INLINE_ADD_U64, &executed, 1);
}

/* A system call ends its block, so `executed` stands exactly behind the mark here. */
static void on_syscall(qemu_plugin_id_t id, unsigned vcpu, int64_t number, uint64_t region, uint64_t a2, uint64_t a3,
                       uint64_t a4, uint64_t a5, uint64_t a6, uint64_t a7, uint64_t a8)
{
    (void)id, (void)vcpu, (void)a2, (void)a3, (void)a4, (void)a5, (void)a6, (void)a7, (void)a8;
    if (number != MARK_NUMBER)
        return;
    if (region >= MARK_REGIONS || (region == MARK_END) == (open_region == MARK_END)) {
        fputs("count: marks do not come in pairs\n", stderr);
        exit(1);
    }
    if (region == MARK_END) {
        regions[open_region].instructions += executed - began;
        regions[open_region].pairs++;
    }
    open_region = region;
    began = executed;
}

static void on_exit_(qemu_plugin_id_t id, void *userdata)
{
    (void)id, (void)userdata;
    FILE *out = fopen(counts_file, "w");
    if (!out) {
        perror(counts_file);
        return;
    }
    for (size_t i = 1; i < MARK_REGIONS; i++)
        if (regions[i].pairs)
            fprintf(out, "%zu %" PRIu64 " %" PRIu64 "\n", i, regions[i].instructions, regions[i].pairs);
    fclose(out);
}

__attribute__((visibility("default"))) int qemu_plugin_install(qemu_plugin_id_t id, const qemu_info_t *info, int argc,
                                                               char **argv)
{
    (void)info;
    if (argc != 1 || strncmp(argv[0], "counts=", 7) != 0 || strlen(argv[0]) >= sizeof counts_file) {
        fputs("count: wants counts=FILE\n", stderr);
        return -1;
    }
    strcpy(counts_file, argv[0] + 7);
    qemu_plugin_register_vcpu_tb_trans_cb(id, on_block);
    qemu_plugin_register_vcpu_syscall_cb(id, on_syscall);
    qemu_plugin_register_atexit_cb(id, on_exit_, NULL);
    return 0;
}

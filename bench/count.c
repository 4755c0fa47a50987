/*
 * A plugin of the emulator qemu that counts the instructions of the program it runs.
 *
 * Usage: qemu-x86_64 -plugin count.so PROGRAM ..
 * When the program ends it prints `instructions N` on standard error. Where the program makes the system call MARK, which no
 * kernel knows, it prints `mark N`: the instructions since the last mark, or since the start.
 *
 * Debian has the emulator without its header; what is used here of version 1 of the interface is declared here.
 */
#include "mark.h"

#include <inttypes.h>
#include <stdio.h>

typedef uint64_t plugin_id;
struct qemu_plugin_tb;
struct qemu_plugin_insn;
enum { ADD_U64 = 0 };

typedef void block_function(plugin_id, struct qemu_plugin_tb *);
typedef void call_function(plugin_id, unsigned, int64_t, uint64_t, uint64_t, uint64_t, uint64_t, uint64_t, uint64_t, uint64_t, uint64_t);
typedef void end_function(plugin_id, void *);

void qemu_plugin_register_vcpu_tb_trans_cb(plugin_id id, block_function *function);
void qemu_plugin_register_vcpu_syscall_cb(plugin_id id, call_function *function);
void qemu_plugin_register_atexit_cb(plugin_id id, end_function *function, void *data);
size_t qemu_plugin_tb_n_insns(const struct qemu_plugin_tb *block);
struct qemu_plugin_insn *qemu_plugin_tb_get_insn(const struct qemu_plugin_tb *block, size_t place);
void qemu_plugin_register_vcpu_insn_exec_inline(struct qemu_plugin_insn *instruction, int operation, void *number, uint64_t operand);

static uint64_t counted, marked;

/* Each instruction of a block adds 1 where it runs. The block's length would not do: it counts an instruction too many where
 * the block ends before one that crosses a page. */
static void on_block(plugin_id id, struct qemu_plugin_tb *block) {
    const size_t count = qemu_plugin_tb_n_insns(block);
    size_t i;

    (void)id;
    for (i = 0; i < count; i++) {
        qemu_plugin_register_vcpu_insn_exec_inline(qemu_plugin_tb_get_insn(block, i), ADD_U64, &counted, 1);
    }
}

static void on_call(plugin_id id, unsigned processor, int64_t number, uint64_t a, uint64_t b, uint64_t c, uint64_t d, uint64_t e,
                    uint64_t f, uint64_t g, uint64_t h) {
    (void)id, (void)processor, (void)a, (void)b, (void)c, (void)d, (void)e, (void)f, (void)g, (void)h;
    if (number == MARK) {
        fprintf(stderr, "mark %" PRIu64 "\n", counted - marked);
        marked = counted;
    }
}

static void on_end(plugin_id id, void *data) {
    (void)id, (void)data;
    fprintf(stderr, "instructions %" PRIu64 "\n", counted);
}

__attribute__((visibility("default"))) int qemu_plugin_version = 1;

__attribute__((visibility("default"))) int qemu_plugin_install(plugin_id id, const void *info, int count, char **words) {
    (void)info, (void)count, (void)words;
    qemu_plugin_register_vcpu_tb_trans_cb(id, on_block);
    qemu_plugin_register_vcpu_syscall_cb(id, on_call);
    qemu_plugin_register_atexit_cb(id, on_end, NULL);
    return 0;
}

/* A plugin of qemu-user: counts the instructions that are executed between two marks, and how far below the
 * stack pointer of the first mark anything is stored.
 *
 * A mark is a no-op that no compiler makes, `nopl 0x6d61726b(%rax)` to begin and `nopl 0x6d61726c(%rax)` to end.
 * The beginning mark is followed by a push, which tells where the stack pointer is.
 *
 * Debian's qemu-user has no header for plugins: what is used of the interface (version 1) is declared here. */
#include <stdint.h>
#include <stdio.h>
#include <string.h>

#define SHOWN __attribute__((visibility("default")))

struct qemu_plugin_tb;
struct qemu_plugin_insn;
enum { ADD_U64 = 0 };
enum { NO_REGS = 0 };
enum { STORES = 2 };

void qemu_plugin_register_vcpu_tb_trans_cb(uint64_t id, void (*cb)(uint64_t id, struct qemu_plugin_tb *tb));
size_t qemu_plugin_tb_n_insns(const struct qemu_plugin_tb *tb);
struct qemu_plugin_insn *qemu_plugin_tb_get_insn(const struct qemu_plugin_tb *tb, size_t index);
const void *qemu_plugin_insn_data(const struct qemu_plugin_insn *insn);
size_t qemu_plugin_insn_size(const struct qemu_plugin_insn *insn);
void qemu_plugin_register_vcpu_insn_exec_inline(struct qemu_plugin_insn *insn, int op, void *at, uint64_t by);
void qemu_plugin_register_vcpu_insn_exec_cb(struct qemu_plugin_insn *insn, void (*cb)(unsigned vcpu, void *data), int flags, void *data);
void qemu_plugin_register_vcpu_mem_cb(struct qemu_plugin_insn *insn, void (*cb)(unsigned vcpu, uint32_t info, uint64_t address, void *data),
                                      int flags, int which, void *data);
void qemu_plugin_outs(const char *text);

SHOWN int qemu_plugin_version = 1;

/* A stack has no more. */
#define STACK (8u << 20)

static uint64_t executed, began, top, lowest;
static int counting;

static void stored(unsigned vcpu, uint32_t info, uint64_t address, void *data)
{
    (void)vcpu, (void)info, (void)data;
    if (!counting)
        return;
    if (!top)
        top = lowest = address;
    else if (address < lowest && top - address < STACK)
        lowest = address;
}

static void begins(unsigned vcpu, void *data)
{
    (void)vcpu, (void)data;
    counting = 1;
    top = 0;
    began = executed;
}

static void ends(unsigned vcpu, void *data)
{
    char text[80];
    (void)vcpu, (void)data;
    counting = 0;
    snprintf(text, sizeof text, "%llu %llu\n", (unsigned long long)(executed - began), (unsigned long long)(top - lowest));
    qemu_plugin_outs(text);
}

static int is(const struct qemu_plugin_insn *insn, const char *bytes)
{
    return qemu_plugin_insn_size(insn) == 7 && !memcmp(qemu_plugin_insn_data(insn), bytes, 7);
}

static void translated(uint64_t id, struct qemu_plugin_tb *tb)
{
    (void)id;
    for (size_t i = 0; i < qemu_plugin_tb_n_insns(tb); i++) {
        struct qemu_plugin_insn *insn = qemu_plugin_tb_get_insn(tb, i);
        if (is(insn, "\x0f\x1f\x80\x6b\x72\x61\x6d"))
            qemu_plugin_register_vcpu_insn_exec_cb(insn, begins, NO_REGS, NULL);
        else if (is(insn, "\x0f\x1f\x80\x6c\x72\x61\x6d"))
            qemu_plugin_register_vcpu_insn_exec_cb(insn, ends, NO_REGS, NULL);
        qemu_plugin_register_vcpu_insn_exec_inline(insn, ADD_U64, &executed, 1);
        qemu_plugin_register_vcpu_mem_cb(insn, stored, NO_REGS, STORES, NULL);
    }
}

SHOWN int qemu_plugin_install(uint64_t id, const void *info, int argc, char **argv)
{
    (void)info, (void)argc, (void)argv;
    qemu_plugin_register_vcpu_tb_trans_cb(id, translated);
    return 0;
}

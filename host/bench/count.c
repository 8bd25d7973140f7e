/*
 * A plugin for QEMU's user emulation that counts the guest's instructions and
 * prints the number on standard error as the guest ends.
 *
 * Debian's package brings no header for plugins, so what is used of the
 * interface, version 1, is declared here.
 */
#include <inttypes.h>
#include <stddef.h>
#include <stdint.h>
#include <stdio.h>

struct qemu_plugin_tb;   /* a block of translated instructions */
struct qemu_plugin_insn; /* one of them */

void qemu_plugin_register_vcpu_tb_trans_cb(
    uint64_t id, void (*call)(uint64_t id, struct qemu_plugin_tb *block));
void qemu_plugin_register_vcpu_insn_exec_inline(struct qemu_plugin_insn *one,
                                                int operation, void *counter,
                                                uint64_t amount);
struct qemu_plugin_insn *
qemu_plugin_tb_get_insn(const struct qemu_plugin_tb *block, size_t place);
void qemu_plugin_register_atexit_cb(uint64_t id,
                                    void (*call)(uint64_t id, void *data),
                                    void *data);
size_t qemu_plugin_tb_n_insns(const struct qemu_plugin_tb *block);

int qemu_plugin_version = 1;
int qemu_plugin_install(uint64_t id, const void *about, int words,
                        char **word);

#define ADD_TO_COUNTER 0

static uint64_t counter;

/* Each instruction adds one as it runs. The length of a block would not do: an
   instruction that lies across two pages is counted in two blocks. */
static void on_block(uint64_t id, struct qemu_plugin_tb *block)
{
    size_t length = qemu_plugin_tb_n_insns(block);

    (void)id;
    for (size_t i = 0; i < length; i++) {
        qemu_plugin_register_vcpu_insn_exec_inline(
            qemu_plugin_tb_get_insn(block, i), ADD_TO_COUNTER, &counter, 1);
    }
}

static void on_end(uint64_t id, void *data)
{
    (void)id;
    (void)data;
    fprintf(stderr, "count %" PRIu64 "\n", counter);
}

int qemu_plugin_install(uint64_t id, const void *about, int words,
                        char **word)
{
    (void)about;
    (void)words;
    (void)word;
    qemu_plugin_register_vcpu_tb_trans_cb(id, on_block);
    qemu_plugin_register_atexit_cb(id, on_end, NULL);
    return 0;
}

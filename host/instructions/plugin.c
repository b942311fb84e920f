/* A plugin of qemu's user emulation: counts the instructions that a program runs and prints the sum at its end.
   The declarations are those of qemu-plugin.h, version 1 of the interface, which Debian does not package. */
#include <inttypes.h>
#include <stddef.h>
#include <stdio.h>

typedef struct block block;
void qemu_plugin_register_vcpu_tb_trans_cb(uint64_t id, void (*translated)(uint64_t id, block *b));
size_t qemu_plugin_tb_n_insns(const block *b);
void qemu_plugin_register_vcpu_tb_exec_inline(block *b, int operation, void *sum, uint64_t addend);
void qemu_plugin_register_atexit_cb(uint64_t id, void (*ended)(uint64_t id, void *data), void *data);

enum { ADD_TO_SUM = 0 };

int qemu_plugin_version = 1;
static uint64_t instructions;

static void translated(uint64_t id, block *b) {
    (void)id;
    qemu_plugin_register_vcpu_tb_exec_inline(b, ADD_TO_SUM, &instructions, qemu_plugin_tb_n_insns(b));
}

static void ended(uint64_t id, void *data) {
    (void)id;
    (void)data;
    fprintf(stderr, "%" PRIu64 "\n", instructions);
}

int qemu_plugin_install(uint64_t id, const void *info, int argc, char **argv) {
    (void)info;
    (void)argc;
    (void)argv;
    qemu_plugin_register_vcpu_tb_trans_cb(id, translated);
    qemu_plugin_register_atexit_cb(id, ended, NULL);
    return 0;
}

// Counts the instructions that a program executes, for ./bench: a plugin of QEMU's user emulator (plugin interface 1), which prints
// `instructions N` on standard error when the program ends. It compiles without QEMU's header: the few declarations stand here.
#include <stdint.h>
#include <stdio.h>
#define SHOWN __attribute__((visibility("default")))

struct qemu_plugin_tb;
void qemu_plugin_register_vcpu_tb_trans_cb(uint64_t, void (*)(uint64_t, struct qemu_plugin_tb *));
void qemu_plugin_register_vcpu_tb_exec_inline(struct qemu_plugin_tb *, int, void *, uint64_t);
size_t qemu_plugin_tb_n_insns(const struct qemu_plugin_tb *);
void qemu_plugin_register_atexit_cb(uint64_t, void (*)(uint64_t, void *), void *);

SHOWN int qemu_plugin_version = 1;
static uint64_t count;

// each run of a translated block adds its instructions; 0 is the plugin's one operation, to add
static void translated(uint64_t id, struct qemu_plugin_tb *block) {
    (void)id;
    qemu_plugin_register_vcpu_tb_exec_inline(block, 0, &count, qemu_plugin_tb_n_insns(block));
}

static void ended(uint64_t id, void *unused) {
    (void)id, (void)unused;
    fprintf(stderr, "instructions %llu\n", (unsigned long long)count);
}

SHOWN int qemu_plugin_install(uint64_t id, const void *info, int argc, char **argv) {
    (void)info, (void)argc, (void)argv;
    qemu_plugin_register_vcpu_tb_trans_cb(id, translated);
    qemu_plugin_register_atexit_cb(id, ended, 0);
    return 0;
}

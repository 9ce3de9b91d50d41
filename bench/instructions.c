// A plugin for the emulator that counts the instructions a program executes, and its loads and stores in one number, by
// function. It is for bench/count, which builds it. Debian's emulator takes plugins but its header is in no package, so
// the few functions that are used are declared here, as version 1 of that interface has them.
#include <inttypes.h>
#include <stdio.h>
#include <stdlib.h>
#include <string.h>

struct qemu_plugin_tb;
struct qemu_plugin_insn;
enum { INLINE_ADD_U64 = 0, LOADS_AND_STORES = 3 };
void qemu_plugin_register_vcpu_tb_trans_cb(uint64_t id, void (*seen)(uint64_t, struct qemu_plugin_tb *));
void qemu_plugin_register_vcpu_tb_exec_inline(struct qemu_plugin_tb *block, int how, void *cell, uint64_t amount);
void qemu_plugin_register_vcpu_mem_inline(struct qemu_plugin_insn *instruction, int which, int how, void *cell,
                                          uint64_t amount);
void qemu_plugin_register_atexit_cb(uint64_t id, void (*done)(uint64_t, void *), void *with);
size_t qemu_plugin_tb_n_insns(const struct qemu_plugin_tb *block);
struct qemu_plugin_insn *qemu_plugin_tb_get_insn(const struct qemu_plugin_tb *block, size_t at);
const char *qemu_plugin_insn_symbol(const struct qemu_plugin_insn *instruction);

int qemu_plugin_version = 1;

enum { MOST = 4096 };
struct function {
    const char *name;
    uint64_t executed, accesses;
};
static struct function functions[MOST];
static size_t used;

// The function of a name, which is entered where it is new. The last one takes all that finds no room.
static struct function *function_of(const char *name) {
    for (size_t i = 0; i < used; i++) {
        if (strcmp(functions[i].name, name) == 0)
            return &functions[i];
    }
    if (used == MOST)
        return &functions[MOST - 1];
    functions[used].name = strdup(name);
    return &functions[used++];
}

// A block of instructions is executed as a whole: each time, its length is added to its function's count.
static void seen(uint64_t id, struct qemu_plugin_tb *block) {
    (void)id;
    const char *name = qemu_plugin_insn_symbol(qemu_plugin_tb_get_insn(block, 0));
    struct function *function = function_of(name && *name ? name : "?");
    size_t length = qemu_plugin_tb_n_insns(block);
    qemu_plugin_register_vcpu_tb_exec_inline(block, INLINE_ADD_U64, &function->executed, length);
    for (size_t i = 0; i < length; i++) {
        struct qemu_plugin_insn *instruction = qemu_plugin_tb_get_insn(block, i);
        qemu_plugin_register_vcpu_mem_inline(instruction, LOADS_AND_STORES, INLINE_ADD_U64, &function->accesses, 1);
    }
}

// A line for each function to standard error: executed, loads and stores, name.
static void done(uint64_t id, void *with) {
    (void)id;
    (void)with;
    for (size_t i = 0; i < used; i++) {
        struct function f = functions[i];
        fprintf(stderr, "%" PRIu64 "\t%" PRIu64 "\t%s\n", f.executed, f.accesses, f.name);
    }
}

int qemu_plugin_install(uint64_t id, const void *about, int count, char **words) {
    (void)about;
    (void)count;
    (void)words;
    qemu_plugin_register_vcpu_tb_trans_cb(id, seen);
    qemu_plugin_register_atexit_cb(id, done, NULL);
    return 0;
}

/* A plugin for qemu's user-mode emulator that counts the instructions a program runs, and prints their number when it
   ends. qemu runs code in blocks; each block adds its length, less one, every time it is entered, and its last
   instruction adds itself. For that one may not belong to the block: where it reaches into the next page, qemu starts
   another block with it, but older versions still list it in the first.

   qemu's own header is not in Debian's package, so what is used of the interface is declared here. These parts are the
   same in every version of it; a qemu takes only plugins that name a version it knows, hence PLUGIN_VERSION. */
#include <inttypes.h>
#include <stddef.h>
#include <stdint.h>
#include <stdio.h>

#ifndef PLUGIN_VERSION
#define PLUGIN_VERSION 1
#endif

#define SEEN_BY_QEMU __attribute__((visibility("default")))

typedef uint64_t plugin_id;
typedef struct qemu_info_t plugin_info;
typedef struct qemu_plugin_tb code_block;
typedef struct qemu_plugin_insn code_instruction;

enum { NO_REGISTERS = 0 };

typedef void on_translated(plugin_id id, code_block *block);
typedef void on_entered(unsigned int processor, void *data);
typedef void on_end(plugin_id id, void *data);

size_t qemu_plugin_tb_n_insns(const code_block *block);
code_instruction *qemu_plugin_tb_get_insn(const code_block *block, size_t n);
void qemu_plugin_register_vcpu_tb_trans_cb(plugin_id id, on_translated *call);
void qemu_plugin_register_vcpu_tb_exec_cb(code_block *block, on_entered *call, int registers, void *data);
void qemu_plugin_register_vcpu_insn_exec_cb(code_instruction *last, on_entered *call, int registers, void *data);
void qemu_plugin_register_atexit_cb(plugin_id id, on_end *call, void *data);

SEEN_BY_QEMU int qemu_plugin_version = PLUGIN_VERSION;
SEEN_BY_QEMU int qemu_plugin_install(plugin_id id, const plugin_info *info, int count, char **arguments);

static uint64_t instructions;

/* The number travels in the pointer that the interface hands through. */
static void add(unsigned int processor, void *number)
{
    (void)processor;
    instructions += (uintptr_t)number;
}

static void count_block(plugin_id id, code_block *block)
{
    (void)id;
    uintptr_t others = qemu_plugin_tb_n_insns(block) - 1;
    code_instruction *last = qemu_plugin_tb_get_insn(block, others);
    qemu_plugin_register_vcpu_tb_exec_cb(block, add, NO_REGISTERS, (void *)others);
    qemu_plugin_register_vcpu_insn_exec_cb(last, add, NO_REGISTERS, (void *)(uintptr_t)1);
}

static void print_count(plugin_id id, void *data)
{
    (void)id;
    (void)data;
    fprintf(stderr, "instructions %" PRIu64 "\n", instructions);
}

int qemu_plugin_install(plugin_id id, const plugin_info *info, int count, char **arguments)
{
    (void)info;
    (void)count;
    (void)arguments;
    qemu_plugin_register_vcpu_tb_trans_cb(id, count_block);
    qemu_plugin_register_atexit_cb(id, print_count, NULL);
    return 0;
}

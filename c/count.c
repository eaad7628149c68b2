/* A plugin for QEMU's user-mode emulation, for .ci/bench: counts the instructions that a program executes and prints the count at each
   system call MARK, which the program makes before and after what it measures. The interface is QEMU's, of which this declares what it
   uses. */
#include <inttypes.h>
#include <stdbool.h>
#include <stddef.h>
#include <stdint.h>
#include <stdio.h>

#define SHOWN __attribute__((visibility("default")))

typedef uint64_t plugin_id;
struct plugin_block;
struct plugin_instruction;
struct plugin_machine;

/* The number of an operation that adds to a 64-bit number. */
enum { ADD = 0 };

void qemu_plugin_register_vcpu_tb_trans_cb(plugin_id id, void (*call)(plugin_id id, struct plugin_block *block));
void qemu_plugin_register_vcpu_syscall_cb(plugin_id id, void (*call)(plugin_id id, unsigned processor, int64_t number, uint64_t a1,
                                                                     uint64_t a2, uint64_t a3, uint64_t a4, uint64_t a5, uint64_t a6,
                                                                     uint64_t a7, uint64_t a8));
size_t qemu_plugin_tb_n_insns(const struct plugin_block *block);
struct plugin_instruction *qemu_plugin_tb_get_insn(const struct plugin_block *block, size_t place);
void qemu_plugin_register_vcpu_insn_exec_inline(struct plugin_instruction *instruction, int operation, void *number, uint64_t more);

/* No system call of any machine's. */
enum { MARK = 9999 };

SHOWN int qemu_plugin_version = 1;
SHOWN int qemu_plugin_install(plugin_id id, const struct plugin_machine *machine, int count, char **words);

static uint64_t executed;

static void translated(plugin_id id, struct plugin_block *block)
{
    (void)id;
    for (size_t i = 0; i < qemu_plugin_tb_n_insns(block); i++)
        qemu_plugin_register_vcpu_insn_exec_inline(qemu_plugin_tb_get_insn(block, i), ADD, &executed, 1);
}

static void called(plugin_id id, unsigned processor, int64_t number, uint64_t a1, uint64_t a2, uint64_t a3, uint64_t a4, uint64_t a5,
                   uint64_t a6, uint64_t a7, uint64_t a8)
{
    (void)id, (void)processor, (void)a1, (void)a2, (void)a3, (void)a4, (void)a5, (void)a6, (void)a7, (void)a8;
    if (number == MARK) fprintf(stderr, "%" PRIu64 "\n", executed);
}

int qemu_plugin_install(plugin_id id, const struct plugin_machine *machine, int count, char **words)
{
    (void)machine, (void)count, (void)words;
    qemu_plugin_register_vcpu_tb_trans_cb(id, translated);
    qemu_plugin_register_vcpu_syscall_cb(id, called);
    return 0;
}

/* A plugin for qemu-x86_64 (7.2, Debian 12's qemu-user): when the program ends, the number of instructions that it ran stands on standard
   error. Debian has no header for plugins; what is used of qemu's is declared here. */
#include <stddef.h>
#include <stdint.h>
#include <stdio.h>

typedef uint64_t plugin_id;
struct block;
enum inline_op { ADD };

void qemu_plugin_register_vcpu_tb_trans_cb(plugin_id id, void (*call)(plugin_id id, struct block *block));
void qemu_plugin_register_vcpu_tb_exec_inline(struct block *block, enum inline_op op, void *number, uint64_t by);
void qemu_plugin_register_atexit_cb(plugin_id id, void (*call)(plugin_id id, void *data), void *data);
size_t qemu_plugin_tb_n_insns(const struct block *block);

/* Which form of the declarations above is meant. */
int qemu_plugin_version = 1;

static uint64_t instructions;

/* A block of instructions adds its size each time that it runs. */
static void met(plugin_id id, struct block *block)
{
    (void)id;
    qemu_plugin_register_vcpu_tb_exec_inline(block, ADD, &instructions, qemu_plugin_tb_n_insns(block));
}

static void ended(plugin_id id, void *data)
{
    (void)id, (void)data;
    fprintf(stderr, "instructions: %llu\n", (unsigned long long)instructions);
}

int qemu_plugin_install(plugin_id id, const void *about, int argc, char **argv)
{
    (void)about, (void)argc, (void)argv;
    qemu_plugin_register_vcpu_tb_trans_cb(id, met);
    qemu_plugin_register_atexit_cb(id, ended, NULL);
    return 0;
}

/*
 * A plugin of qemu (its plugin interface, version 1) that counts the instructions a program executes inside the function `measured`:
 *
 *   qemu-x86_64 -d plugin -D FILE -plugin count.so PROGRAM ..
 *
 * FILE gets a line `round COUNT` for each time that `measured` ran and, in the end, a line `function COUNT NAME` for each function with what
 * was executed of it in all these rounds, what it calls left out; code without a name, such as a shared library's, is called "libraries".
 * qemu shows the plugin each block of instructions before it runs. Every instruction adds 1 to its block's count as it runs (a block's
 * length would not do: at the end of a page it may list one instruction more than it has), and the counts are taken when `measured` begins
 * and when its own code goes on. qemu knows the names of functions only while it logs: hence -d.
 */
#define _POSIX_C_SOURCE 200809L
#include <inttypes.h>
#include <stdarg.h>
#include <stdbool.h>
#include <stdio.h>
#include <stdlib.h>
#include <string.h>

/* What of the interface is used; Debian has no package of its header. */
typedef uint64_t plugin_id;
struct qemu_plugin_tb;
struct qemu_plugin_insn;
enum { ADD_U64 = 0, NO_REGISTERS = 0 };
void qemu_plugin_register_vcpu_tb_trans_cb(plugin_id id, void (*call)(plugin_id id, struct qemu_plugin_tb *block));
void qemu_plugin_register_vcpu_tb_exec_cb(struct qemu_plugin_tb *block, void (*call)(unsigned processor, void *lent), int registers,
                                          void *lent);
void qemu_plugin_register_vcpu_insn_exec_inline(struct qemu_plugin_insn *instruction, int what, void *number, uint64_t by);
void qemu_plugin_register_atexit_cb(plugin_id id, void (*call)(plugin_id id, void *lent), void *lent);
size_t qemu_plugin_tb_n_insns(const struct qemu_plugin_tb *block);
struct qemu_plugin_insn *qemu_plugin_tb_get_insn(const struct qemu_plugin_tb *block, size_t place);
const char *qemu_plugin_insn_symbol(const struct qemu_plugin_insn *instruction);
void qemu_plugin_outs(const char *text);
__attribute__((visibility("default"))) int qemu_plugin_version = 1;

/* A block: its function, its instructions executed so far, those before the round, and those inside all rounds. */
struct block {
    struct block *next;
    char *function;
    uint64_t executed, before, inside;
};

static struct block *blocks;
static bool in_round;

/* Puts a line to the log. */
__attribute__((format(printf, 1, 2))) static void say(const char *form, ...)
{
    char line[512];
    va_list values;
    va_start(values, form);
    vsnprintf(line, sizeof line, form, values);
    va_end(values);
    qemu_plugin_outs(line);
}

/* Begins a round at the first block of `measured`, and ends it at the next, to which the measured code returns. */
static void at_measured(unsigned processor, void *lent)
{
    uint64_t count = 0;
    (void)processor, (void)lent;
    for (struct block *b = blocks; b != NULL; b = b->next) {
        if (in_round) {
            count += b->executed - b->before;
            b->inside += b->executed - b->before;
        }
        b->before = b->executed;
    }
    if (in_round)
        say("round %" PRIu64 "\n", count);
    in_round = !in_round;
}

/* Sees to it that a block which qemu has just translated is counted. */
static void at_block(plugin_id id, struct qemu_plugin_tb *block)
{
    const char *function = qemu_plugin_insn_symbol(qemu_plugin_tb_get_insn(block, 0));
    struct block *b = calloc(1, sizeof *b);
    (void)id;
    if (b == NULL || (b->function = strdup(function == NULL || *function == 0 ? "libraries" : function)) == NULL)
        abort();
    b->next = blocks;
    blocks = b;
    if (strcmp(b->function, "measured") == 0)
        qemu_plugin_register_vcpu_tb_exec_cb(block, at_measured, NO_REGISTERS, NULL);
    for (size_t i = 0; i < qemu_plugin_tb_n_insns(block); i++)
        qemu_plugin_register_vcpu_insn_exec_inline(qemu_plugin_tb_get_insn(block, i), ADD_U64, &b->executed, 1);
}

/* Puts each function's count to the log. */
static void at_exit(plugin_id id, void *lent)
{
    (void)id, (void)lent;
    for (struct block *b = blocks; b != NULL; b = b->next) {
        for (struct block *other = b->next; other != NULL; other = other->next)
            if (strcmp(b->function, other->function) == 0) {
                b->inside += other->inside;
                other->inside = 0;
            }
        if (b->inside > 0)
            say("function %" PRIu64 " %s\n", b->inside, b->function);
    }
}

/* Called by qemu once, before the program starts. */
__attribute__((visibility("default"))) int qemu_plugin_install(plugin_id id, const void *info, int words, char **word)
{
    (void)info, (void)words, (void)word;
    qemu_plugin_register_vcpu_tb_trans_cb(id, at_block);
    qemu_plugin_register_atexit_cb(id, at_exit, NULL);
    return 0;
}

/*
 * A plugin for qemu-user 7.2 that counts the instructions that a program executes. speed/run builds and uses it.
 *
 *   qemu-x86_64 -plugin count.so,out=FILE[,symbols=on] PROGRAM WORDS..
 *
 * FILE gets two numbers on its first line: the instructions, and the further rounds of repeated string instructions. Qemu goes through `rep movsb`
 * of n bytes as n instructions, a processor counts one: so the first round is counted as the instruction, and the rest apart.
 * With symbols=on a line `count name` follows for each function, each round of a string instruction counted.
 *
 * Debian has no header for plugins. What is used of the interface, version 1, is declared here.
 */
#define _POSIX_C_SOURCE 200809L
#include <stdbool.h>
#include <stdint.h>
#include <stdio.h>
#include <stdlib.h>
#include <string.h>

typedef uint64_t qemu_plugin_id_t;
struct qemu_plugin_tb;
struct qemu_plugin_insn;
struct qemu_info_t;
enum { QEMU_PLUGIN_INLINE_ADD_U64 };
enum { QEMU_PLUGIN_CB_NO_REGS };

typedef void (*on_tb)(qemu_plugin_id_t, struct qemu_plugin_tb *);
typedef void (*on_insn)(unsigned, void *);
typedef void (*on_end)(qemu_plugin_id_t, void *);
void qemu_plugin_register_vcpu_tb_trans_cb(qemu_plugin_id_t, on_tb);
void qemu_plugin_register_vcpu_insn_exec_inline(struct qemu_plugin_insn *, int op, void *at, uint64_t add);
void qemu_plugin_register_vcpu_insn_exec_cb(struct qemu_plugin_insn *, on_insn, int flags, void *data);
void qemu_plugin_register_atexit_cb(qemu_plugin_id_t, on_end, void *);
size_t qemu_plugin_tb_n_insns(const struct qemu_plugin_tb *);
struct qemu_plugin_insn *qemu_plugin_tb_get_insn(const struct qemu_plugin_tb *, size_t);
const void *qemu_plugin_insn_data(const struct qemu_plugin_insn *);
size_t qemu_plugin_insn_size(const struct qemu_plugin_insn *);
uint64_t qemu_plugin_insn_vaddr(const struct qemu_plugin_insn *);
const char *qemu_plugin_insn_symbol(const struct qemu_plugin_insn *);

int qemu_plugin_version = 1;

enum { FUNCTIONS = 8192 };
static struct function {
    const char *name;
    uint64_t count;
} functions[FUNCTIONS];
static size_t named;
static uint64_t total, rounds;          /* instructions; further rounds of string instructions */
static uint64_t last_place, last_total; /* the string instruction executed last, and the total after it */
static bool by_symbol;
static const char *out_name;

/* Is it rep/repne with movs, cmps, stos, lods or scas? */
static bool repeats(const struct qemu_plugin_insn *insn)
{
    const uint8_t *b = qemu_plugin_insn_data(insn);
    size_t n = qemu_plugin_insn_size(insn), i = 0;
    bool rep = false;
    while (i + 1 < n && (b[i] == 0xF2 || b[i] == 0xF3 || b[i] == 0x66 || b[i] == 0x67 || (b[i] & 0xF0) == 0x40))
        rep |= (b[i++] | 1) == 0xF3;
    return rep && i + 1 == n && b[i] >= 0xA4 && b[i] <= 0xAF && (b[i] & 0xFE) != 0xA8;
}

/* Nothing was executed since the same string instruction: it is still the same one. */
static void string_round(unsigned vcpu, void *place)
{
    (void)vcpu;
    if (last_place == (uintptr_t)place && last_total == total) {
        rounds++;
        return;
    }
    last_place = (uintptr_t)place;
    last_total = ++total;
}

static struct function *function_of(const struct qemu_plugin_insn *insn)
{
    const char *name = qemu_plugin_insn_symbol(insn);
    if (!name)
        name = "?";
    for (size_t i = 0; i < named; i++)
        if (!strcmp(functions[i].name, name))
            return &functions[i];
    if (named == FUNCTIONS)
        abort();
    functions[named].name = strdup(name);
    return &functions[named++];
}

static void translated(qemu_plugin_id_t id, struct qemu_plugin_tb *tb)
{
    (void)id;
    for (size_t i = 0; i < qemu_plugin_tb_n_insns(tb); i++) {
        struct qemu_plugin_insn *insn = qemu_plugin_tb_get_insn(tb, i);
        if (repeats(insn))
            qemu_plugin_register_vcpu_insn_exec_cb(insn, string_round, QEMU_PLUGIN_CB_NO_REGS,
                                                   (void *)(uintptr_t)qemu_plugin_insn_vaddr(insn));
        else
            qemu_plugin_register_vcpu_insn_exec_inline(insn, QEMU_PLUGIN_INLINE_ADD_U64, &total, 1);
        if (by_symbol)
            qemu_plugin_register_vcpu_insn_exec_inline(insn, QEMU_PLUGIN_INLINE_ADD_U64, &function_of(insn)->count, 1);
    }
}

static void finished(qemu_plugin_id_t id, void *data)
{
    (void)id, (void)data;
    FILE *out = fopen(out_name, "w");
    if (!out)
        abort();
    fprintf(out, "%llu %llu\n", (unsigned long long)total, (unsigned long long)rounds);
    for (size_t i = 0; i < named; i++)
        fprintf(out, "%llu %s\n", (unsigned long long)functions[i].count, functions[i].name);
    fclose(out);
}

int qemu_plugin_install(qemu_plugin_id_t id, const struct qemu_info_t *info, int argc, char **argv)
{
    (void)info;
    for (int i = 0; i < argc; i++)
        if (!strncmp(argv[i], "out=", 4))
            out_name = strdup(argv[i] + 4);
        else if (!strcmp(argv[i], "symbols=on"))
            by_symbol = true;
        else
            return -1;
    if (!out_name)
        return -1;
    qemu_plugin_register_vcpu_tb_trans_cb(id, translated);
    qemu_plugin_register_atexit_cb(id, finished, NULL);
    return 0;
}

/* A plugin for QEMU's user mode: writes the executed guest instructions of each symbol, greatest first, as lines
 * COUNT SYMBOL to the file given as functions=FILE.
 *
 * A string instruction with a rep prefix counts once however often it repeats, as a processor's "instructions retired"
 * does: the emulator runs each repetition as a block of its own that begins where the block before it ended. (The same
 * rule counts a branch to itself once.) The few declarations below stand here because distributions ship the emulator
 * without qemu-plugin.h. */
#include <stdint.h>
#include <stdio.h>
#include <stdlib.h>
#include <string.h>

#ifndef QEMU_PLUGIN_API
#define QEMU_PLUGIN_API 1
#endif
#define EXPORT __attribute__((visibility("default")))

typedef uint64_t qemu_plugin_id_t;
struct qemu_plugin_tb;
struct qemu_plugin_insn;
typedef struct qemu_info_t qemu_info_t;
typedef void (*tb_trans_cb)(qemu_plugin_id_t, struct qemu_plugin_tb *);
typedef void (*exec_cb)(unsigned int vcpu, void *data);
typedef void (*exit_cb)(qemu_plugin_id_t, void *data);
enum qemu_plugin_cb_flags { QEMU_PLUGIN_CB_NO_REGS };
void qemu_plugin_register_vcpu_tb_trans_cb(qemu_plugin_id_t, tb_trans_cb);
void qemu_plugin_register_vcpu_tb_exec_cb(struct qemu_plugin_tb *, exec_cb, enum qemu_plugin_cb_flags, void *);
void qemu_plugin_register_atexit_cb(qemu_plugin_id_t, exit_cb, void *);
size_t qemu_plugin_tb_n_insns(const struct qemu_plugin_tb *);
struct qemu_plugin_insn *qemu_plugin_tb_get_insn(const struct qemu_plugin_tb *, size_t);
uint64_t qemu_plugin_insn_vaddr(const struct qemu_plugin_insn *);
const char *qemu_plugin_insn_symbol(const struct qemu_plugin_insn *);
EXPORT int qemu_plugin_version = QEMU_PLUGIN_API;

/* A translated block: straight-line code, entered at its first instruction only. */
struct block {
    struct block *next;
    uint64_t runs;          /* times entered */
    uint64_t again;         /* of these, how often its first instruction is a rep going on */
    uint64_t first, last;   /* addresses of the first and of the last instruction */
    size_t n;
    struct { uint64_t at; const char *symbol; } insn[];
};
static struct block *blocks;
static __thread uint64_t left_at;   /* address of the last instruction of the block run before */
static const char *functions_file;

static void on_run(unsigned int vcpu, void *data)
{
    struct block *b = data;
    (void)vcpu;
    __atomic_fetch_add(&b->runs, 1, __ATOMIC_RELAXED);
    if (left_at == b->first) __atomic_fetch_add(&b->again, 1, __ATOMIC_RELAXED);
    left_at = b->last;
}

static void on_translate(qemu_plugin_id_t id, struct qemu_plugin_tb *tb)
{
    size_t n = qemu_plugin_tb_n_insns(tb);
    struct block *b = calloc(1, sizeof *b + n * sizeof b->insn[0]);
    (void)id;
    if (!b) abort();
    b->n = n;
    for (size_t k = 0; k < n; k++) {
        struct qemu_plugin_insn *in = qemu_plugin_tb_get_insn(tb, k);
        b->insn[k].at = qemu_plugin_insn_vaddr(in);
        b->insn[k].symbol = qemu_plugin_insn_symbol(in);
    }
    b->first = b->insn[0].at;
    b->last = b->insn[n - 1].at;
    do b->next = __atomic_load_n(&blocks, __ATOMIC_RELAXED);
    while (!__atomic_compare_exchange_n(&blocks, &b->next, b, 0, __ATOMIC_RELEASE, __ATOMIC_RELAXED));
    qemu_plugin_register_vcpu_tb_exec_cb(tb, on_run, QEMU_PLUGIN_CB_NO_REGS, b);
}

struct row { uint64_t count; const char *symbol; };
static int by_symbol(const void *a, const void *b) { return strcmp(((const struct row *)a)->symbol, ((const struct row *)b)->symbol); }
static int by_count(const void *a, const void *b)
{
    const struct row *x = a, *y = b;
    return (x->count < y->count) - (x->count > y->count);
}

static void on_exit_(qemu_plugin_id_t id, void *data)
{
    size_t rows = 0, k = 0, m = 0;
    (void)id; (void)data;
    for (struct block *b = blocks; b; b = b->next) rows += b->n;
    struct row *r = calloc(rows + 1, sizeof *r);
    for (struct block *b = blocks; b; b = b->next)
        for (size_t j = 0; j < b->n; j++) {
            r[k].count = b->runs - (j ? 0 : b->again);
            r[k++].symbol = b->insn[j].symbol ? b->insn[j].symbol : "?";
        }
    qsort(r, rows, sizeof *r, by_symbol);
    for (k = 0; k < rows; k++)
        if (m && !strcmp(r[m - 1].symbol, r[k].symbol)) r[m - 1].count += r[k].count; else r[m++] = r[k];
    qsort(r, m, sizeof *r, by_count);
    FILE *f = fopen(functions_file, "w");
    if (!f) { perror(functions_file); exit(1); }
    for (k = 0; k < m; k++) if (r[k].count) fprintf(f, "%llu %s\n", (unsigned long long)r[k].count, r[k].symbol);
    fclose(f);
}

EXPORT int qemu_plugin_install(qemu_plugin_id_t id, const qemu_info_t *info, int argc, char **argv)
{
    (void)info;
    if (argc != 1 || strncmp(argv[0], "functions=", 10)) return -1;
    functions_file = strdup(argv[0] + 10);
    qemu_plugin_register_vcpu_tb_trans_cb(id, on_translate);
    qemu_plugin_register_atexit_cb(id, on_exit_, NULL);
    return 0;
}

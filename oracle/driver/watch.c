/* A plugin for QEMU's user mode, for footprints.c, which it shares the file map=FILE with: while that watches, a byte of the
 * file says of each byte of its arena whether it was loaded (1) and stored to (2). What footprints.c has to say comes as a
 * system call that there is not. The few declarations below stand here because distributions ship the emulator without
 * qemu-plugin.h. */
#include <fcntl.h>
#include <stdbool.h>
#include <stdint.h>
#include <stdlib.h>
#include <string.h>
#include <sys/mman.h>
#include "watch.h"

#ifndef QEMU_PLUGIN_API
#define QEMU_PLUGIN_API 1
#endif
#define EXPORT __attribute__((visibility("default")))

typedef uint64_t qemu_plugin_id_t;
typedef uint32_t qemu_plugin_meminfo_t;
struct qemu_plugin_tb;
struct qemu_plugin_insn;
typedef struct qemu_info_t qemu_info_t;
typedef void (*tb_trans_cb)(qemu_plugin_id_t, struct qemu_plugin_tb *);
typedef void (*mem_cb)(unsigned int vcpu, qemu_plugin_meminfo_t, uint64_t at, void *data);
typedef void (*syscall_cb)(qemu_plugin_id_t, unsigned int vcpu, int64_t number, uint64_t, uint64_t, uint64_t, uint64_t,
                           uint64_t, uint64_t, uint64_t, uint64_t);
enum qemu_plugin_cb_flags { QEMU_PLUGIN_CB_NO_REGS };
enum qemu_plugin_mem_rw { QEMU_PLUGIN_MEM_RW = 3 };
void qemu_plugin_register_vcpu_tb_trans_cb(qemu_plugin_id_t, tb_trans_cb);
void qemu_plugin_register_vcpu_syscall_cb(qemu_plugin_id_t, syscall_cb);
void qemu_plugin_register_vcpu_mem_cb(struct qemu_plugin_insn *, mem_cb, enum qemu_plugin_cb_flags, enum qemu_plugin_mem_rw,
                                      void *data);
unsigned int qemu_plugin_mem_size_shift(qemu_plugin_meminfo_t);
bool qemu_plugin_mem_is_store(qemu_plugin_meminfo_t);
size_t qemu_plugin_tb_n_insns(const struct qemu_plugin_tb *);
struct qemu_plugin_insn *qemu_plugin_tb_get_insn(const struct qemu_plugin_tb *, size_t);
EXPORT int qemu_plugin_version = QEMU_PLUGIN_API;

static const char *file;
static uint8_t *map;
static uint64_t arena, size;
static int is_watching;

static void on_access(unsigned int vcpu, qemu_plugin_meminfo_t info, uint64_t at, void *data)
{
    (void)vcpu; (void)data;
    if (!is_watching || at - arena >= size) return;
    for (uint64_t n = at - arena, end = n + (1 << qemu_plugin_mem_size_shift(info)); n < end && n < size; n++)
        map[n] |= qemu_plugin_mem_is_store(info) ? 2 : 1;
}

static void on_translate(qemu_plugin_id_t id, struct qemu_plugin_tb *tb)
{
    (void)id;
    for (size_t n = 0; n < qemu_plugin_tb_n_insns(tb); n++)
        qemu_plugin_register_vcpu_mem_cb(qemu_plugin_tb_get_insn(tb, n), on_access, QEMU_PLUGIN_CB_NO_REGS,
                                         QEMU_PLUGIN_MEM_RW, NULL);
}

static void on_syscall(qemu_plugin_id_t id, unsigned int vcpu, int64_t number, uint64_t what, uint64_t a, uint64_t b,
                       uint64_t c, uint64_t d, uint64_t e, uint64_t f, uint64_t g)
{
    (void)id; (void)vcpu; (void)c; (void)d; (void)e; (void)f; (void)g;
    if (number != WATCH) return;
    is_watching = what == WATCH_ON;
    if (what != WATCH_ARENA) return;
    arena = a;
    size = b;
    map = mmap(NULL, size, PROT_READ | PROT_WRITE, MAP_SHARED, open(file, O_RDWR), 0);
    if (map == MAP_FAILED) abort();
}

EXPORT int qemu_plugin_install(qemu_plugin_id_t id, const qemu_info_t *info, int argc, char **argv)
{
    (void)info;
    if (argc != 1 || strncmp(argv[0], "map=", 4)) return -1;
    file = strdup(argv[0] + 4);
    qemu_plugin_register_vcpu_tb_trans_cb(id, on_translate);
    qemu_plugin_register_vcpu_syscall_cb(id, on_syscall);
    return 0;
}

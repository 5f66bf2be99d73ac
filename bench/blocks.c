/* Counts how often each block of guest instructions runs in a program under qemu-user (plugin API 1), for bench/profile.
     qemu-x86_64 -plugin ./blocks.so ./program < input        # a line "ADDRESS INSTRUCTIONS RUNS" for each block on standard error at the end */
#include "plugin.h"
#include <stdio.h>

int qemu_plugin_version = 1;
enum { BLOCKS = 1 << 16 };
static struct { uint64_t address, instructions, runs; } blocks[BLOCKS];
static size_t used;

/* A block that is translated twice has two lines; one that has no place left is not counted, which the last line shows. */
static void translated(qemu_plugin_id_t id, struct qemu_plugin_tb *tb) {
  (void)id;
  size_t i = used++;
  if (BLOCKS <= i) return;
  blocks[i].address = qemu_plugin_tb_vaddr(tb);
  blocks[i].instructions = qemu_plugin_tb_n_insns(tb);
  qemu_plugin_register_vcpu_tb_exec_inline(tb, QEMU_PLUGIN_INLINE_ADD_U64, &blocks[i].runs, 1);
}

static void at_exit(qemu_plugin_id_t id, void *data) {
  (void)id, (void)data;
  for (size_t i = 0; i < used && i < BLOCKS; i++)
    fprintf(stderr, "%llx %llu %llu\n", (unsigned long long)blocks[i].address, (unsigned long long)blocks[i].instructions, (unsigned long long)blocks[i].runs);
  fprintf(stderr, "blocks %zu of %d\n", used, BLOCKS);
}

int qemu_plugin_install(qemu_plugin_id_t id, const qemu_info_t *info, int argc, char **argv) {
  (void)info, (void)argc, (void)argv;
  qemu_plugin_register_vcpu_tb_trans_cb(id, translated);
  qemu_plugin_register_atexit_cb(id, at_exit, NULL);
  return 0;
}

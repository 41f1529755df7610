/* A plugin of QEMU that counts the instructions of a program in all of its
   threads, also those of code that the program makes. Each time the program
   sends a signal by kill(), the count so far is a line on standard error: a
   program sends itself the signal 0, which does nothing. At the end of the
   program there is a line with the count of all. Debian's QEMU has no header
   for plugins. So what is declared here is that of QEMU 7.2.

   cc -O2 -shared -fPIC -o count.so count.c
   qemu-x86_64 -plugin ./count.so PROGRAM */
#include <inttypes.h>
#include <stdatomic.h>
#include <stddef.h>
#include <stdint.h>
#include <stdio.h>
#include <sys/syscall.h>

typedef uint64_t plugin;
struct qemu_plugin_tb;
typedef void translated(plugin, struct qemu_plugin_tb *);
typedef void executed(unsigned cpu, void *data);
typedef void returned(plugin, unsigned cpu, int64_t number, int64_t result);
size_t qemu_plugin_tb_n_insns(const struct qemu_plugin_tb *);
void qemu_plugin_register_vcpu_tb_trans_cb(plugin, translated *);
void qemu_plugin_register_vcpu_tb_exec_cb(struct qemu_plugin_tb *, executed *,
                                          int flags, void *data);
void qemu_plugin_register_vcpu_syscall_ret_cb(plugin, returned *);
typedef void ended(plugin, void *data);
void qemu_plugin_register_atexit_cb(plugin, ended *, void *data);

int qemu_plugin_version = 1;
static _Atomic uint64_t count;

static void add(unsigned cpu, void *instructions) {
  (void)cpu;
  count += (uintptr_t)instructions;
}

/* From now on the instructions of this block are counted when it runs. */
static void block(plugin id, struct qemu_plugin_tb *it) {
  (void)id;
  void *instructions = (void *)qemu_plugin_tb_n_insns(it);
  qemu_plugin_register_vcpu_tb_exec_cb(it, add, 0, instructions);
}

/* (A call that a signal interrupts is made again. It has another result.) */
static void call(plugin id, unsigned cpu, int64_t number, int64_t result) {
  (void)id, (void)cpu;
  if (number == SYS_kill && result == 0)
    fprintf(stderr, "count: %" PRIu64 "\n", count);
}

static void end(plugin id, void *data) {
  (void)id, (void)data;
  fprintf(stderr, "all: %" PRIu64 "\n", count);
}

int qemu_plugin_install(plugin id, const void *info, int argc, char **argv) {
  (void)info, (void)argc, (void)argv;
  qemu_plugin_register_vcpu_tb_trans_cb(id, block);
  qemu_plugin_register_vcpu_syscall_ret_cb(id, call);
  qemu_plugin_register_atexit_cb(id, end, NULL);
  return 0;
}

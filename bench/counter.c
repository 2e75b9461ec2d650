/* A plugin of QEMU's user emulator: the instructions between two marks, one number a line, on the descriptor that the argument names.
   For machines that are not x86-64, where valgrind can't count the harness. A mark is the instruction that harness.c's mark() has.
   The plugin interface is declared here as far as it is used, so that no header is needed. */
#include <stdint.h>
#include <stdio.h>
#include <stdlib.h>
#include <string.h>

typedef uint64_t id_t_;
struct qemu_plugin_tb;
struct qemu_plugin_insn;
void qemu_plugin_register_vcpu_tb_trans_cb(id_t_, void (*)(id_t_, struct qemu_plugin_tb *));
size_t qemu_plugin_tb_n_insns(const struct qemu_plugin_tb *);
struct qemu_plugin_insn *qemu_plugin_tb_get_insn(const struct qemu_plugin_tb *, size_t);
const void *qemu_plugin_insn_data(const struct qemu_plugin_insn *);
size_t qemu_plugin_insn_size(const struct qemu_plugin_insn *);
void qemu_plugin_register_vcpu_insn_exec_inline(struct qemu_plugin_insn *, int, void *, uint64_t);
void qemu_plugin_register_vcpu_insn_exec_cb(struct qemu_plugin_insn *, void (*)(unsigned, void *), int, void *);

__attribute__((visibility("default"))) int qemu_plugin_version = 1;

static const unsigned char MARK[7] = {0x0f, 0x1f, 0x80, 'M', 'A', 'R', 'K'};
static uint64_t made;
static FILE *out;

static void marked(unsigned cpu, void *nothing)
{
    (void)cpu, (void)nothing;
    fprintf(out, "%llu\n", (unsigned long long)made);
    fflush(out);
    made = 0;
}

static void translated(id_t_ id, struct qemu_plugin_tb *tb)
{
    (void)id;
    for (size_t i = 0; i < qemu_plugin_tb_n_insns(tb); i++) {
        struct qemu_plugin_insn *insn = qemu_plugin_tb_get_insn(tb, i);
        qemu_plugin_register_vcpu_insn_exec_inline(insn, 0, &made, 1);
        if (qemu_plugin_insn_size(insn) == sizeof MARK && memcmp(qemu_plugin_insn_data(insn), MARK, sizeof MARK) == 0)
            qemu_plugin_register_vcpu_insn_exec_cb(insn, marked, 0, 0);
    }
}

__attribute__((visibility("default"))) int qemu_plugin_install(id_t_ id, const void *info, int argc, char **argv)
{
    (void)info;
    const char *name = argc > 0 ? argv[0] : "out=/dev/stderr";
    out = fopen(strncmp(name, "out=", 4) == 0 ? name + 4 : name, "w");
    if (!out) return 1;
    qemu_plugin_register_vcpu_tb_trans_cb(id, translated);
    return 0;
}

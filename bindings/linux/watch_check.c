#include "watch_check.h"

#include <bpf/btf.h>
#include <elf.h>
#include <errno.h>
#include <fcntl.h>
#include <stdarg.h>
#include <stdint.h>
#include <stdio.h>
#include <stdlib.h>
#include <string.h>
#include <sys/utsname.h>
#include <unistd.h>

#define MODULES "/sys/module"
#ifndef WATCH_BTF
#define WATCH_BTF "/sys/kernel/btf"
#endif
#define LOCKDOWN "/sys/kernel/security/lockdown"
#define TESTED "Linux 6.1 and 6.12 of Debian"
#define MOST_CODE 8192    /* bytes of a function */
#define LAST_CODE 512     /* bytes of the last function of a module */
#define MOST_SYMBOLS 1024 /* with `pie` in their names */

/* The findings of the checks. `is_impossible`: nothing can be recorded; `is_unknown`: only --anyway records. */
struct findings {
    bool is_impossible, is_unknown, is_anyway;
};

static void report(struct findings *findings, bool is_impossible, const char *format, ...) __attribute__((format(printf, 3, 4)));

static void report(struct findings *findings, bool is_impossible, const char *format, ...) {
    va_list arguments;
    va_start(arguments, format);
    fprintf(stderr, "pie-watch: ");
    vfprintf(stderr, format, arguments);
    fprintf(stderr, is_impossible ? "\n" : findings->is_anyway ? " (recorded anyway)\n" : "; --anyway records\n");
    va_end(arguments);
    if (is_impossible)
        findings->is_impossible = true;
    else
        findings->is_unknown = true;
}

/* ---- privileges */

static void check_capabilities(struct findings *findings) {
    static const struct {
        int number;
        const char *name;
    } needed[] = {{38, "CAP_PERFMON"}, {39, "CAP_BPF"}, {21, "CAP_SYS_ADMIN"}};
    char line[256], missing[64] = "";
    unsigned long long capabilities = 0;
    FILE *status = fopen("/proc/self/status", "r");
    while (status != NULL && fgets(line, sizeof line, status) != NULL)
        sscanf(line, "CapEff: %llx", &capabilities);
    if (status != NULL)
        fclose(status);
    for (size_t i = 0; i < sizeof needed / sizeof *needed; i++) {
        if (!(capabilities >> needed[i].number & 1))
            snprintf(missing + strlen(missing), sizeof missing - strlen(missing), "%s%s", missing[0] != '\0' ? ", " : "", needed[i].name);
    }
    if (missing[0] != '\0')
        report(findings, true, "missing: %s; run it as root (CAP_SYS_ADMIN: the kernel gives the types of its modules to no one else)", missing);
}

static void check_lockdown(struct findings *findings) {
    char text[128] = "";
    FILE *lockdown = fopen(LOCKDOWN, "r");
    if (lockdown == NULL)
        return;
    if (fgets(text, sizeof text, lockdown) != NULL && strstr(text, "[confidentiality]") != NULL)
        report(findings, true, "the kernel is locked down (confidentiality), so that no BPF program reads its memory; boot with lockdown=integrity or none");
    fclose(lockdown);
}

/* ---- types */

/* A field that pie_watch.bpf.c reads. `offset`: -1 if libbpf finds it in the running kernel. */
struct field {
    const char *type, *name;
    int bytes, offset;
};

static const struct field kernel_fields[] = {
    {"Qdisc", "limit", 4, -1},          {"Qdisc", "handle", 4, -1},       {"Qdisc", "parent", 4, -1},    {"Qdisc", "dev_queue", 8, -1},
    {"qdisc_skb_head", "head", 8, -1},  {"qdisc_skb_head", "qlen", 4, -1}, {"sk_buff_head", "qlen", 4, -1}, {"gnet_stats_queue", "backlog", 4, -1},
    {"sk_buff", "next", 8, -1},         {"sk_buff", "cb", 48, -1},        {"sk_buff", "len", 4, -1},     {"sk_buff", "priority", 4, -1},
    {"sk_buff", "hash", 4, -1},         {"sk_buff", "protocol", 2, -1},   {"sk_buff", "network_header", 2, -1}, {"sk_buff", "tail", 4, -1},
    {"sk_buff", "head", 8, -1},         {"sk_buff", "data", 8, -1},       {"sk_buff", "data_len", 4, -1},  {"sk_buff", "mac_len", 2, -1},
    {"sk_buff_head", "next", 8, -1},    {"sk_buff", "truesize", 4, -1},   {"net_device", "mtu", 4, -1},  {"net_device", "hard_header_len", 2, -1},
    {"net_device", "ifindex", 4, -1},
};

/* pie_vars is copied as a whole. */
#define PIE_FIELDS                                                                                                                                       \
    {"pie_vars", "qdelay", 8, 0}, {"pie_vars", "qdelay_old", 8, 8}, {"pie_vars", "burst_time", 8, 16}, {"pie_vars", "dq_tstamp", 8, 24},                  \
        {"pie_vars", "prob", 8, 32}, {"pie_vars", "accu_prob", 8, 40}, {"pie_vars", "dq_count", 8, 48}, {"pie_vars", "avg_dq_rate", 4, 56},               \
        {"pie_vars", "backlog_old", 4, 60}, {"pie_params", "target", 8, -1}, {"pie_params", "tupdate", 4, -1}, {"pie_params", "limit", 4, -1}, {"pie_params", "alpha", 4, -1},            \
        {"pie_params", "beta", 4, -1}, {"pie_params", "ecn", 1, -1}, {"pie_params", "bytemode", 1, -1}, {"pie_params", "dq_rate_estimator", 1, -1},        \
        {"pie_stats", "packets_in", 4, -1}, {"pie_stats", "dropped", 4, -1}, {"pie_stats", "overlimit", 4, -1}, {"pie_stats", "ecn_mark", 4, -1},          \
        {"pie_stats", "maxq", 4, -1}, {"pie_skb_cb", "enqueue_time", 8, -1}, {"pie_skb_cb", "mem_usage", 4, -1}

static const struct field pie_fields[] = {PIE_FIELDS, {"pie_sched_data", "vars", 64, -1}, {"pie_sched_data", "params", 32, -1}, {"pie_sched_data", "stats", 20, -1}};

static const struct field fq_pie_fields[] = {
    PIE_FIELDS,
    {"fq_pie_sched_data", "flows", 8, -1},        {"fq_pie_sched_data", "p_params", 32, -1},    {"fq_pie_sched_data", "stats", 20, -1},
    {"fq_pie_sched_data", "old_flows", 16, -1},   {"fq_pie_sched_data", "new_flows", 16, -1},   {"fq_pie_sched_data", "ecn_prob", 4, -1},
    {"fq_pie_sched_data", "flows_cnt", 4, -1},    {"fq_pie_sched_data", "flows_cursor", 4, -1}, {"fq_pie_sched_data", "quantum", 4, -1},
    {"fq_pie_sched_data", "memory_limit", 4, -1}, {"fq_pie_sched_data", "memory_usage", 4, -1}, {"fq_pie_sched_data", "overmemory", 4, -1},
    {"fq_pie_flow", "vars", 64, -1},              {"fq_pie_flow", "deficit", 4, -1},            {"fq_pie_flow", "backlog", 4, -1},
    {"fq_pie_flow", "qlen", 4, -1},               {"fq_pie_flow", "flowchain", 16, -1},         {"fq_pie_flow", "head", 8, -1},
};

/* Finds a field, also in structs and unions without a name. Returns false if there is none. */
static bool find_field(const struct btf *btf, int type, const char *name, int *bytes, int *offset) {
    const struct btf_type *holder = btf__type_by_id(btf, (unsigned)type);
    if (holder == NULL || !btf_is_composite(holder))
        return false;
    for (unsigned i = 0; i < btf_vlen(holder); i++) {
        const struct btf_member *member = btf_members(holder) + i;
        const char *found = btf__name_by_offset(btf, member->name_off);
        int at = (int)btf_member_bit_offset(holder, i) / 8, inner;
        if (found != NULL && strcmp(found, name) == 0) {
            *bytes = (int)btf__resolve_size(btf, member->type);
            *offset = at;
            return true;
        }
        if ((found == NULL || found[0] == '\0') && find_field(btf, (int)member->type, name, bytes, &inner)) {
            *offset = at + inner;
            return true;
        }
    }
    return false;
}

static void check_fields(struct findings *findings, const struct btf *btf, const struct field *fields, size_t count) {
    for (size_t i = 0; i < count; i++) {
        const struct field *field = &fields[i];
        int type = btf__find_by_name_kind(btf, field->type, BTF_KIND_STRUCT), bytes, offset;
        if (type < 0 || !find_field(btf, type, field->name, &bytes, &offset))
            report(findings, true, "this kernel's struct %s has no field %s; tested: " TESTED, field->type, field->name);
        else if (bytes != field->bytes)
            report(findings, false, "%s.%s has %d bytes in this kernel, and %d in the tested ones (" TESTED ")", field->type, field->name, bytes,
                   field->bytes);
        else if (field->offset >= 0 && offset != field->offset)
            report(findings, false, "%s.%s is at byte %d in this kernel, and at byte %d in the tested ones (" TESTED ")", field->type, field->name,
                   offset, field->offset);
    }
}

/* Checks a module's types. Returns false if there are none. */
static bool check_module(struct findings *findings, struct btf *kernel, const char *module, const struct field *fields, size_t count) {
    struct btf *btf;
    char path[64];
    snprintf(path, sizeof path, WATCH_BTF "/%s", module);
    if (access(path, F_OK) != 0) {
        report(findings, true, "no %s: the module %s has no types (CONFIG_DEBUG_INFO_BTF_MODULES)", path, module);
        return false;
    }
    btf = btf__load_module_btf(module, kernel);
    if (btf == NULL) {
        report(findings, true, "%s cannot be read", path);
        return false;
    }
    check_fields(findings, btf, fields, count);
    btf__free(btf);
    return true;
}

bool watch_is_loaded(const char *module) {
    char path[64];
    snprintf(path, sizeof path, MODULES "/%s", module);
    return access(path, F_OK) == 0;
}

static void check_types(struct findings *findings, struct watch_checked *checked) {
    struct btf *kernel;
    if (access(WATCH_BTF "/vmlinux", F_OK) != 0) {
        report(findings, true, "no " WATCH_BTF "/vmlinux: this kernel was built without CONFIG_DEBUG_INFO_BTF, or /sys is not mounted; tested: " TESTED);
        return;
    }
    kernel = btf__load_vmlinux_btf();
    if (kernel == NULL) {
        report(findings, true, WATCH_BTF "/vmlinux cannot be read");
        return;
    }
    check_fields(findings, kernel, kernel_fields, sizeof kernel_fields / sizeof *kernel_fields);
    check_module(findings, kernel, "sch_pie", pie_fields, sizeof pie_fields / sizeof *pie_fields);
    if (checked->has_fq_pie)
        check_module(findings, kernel, "sch_fq_pie", fq_pie_fields, sizeof fq_pie_fields / sizeof *fq_pie_fields);
    btf__free(kernel);
}

/* ---- functions */

/* A function of the kernel that a BPF program is attached to. `caller` calls it by an instruction of its own; NULL: by a pointer, or from several places. */
struct hook {
    const char *module, *name, *caller;
    uint64_t at, caller_at, caller_end;
    bool is_there;
    bool is_variant; /* the compiler made another function of a part of it */
};

static struct hook hooks[] = {
    {.module = "sch_pie", .name = "pie_qdisc_enqueue"},
    {.module = "sch_pie", .name = "pie_drop_early", .caller = "pie_qdisc_enqueue"},
    {.module = "sch_pie", .name = "pie_process_dequeue", .caller = "pie_qdisc_dequeue"},
    {.module = "sch_pie", .name = "pie_calculate_probability", .caller = "pie_timer"},
    {.module = "sch_pie", .name = "pie_change"},
    {.module = "sch_pie", .name = "pie_init"},
    {.module = "sch_pie", .name = "pie_reset"},
    {.module = "sch_pie", .name = "pie_destroy"},
    {.module = "sch_pie", .name = "get_random_bytes", .caller = "pie_drop_early"},
    {.module = "sch_pie", .name = "ktime_get", .caller = "pie_process_dequeue"},
    {.module = "sch_pie", .name = "qdisc_tree_reduce_backlog", .caller = "pie_change"},
    {.module = "sch_fq_pie", .name = "fq_pie_qdisc_enqueue"},
    {.module = "sch_fq_pie", .name = "pie_drop_early", .caller = "fq_pie_qdisc_enqueue"},
    {.module = "sch_fq_pie", .name = "pie_process_dequeue", .caller = "fq_pie_qdisc_dequeue"},
    {.module = "sch_fq_pie", .name = "pie_calculate_probability", .caller = "fq_pie_timer"},
    {.module = "sch_fq_pie", .name = "fq_pie_timer"},
    {.module = "sch_fq_pie", .name = "fq_pie_change"},
    {.module = "sch_fq_pie", .name = "fq_pie_init"},
    {.module = "sch_fq_pie", .name = "fq_pie_reset"},
    {.module = "sch_fq_pie", .name = "fq_pie_destroy"},
    {.module = "sch_fq_pie", .name = "qdisc_tree_reduce_backlog", .caller = "fq_pie_change"},
};

#define HOOKS (sizeof hooks / sizeof *hooks)

/* A symbol of the modules, or of the kernel itself (`module` empty). */
struct symbol {
    uint64_t at;
    char name[56], module[16];
};

static void note_symbol(const struct symbol *symbol) {
    for (size_t i = 0; i < HOOKS; i++) {
        struct hook *hook = &hooks[i];
        size_t length = strlen(hook->name);
        bool is_own = strcmp(symbol->module, hook->module) == 0, is_other = symbol->module[0] == '\0' || strcmp(symbol->module, "sch_pie") == 0;
        if ((is_own || is_other) && strcmp(symbol->name, hook->name) == 0) {
            hook->is_there = true;
            hook->at = symbol->at;
        }
        if (is_own && strncmp(symbol->name, hook->name, length) == 0 && symbol->name[length] == '.' && strncmp(symbol->name + length, ".cold", 5) != 0)
            hook->is_variant = true;
        if (is_own && hook->caller != NULL && strcmp(symbol->name, hook->caller) == 0)
            hook->caller_at = symbol->at;
    }
}

/* Notes the end of each caller: the next symbol of its module. */
static void note_end(const struct symbol *symbol) {
    for (size_t i = 0; i < HOOKS; i++) {
        struct hook *hook = &hooks[i];
        if (strcmp(symbol->module, hook->module) == 0 && symbol->at > hook->caller_at && (hook->caller_end == 0 || symbol->at < hook->caller_end))
            hook->caller_end = symbol->at;
    }
}

/* Reads where functions are. */
static void read_symbols(void) {
    static struct symbol symbols[MOST_SYMBOLS];
    size_t count = 0;
    char line[512];
    FILE *file = fopen("/proc/kallsyms", "r");
    while (file != NULL && count < MOST_SYMBOLS && fgets(line, sizeof line, file) != NULL) {
        struct symbol *symbol = &symbols[count];
        unsigned long long at;
        char letter;
        symbol->module[0] = '\0';
        if (strstr(line, "pie") == NULL && strstr(line, " get_random_bytes\n") == NULL && strstr(line, " ktime_get\n") == NULL &&
            strstr(line, " qdisc_tree_reduce_backlog\n") == NULL)
            continue;
        if (sscanf(line, "%llx %c %55s [%15[^]]", &at, &letter, symbol->name, symbol->module) < 3 || strchr("tTwW", letter) == NULL)
            continue;
        symbol->at = at;
        count++;
    }
    if (file != NULL)
        fclose(file);
    for (size_t i = 0; i < count; i++)
        note_symbol(&symbols[i]);
    for (size_t i = 0; i < count; i++)
        note_end(&symbols[i]);
}

/* Reads memory of the kernel through the ELF file /proc/kcore. Returns false if it cannot be read. */
static bool read_kernel(int core, uint64_t at, unsigned char *to, size_t bytes) {
    Elf64_Ehdr head;
    Elf64_Phdr part;
    if (pread(core, &head, sizeof head, 0) != sizeof head)
        return false;
    for (unsigned i = 0; i < head.e_phnum; i++) {
        if (pread(core, &part, sizeof part, (off_t)(head.e_phoff + i * sizeof part)) != sizeof part)
            return false;
        if (part.p_type == PT_LOAD && part.p_vaddr <= at && at + bytes <= part.p_vaddr + part.p_memsz)
            return pread(core, to, bytes, (off_t)(part.p_offset + (at - part.p_vaddr))) == (ssize_t)bytes;
    }
    return false;
}

/* Returns true if the code has a call, or a jump, to the function (or to the 16 bytes before it, which some mitigations call). */
static bool has_call(const unsigned char *code, size_t bytes, uint64_t at, uint64_t callee) {
    for (size_t i = 0; i + 5 <= bytes; i++) {
        int32_t distance;
        if (code[i] != 0xe8 && code[i] != 0xe9)
            continue;
        memcpy(&distance, code + i + 1, sizeof distance);
        uint64_t to = at + i + 5 + (uint64_t)(int64_t)distance;
        if (to <= callee && callee - to <= 16)
            return true;
    }
    return false;
}

static void check_calls(struct findings *findings, const struct watch_checked *checked) {
#ifdef __x86_64__
    static unsigned char code[MOST_CODE];
    int core = open("/proc/kcore", O_RDONLY | O_CLOEXEC);
    bool is_read = core >= 0;
    if (!is_read && errno == ENOENT) {
        fprintf(stderr, "pie-watch: this kernel has no /proc/kcore, so that inlined functions are not found\n");
        return;
    }
    for (size_t i = 0; i < HOOKS && is_read; i++) {
        const struct hook *hook = &hooks[i];
        size_t bytes = hook->caller_end != 0 ? (size_t)(hook->caller_end - hook->caller_at) : LAST_CODE;
        if (hook->caller == NULL || hook->at == 0 || (!checked->has_fq_pie && strcmp(hook->module, "sch_fq_pie") == 0))
            continue;
        if (hook->caller_at == 0) {
            report(findings, false, "this kernel has no function %s, which calls %s", hook->caller, hook->name);
            continue;
        }
        is_read = read_kernel(core, hook->caller_at, code, bytes < MOST_CODE ? bytes : MOST_CODE);
        if (is_read && !has_call(code, bytes < MOST_CODE ? bytes : MOST_CODE, hook->caller_at, hook->at))
            report(findings, false, "%s does not call %s in this kernel: the compiler inlined it, so that its calls are not seen", hook->caller, hook->name);
    }
    if (!is_read)
        report(findings, false, "the kernel's code cannot be read (/proc/kcore), so that inlined functions are not found");
    if (core >= 0)
        close(core);
#else
    (void)findings;
    (void)checked;
#endif
}

/* Returns true if an earlier hook has the same function. */
static bool is_repeated(size_t number) {
    for (size_t i = 0; i < number; i++) {
        if (strcmp(hooks[i].name, hooks[number].name) == 0)
            return true;
    }
    return false;
}

static void check_functions(struct findings *findings, const struct watch_checked *checked) {
    bool is_any = false;
    read_symbols();
    for (size_t i = 0; i < HOOKS; i++) {
        const struct hook *hook = &hooks[i];
        is_any |= hook->at != 0;
        if (!checked->has_fq_pie && strcmp(hook->module, "sch_fq_pie") == 0)
            continue;
        if (!hook->is_there && is_repeated(i))
            continue;
        if (!hook->is_there)
            report(findings, true, "this kernel has no function %s, or the compiler inlined it (/proc/kallsyms); tested: " TESTED, hook->name);
        else if (hook->is_variant)
            report(findings, false, "the compiler made a second function of %s in this kernel, whose calls are not seen", hook->name);
    }
    if (is_any)
        check_calls(findings, checked);
    else if (!findings->is_impossible)
        report(findings, false, "the addresses of functions are hidden (kernel.kptr_restrict), so that inlined functions are not found");
}

bool watch_can_record(void) {
    struct findings findings = {0};
    check_capabilities(&findings);
    check_lockdown(&findings);
    return !findings.is_impossible;
}

bool watch_check(struct watch_checked *checked, bool is_anyway) {
    struct findings findings = {.is_anyway = is_anyway};
    static const unsigned tested[][2] = {{6, 1}, {6, 12}};
    struct utsname kernel;
    unsigned major = 0, minor = 0;
    bool is_tested = false;
    checked->has_fq_pie = watch_is_loaded("sch_fq_pie");
    if (uname(&kernel) == 0 && sscanf(kernel.release, "%u.%u", &major, &minor) == 2) {
        for (size_t i = 0; i < sizeof tested / sizeof *tested; i++)
            is_tested |= major == tested[i][0] && minor == tested[i][1];
    }
    if (!is_tested)
        report(&findings, false, "Linux %s was not tested; tested: " TESTED, kernel.release);
    check_types(&findings, checked);
    if (!findings.is_impossible)
        check_functions(&findings, checked);
    return !findings.is_impossible && (is_anyway || !findings.is_unknown);
}

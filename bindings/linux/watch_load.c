#define _GNU_SOURCE
#include "watch_load.h"

#include "watch_check.h"

#include <grp.h>
#include <linux/capability.h>
#include <stdio.h>
#include <string.h>
#include <sys/prctl.h>
#include <sys/syscall.h>
#include <time.h>
#include <unistd.h>

#define NOBODY 65534
#define ADMIN 21
#define PERFMON 38
#define BPF 39
#define MOST_CAPABILITIES 64

char watch_last_warning[256];
bool watch_is_verbose;

int watch_note(enum libbpf_print_level level, const char *format, va_list arguments) {
    va_list again;
    va_copy(again, arguments);
    if (level == LIBBPF_WARN)
        vsnprintf(watch_last_warning, sizeof watch_last_warning, format, again);
    va_end(again);
    watch_last_warning[strcspn(watch_last_warning, "\n")] = '\0';
    return watch_is_verbose ? vfprintf(stderr, format, arguments) : 0;
}

bool watch_wait_for_module(const volatile sig_atomic_t *is_ended) {
    if (watch_is_loaded("sch_pie"))
        return true;
    fprintf(stderr, "pie-watch: the module sch_pie is not loaded, so there is no queue to record; waiting (`tc qdisc add .. pie` loads it)\n");
    while (!*is_ended && !watch_is_loaded("sch_pie"))
        nanosleep(&(struct timespec){.tv_nsec = 20000000}, NULL);
    return !*is_ended;
}

static bool set_capabilities(unsigned long long kept) {
    struct __user_cap_header_struct head = {.version = _LINUX_CAPABILITY_VERSION_3};
    struct __user_cap_data_struct sets[2] = {{0, 0, 0}, {0, 0, 0}};
    for (int i = 0; i < 2; i++)
        sets[i].effective = sets[i].permitted = (unsigned)(kept >> 32 * i);
    return syscall(SYS_capset, &head, sets) == 0;
}

/* Returns the capabilities that this process has. */
static unsigned long long capabilities(void) {
    struct __user_cap_header_struct head = {.version = _LINUX_CAPABILITY_VERSION_3};
    struct __user_cap_data_struct sets[2] = {{0, 0, 0}, {0, 0, 0}};
    if (syscall(SYS_capget, &head, sets) != 0)
        return 0;
    return sets[0].permitted | (unsigned long long)sets[1].permitted << 32;
}

bool watch_keep_bpf(bool has_admin) {
    unsigned long long kept = 1ull << PERFMON | 1ull << BPF | (has_admin ? 1ull << ADMIN : 0);
    for (int i = 0; i < MOST_CAPABILITIES; i++) {
        if (!(kept >> i & 1) && prctl(PR_CAPBSET_READ, i) == 1)
            prctl(PR_CAPBSET_DROP, i); /* (only possible with CAP_SETPCAP) */
    }
    return prctl(PR_SET_NO_NEW_PRIVS, 1, 0, 0, 0) == 0 && set_capabilities(kept & capabilities());
}

bool watch_become_nobody(void) {
    if (geteuid() == 0 && (setgroups(0, NULL) != 0 || setresgid(NOBODY, NOBODY, NOBODY) != 0 || setresuid(NOBODY, NOBODY, NOBODY) != 0))
        return false;
    return prctl(PR_SET_NO_NEW_PRIVS, 1, 0, 0, 0) == 0 && set_capabilities(0);
}

/* Shared by the recording and the sums: messages of libbpf, the wait for the kernel's module, and privileges that are no longer needed. */
#ifndef WATCH_LOAD_H
#define WATCH_LOAD_H

#include <bpf/libbpf.h>
#include <signal.h>
#include <stdarg.h>
#include <stdbool.h>

#define VERIFIER_COUNTS 4 /* log level: the verifier prints the instructions that it processed */

extern char watch_last_warning[256]; /* of libbpf */
extern bool watch_is_verbose;

/* Keeps the last warning of libbpf, and prints each message if `watch_is_verbose`. */
int watch_note(enum libbpf_print_level level, const char *format, va_list arguments);

/* Waits until the module sch_pie is loaded. Returns false if `is_ended` becomes true before. */
bool watch_wait_for_module(const volatile sig_atomic_t *is_ended);

/* Gives up each capability but CAP_BPF, CAP_PERFMON and, if `has_admin`, CAP_SYS_ADMIN, also for later programs. Returns false with errno if that fails. */
bool watch_keep_bpf(bool has_admin);

/* Makes this process one of the user nobody without capabilities, who gets no privileges again. Returns false with errno if that fails. */
bool watch_become_nobody(void);

#endif

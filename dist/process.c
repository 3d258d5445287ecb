/* The arguments of the program, its environment and errno: runtime.h's last four functions. Also functions of the C library that the program
 * calls, where a processor or another C library than glibc has them otherwise. The program is linked with --wrap=main and
 * --wrap=open (Makefile).
 */
#ifndef _GNU_SOURCE
#define _GNU_SOURCE /* O_DIRECT */
#endif
#include "runtime.h"

#include <errno.h>
#include <fcntl.h>
#include <signal.h>
#include <stdint.h>
#include <stdlib.h>
#include <string.h>
#include <sys/syscall.h>
#include <unistd.h>

static size_t count;
static char **arguments;

int __real_main(int argc, char **argv);

/* Called in place of main, which takes no arguments. */
int __wrap_main(int argc, char **argv) {
    count = argc > 0 ? (size_t)argc : 0;
    arguments = argv;
    return __real_main(argc, argv);
}

ssize_t rattle_arg(size_t index, char *buffer, size_t room) {
    size_t length;
    if (index >= count || arguments[index] == NULL) return -1;
    length = strlen(arguments[index]);
    memcpy(buffer, arguments[index], length < room ? length : room);
    return length <= room ? (ssize_t)length : -2;
}

ssize_t rattle_env(const char *name, char *buffer, size_t room) {
    const char *value = getenv(name);
    size_t length;
    if (value == NULL) return -1;
    length = strlen(value);
    memcpy(buffer, value, length < room ? length : room);
    return length <= room ? (ssize_t)length : -2;
}

int rattle_errno(void) {
    return errno;
}

void rattle_set_errno(int error) {
    errno = error;
}

/* Flags of open that aarch64 numbers otherwise than x86-64 and riscv64. */
enum { DIRECT = 0040000, DIRECTORY = 0200000, NOFOLLOW = 0400000 };

int __real_open(const char *path, int flags, ...);

/* Called in place of open, with the flags of x86-64. */
int __wrap_open(const char *path, int flags, unsigned mode) {
    int changed = flags & ~(DIRECT | DIRECTORY | NOFOLLOW);
    changed |= (flags & DIRECT ? O_DIRECT : 0) | (flags & DIRECTORY ? O_DIRECTORY : 0) | (flags & NOFOLLOW ? O_NOFOLLOW : 0);
    return __real_open(path, changed, mode);
}

#if !defined(__x86_64__) || !defined(__GLIBC__)
/* The features of the processor that main tests before all else, as glibc's function returns them for x86-64: `active` of
 * leaf 0 and of leaf 2. Other processors pass the test, because their compiler selects the features. */
struct leaf {
    uint32_t present[4], active[4];
};

#ifdef __x86_64__
#include <cpuid.h>
#endif

const struct leaf *__x86_get_cpuid_feature_leaf(unsigned number);
const struct leaf *__x86_get_cpuid_feature_leaf(unsigned number) {
    static struct leaf found[3];
    struct leaf *leaf = &found[number < 2 ? 0 : 2];
#ifdef __x86_64__
    __get_cpuid(number < 2 ? 1 : 0x80000001, &leaf->active[0], &leaf->active[1], &leaf->active[2], &leaf->active[3]);
#else
    memset(leaf->active, 0xff, sizeof leaf->active);
#endif
    return leaf;
}
#endif

#ifndef __GLIBC__
struct statx;

void (*__sysv_signal(int number, void (*handler)(int)))(int) {
    return signal(number, handler);
}

ssize_t __write(int file, const void *bytes, size_t length) {
    return write(file, bytes, length);
}

/* musl has this function since version 1.2.5. */
__attribute__((weak)) int statx(int folder, const char *restrict path, int flags, unsigned mask, struct statx *restrict found) {
    return (int)syscall(SYS_statx, folder, path, flags, mask, found);
}
#endif

/* A library for LD_PRELOAD that makes one request of a program fail: the n-th allocation (REFUSE_MEMORY=n), the
 * n-th read of standard input or of a file (REFUSE_READ=n), the n-th write of standard output (REFUSE_WRITE=n), the
 * n-th start of a thread (REFUSE_THREAD=n), or the n-th request that creates, writes, renames or removes a file
 * (REFUSE_FILE=n). With REFUSE_HOLD=n and REFUSE_THREADS=m the n-th of m threads runs only after all m have started and
 * all others except the first have ended. With REFUSE_ON=1 all later requests of that kind fail too. REFUSE_OVER=n makes each allocation of more than n bytes fail.
 * REFUSE_LINK makes each hard link fail, and REFUSE_SYNC each synchronization. With REFUSE_STEP=n each read and each
 * write transfers at most n bytes, and with
 * REFUSE_FIRST=n the first read of standard input does. A failed request creates the file REFUSE_MET. If
 * REFUSE_AFTER is a line that the program writes, only the requests from that line to the next one are counted.
 * With REFUSE_ALONE standard error reports whether another thread is still running when the program writes. */
#define _GNU_SOURCE
#include <dlfcn.h>
#include <errno.h>
#include <fcntl.h>
#include <pthread.h>
#include <stdarg.h>
#include <stdatomic.h>
#include <stdlib.h>
#include <string.h>
#include <sys/stat.h>
#include <sys/syscall.h>
#include <unistd.h>

extern void *__libc_malloc(size_t);
extern void *__libc_realloc(void *, size_t);

static atomic_long asked[5];

/* Returns true if the last line written was that of REFUSE_AFTER. */
static atomic_int is_between;

/* Returns true if a request is counted now, and the number in the variable. */
static int is_counted(const char *variable, long *number) {
    const char *text = getenv(variable);
    if (!text || !getenv("REFUSE_MET") || (getenv("REFUSE_AFTER") && !atomic_load(&is_between)))
        return 0;
    *number = atol(text);
    return 1;
}

/* Reports that a request was refused. */
static int refuse(void) {
    int file = syscall(SYS_openat, AT_FDCWD, getenv("REFUSE_MET"), O_CREAT | O_WRONLY, 0600);
    if (file >= 0)
        close(file);
    return 1;
}

/* Returns true if this request, of the variable's kind, is to fail. */
static int is_refused(int kind, const char *variable) {
    long place;
    if (!is_counted(variable, &place))
        return 0;
    long now = atomic_fetch_add(&asked[kind], 1) + 1;
    return (now == place || (getenv("REFUSE_ON") && now > place)) && refuse();
}

/* Returns true if a request for this many bytes of memory is to fail. */
static int is_memory_refused(size_t size) {
    long most;
    if (is_counted("REFUSE_OVER", &most) && size > (size_t)most)
        return refuse();
    return is_refused(0, "REFUSE_MEMORY");
}

/* Reports it if a thread other than this one is still running a minute from now. A joined thread may be listed for a moment longer. */
static void look_for_threads(void) {
    static const char found[] = "refuse.c: a thread is still running\n";
    struct stat tasks;
    for (int turn = 0; turn < 60000; turn++) {
        if (stat("/proc/self/task", &tasks) || tasks.st_nlink <= 3)
            return;
        usleep(1000);
    }
    syscall(SYS_write, 2, found, sizeof found - 1);
}

/* Looks at a line that the program writes. */
static void see_line(const void *from, size_t size) {
    const char *after = getenv("REFUSE_AFTER");
    if (!after)
        return;
    atomic_store(&is_between, size == strlen(after) + 1 && !memcmp(from, after, size - 1));
}

void *malloc(size_t size) {
    if (is_memory_refused(size)) {
        errno = ENOMEM;
        return NULL;
    }
    return __libc_malloc(size);
}

void *realloc(void *old, size_t size) {
    if (size && is_memory_refused(size)) {
        errno = ENOMEM;
        return NULL;
    }
    return __libc_realloc(old, size);
}

/* Returns the number of bytes, at most `size`, that one request moves by this variable. */
static size_t step_by(const char *variable, size_t size) {
    const char *text = getenv(variable);
    size_t most = text ? (size_t)atol(text) : size;
    return size < most ? size : most;
}

static size_t step(size_t size) {
    return step_by("REFUSE_STEP", size);
}

ssize_t read(int file, void *to, size_t size) {
    if (is_refused(1, "REFUSE_READ")) {
        errno = EIO;
        return -1;
    }
    static atomic_int has_begun;
    int is_first = file == 0 && !atomic_exchange(&has_begun, 1);
    return syscall(SYS_read, file, to, is_first ? step_by("REFUSE_FIRST", step(size)) : step(size));
}

ssize_t write(int file, const void *from, size_t size) {
    if (getenv("REFUSE_ALONE"))
        look_for_threads();
    if (file == 1)
        see_line(from, size);
    if (file == 1 && is_refused(2, "REFUSE_WRITE")) {
        errno = EIO;
        return -1;
    }
    if (file > 2 && is_refused(4, "REFUSE_FILE")) {
        errno = ENOSPC;
        return -1;
    }
    return syscall(SYS_write, file, from, file == 2 ? size : step(size));
}

ssize_t __write(int file, const void *from, size_t size) {
    return write(file, from, size);
}

/* Refuses a request for a file with this error, or makes it. */
#define UNLESS_REFUSED(error, request) (is_refused(4, "REFUSE_FILE") ? (errno = (error), -1) : (int)(request))

int open(const char *name, int flags, ...) {
    va_list rest;
    va_start(rest, flags);
    int mode = flags & O_CREAT ? va_arg(rest, int) : 0;
    va_end(rest);
    if (!(flags & O_CREAT))
        return syscall(SYS_openat, AT_FDCWD, name, flags, mode);
    return UNLESS_REFUSED(EACCES, syscall(SYS_openat, AT_FDCWD, name, flags, mode));
}

int fchmod(int file, mode_t mode) {
    return UNLESS_REFUSED(EPERM, syscall(SYS_fchmod, file, mode));
}

int fsync(int file) {
    if (getenv("REFUSE_SYNC"))
        return errno = EIO, -1;
    return UNLESS_REFUSED(EIO, syscall(SYS_fsync, file));
}

int link(const char *from, const char *to) {
    if (getenv("REFUSE_LINK"))
        return errno = EPERM, -1;
    return UNLESS_REFUSED(EPERM, syscall(SYS_linkat, AT_FDCWD, from, AT_FDCWD, to, 0));
}

int rename(const char *from, const char *to) {
    return UNLESS_REFUSED(EACCES, syscall(SYS_renameat2, AT_FDCWD, from, AT_FDCWD, to, 0));
}

int unlink(const char *name) {
    return UNLESS_REFUSED(EACCES, syscall(SYS_unlinkat, AT_FDCWD, name, 0));
}

/* A thread that is held. */
static struct {
    void *(*run)(void *);
    void *with;
} held;

/* The number of threads that have started. */
static atomic_int started;

/* Runs the held thread after all threads have started and all have ended, except it and the first one. */
static void *run_held(void *unused) {
    const char *threads = getenv("REFUSE_THREADS");
    struct stat tasks;
    while (atomic_load(&started) < atoi(threads ? threads : "0") || (stat("/proc/self/task", &tasks) == 0 && tasks.st_nlink > 4))
        usleep(1000);
    return held.run(held.with ? held.with : unused);
}

int pthread_create(pthread_t *thread, const pthread_attr_t *attributes, void *(*run)(void *), void *with) {
    static atomic_int asked_for;
    const char *hold = getenv("REFUSE_HOLD");
    if (is_refused(3, "REFUSE_THREAD"))
        return EAGAIN;
    if (hold && atomic_fetch_add(&asked_for, 1) + 1 == atoi(hold)) {
        held.run = run;
        held.with = with;
        run = run_held;
    }
    int (*create)(pthread_t *, const pthread_attr_t *, void *(*)(void *), void *) =
        (int (*)(pthread_t *, const pthread_attr_t *, void *(*)(void *), void *))dlsym(RTLD_NEXT, "pthread_create");
    int refusal = create(thread, attributes, run, with);
    atomic_fetch_add(&started, !refusal);
    return refusal;
}

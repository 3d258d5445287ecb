/* What the proved program calls, for WebAssembly: memory, files as streams, and products, quotients and shifts of 128 bits. A host in JavaScript
 * (web/pie.js) reads and writes the streams. There is one thread, no file can be created, and each run of the program has an instance of its own.
 *
 * A pointer has 32 bits. Sizes of the module's functions have 64 bits, as on x86-64.
 */
#include <stdbool.h>
#include <stddef.h>
#include <stdint.h>

#define IMPORT(name) __attribute__((import_module("host"), import_name(name)))
#define EXPORT(name) __attribute__((export_name(name)))

/* The host's functions. Each returns a number below 0 for an error: errno, negated. */
IMPORT("open") int host_open(const char *path, uint32_t length);
IMPORT("read") int host_read(int file, void *buffer, uint32_t room);
/* Returns the size of an open file. */
IMPORT("size") double host_size(int file);
IMPORT("write") int host_write(int file, const void *buffer, uint32_t length);
/* Returns the length of argument `index`, and copies its first `room` bytes. */
IMPORT("argument") int host_argument(uint32_t index, char *buffer, uint32_t room);
/* Returns a time in nanoseconds that never decreases. */
IMPORT("now") double host_now(void);
IMPORT("exit") _Noreturn void host_exit(int status);

enum { NO_FILE = 2, IO = 5, BAD_FILE = 9, AGAIN = 11, NO_MEMORY = 12, IS_FOLDER = 21, INVALID = 22, READ_ONLY = 30, NO_CALL = 38 };
enum { WRITES = 3 /* O_WRONLY and O_RDWR */, MOST = 1 << 30 };

static int error;

static int64_t result(int returned) {
    if (returned >= 0) return returned;
    error = -returned;
    return -1;
}

/* ---- Memory: blocks of 5, 6, 7 or 8 times a power of two, from 32 bytes on, with a free list for each size. The last block of the heap grows in
 * place. */

enum { HEAD = 16, SIZES = 108, PAGE = 1 << 16 };

struct block {
    uint32_t size; /* without its head */
    uint32_t list;
    struct block *next; /* in a free list */
};

extern unsigned char __heap_base;
static uint32_t heap_end, memory_end;
static struct block *free_lists[SIZES];

/* Returns the free list of blocks with at least this size, and sets the size to theirs. */
static uint32_t list_of(uint32_t *size) {
    uint32_t power = 3, step;
    if (*size < 32) *size = 32;
    while ((uint64_t)8 << power < *size) power++;
    step = (*size - 1) >> power; /* 4 to 7 */
    *size = (step + 1) << power;
    return 4 * (power - 2) + step - 4;
}

/* Moves the end of the heap to `end`, if memory is left. */
static bool extend(uint64_t end) {
    if (memory_end == 0) memory_end = __builtin_wasm_memory_size(0) * PAGE;
    if (end > 0xffff0000) return false;
    if (end > memory_end) {
        /* (at least a sixteenth more, because a host may copy all of its memory) */
        uint64_t wanted = end + memory_end / 16, most = 0xffff0000;
        uint32_t pages = (uint32_t)(((wanted < most ? wanted : most) - memory_end + PAGE - 1) / PAGE);
        if (__builtin_wasm_memory_grow(0, pages) == (size_t)-1) {
            pages = (uint32_t)((end - memory_end + PAGE - 1) / PAGE);
            if (__builtin_wasm_memory_grow(0, pages) == (size_t)-1) return false;
        }
        memory_end += pages * PAGE;
    }
    heap_end = (uint32_t)end;
    return true;
}

static struct block *head_of(void *block) {
    return (struct block *)((unsigned char *)block - HEAD);
}

static void *allocate(uint64_t wanted) {
    uint32_t size = (uint32_t)wanted, list;
    struct block *found;
    if (wanted > MOST) return NULL;
    list = list_of(&size);
    found = free_lists[list];
    if (found) {
        free_lists[list] = found->next;
    } else {
        if (heap_end == 0) heap_end = ((uint32_t)(uintptr_t)&__heap_base + 15) & ~15u;
        found = (struct block *)(uintptr_t)heap_end;
        if (!extend((uint64_t)heap_end + HEAD + size)) return NULL;
        found->size = size;
        found->list = list;
    }
    return (unsigned char *)found + HEAD;
}

static void release(void *block) {
    struct block *head;
    if (block == NULL) return;
    head = head_of(block);
    head->next = free_lists[head->list];
    free_lists[head->list] = head;
}

/* (both fields have 64 bits, as in the registers of x86-64) */
struct rattle_tried {
    uint64_t ok, block;
};

static char nothing;

static struct rattle_tried tried(void *block) {
    return (struct rattle_tried){block != NULL, (uintptr_t)(block != NULL ? block : &nothing)};
}

struct rattle_tried rattle_alloc(uint64_t size, uint64_t alignment) {
    return tried(allocate(size != 0 ? size : alignment));
}

struct rattle_tried rattle_realloc(void *block, uint64_t kept, uint64_t size, uint64_t alignment) {
    struct block *head = head_of(block);
    unsigned char *made;
    uint32_t grown;
    size = size != 0 ? size : alignment;
    if (size <= head->size) return tried(block);
    if (size <= MOST && (uint32_t)(uintptr_t)block + head->size == heap_end) {
        grown = (uint32_t)size;
        head->list = list_of(&grown);
        if (extend((uint64_t)(uintptr_t)block + grown)) {
            head->size = grown;
            return tried(block);
        }
        grown = head->size;
        head->list = list_of(&grown);
    }
    made = allocate(size);
    if (made != NULL) {
        __builtin_memcpy(made, block, kept < head->size ? (uint32_t)kept : head->size);
        release(block);
    }
    return tried(made);
}

void rattle_dealloc(void *block) {
    release(block);
}

void *malloc(uint64_t size) {
    return allocate(size);
}

void free(void *block) {
    release(block);
}

/* ---- Arguments and errno */

int64_t rattle_arg(uint64_t index, char *buffer, uint64_t room) {
    int length = host_argument((uint32_t)index, buffer, room < MOST ? (uint32_t)room : MOST);
    if (length < 0) return -1;
    return (uint64_t)length <= room ? length : -2;
}

int64_t rattle_env(const char *name, char *buffer, uint64_t room) {
    (void)name, (void)buffer, (void)room;
    return -1;
}

int rattle_errno(void) {
    return error;
}

void rattle_set_errno(int value) {
    error = value;
}

static const char *const words_of[] = {
    [NO_FILE] = "No such file or directory", [IO] = "Input/output error", [BAD_FILE] = "Bad file descriptor",
    [AGAIN] = "Resource temporarily unavailable", [NO_MEMORY] = "Cannot allocate memory", [IS_FOLDER] = "Is a directory",
    [INVALID] = "Invalid argument", [READ_ONLY] = "Read-only file system", [NO_CALL] = "Function not implemented",
};

int __xpg_strerror_r(int number, char *buffer, uint64_t room) {
    const char *words = number > 0 && number <= NO_CALL && words_of[number] ? words_of[number] : "Unknown error";
    uint64_t at = 0;
    while (at + 1 < room && words[at]) {
        buffer[at] = words[at];
        at++;
    }
    if (room > 0) buffer[at] = 0;
    return 0;
}

/* ---- Files: those that the host has, to read; standard output and standard error, to write */

static uint32_t length_of(const char *text) {
    uint32_t length = 0;
    while (text[length]) length++;
    return length;
}

int open(const char *path, int flags, ...) {
    return (int)(flags & WRITES ? result(-READ_ONLY) : result(host_open(path, length_of(path))));
}

/* The part of Linux's struct statx that tells whether a name is a file, which one, and its size. Streams are pipes. */
struct statx {
    uint32_t mask, block_size;
    uint64_t attributes;
    uint32_t links, user, group;
    uint16_t mode, none;
    uint64_t number, size, rest[26];
};

enum { PIPE = 010600, FILE_TO_READ = 0100444, STREAMS = 3 };

int statx(int folder, const char *path, int flags, unsigned mask, struct statx *found) {
    int file = *path ? host_open(path, length_of(path)) : folder;
    (void)flags, (void)mask;
    if (file < 0) return (int)result(file);
    __builtin_memset(found, 0, sizeof *found);
    found->mask = 0x7ff;
    found->mode = file < STREAMS ? PIPE : FILE_TO_READ;
    found->number = (uint64_t)file + 1;
    /* (the sum of a name is the number of its file) */
    if (*path) {
        found->number = 14695981039346656037u;
        while (*path) found->number = (found->number ^ (unsigned char)*path++) * 1099511628211u;
    }
    found->size = file < STREAMS ? 0 : (uint64_t)host_size(file);
    return 0;
}

int close(int file) {
    (void)file;
    return 0;
}

int64_t read(int file, void *buffer, uint64_t room) {
    return result(host_read(file, buffer, room < MOST ? (uint32_t)room : MOST));
}

int64_t write(int file, const void *buffer, uint64_t length) {
    return result(host_write(file, buffer, length < MOST ? (uint32_t)length : MOST));
}

int64_t __write(int file, const void *buffer, uint64_t length) {
    return write(file, buffer, length);
}

int isatty(int file) {
    (void)file;
    return 0;
}

/* Files have no names that could change, no locks and no disk. */
#define REFUSED(name, parameters, reason) \
    int name parameters { \
        return (int)result(-reason); \
    }
#pragma clang diagnostic ignored "-Wunused-parameter"
REFUSED(unlink, (const char *path), READ_ONLY)
REFUSED(link, (const char *from, const char *to), READ_ONLY)
REFUSED(rename, (const char *from, const char *to), READ_ONLY)
REFUSED(ftruncate, (int file, int64_t length), INVALID)
REFUSED(fchmod, (int file, unsigned mode), READ_ONLY)
REFUSED(flock, (int file, int operation), NO_CALL)
REFUSED(fsync, (int file), INVALID)
REFUSED(fdatasync, (int file), INVALID)

/* ---- One thread: a second cannot be made */

int pthread_create(void *thread, const void *attributes, void *(*start)(void *), void *argument) {
    return AGAIN;
}

#undef REFUSED
#define EASY(name, parameters) \
    int name parameters { \
        return 0; \
    }
EASY(pthread_attr_init, (void *attributes))
EASY(pthread_attr_destroy, (void *attributes))
EASY(pthread_attr_setguardsize, (void *attributes, uint64_t size))
EASY(pthread_attr_setstacksize, (void *attributes, uint64_t size))
EASY(pthread_detach, (uint64_t thread))
EASY(pthread_join, (uint64_t thread, void **returned))
EASY(sched_yield, (void))

uint64_t pthread_self(void) {
    return 1;
}

int64_t syscall(int64_t number, void *word, int64_t operation, int64_t value, void *time, ...) {
    return result(-AGAIN);
}

struct time {
    int64_t seconds, nanoseconds;
};

int clock_gettime(int clock, struct time *time) {
    uint64_t now = (uint64_t)host_now();
    time->seconds = (int64_t)(now / 1000000000);
    time->nanoseconds = (int64_t)(now % 1000000000);
    return 0;
}

int nanosleep(const struct time *time, struct time *left) {
    return 0;
}

int64_t __sysv_signal(int number, int64_t handler) {
    return 0;
}

_Noreturn void _exit(int status) {
    host_exit(status);
}

_Noreturn void abort(void) {
    __builtin_trap();
}

/* The features of the processor that the program tests first, for x86-64. Here the compiler has selected them. */
const uint32_t *__x86_get_cpuid_feature_leaf(unsigned number) {
    static const uint32_t leaf[8] = {~0u, ~0u, ~0u, ~0u, ~0u, ~0u, ~0u, ~0u};
    return leaf;
}

/* (LLVM gives main its usual arguments) */
int proved_main(int count, char **words) __asm__("main");

EXPORT("run") int run(void) {
    return proved_main(0, NULL);
}

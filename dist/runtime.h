/* The seven functions that the assembly in x86_64/ calls beside those of the C library. heap.c defines the first three, process.c
 * the others. Proofs assume of them what is stated here; runtime_test.c tests it.
 */
#ifndef PIE_RUNTIME_H
#define PIE_RUNTIME_H

#include <stdbool.h>
#include <stddef.h>
#include <sys/types.h>

/* The result of a request for memory. If `ok` is false, `block` is not null and must not be read. */
struct rattle_tried {
    bool ok;
    void *block;
};

/* Allocates `size` bytes, aligned to `alignment`: a power of two up to 16. A block of 0 bytes has an address of its own. */
struct rattle_tried rattle_alloc(size_t size, size_t alignment);

/* Resizes `block` to `size` bytes. The first `kept` bytes keep their values. If the request fails, `block` is unchanged. */
struct rattle_tried rattle_realloc(void *block, size_t kept, size_t size, size_t alignment);

/* Frees a block that rattle_alloc or rattle_realloc returned. */
void rattle_dealloc(void *block);

/* Copies argument `index` of the program to `buffer`, without a final 0, and returns its length. Argument 0 is the program's name.
 * Returns -1 if there is no such argument, and -2 if its length exceeds `room`: `buffer` then contains its first `room` bytes.
 */
ssize_t rattle_arg(size_t index, char *buffer, size_t room);

/* Copies the value of the environment variable `name` to `buffer`, without a final 0, and returns its length. Returns -1 if there is
 * no such variable, and -2 if the length exceeds `room`: `buffer` then contains the first `room` bytes.
 */
ssize_t rattle_env(const char *name, char *buffer, size_t room);

/* Returns the value of errno. */
int rattle_errno(void);

/* Sets errno. */
void rattle_set_errno(int error);

#endif

#define _POSIX_C_SOURCE 200809L
/* Tests of runtime.h: `runtime_test` starts itself with known arguments. Ends with status 1 after a line for each failure. */
#include "runtime.h"

#include <errno.h>
#include <stdint.h>
#include <stdio.h>
#include <stdlib.h>
#include <string.h>
#include <unistd.h>

static int failures;

static void check(bool holds, const char *what) {
    if (holds) return;
    fprintf(stderr, "runtime_test: %s\n", what);
    failures++;
}

static void heap(void) {
    struct rattle_tried first = rattle_alloc(0, 16), second = rattle_alloc(0, 1), grown, huge;
    char *bytes;
    check(first.ok && second.ok && first.block != second.block, "two blocks of 0 bytes have one address");
    check((uintptr_t)first.block % 16 == 0, "a block is not aligned to 16");
    rattle_dealloc(second.block);
    grown = rattle_realloc(first.block, 0, 1000, 16);
    check(grown.ok && (uintptr_t)grown.block % 16 == 0, "a block does not grow");
    bytes = grown.block;
    memset(bytes, 7, 1000);
    huge = rattle_realloc(grown.block, 1000, (size_t)1 << 62, 16);
    check(!huge.ok && huge.block != NULL, "a request for 2^62 bytes succeeds, or leaves null");
    check(bytes[0] == 7 && bytes[999] == 7, "a refused request changes the block");
    grown = rattle_realloc(grown.block, 1000, 100000, 1);
    bytes = grown.block;
    check(grown.ok && bytes[0] == 7 && bytes[999] == 7, "a larger block loses its first bytes");
    grown = rattle_realloc(grown.block, 0, 0, 8);
    check(grown.ok && grown.block != NULL, "a block of 0 bytes is none");
    rattle_dealloc(grown.block);
    huge = rattle_alloc((size_t)1 << 62, 16);
    check(!huge.ok && huge.block != NULL, "2^62 bytes are allocated, or the address is null");
}

/* Called with the arguments "four", "" and "last". */
static void arguments(void) {
    char buffer[8];
    memset(buffer, '.', sizeof buffer);
    check(rattle_arg(1, buffer, 8) == 4 && memcmp(buffer, "four....", 8) == 0, "argument 1 is another");
    check(rattle_arg(1, buffer, 4) == 4, "an argument that just fits is refused");
    memset(buffer, '.', sizeof buffer);
    check(rattle_arg(1, buffer, 3) == -2 && memcmp(buffer, "fou.....", 8) == 0, "an argument that does not fit");
    check(rattle_arg(1, buffer, 0) == -2, "an argument without room");
    check(rattle_arg(2, buffer, 8) == 0 && rattle_arg(2, buffer, 0) == 0, "an empty argument");
    check(rattle_arg(3, buffer, SIZE_MAX) == 4 && memcmp(buffer, "last", 4) == 0, "argument 3 is another");
    check(rattle_arg(4, buffer, 8) == -1 && rattle_arg(SIZE_MAX, buffer, 8) == -1, "an argument that is not there");
}

static void environment(void) {
    char buffer[8];
    memset(buffer, '.', sizeof buffer);
    setenv("PIE_TEST", "four", 1);
    check(rattle_env("PIE_TEST", buffer, 8) == 4 && memcmp(buffer, "four....", 8) == 0, "a variable has another value");
    check(rattle_env("PIE_TEST", buffer, 4) == 4, "a value that just fits is refused");
    check(rattle_env("PIE_TEST", buffer, 3) == -2 && rattle_env("PIE_TEST", buffer, 0) == -2, "a value that does not fit");
    setenv("PIE_TEST", "", 1);
    check(rattle_env("PIE_TEST", buffer, 8) == 0, "an empty value");
    unsetenv("PIE_TEST");
    check(rattle_env("PIE_TEST", buffer, 8) == -1, "a variable that is not there");
}

int main(int argc, char **argv) {
    if (argc == 1) {
        execl("/proc/self/exe", argv[0], "four", "", "last", (char *)NULL);
        return 1;
    }
    heap();
    arguments();
    environment();
    rattle_set_errno(ENOSPC);
    check(errno == ENOSPC && rattle_errno() == ENOSPC, "errno is another");
    rattle_set_errno(0);
    check(rattle_errno() == 0, "errno is not cleared");
    if (failures == 0) puts("runtime: memory, arguments and errno");
    return failures != 0;
}

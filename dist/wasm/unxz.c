/* Unpacks files of xz, for the page: XZ Embedded of the Linux kernel, which its authors put into the public domain, and the few functions that it
 * needs. unxz.sh compiles it. It compares the CRC32 of a file, and skips other checks: an audit decides each event again. */
#include <stdbool.h>
#include <stddef.h>
#include <stdint.h>

#define EXPORT(name) __attribute__((export_name(name)))
#define XZ_DEC_DYNALLOC
#define XZ_DEC_ANY_CHECK
#define GFP_KERNEL
#define fallthrough __attribute__((fallthrough))
#define __always_inline inline __attribute__((always_inline))
#define min(one, two) ((one) < (two) ? (one) : (two))
#define min_t(type, one, two) min((type)(one), (type)(two))
#define memcpy __builtin_memcpy
#define memmove __builtin_memmove
#define memset __builtin_memset
#define memzero(to, size) __builtin_memset(to, 0, size)
#define memeq(one, two, size) is_equal(one, two, size)
#define get_le32(place) number_at(place)
#define kmalloc(size, flags) allocate(size)
#define vmalloc(size) allocate(size)
/* (a file has one dictionary, or few) */
#define kfree(block) ((void)(block))
#define vfree(block) ((void)(block))

enum { PAGE = 1 << 16, IN = 1 << 18, OUT = 1 << 20 };

static bool is_equal(const void *one, const void *two, size_t size) {
    const uint8_t *first = one, *second = two;
    while (size > 0 && *first == *second) first++, second++, size--;
    return size == 0;
}

static uint32_t number_at(const void *place) {
    uint32_t it;
    __builtin_memcpy(&it, place, sizeof it);
    return it;
}

extern unsigned char __heap_base;
static uint32_t end;

/* Returns a block that is never released, or NULL if no memory is left. */
static void *allocate(size_t size) {
    uint64_t from = ((end ? end : (uint32_t)(uintptr_t)&__heap_base) + 15) & ~15u, have = (uint64_t)__builtin_wasm_memory_size(0) * PAGE;
    if (from + size > 0xffff0000) return NULL;
    if (from + size > have && __builtin_wasm_memory_grow(0, (from + size - have + PAGE - 1) / PAGE) == (size_t)-1) return NULL;
    end = (uint32_t)(from + size);
    return (void *)(uintptr_t)from;
}

#include "xz_crc32.c"
#include "xz_dec_stream.c"
#include "xz_dec_lzma2.c"

static uint8_t in[IN], out[OUT];
static struct xz_dec *decoder;
static struct xz_buf buffer = {in, 0, 0, out, 0, OUT};
static bool is_between;

EXPORT("input") uint8_t *input(void) {
    return in;
}

EXPORT("output") uint8_t *output(void) {
    return out;
}

/* Returns the number of bytes of the input that were not yet read. */
EXPORT("left") uint32_t left(void) {
    return buffer.in_size - buffer.in_pos;
}

/* Returns the number of bytes that the last step wrote. */
EXPORT("made") uint32_t made(void) {
    return buffer.out_pos;
}

/* Reads on, after `given` new bytes of input if that is not 0. Returns 0, 1 at the end of a stream, or the number of an error. */
EXPORT("step") int step(uint32_t given) {
    enum xz_ret code;
    if (!decoder) {
        xz_crc32_init();
        decoder = xz_dec_init(XZ_DYNALLOC, 1u << 30);
        if (!decoder) return XZ_MEM_ERROR;
    }
    if (given) buffer.in_pos = 0, buffer.in_size = given;
    buffer.out_pos = 0;
    /* (zeros may follow a stream) */
    while (is_between && buffer.in_pos < buffer.in_size && in[buffer.in_pos] == 0) buffer.in_pos++;
    if (is_between && buffer.in_pos == buffer.in_size) return XZ_STREAM_END;
    is_between = false;
    do code = xz_dec_run(decoder, &buffer);
    while (code == XZ_UNSUPPORTED_CHECK);
    if (code == XZ_STREAM_END) {
        is_between = true;
        xz_dec_reset(decoder);
    }
    return code;
}

/* Random words that no sender can predict: the key stream of ChaCha with 12 rounds, with a key of the system's
 * random bits. DPDK's rte_rand is not suitable: it is a linear generator, whose state can be computed from its
 * output. */
#ifndef STAGE_WORDS_H
#define STAGE_WORDS_H

#include <stdbool.h>
#include <stdint.h>
#include <string.h>
#include <sys/random.h>

#define STAGE_WORDS 32 /* words made at once: four blocks of ChaCha */
#define STAGE_ROUNDS 12

struct stage_words {
    uint32_t key[8];
    uint64_t counter; /* blocks made */
    uint32_t left;    /* unused words */
    uint64_t words[STAGE_WORDS];
};

/* A 32-bit word of each of four blocks. */
typedef uint32_t stage_lanes __attribute__((vector_size(16)));

static inline stage_lanes stage_rotate(stage_lanes value, int bits) {
    return value << bits | value >> (32 - bits);
}

/* Rotations by 16 and by 8 bits move whole bytes, which x86-64 does by one instruction. */
typedef uint8_t stage_bytes __attribute__((vector_size(16)));

static inline stage_lanes stage_rotate_16(stage_lanes value) {
    static const stage_bytes order = {2, 3, 0, 1, 6, 7, 4, 5, 10, 11, 8, 9, 14, 15, 12, 13};
    return __BYTE_ORDER__ == __ORDER_LITTLE_ENDIAN__ ? (stage_lanes)__builtin_shuffle((stage_bytes)value, order) : stage_rotate(value, 16);
}

static inline stage_lanes stage_rotate_8(stage_lanes value) {
    static const stage_bytes order = {3, 0, 1, 2, 7, 4, 5, 6, 11, 8, 9, 10, 15, 12, 13, 14};
    return __BYTE_ORDER__ == __ORDER_LITTLE_ENDIAN__ ? (stage_lanes)__builtin_shuffle((stage_bytes)value, order) : stage_rotate(value, 8);
}

static inline void stage_quarter(stage_lanes *x, int a, int b, int c, int d) {
    x[a] += x[b], x[d] = stage_rotate_16(x[d] ^ x[a]);
    x[c] += x[d], x[b] = stage_rotate(x[b] ^ x[c], 12);
    x[a] += x[b], x[d] = stage_rotate_8(x[d] ^ x[a]);
    x[c] += x[d], x[b] = stage_rotate(x[b] ^ x[c], 7);
}

/* Computes four blocks of the key stream from this counter on, one in each lane (RFC 8439, section 2.3, but counter and
 * nonce have 64 bits each). */
static inline void stage_blocks(stage_lanes x[16], const uint32_t key[8], uint64_t counter, uint64_t nonce, int rounds) {
    static const uint32_t constants[4] = {0x61707865, 0x3320646e, 0x79622d32, 0x6b206574};
    stage_lanes start[16];
    for (int i = 0; i < 4; i++)
        start[i] = (stage_lanes){constants[i], constants[i], constants[i], constants[i]};
    for (int i = 0; i < 8; i++)
        start[4 + i] = (stage_lanes){key[i], key[i], key[i], key[i]};
    for (int lane = 0; lane < 4; lane++) {
        start[12][lane] = (uint32_t)(counter + (uint64_t)lane);
        start[13][lane] = (uint32_t)((counter + (uint64_t)lane) >> 32);
        start[14][lane] = (uint32_t)nonce;
        start[15][lane] = (uint32_t)(nonce >> 32);
    }
    memcpy(x, start, sizeof start);
    for (int i = 0; i < rounds; i += 2) {
        for (int column = 0; column < 4; column++)
            stage_quarter(x, column, 4 + column, 8 + column, 12 + column);
        for (int column = 0; column < 4; column++)
            stage_quarter(x, column, 4 + (column + 1) % 4, 8 + (column + 2) % 4, 12 + (column + 3) % 4);
    }
    for (int i = 0; i < 16; i++)
        x[i] += start[i];
}

/* Reads a key from the system. Returns false if the system has no random bits. */
static inline bool stage_words_seed(struct stage_words *words) {
    memset(words, 0, sizeof *words);
    return getrandom(words->key, sizeof words->key, 0) == sizeof words->key;
}

/* Computes the next words. Any order of the bits of the stream would do. */
__attribute__((noinline)) static void stage_words_fill(struct stage_words *words) {
    stage_lanes blocks[16];
    stage_blocks(blocks, words->key, words->counter, 0, STAGE_ROUNDS);
    memcpy(words->words, blocks, sizeof words->words);
    words->counter += 4;
    words->left = STAGE_WORDS;
}

static inline uint64_t stage_word(struct stage_words *words) {
    if (words->left == 0)
        stage_words_fill(words);
    return words->words[--words->left];
}

#endif

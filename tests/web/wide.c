/* Sums of random products, quotients, rests and shifts of 128 bits: by the functions of dist/wasm/wide.c in WebAssembly, by the compiler's own on
 * x86-64. Both must be equal. The operands have all lengths, and the ends of each length.
 *
 * usage: wide COUNT      prints a sum for each operation
 */
#include <stdint.h>

typedef unsigned __int128 wide;
typedef __int128 signed_wide;

enum { OPERATIONS = 9 };

static uint64_t state;

static uint64_t random_word(void) {
    state ^= state << 13;
    state ^= state >> 7;
    state ^= state << 17;
    return state * 0x2545f4914f6cdd1dULL;
}

/* Returns a number of a random length, or the least or the greatest of its length. */
static wide random_wide(void) {
    uint64_t how = random_word();
    wide number = (wide)random_word() << 64 | random_word(), greatest = ~(wide)0 >> (how & 127);
    switch (how >> 8 & 15) {
    case 0: return greatest;
    case 1: return (greatest >> 1) + 1;
    case 2: return (number & greatest) >> 32 << 32;
    default: return number & greatest;
    }
}

/* Returns a sum of the results of one operation, of numbers that `operation` seeds. */
uint64_t sum_of(int operation, uint64_t count);
uint64_t sum_of(int operation, uint64_t count) {
    wide sum = 0;
    state = 0x9e3779b97f4a7c15ULL + (uint64_t)operation;
    while (count--) {
        wide one = random_wide(), two = random_wide(), made;
        int places = (int)(random_word() & 127);
        if (two == 0) two = 1;
        if (two == ~(wide)0 && one == (wide)1 << 127) one = 1;
        switch (operation) {
        case 0: made = one * two; break;
        case 1: made = one / two; break;
        case 2: made = one % two; break;
        case 3: made = (wide)((signed_wide)one / (signed_wide)two); break;
        case 4: made = (wide)((signed_wide)one % (signed_wide)two); break;
        case 5: made = one << places; break;
        case 6: made = one >> places; break;
        case 7: made = (wide)((signed_wide)one >> places); break;
        default: made = one / (uint64_t)(two | 1); break;
        }
        sum = sum * 0x9e3779b97f4a7c15ULL + (made ^ made >> 64);
    }
    return (uint64_t)(sum ^ sum >> 64);
}

#ifndef __wasm__
#include <inttypes.h>
#include <stdio.h>
#include <stdlib.h>

int main(int argc, char **argv) {
    for (int operation = 0; argc == 2 && operation < OPERATIONS; operation++) printf("%" PRIu64 "\n", sum_of(operation, strtoull(argv[1], NULL, 10)));
    return argc != 2;
}
#endif

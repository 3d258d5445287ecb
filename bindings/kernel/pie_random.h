/* SPDX-License-Identifier: GPL-2.0 OR MIT */
/*
 * The random words of arrivals. README.md has the reasons for this generator and its cost.
 */
#ifndef PIE_RANDOM_H
#define PIE_RANDOM_H

#include <linux/siphash.h>
#include <linux/types.h>

/* The state of the generator: 256 secret bits. */
struct pr_random {
	u64 v[4];
};

/*
 * Returns a random word. Two rounds of SipHash's permutation mix the moment of the arrival into the
 * secret state and yield one word. The kernel's prandom_u32 was this generator from 5.10 to 6.0,
 * because its outputs do not reveal later ones. A sender observes no word, only whether its packet
 * was lost or marked. Each update mixes 64 bits of the kernel's own generator into the state.
 */
static inline u64 pr_word(struct pr_random *random, u64 moment)
{
	u64 v0 = random->v[0], v1 = random->v[1], v2 = random->v[2], v3 = random->v[3];

	v3 ^= moment;
	SIPHASH_PERMUTATION(v0, v1, v2, v3);
	SIPHASH_PERMUTATION(v0, v1, v2, v3);
	v0 ^= moment;
	random->v[0] = v0;
	random->v[1] = v1;
	random->v[2] = v2;
	random->v[3] = v3;
	return v1 + v3;
}

#endif

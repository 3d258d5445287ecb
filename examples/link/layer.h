/* The link layer: the number of bytes of a packet on the link. Options and sizes are those of `tc stab`, to the byte. */
#ifndef LINK_LAYER_H
#define LINK_LAYER_H

#include <stdbool.h>
#include <stdint.h>

struct layer {
    int32_t overhead; /* bytes that the link layer adds to each packet; negative if it removes a header */
    uint32_t mpu;     /* the least size */
    bool is_atm;      /* true: packets are sent in cells of 53 bytes that carry 48 */
};

/* Returns the bytes that a packet of `size` bytes takes on the link, at least 1. */
uint32_t size_on_link(const struct layer *layer, uint32_t size);

/* Read an option's text into a struct layer. Return the error, or NULL. */
const char *layer_overhead(const char *text, void *to);
const char *layer_mpu(const char *text, void *to);
const char *layer_kind(const char *text, void *to);

#endif

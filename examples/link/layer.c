#include "layer.h"

#include <stdlib.h>
#include <string.h>

/* If `mpu` or cells are given, tc makes a table of 512 sizes, one for each 4 bytes (its defaults: `mtu 2047`, `tsize 512`), and the kernel looks a
 * packet up in it. Sizes above the table are sums of its entries. */
#define TABLE 512
#define STEP 4
#define CELL 53
#define PAYLOAD 48
#define MOST_BYTES 65535

/* Returns the entry of the table at this place: the size on the link of the greatest packet of its step. */
static uint32_t entry(const struct layer *layer, uint32_t place) {
    uint32_t size = (place + 1) * STEP;
    size = size < layer->mpu ? layer->mpu : size;
    return layer->is_atm ? (size + PAYLOAD - 1) / PAYLOAD * CELL : size;
}

uint32_t size_on_link(const struct layer *layer, uint32_t size) {
    int64_t taken = (int64_t)size + layer->overhead;
    if (layer->mpu != 0 || layer->is_atm) {
        uint32_t place = taken > 0 ? (uint32_t)(taken - 1) / STEP : 0;
        taken = (int64_t)entry(layer, TABLE - 1) * (place / TABLE) + entry(layer, place % TABLE);
    }
    return taken < 1 ? 1 : (uint32_t)taken;
}

static const char *read_bytes(const char *text, long least, long *to) {
    char *end;
    *to = strtol(text, &end, 10);
    return end == text || *end != '\0' || *to < least || *to > MOST_BYTES ? "not a number of bytes" : NULL;
}

const char *layer_overhead(const char *text, void *to) {
    long bytes;
    const char *fault = read_bytes(text, -MOST_BYTES, &bytes);
    ((struct layer *)to)->overhead = (int32_t)bytes;
    return fault;
}

const char *layer_mpu(const char *text, void *to) {
    long bytes;
    const char *fault = read_bytes(text, 0, &bytes);
    ((struct layer *)to)->mpu = (uint32_t)bytes;
    return fault;
}

const char *layer_kind(const char *text, void *to) {
    struct layer *layer = to;
    layer->is_atm = strcmp(text, "atm") == 0 || strcmp(text, "adsl") == 0;
    return layer->is_atm || strcmp(text, "ethernet") == 0 ? NULL : "not a value of this option";
}

#include "stage_packet.h"

#include "pie.h"

#define ETHERNET STAGE_ETHERNET
#define TAG 4
#define TAGS 4
#define IPV4 STAGE_IPV4
#define IPV6 40
#define CHECKSUM 10 /* offset of the checksum in an IPv4 header */
#define LOOKED (ETHERNET + TAG * TAGS + IPV4)

static uint16_t word_at(const uint8_t *bytes) {
    return (uint16_t)(bytes[0] << 8 | bytes[1]);
}

static bool is_tag(uint16_t type) {
    return type == 0x8100 || type == 0x88a8 || type == 0x9100;
}

struct stage_packet stage_packet_look_anywhere(const struct rte_mbuf *mbuf) {
    struct stage_packet packet = {0, 0, PIE_NOT_ECT};
    uint8_t copy[LOOKED];
    uint32_t size = rte_pktmbuf_pkt_len(mbuf), seen = RTE_MIN(size, (uint32_t)LOOKED), at = ETHERNET;
    const uint8_t *bytes = rte_pktmbuf_read(mbuf, 0, seen, copy);
    if (bytes == NULL || seen < ETHERNET)
        return packet;
    uint16_t type = word_at(bytes + at - 2);
    for (int tags = 0; tags < TAGS && is_tag(type) && at + TAG <= seen; tags++) {
        at += TAG;
        type = word_at(bytes + at - 2);
    }
    if (type == 0x0800 && at + IPV4 <= seen && bytes[at] >> 4 == 4 && (bytes[at] & 15) >= 5 && at + 4u * (bytes[at] & 15) <= size)
        packet = (struct stage_packet){(uint16_t)at, 4, bytes[at + 1] & 3};
    else if (type == 0x86dd && at + IPV6 <= size && bytes[at] >> 4 == 6)
        packet = (struct stage_packet){(uint16_t)at, 6, bytes[at + 1] >> 4 & 3};
    return packet;
}

/* Returns the segment that contains byte `at` of the frame. Changes `at` to the offset in the data of that segment. */
static struct rte_mbuf *segment_of(const struct rte_mbuf *mbuf, uint32_t *at) {
    const struct rte_mbuf *segment = mbuf;
    while (*at >= rte_pktmbuf_data_len(segment)) {
        *at -= rte_pktmbuf_data_len(segment);
        segment = segment->next;
    }
    return (struct rte_mbuf *)(uintptr_t)segment;
}

static uint8_t *byte_at(const struct rte_mbuf *mbuf, uint32_t at) {
    struct rte_mbuf *segment = segment_of(mbuf, &at);
    return rte_pktmbuf_mtod_offset(segment, uint8_t *, at);
}

static bool is_held_by_others(const struct rte_mbuf *mbuf, uint32_t at) {
    struct rte_mbuf *segment = segment_of(mbuf, &at);
    if (rte_mbuf_refcnt_read(segment) > 1)
        return true;
    if (RTE_MBUF_CLONED(segment))
        return rte_mbuf_refcnt_read(rte_mbuf_from_indirect(segment)) > 1;
    return RTE_MBUF_HAS_EXTBUF(segment) && rte_mbuf_ext_refcnt_read(segment->shinfo) > 1;
}

bool stage_packet_is_shared_anywhere(const struct rte_mbuf *mbuf, const struct stage_packet *packet) {
    uint32_t field = packet->header + 1u, checksum = packet->header + (uint32_t)CHECKSUM;
    return is_held_by_others(mbuf, field) ||
           (packet->version == 4 && (is_held_by_others(mbuf, checksum) || is_held_by_others(mbuf, checksum + 1)));
}

/* Returns the checksum of a header after a 16-bit word was changed from `before` to `after` (RFC 1624, section 3). */
static uint16_t mended(uint16_t checksum, uint16_t before, uint16_t after) {
    uint32_t sum = (uint32_t)(uint16_t)~checksum + (uint16_t)~before + after;
    sum = (sum & 0xffff) + (sum >> 16);
    sum = (sum & 0xffff) + (sum >> 16);
    return (uint16_t)~sum;
}

void stage_packet_mark(struct rte_mbuf *mbuf, const struct stage_packet *packet) {
    uint8_t *field = byte_at(mbuf, packet->header + 1u);
    if (packet->version == 6) {
        *field |= PIE_CE << 4;
        return;
    }
    uint8_t *high = byte_at(mbuf, packet->header + (uint32_t)CHECKSUM), *low = byte_at(mbuf, packet->header + CHECKSUM + 1u);
    uint8_t before = *field;
    *field |= PIE_CE;
    if (mbuf->ol_flags & RTE_MBUF_F_TX_IP_CKSUM)
        return;
    uint16_t checksum = mended((uint16_t)(*high << 8 | *low), before, *field);
    *high = (uint8_t)(checksum >> 8);
    *low = (uint8_t)checksum;
}

/* The ECN field of a frame: its place, its values, and how to set it (RFC 3168, section 5; RFC 8200, section 7). */
#ifndef STAGE_PACKET_H
#define STAGE_PACKET_H

#include <rte_branch_prediction.h>
#include <rte_byteorder.h>
#include <rte_mbuf.h>
#include <stdbool.h>
#include <stdint.h>
#include <string.h>

struct stage_packet {
    uint16_t header; /* the offset of the outermost IP header in the frame, in bytes */
    uint8_t version; /* 4 or 6; 0 without an IP header */
    uint8_t ecn;     /* the ECN field; PIE_NOT_ECT without an IP header */
};

#define STAGE_ETHERNET 14 /* bytes of the Ethernet header */
#define STAGE_IPV4 20     /* bytes of an IPv4 header without options */

/* Do what stage_packet_look and stage_packet_is_shared do, for frames in any number of segments. */
struct stage_packet stage_packet_look_anywhere(const struct rte_mbuf *mbuf);
bool stage_packet_is_shared_anywhere(const struct rte_mbuf *mbuf, const struct stage_packet *packet);

/* Returns true for the usual frame, IPv4 without VLAN tags and options, and sets its ECN field. */
static inline bool stage_packet_is_usual(const struct rte_mbuf *mbuf, uint32_t *ecn) {
    rte_be32_t word;
    if (unlikely(rte_pktmbuf_data_len(mbuf) < STAGE_ETHERNET + STAGE_IPV4))
        return false;
    memcpy(&word, rte_pktmbuf_mtod_offset(mbuf, const uint8_t *, STAGE_ETHERNET - 2), sizeof word);
    *ecn = rte_be_to_cpu_32(word) & 3;
    return likely((word & rte_cpu_to_be_32(0xffffff00)) == rte_cpu_to_be_32(0x08004500));
}

/* Finds the IP header of an Ethernet frame after up to four VLAN tags, also if it crosses segments. */
static inline struct stage_packet stage_packet_look(const struct rte_mbuf *mbuf) {
    uint32_t ecn;
    return stage_packet_is_usual(mbuf, &ecn) ? (struct stage_packet){STAGE_ETHERNET, 4, (uint8_t)ecn} : stage_packet_look_anywhere(mbuf);
}

/* Returns true if no other mbuf shares any bytes of a frame in one segment. */
static inline bool stage_packet_is_alone(const struct rte_mbuf *mbuf) {
    return likely(mbuf->nb_segs == 1 && rte_mbuf_refcnt_read(mbuf) == 1 && RTE_MBUF_DIRECT(mbuf));
}

/* Returns true if another mbuf shares the bytes that a mark changes. */
static inline bool stage_packet_is_shared(const struct rte_mbuf *mbuf, const struct stage_packet *packet) {
    return !stage_packet_is_alone(mbuf) && stage_packet_is_shared_anywhere(mbuf, packet);
}

/* Sets the field to CE. Corrects the checksum of IPv4, unless the card computes it (RTE_MBUF_F_TX_IP_CKSUM). */
void stage_packet_mark(struct rte_mbuf *mbuf, const struct stage_packet *packet);

#endif

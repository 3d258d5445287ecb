/* Packets, lists of them, and the ECN field of their IP headers. */
#ifndef LINK_PACKET_H
#define LINK_PACKET_H

#include <stddef.h>
#include <stdint.h>

struct packet {
    struct packet *next;
    uint64_t tag;     /* number in the order of arrivals; with flows, the flow's number in the upper 32 bits */
    uint64_t moment;  /* moment of the arrival, later of the departure, in ns */
    uint64_t arrived; /* the controller's moment right after the arrival */
    uint32_t length;  /* number of `bytes` */
    uint32_t size;    /* bytes on the link */
    uint32_t ecn;     /* ECN field; PIE_CE after a mark */
    uint8_t bytes[];
};

/* A list of packets, the oldest first. */
struct packets {
    struct packet *first, *last;
    uint32_t count;
    uint64_t bytes;
};

/* Returns a packet with a copy of these bytes and this size on the link; NULL if there is no
 * memory. */
struct packet *packet_of(const uint8_t *bytes, uint32_t length);

void push(struct packets *packets, struct packet *packet);

/* Removes the oldest packet and returns it; NULL if there is none. */
struct packet *pop(struct packets *packets);

void free_all(struct packets *packets);

/* Returns the ECN field (RFC 3168, section 5) of an IPv4 or IPv6 packet; Not-ECT for any other
 * bytes. */
uint32_t ecn_of(const uint8_t *bytes, size_t size);

/* Sets the ECN field of an IPv4 or IPv6 packet to CE. Corrects the checksum of an IPv4 header (RFC 1624). */
void set_ce(uint8_t *bytes, size_t size);

#endif

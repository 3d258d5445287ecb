#include "packet.h"

#include <stdlib.h>
#include <string.h>

#define IPV4_HEADER 20 /* bytes, without options */
#define IPV6_HEADER 40
#define CHECKSUM 10 /* offset of the checksum in an IPv4 header */
#define CE 3u

struct packet *packet_of(const uint8_t *bytes, uint32_t length) {
    struct packet *packet = calloc(1, sizeof *packet + length);
    if (packet != NULL) {
        packet->length = packet->size = length;
        memcpy(packet->bytes, bytes, length);
    }
    return packet;
}

void push(struct packets *packets, struct packet *packet) {
    packet->next = NULL;
    if (packets->first == NULL)
        packets->first = packet;
    else
        packets->last->next = packet;
    packets->last = packet;
    packets->count++;
    packets->bytes += packet->size;
}

struct packet *pop(struct packets *packets) {
    struct packet *packet = packets->first;
    if (packet == NULL)
        return NULL;
    packets->first = packet->next;
    packets->count--;
    packets->bytes -= packet->size;
    return packet;
}

void free_all(struct packets *packets) {
    for (struct packet *packet = pop(packets); packet != NULL; packet = pop(packets))
        free(packet);
}

static int is_ipv4(const uint8_t *bytes, size_t size) {
    return size >= IPV4_HEADER && bytes[0] >> 4 == 4;
}

static int is_ipv6(const uint8_t *bytes, size_t size) {
    return size >= IPV6_HEADER && bytes[0] >> 4 == 6;
}

static uint16_t word_at(const uint8_t *bytes) {
    return (uint16_t)(bytes[0] << 8 | bytes[1]);
}

/* One 16-bit word of the header was changed: the new checksum is the complement of ~checksum + ~before + after, in ones'
 * complement. */
static void mend_checksum(uint8_t *header, uint16_t before, uint16_t after) {
    uint32_t sum = (uint16_t)~word_at(header + CHECKSUM);
    sum += (uint16_t)~before;
    sum += after;
    sum = (sum & 0xffff) + (sum >> 16);
    sum = (sum & 0xffff) + (sum >> 16);
    uint16_t checksum = (uint16_t)~sum;
    header[CHECKSUM] = (uint8_t)(checksum >> 8);
    header[CHECKSUM + 1] = (uint8_t)checksum;
}

/* The field is the low end of the second byte in IPv4; in IPv6 the traffic class lies across the first two. */
uint32_t ecn_of(const uint8_t *bytes, size_t size) {
    if (is_ipv4(bytes, size))
        return bytes[1] & CE;
    if (is_ipv6(bytes, size))
        return bytes[1] >> 4 & CE;
    return 0;
}

void set_ce(uint8_t *bytes, size_t size) {
    if (is_ipv4(bytes, size)) {
        uint16_t before = word_at(bytes);
        bytes[1] |= CE;
        mend_checksum(bytes, before, word_at(bytes));
    } else if (is_ipv6(bytes, size)) {
        bytes[1] |= (uint8_t)(CE << 4);
    }
}

/* Captures: the IP packet in a frame, and a capture written as pcapng, with comments. */
#ifndef REPLAY_CAPTURE_H
#define REPLAY_CAPTURE_H

#include <pcap/pcap.h>
#include <stdbool.h>
#include <stddef.h>
#include <stdint.h>
#include <stdio.h>

struct ip_packet {
    const uint8_t *bytes; /* the packet, from its IP header on */
    size_t caught;        /* number of captured bytes */
    uint32_t size;    /* size by the IP header; by the frame if the header of a super-packet has no length */
    uint32_t headers; /* bytes of the IP and the TCP or UDP header */
    uint32_t ecn;     /* the ECN field (RFC 3168, section 5) */
};

/* The kind of a frame. */
enum { FRAME_IP, FRAME_OTHER, FRAME_CUT, FRAME_WRONG };

/* Returns true if frames of this link type (DLT_ of libpcap) can be read. */
bool is_known_link(int link);

/* Reads a frame of `length` bytes, of which `caught` were captured. Returns FRAME_IP. Errors: FRAME_OTHER if the frame
 * contains no IP packet, FRAME_CUT if length and ECN field were not captured, FRAME_WRONG if the lengths in the header
 * are impossible. */
int read_frame(int link, const uint8_t *bytes, size_t caught, size_t length, struct ip_packet *packet);

/* ---- a capture with comments */

#define LONGEST_COMMENT 1024 /* bytes */

/* Writes the header before the frames: one section, one interface of this link type (DLT_ of libpcap), times in
 * nanoseconds. */
bool write_interface(FILE *file, int link, uint32_t longest);

/* Writes a frame of this moment, in ns since 1970, with a comment unless that is empty. */
bool write_frame(FILE *file, const struct pcap_pkthdr *header, uint64_t moment, const uint8_t *bytes, const char *comment);

#endif

/* Flows of packets: a flow's number, which is in the upper 32 bits of a packet's tag, and a file that lists the
 * flow of each number, in the format of docs/FORMATS.md. A flow is identified by addresses, protocol and ports;
 * fragments, and protocols without ports, by addresses and protocol. */
#ifndef SHARED_FLOW_H
#define SHARED_FLOW_H

#include <stdbool.h>
#include <stddef.h>
#include <stdint.h>
#include <stdio.h>

#ifdef __cplusplus
extern "C" {
#endif

#define MOST_FLOWS 262144         /* the most flows in the file */
#define FLOW_PLACES 524288        /* size of the hash table: a power of two */
#define FLOW_PERIOD 500000000     /* length of an interval in ns; its flow with the most bytes is reported */
#define FLOW_BYTES 256            /* bytes of a packet that are enough to identify its flow, except with rare long
                                     extension headers */
#define LONGEST_FLOW 128          /* bytes of a flow in words, with the terminating 0 */

struct flow {
    uint8_t source[16], destination[16]; /* addresses as in the packet; IPv4: the first four bytes */
    uint16_t source_port, destination_port;
    uint8_t version, protocol; /* version 4 or 6; for IPv6 the protocol after the extension headers */
    bool has_ports;
};

/* Reads the beginning of a packet from its IP header on. Returns false if it has none. */
bool read_flow(const uint8_t *bytes, size_t size, struct flow *flow);

/* Returns a flow's number: a hash of its identification. Two flows may have the same number. */
uint32_t flow_number(const struct flow *flow);

/* Writes the flow in words, such as udp 192.0.2.1:53 > 198.51.100.7:4242. */
void flow_words(const struct flow *flow, char words[LONGEST_FLOW]);

/* The flow with the most bytes of an interval. */
struct flow_top {
    uint64_t period;       /* number of the interval, counted from 0 */
    uint32_t place;        /* row of the flow */
    uint64_t bytes, total; /* arrived bytes of the flow, and of all flows */
};

struct flow_row {
    struct flow flow;
    uint32_t number;
    uint64_t period, bytes; /* the last interval with a packet of the flow, and its bytes in that interval */
};

/* All flows. One thread adds flows, and the same or another thread writes them. */
struct flows {
    FILE *file;           /* the caller's; NULL if flows are not requested */
    uint32_t *places;     /* hash table of row numbers, counted from 1; 0: free */
    struct flow_row *rows;
    uint32_t count;       /* number of rows: stored after a row was added, loaded before rows are written */
    uint32_t written;
    uint64_t missing;     /* packets of flows without a row, after MOST_FLOWS flows */
    struct flow_top top;  /* of the present interval */
};

/* Begins a list of flows in this file (NULL: none), and writes its header. Returns false if that fails. */
bool open_flows(struct flows *flows, FILE *file);

/* Counts a packet of this many bytes on the wire, which arrives at this moment in ns and begins with its IP header.
 * Returns the tag: the flow's number, 0 without an IP header, above the lower 32 bits of the counter. Without a
 * file the counter is the tag. If an interval with packets ended before this packet, `ended` receives its arrivals;
 * otherwise its total is 0. */
uint64_t note_flow(struct flows *flows, const uint8_t *bytes, size_t caught, uint32_t size, uint64_t moment, uint64_t counter,
                   struct flow_top *ended);

/* Writes the flows that are new since the last call. */
void write_flows(struct flows *flows);

/* Writes the rest; the caller closes the file. Returns false if a write failed. */
bool close_flows(struct flows *flows);

#ifdef __cplusplus
}
#endif

#endif

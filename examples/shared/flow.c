#include "flow.h"

#include <arpa/inet.h>
#include <inttypes.h>
#include <stdlib.h>
#include <string.h>

enum { IPV4_HEADER = 20, IPV6_HEADER = 40, FRAGMENT_HEADER = 8, PORTS = 4, MOST_EXTENSIONS = 8 };
enum { HOP_BY_HOP = 0, TCP = 6, UDP = 17, DCCP = 33, ROUTING = 43, FRAGMENT = 44, AUTHENTICATION = 51, OPTIONS = 60, SCTP = 132, UDPLITE = 136 };

static bool begins_with_ports(uint8_t protocol) {
    return protocol == TCP || protocol == UDP || protocol == SCTP || protocol == DCCP || protocol == UDPLITE;
}

/* Reads the ports of a packet that is no fragment, if they were captured. */
static void read_ports(const uint8_t *bytes, size_t size, size_t at, struct flow *flow) {
    if (!begins_with_ports(flow->protocol) || size < at + PORTS)
        return;
    flow->has_ports = true;
    flow->source_port = (uint16_t)(bytes[at] << 8 | bytes[at + 1]);
    flow->destination_port = (uint16_t)(bytes[at + 2] << 8 | bytes[at + 3]);
}

static bool read_ipv4(const uint8_t *bytes, size_t size, struct flow *flow) {
    size_t header = (size_t)(bytes[0] & 15) * 4;
    if (size < IPV4_HEADER || header < IPV4_HEADER)
        return false;
    bool is_fragment = ((bytes[6] & 0x3f) | bytes[7]) != 0; /* more follow, or it isn't the first */
    flow->protocol = bytes[9];
    memcpy(flow->source, bytes + 12, 4);
    memcpy(flow->destination, bytes + 16, 4);
    if (!is_fragment)
        read_ports(bytes, size, header, flow);
    return true;
}

/* Skips the extension headers (RFC 8200, section 4) before the header of the packet's protocol. */
static bool read_ipv6(const uint8_t *bytes, size_t size, struct flow *flow) {
    size_t at = IPV6_HEADER;
    if (size < IPV6_HEADER)
        return false;
    flow->protocol = bytes[6];
    memcpy(flow->source, bytes + 8, 16);
    memcpy(flow->destination, bytes + 24, 16);
    for (int i = 0; i < MOST_EXTENSIONS && size >= at + 2; i++) {
        const uint8_t next = bytes[at], length = bytes[at + 1];
        if (flow->protocol == FRAGMENT) {
            flow->protocol = next;
            return true;
        }
        if (flow->protocol == AUTHENTICATION)
            at += ((size_t)length + 2) * 4;
        else if (flow->protocol == HOP_BY_HOP || flow->protocol == ROUTING || flow->protocol == OPTIONS)
            at += ((size_t)length + 1) * 8;
        else
            break;
        flow->protocol = next;
    }
    read_ports(bytes, size, at, flow);
    return true;
}

bool read_flow(const uint8_t *bytes, size_t size, struct flow *flow) {
    memset(flow, 0, sizeof *flow); /* also the padding: flows are compared as bytes */
    flow->version = size != 0 ? bytes[0] >> 4 : 0;
    if (flow->version == 4)
        return read_ipv4(bytes, size, flow);
    return flow->version == 6 && read_ipv6(bytes, size, flow);
}

static uint32_t turned(uint32_t word, int bits) {
    return word << bits | word >> (32 - bits);
}

/* MurmurHash3 (x86, 32 bits) of a whole number of words, as far as its last step. */
static uint32_t hashed(uint32_t hash, const uint8_t *bytes, size_t count) {
    for (size_t i = 0; i < count; i += 4) {
        uint32_t word = (uint32_t)bytes[i] | (uint32_t)bytes[i + 1] << 8 | (uint32_t)bytes[i + 2] << 16 | (uint32_t)bytes[i + 3] << 24;
        hash ^= turned(word * UINT32_C(0xcc9e2d51), 15) * UINT32_C(0x1b873593);
        hash = turned(hash, 13) * 5 + UINT32_C(0xe6546b64);
    }
    return hash;
}

/* MurmurHash3 of both addresses and, if there are ports, both ports, in the packet's byte order; the protocol is
 * its seed. */
uint32_t flow_number(const struct flow *flow) {
    const uint32_t address = flow->version == 4 ? 4 : 16, size = 2 * address + (flow->has_ports ? PORTS : 0);
    const uint8_t ports[PORTS] = {(uint8_t)(flow->source_port >> 8), (uint8_t)flow->source_port, (uint8_t)(flow->destination_port >> 8),
                                  (uint8_t)flow->destination_port};
    uint32_t hash = hashed(hashed(flow->protocol, flow->source, address), flow->destination, address);
    hash = hashed(hash, ports, flow->has_ports ? PORTS : 0) ^ size;
    hash = (hash ^ hash >> 16) * UINT32_C(0x85ebca6b);
    hash = (hash ^ hash >> 13) * UINT32_C(0xc2b2ae35);
    return hash ^ hash >> 16;
}

/* Returns the IANA name of a protocol if it is a frequent one, otherwise its number. */
static const char *protocol_text(uint8_t protocol, char text[4]) {
    switch (protocol) {
    case 1: return "icmp";
    case TCP: return "tcp";
    case UDP: return "udp";
    case 50: return "esp";
    case 58: return "ipv6-icmp";
    case SCTP: return "sctp";
    default: snprintf(text, 4, "%u", protocol); return text;
    }
}

static const char *address_text(const struct flow *flow, const uint8_t *address, char text[INET6_ADDRSTRLEN]) {
    return inet_ntop(flow->version == 4 ? AF_INET : AF_INET6, address, text, INET6_ADDRSTRLEN) != NULL ? text : "";
}

void flow_words(const struct flow *flow, char words[LONGEST_FLOW]) {
    char protocol[4], source[INET6_ADDRSTRLEN], destination[INET6_ADDRSTRLEN];
    const char *open = flow->version == 6 ? "[" : "", *close = flow->version == 6 ? "]" : "";
    protocol_text(flow->protocol, protocol);
    address_text(flow, flow->source, source);
    address_text(flow, flow->destination, destination);
    if (flow->has_ports)
        snprintf(words, LONGEST_FLOW, "%s %s%s%s:%u > %s%s%s:%u", protocol_text(flow->protocol, protocol), open, source, close, flow->source_port,
                 open, destination, close, flow->destination_port);
    else
        snprintf(words, LONGEST_FLOW, "%s %s > %s", protocol_text(flow->protocol, protocol), source, destination);
}

bool open_flows(struct flows *flows, FILE *file) {
    flows->file = NULL;
    if (file == NULL)
        return true;
    flows->places = calloc(FLOW_PLACES, sizeof *flows->places);
    flows->rows = calloc(MOST_FLOWS, sizeof *flows->rows);
    if (flows->places == NULL || flows->rows == NULL)
        return false;
    flows->file = file;
    return fputs("flow,protocol,source,source_port,destination,destination_port\n", flows->file) >= 0 &&
           fflush(flows->file) == 0;
}

/* Returns the row of a flow, a new one if it has none; NULL if there is no room. */
static struct flow_row *row_of(struct flows *flows, const struct flow *flow, uint32_t number) {
    uint32_t place = number % FLOW_PLACES, count = flows->count;
    for (; flows->places[place] != 0; place = (place + 1) % FLOW_PLACES) {
        struct flow_row *row = &flows->rows[flows->places[place] - 1];
        if (row->number == number && memcmp(&row->flow, flow, sizeof *flow) == 0)
            return row;
    }
    if (count == MOST_FLOWS)
        return NULL;
    flows->rows[count] = (struct flow_row){.flow = *flow, .number = number};
    flows->places[place] = count + 1;
    __atomic_store_n(&flows->count, count + 1, __ATOMIC_RELEASE);
    return &flows->rows[count];
}

/* Adds bytes to this flow in its interval. */
static void count_bytes(struct flows *flows, struct flow_row *row, uint32_t size, uint64_t period, struct flow_top *ended) {
    struct flow_top *top = &flows->top;
    if (period != top->period) {
        *ended = *top;
        *top = (struct flow_top){.period = period};
    }
    if (row->period != period || row->bytes == 0) {
        row->period = period;
        row->bytes = 0;
    }
    row->bytes += size;
    top->total += size;
    if (row->bytes >= top->bytes) {
        top->bytes = row->bytes;
        top->place = (uint32_t)(row - flows->rows);
    }
}

uint64_t note_flow(struct flows *flows, const uint8_t *bytes, size_t caught, uint32_t size, uint64_t moment, uint64_t counter,
                   struct flow_top *ended) {
    struct flow flow;
    ended->total = 0;
    if (flows->file == NULL)
        return counter;
    if (!read_flow(bytes, caught, &flow))
        return counter & UINT32_MAX;
    uint32_t number = flow_number(&flow);
    struct flow_row *row = row_of(flows, &flow, number);
    if (row != NULL)
        count_bytes(flows, row, size, moment / FLOW_PERIOD, ended);
    else
        flows->missing++;
    return (uint64_t)number << 32 | (counter & UINT32_MAX);
}

static void write_row(FILE *file, const struct flow_row *row) {
    const struct flow *flow = &row->flow;
    char protocol[4], source[INET6_ADDRSTRLEN], destination[INET6_ADDRSTRLEN], ports[2][6] = {"", ""};
    if (flow->has_ports) {
        snprintf(ports[0], sizeof ports[0], "%u", flow->source_port);
        snprintf(ports[1], sizeof ports[1], "%u", flow->destination_port);
    }
    fprintf(file, "0x%08" PRIx32 ",%s,%s,%s,%s,%s\n", row->number, protocol_text(flow->protocol, protocol),
            address_text(flow, flow->source, source), ports[0], address_text(flow, flow->destination, destination), ports[1]);
}

void write_flows(struct flows *flows) {
    uint32_t count = flows->file != NULL ? __atomic_load_n(&flows->count, __ATOMIC_ACQUIRE) : 0;
    if (flows->written >= count)
        return;
    for (; flows->written < count; flows->written++)
        write_row(flows->file, &flows->rows[flows->written]);
    fflush(flows->file);
}

bool close_flows(struct flows *flows) {
    if (flows->file == NULL)
        return true;
    write_flows(flows);
    bool is_written = fflush(flows->file) == 0 && !ferror(flows->file);
    flows->file = NULL;
    free(flows->places);
    free(flows->rows);
    return is_written;
}

#include "capture.h"

#include <pcap/dlt.h>
#include <string.h>

enum { TYPE_IPV4 = 0x0800, TYPE_IPV6 = 0x86dd, TYPE_VLAN = 0x8100, TYPE_SERVICE_VLAN = 0x88a8, TYPE_OLD_VLAN = 0x9100 };
enum { PROTOCOL_TCP = 6, PROTOCOL_UDP = 17 };
enum { IPV4_HEADER = 20, IPV6_HEADER = 40, TCP_HEADER = 20, UDP_HEADER = 8, VLAN_TAG = 4 };

/* For each link type: the position of the type of its payload, and the length of its header. */
static const struct link_header {
    int link;
    size_t type_at, size;
} links[] = {
    {DLT_EN10MB, 12, 14},  {DLT_LINUX_SLL, 14, 16}, {DLT_LINUX_SLL2, 0, 20}, {DLT_RAW, 0, 0},
    {DLT_IPV4, 0, 0},      {DLT_IPV6, 0, 0},
};

static const struct link_header *header_of(int link) {
    for (size_t i = 0; i < sizeof links / sizeof links[0]; i++)
        if (links[i].link == link)
            return &links[i];
    return NULL;
}

bool is_known_link(int link) {
    return header_of(link) != NULL;
}

static uint32_t two_bytes(const uint8_t *bytes) {
    return (uint32_t)bytes[0] << 8 | bytes[1];
}

static bool is_vlan(uint32_t type) {
    return type == TYPE_VLAN || type == TYPE_SERVICE_VLAN || type == TYPE_OLD_VLAN;
}

/* Returns the size of the header after the IP header. For TCP it is in the header's length field, if that was
 * captured. */
static uint32_t transport_header(uint32_t protocol, const uint8_t *bytes, size_t caught) {
    if (protocol == PROTOCOL_UDP)
        return UDP_HEADER;
    if (protocol != PROTOCOL_TCP)
        return 0;
    uint32_t stated = caught > 12 ? (bytes[12] >> 4) * 4u : TCP_HEADER;
    return stated < TCP_HEADER ? TCP_HEADER : stated;
}

static int read_ipv4(const uint8_t *bytes, size_t caught, size_t length, struct ip_packet *packet) {
    if (length < IPV4_HEADER)
        return FRAME_WRONG;
    if (caught < IPV4_HEADER)
        return FRAME_CUT;
    uint32_t header = (bytes[0] & 15u) * 4, total = two_bytes(bytes + 2);
    bool is_first = (two_bytes(bytes + 6) & 0x1fff) == 0;
    if (total == 0)
        total = (uint32_t)length;
    if (header < IPV4_HEADER || total < header || total > length)
        return FRAME_WRONG;
    size_t behind = caught > header ? caught - header : 0;
    packet->size = total;
    packet->ecn = bytes[1] & 3;
    packet->headers = header + (is_first ? transport_header(bytes[9], bytes + header, behind) : 0);
    return FRAME_IP;
}

static int read_ipv6(const uint8_t *bytes, size_t caught, size_t length, struct ip_packet *packet) {
    if (length < IPV6_HEADER)
        return FRAME_WRONG;
    if (caught < IPV6_HEADER)
        return FRAME_CUT;
    uint32_t payload = two_bytes(bytes + 4);
    if (payload == 0)
        payload = (uint32_t)length - IPV6_HEADER;
    if (payload + IPV6_HEADER > length)
        return FRAME_WRONG;
    packet->size = payload + IPV6_HEADER;
    packet->ecn = bytes[1] >> 4 & 3;
    packet->headers = IPV6_HEADER + transport_header(bytes[6], bytes + IPV6_HEADER, caught - IPV6_HEADER);
    return FRAME_IP;
}

int read_frame(int link, const uint8_t *bytes, size_t caught, size_t length, struct ip_packet *packet) {
    const struct link_header *header = header_of(link);
    size_t at = header->size;
    if (caught > length)
        return FRAME_WRONG;
    if (caught < at + 1)
        return FRAME_CUT;
    uint32_t type = at == 0 ? (bytes[0] >> 4 == 4 ? TYPE_IPV4 : bytes[0] >> 4 == 6 ? TYPE_IPV6 : 0) : two_bytes(bytes + header->type_at);
    while (is_vlan(type)) {
        if (caught < at + VLAN_TAG + 1)
            return FRAME_CUT;
        type = two_bytes(bytes + at + 2);
        at += VLAN_TAG;
    }
    packet->bytes = bytes + at;
    packet->caught = caught - at;
    if (type == TYPE_IPV4 && bytes[at] >> 4 == 4)
        return read_ipv4(bytes + at, caught - at, length - at, packet);
    if (type == TYPE_IPV6 && bytes[at] >> 4 == 6)
        return read_ipv6(bytes + at, caught - at, length - at, packet);
    return type == TYPE_IPV4 || type == TYPE_IPV6 ? FRAME_WRONG : FRAME_OTHER;
}

/* ---- a capture with comments */

/* Numbers of the pcapng format (draft-ietf-opsawg-pcapng), in this machine's order of bytes, as the format allows. */
enum { SECTION = 0x0a0d0d0a, INTERFACE = 1, PACKET = 6, MAGIC = 0x1a2b3c4d };
enum { OPTION_END = 0, OPTION_COMMENT = 1, OPTION_RESOLUTION = 9 };
enum { LINK_RAW = 101 }; /* DLT_RAW has another number in files */

static uint32_t padded(size_t size) {
    return (uint32_t)(size + 3) / 4 * 4;
}

static bool put(FILE *file, const void *bytes, size_t size) {
    static const uint8_t padding[4];
    size_t rest = padded(size) - size;
    return fwrite(bytes, 1, size, file) == size && fwrite(padding, 1, rest, file) == rest;
}

/* An option's code and length, then its bytes. */
static bool put_option(FILE *file, uint16_t code, const void *bytes, size_t size) {
    uint16_t words[2] = {code, (uint16_t)size};
    return put(file, words, sizeof words) && put(file, bytes, size);
}

bool write_interface(FILE *file, int link, uint32_t longest) {
    const uint8_t resolution = 9; /* 10^-9 s */
    const uint32_t section[] = {SECTION, 28, MAGIC, 1, UINT32_MAX, UINT32_MAX, 28};
    const uint32_t size = 4 * 8;
    const uint32_t interface[] = {INTERFACE, size, link == DLT_RAW ? LINK_RAW : (uint32_t)link, longest};
    return put(file, section, sizeof section) && put(file, interface, sizeof interface) &&
           put_option(file, OPTION_RESOLUTION, &resolution, 1) && put_option(file, OPTION_END, "", 0) && put(file, &size, sizeof size);
}

bool write_frame(FILE *file, const struct pcap_pkthdr *header, uint64_t moment, const uint8_t *bytes, const char *comment) {
    size_t length = strlen(comment);
    uint32_t size = 32 + padded(header->caplen) + (length != 0 ? 8 + padded(length) : 0);
    const uint32_t words[] = {PACKET, size, 0, (uint32_t)(moment >> 32), (uint32_t)moment, header->caplen, header->len};
    bool is_put = put(file, words, sizeof words) && put(file, bytes, header->caplen);
    if (length != 0)
        is_put = is_put && put_option(file, OPTION_COMMENT, comment, length) && put_option(file, OPTION_END, "", 0);
    return is_put && put(file, &size, sizeof size);
}
